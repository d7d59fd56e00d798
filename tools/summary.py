#!/usr/bin/env python3
"""What rt ci found, from its log: how many crates are proved and how many edits refused, by layer.

    summary.py LOG
"""
import pathlib
import re
import sys

ROOT = pathlib.Path(__file__).resolve().parent.parent
CRATE = re.compile(r"rt: (\w+) (?:proved$|is kept)")
EDIT = re.compile(r"rt: must-fail (\w+)/\S+: refused")


def layers():
    """The layer of each crate, from the headings of crates.txt."""
    layer, found = "", {}
    for line in (ROOT / "crates.txt").read_text(encoding="utf-8").splitlines():
        if line.startswith("# "):
            layer = line[2:].split(":")[0]
        elif line:
            found[line.split(":")[0].split()[0]] = layer
    return found


def main(log):
    crates, edits, layer_of = set(), [], layers()
    for line in log.read_text(encoding="utf-8", errors="replace").splitlines():
        if found := CRATE.match(line):
            crates.add(found[1])
        elif found := EDIT.match(line):
            edits.append(found[1])
    print("layer        crates  edits")
    for layer in dict.fromkeys(layer_of.values()):
        proved = sum(layer_of.get(c) == layer for c in crates)
        print(f"{layer:12} {proved:6} {sum(layer_of.get(e) == layer for e in edits):6}")


if __name__ == "__main__":
    main(pathlib.Path(sys.argv[1]))
