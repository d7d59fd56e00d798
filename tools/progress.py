#!/usr/bin/env python3
"""Runs rt, keeps what it prints in a file, and shows how far it is.

    progress.py LOG rt ci NAME...
    progress.py --plain LOG rt ci

On a terminal one line moves: the crates and edits that are done, the time, and about how much is left. Elsewhere a
line is printed each minute; with --plain everything that rt prints but its last line, which is left for the end of
`make test`. Where rt fails, what failed is printed from the log. The exit status is rt's.
"""
import os
import pathlib
import re
import select
import subprocess
import sys
import time

ROOT = pathlib.Path(__file__).resolve().parent.parent
DONE = re.compile(r"rt: (?:must-fail (?P<edit>\S+)/\S+: |(?P<crate>\w+) (?:NOT )?(?:proved|PROVED))")
FAILED = re.compile(r"rt: .*(NOT PROVED|NOT REFUSED|BAD EDIT|FAILED)|rt: in no crate")


def planned(names):
    """The crates that rt is to prove: the named ones and what they use, or all."""
    uses = {}
    for line in (ROOT / "crates.txt").read_text(encoding="utf-8").splitlines():
        if line and not line.startswith("#"):
            crate, used = line.replace(" staticlib:", ":").split(":")
            uses[crate] = used.split()
    todo, found = list(names or uses), set()
    while todo:
        crate = todo.pop()
        if crate in uses and crate not in found:
            found.add(crate)
            todo += uses[crate]
    return found


def minutes(seconds):
    return f"{int(seconds) // 60} min {int(seconds) % 60:02} s"


class Progress:
    def __init__(self, command):
        crates = planned(command[2:])
        edits = [e for c in crates for e in (ROOT / "crates" / c / "must-fail").glob("*.edit")]
        self.crates, self.edits = len(crates), len(edits) if command[1] in ("ci", "must-fail") else 0
        self.crate = self.edit = self.worked = 0
        self.start, self.said = time.monotonic(), time.monotonic()

    def take(self, line):
        done = DONE.match(line)
        if done:
            self.crate, self.edit = self.crate + (not done["edit"]), self.edit + bool(done["edit"])
            self.worked += "(unchanged since" not in line  # those take no time, and say nothing of what is left

    def __str__(self):
        took = time.monotonic() - self.start
        words = f"crate {self.crate} of {self.crates}"
        if self.edits:
            words += f", edit {self.edit} of {self.edits}"
        words += f", {minutes(took)}"
        left = (self.crates + self.edits - self.crate - self.edit) * took / self.worked if self.worked >= 5 else 0
        return words + (f", about {left / 60:.0f} min left" if left >= 60 else "")

    def show(self, terminal):
        if terminal:
            sys.stdout.write(f"\r{self}\033[K")
            sys.stdout.flush()
        elif time.monotonic() - self.said >= 60:
            self.said = time.monotonic()
            print(self, flush=True)


def what_failed(log):
    """The lines before the first failure, each failure, and the end of the log."""
    lines = log.read_text(encoding="utf-8", errors="replace").splitlines()
    found = [i for i, line in enumerate(lines) if FAILED.match(line)]
    first = found[0] if found else len(lines)
    shown = {*range(first - 30, first + 1), *found, *range(len(lines) - 3, len(lines))}
    return [lines[i] for i in sorted(shown) if 0 <= i < len(lines)]


def main(words):
    sys.stdout.reconfigure(errors="replace")
    plain = words[0] == "--plain"
    log, command = pathlib.Path(words[plain]), words[plain + 1:]
    terminal = sys.stdout.isatty()
    plain = plain and not terminal
    progress = Progress(command)
    kept = None
    child = subprocess.Popen(command, stdout=subprocess.PIPE, stderr=subprocess.STDOUT)
    with log.open("wb") as out:
        rest = b""
        while True:
            ready = select.select([child.stdout], [], [], 1)[0]
            if ready:
                chunk = os.read(child.stdout.fileno(), 1 << 16)
                out.write(chunk)
                out.flush()
                if not chunk and not rest:
                    break
                *lines, rest = (rest + (chunk or b"\n")).split(b"\n")
                for line in (each.decode(errors="replace") for each in lines):
                    progress.take(line)
                    if plain and kept is not None:
                        print(kept, flush=True)
                    kept = line
            if not plain:
                progress.show(terminal)
    status = child.wait()
    if terminal:
        sys.stdout.write("\r\033[K")
    if not plain:
        print(f"{progress} ({log} has what {command[0]} {command[1]} printed)")
        print("\n".join(what_failed(log)) if status else "", end="\n" if status else "", flush=True)
    elif status != 0 and kept is not None:
        print(kept, flush=True)
    return status if status >= 0 else 128 - status


if __name__ == "__main__":
    try:
        sys.exit(main(sys.argv[1:]))
    except KeyboardInterrupt:
        sys.exit(130)
