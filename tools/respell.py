#!/usr/bin/env python3
"""Respells this repository's own definitions, lemmas and fields by the table respelled.tsv beside this file: words in snake case, a dash only between
two names. It turns whole names in the code of .antt and .rt files, in code spans of their comments, and in must-fail edits.

usage: respell.py [FOLDER]     FOLDER is the top of a checkout (default: the current one)
"""
import os
import re
import sys

HERE = os.path.dirname(os.path.realpath(__file__))
NAME = re.compile(r'[^\s(){}.;,@"«»⟦⟧`]+')
SPAN = re.compile(r"`[^`\n]*`")
# The only name of the table's new spellings that another lemma had: that lemma gives way.
EXTRA = {"crates/demand_calls/proofs/RefusalKept.antt": {"not_opened": "not_opened_lem"}}


def table():
    with open(os.path.join(HERE, "respelled.tsv"), encoding="utf-8") as it:
        return dict(line.rstrip("\n").split("\t") for line in it)


def turned(code, names):
    return NAME.sub(lambda m: names.get(m[0], m[0]), code)


def line_turned(line, names, comment):
    at = re.search(comment, line)
    code, rest = (line[: at.start()], line[at.start() :]) if at else (line, "")
    return turned(code, names) + SPAN.sub(lambda m: turned(m[0], names), rest)


def main():
    top = sys.argv[1] if len(sys.argv) > 1 else "."
    names = table()
    for folder, folders, files in os.walk(os.path.join(top, "crates")):
        folders[:] = sorted(it for it in folders if it != "out")
        for file in sorted(files):
            path = os.path.join(folder, file)
            if not file.endswith((".antt", ".rt", ".edit")):
                continue
            with open(path, encoding="utf-8") as it:
                text = it.read()
            own = {**names, **EXTRA.get(os.path.relpath(path, top), {})}
            lines = []
            for line in text.split("\n"):
                if file.endswith(".edit"):
                    lines.append(turned(line, own) if line.startswith(("old:", "new:")) else line_turned(line, own, r"^#"))
                else:
                    lines.append(line_turned(line, own, r"(^|(?<=\s))--(?=\s|$)" if file.endswith(".antt") else r"//"))
            new = "\n".join(lines)
            if new != text:
                with open(path, "w", encoding="utf-8") as it:
                    it.write(new)


if __name__ == "__main__":
    main()
