#!/usr/bin/env python3
"""Checks the documents, and prints a line with file and line number for each fault.

- Links within the repository lead to a file, and to a heading where they name one.
- Names in backticks resolve, but for docs/PORT.md and docs/DESIGN-PASS.md: a path is one of the repository, and a single word stands in its
  code, is a crate, or is the name of a file or an edit. `NAME_*` stands for all names that begin so. In indented blocks, names with an
  underscore and names of files resolve in the same way.
- docs/ARCHITECTURE.md has every crate.
- No file cites a paper that is neither here nor public.
- README's C block is a part of c/examples/read_object.c, line by line.
- The pictures are what their descriptions give.
- docs/PROMISES.md names every rule of docs/RULES.md and every must-fail edit (where PROMISES_NAME_ALL is True).
"""
import fnmatch
import os
import pathlib
import re
import sys

ROOT = pathlib.Path(__file__).resolve().parent.parent
sys.path.append(str(ROOT / "docs" / "pictures"))
sys.dont_write_bytecode = True
import draw  # noqa: E402

PROMISES_NAME_ALL = True
EXAMPLE = "c/examples/read_object.c"
# A numbered paper, with a line's end and a comment's mark between the two words or not.
PAPER = re.compile(r"\bdocuments?[\s/#*|-]+0*(?:[0-9]|90)\b(?!\.\d)", re.IGNORECASE)
# The pages that set older names beside today's.
OLDER = {"docs/PORT.md", "docs/DESIGN-PASS.md"}
# Names of tools, of other projects and of parts of a language, which no file here has to define.
FOREIGN = {"rt", "requires", "ensures", "ls", "sh", "git", "gcc", "bool", "struct", "enum", "lemma"}
CODE = (".rt", ".antt", ".c", ".h", ".sh", ".py", ".stdout", ".in", "crates.txt", "Makefile")
MADE = {"libpivsm.a", "libprimitives.a", "pivsm.pc", "out", "build"}


def files_here():
    """Every file of the repository, without what is built and git's own."""
    for folder, folders, names in os.walk(ROOT):
        folders[:] = sorted(set(folders) - {".git", "build", "out", "__pycache__"})
        for name in sorted(set(names) - {".git"}):
            yield str((pathlib.Path(folder) / name).relative_to(ROOT))


def line_of(text, index):
    return text.count("\n", 0, index) + 1


def prose(text):
    """The text with spaces for its indented and fenced blocks of code."""
    fenced, lines = False, []
    for line in text.split("\n"):
        if line.startswith("```"):
            fenced, line = not fenced, " " * len(line)
        lines.append(" " * len(line) if fenced or line.startswith("    ") else line)
    return "\n".join(lines)


def anchors(text):
    """The names by which a heading is linked to."""
    return {re.sub(r"[^\w\- ]", "", h.lower()).replace(" ", "-") for h in re.findall(r"^#+ (.*)$", text, re.MULTILINE)}


def bad_links(name, text):
    for link in re.finditer(r"\]\(([^)\s]+)\)", prose(text)):
        target, _, heading = link[1].partition("#")
        if re.match(r"[a-z]+:", target):
            continue
        file = ROOT / name if not target else (ROOT / name).parent / target
        if not file.exists():
            yield link.start(), f"no such file: {link[1]}"
        elif heading and heading not in anchors(file.read_text(encoding="utf-8")):
            yield link.start(), f"no such heading: {link[1]}"


class Names:
    """What a name in backticks may stand for."""

    def __init__(self, files):
        self.paths = set(files) | {str(p) for f in files for p in pathlib.PurePath(f).parents}
        self.in_crates = {p.split("/", 2)[2] for p in self.paths if p.startswith("crates/") and p.count("/") >= 2}
        self.stems = {pathlib.PurePath(f).stem for f in files}
        self.last = {p.rsplit("/", 1)[-1] for p in self.paths}
        self.words = set()
        for file in (f for f in files if f.endswith(CODE)):
            text = (ROOT / file).read_text(encoding="utf-8", errors="replace")
            self.words.update(re.findall(r"\w+", text))
            self.words.update(re.findall(r"[^\s(){},;:.\"`«»]+", text))

    def has_path(self, path, folder):
        """From the root, from a folder of code, within any crate, or as CRATE/EDIT."""
        path = path.rstrip("/")
        tried = [base + path for base in ("", "crates/", "c/", "c/tests/", folder + "/")]
        tried.append("crates/" + path.replace("/", "/must-fail/", 1) + ".edit")
        if "*" in path:
            return any(fnmatch.filter(self.paths, each) for each in tried)
        return path in self.in_crates or any(each in self.paths for each in tried)

    def known(self, name, folder):
        name = name.removesuffix("()")
        if name in FOREIGN or name in MADE or name.startswith("build/"):
            return True
        if re.search(r"^[-./']|[…=]|NAME|:$", name):  # an option, an ellipsis, a placeholder
            return True
        if "/" in name:
            return self.has_path(name, folder)
        if "*" in name:
            return bool(fnmatch.filter(self.last | self.stems | self.words, name))
        if "::" in name:
            return all(part in self.words for part in name.split("::"))
        if name.startswith("_"):
            return any(each.endswith(name) for each in self.last | self.stems | self.words)
        return name in self.words or name in self.stems or name in self.last


def unknown_names(name, text, names):
    folder = str(pathlib.PurePath(name).parent)
    for quoted in re.finditer(r"`([^`\n]+)`", prose(text)):
        word = quoted[1]
        # A single word or path. Commands, formulas and types are not looked up.
        looked_up = re.fullmatch(r"[\w./*:'…-]+(\(\))?", word) and re.search(r"[A-Za-z]", word)
        if looked_up and not names.known(word, folder):
            yield quoted.start(), f"`{word}` is no path, crate, edit or name of the code"


def unknown_in_blocks(name, text, names):
    """Names with an underscore, and names of files, in indented blocks."""
    for block in re.finditer(r"^    .*$", text, re.MULTILINE):
        for word in re.finditer(r"[A-Za-z]\w*(?:\.(?:rt|antt|c|h|md|py|sh|edit|txt)\b|_\w+)", block[0]):
            if not names.known(word[0], "docs"):
                yield block.start(), f"{word[0]} is no crate, file or name of the code"


def crates_left_out(text):
    for line in (ROOT / "crates.txt").read_text(encoding="utf-8").splitlines():
        crate = line.split(":")[0].split()[0] if ":" in line else ""
        if line and not line.startswith("#") and not re.search(rf"\b{crate}\b", text):
            yield 0, f"the crate {crate} is not here"


def cited_papers(text):
    for cited in PAPER.finditer(text):
        yield cited.start(), "cites a paper that is not in the repository: " + " ".join(cited[0].split())


def unlike_the_example(text):
    example = (ROOT / EXAMPLE).read_text(encoding="utf-8")
    blocks = list(re.finditer(r"^```c\n(.*?)^```$", text, re.MULTILINE | re.DOTALL))
    if not blocks:
        yield 0, f"there is no C block from {EXAMPLE}"
    for block in blocks:
        if "\n" + block[1] not in "\n" + example:
            yield block.start(), f"this block is not a part of {EXAMPLE}"


def missing_in_promises(promises, files):
    """A rule is named in the first cell of a row, an edit as `CRATE/EDIT`."""
    rules = (ROOT / "docs/RULES.md").read_text(encoding="utf-8")
    first_cells = " ".join(re.findall(r"^\|([^|]*)\|", promises, re.MULTILINE))
    named = set(re.findall(r"\d+\.\d+", first_cells))
    for rule in re.finditer(r"^(?:\| )?(\d+\.\d+) ", rules, re.MULTILINE):
        if rule[1] not in named:
            yield "docs/RULES.md", line_of(rules, rule.start()), f"docs/PROMISES.md does not name rule {rule[1]}"
    for file in files:
        edit = re.fullmatch(r"crates/(\w+)/must-fail/(.+)\.edit", file)
        if edit and f"`{edit[1]}/{edit[2]}`" not in promises:
            yield file, 1, "docs/PROMISES.md does not name this edit: tools/list_edits.py"


def faults():
    files = list(files_here())
    names = Names(files)
    for name in files:
        text = (ROOT / name).read_text(encoding="utf-8", errors="replace")
        found = list(cited_papers(text))
        if name.endswith(".md") and (name.startswith("docs/") or "/" not in name):
            found += bad_links(name, text)
            if name not in OLDER:
                found += [*unknown_names(name, text, names), *unknown_in_blocks(name, text, names)]
        if name == "docs/ARCHITECTURE.md":
            found += crates_left_out(text)
        if name == "README.md":
            found += unlike_the_example(text)
        for index, fault in sorted(found):
            yield name, line_of(text, index), fault
    for picture in draw.stale():
        yield str(picture.relative_to(ROOT)), 1, "is not what its description gives: make pictures"
    if PROMISES_NAME_ALL:
        yield from missing_in_promises((ROOT / "docs/PROMISES.md").read_text(encoding="utf-8"), files)


if __name__ == "__main__":
    count = 0
    for file, line, fault in faults():
        count += 1
        print(f"{file}:{line}: {fault}")
    if count:
        sys.exit(f"documents: {count} faults")
    print("documents: links, names, example and pictures as they should be")
