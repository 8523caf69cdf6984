#!/usr/bin/env python3
"""How much a reader has to believe: the definitions of the plain clause of the headline, and what the exact one adds.

usage: tools/path_lines.py [--list]      (at the top of the repository)
The files of each part are those that docs/DEFINITIONS.md lists under its two headings. They are checked against the
imports: a part's files are reached by `use` lines from the definitions that the clause cites. Lines are those with
text that is no comment and no import. It ends with status 1 where the list and the imports differ, or a number is wrong.
"""
import pathlib
import re
import sys

ROOT = pathlib.Path(__file__).resolve().parent.parent
SOURCE = ROOT / "crates/spatial_run/src/top.rt"
LIST = ROOT / "docs/DEFINITIONS.md"
# the clause of run_top that each part of the list is for, by the heading of the part
PARTS = {"The plain clause": "headline", "What the exact clause adds": "events"}


def spec_file(crate, path):
    names = path.strip(".").split(".")
    for end in range(len(names), 0, -1):
        file = ROOT / "crates" / crate / "specs" / ("/".join(names[:end]) + ".antt")
        if file.exists():
            return file
    return None


def imports(text):
    """The files of definitions that a file imports, each with the names that it brings in."""
    for crate, path, names in re.findall(r"use Rattle\.([a-z0-9_]+)\.specs\.([A-Za-z0-9_.]+?)(?:\.\{([^}]*)\})?(?: as [^;\n]*)?[;\n]", text):
        file = None if path.startswith("declared") else spec_file(crate, path)
        if file:
            yield file, {name.split(" as ")[-1].strip() for name in names.split(",")}


def clause(text, name):
    """The texts of all clauses of this name."""
    for start in re.finditer(r"ensures " + name + r" \{", text):
        depth, at = 1, start.end()
        while depth:
            depth += {"{": 1, "}": -1}.get(text[at], 0)
            at += 1
        yield text[start.end():at]


def reached(roots):
    seen, todo = set(), list(roots)
    while todo:
        file = todo.pop()
        if file not in seen:
            seen.add(file)
            todo += [f for f, _ in imports(file.read_text())]
    return seen


def lines(file):
    texts = [line.strip() for line in file.read_text().splitlines()]
    return sum(1 for t in texts if t and not t.startswith(("--", "use ", "pub use ", "mod ", "pub mod ")))


def by_imports():
    source = SOURCE.read_text()
    found, before = {}, set()
    for part, name in PARTS.items():
        words = set(re.findall(r"[A-Za-z0-9_]+", " ".join(clause(source, name))))
        files = reached(f for f, names in imports(source) if names & words)
        found[part] = files - before
        before |= files
    return found


def by_list():
    listed, part = {part: {} for part in PARTS}, None
    for line in LIST.read_text().splitlines():
        if line.startswith("## "):
            part = line[3:].strip() if line[3:].strip() in PARTS else None
        row = re.match(r"\| ([a-z_]+)/specs/(\S+) \| (\d+) \|", line)
        if part and row:
            listed[part][ROOT / "crates" / row[1] / "specs" / (row[2] + ".antt")] = int(row[3])
    return listed


def main():
    found, listed = by_imports(), by_list()
    wrong, total = [], 0
    for part, files in found.items():
        count = sum(lines(f) for f in files)
        total += count
        print(f"{count:>5} lines in {len(files)} files: {part.lower()}")
        for file in sorted(files | set(listed[part]), key=str):
            name = file.relative_to(ROOT / "crates").with_suffix("")
            if "--list" in sys.argv:
                print(f"      {lines(file):>4} {name}")
            if file not in files:
                wrong.append(f"listed, but not reached: {name}")
            elif file not in listed[part]:
                wrong.append(f"not listed: {name}, {lines(file)} lines")
            elif listed[part][file] != lines(file):
                wrong.append(f"{name} has {lines(file)} lines, and {listed[part][file]} are listed")
    print(f"{total:>5} lines in all")
    for text in wrong:
        print(text)
    return 1 if wrong else 0


sys.exit(main())
