#!/usr/bin/env python3
"""What must be believed: the files of definitions that the exported contracts reach, with their lines.

    tools/believed.py           prints the list as docs/STATEMENTS.md has it
    tools/believed.py --check   fails if docs/STATEMENTS.md has another one
    tools/believed.py --write   puts it there

It starts at the contracts of exports_c/src/lib.rt and follows the `use` lines from one file under specs/ to the next.
"""
import os
import re
import sys

ROOT = os.path.dirname(os.path.dirname(os.path.abspath(__file__)))
USE = re.compile(r"^\s*(?:ghost )?(?:pub )?use Rattle\.([a-z_0-9]+)\.specs\.([A-Za-z_0-9.]+?)(?:\.\{.*\})?(?: as \S+)?;?$", re.M)
BEGIN, END = "<!-- believed: begin -->", "<!-- believed: end -->"
WIDTH = 120  # of a line in docs/


def read(path):
    with open(path, encoding="utf-8") as f:
        return f.read()


def modules(path):
    """The files under specs/ that a file's `use` lines name; types declared in code are code."""
    for crate, name in USE.findall(read(path)):
        parts = name.split(".")
        if parts[0] == "declared":
            continue
        file = os.path.join(ROOT, "crates", crate, "specs", parts[0] + ".antt")
        if os.path.exists(file):
            yield file


def reached():
    todo = list(modules(os.path.join(ROOT, "crates/exports_c/src/lib.rt")))
    seen = set()
    while todo:
        file = todo.pop()
        if file not in seen:
            seen.add(file)
            todo += modules(file)
    return seen


def lines_of(file):
    """Lines of definitions: no comment, no blank and no `use` line."""
    return sum(1 for l in read(file).splitlines() if l.strip() and not l.strip().startswith("--") and not l.startswith("use "))


def order():
    """The crates, as crates.txt lists them: a name, for a static library one word more, a colon."""
    return [l.split(":")[0].split()[0] for l in read(os.path.join(ROOT, "crates.txt")).split("\n") if l and not l.startswith("#")]


def rows(first, words):
    """A row of the table; where it would be too long, the rest of its words in another one."""
    row = f"| {first} | {words[0]}"
    for i, word in enumerate(words[1:], 1):
        if len(row) + len(f", {word} |") > WIDTH:
            return [row + " |"] + rows("", words[i:])
        row += f", {word}"
    return [row + " |"]


def table():
    by = {}
    for file in sorted(reached()):
        crate, name = os.path.relpath(file, os.path.join(ROOT, "crates")).split("/specs/")
        by.setdefault(crate, []).append((name[: -len(".antt")], lines_of(file)))
    files = sum(len(v) for v in by.values())
    lines = sum(n for v in by.values() for _, n in v)
    out = [f"{files} files, {lines} lines.", "", "| crate | files under `specs/`, with their lines |", "|---|---|"]
    for crate in order():
        if crate in by:
            out += rows(f"`{crate}`", [f"`{name}` {n}" for name, n in by[crate]])
    return "\n".join(out)


def main():
    page = os.path.join(ROOT, "docs", "STATEMENTS.md")
    new = table()
    if len(sys.argv) < 2:
        print(new)
        return
    text = read(page)
    if BEGIN not in text or END not in text:
        sys.exit(f"{page}: no place for the list")
    head, rest = text.split(BEGIN)
    old, tail = rest.split(END)
    if sys.argv[1] == "--check":
        if old.strip() != new.strip():
            sys.exit("docs/STATEMENTS.md: the list of what must be believed is out of date (tools/believed.py --write)")
    elif sys.argv[1] == "--write":
        with open(page, "w", encoding="utf-8") as f:
            f.write(head + BEGIN + "\n" + new + "\n" + END + tail)
    else:
        sys.exit(__doc__)


if __name__ == "__main__":
    main()
