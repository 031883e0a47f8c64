#!/usr/bin/env python3
"""The edits that the gate tries and the checker must refuse, crates/*/must-fail/*.edit, as docs/WRONG.md lists them.

    tools/edits.py           prints the list
    tools/edits.py --check   fails if docs/WRONG.md has another one,
                             or an edit's text doesn't stand exactly once in its file
    tools/edits.py --write   puts it there

An edit of src/ is a wrong program. An edit of specs/ is a wrong definition: the proofs about the right one fail on it.
"""
import glob
import os
import sys
import textwrap

ROOT = os.path.dirname(os.path.dirname(os.path.abspath(__file__)))
PAGE = os.path.join(ROOT, "docs/WRONG.md")
BEGIN, END = "<!-- edits: begin -->", "<!-- edits: end -->"
WIDTH = 120  # of a line in docs/


def read(path):
    with open(path, encoding="utf-8") as f:
        return f.read()


def order():
    """The crates, as crates.txt lists them: a name, for a static library one word more, a colon."""
    return [l.split(":")[0].split()[0] for l in read(os.path.join(ROOT, "crates.txt")).split("\n") if l and not l.startswith("#")]


def edits():
    """(crate, name, what holds, file, old text), lowest crate first."""
    for crate in order():
        for path in sorted(glob.glob(os.path.join(ROOT, "crates", crate, "must-fail", "*.edit"))):
            lines = read(path).split("\n")
            part = {k: next(l[len(k) + 2:] for l in lines if l.startswith(k + ": ")) for k in ("file", "old")}
            yield crate, os.path.basename(path)[: -len(".edit")], lines[0].lstrip("# "), part["file"], part["old"]


def item(crate, name, what, file):
    """An edit's lines: its name, what kind of file is wrong, and what holds."""
    kind = "program" if file.startswith("src/") else "definition"
    text = f"`{crate}/must-fail/{name}` ({kind}, `{file}`): {what}."
    return textwrap.fill(text, WIDTH, initial_indent="- ", subsequent_indent="  ", break_long_words=False, break_on_hyphens=False)


def listed():
    every = [(c, n, what, f) for c, n, what, f, _ in edits()]
    programs = sum(f.startswith("src/") for *_, f in every)
    head = f"{len(every)} edits: {programs} wrong programs, {len(every) - programs} wrong definitions."
    return "\n".join([head, ""] + [item(*e) for e in every])


def misplaced():
    return [f"{c}/must-fail/{n}" for c, n, _, f, old in edits() if read(os.path.join(ROOT, "crates", c, f)).count(old) != 1]


def main(way):
    text = listed()
    if not way:
        print(text)
        return 0
    page = read(PAGE)
    before, after = page.split(BEGIN)[0], page.split(END)[1]
    new = f"{before}{BEGIN}\n{text}\n{END}{after}"
    if way == "--write":
        with open(PAGE, "w", encoding="utf-8") as f:
            f.write(new)
    elif way == "--check":
        for name in misplaced():
            print(f"{name}: its text doesn't stand exactly once in its file")
        if new != page:
            print("docs/WRONG.md lists other edits: run tools/edits.py --write")
        return int(new != page or bool(misplaced()))
    return 0


if __name__ == "__main__":
    sys.exit(main(sys.argv[1] if len(sys.argv) > 1 else ""))
