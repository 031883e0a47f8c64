#!/usr/bin/env python3
"""Lists the places of src/ at which a form of the language could stand in for one made by hand (docs/DESIGN-PASS.md).

    tools/places.py [FOLDER]

A row is a place to look at, not a verdict; docs/DESIGN-PASS.md says of each what it is. FOLDER is a checkout, else this one.
  enums     enums of the crates' own, with their variants
  numbers   functions that answer with a number for a refusal or a kind (`return 30;`, `refused(5, ..)`), and bools kept beside a value
  twins     pairs of functions of the same tokens but for names, numbers, strings and types, of eight lines or more
  loops     `while` and `loop`, and `for` over a range of numbers by which something is indexed
  hand      functions that compare, copy, convert or order by hand, by their names
  facts     facts that the `requires` of three functions or more say
  together  three parameters that six functions or more take together
  lengths   a slice or an array with a count beside it among parameters or fields
  switches  tests of a parameter against a number, which pick what a function does
"""
import collections
import itertools
import pathlib
import re
import sys

ROOT = pathlib.Path(sys.argv[1] if len(sys.argv) > 1 else pathlib.Path(__file__).resolve().parent.parent)
FN = re.compile(r"^(?P<indent> *)(?:pub(?:\(crate\))? )?(?:const )?fn (?P<name>\w+)(?P<rest>[\s\S]*?)^(?P=indent)\}", re.M)
NUMBERS = re.compile(r"return (?:1[0-9]|2[0-9]|3[0-9]|[1-8]);|refused\(\d+")
HAND = re.compile(
    r"^(same|begins|starts?|order_of|compare\w*|larger|smaller|max|min|wide|copy|clear\w*|shift\w*|put_row|fill|is_filled|all_\w+|one_of|up_to|insert|report_on|digit)$"
)


def plain(text):
    """The text without comments and ghost lines."""
    text = re.sub(r"//[^\n]*", "", text)
    return re.sub(r"^ghost use [^;]*;", "", text, flags=re.M)


def functions():
    """(file, line, name, text) of each function."""
    for path in sorted(ROOT.glob("crates/*/src/*.rt")):
        text = plain(path.read_text())
        for m in FN.finditer(text):
            line = text.count("\n", 0, m.start()) + 1
            yield path.relative_to(ROOT / "crates"), line, m["name"], m.group(0)


def split(text):
    """A function's parameters, its clauses and its body."""
    depth = 0
    start = text.index("(")
    for end in range(start, len(text)):
        depth += {"(": 1, ")": -1}.get(text[end], 0)
        if depth == 0:
            break
    rest = text[end + 1 :]
    body = re.search(r"^ *\{$", rest, re.M)
    cut = body.start() if body else rest.index("{")
    parts = re.split(r",(?![^<\[(]*[>\])])", text[start + 1 : end])
    return [" ".join(p.split()) for p in parts if p.strip()], rest[:cut], rest[cut:]


def shape(body):
    """The body's tokens with names, numbers and texts replaced in the order in which they come."""
    names = {}
    keep = {"if", "else", "while", "loop", "for", "in", "let", "mut", "return", "match", "as", "true", "false", "break"}
    out = []
    for token in re.findall(r"b?'(?:\\.|[^'])+'|b?\"[^\"]*\"|\w+|[^\s\w]", body):
        if re.match(r"\w|b?['\"]", token) and token not in keep:
            token = names.setdefault(token, f"#{len(names)}")
        out.append(token)
    return tuple(out)


def show(title, rows):
    print(f"{title}: {len(rows)}")
    for row in rows:
        print(f"    {row}")


every = list(functions())
enums = []
for path in sorted(ROOT.glob("crates/*/src/*.rt")):
    text = plain(path.read_text())
    for m in re.finditer(r"^(?:pub )?enum (\w+)[^{]*\{([\s\S]*?)^\}", text, re.M):
        variants = re.findall(r"^    (\w+)", m[2], re.M)
        enums.append(f"{path.relative_to(ROOT / 'crates')}: {m[1]} = {' | '.join(variants)}")
show("enums", enums)

numbers = []
for path, line, name, text in every:
    found = len(NUMBERS.findall(text))
    if found:
        numbers.append(f"{path}: {name}: {found} numbers")
for path in sorted(ROOT.glob("crates/*/src/*.rt")):
    for m in re.finditer(r"^    pub (\w+): bool,", plain(path.read_text()), re.M):
        numbers.append(f"{path.relative_to(ROOT / 'crates')}: bool {m[1]}")
show("numbers", numbers)

shapes = collections.defaultdict(list)
for path, line, name, text in every:
    body = split(text)[2]
    if body.count("\n") >= 7:
        shapes[shape(body)].append(f"{path}: {name}")
show("twins", [" = ".join(v) for v in shapes.values() if len(v) > 1])

loops = []
for path, line, name, text in every:
    body = split(text)[2]
    for m in re.finditer(r"^ *(?:'\w+: )?(while [^{]*|loop |for \w+ in [^{]*\.\.[^{]*)\{", body, re.M):
        loops.append(f"{path}: {name}: {m[1].strip()}")
show("loops", loops)

show("hand", [f"{path}: {name}" for path, line, name, text in every if HAND.match(name)])

facts = collections.defaultdict(set)
together = collections.defaultdict(set)
lengths = []
switches = []
for path, line, name, text in every:
    params, clauses, body = split(text)
    crate = path.parts[0]
    for clause in re.findall(r"requires(?: \w+)? \{([\s\S]*?)\}\s*(?=requires|ensures|$)", clauses):
        for fact in clause.split(" × "):
            fact = " ".join(fact.split())
            while fact.startswith("(") and fact.endswith(")") and fact[1:-1].count("(") == fact[1:-1].count(")"):
                fact = fact[1:-1]
            facts[fact].add(f"{crate}::{name}")
    for three in itertools.combinations(params, 3):
        together[three].add(f"{crate}::{name}")
    names = dict(p.split(": ", 1) for p in params if ": " in p)
    for slice_name, kind in names.items():
        if kind.startswith("&") and "[" in kind and "count" in names:
            lengths.append(f"{path}: {name}: {slice_name} with count")
    for one, other in itertools.combinations([n for n, k in names.items() if k == "&[u64]"], 2):
        lengths.append(f"{path}: {name}: {one} beside {other}")
    for parameter, kind in names.items():
        if kind in ("u8", "u64", "usize", "bool") and re.search(rf"\(*\b{parameter} == \d+", body):
            switches.append(f"{path}: {name}: {parameter}")
show("facts", [f"{len(v)} {k}" for k, v in sorted(facts.items(), key=lambda x: -len(x[1])) if len(v) > 2])
# Of the threes that the same functions take, one row: all parameters that those functions share.
groups = collections.defaultdict(set)
for three, users in together.items():
    if len(users) > 5:
        groups[frozenset(users)].update(three)
show("together", [f"{len(k)} {', '.join(sorted(v))}" for k, v in sorted(groups.items(), key=lambda x: (-len(x[0]), -len(x[1])))])
show("lengths", sorted(set(lengths)))
show("switches", switches)
