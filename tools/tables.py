#!/usr/bin/env python3
"""Prints schemas, as the specs write them, as the tables that the code holds a file against.

    tools/tables.py            print them
    tools/tables.py --check    fail where a file of tables is not what is printed
    tools/tables.py --write    write the files of tables

When a schema changes: edit crates/schemas/specs, run `tools/tables.py --write`, then `rt check` in crates/schemas. Its proof computes that each table is its schema, so
nothing rests on this script: a wrong table is refused. A schema more is a line in FILES below, and a branch where the code chooses a table
(crates/schemas/src/shapes.rt). It needs Python 3 and nothing else, and runs from any folder.

What a cell means is said by crates/schema/specs/Table.antt. The order, by rules that a reader can follow:
- the pool has the names, longest first, then by their bytes; a name that stands in it already is not written again;
- the ranges are those of the texts, longest list first, then as the texts' file goes; a list that stands there already is not written again;
- a table has the root's row, its free attributes', its children's, the record's; then, of each node in turn, its attributes' rows and its children's, and after
  the children what each of them needs in the same way;
- the tables of a file have one length: rows of zeros follow the shorter ones.
"""
import re
import sys
import textwrap
from pathlib import Path

CRATES = Path(__file__).resolve().parent.parent / "crates"

# the file to write: the first lines, the file that has its texts, and its tables, each the name, the file and the schema
FILES = {
    "schemas/src/tables.rt": (
        """\
// The schemas of both tracks as tables for crate schema's interpreter. Rows of eleven cells, as crate schema's specs/Table says; the names' bytes and the ranges
// are those of both tracks. A constant array is rebuilt wherever it is named: shapes makes each once and lends it.
""",
        "schemas/specs/FieldTexts.antt",
        [
            ("TABLE1", "schemas/specs/Track1.antt", "track1"),
            ("TABLE2", "schemas/specs/Track2.antt", "track2"),
        ],
    ),
}

# the kinds of a row; any above the last is a number of so many digits
GROUP, ANOTHER, DATE, CHARS, SIGNED, PLAIN, WIDE = range(7)
CELLS = 11

WIDTH = 100  # of a line of code, as `rt fmt` lays it out


# ---- the notation: definitions by clauses, applied to numbers, strings, lists and records; a clause is read when it is called


class Fn:
    """a function that has some of its arguments"""

    def __init__(self, arity, run, args=()):
        self.arity, self.run, self.args = arity, run, args

    def __call__(self, *more):
        args = self.args + more
        return self.run(*args) if len(args) == self.arity else Fn(self.arity, self.run, args)


def made(name, arity):
    """a constructor: a tuple with its name first"""
    return Fn(arity, lambda *args: (name,) + args) if arity else (name,)


# what the specs build on: lists and nodes are Python's lists, a range is a pair
GIVEN = {
    "[]": [],
    "none": [],
    "true": True,
    "false": False,
    "code": Fn(1, ord),
    "bytes": Fn(1, lambda s: s),
    "map": Fn(2, lambda f, xs: [f(x) for x in xs]),
    **{name: made(name, arity) for name, arity in
       dict(leaf=2, group=2, another=1, chars=3, number=2, date=0, signed=0, plain=0, wide=1).items()},
}
INFIX = {
    "∷": lambda x, xs: [x] + xs,
    "▸": lambda x, xs: [x] + xs,
    "++": lambda xs, ys: xs + ys,
    "to": lambda a, b: (a, b),
}
TOKEN = re.compile(r'"[^"]*"|\[\]|[(){};=]|[^\s(){};="\[\]]+')


class Module:
    """a file of specs: its clauses by name, and what its `use` lines bring"""

    read = {}

    @classmethod
    def at(cls, path):
        if path not in cls.read:
            cls.read[path] = cls(path)
        return cls.read[path]

    def __init__(self, path):
        self.clauses, self.names, self.modules, self.values = {}, {}, {}, {}
        text = re.sub(r"^ *--.*\n", "", path.read_text(encoding="utf-8"), flags=re.M)
        for line in re.sub(r"\n +", " ", text).splitlines():
            used = re.match(r"use Rattle\.(\w+)\.specs\.(\w+)(?:\.\{(.*)\})?(?: as (\w+))?$", line)
            if used:
                crate, module, names, other = used.groups()
                target = CRATES / crate / "specs" / (module + ".antt")
                if names is None:
                    self.modules[other or module] = target
                for name in (names or "").split(","):
                    self.names[name.strip()] = target
            elif not re.match(r"(use|abbrev|unfoldable|pub|infix\w*) ", line) and " = " in line:
                left, right = line.split(" = ", 1)
                name, *patterns = TOKEN.findall(left)
                self.clauses.setdefault(name, []).append((patterns, right))

    def value(self, name):
        """what a name means in this file"""
        if name.isdigit():
            return int(name)
        if name[0] == '"':
            return name[1:-1]
        if name in self.clauses:
            if name not in self.values:
                self.values[name] = self.defined(self.clauses[name])
            return self.values[name]
        module, _, last = name.rpartition(".")
        if module in self.modules:
            return Module.at(self.modules[module]).value(last)
        if name in GIVEN:
            return GIVEN[name]
        if name in self.names:
            return Module.at(self.names[name]).value(name)
        raise SystemExit(f"tables.py: what is `{name}`?")

    def defined(self, clauses):
        def run(*args):
            for patterns, right in clauses:
                bound = {}
                if all(fits(p, a, bound) for p, a in zip(grouped(patterns), args)):
                    return Reader(self, right, bound).whole()
            raise SystemExit(f"tables.py: no clause takes {args}")

        arity = len(grouped(clauses[0][0]))
        return Fn(arity, run) if arity else run()


def grouped(patterns):
    """the patterns of a clause, each a list of words: a name alone, or a constructor and its names"""
    out, inside = [], False
    for word in patterns:
        if word == "(":
            out.append([])
        elif word != ")":
            out[-1].append(word) if inside else out.append([word])
        inside = word == "(" or (inside and word != ")")
    return out


def fits(pattern, value, bound):
    if len(pattern) == 1:
        bound[pattern[0]] = value
        return True
    bound.update(zip(pattern[1:], value[1:]))
    return value[0] == pattern[0]


def projected(value, fields):
    """a record's field, and of that a field, and so on"""
    for field in fields:
        value = value[field]
    return value


class Reader:
    """reads an expression from left to right and computes it; the infix signs go to the right"""

    def __init__(self, module, text, bound):
        self.module, self.words, self.bound, self.i = module, TOKEN.findall(text), bound, 0

    def word(self):
        return self.words[self.i] if self.i < len(self.words) else ")"

    def take(self, word=None):
        got = self.word()
        if word and got != word:
            raise SystemExit(f"tables.py: `{word}` was expected, and not `{got}`, in: {' '.join(self.words)}")
        self.i += 1
        return got

    def whole(self):
        value = self.expression()
        if self.i < len(self.words):
            raise SystemExit(f"tables.py: not read: {' '.join(self.words[self.i:])}")
        return value

    def expression(self):
        left = self.applied()
        if self.word() in INFIX:
            return INFIX[self.take()](left, self.expression())
        return left

    def applied(self):
        value = self.atom()
        while self.word() not in INFIX and self.word() not in (")", "}", ";"):
            value = value(self.atom())
        return value

    def atom(self):
        word = self.take()
        if word == "(":
            value = self.expression()
            self.take(")")
        elif word == "record":
            value = self.fields()
        else:
            first, *fields = word.split(".")
            value = projected(self.bound[first], fields) if first in self.bound else self.module.value(word)
        while self.word().startswith("."):
            value = projected(value, self.take().split(".")[1:])
        return value

    def fields(self):
        value = {}
        self.take("{")
        while self.word() != "}":
            name = self.take()
            self.take("=")
            value[name] = self.expression()
            if self.word() == ";":
                self.take()
        self.take("}")
        return value


# ---- from schemas to tables


def texts_in(path):
    """the texts that a file defines, in its order"""
    module = Module.at(path)
    values = [module.value(name) for name in module.clauses]
    return [v for v in values if isinstance(v, tuple) and v[0] in ("chars", "number", "date")]


def ranges_of(texts):
    return {"chars": lambda: texts[1], "number": lambda: texts[2], "date": lambda: []}[texts[0]]()


def stands_at(part, whole):
    """where a list stands in another, or None"""
    return next((i for i in range(len(whole) - len(part) + 1) if whole[i:i + len(part)] == part), None)


def pooled(lists):
    """one after the other, longest first, without those that stand there already"""
    out = lists[0][:0]
    for x in sorted(lists, key=len, reverse=True):
        if stands_at(x, out) is None:
            out = out + x
    return out


def names_in(node):
    """a node's name, its attributes' and its children's, and so on down"""
    head = node[1]
    yield head["named"]
    for attr in head["attrs"]:
        yield attr["named"]
    for child in node[2] if node[0] == "group" else []:
        yield from names_in(child)


def names_of(schema):
    yield schema["root"]
    yield from schema["free"]
    for node in schema["nodes"] + [schema["each"]]:
        yield from names_in(node)


class Table:
    def __init__(self, schema, pool, ranges):
        self.pool, self.ranges, self.rows = pool, ranges, []
        free, nodes = schema["free"], schema["nodes"]
        first = 1 + len(free)
        each = first + len(nodes)
        self.row(schema["root"], schema["root"], 0, 0, (GROUP, each, schema["most"]), (first, len(nodes)), (1, len(free)))
        for name in free:
            self.row("free attributes, " + name, name, 0, 0, (0, 0, 0), (0, 0), (0, 0))
        self.nodes("", nodes + [schema["each"]])

    def row(self, note, name, least, most, kind, parts, attrs):
        at = self.pool.index(name)
        self.rows.append((note, [at, len(name), least, most, *kind, *parts, *attrs]))

    def texts(self, texts):
        """the kind of a leaf's or an attribute's row with its number and limit, and its ranges"""
        ranges = ranges_of(texts)
        parts = (stands_at(ranges, self.ranges), len(ranges))
        if parts[0] is None:
            raise SystemExit(f"tables.py: these texts are not in the texts' file: {texts}")
        if texts[0] == "date":
            return (DATE, 0, 0), parts
        if texts[0] == "chars":
            return (CHARS, texts[2], texts[3]), parts
        style = texts[1]
        return {"signed": (SIGNED, 0, 0), "plain": (PLAIN, 0, 0), "wide": (WIDE, style[-1], 0)}[style[0]], parts

    def nodes(self, path, nodes):
        """the rows of nodes that stand side by side, then what each needs below it"""
        below = len(self.rows) + len(nodes)
        for node in nodes:
            below = self.node(path, node, below)
        for node in nodes:
            here = path + node[1]["named"]
            for attr in node[1]["attrs"]:
                self.row(here + " " + attr["named"], attr["named"], int(attr["required"]), 0, *self.texts(attr["texts"]), (0, 0))
            if node[0] == "group":
                self.nodes(here + "/", node[2])

    def node(self, path, node, below):
        """the row of a node whose attributes and children come from row `below` on; the row after all that is below it"""
        head = node[1]
        attrs = (below, len(head["attrs"])) if head["attrs"] else (0, 0)
        first = below + len(head["attrs"])
        kind, parts = (ANOTHER, 0, 0), (0, 0)
        if node[0] == "leaf":
            kind, parts = self.texts(node[2])
        if node[0] == "group":
            kind, parts = (GROUP, int(head["counted"]), 0), (first, len(node[2]))
        self.row(path + head["named"], head["named"], head["least"], head["most"], kind, parts, attrs)
        return below + many_below(node)


def many_below(node):
    children = node[2] if node[0] == "group" else []
    return len(node[1]["attrs"]) + len(children) + sum(many_below(child) for child in children)


def array(name, kind, many, lines):
    return f"pub const {name}: [{kind}; {many}] = [\n" + "".join(f"    {line}\n" for line in lines) + "];\n"


def cells_in(numbers):
    """the lines that have an array's numbers, as `rt fmt` fills them"""
    return textwrap.wrap(" ".join(f"{n}," for n in numbers), WIDTH - 4)


def printed(top, texts, tables):
    schemas = [(name, Module.at(CRATES / path).value(schema)) for name, path, schema in tables]
    pool = pooled(sorted({name for _, schema in schemas for name in names_of(schema)}))
    ranges = pooled([ranges_of(x) for x in texts_in(CRATES / texts)])
    rows = [(name, Table(schema, pool, ranges).rows) for name, schema in schemas]
    most = max(len(r) for _, r in rows)
    out = [top]
    out.append(f'// The names, one after the other.\npub const POOL: [u8; {len(pool)}] =\n    *b"{pool}";\n')
    bounds = [n for r in ranges for n in r]
    out.append("// The ranges' first and last numbers.\n" + array("RANGES", "u16", len(bounds), cells_in(bounds)))
    for name, r in rows:
        padded = r + [("none", [0] * CELLS)] * (most - len(r))
        lines = [x for i, (note, cells) in enumerate(padded) for x in [f"// row {i}: {note}"] + cells_in(cells)]
        out.append(array(name, "u16", CELLS * most, lines))
    return "\n".join(out)


def main(words):
    if words not in ([], ["--check"], ["--write"]):
        raise SystemExit(__doc__)
    for path, (top, texts, tables) in FILES.items():
        text, file = printed(top, texts, tables), CRATES / path
        if not words:
            print(text, end="")
        elif words == ["--write"]:
            file.write_text(text, encoding="utf-8")
        elif not file.exists() or file.read_text(encoding="utf-8") != text:
            raise SystemExit(f"tables.py: crates/{path} is not what the schemas say: run tools/tables.py --write")


if __name__ == "__main__":
    main(sys.argv[1:])
