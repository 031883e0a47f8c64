"""Where a file goes wrong (E5). For both schemas every leaf, tag and group of docs/SCHEMAS.md is made bad, one fault at a time, in each of three records and in
   each spelling; then two faults in a record, in two records, in a record and outside, and files that get another answer. Faults are planted in a tree whose
   elements' places are known as it is written, so each place is also reckoned without the oracle: by the element that the plant names, and by all faults in
   the order in which a reader meets them.
   usage: places.py places SEED COUNT   (COUNT of each part, 0 for all; only then a fault that was never compared is status 1)"""
import json, os, random, re, sys, time
from collections import Counter, namedtuple
import compare as K
from compare import C
from dense import EdgeBuf

PAGE = os.path.join(os.path.dirname(os.path.abspath(__file__)), "..", "..", "docs", "SCHEMAS.md")


# ------------------------------------------------------------------ the schemas, as the page tells them
class Page:
    """a track's table. Paths begin with the root's name; times: {path: (least, most or None)}; types: {path: its texts}; children: {path: [names]};
       attributes: {path: {name: (required, its texts)}}"""
    def __init__(self, track):
        self.root = "FlsAssDom_%d" % track
        self.record = self.root + "/Assistenza"
        self.times, self.types, self.attributes = {self.record: (1, None)}, {self.root: "group", self.record: "group"}, {self.root: {}, self.record: {}}
        self.children = {self.root: ["Assistenza"], self.record: []}
        with open(PAGE) as f:
            table = f.read().split("## Track %d\n" % track)[1].split("\n## ")[0]
        for path, times, texts in re.findall(r"^\| `(\S+)` \| (\S+) \| (.+?) \|", table, re.M):
            self.row(path, {"1": (1, 1), "0..1": (0, 1), "0..n": (0, None)}[times], texts.split(",")[0].strip("`"))

    def row(self, path, times, texts):
        parent, name = self.full(os.path.dirname(path)), os.path.basename(path)
        if name[0] == "@":
            self.attributes[parent][name[1:]] = times[0] == 1, texts
            return
        self.children[parent].append(name)
        path = parent + "/" + name
        self.times[path], self.types[path], self.attributes[path], self.children[path] = times, texts, {}, []

    def full(self, path):
        """`..` stands for what the page leaves out: the last element above that ends so is meant"""
        if not path.startswith(".."):
            return (self.record + "/" + path).rstrip("/")
        return [p for p in self.types if p.endswith(path[2:])][-1]

    def needed(self):
        """(path, kind of fault) of which each must be met: in what stands in an element, in its tag, in where and how often it stands"""
        for path, texts in self.types.items():
            yield from ((path, kind) for kind in ["unknown attribute", "renamed"] + (GROUP_KINDS if texts == "group" else LEAF_KINDS))
            if texts != "empty" and (texts != "group" or any(self.times[path + "/" + c][0] for c in self.children[path])):
                yield path, "emptied"
            for a, (required, _) in self.attributes[path].items():
                yield from ((path + "/@" + a, kind) for kind in ["wrong value", "misspelled attribute"] + ["missing attribute"] * required)
            for i, name in enumerate(self.children[path] if path != self.root else []):
                (low, high), last = self.times[path + "/" + name], len(self.children[path]) - 1
                kinds = ["left out"] * low + ["doubled"] * bool(high) + ["swapped with the next"] * (last > 0)
                yield from ((path + "/" + name, kind) for kind in kinds + ["moved to the front"] * (i > 0) + ["moved to the end"] * (i < last))


GROUP_KINDS = ["text between", "unknown child", "element of another group"]
LEAF_KINDS = ["too long", "wrong text", "white space around", "comment in it", "child in it"]


# Texts that a type doesn't take: one too long and perhaps one too short, then wrong ones. Any text of a right length is a pathology.
BAD = {
    "Id_Rec": ([K.ID88 + b"A", K.ID88[:87]], [K.ID88[:87] + b">", K.ID88[:40] + b" " + K.ID88[41:]]), "CUNI": ([b"B" * 257], [b"a>b", b"'" * 88]),
    "validitaCI": ([b"11"], [b"2", b"x"]), "tipologiaCI": ([b"100"], [b"5", b"-1", b"+"]), "anno": ([b"19500", b"195"], [b"19a0"]), "genere": ([b"11"], [b"3"]),
    "soggettoRichiedente": ([b"11"], [b"0"]), "nucleoFamiliare": ([b"100"], [b"x", b"-1"]), "assistenteNonFamiliare": ([b"22"], [b"0"]),
    "supportoSociale": ([b"11"], [b"4"]), "autonomia": ([b"33"], [b"0"]), "gradoMobilita": ([b"12"], [b"4", b"a"]), "disturbo": ([b"11"], [b"4"]),
    "rischioInfettivo": ([b"11"], [b"3"]), "bisogno": ([b"11"], [b"3", b"x"]), "cittadinanza": ([b"ITA", b"I"], [b"it"]), "statoCivile": ([b"11"], [b"6"]),
    "regioneErogazione": ([b"0100", b"10"], [b"999", b"XXX"]), "regioneResidenza": ([b"9990", b"99"], [b"998"]), "codASL": ([b"1010", b"10"], [b"1.1"]),
    "comune": ([b"9999999", b"99999"], [b"99999 "]), "statoEstero": ([b"FRA", b"F"], [b"F1"]), "tipoTrasmissione": ([b"II"], [b"i", b"X"]),
    "patologia": ([b"0000", b"00"], [b"\r\n"]), "patologiaPrevalente": ([b"401401", b"40"], [b"\t>"]), "numAccessi": ([b"100"], [b"0", b"01", b"+1"]),
    "tipoOperatore": ([b"100"], [b"14", b"01"]), "tipoPrestazione": ([b"100"], [b"22", b"0"]), "quantitaPrestazione": ([b"100"], [b"0", b"x"]),
    "motivazioneConclusione": ([b"100"], [b"13", b"01"]), "motivazioneSospensione": ([b"11"], [b"4"]), "motivoRivalutazione": ([b"11"], [b"3"]),
    "confermaPrecedente": ([b"22"], [b"0"]), "date": ([b"2018-05-011", b"2018-5-1"], [b"2018-02-29", b"2018/05/01"]), "empty": ([b"x"], [b" ", b"I"])}


# ------------------------------------------------------------------ trees and spellings
class E:
    """an element; marks: of what a plant made bad in it, "tag" and "text". Once written: its place, those of its texts and of its end"""
    __slots__ = ("name", "attrs", "items", "leaf", "marks", "place", "texts", "end")

    def __init__(self, name, attrs=(), items=(), leaf=False, marks=()):
        self.name, self.attrs, self.items, self.leaf, self.marks = name, [list(a) for a in attrs], list(items), leaf, set(marks)

    def copy(self):
        return E(self.name, self.attrs, [i.copy() if isinstance(i, E) else i for i in self.items], self.leaf, self.marks)

    def kids(self):
        return [i for i in self.items if isinstance(i, E)]

    def index(self, kid):
        return next(n for n, i in enumerate(self.items) if i is kid)

    def has(self, e):
        return e is self or any(k.has(e) for k in self.kids())


def grown(t):
    return E(t.n, t.a, [grown(k) if isinstance(k, K.T) else k for k in t.k], t.leaf)


COMMENTS = [b"<!-- <Assistenza> -->", b"<!---->", b"<!--</Eventi>-->", b"<!--\r\n<X/>\r\n-->"]
Spelling = namedtuple("Spelling", "front gap quote short turned before equals behind")
plain = Spelling(b"", lambda depth, n: b"", b'"', True, False, b" ", b"=", b"")
lines = lambda depth, n: b"\r\n" + b"  " * depth
SPELLINGS = [
    plain,
    plain._replace(front=b'<?xml version="1.0" encoding="UTF-8"?>\r\n', gap=lines, short=False),
    plain._replace(front=b" ", quote=b"'", short=False),
    plain._replace(front=b"<?xml <FlsAssDom_1> ?><!-- <FlsAssDom_2> -->\n<!---->", gap=lambda depth, n: COMMENTS[n % 4] if n % 3 else b"\n"),
    plain._replace(turned=True, before=b"\r\n\t", equals=b" = ", behind=b" "),
    plain._replace(front=b"<!--\r\n\r\n-->\r\n", gap=lambda depth, n: lines(depth, n) + COMMENTS[n % 4] * (n % 5 == 0), quote=b"'", turned=True, behind=b"\n"),
    plain._replace(short=False)]


def written(root, how):
    """the file's bytes"""
    out = bytearray(how.front)

    def put(e, depth):
        e.place, e.texts = len(out), []
        out.extend(b"<" + e.name)
        for n, v in e.attrs[::-1] if how.turned else e.attrs:
            out.extend(how.before + n + how.equals + how.quote + v + how.quote)
        out.extend(how.behind)
        if not e.items and how.short:
            e.end = len(out)
            out.extend(b"/>")
            return
        out.extend(b">")
        for item in e.items:
            out.extend(b"" if e.leaf else how.gap(depth, len(out)))
            if isinstance(item, E):
                put(item, depth + 1)
            else:
                e.texts += [] if item.startswith(b"<!--") else [len(out)]
                out.extend(item)
        out.extend(b"" if e.leaf else how.gap(depth - 1, len(out)))
        e.end = len(out)
        out.extend(b"</" + e.name + how.behind + b">")
    put(root, 1)
    return bytes(out)


# ------------------------------------------------------------------ what is told, reckoned from the tree
def spots(e, path, page):
    """(path, element, parent) of the element and of all below it that the page knows"""
    found, todo = [], [(path, e, None)]
    while todo:
        path, e, parent = todo.pop()
        if path in page.types:
            found.append((path, e, parent))
            todo += [] if e.leaf else [(path + "/" + k.name.decode(), k, e) for k in reversed(e.kids())]
    return found


def unfit(e, path, page):
    """the place at which a group's children can't be the schema's any more: of a child, or of its end; None where they are"""
    order, came = page.children[path], Counter()
    least = lambda names: all(came[n] >= page.times[path + "/" + n][0] for n in names)
    for kid in e.kids():
        n = kid.name.decode()
        if n not in order:
            return kid.place
        before, after = order[:order.index(n)], order[order.index(n) + 1:]
        if came[n] == page.times[path + "/" + n][1] or any(came[a] for a in after) or not least(before):
            return kid.place
        came[n] += 1
    return None if least(order) else e.end


def first_met(record, page):
    """the element told for a record, or None: of all faults, each with where it is met, the first. At one `<` the parent's comes before the element's own"""
    met = []
    for path, e, _ in spots(record, page.record, page):
        met += [(e.place, 1, e)] if e.marks else []
        if not e.leaf:
            met += [(at, 0, e) for at in e.texts + [unfit(e, path, page)] if at is not None]
    return min(met, key=lambda m: m[:2])[2] if met else None


# ------------------------------------------------------------------ plants
class Unplantable(Exception):
    """what it changes isn't there, or another plant changed it"""


Plant = namedtuple("Plant", "path kind spot change")         # spot: the number of the element; change(element, parent): the element told, or None for no fault


def mark(e, what):
    e.marks.add(what)
    return e


def leaf_plants(page, path, e):
    kinds = page.types[path]
    text = b"".join(e.items)
    sizes, wrong = BAD[kinds]

    def holds(*items):
        def change(e, parent):
            e.items = [i.copy() if isinstance(i, E) else i for i in items if i]
            return mark(e, "text")
        return change
    for n, t in enumerate(sizes):
        yield "too short" if n else "too long", holds(t)
    for t in wrong:
        yield "wrong text", holds(t)
    if kinds != "empty":
        yield "emptied", holds()
    for t in (b"\r\n " + text, text + b" \t ", b"\n  " + text + b"  "):
        yield "white space around", holds(t)
    for items in ((b"<!-- " + text + b" -->",), (b"<!---->", text), (text, b"<!---->"), (text[:1], b"<!--c-->", text[1:])):
        yield "comment in it", holds(*items)
    for items in ((E(b"X"), text), (text, E(e.name, (), [text], True))):
        yield "child in it", holds(*items)


def attribute(e, name):
    return next((a for a in e.attrs if a[0] == name), None)


def tag_plants(page, path, e):
    """(attribute or nothing, kind, change)"""
    def at(name, do):
        def change(e, parent):
            a = attribute(e, name)
            if a is None:
                raise Unplantable
            do(e, a)
            return mark(e, "tag")
        return change
    for name, (required, kinds) in page.attributes[path].items():
        n = name.encode()
        sizes, wrong = BAD[kinds]
        for v in sizes + wrong + [b"", b" " + attribute(e, n)[1], attribute(e, n)[1] + b"\n"]:
            yield "/@" + name, "wrong value", at(n, lambda e, a, v=v: a.__setitem__(1, v))
        yield "/@" + name, "misspelled attribute", at(n, lambda e, a: a.__setitem__(0, a[0].swapcase()))
        if required:
            yield "/@" + name, "missing attribute", at(n, lambda e, a: e.attrs.remove(a))
    own = set(page.attributes[path])
    for name in (b"x", b"data", b"Data", b"tipo") + ((b"xsi", b"xmln") if path == page.root else (b"xmlns", b"xsi:type")):
        if name.decode() not in own:
            def change(e, parent, name=name):
                if attribute(e, name):
                    raise Unplantable
                e.attrs.insert(len(e.attrs) if name == b"x" else 0, [name, b"2018-05-01"])
                return mark(e, "tag")
            yield "", "unknown attribute", change


def reordered(parent, change):
    """the change made; the parent where its children's names then stand in another order"""
    names = [k.name for k in parent.kids()]
    change()
    return parent if names != [k.name for k in parent.kids()] else None


CHILD_KINDS = {"left out", "doubled", "moved to the front", "moved to the end", "swapped with the next", "renamed"}


def child_plants(page, path):
    low, high = page.times[path]

    def left_out(e, parent):
        del parent.items[parent.index(e)]
        return parent if sum(k.name == e.name for k in parent.kids()) < low else None

    def doubled(e, parent):
        parent.items.insert(parent.index(e), e.copy())
        return parent if high else None

    def moved(to):
        def change(e, parent):
            def do():
                del parent.items[parent.index(e)]
                parent.items.insert(to(parent), e)
            return reordered(parent, do)
        return change

    def swapped(e, parent):
        kids = parent.kids()
        after = kids[(kids.index(e) + 1) % len(kids)]
        i, j = parent.index(e), parent.index(after)

        def do():
            parent.items[i], parent.items[j] = after, e
        return reordered(parent, do)

    def renamed(e, parent):
        e.name = e.name.swapcase() if len(e.items) % 2 else e.name + b"_"
        return parent
    return [("left out", left_out), ("doubled", doubled), ("moved to the front", moved(lambda p: 0)), ("moved to the end", moved(lambda p: len(p.items))),
            ("swapped with the next", swapped), ("renamed", renamed)]


TEXTS = [b"x", b"\r\n1\r\n", b"]]>", b"\"'"]


def group_plants(page, path, e, strangers):
    """strangers: elements that stand in other groups"""
    def put(gap, item):
        def change(e, parent):
            e.items.insert(gap, item.copy() if isinstance(item, E) else item)
            return e
        return change
    names = page.children[path]
    strangers = [s for s in strangers if s.name.decode() not in names]
    for gap in range(len(e.items) + 1):
        for t in (TEXTS[gap % 4], TEXTS[(gap + 1) % 4]):
            yield "text between", put(gap, t)
        near = (names[gap % len(names)].lower() if gap % 2 else "fls:" + names[gap % len(names)]).encode()
        for unknown in (E(b"X"), E(near if near.decode() not in names else near + b"_", [(b"x", b"")], [b"1"], True)):
            yield "unknown child", put(gap, unknown)
        for n in (gap, gap + 7):
            yield "element of another group", put(gap, strangers[(n + len(path)) % len(strangers)])

    def emptied(e, parent):
        e.items = []
        return e if any(page.times[path + "/" + n][0] for n in names) else None
    yield "emptied", emptied


def plants(page, record):
    """all of a record, its own tag's among them"""
    out = []
    found = spots(record, page.record, page)
    for i, (path, e, _) in enumerate(found):
        made = [(path + a, kind, change) for a, kind, change in tag_plants(page, path, e)]
        made += [(path, *x) for x in (leaf_plants(page, path, e) if e.leaf else group_plants(page, path, e, [s for _, s, _ in found]))]
        made += [(path, *x) for x in child_plants(page, path)] if i else []
        out += [Plant(p, kind, i, change) for p, kind, change in made]
    return out


def root_plants(page, root, record):
    """faults outside every record"""
    def rename(name):
        return lambda e, parent: setattr(e, "name", name) or mark(e, "tag")

    def rename_record(e, parent):
        e.kids()[len(e.items) // 2].name = b"assistenza"
        return e
    strangers = [s for _, s, _ in spots(record, page.record, page)]
    made = [("", kind, change) for _, kind, change in tag_plants(page, page.root, root)]
    made += [("", *x) for x in group_plants(page, page.root, root, strangers)]
    made += [("", "renamed", rename(n.encode())) for n in ("FlsAssDom_3", page.root.lower(), "fls:" + page.root, "Assistenza")]
    made += [("/Assistenza", "renamed", rename_record)]
    return [Plant(page.root + path, kind, 0, change) for path, kind, change in made]


# ------------------------------------------------------------------ files
MET, ORDERED = Counter(), Counter()                          # faults (path, kind) whose places the library told; kinds of two faults, as their elements stand
PLAIN_BUF = K.Buf


class World:
    """a track: its page, a record that has all of it, what can be planted there, the register that takes it"""
    def __init__(self, track):
        self.track, self.page, self.turn = track, Page(track), 0
        _, self.reg, tree = K.full_tree(track)
        self.record = grown(tree.k[0])
        found = spots(self.record, self.page.record, self.page)
        held = {p + "/@" + n.decode() for p, e, _ in found for n, _ in e.attrs}
        listed = {p + "/@" + n for p, names in self.page.attributes.items() for n in names}
        assert {p for p, _, _ in found} | {self.page.root} == set(self.page.types) and held == listed, "the record must have all that docs/SCHEMAS.md lists"
        self.plants = plants(self.page, self.record)
        self.faults = [p for p in self.plants if self.planted(p)[1]]

    def planted(self, *plan):
        """(a record with the plants in it, the element that the last one names)"""
        record = self.record.copy()
        found = spots(record, self.page.record, self.page)
        for plant in plan:
            _, e, parent = found[plant.spot]
            if not record.has(e):
                raise Unplantable
            told = plant.change(e, parent)
        return record, told

    def root(self, records):
        attrs = [(b"xmlns", b"http://flussi.mds.it"), (b"xsi:schemaLocation", b"a > b")][:self.turn % 3]
        return E(self.page.root.encode(), attrs, records)

    def among(self, bad):
        """three records, with those given (by their place, 0 to 2) among them"""
        return [bad.get(i) or self.record.copy() for i in range(3)]

    def send(self, part, root, said, how=None, answers=b"????", track=None, year=2018):
        """said, once the file is written: (answer, record number, the element told or None). Whether the library told a place"""
        self.turn += 1
        K.Buf, EdgeBuf.at_end = (PLAIN_BUF, EdgeBuf, EdgeBuf)[self.turn % 3], self.turn % 3 == 1       # edges as in dense.py's `edge`
        sub = written(root, how or SPELLINGS[self.turn % len(SPELLINGS)])
        got = K.check_submit(sub, track or self.track, year, 2, self.reg, answers)
        answer, number, e = said()
        C[part] += 1
        if (got[0], got[1], got[7]) != (answer, number, e.place if e else 0):
            K.diff(part, (sub, self.track), (answer, number, e.place if e else 0), got[:2] + got[7:])
        return answer == 6 and K.numbers_lent(sub) >= 5

    def first(self, root):
        """what is said of a file with faults in its records: the first bad record, by its first fault"""
        told = [(6, n, first_met(r, self.page)) for n, r in enumerate(root.items, 1)]
        return next((t for t in told if t[2]), (0, 0, None))


def some(rng, things, count):
    return things if not count else [things[i] for i in sorted(rng.sample(range(len(things)), min(count, len(things))))]


def singles(w, rng, count):
    """each fault in each spelling, in the first, middle or last record of three, each at least twice; told by the element that the plant names"""
    for i, plant in some(rng, list(enumerate(w.plants)), count):
        for s, how in enumerate(SPELLINGS):
            record, told = w.planted(plant)
            at = (i + s) % 3
            root = w.root(w.among({at: record}))
            if w.send("one fault" if told else "no fault", root, lambda: (6, at + 1, told) if told else (0, 0, None), how):
                MET[plant.path, plant.kind] += 1
            if first_met(record, w.page) is not told:
                K.diff("reckoned", (plant.path, plant.kind), (told and told.name,), ())


def outside(w, rng, count):
    """faults outside every record, alone and beside a bad record: the root's place, whatever the record's"""
    for i, plant in some(rng, list(enumerate(root_plants(w.page, w.root(w.among({})), w.record))), count):
        for s, how in enumerate(SPELLINGS):
            both = (i + s) % 2
            root = w.root(w.among({(i + s) // 2 % 3: w.planted(rng.choice(w.faults))[0]} if both else {}))
            told = plant.change(root, None)
            if w.send("a fault outside and one in a record" if both else "a fault outside", root, lambda: (6, 0, told), how):
                MET[plant.path, plant.kind] += 1


def around(w, rng, count):
    """an element's own fault, and one of an element around it: met before, in its tag or in front, or after, at its end"""
    found = spots(w.record, w.page.record, w.page)
    nested = [(i, j, n) for i, (path, e, _) in enumerate(found) for j, (_, g, _) in enumerate(found) if g is not e and g.has(e) for n in range(7)]
    for i, j, n in some(rng, nested, count):
        record, _ = w.planted(rng.choice([p for p in w.faults if p.spot == i and p.kind not in CHILD_KINDS]))
        g = spots(record, w.page.record, w.page)[j][1]
        if n < 4:
            g.items.insert(0 if n % 2 else len(g.items), E(b"X") if n < 2 else b"x")
        elif n == 4:
            mark(g, "tag").attrs.append([b"y", b""])
        else:
            del g.items[0 if n == 5 else -1]
        root = w.root(w.among({rng.randrange(3): record}))
        w.send("a fault and one around it", root, lambda: w.first(root))


def pairs(w, rng, count):
    """two faults in one record, of each two kinds in both orders of their elements, half of them side by side"""
    kinds = {}
    for plant in w.faults:
        kinds.setdefault(plant.kind, []).append(plant)
    beside = lambda p, q: os.path.dirname(p.path) == os.path.dirname(q.path)
    for a, b in some(rng, [(a, b) for a in kinds for b in kinds for _ in range(8)], count):
        last = max(p.spot for p in kinds[b])
        one = rng.choice([p for p in kinds[a] if p.spot < last])
        after = [p for p in kinds[b] if p.spot > one.spot]
        near = [p for p in after if beside(one, p)]
        two = rng.choice(near if near and rng.random() < 0.5 else after)
        try:
            record, _ = w.planted(*rng.sample([one, two], 2))
        except Unplantable:
            continue
        root = w.root(w.among({rng.randrange(3): record}))
        if w.send("two faults in a record", root, lambda: w.first(root)):
            ORDERED[a, b] += 1


def records(w, rng, count):
    """faults in two or in all three records"""
    for n in range(count or 1200):
        root = w.root(w.among({i: w.planted(rng.choice(w.faults))[0] for i in rng.sample(range(3), 2 + n % 2)}))
        w.send("faults in %d records" % (2 + n % 2), root, lambda: w.first(root))


def others(w, rng, count):
    """files that get another answer: the place is 0, whatever faults the file has beside"""
    for n in range(count or 120):
        bad = w.root([w.record.copy(), w.planted(rng.choice(w.faults))[0]])
        w.send("bad, and no period", bad, lambda: (1, 0, None), year=2008)
        w.send("bad, and no track", bad, lambda: (2, 0, None), track=3)
        w.send("bad, and no markup", bad, lambda: (5, 0, None), rng.choice(SPELLINGS)._replace(behind=b"\x0b"))
        w.send("bad, and no answer list", bad, lambda: w.first(bad), answers=b"")
        w.send("no answer list", w.root(w.among({})), lambda: (8, 0, None), answers=b"??")
        w.reg, sound = w.reg[:3], w.reg
        w.send("bad, and no register", bad, lambda: (3, 0, None))
        w.reg = sound
        if w.track == 2:
            many(w, rng, n)
        if n % 50 == 0:
            w.send("bad, and too long", bad, lambda: (4, 0, None), plain._replace(front=b" " * 1048576))


def many(w, rng, n):
    """a record of too many events (7) among three, alone and with a bad one before or behind it: a place goes with 6 alone"""
    full = w.record.copy()
    events = full.items[2]
    events.items[2:3] = [events.items[2].copy() for _ in range(126 + n % 2)]      # Erogazione; with the three others 129 or 130
    at, other = n % 3, (n + 1 + n // 3 % 2) % 3
    w.send("too many events", w.root(w.among({at: full})), lambda: (7, at + 1, None))
    root = w.root(w.among({at: full, other: w.planted(rng.choice(w.faults))[0]}))
    w.send("too many events, and a bad record", root, lambda: w.first(root))


def g_places(seed, count):
    for track in (1, 2):
        w = World(track)
        for part in (singles, outside, around, pairs, records, others):
            part(w, random.Random("places %d %d %s" % (seed, track, part.__name__)), count)


def missed():
    """what was never made bad with its place compared: of all that the page lists, and of two kinds of fault in an order"""
    kinds = {k for _, k in MET}
    return (["%s: %s" % x for track in (1, 2) for x in Page(track).needed() if not MET[x]]
            + ["%s before %s" % (a, b) for a in kinds for b in kinds if not ORDERED[a, b]])


if __name__ == "__main__":
    t0 = time.time()
    globals()["g_" + sys.argv[1]](int(sys.argv[2]), int(sys.argv[3]))
    paths = {p for p, _ in MET}
    C.update({"distinct (path, kind of fault)": len(MET), "least of one": min(MET.values(), default=0), "distinct (kind, kind behind it)": len(ORDERED),
              "elements made bad": sum("@" not in p for p in paths), "attributes made bad": sum("@" in p for p in paths)})
    print(json.dumps({"generator": sys.argv[1], "seed": int(sys.argv[2]), "seconds": round(time.time() - t0), "counts": dict(sorted(C.items()))}))
    if sys.argv[3] == "0" and missed():
        sys.exit("places: not met: " + "; ".join(missed()))
    sys.exit(C["diff"] > 0)
