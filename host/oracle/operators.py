"""operators: histories in which several operators visit on one day (E2), and events of one key that differ in the code alone. After each file what stands is
   held against the words of demand 3, and each record's answer against those of 22 and of all behind it, by rows and keys that are packed here. Behind each
   history: registers whose rows are in order or out of order by their codes, or in the layout before E2.
   usage: operators.py operators SEED COUNT"""
import json, random, sys, time
from datetime import date
import compare as K
from compare import C, L, N, head, root, ser
from dense import EdgeBuf, beside

RIV, ERO, SOS, CON = range(4)
OPERATORS, STOPS, ENDS = [*range(1, 14), 99], [1, 2, 3, 9], [*range(1, 13), 97, 98, 99]
SCALES = [b"Autonomia", b"GradoMobilita", b"Cognitivi", b"Comportamentali", b"SupportoSociale", b"RischioInfettivo"]
ROW = 96                                                     # a row's bytes (R2)
NEEDED = ["I of a visit beside another operator's: 0", "C of a visit beside another operator's: 0", "V of a visit beside another operator's: 0",
          "visits of one day in one accepted record", "I of a visit that the same operator made: 14", "a visit by the same operator twice in a record: 22",
          "V of a visit that only another operator made: 15", "C of a visit that only another operator made: 15",
          "visits of several operators on one day carried away with their case", "a visit inserted again beside another operator's: 0",
          "I with another motivo or Motivazione: 14", "V with another motivo or Motivazione: 0", "C with another motivo or Motivazione: 0",
          "a motivo or Motivazione twice in a record: 22", "an evaluation kept, then varied: 0", "rows with codes that ascend: 0", "rows with codes that don't ascend: 3",
          "rows of one day with another motivo: 3", "rows of the old layout: 3"]


# ------------------------------------------------------------------ rows and keys, as texts of 0s and 1s
def bits(*fields):
    return "".join(format(v, "0%db" % w) for v, w in fields)


def case_bits(k):
    """R10 to R13; k: (region, ASL, day, Id_Rec)"""
    return bits((int(k[0]), 8), *[(c, 7) for c in k[1]], (k[2], 17), *[(c, 7) for c in k[3]])


def value_bits(value):
    """R32 and R33; value: six numbers and the prevalente"""
    return bits(*[(v, 2) for v in value[0]], *[(c, 7) for c in value[1].ljust(5, b"\0")])


def event_row(k, ev):
    """R23 to R29, R32 and R33; an event of six fields keeps no evaluation"""
    kind, when, code, end, accesses, conferma = ev[:6]
    row = case_bits(k) + bits((kind, 2), (when, 17), (code, 7), (2 ** 17 - 1 if end is None else end, 17), (accesses, 7), (conferma, 2))
    return (row + value_bits(*ev[6:]) if len(ev) > 6 else row).ljust(8 * ROW, "0")


def event_key(row):
    """E2: the code is "part of the key for kind 1 only" """
    return row[:688] if row[662:664] == "01" else row[:681] + "0000000"


kind_of, when_of, end_of = lambda row: row[662:664], lambda row: row[664:681], lambda row: row[688:705]


def case_row(k, record):
    """R14 to R22, from the record's leaves; no two of a Track 1 record have one name"""
    leaf = {nd.n: b"".join(nd.k) for _, _, nd in K.walk(record) if nd.leaf}
    level = [int(leaf.get(n, b"0")) for n in SCALES]
    return case_bits(k) + bits((int(leaf[b"AnnoNascita"]), 12), *[(c, 7) for c in leaf[b"Prevalente"].ljust(5, b"\0")], *[(v, 2) for v in level], (0, 47))


def register(cases, events, length=0):
    rows = cases + events
    packed = b"".join(int(r, 2).to_bytes(ROW, "big") for r in rows)
    return (len(cases).to_bytes(2, "big") + len(events).to_bytes(2, "big") + packed).ljust(length, b"\0")


# ------------------------------------------------------------------ records
def text(n):
    return date.fromordinal(n + date(1900, 1, 1).toordinal()).isoformat().encode()


def evaluation_tree(rng, value):
    """a Valutazione of Track 2 that says this"""
    tree = K.val_tree(rng, 2, value[1], True)
    for parent, i, leaf in reversed(K.walk(tree)):
        level = value[0][SCALES.index(leaf.n)] if leaf.n in SCALES else None
        if level:
            leaf.k = [b"%d" % level]
        elif level == 0 or leaf.n == b"Disturbi" and not leaf.k and rng.random() < 0.5:
            del parent.k[i]
    return tree


def event_tree(rng, ev, fault=None):
    """with conferma 2 the event has a value; faults: 13 a prevalente 000, 21 a Valutazione too many or too few"""
    kind, when, code, end, accesses, conferma = ev[:6]
    code = b"%d" % code
    if kind == RIV:
        value = ev[6] if conferma == 2 else K.some_value(rng)
        inside = [evaluation_tree(rng, (value[0], b"000") if fault == 13 else value)] if (conferma == 2) != (fault == 21) else []
        return N(b"Rivalutazione", inside, (b"data", text(when)), (b"motivo", code), (b"confermaPrecedente", b"%d" % conferma))
    if kind == ERO:
        return N(b"Erogazione", [L(b"TipoOperatore", code)], (b"data", text(when)), *[(b"numAccessi", b"%d" % accesses)] * (accesses > 0))
    if kind == SOS:
        return N(b"Sospensione", [L(b"Motivazione", code)], (b"dataInizio", text(when)), *[] if end is None else [(b"dataFine", text(end))])
    return N(b"Conclusione", [L(b"Motivazione", code)], (b"dataAD", text(when)))


class Record:
    """what is sent, and its rows; keys: its events' keys, or its case's"""
    def __init__(self, track, tipo, k, tree, rows):
        self.track, self.tipo, self.case, self.tree, self.rows = track, tipo, case_bits(k), tree, rows
        self.keys = [event_key(r) for r in rows] if track == 2 else [self.case]


class History:
    def __init__(self, rng):
        self.rng, self.w = rng, K.World(rng)
        w = self.w
        w.year, w.quarter = rng.choice([(2018, 2), (2019, 3), (2020, 4), (2009, 1), (2099, 4)])
        w.set_quarter()
        middle = (rng.choice(K.O.REGIONS[1:-1]), b"1b5", w.first + rng.randint(2, 6), bytes(rng.choice(K.ID_CHARS[1:-1]) for _ in range(88)))
        self.keys = [middle, beside(rng, middle, -1), beside(rng, middle, 1)][:rng.randint(1, 3)]
        at = w.first + rng.randint(8, 60)
        self.days = [at, at + 1, at + rng.randint(2, 9), w.last - 1][:rng.randint(1, 4)]
        self.operators = OPERATORS if rng.random() < 0.15 else rng.sample(OPERATORS, rng.randint(2, 4))
        rows = len(self.keys) + (rng.randint(2, 6) if rng.random() < 0.25 else rng.randint(10, 60))
        self.reg = bytes(4 + ROW * rows + rng.choice([0, 0, 1, ROW - 1]))
        self.place, self.last, self.cancelled = 0, {}, {}    # last: each key's last accepted record; cancelled: each case's last cancellation

    # demand 3, from all that was accepted since the register was emptied
    def stands(self, key):
        """E1: "the last accepted Track 2 record with its key inserts or varies it and no accepted cancellation of its case came later" """
        place, tipo, _ = self.last.get(key, (0, b"C", None))
        return tipo != b"C" and (len(key) == 662 or self.cancelled.get(key[:662], -1) < place)

    def standing(self):
        return sorted(k for k in self.last if self.stands(k))

    def by_words(self):
        """what stands, with that record's fields: the register's bytes"""
        stand = self.standing()
        show = lambda bits: [self.last[k][2] for k in stand if len(k) == bits]
        return register(show(662), show(688), len(self.reg))

    def said(self, r):
        """the record's answer by the words of 22 and of all behind it; in Track 1 of 14, 15 and 17"""
        if r.track == 2:
            if len(set(r.keys)) < len(r.keys):
                return 22
            if any(kind_of(x) == "10" and end_of(x) < when_of(x) for x in r.rows):
                return 23
            if not self.stands(r.case):
                return 24
        there = [self.stands(k) for k in r.keys]
        if r.tipo == b"I" and any(there):
            return 14
        if r.tipo != b"I" and not all(there):
            return 15
        if r.track == 2:
            after = {k: self.last[k][2] for k in self.standing() if len(k) == 688 and k[:662] == r.case}
            after.update(zip(r.keys, r.rows))
            evs = [x for k, x in after.items() if r.tipo != b"C" or k not in r.keys]
            stops, ends = ([x for x in evs if kind_of(x) == of] for of in ("10", "11"))
            if any(when_of(x) < x[29:46] for x in evs):
                return 25
            if any(when_of(x) <= end_of(y) and when_of(y) <= end_of(x) for i, x in enumerate(stops) for y in stops[:i]):
                return 26
            if len(ends) > 1:
                return 27
            if any(when_of(x) > when_of(c) or "0" in end_of(x) and end_of(x) > when_of(c) for c in ends for x in evs):
                return 28
        return 17 if r.tipo == b"I" and len(self.standing()) + len(r.rows) > (len(self.reg) - 4) // ROW else 0

    def judge(self, r, a):
        """the record's answer against the words, where none in front of these was given; then it is logged"""
        said = self.said(r)
        if a != said and a not in (10, 11, 12, 13, 20, 21):
            K.diff("words", (ser(r.tree), self.reg), (said,), (a,))
        if r.track == 2:
            self.count(r, a)
        elif r.tipo == b"C" and a == 0:
            days = [k[:681] for k in self.standing() if len(k) == 688 and k[:662] == r.case and k[662:664] == "01"]
            C["visits of several operators on one day carried away with their case"] += len(set(days)) < len(days)
        if a == 0:
            self.place += 1
            for k, row in zip(r.keys, r.rows):
                self.last[k] = self.place, r.tipo, row
            if r.track == 1 and r.tipo == b"C":
                self.cancelled[r.case] = self.place

    def count(self, r, a):
        tipo, codes = r.tipo.decode(), {}
        for k, row in zip(r.keys, r.rows):
            if k[662:664] != "01":
                if self.stands(k) and self.last[k][2][681:688] != row[681:688]:
                    C["%s with another motivo or Motivazione: %d" % (tipo, a)] += 1
                codes.setdefault(k, set()).add(row[681:688])
                if tipo == "V" and a == 0 and "1" in self.last[k][2][714:] and self.last[k][2][714:] != row[714:]:
                    C["an evaluation kept, then varied: 0"] += 1
            elif tipo == "I" and a == 0 and k in self.last and any(x[:681] == k[:681] and x != k for x in self.standing()):
                C["a visit inserted again beside another operator's: 0"] += 1
        if any(len(of) > 1 for of in codes.values()):
            C["a motivo or Motivazione twice in a record: %d" % a] += 1
        days = [k[:681] for k in r.keys if k[662:664] == "01"]
        C["visits of one day in one accepted record"] += a == 0 and len(set(days)) < len(days)

    def send(self, track, records):
        if not records:
            return
        sub = ser(root(track, [r.tree for r in records]))
        out = K.check_submit(sub, track, self.w.year, self.w.quarter, self.reg, K.answers_for(self.rng, len(records)))
        if out[0]:
            return
        for r, a in zip(records, out[6]):
            self.judge(r, a)
        self.reg = out[5]
        if self.reg != self.by_words():
            K.diff("demand 3", (sub, track, self.w.year, self.w.quarter, self.reg), (self.by_words(),), (self.reg,))

    # what is sent
    def case(self, tipo, k):
        tree = K.rec1(self.w, tipo, k, True)
        return Record(1, tipo, k, tree, [case_row(k, tree)])

    def events(self, tipo, k, evs, fault=None):
        evs = sorted(evs, key=lambda e: e[0])                # the schema's order; of one kind as they are
        ends = [e for e in evs if e[0] == CON]
        evs = [e for e in evs if e[0] != CON] + ends[:1]
        trees = [event_tree(self.rng, e, fault) for e in evs]
        tree = N(b"Assistenza", head(tipo, 2, k) + [N(b"Eventi", [N(b"PresaInCarico", [L(b"Id_Rec", k[3])], (b"data", text(k[2])))] + trees)])
        return Record(2, tipo, k, tree, [event_row(k, e) for e in evs])

    def visit(self, d=None, operator=None):
        rng = self.rng
        return ERO, d or rng.choice(self.days), operator or rng.choice(self.operators), None, rng.choice([0, 0, 1, 3, 99]), 0

    def other(self, kind=None, d=None):
        """an event whose code is no part of its key"""
        rng = self.rng
        kind = rng.choice([RIV, RIV, SOS, SOS, CON]) if kind is None else kind
        d = d or (self.w.last if kind == CON and rng.random() < 0.8 else rng.choice(self.days))
        if kind == RIV:
            conferma = rng.choice([1, 2])
            return RIV, d, rng.choice([1, 2]), None, 0, conferma, *[K.some_value(rng)] * (conferma == 2)
        if kind == SOS:
            return SOS, d, rng.choice(STOPS), None if d == self.days[-1] and rng.random() < 0.3 else d + rng.choice([0, 0, 1]), 0, 0
        return CON, d, rng.choice(ENDS), None, 0, 0

    def like(self, key):
        """an event of that key, with fields of its own"""
        kind, d = int(key[662:664], 2), int(key[664:681], 2)
        return self.visit(d, int(key[681:], 2)) if kind == ERO else self.other(kind, d)

    def mixed(self, k):
        """a record of any type over few days, few operators and all kinds"""
        rng = self.rng
        tipo = rng.choice([b"I", b"I", b"I", b"V", b"V", b"C"])
        stand = [x for x in self.standing() if len(x) == 688 and x[:662] == case_bits(k)]
        evs = []
        for _ in range(rng.choice([1, 1, 1, 2, 2, 3, 5])):
            again = stand and rng.random() < (0.1 if tipo == b"I" else 0.85)
            ev = self.like(rng.choice(stand)) if again else self.visit() if rng.random() < 0.5 else self.other()
            if ev[0] == ERO and rng.random() < 0.12:         # another operator
                ev = self.visit(ev[1])
            if all(e[:2] != ev[:2] or ERO == ev[0] and e[2] != ev[2] for e in evs) or rng.random() < 0.12:
                evs.append(ev)
        fault = rng.choice([13, 21, 10, 23, 24, 25]) if rng.random() < 0.06 else None
        if fault == 10:
            evs.append(self.visit(self.w.first - 1))
        elif fault == 23:
            evs.append((SOS, self.days[0] + 1, 1, self.days[0], 0, 0))
        elif fault == 24:
            k = (k[0], b"zz9", *k[2:])
        elif fault == 25:
            evs.append(self.visit(k[2] - 1))
        return self.events(tipo, k, evs, fault)

    def together(self, k):
        """several operators on one day in one record, in any order; now and then one of them twice"""
        rng, d = self.rng, self.rng.choice(self.days)
        of = rng.sample(self.operators, rng.randint(2, len(self.operators)))
        if rng.random() < 0.25:
            of.insert(rng.randint(0, len(of)), rng.choice(of))
        return [self.events(b"I", k, [self.visit(d, x) for x in of])]

    def apart(self, k):
        """several operators on one day, a record each, and then one of them: again, varied, cancelled, inserted anew, by one who didn't come"""
        rng, d = self.rng, self.rng.choice(self.days)
        a, b, *rest = rng.sample(self.operators, len(self.operators))
        c = rest[0] if rest else next(x for x in OPERATORS if x not in (a, b))
        one = lambda tipo, x: self.events(tipo, k, [self.visit(d, x)])
        records = [one(b"I", a), one(b"I", b)]
        for way in rng.sample([(b"I", a), (b"V", b), (b"V", c), (b"C", c), (b"C", a), (b"V", a), (b"I", a), (b"C", b), (b"I", b)], rng.randint(1, 6)):
            records.append(one(*way))
        return records

    def one_key(self, k):
        """events of one kind and day that differ in the code, in one record and in several"""
        rng, kind = self.rng, self.rng.choice([RIV, SOS, CON])
        d = self.w.last if kind == CON else rng.choice(self.days)
        records = [self.events(b"I", k, [self.other(kind, d) for _ in range(rng.choice([1, 1, 2]))])]
        for tipo in rng.choice([b"IV", b"V", b"VC", b"C", b"CI", b"II", b"VV"]):
            records.append(self.events(bytes([tipo]), k, [self.other(kind, d)] + [self.visit(d)] * (rng.random() < 0.15)))
        return records

    def file(self):
        """a file of Track 2, or its records in files of their own"""
        rng = self.rng
        k = rng.choice(self.keys)
        several = lambda k: [self.mixed(k) for _ in range(rng.choice([1, 1, 2, 3]))]
        records = rng.choice([self.together, self.apart, self.one_key, several, several])(k)
        if rng.random() < 0.5:
            self.send(2, records)
        else:
            for r in records:
                self.send(2, [r])

    def cases(self):
        """Track 1: a case is cancelled, with all that it has, and perhaps inserted again; or varied"""
        k = self.rng.choice(self.keys)
        self.send(1, [self.case(tipo, k) for tipo in self.rng.choice([[b"C"], [b"C", b"I"], [b"C", b"I"], [b"V"], [b"I"]])])


# ------------------------------------------------------------------ registers
def said(name, reg, answer, h):
    """a register and its answer by the words"""
    C["%s: %d" % (name, answer)] += 1
    if K.check_sound(reg) != answer:
        K.diff("words", (name, reg), (answer,), ())
    if h.rng.random() < 0.3:
        k = h.rng.choice(h.keys)
        K.check_submit(ser(root(2, [h.mixed(k).tree])), 2, h.w.year, h.w.quarter, reg, b"\x77")
        K.check_find(reg, (k[0], k[1], text(k[2]), k[3]))


def registers(h):
    """over the rows that stand, and over rows of one case alone: the order by code, one key twice, the old layout"""
    rng, stand = h.rng, h.standing()
    cases, events = ([h.last[k][2] for k in stand if len(k) == n] for n in (662, 688))
    said("rows that stand", h.reg, 0, h)
    for i, (a, b) in enumerate(zip(events, events[1:])):
        if a[:681] == b[:681]:                               # two operators: swapped, and the second one the first
            said("rows with codes that don't ascend", register(cases, events[:i] + [b, a] + events[i + 2:], len(h.reg)), 3, h)
            said("rows with codes that don't ascend", register(cases, events[:i + 1] + [b[:681] + a[681:688] + b[688:]] + events[i + 2:], len(h.reg)), 3, h)
            break
    old = lambda r: r[:681] + r[688:705] + r[681:688] + r[705:]
    if events:
        said("rows of the old layout", register(cases, list(map(old, events)), len(h.reg)), 3, h)
        i = rng.randrange(len(events))
        said("rows of the old layout", register(cases, events[:i] + [old(events[i])] + events[i + 1:], len(h.reg)), 3, h)
    k, d = h.keys[0], h.days[0]
    case = case_row(k, K.rec1(h.w, b"I", k, True))
    for _ in range(3):                                       # by date first, then by code
        rows = [event_row(k, h.visit(d + rng.randint(0, 1), rng.choice(OPERATORS))) for _ in range(rng.randint(2, 3))]
        order = [int(r[664:688], 2) for r in rows]
        up = all(a < b for a, b in zip(order, order[1:]))
        said("rows with codes that ascend" if up else "rows with codes that don't ascend", register([case], rows, 4 + ROW * 5), 0 if up else 3, h)
    rows = [event_row(k, h.visit(d, x)) for x in sorted(rng.sample(OPERATORS, rng.randint(2, 14)))]
    said("rows with codes that ascend", register([case], rows), 0, h)
    revaluations = [event_row(k, (RIV, d, motivo, None, 0, *K.conferma_and_value(rng))) for motivo in rng.choice([(1, 2), (2, 1), (1, 1)])]
    said("rows of one day with another motivo", register([case], revaluations + rows, 4 + ROW * 20), 3, h)
    said("rows that stand", register([case], revaluations[:1] + rows, 4 + ROW * 20), 0, h)


def g_operators(seed, count):
    plain, i = K.Buf, 0
    while C["submit"] < count:
        i += 1
        K.Buf, EdgeBuf.at_end = (plain, EdgeBuf, EdgeBuf)[i % 3], i % 3 == 1      # edges as in dense.py's `edge`
        h = History(random.Random("operators %d %d" % (seed, i)))
        h.send(1, [h.case(b"I", k) for k in h.keys])
        for _ in range(h.rng.randint(4, 16)):
            h.cases() if h.rng.random() < 0.1 else h.file()
        registers(h)


if __name__ == "__main__":
    t0 = time.time()
    globals()["g_" + sys.argv[1]](int(sys.argv[2]), int(sys.argv[3]))
    print(json.dumps({"generator": sys.argv[1], "seed": int(sys.argv[2]), "seconds": round(time.time() - t0), "counts": dict(sorted(C.items()))}))
    missed = [n for n in NEEDED if not C[n]]
    if missed:
        sys.exit("operators: not met: " + "; ".join(missed))
    sys.exit(C["diff"] > 0)
