"""cancel: cancellation files (E3) of cases with events of several quarters, beside cases with near keys: outputs of every length that matters, wrong texts and
   periods, unsound registers, several of these at once. Each file is then submitted: every record must be answered 0, and the register must be that of the rows
   of all other events, which are chosen and put together here. So each case is undone, quarter by quarter, until it has no event.
   dates: each day as that of a taking in and of each kind of event, and as a suspension's first and last.
   usage: cancel.py cancel|dates SEED COUNT   (COUNT: the files asked for; of dates the days, 0 for all)"""
import itertools, json, random, sys, time
from datetime import date
import compare as K
import oracle as O
from compare import C, L, N, head, root, ser
from dense import EdgeBuf, beside
from operators import CON, ENDS, ERO, OPERATORS, RIV, SOS, STOPS, case_row, event_tree, text

SIZES = [1, 0, 127, 128, 129, 255, 256, 257, 300, 2, 384, 385, 513]    # events of the quarter in the first histories
CODES, CONCLUSIONS = set(), itertools.cycle(ENDS)            # CODES: of all events in written files, with their kinds
NEEDED = ["cancel_file %d" % a for a in (0, 1, 3, 30, 31, 32, 33)] + ["events in the quarter: %d" % n for n in SIZES + [1473]] + [
    "output as long as the file", "output one byte short", "output longer", "outputs of every length", "files of more than one record",
    "registers made by files", "cancelled: a suspension begun in an earlier quarter", "cancelled: one without end",
    "left: a suspension begun in the quarter and ended later", "left: one without end, begun earlier", "left: an event of a year that can't be declared",
    "conferma 2 in another quarter: 0", "conferma 2 of another case: 0", "undone: no event left", "submitted again: 15"]


def day_of(d):
    return d.toordinal() - date(1900, 1, 1).toordinal()


def quarter_of(day):
    d = date.fromordinal(day + date(1900, 1, 1).toordinal())
    return d.year, (d.month + 2) // 3


def span(year, quarter):
    """the first day and the last"""
    return day_of(date(year, 3 * quarter - 2, 1)), day_of(date(year, 3 * quarter, 31 if quarter in (1, 4) else 30))


def placed(e):
    """the quarter in which check 10 places an event: that of its end where it has one, which only a suspension has"""
    return quarter_of(e[1] if e[3] == O.NO_END else e[3])


def size(e):
    """the bytes of an event's text"""
    kind, _, code, end, accesses = e[:5]
    return [83, 75 + (code > 9) + (0 if not accesses else 15 + (accesses > 9)), 79 if end == O.NO_END else 101, 75 + (code > 9)][kind]


def size_of(evs):
    return 27 + 317 * records_of(evs) + sum(map(size, evs))


def records_of(evs):
    return (len(evs) + 127) // 128


def texts(k):
    return k[0], k[1], text(k[2]), k[3]


def any_case(rng, k):
    return O.pack_case((int(k[0]), *k[1:]), (rng.choice([1880, 1899]), rng.choice(K.PREV), tuple(rng.randint(0, 3) for _ in range(5)) + (rng.randint(0, 2),)))


class Held:
    """what a register holds: cases {key: row}, events {key: [event]}"""
    def __init__(self, rng, cases, events, spare=0):
        self.rng, self.cases, self.events = rng, cases, events
        self.length = 4 + O.ROW * (len(cases) + sum(map(len, events.values()))) + spare
        self.reg = self.bytes()

    def bytes(self):
        """the rows of a group in the order of their bytes, which is that of their keys: no two have one key"""
        rows = sorted(O.pack_event((int(k[0]), *k[1:]), e) for k, evs in self.events.items() for e in evs)
        return (len(self.cases).to_bytes(2, "big") + len(rows).to_bytes(2, "big") + b"".join(sorted(self.cases.values()) + rows)).ljust(self.length, b"\0")

    def of(self, k, quarter):
        return [e for e in self.events[k] if placed(e) == quarter]

    def ask(self, k, quarter, room):
        """a file asked for, with an output of so many bytes; the words: what is answered, how long the file is, and that no other byte changes"""
        evs, out = self.of(k, quarter), self.rng.randbytes(room)
        got = K.check_cancel_file(self.reg, texts(k), *quarter, out)
        said = 31 if any(e[5] == 2 for e in evs) else 32 if not evs else 33 if room < size_of(evs) else 0
        n = 0 if said else size_of(evs)
        if got[:2] != (said, n) or len(got[2]) != room or got[2][n:] != out[n:]:
            K.diff("words", (self.reg, *texts(k), *quarter, out), (said, n), got)
        C["files written"] += said == 0
        C["bytes written"] += n
        C["files of more than one record"] += said == 0 and len(evs) > 128
        return got

    def rooms(self, k, quarter):
        """outputs of every length that matters: for a file, or where there is none"""
        n, rng = size_of(self.of(k, quarter)), self.rng
        for room in (n - 1, n + 1, 0, rng.randint(0, n), n + rng.randint(2, 3000)):
            answer = self.ask(k, quarter, room)[0]
            C["output one byte short"] += answer == 33 and room == n - 1
            C["output longer"] += answer == 0

    def undo(self, k, quarter):
        """the file is written and submitted; whether it was"""
        evs, rng = self.of(k, quarter), self.rng
        C["events in the quarter: %d" % len(evs)] += 1
        answer, n, out = self.ask(k, quarter, size_of(evs))
        if answer or not evs:
            return False
        C["output as long as the file"] += 1
        self.count(k, quarter)
        records = records_of(evs)
        before, self.events[k] = self.reg, [e for e in self.events[k] if placed(e) != quarter]
        self.reg = self.bytes()
        for answers in (rng.randbytes(records), rng.randbytes(records + rng.choice([1, 7, 600]))):
            told = K.check_submit(out[:n], 2, *quarter, before, answers)
            C["files submitted"] += 1
            if told != (0, 0, records, records, 0, self.reg, bytes(records) + answers[records:], 0):
                K.diff("undone", (out[:n], 2, *quarter, before, answers), (records, self.reg), told)
        if told[0] == 0:                                     # what the file says: the rows, in their order
            said = [(O.case_key(r), [e[:6] for e, _ in O.events_of(r)]) for r in O.parse(out[:n]).items]
            rows, case = sorted(e[:6] for e in evs), (int(k[0]), *k[1:])
            if said != [(case, rows[i:i + 128]) for i in range(0, len(rows), 128)]:
                K.diff("words", (out[:n], before), (rows,), (said,))
        if rng.random() < 0.1:                               # one answer too few; another quarter; the file once more
            K.check_submit(out[:n], 2, *quarter, before, bytes(records - 1))
            K.check_submit(out[:n], 2, quarter[0], quarter[1] % 4 + 1, before, bytes(records))
            C["submitted again: 15"] += set(K.check_submit(out[:n], 2, *quarter, self.reg, bytes(records))[6]) == {15}
        return True

    def count(self, k, quarter):
        for e in self.events[k]:
            here = placed(e) == quarter
            if here:
                CODES.add((e[0], e[2]))
            C["codes written, of 35"] = len(CODES)
            if e[0] == SOS and here:
                C["cancelled: a suspension begun in an earlier quarter"] += quarter_of(e[1]) < quarter
                C["cancelled: one without end"] += e[3] == O.NO_END
            elif e[0] == SOS:
                C["left: a suspension begun in the quarter and ended later"] += quarter_of(e[1]) == quarter
                C["left: one without end, begun earlier"] += e[3] == O.NO_END and placed(e) < quarter
            C["left: an event of a year that can't be declared"] += placed(e) < (2009, 1)
        C["conferma 2 in another quarter: 0"] += any(e[5] == 2 for e in self.events[k])
        C["conferma 2 of another case: 0"] += any(e[5] == 2 for x in self.events if x != k for e in self.of(x, quarter))

    def undo_all(self, k):
        """the quarters in any order; what stays is refused by 31, or of a year that can't be declared"""
        quarters = sorted({placed(e) for e in self.events[k] if placed(e) >= (2009, 1)})
        for quarter in self.rng.sample(quarters, len(quarters)):
            self.rooms(k, quarter)
            if self.undo(k, quarter):
                self.ask(k, quarter, self.rng.choice([0, 1000]))
        if quarters and not self.events[k]:
            C["undone: no event left"] += 1

    def wrong(self, k, quarter, most):
        """each refusal alone, `most` of each, and several at once"""
        rng, right = self.rng, texts(k)
        n = size_of(self.of(k, quarter))
        some = lambda of: rng.sample(of, min(len(of), most))

        def refused(said, reg, key, year, q, room=n):
            answer = K.check_cancel_file(reg, key, year, q, rng.randbytes(room))[0]
            if said and answer != said:
                K.diff("words", (reg, *key, year, q), (said,), (answer,))
        for year, q in some([(2008, 4), (2100, 1), (0, 1), (2 ** 32 + quarter[0], quarter[1]), (2 ** 64 - 1, 1), (quarter[0], 0), (quarter[0], 5),
                             (quarter[0], 2 ** 32 + quarter[1]), (quarter[0], 2 ** 64 - 1)]):
            refused(1, self.reg, right, year, q)
        for i, x in enumerate(right):
            for y in some([b"", x[:-1], x[1:], x + b" ", b" " + x[1:], x[:-1] + rng.randbytes(1), rng.randbytes(1) + x[1:], x * 3, rng.choice(K.NEAR),
                           x.swapcase(), b"999", b"%d" % int(k[0])]):
                refused(0 if len(y) == len(x) else 30, self.reg, right[:i] + (y,) + right[i + 1:], *quarter)
        for x in [near(rng, k) for _ in range(most)]:
            if x not in self.cases:
                refused(30, self.reg, texts(x), *quarter)
        unsound = [K.mutate_reg(rng, self.reg) for _ in range(most)] + [b"", self.reg[:3], self.reg + b"\1"]
        for reg in unsound:
            refused(0 if len(reg) > 3 else 3, reg, right, *quarter)
        for _ in range(2 * most):
            maybe = lambda wrong, right: wrong if rng.random() < 0.4 else right
            reg, region, year, q = maybe(rng.choice(unsound[-3:]), self.reg), maybe(b"11", right[0]), maybe(2100, quarter[0]), maybe(0, quarter[1])
            first = 1 if (year, q) != quarter else 3 if reg != self.reg else 30 if region == b"11" else 0
            refused(first, reg, (region, *right[1:]), year, q, maybe(max(0, n - rng.choice([1, 100])), n))


def near(rng, k):
    while True:
        x = beside(rng, k, rng.choice([-1, 1]))
        if x[2] >= 0:
            return x


# ------------------------------------------------------------------ events
def suspensions(rng, first, last, days):
    """no two share a day; they begin and end on some days, on those of `days` among them"""
    at = sorted({d for d in days + [rng.randint(first, last) for _ in range(rng.choice([0, 1, 2, 6, 20]))] if first <= d <= last})
    out = []
    while at:
        d = at.pop(0)
        if rng.random() < 0.2:
            out.append((SOS, d, rng.choice(STOPS), d, 0, 0))
        elif at and rng.random() < 0.8:
            out.append((SOS, d, rng.choice(STOPS), at.pop(0), 0, 0))
        elif not at and rng.random() < 0.7:
            out.append((SOS, d, rng.choice(STOPS), O.NO_END, 0, 0))
    return out


def revaluation(rng, d, may, zeros):
    """with conferma 2 it keeps an evaluation; `zeros`: the share of those that a conversion left with none"""
    conferma = rng.choice(may)
    return RIV, d, rng.choice([1, 2]), O.NO_END, 0, conferma, O.NO_VALUE if conferma == 1 or rng.random() < zeros else K.some_value(rng)


def events(rng, k, quarters, sizes, conferma, zeros):
    """a case's events: of each quarter as many as `sizes` says, some before; conferma: those a Rivalutazione of each quarter may have"""
    spans = [span(*q) for q in quarters]
    borders = [d for a, b in spans for d in (a - 1, a, b, b + 1)]
    early = max(k[2], spans[0][0] - rng.choice([0, 0, 50, 400]))
    evs = suspensions(rng, early, rng.choice(spans)[1], [d for d in borders if rng.random() < 0.4]) if rng.random() < 0.8 else []
    of = lambda q: [e for e in evs if placed(e) == q]
    ended = rng.random() < 0.4 and sizes[-1] > 0             # with a Conclusione, in the last quarter
    for q, (a, b), n, may in zip(quarters, spans, sizes, conferma):
        n -= ended and q == quarters[-1]
        for e in sorted(of(q), key=lambda e: (quarter_of(e[1]) < q, rng.random()))[:max(0, len(of(q)) - n)]:
            evs.remove(e)
        n -= len(of(q))
        room = [(kind, d, code) for d in range(max(a, k[2]), b + 1) for kind, codes in ((RIV, [0]), (ERO, OPERATORS)) for code in codes]
        edge = [x for x in room if x[1] in (a, b)]
        chosen = set(rng.sample(edge, min(len(edge), n, rng.choice([0, 1, 2, 3]))))
        rest = [x for x in room if x not in chosen]
        for kind, d, code in sorted(chosen) + rng.sample(rest, min(len(rest), n - len(chosen))):
            evs.append(revaluation(rng, d, may, zeros) if kind == RIV else
                       (ERO, d, code, O.NO_END, rng.choice([0, 0, 1, 9, 10, 99, rng.randint(0, 99)]), 0))
    if ended:
        latest = max([d for e in evs for d in (e[1], e[3]) if d <= O.LAST_DAY] + [spans[-1][0], k[2]])
        evs.append((CON, rng.choice([latest, spans[-1][1]]), next(CONCLUSIONS), O.NO_END, 0, 0))
    if early < spans[0][0] and rng.random() < 0.7:           # of an earlier quarter, which may be one that can't be declared
        evs.append(revaluation(rng, rng.randint(early, spans[0][0] - 1), [1, 1, 2], zeros))
    return evs


def history(rng, i):
    """three or four cases, the first with events of up to four quarters"""
    year, quarter = rng.choice([(2018, 2), (2019, 3), (2020, 4), (2009, 1), (2009, 2), (2098, 4), (2099, 1)])
    quarters = [((4 * year + quarter - 1 + j) // 4, (quarter - 1 + j) % 4 + 1) for j in range(rng.randint(2, 4))]
    by_files = i > len(SIZES) and i % 4 == 0
    first = span(*quarters[0])[0]
    taken = first + rng.choice([0, 1, 20]) if by_files else max(0, first - rng.choice([0, 0, 1, 40, 500, 40000]))
    middle = (rng.choice(O.REGIONS[1:-1]), b"1b5", taken, bytes(rng.choice(K.ID_CHARS[1:-1]) for _ in range(88)))
    keys, most = [middle], rng.randint(3, 4)
    while len(keys) < most:
        k = near(rng, rng.choice(keys))
        if k not in keys and (not by_files or k[2] >= first):
            keys.append(k)
    sizes = {k: [rng.choice([0, 1, 2, 3, 5, 8, 13, 40] if k is middle else [0, 1, 2, 5]) for _ in quarters] for k in keys}
    if i <= len(SIZES) or not by_files and rng.random() < 0.25:
        sizes[middle][rng.randrange(len(quarters))] = SIZES[i - 1] if i <= len(SIZES) else rng.choice(SIZES[2:9] + [rng.randint(100, 700)])
    conferma = lambda k: rng.choice([[1]] if k is middle and i <= len(SIZES) else [[1], [1], [1, 1, 1, 2], [2, 1]])
    held = {k: events(rng, k, quarters, sizes[k], [conferma(k) for _ in quarters], 0 if by_files else 0.4) for k in keys}
    if by_files:
        h = made_by_files(rng, held)
    else:
        h = Held(rng, {k: any_case(rng, k) for k in keys}, held, rng.choice([0, 0, 1, O.ROW - 1, O.ROW, 1000]))
    return h, middle, quarters


def made_by_files(rng, held):
    """the cases and then their events, inserted quarter by quarter through the calls"""
    w, cases = K.World(rng), {}
    rows = len(held) + sum(map(len, held.values())) + rng.choice([0, 0, 3])
    reg = bytes(4 + O.ROW * rows)
    for k in held:
        tree = K.rec1(w, b"I", k, True)
        cases[k] = int(case_row(k, tree), 2).to_bytes(O.ROW, "big")
        reg = K.check_submit(ser(root(1, [tree])), 1, *quarter_of(k[2]), reg, b"?")[5]
    for quarter in sorted({placed(e) for evs in held.values() for e in evs}):
        records = []
        for k, evs in held.items():
            evs = sorted(e for e in evs if placed(e) == quarter)
            trees = [event_tree(rng, e[:3] + (None if e[3] == O.NO_END else e[3],) + e[4:]) for e in evs]
            for j in range(0, len(trees), 128):
                taking = N(b"PresaInCarico", [L(b"Id_Rec", k[3])], (b"data", text(k[2])))
                records.append(N(b"Assistenza", head(b"I", 2, k) + [N(b"Eventi", [taking] + trees[j:j + 128])]))
        reg = K.check_submit(ser(root(2, records)), 2, *quarter, reg, bytes(len(records)))[5]
    h = Held(rng, cases, held, len(reg) - 4 - O.ROW * (len(held) + sum(map(len, held.values()))))
    if h.reg != reg:
        K.diff("made by files", (reg,), (h.reg,), (reg,))
    C["registers made by files"] += 1
    return h


def full_registers(rng):
    """the most events that a case can have of a quarter, 1,473, with the longest texts; and registers of 4,096 rows"""
    first, last = span(2018, 3)
    k = (b"010", b"101", first, b"~" * 88)
    days = range(first, last + 1)
    most = [(RIV, d, 1, O.NO_END, 0, 1) for d in days] + [(ERO, d, x, O.NO_END, 10 + d % 90, 0) for d in days for x in OPERATORS]
    most += [(SOS, d, 9, d, 0, 0) for d in days] + [(CON, last, 99, O.NO_END, 0, 0)]
    if size_of(most) != 138503:
        K.diff("words", (), (138503,), (size_of(most),))
    h = Held(rng, {k: any_case(rng, k)}, {k: most}, O.ROW)
    h.ask(k, (2018, 3), 2 ** 20)
    h.undo_all(k)
    for before, of, behind in ((0, 4093, 0), (1500, 1000, 1500), (4091, 1, 1)):
        keys = sorted([k, near(rng, k), (b"020", b"101", first, b"!" * 88)])
        held = {x: [(ERO, x[2] + j // 14, OPERATORS[j % 14], O.NO_END, j % 100, 0) for j in range(n)] for x, n in zip(keys, (before, of, behind))}
        h = Held(rng, {x: any_case(rng, x) for x in keys}, held, rng.choice([0, O.ROW]))
        h.undo_all(keys[1])


def every_length(h, k, quarter):
    """an output of every length up to a little more than the file's"""
    for room in range(size_of(h.of(k, quarter)) + 3):
        h.ask(k, quarter, room)
    C["outputs of every length"] += 1


def g_cancel(seed, count):
    plain, i = K.Buf, 0
    full_registers(random.Random("cancel full %d" % seed))
    while C["cancel_file"] < count:
        i += 1
        K.Buf, EdgeBuf.at_end = (plain, EdgeBuf, EdgeBuf)[i % 3], i % 3 == 1      # edges as in dense.py's `edge`
        h, k, quarters = history(random.Random("cancel %d %d" % (seed, i)), i)
        if i <= 2 and h.events[k]:
            every_length(h, k, min(map(placed, h.events[k]), key=lambda q: (q < (2009, 1), len(h.of(k, q)))))
        h.wrong(k, h.rng.choice(quarters), 12 if i <= 3 else 2)
        for q in quarters:
            if not h.of(k, q):
                h.rooms(k, q)
                h.undo(k, q)
        for x in h.cases:
            h.undo_all(x)


def g_dates(seed, count):
    days = range(O.LAST_DAY + 1) if count == 0 else sorted(random.Random("dates %d" % seed).sample(range(O.LAST_DAY + 1), count))
    first, last = day_of(date(2009, 1, 1)), O.LAST_DAY
    for d in days:
        rng = random.Random("dates %d %d" % (seed, d))
        k = (rng.choice(O.REGIONS), b"1b5", d, rng.choice([b"A", b"z", b"!"]) * 88)
        if d < first:                                        # a year that can't be declared: each later day is the end of one of these
            evs = [(SOS, d, rng.choice(STOPS), first + d % (last + 1 - first), 0, 0)]
        else:
            evs = [(RIV, d, rng.choice([1, 2]), O.NO_END, 0, 1), (ERO, d, rng.choice(OPERATORS), O.NO_END, rng.choice([0, 5, 10]), 0),
                   (SOS, d, rng.choice(STOPS), rng.choice([d, O.NO_END]), 0, 0), (CON, d, rng.choice(ENDS), O.NO_END, 0, 0)]
        h = Held(rng, {k: any_case(rng, k)}, {k: evs})
        if d % 16:
            h.ask(k, placed(evs[0]), size_of(evs))
        else:
            h.undo(k, placed(evs[0]))


if __name__ == "__main__":
    t0 = time.time()
    globals()["g_" + sys.argv[1]](int(sys.argv[2]), int(sys.argv[3]))
    print(json.dumps({"generator": sys.argv[1], "seed": int(sys.argv[2]), "seconds": round(time.time() - t0), "counts": dict(sorted(C.items()))}))
    missed = [n for n in NEEDED if not C[n]] + ["all codes"] * (len(CODES) < 35)
    if sys.argv[1] == "cancel" and missed:
        sys.exit("cancel: not met: " + "; ".join(missed))
    sys.exit(C["diff"] > 0)
