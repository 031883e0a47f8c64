"""evaluation: the evaluation in force on a day (E6), of cases with neighbours and several Rivalutazioni: registers that are put together here, and histories of
   files in which they are inserted, varied, cancelled and converted. Asked on every day around each of them, around the taking in and the conclusion; then days
   and texts that are not allowed, and unsound registers, near-misses of a kept evaluation among them. What is in force is also worked out here, from what was
   put in or accepted.
   convert: registers in rows of 91 bytes, sound and unsound, into new ones of every length that matters, full of other bytes. Each converted one is put together
   here too; it is asked for every case and for evaluations, and a Rivalutazione of it is varied and then seen. Whole histories over 91 bytes are converted and
   go on, beside the same ones over 96.
   usage: evaluations.py evaluation|convert SEED COUNT   (COUNT: the calls of that name)"""
import json, random, re, sys, time
from datetime import date
import compare as K
import oracle as O
from cancel import near, quarter_of, span, texts
from compare import C, L, N, head, root, ser
from dense import EdgeBuf
from operators import CON, ENDS, ERO, OPERATORS, RIV, ROW, SCALES, SOS, STOPS, bits, case_bits, event_row, event_tree, register, text

OLD, MOST, LAST = 91, 4096, O.LAST_DAY                       # a row's bytes before E6; the most rows; the last day
SIZES = [0, 1, 2, 3, 5, 20, 127, 128, 129, 300]              # Rivalutazioni of the first registers' middle case
NEEDED = {
    "evaluation": ["evaluation %d" % a for a in (0, 3, 30)] + ["Rivalutazioni of a case: %d" % n for n in SIZES] + [
        "on the day of one that keeps an evaluation", "on the day before one", "on the day of taking in", "on the day before the taking in: 30",
        "after the conclusion", "the latest of several", "before one that comes later", "passed over: conferma 1", "passed over: zeros",
        "passed over, back to an earlier one", "passed over, back to the case's own", "varied from 2 to 1", "varied from 1 to 2", "varied from 2 to 2", "varied from zeros to an evaluation", "cancelled",
        "a case carried away and inserted again", "the case's own varied", "discarded, and nothing seen of it", "converted in a history", "days not allowed: 30",
        "texts not allowed: 30", "another case's texts", "unsound, and all else wrong: 3", "an odd row: 0", "an odd row: 3", "registers of 4,096 rows"],
    "convert": ["convert %d" % a for a in (0, 3, 33)] + ["rows converted: %d" % n for n in (0, 1, MOST)] + [
        "new of 0 to 3 bytes: 33", "new of 0 to 3 bytes, nothing in the old: 33", "new of 4 bytes, nothing in the old: 0", "new just long enough: 0",
        "new one byte short: 33", "new longer: 0", "unsound, and the new one too short: 3", "rows of 96 bytes: 3", "rows of 96 bytes, none or one case: 0",
        "rows of the layout before E2: 3", "a zero bit set: 3", "events that can't stand together: 3", "rows out of order, twice or without a case: 3",
        "more than 4,096 rows: 3", "lent unconverted: 3", "lent unconverted: 0", "cases found", "evaluations passed over", "varied, and seen",
        "histories converted", "files behind a conversion", "registers that differ in evaluations alone", "registers that differ no more"]}


# ------------------------------------------------------------------ the words, over what was put in
def told_of(value):
    """N5: "the six numbers in the order of R16 to R21, then the prevalente's five characters, unused ones 0" """
    return bytes(value[0]) + value[1].ljust(5, b"\0")


def number(on):
    """the day's number, or None where the text is no date (D3)"""
    if not re.fullmatch(rb"[0-9]{4}-[0-9]{2}-[0-9]{2}", on) or not b"1900" <= on[:4] <= b"2099":
        return None
    try:
        return (date.fromisoformat(on.decode()) - date(1900, 1, 1)).days
    except ValueError:
        return None


class Case:
    """what stands of a case: its own evaluation, its Rivalutazioni {day: (conferma, evaluation or None)} and the day of its conclusion"""
    def __init__(self, k, own):
        self.k, self.own, self.revs, self.ends = k, own, {}, None

    def on(self, d):
        value = self.own
        for when, (_, kept) in sorted(self.revs.items()):
            if when <= d and kept:
                value = kept
        return told_of(value)

    def days(self):
        """every day around each of its days, and the first and the last of all"""
        of = {self.k[2], *self.revs, *([] if self.ends is None else [self.ends])}
        return sorted(d for d in {0, LAST, *(x + step for x in of for step in (-1, 0, 1))} if 0 <= d <= LAST)

    def count(self, d):
        """what a call on that day met"""
        if d < self.k[2]:
            C["on the day before the taking in: 30"] += d == self.k[2] - 1
            return
        past = [x for when, x in sorted(self.revs.items()) if when <= d]
        kept = [i for i, x in enumerate(past) if x[1]]
        over = past[kept[-1] + 1:] if kept else past
        C["on the day of taking in"] += d == self.k[2]
        C["on the day of one that keeps an evaluation"] += bool(kept) and kept[-1] == len(past) - 1 and d in self.revs
        C["on the day before one"] += bool(self.revs.get(d + 1, (1, None))[1])
        C["before one that comes later"] += any(when > d and x[1] for when, x in self.revs.items())
        C["the latest of several"] += len(kept) > 1
        C["after the conclusion"] += self.ends is not None and d > self.ends
        for conferma in (1, 2):
            C["passed over: conferma 1" if conferma == 1 else "passed over: zeros"] += any(x[0] == conferma for x in over)
        C["passed over, back to an earlier one" if kept else "passed over, back to the case's own"] += bool(over)


class Standing:
    """a sound register, and its cases {texts: Case}"""
    def __init__(self, rng, reg, cases):
        self.rng, self.reg, self.cases = rng, reg, {texts(c.k): c for c in cases}

    def said(self, named, on):
        """texts that are allowed and name the case are its own texts alone"""
        case, d = self.cases.get(tuple(named)), number(on)
        if case is None or d is None or d < case.k[2]:
            return 30, bytes(11)
        return 0, case.on(d)

    def ask(self, named, on):
        got, said = K.check_evaluation(self.reg, named, on), self.said(named, on)
        if got != said:
            K.diff("words", (self.reg, *named, on), said, got)
        return got[0]

    def around(self, case, most):
        """`most` of the days that matter, and a few others"""
        days = case.days()
        for d in sorted(self.rng.sample(days, most) if len(days) > most else days) + [self.rng.randint(0, LAST) for _ in range(2)]:
            self.ask(texts(case.k), text(d))
            case.count(d)

    def wrong(self, case, most):
        """`most` of each way in which a day or a text is not allowed"""
        rng, right = self.rng, texts(case.k)
        some = lambda of: rng.sample(of, min(len(of), most))
        day = text(rng.choice(case.days()))
        cut = [day[:i] + bytes([rng.choice(K.BYTES)]) + day[i + 1:] for i in range(10)] + [day[:i] + day[i + 1:] for i in range(10)]
        cut += [b"", day + b"\0", b"\0" + day, day + day, day[::-1], day + b"T00:00", day[:8] + b"00", day[:8] + b"32", day[:5] + b"13-01", day[:5] + b"00-01",
                day[:4] + b"-02-30", b"1899-12-31", b"2100-01-01", b"1900-02-29", b"2018-02-29", rng.randbytes(10)]
        for on in some(K.NEAR) + some(cut):
            answer = self.ask(right, on)
            C["days not allowed: 30"] += answer == 30 and number(on) is None
        day = text(case.k[2])
        for i, x in enumerate(right):
            for y in some([b"", x[:-1], x[1:], x + b" ", b" " + x[1:], x[:-1] + rng.randbytes(1), rng.randbytes(1) + x[1:], x * 3, rng.choice(K.NEAR),
                           x.swapcase(), b"999"]):
                answer = self.ask(right[:i] + (y,) + right[i + 1:], day)
                C["texts not allowed: 30"] += answer == 30
        for k in [near(rng, case.k) for _ in range(most)] + [c.k for c in self.cases.values()]:
            self.ask(texts(k), text(rng.choice([k[2], LAST])))
            C["another case's texts"] += k != case.k

    def unsound(self, case, most):
        """registers that may not be sound, and some that surely are not, with all else right or wrong too"""
        rng, right = self.rng, texts(case.k)
        for _ in range(most):
            K.check_evaluation(K.mutate_reg(rng, self.reg), right, text(rng.choice(case.days())))
        for reg in (b"", self.reg[:3], self.reg + b"\1", self.reg[:-1] + b"\1"):
            wrong = rng.random() < 0.5
            named, on = ((b"11",) + right[1:], rng.choice(K.NEAR)) if wrong else (right, text(case.k[2]))
            got = K.check_evaluation(reg, named, on)
            C["unsound, and all else wrong: 3"] += wrong and got[0] == 3
            if got != (3, bytes(11)):
                K.diff("words", (reg, *named, on), (3, bytes(11)), got)


# ------------------------------------------------------------------ registers put together here
def case_of(rng, k, own):
    return case_bits(k) + bits((rng.choice([1880, 1899]), 12), *[(c, 7) for c in own[1].ljust(5, b"\0")], *[(v, 2) for v in own[0]], (0, 47))


def revaluation_days(rng, taken, n):
    """n days from the taking in on: one after the other, or apart; that of the taking in and the last of all among them"""
    room = LAST - taken + 1
    days = list(range(taken, LAST + 1)) if room <= n else list(range(taken + rng.choice([0, 0, 1, 30]) % (room - n + 1), LAST + 1))[:n]
    if room > n and rng.random() < 0.6:
        days = rng.sample(range(taken, min(LAST, taken + rng.choice([3 * n, 400, 9000])) + 1), min(n, room))
        days[:1] = [taken] if n and taken not in days and rng.random() < 0.5 else days[:1]
        days[-1:] = [LAST] if len(days) > 1 and LAST not in days and rng.random() < 0.2 else days[-1:]
    return days


def events_of(rng, case, n):
    """n Rivalutazioni, with other events on their days and between them"""
    k, mood, evs = case.k, rng.choice([None, None, None, 1, 2, 3]), []
    for d in revaluation_days(rng, k[2], n):
        conferma, value = [K.conferma_and_value(rng), (1, O.NO_VALUE), (2, O.NO_VALUE), (2, K.some_value(rng))][mood or 0]
        case.revs[d] = conferma, value if value != O.NO_VALUE else None
        evs.append((RIV, d, rng.choice([1, 2]), None, 0, conferma, value))
    days = sorted(case.revs) or [k[2]]
    some = lambda most: rng.sample(days, min(len(days), rng.randint(0, most)))
    evs += [(ERO, d, x, None, rng.choice([0, 1, 99]), 0) for d in some(4) for x in rng.sample(OPERATORS, rng.randint(1, 3))]
    evs += [(SOS, d, rng.choice(STOPS), d, 0, 0) for d in some(3)]
    if rng.random() < 0.4:
        case.ends = rng.choice([days[-1], min(LAST, days[-1] + rng.choice([1, 2, 500])), LAST])
        evs.append((CON, case.ends, rng.choice(ENDS), None, 0, 0))
    return evs


def put_together(rng, sizes, spare=0, taken=None):
    """a register of cases with near keys, and so many Rivalutazioni of each"""
    taken = rng.choice([43000, 43220, 36583, 0, 1, LAST - 400, LAST, LAST - 1]) if taken is None else taken
    keys = [(rng.choice(O.REGIONS[1:-1]), b"1b5", taken, bytes(rng.choice(K.ID_CHARS[1:-1]) for _ in range(88)))]
    while len(keys) < len(sizes):
        k = near(rng, rng.choice(keys))
        if k not in keys and k[2] <= LAST:
            keys.append(k)
    cases = [Case(k, K.some_value(rng)) for k in keys]
    events = sorted(event_row(c.k, e) for c, n in zip(cases, sizes) for e in events_of(rng, c, n))
    reg = register(sorted(case_of(rng, c.k, c.own) for c in cases), events)
    return Standing(rng, reg + bytes(spare), cases)


def odd_registers(rng, s, case):
    """a row in place of one of a case's events that has an odd evaluation or nearly one, between rows that keep one"""
    d = case.k[2] + 1
    if d + 1 > LAST:
        return
    around = [(RIV, d - 1, 1, None, 0, 2, K.some_value(rng)), (RIV, d + 1, 2, None, 0, 2, K.some_value(rng))]
    plain = O.unpack(int(event_row(case.k, (RIV, d, 1, None, 0, 1)), 2).to_bytes(ROW, "big"), O.EVENT_WIDTHS)
    for odd in K.odd_values(rng):
        row = "".join(format(v, "0%db" % w) for v, w in zip(K.odd_row(plain, odd), O.EVENT_WIDTHS))
        beside = around[:1] if odd[1] == CON else around     # nothing stands behind a conclusion
        reg = register([case_of(rng, case.k, case.own)], sorted([row] + [event_row(case.k, e) for e in beside]))
        for on, before in ((d - 1, around[0][6]), (d, around[0][6]), (d + 1, beside[-1][6])):
            value = odd[3], odd[4].rstrip(b"\0")
            kept = on == d and odd[1] == RIV and odd[2] == 2 and any(odd[4])
            said = (0, told_of(value if kept else before)) if odd[6] else (3, bytes(11))
            got = K.check_evaluation(reg, texts(case.k), text(on))
            C["an odd row: %d" % said[0]] += 1
            if got != said:
                K.diff("words", (odd[0], reg, *texts(case.k), text(on)), said, got)


def full_registers(rng):
    """4,096 rows: the only evaluation of thousands of rows is that of the first, of the last, of a middle one or of none; neighbours have them all"""
    for at in (0, 2000, 3999, None):
        s = put_together(rng, [0, 0, 0], taken=30000)
        middle, *others = s.cases.values()
        for i in range(4000):
            kept = K.some_value(rng) if i == at else None
            middle.revs[30000 + i] = (2 if kept or i % 3 == 0 else 1), kept
        for c in others:
            c.revs = {c.k[2] + i: (2, K.some_value(rng)) for i in range(46 if c is others[0] else 47)}
        rows = sorted(event_row(c.k, (RIV, d, 1, None, 0, *x) if x[1] else (RIV, d, 1, None, 0, x[0])) for c in s.cases.values() for d, x in c.revs.items())
        for c in s.cases.values():
            c.ends = None
        s.reg = register(sorted(case_of(rng, c.k, c.own) for c in s.cases.values()), rows)
        C["registers of 4,096 rows"] += len(rows) + 3 == MOST
        for c in s.cases.values():
            s.around(c, 12)
        for i in () if at is None else (at - 1, at, at + 1):
            s.ask(texts(middle.k), text(30000 + i))


# ------------------------------------------------------------------ histories of files
def value_in(tree):
    """what the Valutazione below says; no two of a record's leaves have one name"""
    leaf = {nd.n: b"".join(nd.k) for _, _, nd in K.walk(tree) if nd.leaf}
    return tuple(int(leaf.get(n, b"0")) for n in SCALES), leaf[b"Prevalente"]


class Files(Standing):
    """one register from emptied on, over three quarters that follow one another"""
    def __init__(self, rng):
        self.w = K.World(rng)
        year, quarter = rng.choice([(2018, 2), (2019, 3), (2020, 4), (2009, 1), (2098, 4), (2099, 1)])
        self.quarters = [((4 * year + quarter - 1 + j) // 4, (quarter - 1 + j) % 4 + 1) for j in range(3)]
        first, last = span(*self.quarters[0])
        taken, ident = rng.choice([first, first + 1, rng.randint(first, last)]), bytes(rng.choice(K.ID_CHARS[1:-1]) for _ in range(88))
        self.keys = [(rng.choice(O.REGIONS[1:-1]), b"1b5", taken, ident)]
        most = rng.randint(1, 3)
        while len(self.keys) < most:
            k = near(rng, rng.choice(self.keys))
            if k not in self.keys and first <= k[2] <= last:
                self.keys.append(k)
        super().__init__(rng, bytes(4 + ROW * rng.choice([12, 40, 60]) + rng.choice([0, 0, 1, ROW - 1])), [])

    def send(self, track, quarter, records):
        """records: (tree, what an accepted one changes)"""
        sub = ser(root(track, [r[0] for r in records]))
        out = K.check_submit(sub, track, *quarter, self.reg, self.rng.randbytes(len(records)))
        self.reg = out[5]
        for (_, change), a in zip(records, out[6]):
            if a == 0:
                change()
        return out[6]

    def case(self, tipo, k):
        tree = K.rec1(self.w, tipo, k, True)

        def change():
            if tipo == b"C":
                C["a case carried away and inserted again"] += bool(self.cases[texts(k)].revs)
                del self.cases[texts(k)]
            elif tipo == b"V":
                C["the case's own varied"] += self.cases[texts(k)].own != value_in(tree)
                self.cases[texts(k)].own = value_in(tree)
            else:
                self.cases[texts(k)] = Case(k, value_in(tree))
        return tree, change

    def events(self, tipo, case, evs, fault=None):
        trees = [event_tree(self.rng, e, fault) for e in sorted(evs)]
        taking = N(b"PresaInCarico", [L(b"Id_Rec", case.k[3])], (b"data", text(case.k[2])))

        def change():
            for e in evs:
                if e[0] == RIV:
                    self.happened(tipo, case, e)
                elif e[0] == CON:
                    case.ends = e[1]
        return N(b"Assistenza", head(tipo, 2, case.k) + [N(b"Eventi", [taking] + trees)]), change

    def happened(self, tipo, case, e):
        was = case.revs.pop(e[1], None)
        if tipo == b"C":
            C["cancelled"] += 1
            return
        case.revs[e[1]] = e[5], e[6] if e[5] == 2 else None
        if tipo == b"V":
            C["varied from zeros to an evaluation" if was == (2, None) and e[5] == 2 else "varied from %d to %d" % (was[0], e[5])] += 1

    def revaluation(self, d):
        conferma = self.rng.choice([1, 2, 2])
        return RIV, d, self.rng.choice([1, 2]), None, 0, conferma, *[K.some_value(self.rng)] * (conferma == 2)

    def new(self, case, quarter):
        """Rivalutazioni of days that have none, and visits"""
        rng, (first, last) = self.rng, span(*quarter)
        first, last = max(first, case.k[2]), last if case.ends is None else min(last, case.ends)
        free = [d for d in range(first, last + 1) if d not in case.revs]
        close = [d for d in free if d - 1 in case.revs or d + 1 in case.revs or d in (first, last)]
        days = set(rng.sample(free, min(len(free), rng.randint(1, 4)))) | set(rng.sample(close, min(len(close), rng.randint(0, 2))))
        visits = [(ERO, d, rng.choice(OPERATORS), None, 0, 0) for d in rng.sample(sorted(days), min(len(days), rng.choice([0, 0, 1, 2])))]
        if days:
            self.send(2, quarter, [self.events(b"I", case, [self.revaluation(d) for d in days] + visits)])

    def again(self, tipo, case, quarter):
        """Rivalutazioni that stand, varied or cancelled; now and then in a record that is discarded"""
        rng = self.rng
        days = [d for d in case.revs if quarter_of(d) == quarter]
        if days:
            days = rng.sample(days, min(len(days), rng.choice([1, 1, 2, 3])))
            evs = [self.revaluation(d) for d in days]
            if rng.random() < 0.2:
                absent = (evs[0][0], (set(range(*span(*quarter))) - set(case.revs)).pop(), *evs[0][2:])
                bad = rng.choice([self.events(tipo, case, evs, 21), self.events(b"I", case, evs), self.events(b"V", case, evs + [absent])])
                C["discarded, and nothing seen of it"] += self.send(2, quarter, [bad])[0] > 0
                self.around(case, 6)
            self.send(2, quarter, [self.events(tipo, case, evs)])

    def converted(self):
        """the register as it was before E6, converted: no Rivalutazione keeps its evaluation"""
        old, new = old_of(self.reg), blanked(self.reg)
        got = K.check_convert(old, self.rng.randbytes(len(self.reg)))
        if got != (0, new):
            K.diff("words", (old,), (0, new), got)
            return
        self.reg = new
        C["converted in a history"] += any(x[1] for c in self.cases.values() for x in c.revs.values())
        for c in self.cases.values():
            c.revs = {d: (conferma, None) for d, (conferma, _) in c.revs.items()}

    def conclude(self, case):
        days = [*case.revs, case.k[2]]
        first, last = span(*quarter_of(max(days)))
        d = self.rng.choice([max(days), last])
        if case.ends is None:
            self.send(2, quarter_of(d), [self.events(b"I", case, [(CON, d, self.rng.choice(ENDS), None, 0, 0)])])

    def step(self):
        rng = self.rng
        gone = [k for k in self.keys if texts(k) not in self.cases]
        k = rng.choice(self.keys)
        if gone or rng.random() < 0.15:
            self.send(1, self.quarters[0], [self.case(b"I", k) for k in gone] or [self.case(rng.choice([b"V", b"V", b"C"]), k)])
            return
        case, x, quarter = self.cases[texts(k)], rng.random(), rng.choice(self.quarters)
        if x < 0.1:
            self.converted()
        elif x < 0.18:
            self.conclude(case)
        elif x < 0.55 or not case.revs:
            self.new(case, quarter)
        else:
            self.again(b"C" if x < 0.65 else b"V", case, quarter_of(rng.choice(list(case.revs))))


def by_files(rng):
    h = Files(rng)
    for _ in range(rng.randint(6, 16)):
        h.step()
        for c in h.cases.values():
            h.around(c, 8)
    return h


def g_evaluation(seed, count):
    plain, i = K.Buf, 0
    full_registers(random.Random("evaluation full %d" % seed))
    while C["evaluation"] < count:
        i += 1
        K.Buf, EdgeBuf.at_end = (plain, EdgeBuf, EdgeBuf)[i % 3], i % 3 == 1      # edges as in dense.py's `edge`
        rng = random.Random("evaluation %d %d" % (seed, i))
        early = i // 2 < len(SIZES)
        n = SIZES[i // 2] if early else rng.choice([0, 1, 2, 3, 4, 6, 9, 30])
        sizes = [n] + [rng.choice([0, 1, 2, 3, 8]) for _ in range(rng.randint(0, 3))]
        if i % 2 == 0:
            s = by_files(rng)
        else:
            s = put_together(rng, sizes, rng.choice([0, 0, 1, ROW - 1, ROW, 500]), 43000 if early else None)
            C["Rivalutazioni of a case: %d" % n] += 1
        for case in s.cases.values():
            s.around(case, 60)
        case = next(iter(s.cases.values()), None)
        if case:
            s.wrong(case, 400 if i == 1 else 3)
            s.unsound(case, 40 if i == 5 else 3)
            if i % 8 == 1:
                odd_registers(rng, s, case)


# ------------------------------------------------------------------ conversion
def rows_of(reg, row=ROW):
    """the rows of cases and of events"""
    cases, events = int.from_bytes(reg[:2], "big"), int.from_bytes(reg[2:4], "big")
    rows = [reg[K.at(i, row)] for i in range(cases + events)]
    return rows[:cases], rows[cases:]


def joined(cases, events, length=0):
    return (len(cases).to_bytes(2, "big") + len(events).to_bytes(2, "big") + b"".join(cases + events)).ljust(length, b"\0")


def old_of(reg, spare=0):
    """the same cases and events in rows of 91 bytes: byte 89 begins with conferma, and behind that all is zero"""
    cases, events = rows_of(reg)
    return joined([r[:OLD] for r in cases], [r[:89] + bytes([r[89] & 0xC0, 0]) for r in events]) + bytes(spare)


def blanked(reg, stay=()):
    """the register without evaluations of Rivalutazioni but of those with a key of `stay`"""
    cases, events = rows_of(reg)
    key = lambda r: K.event_key(int.from_bytes(r, "big"))
    return joined(cases, [r if key(r) in stay else r[:89] + bytes([r[89] & 0xC0]) + bytes(6) for r in events], len(reg))


def convert(rng, old, length, said=None):
    """a conversion into so many other bytes, perhaps zeros; said: the answer and the bytes that must stand there, where they change"""
    new = rng.choice([rng.randbytes(length), rng.randbytes(length), b"\xff" * length, bytes(length)])
    got = K.check_convert(old, new)
    if said and got != (said[0], new if said[0] else said[1].ljust(length, b"\0")):
        K.diff("words", (old, new), said, got)
    return got


def lengths(rng, old, after):
    """new registers of each length that matters; after: what a just long one holds"""
    n, exact, empty = (len(after) - 4) // ROW, len(after), len(after) == 4
    for length in (0, 1, 2, 3):
        convert(rng, old, length, (33, None))
        C["new of 0 to 3 bytes" + ", nothing in the old" * empty + ": 33"] += 1
    for length in sorted({exact - 1, 4 + OLD * n, rng.randint(0, exact - 1), 4 + ROW * max(0, n - 1)}):
        if length < exact:
            convert(rng, old, length, (33, None))
            C["new one byte short: 33"] += length == exact - 1
    for length in (exact, exact + 1, exact + ROW - 1, exact + ROW, exact + rng.randint(2, 3000)):
        convert(rng, old, length, (0, after))
        C["new of 4 bytes, nothing in the old: 0"] += length == 4
        C["new just long enough: 0"] += length == exact
        C["new longer: 0"] += length > exact
    C["rows converted: %d" % n] += 1


def bad_events(rng, case):
    """rows of 91 bytes of a case's events that have one of 23 and 25 to 28, by its row"""
    key = format(int.from_bytes(case, "big"), "0%db" % (8 * OLD))[:662]
    d, code = int(key[29:46], 2), rng.choice([1, 2, 3, 9])
    row = lambda kind, when, end=O.NO_END: int((key + bits((kind, 2), (when, 17), (code, 7), (end, 17))).ljust(8 * OLD, "0"), 2).to_bytes(OLD, "big")
    sets = [[row(ERO, d - 1)]] if d else []
    if d < LAST:
        sets += [[row(SOS, d + 1, d)], [row(SOS, d, d + 1), row(SOS, d + 1, d + 1)], [row(SOS, d), row(SOS, d + 1, d + 1)], [row(CON, d), row(CON, d + 1)],
                 [row(ERO, d + 1), row(CON, d)], [row(SOS, d, d + 1), row(CON, d)]]
    return sets


def disordered(rng, cases, events):
    """(cases, events) with two rows of a group swapped, or the first of them twice; and with a case taken away that has events"""
    for group in (cases, events):
        if len(group) > 1:
            i = rng.randrange(len(group) - 1)
            for pair in ([group[i + 1], group[i]], [group[i], group[i]]):
                changed = group[:i] + pair + group[i + 2:]
                yield (changed, events) if group is cases else (cases, changed)
    if events:
        key = lambda r: K.first_bits(int.from_bytes(r, "big"), 662, OLD)
        gone = key(rng.choice(events))
        yield [c for c in cases if key(c) != gone], events


def refused(rng, old, most):
    """registers that are not sound in rows of 91 bytes: for sure, or perhaps; into any length"""
    cases, events = rows_of(old, OLD)
    length = lambda: rng.choice([0, 3, 4, 4 + ROW * len(cases + events), len(old) + 600])

    def surely(name, reg):
        n = length()
        convert(rng, reg, n, (3, None))
        C[name + ": 3"] += 1
        C["unsound, and the new one too short: 3"] += n < 4 + ROW * len(cases + events)
    for reg in (b"", old[:3], old + b"\1", old + bytes(9) + b"\x80", old[:4 + OLD * len(cases + events) - 1] if cases else b"\0"):
        surely("lengths and tails", reg)
    for bad in bad_events(rng, rng.choice(cases)) if cases else []:
        surely("events that can't stand together", joined(cases, bad, len(old) + 500))
    for both in disordered(rng, cases, events):
        surely("rows out of order, twice or without a case", joined(*both, len(old)))
    for i in range(most if cases else 0):
        group, first = (events, 714) if events and rng.random() < 0.7 else (cases, 721)
        j, at = rng.randrange(len(group)), rng.randrange(first, 8 * OLD) if i else first
        changed = group[:j] + [(int.from_bytes(group[j], "big") | 1 << 8 * OLD - 1 - at).to_bytes(OLD, "big")] + group[j + 1:]
        surely("a zero bit set", joined(cases if group is events else changed, changed if group is events else events, len(old)))
    plain = [r for r in events if O.unpack(r, O.event_widths(OLD))[96] == O.NO_END]
    if plain:
        surely("rows of the layout before E2", joined(cases, [K.old_layout(r) if r in plain else r for r in events], len(old)))
    for _ in range(most):
        reg = K.mutate_reg(rng, old, OLD)
        convert(rng, reg, len(reg) + 600)
        convert(rng, reg, length())


def other_layouts(rng, s, old):
    """rows of 96 bytes lent to a conversion, and rows of 91 bytes to the other calls: refused, or of no row or one case, of which they say the same"""
    for reg in (s.reg, blanked(s.reg)):
        n = sum(map(len, rows_of(reg)))
        convert(rng, reg, len(reg), (3, None) if n > 1 else (0, reg[:4 + ROW * n]))
        C["rows of 96 bytes: 3" if n > 1 else "rows of 96 bytes, none or one case: 0"] += 1
    n = sum(map(len, rows_of(old, OLD)))
    said = 3 if n > 1 or len(old) < 4 + ROW * n else 0
    C["lent unconverted: %d" % said] += 1
    case = next(iter(s.cases.values()), None)
    got = [K.check_sound(old)]
    if case:
        K.check_find(old, texts(case.k))
        got.append(K.check_evaluation(old, texts(case.k), text(case.k[2]))[0])
    if got != [said] * len(got):
        K.diff("words", (old,), (said,), got)


def use(rng, s):
    """a converted register: every case stands where it stood, no evaluation is kept; a Rivalutazione is varied, and seen"""
    if K.check_sound(s.reg):
        K.diff("words", (s.reg,), (0,), ())
    order = sorted(s.cases.values(), key=lambda c: (int(c.k[0]), *c.k[1:]))
    for i, c in enumerate(order):
        place = K.check_find(s.reg, texts(c.k))
        C["cases found"] += 1
        if place != (0, 4 + ROW * i):
            K.diff("words", (s.reg, *texts(c.k)), (0, 4 + ROW * i), place)
        c.revs = {d: (conferma, None) for d, (conferma, _) in c.revs.items()}
        C["evaluations passed over"] += sum(conferma == 2 for conferma, _ in c.revs.values())
        s.around(c, 10)
        days = [d for d, (conferma, _) in c.revs.items() if conferma == 2 and quarter_of(d) >= (2009, 1)]
        if days:
            vary(rng, s, c, rng.choice(days))


def vary(rng, s, case, d):
    value = K.some_value(rng)
    tree = event_tree(rng, (RIV, d, rng.choice([1, 2]), None, 0, 2, value))
    taking = N(b"PresaInCarico", [L(b"Id_Rec", case.k[3])], (b"data", text(case.k[2])))
    sub = ser(root(2, [N(b"Assistenza", head(b"V", 2, case.k) + [N(b"Eventi", [taking, tree])])]))
    out = K.check_submit(sub, 2, *quarter_of(d), s.reg, b"?")
    if out[6] != b"\0":
        K.diff("words", (sub, s.reg), (0,), out[6])
        return
    s.reg, case.revs[d] = out[5], (2, value)
    C["varied, and seen"] += s.ask(texts(case.k), text(d)) == 0
    s.around(case, 10)


def full_conversions(rng):
    """4,096 rows, of cases, of events and of both; and a header that counts one more than may stand, with rows for it"""
    k, ident = (b"010", b"101", 30000, b"!" * 88), lambda i: b"%088d" % i
    visits = lambda n: [event_row(k, (ERO, 30000 + i // 14, OPERATORS[i % 14], None, i % 100, 0)) for i in range(n)]
    cases = lambda n: [case_of(rng, k, K.some_value(rng))] + [case_of(rng, (*k[:3], ident(i)), K.some_value(rng)) for i in range(n - 1)]
    for nc, ne in ((1, MOST - 1), (MOST, 0), (2000, MOST - 2000)):
        reg = register(cases(nc), visits(ne))
        old = old_of(reg, rng.choice([0, OLD, 1000]))
        lengths(rng, old, blanked(reg))
    reg = register(cases(2000), visits(MOST - 1999))
    for spare in (0, 1, 5000):
        convert(rng, old_of(reg, spare), len(reg) + ROW, (3, None))
        C["more than 4,096 rows: 3"] += 1


# ------------------------------------------------------------------ histories over 91 and over 96 bytes
def any_file(rng, w, reg, step):
    """track, file and how many records it has"""
    parts = O.load(reg)
    track = 1 if step < 2 or rng.random() < 0.25 else 2
    records = [K.rec1(w, calm=step < 1 or rng.random() < 0.7) if track == 1 else K.rec2(w, parts) for _ in range(rng.choice([1, 1, 2, 3]))]
    revs = [(k, x) for k, evs in parts.events.items() for x in evs if x[0] == RIV and w.first <= x[1] <= w.last]
    if track == 2 and revs and rng.random() < 0.5:           # one that stands, varied
        (region, *rest), (_, d, _) = rng.choice(revs)
        k = (b"%03d" % region, *rest)
        tree = event_tree(rng, (RIV, d, 1, None, 0, *K.conferma_and_value(rng)[:1], K.some_value(rng)))
        records.append(N(b"Assistenza", head(b"V", 2, k) + [N(b"Eventi", [N(b"PresaInCarico", [L(b"Id_Rec", k[3])], (b"data", text(k[2]))), tree])]))
    return track, ser(root(track, records, rng)), len(records)


def before(rng, w, old, new):
    """a history over both rows, the one of 91 bytes by the oracle alone: answers and rows are the same but for evaluations"""
    for step in range(rng.randint(5, 12)):
        if step and rng.random() < 0.12:
            w.forward()
        track, sub, n = any_file(rng, w, new, step)
        answers = K.answers_for(rng, n)
        was = O.submit(sub, track, w.year, w.quarter, old, answers, OLD)
        told = K.check_submit(sub, track, w.year, w.quarter, new, answers)
        old, new = was[5], told[5]
        if was[:5] + was[6:] != told[:5] + told[6:] or old_of(new) != joined(*rows_of(old, OLD)):
            K.diff("two rows", (sub, track, w.year, w.quarter, old, new), was, told)
    return old, new


def behind(rng, w, new, converted):
    """the history goes on, beside its converted register: the same answers, and the same bytes but for evaluations that were not sent again"""
    sent = set()
    for step in range(rng.randint(2, 8)):
        if rng.random() < 0.12:
            w.forward()
        track, sub, n = any_file(rng, w, new, step + 2)
        answers = K.answers_for(rng, n)
        told, also = (K.check_submit(sub, track, w.year, w.quarter, reg, answers) for reg in (new, converted))
        if told[0] == 0:
            sent |= {key for (tipo, _, keys), a in zip(K.told(sub), told[6]) if a == 0 and tipo != b"C" for key in keys}
        new, converted = told[5], also[5]
        C["files behind a conversion"] += 1
        C["registers that differ in evaluations alone" if new != converted else "registers that differ no more"] += blanked(new) != new
        if told[:5] + told[6:] != also[:5] + also[6:] or converted != blanked(new, sent):
            K.diff("behind a conversion", (sub, track, w.year, w.quarter, new, converted), told, also)
        for k in O.load(new).cases:
            named = (b"%03d" % k[0], k[1], text(k[2]), k[3])
            for reg in (new, converted):
                K.check_evaluation(reg, named, text(rng.choice([k[2], w.last, rng.choice(w.days)])))


def whole_history(rng):
    w, rows = K.World(rng), rng.randint(2, 40)
    old, new = before(rng, w, bytes(4 + OLD * rows + rng.choice([0, 1, OLD - 1])), bytes(4 + ROW * rows + rng.choice([0, 1, ROW - 1])))
    got = convert(rng, old, len(new), (0, blanked(new)))
    C["histories converted"] += got[0] == 0
    if got[0] == 0:
        behind(rng, w, new, got[1])


def g_convert(seed, count):
    plain, i = K.Buf, 0
    full_conversions(random.Random("convert full %d" % seed))
    for n in range(300):                                     # nothing stands in an emptied one
        convert(random.Random("convert zeros %d %d" % (seed, n)), bytes(n), n % 9, (3, None) if n < 4 else (33, None) if n % 9 < 4 else (0, bytes(4)))
    while C["convert"] < count:
        i += 1
        K.Buf, EdgeBuf.at_end = (plain, EdgeBuf, EdgeBuf)[i % 3], i % 3 == 1      # edges as in dense.py's `edge`
        rng = random.Random("convert %d %d" % (seed, i))
        if i % 2 == 0:
            whole_history(rng)
            continue
        sizes = [[0], [0], [0, 1], [3, 2, 1]][i // 2] if i < 8 else [rng.choice([0, 1, 2, 4, 9, 40]) for _ in range(rng.randint(1, 4))]
        s = put_together(rng, sizes)
        if i in (1, 3):                                      # no row, one case
            s.cases = s.cases if i == 3 else {}
            s.reg = joined(rows_of(s.reg)[0][:i // 2], [])
            for c in s.cases.values():
                c.ends = None
        spare = rng.choice([0, 0, 1, 5, OLD - 1, OLD, ROW, 1000])
        old, after = old_of(s.reg, spare), blanked(s.reg)
        lengths(rng, old, after)
        refused(rng, old, 14 if i < 20 else 4)
        other_layouts(rng, s, old)
        s.reg = after
        use(rng, s)


if __name__ == "__main__":
    t0 = time.time()
    globals()["g_" + sys.argv[1]](int(sys.argv[2]), int(sys.argv[3]))
    print(json.dumps({"generator": sys.argv[1], "seed": int(sys.argv[2]), "seconds": round(time.time() - t0), "counts": dict(sorted(C.items()))}))
    missed = [n for n in NEEDED[sys.argv[1]] if not C[n]]
    if missed:
        sys.exit("%s: not met: " % sys.argv[1] + "; ".join(missed))
    sys.exit(C["diff"] > 0)
