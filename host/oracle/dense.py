"""dense: records with many anomalies at once (which one is first), over registers with little room.
   edge: the same, with every buffer against an unmapped page (a read or write past an end would crash).
   carried: histories of cases with neighbours and events that are cancelled, inserted again, cancelled again (E1), in registers that are nearly full.
   usage: dense.py dense|edge|carried SEED COUNT"""
import json, random, sys, time
import compare as K
import oracle as O
from compare import N, L, head, d2t, ser, root, C


def states(seed):
    out = []
    for i in range(40):
        rng = random.Random("dense-state %d %d" % (seed, i))
        w = K.World(rng)
        w.year, w.quarter = rng.choice([(2018, 2), (2020, 1), (2023, 3), (2022, 4), (2009, 1), (2099, 4)])
        w.set_quarter()
        w.keys = [(rng.choice(w.regions), rng.choice(w.asls), w.first + rng.choice([0, 3, 20]), i) for i in w.ids]
        reg = bytes(4 + O.ROW * 60)
        out0 = O.submit(ser(root(1, [K.rec1(w, b"I", k, True) for k in w.keys])), 1, w.year, w.quarter, reg, bytes(50))
        reg = out0[5]
        for _ in range(rng.randint(2, 25)):
            reg = O.submit(ser(root(2, [K.rec2(w, O.load(reg), b"I")])), 2, w.year, w.quarter, reg, bytes(5))[5]
        n = O.standing(O.load(reg))
        reg = reg[:4 + O.ROW * (n + rng.choice([0, 0, 1, 2, 4, 12]))]
        out.append((w, reg))
    return out


def dense1(rng, w, parts, bad):
    yes = lambda p=bad: rng.random() < p
    tipo = rng.choice([b"I", b"V", b"C"])
    stand = list(parts.cases)
    if stand and rng.random() < 0.6:
        ck = rng.choice(stand)
        k = (b"%03d" % ck[0], ck[1], ck[2], ck[3])
    else:
        k = (rng.choice(w.regions), rng.choice(w.asls), rng.choice(w.takings), bytes(rng.choice(K.ID_CHARS) for _ in range(88)))
    if yes(bad / 3):
        k = (k[0], k[1], max(0, min(O.LAST_DAY, rng.choice(w.outer))), k[3])
    w.rng = rng
    r = K.rec1(w, tipo, k, True)
    anag = r.k[1].k[0]
    anag.k[3].k = [rng.choice([b"1879", b"%04d" % (O.year_of(k[2]) + 1), b"9999", b"0000"]) if yes() else rng.choice([b"1880", b"1950", b"%04d" % O.year_of(k[2])])]
    if yes():
        res = rng.choice([[b"999", b"999", b"999999", None], [b"999", b"999", b"999999", b"iT"], [b"010", b"999", b"999999", b"FR"], [b"999", b"998", b"999999", b"FR"], [b"999", b"999", b"99999a", b"FR"], [b"010", b"101", b"H501aZ", b"IT"]])
    else:
        res = rng.choice([[b"999", b"999", b"999999", b"FR"], [b"999", b"999", b"999998", None], [b"999", b"99A", b"999999", None], [b"010", b"999", b"999999", None]])
    anag.k[7].k = [L(b"Regione", res[0]), L(b"ASL", res[1]), L(b"Comune", res[2])] + ([L(b"StatoEstero", res[3])] if res[3] else [])
    r.k[-1].k[1].k[0].k[0].k = [b"000" if yes() else rng.choice(K.PREV)]
    return r


def dense2(rng, w, parts, bad):
    yes = lambda p=bad: rng.random() < p
    tipo = rng.choice([b"I", b"I", b"V", b"C"])
    stand = list(parts.cases)
    if stand and not yes(bad / 2):
        ck = rng.choice(stand)
    else:
        k = rng.choice(w.keys)
        ck = (int(k[0]), b"QQQ", k[2], k[3])
    k = (b"%03d" % ck[0], ck[1], ck[2], ck[3])
    have = parts.events.get(ck, {})
    evs = []
    if have and (tipo != b"I" or yes()):
        evs += rng.sample(sorted(have), min(len(have), rng.randint(1, 3)))
    if tipo == b"I" or yes(bad / 2):
        for _ in range(rng.randint(0, 4)):
            kind = rng.choice([0, 1, 1, 2, 2, 2, 3])
            lo = ck[2] if not yes(bad / 2) else w.first
            d = min(w.last, lo + rng.choice([0, 1, 2, 3, 5, 8, 13, 30, 60]))
            evs += [(kind, d, K.operator(rng, kind)) for _ in range(rng.choice([1, 1, 2]) if kind == 1 else 1)]
        if evs and yes(bad / 3):
            evs.append(rng.choice(evs))
    if not yes(bad / 2):
        evs = list(dict.fromkeys(evs))
    trees, con = [], 0
    for kind, d, code in sorted(evs, key=lambda e: e[0]):
        if yes(bad / 6):
            code = K.operator(rng, kind)
        if kind == 3:
            con += 1
            if con > 1:
                continue
        if yes(bad / 6):
            d = max(0, min(O.LAST_DAY, rng.choice(w.outer)))
        end = None
        if kind == 2 and rng.random() < 0.8:
            end = d - 1 if yes(bad / 2) else d + rng.choice([0, 0, 1, 2, 4])
            end = max(0, min(O.LAST_DAY, end if yes(bad / 6) else max(w.first, min(end, max(d, w.last)))))
        t = K.ev_tree(rng, kind, d, end, True, code)
        if kind == 0:
            conf = rng.choice([b"1", b"2"])
            t.a[2][1] = conf
            t.k = [K.val_tree(rng, 2, b"000" if yes(bad) else b"123")] if (conf == b"2") != yes(bad / 2) else []
        trees.append(t)
    return N(b"Assistenza", head(tipo, 2, k) + [N(b"Eventi", [N(b"PresaInCarico", [L(b"Id_Rec", k[3])], (b"data", d2t(k[2])))] + trees)])


class EdgeBuf(K.Buf):
    """bytes that end (or begin) exactly at an unmapped page"""
    at_end = True

    def __init__(self, data, guard=None):
        super().__init__(data, b"")
        self.side = 2 ** 64 - (1 if EdgeBuf.at_end else 2)


def g_dense(seed, count):
    st = states(seed)
    rng = random.Random("dense %d" % seed)
    while C["submit"] < count:
        w, reg = rng.choice(st)
        parts = O.load(reg)
        bad = rng.choice([0, 0.05, 0.15, 0.3, 0.5])
        track = rng.choice([1, 2, 2])
        recs = [(dense1 if track == 1 else dense2)(rng, w, parts, bad) for _ in range(rng.choice([1, 2, 3, 4]))]
        K.check_submit(ser(root(track, recs)), track, w.year, w.quarter, reg, K.answers_for(rng, len(recs)))


def g_edge(seed, count):
    K.Buf = EdgeBuf
    rng = random.Random("edge %d" % seed)
    i = 0
    while C["submit"] < count:
        i += 1
        EdgeBuf.at_end = i % 3 != 0
        r = random.Random("edge %d %d" % (seed, i))
        _, reg, w = K.gen_history(r, 0.4)
        for _ in range(4):
            bad = K.mutate_reg(r, reg)
            K.check_sound(bad)
            K.check_find(bad, K.near_texts(r, w, bad))
            K.check_find(reg, K.near_texts(r, w, reg))
            K.check_empty(bad)
    t2 = K.tiny(2)
    _, w, reg, _, _ = K.base_state(2)
    for j in range(len(t2)):
        for at in (True, False):
            EdgeBuf.at_end = at
            K.check_submit(t2[:j], 2, 2018, 2, reg, b"\x77")
            K.check_submit(t2[j:], 2, 2018, 2, reg, b"\x77")


# ------------------------------------------------------------------ carried
def beside(rng, k, step):
    """a key next to k, before it (step -1) or behind it (1): in the Id_Rec's last or first character, the day, the ASL or the region"""
    region, asl, taken, ident = k
    near = lambda chars, c: chars[(chars.index(c) + step) % len(chars)]
    at = rng.choice([87, 87, 87, 0, "day", "asl", "region"])
    if at == "day":
        taken += step
    elif at == "asl":
        asl = asl[:2] + bytes([near(O.ALNUM, asl[2])])
    elif at == "region":
        region = near(O.REGIONS, region)
    else:
        ident = ident[:at] + bytes([near(K.ID_CHARS, ident[at])]) + ident[at + 1:]
    return region, asl, taken, ident


def stand_by_words(accepted):
    """the keys of cases and of events that stand by demand 3: an event "exactly when the last accepted Track 2 record with its key inserts or varies it and no
       accepted cancellation of its case came later" """
    cases, events, cancelled = {}, {}, {}
    for place, (track, tipo, case, keys) in enumerate(accepted):
        if track == 1:
            cases[case] = tipo
            if tipo == b"C":
                cancelled[case] = place
        for key in keys:
            events[key] = place, tipo
    return (sorted(k for k, tipo in cases.items() if tipo != b"C"),
            sorted(k for k, (place, tipo) in events.items() if tipo != b"C" and cancelled.get(k >> 26, -1) < place))


class History:
    """one register from emptied on, over three quarters that follow one another, with all that was accepted"""
    def __init__(self, rng):
        self.rng, self.w = rng, K.World(rng)
        w = self.w
        w.year, w.quarter = rng.choice([(2018, 2), (2019, 3), (2020, 4), (2009, 1), (2099, 1)])
        self.spans = []
        for _ in range(3):
            w.set_quarter()
            self.spans.append((w.year, w.quarter, w.first, w.last))
            w.year, w.quarter = (w.year, w.quarter + 1) if w.quarter < 4 else (w.year + 1, 1)
        ident = bytes(rng.choice(K.ID_CHARS[1:-1]) for _ in range(88))
        middle = (rng.choice(O.REGIONS[1:-1]), b"1" + rng.choice([b"b5", b"B1", b"05"]), self.spans[0][2] + rng.randint(3, 40), ident)
        self.keys = [middle, beside(rng, middle, -1), beside(rng, middle, 1)]
        for _ in range(rng.randint(0, 3)):
            self.another()
        if rng.random() < 0.4:                               # taken in a quarter later: in the first quarter's files 10
            self.keys.append((middle[0], middle[1], self.spans[1][2] + rng.randint(0, 9), ident))
        events = rng.choice([120, 200, 300]) if rng.random() < 0.04 else rng.randint(3, 25)
        self.reg = bytes(4 + O.ROW * (len(self.keys) + events) + rng.choice([0, 0, 0, 1, O.ROW - 1]))
        self.accepted, self.old, self.ever = [], set(), {}   # old: keys carried away that don't stand; ever: what each case had

    def another(self):
        """one more key, of a case that wasn't sent yet"""
        while True:
            k = beside(self.rng, self.rng.choice(self.keys), self.rng.choice([-1, 1]))
            if k not in self.keys:
                self.keys.append(k)
                return k

    def parts(self):
        return O.load(self.reg)

    def free(self):
        parts = self.parts()
        return parts.room - O.standing(parts)

    def have(self, k):
        return self.parts().events.get((int(k[0]), *k[1:]), {})

    def stands(self, k):
        return (int(k[0]), *k[1:]) in self.parts().cases

    def span(self, day):
        return next((s for s in self.spans if s[2] <= day <= s[3]), self.spans[0])

    def send(self, track, span, records):
        """submits; demand 3 then holds the register against all that was accepted since it was emptied"""
        if not records:
            return
        sub = ser(root(track, records))
        before = set(K.keys_in(self.reg)[1])
        out = K.check_submit(sub, track, span[0], span[1], self.reg, K.answers_for(self.rng, len(records)))
        if out[0]:
            return
        for (tipo, case, keys), a in zip(K.told(sub), out[6]):
            if self.old & set(keys):
                C["%s with a key carried away: %d" % (tipo.decode(), a)] += 1
            if a == 0:
                self.accepted.append((track, tipo, case, keys))
                self.old -= set(keys)
        self.reg = out[5]
        self.old |= before - set(K.keys_in(self.reg)[1]) if track == 1 else set()
        said, stand = stand_by_words(self.accepted), K.keys_in(self.reg)
        if said != stand:
            K.diff("demand 3", (sub, track, *span[:2], self.reg), said, stand)

    def case(self, tipo, k, fault=None):
        r = K.rec1(self.w, tipo, k, True)
        if fault == 11:
            r.k[1].k[0].k[3].k = [self.rng.choice([b"1879", b"%04d" % (O.year_of(k[2]) + 1)])]
        elif fault == 12:
            r.k[1].k[0].k[7].k = [L(b"Regione", b"999"), L(b"ASL", b"999"), L(b"Comune", b"999999")]
        elif fault == 13:
            r.k[-1].k[1].k[0].k[0].k = [b"000"]
        return r

    def events(self, tipo, k, named):
        """a record of Track 2; each Sospensione has one day"""
        trees = [K.ev_tree(self.rng, kind, d, d, True, code) for kind, d, code in sorted(named)]
        return N(b"Assistenza", head(tipo, 2, k) + [N(b"Eventi", [N(b"PresaInCarico", [L(b"Id_Rec", k[3])], (b"data", d2t(k[2])))] + trees)])

    def new(self, k, span, n):
        """at most n events of the quarter that the case hasn't had yet"""
        days = range(max(k[2], span[2]), span[3] + 1)
        keys = ((O.RIV, 0), (O.ERO, 2), (O.ERO, 7), (O.SOS, 0))                  # a day's visits are by one operator or by two
        room = [(kind, d, code) for kind, code in keys for d in days if (kind, d, code) not in self.ever.get(k, ())]
        if span is self.spans[-1] and self.rng.random() < 0.1 and not any(e[0] == O.CON for e in self.ever.get(k, ())):
            room.append((O.CON, span[3], 0))
        named = self.rng.sample(room, min(n, len(room)))
        self.ever.setdefault(k, set()).update(named)
        return named

    def fill(self, most):
        """events of all cases, until no more than `most` rows are free"""
        rng = self.rng
        for _ in range(12):
            n = self.free() - rng.randint(0, most)
            standing = [k for k in self.keys if self.stands(k)]
            if n <= 0 or not standing:
                return
            k = rng.choice(standing[:3] if rng.random() < 0.7 else standing)
            span = rng.choice([s for s in self.spans if s[3] >= k[2]])
            named = self.new(k, span, min(n, rng.choice([2, 5, 40, 128] if n > 40 else [1, 2, 3, 5, 8])))
            self.send(2, span, [self.events(b"I", k, named)] if named else [])

    def cancel(self):
        """a file of Track 1 about a case with events, and about its neighbours"""
        rng, records = self.rng, []
        full = sorted(k for k in self.keys if self.have(k)) or self.keys
        k = full[len(full) // 2] if rng.random() < 0.5 else rng.choice(full)
        span = self.span(k[2]) if rng.random() < 0.9 else rng.choice(self.spans)
        types = rng.choice(["C", "C", "CI", "CIC", "CIC", "CC", "CICI", "CICIC"])
        if rng.random() < 0.3:                               # discarded first, and the events may be looked at behind it
            records.append(self.case(b"C", k, rng.choice([11, 12, 13])))
            types = rng.choice([types, "", "V"])
        for tipo in types:
            records.append(self.case(tipo.encode(), k))
        freed = len(self.have(k)) + self.free()
        if rng.random() < 0.4 and freed < 12:                # as many insertions as rows came free, one more, one less
            records += [self.case(b"I", self.another()) for _ in range(max(0, freed + rng.randint(-1, 2)))]
        if rng.random() < 0.3:
            records.append(self.case(rng.choice([b"C", b"V"]), rng.choice(self.keys)))
        self.send(1, span, records)

    def insert(self):
        """cases that are gone, or some of them, once more"""
        gone = [k for k in self.keys if not self.stands(k)]
        if gone:
            k = self.rng.choice(gone)
            again = [x for x in gone if self.span(x[2]) == self.span(k[2]) and self.rng.random() < 0.8] or [k]
            self.send(1, self.span(k[2]), [self.case(b"I", x) for x in again])

    def thin(self):
        """cases without events are cancelled, so that rows are events' again"""
        first = self.spans[0]
        bare = [k for k in self.keys[3:] if self.stands(k) and not self.have(k) and self.span(k[2]) is first]
        self.send(1, first, [self.case(b"C", k) for k in bare])

    def old_events(self):
        """a file of Track 2 that names events which their case had before, those that went in front"""
        rng, records = self.rng, []
        gone = lambda k: sorted(self.ever.get(k, set()) - set(self.have(k)))
        some = [k for k in self.keys if gone(k) and self.stands(k)]
        keys = some if some and rng.random() < 0.8 else self.keys
        span = self.span(rng.choice(gone(some[0]))[1]) if some and rng.random() < 0.8 else rng.choice(self.spans)
        for k in rng.sample(keys, min(len(keys), rng.randint(1, 3))):
            of = gone(k) if gone(k) and rng.random() < 0.7 else sorted(self.ever.get(k, ()))
            of = [e for e in of if span[2] <= e[1] <= span[3]]
            for tipo in rng.sample([b"I", b"V", b"C", b"I"], rng.randint(1, 3)):
                if of:
                    records.append(self.events(tipo, k, rng.sample(of, min(len(of), rng.choice([1, 1, 2, 4])))))
        self.send(2, span, records)


def full_registers(rng):
    """cases with up to 4,093 events in registers of 4,096 rows: the rows are packed here, and one file cancels and inserts"""
    w = K.World(rng)
    w.year, w.quarter = 2018, 2
    w.set_quarter()
    ident = bytes(rng.choice(K.ID_CHARS[1:-1]) for _ in range(88))
    middle = (b"010", b"101", w.first + 1, ident)
    keys = [beside(rng, middle, -1), middle, beside(rng, middle, 1)]
    packed = sorted((int(k[0]), *k[1:]) for k in keys)
    keys = [(b"%03d" % k[0], *k[1:]) for k in packed]
    for before, of, behind in ((0, 4093, 0), (1, 4091, 1), (4091, 1, 1), (1, 1, 4091), (2000, 93, 2000), (1500, 1000, 1500), (0, 128, 3900), (3900, 128, 0)):
        rows = []
        for k, n in zip(packed, (before, of, behind)):
            rows += [O.pack_event(k, (O.ERO, k[2] + i // 3, 1 + i % 3 * 5, O.NO_END, i % 100, 0)) for i in range(n)]
        reg = bytes([0, 3]) + len(rows).to_bytes(2, "big") + b"".join([O.pack_case(k, (1950, b"123", (0,) * 6)) for k in packed] + rows)
        reg = reg.ljust(4 + O.ROW * 4096 + rng.choice([0, 0, O.ROW]), b"\0")
        more = (b"010", b"zzz", w.first, b"Z" * 88)
        for types in ([b"C"], [b"C", b"I", b"C"], [b"C", b"I"]):
            records = [K.rec1(w, t, keys[1], True) for t in types] + [K.rec1(w, b"I", more, True)]
            K.check_submit(ser(root(1, records)), 1, 2018, 2, reg, K.answers_for(rng, len(records)))
        K.check_submit(ser(root(1, [K.rec1(w, b"C", k, True) for k in rng.sample(keys, 3)])), 1, 2018, 2, reg, bytes(3))


def g_carried(seed, count):
    plain, i = K.Buf, 0
    full_registers(random.Random("carried full %d" % seed))
    while C["submit"] < count:
        i += 1
        K.Buf, EdgeBuf.at_end = (plain, EdgeBuf, EdgeBuf)[i % 3], i % 3 == 1      # edges as in `edge`
        rng = random.Random("carried %d %d" % (seed, i))
        h = History(rng)
        for span in h.spans[:2]:
            h.send(1, span, [h.case(b"I", k) for k in h.keys if h.span(k[2]) is span])
        h.fill(3)
        for _ in range(rng.randint(3, 8)):
            h.cancel()
            for step in rng.choice([[h.thin, h.insert, h.old_events], [h.old_events, h.thin, h.insert, h.old_events], [h.insert, h.old_events], []]):
                step()
            if rng.random() < 0.7:
                h.fill(2)
        K.check_sound(h.reg)
        k = rng.choice(h.keys)
        K.check_find(h.reg, (k[0], k[1], d2t(k[2]), k[3]))


if __name__ == "__main__":
    t0 = time.time()
    globals()["g_" + sys.argv[1]](int(sys.argv[2]), int(sys.argv[3]))
    print(json.dumps({"generator": sys.argv[1], "seed": int(sys.argv[2]), "seconds": round(time.time() - t0), "counts": dict(sorted(C.items()))}))
    if sys.argv[1] == "carried" and not C["cancellations that carried events away"]:
        sys.exit("carried: no cancellation carried events away")
    sys.exit(C["diff"] > 0)
