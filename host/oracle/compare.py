"""Calls the oracle and the library on the same bytes and compares everything. The library's calls are made by caller.c;
   CALLER has the words that start it.
   usage: compare.py GENERATOR SEED COUNT   (prints counts as JSON on the last line; every difference goes to target/oracle_diffs/)"""
import json, os, pickle, random, struct, subprocess, sys, time, zlib
from collections import Counter
from datetime import date
import oracle as O

CALLER = subprocess.Popen(os.environ["CALLER"].split(), stdin=subprocess.PIPE, stdout=subprocess.PIPE)
EMPTY, SOUND, FIND, SUBMIT, CANCEL_FILE, EVALUATION, CONVERT = range(7)
ROW = O.ROW
GUARD = bytes((i * 37 + 11) & 255 for i in range(64))


class Buf:
    """bytes between guards, in memory that the library gets a pointer into"""
    def __init__(self, data, guard=GUARD):
        self.n, self.guard, self.raw = len(data), guard, guard + data + guard
        self.side = len(guard)

    def get(self):
        g = len(self.guard)
        return self.raw[g:g + self.n], self.raw[:g] == self.guard and self.raw[g + self.n:] == self.guard


def call(which, bufs, numbers=()):
    """the answer; the buffers then hold what the call left in them"""
    CALLER.stdin.write(struct.pack("<%dQ" % (1 + len(numbers)), which, *numbers)
                       + b"".join(struct.pack("<QQ", b.n, b.side) + b.raw for b in bufs))
    CALLER.stdin.flush()
    told = CALLER.stdout.read(8 + sum(len(b.raw) for b in bufs))
    at = 8
    for b in bufs:
        b.raw, at = told[at:at + len(b.raw)], at + len(b.raw)
    if at != len(told):
        sys.exit("the caller ended early")
    return int.from_bytes(told[:8], "little")


C = Counter()
DIFFS = []


def diff(kind, case, mine, theirs):
    C["diff"] += 1
    DIFFS.append((kind, case, mine, theirs))
    os.makedirs("target/oracle_diffs", exist_ok=True)
    if len(DIFFS) <= 200:
        with open("target/oracle_diffs/%s_%d.pkl" % ("_".join(sys.argv[1:3]), len(DIFFS)), "wb") as f:
            pickle.dump((kind, case, mine, theirs), f)
    if len(DIFFS) <= 10:
        print("DIFF", kind, [x[:300] if isinstance(x, bytes) else x for x in case], "oracle", [x if not isinstance(x, bytes) else x[:40] for x in mine],
              "library", [x if not isinstance(x, bytes) else x[:40] for x in theirs], flush=True)


UNTOLD = tuple(0xA5A5A5A5A5A5A500 + i for i in range(8))     # what stands in a report before the call
LENGTHS = (0, 1, 2, 3, 4) + (5,) * 12 + (6, 7, 8) * 5        # of reports, in numbers


def numbers_lent(sub):
    """C5: "a shorter report gets as many as fit, and entries past the fifth stay": how many are lent goes by the submission, so that a run can be repeated"""
    return LENGTHS[zlib.crc32(sub) % len(LENGTHS)]


def lib_submit(sub, track, year, quarter, reg, answers):
    n = numbers_lent(sub)
    s, r, a, rep = Buf(sub, b"></a>" * 4), Buf(reg), Buf(answers), Buf(struct.pack("<%dQ" % n, *UNTOLD[:n]))
    got = call(SUBMIT, (s, r, a, rep), (track, year, quarter))
    (s1, g1), (r1, g2), (a1, g3), (p1, g4) = s.get(), r.get(), a.get(), rep.get()
    return (got, struct.unpack("<%dQ" % n, p1), r1, a1), s1 == sub and g1 and g2 and g3 and g4


EVENTS = {b"Rivalutazione": (0, b"data"), b"Erogazione": (1, b"data"), b"Sospensione": (2, b"dataInizio"), b"Conclusione": (3, b"dataAD")}


def told(sub):
    """each record's type, its case's key and its events' keys, as the numbers that their bits make (R8, R9): packed here, not by the oracle. Of an event that
       is no Erogazione (kind 1) the code's seven bits are zero"""
    number = lambda t: (date.fromisoformat(t.decode()) - date(1900, 1, 1)).days
    key = lambda case, kind, at, e: case << 26 | kind << 24 | number(e.attrs[at]) << 7 | (int(O.text_at(e, b"TipoOperatore")) if kind == 1 else 0)
    out = []
    for r in O.parse(sub).items:
        if isinstance(r, O.Elem):
            taking = O.kid(r, b"Eventi", b"PresaInCarico")
            region, asl, ident = O.text_at(r, b"Erogatore", b"CodiceRegione"), O.text_at(r, b"Erogatore", b"CodiceASL"), O.text_at(taking, b"Id_Rec")
            case = int(region)
            for value, bits in [(c, 7) for c in asl] + [(number(taking.attrs[b"data"]), 17)] + [(c, 7) for c in ident]:
                case = case << bits | value
            named = [(EVENTS[e.name], e) for e in O.kid(r, b"Eventi").items if isinstance(e, O.Elem) and e.name in EVENTS]
            out.append((O.kid(r, b"Trasmissione").attrs[b"tipo"], case, [key(case, kind, at, e) for (kind, at), e in named]))
    return out


def at(i, row=ROW):
    """where row i stands (R2)"""
    return slice(4 + row * i, 4 + row * (i + 1))


def first_bits(r, n, row=ROW):
    """the number that a row's first n bits make"""
    return r >> 8 * row - n


def event_key(r, row=ROW):
    """R9: of an Erogazione (kind 1) 688 bits, else 681 and zeros"""
    return first_bits(r, 688, row) if first_bits(r, 664, row) & 3 == 1 else first_bits(r, 681, row) << 7


def keys_in(reg, row=ROW):
    """the keys of the cases and of the events that stand, as numbers, read off the bytes (R1, R2, R9)"""
    cases, events = int.from_bytes(reg[:2], "big"), int.from_bytes(reg[2:4], "big")
    rows = [int.from_bytes(reg[at(i, row)], "big") for i in range(cases + events)]
    return [first_bits(r, 662, row) for r in rows[:cases]], [event_key(r, row) for r in rows[cases:]]


def conserved(records, track, reg, after, answers):
    """K1, and E1's total: "for events subtracts those carried away, counted once for each case from the register before the call" """
    (cases0, events0), (cases1, events1) = keys_in(reg), keys_in(after)
    had = Counter(e >> 26 for e in events0)
    accepted = [r for r, a in zip(records, answers) if a == 0]
    cancelled = {case for tipo, case, _ in accepted if tipo == b"C"} if track == 1 else set()
    keys = lambda t: sum(len(events) for tipo, _, events in accepted if tipo == t)
    cases = lambda t: sum(tipo == t for tipo, _, _ in accepted) if track == 1 else 0
    return (len(cases1) + cases(b"C") == len(cases0) + cases(b"I")
            and len(events1) + keys(b"C") + sum(had[case] for case in cancelled) == len(events0) + keys(b"I"))


def count_carried(records, reg, answers):
    """what a taken Track 1 file met of cases with events, so that a run shows that it is not empty"""
    cases, events = keys_in(reg)
    left, since = Counter(e >> 26 for e in events), {}       # since: the accepted types behind the cancellation that carried events away
    stayed, room = len(cases) + len(events), O.room(reg)     # stayed: the rows, were those of carried events no room
    for (tipo, case, _), a in zip(records, answers):
        stayed += {b"I": 1, b"C": -1}.get(tipo, 0) if a == 0 else 0
        if tipo == b"C" and case in left:
            if a:
                C["C of a case with events: %d" % a] += 1
                continue
            C["cancellations that carried events away"] += 1
            C["events carried away"] += left.pop(case)
            C["carried away between other cases' events"] += bool(left) and min(left) < case < max(left)
            since[case] = ""
        elif case in since:
            since[case] += tipo.decode() if a == 0 else ""
            C["events carried away, then %s: %d in the file" % (" ".join(since[case]) if a == 0 else tipo.decode(), a)] += 1
        if tipo == b"I" and a == 0 and stayed > room:
            C["I into the room of carried events"] += 1
        if a == 17 and since:
            C["17 behind events carried away"] += 1


def count_operators(records, reg, answers):
    """what a taken Track 2 file met of visits (Erogazione) of one case and day: beside another operator's, by the same operator, by one who didn't come"""
    stand = {k for k in keys_in(reg)[1] if k >> 24 & 3 == 1}
    days = Counter(k >> 7 for k in stand)
    for (tipo, _, keys), a in zip(records, answers):
        visits, t = [k for k in keys if k >> 24 & 3 == 1], tipo.decode()
        own, each = Counter(k >> 7 for k in set(visits)), set(visits)
        if any(own[k >> 7] > 1 or days[k >> 7] > (k in stand) for k in each):
            C["%s of a visit beside another operator's: %d" % (t, a)] += 1
        if len(each) < len(visits):
            C["a visit by the same operator twice in a record: %d" % a] += 1
        if tipo == b"I" and each & stand:
            C["I of a visit that the same operator made: %d" % a] += 1
        if tipo != b"I" and any(k not in stand and days[k >> 7] for k in each):
            C["%s of a visit that only another operator made: %d" % (t, a)] += 1
        if a == 0 and tipo != b"V":
            stand = stand - each if tipo == b"C" else stand | each
            days = Counter(k >> 7 for k in stand)


def check_submit(sub, track, year, quarter, reg, answers):
    mine = O.submit(sub, track, year, quarter, reg, answers)
    n = numbers_lent(sub)
    said = mine[0], (mine[1:5] + mine[7:] + UNTOLD[5:])[:n], mine[5], mine[6]
    theirs, kept = lib_submit(sub, track, year, quarter, reg, answers)
    C["submit"] += 1
    C["answer %d" % mine[0]] += 1
    C["reports of %d numbers" % n] += 1
    if mine[0] == 6:
        C["6 record 0" if mine[1] == 0 else "6 record n"] += 1
        C["places compared"] += n >= 5
    if mine[0] == 0:
        for x in mine[6][:mine[2]]:
            C["t%d %d" % (track, x)] += 1
        C["register changed"] += mine[5] != reg
    if said != theirs or not kept:
        diff("submit", (sub, track, year, quarter, reg, answers), said, theirs + (kept,))
    if theirs[0] == mine[0] == 0:
        records, after, answered = told(sub), *theirs[2:]
        if not conserved(records, track, reg, after, answered):
            diff("total", (sub, track, year, quarter, reg, answers), said, theirs)
        (count_carried if track == 1 else count_operators)(records, reg, answered)
    return mine


def check_sound(reg):
    mine = O.sound(reg)
    b = Buf(reg)
    theirs = call(SOUND, (b,))
    C["sound %d" % mine] += 1
    if mine != theirs or b.get() != (reg, True):
        diff("sound", (reg,), (mine,), (theirs,))
    return mine


def check_find(reg, texts):
    mine = O.find(reg, *texts)
    b, ts, pl = Buf(reg), [Buf(t) for t in texts], Buf(b"\xA5" * 8)
    got = call(FIND, (b, *ts, pl))
    p, g = pl.get()
    theirs = (got, int.from_bytes(p, "little"))
    C["find %d" % mine[0]] += 1
    if mine != theirs or not g or b.get() != (reg, True) or any(t.get() != (x, True) for t, x in zip(ts, texts)):
        diff("find", (reg, *texts), mine, theirs)
    return theirs


def check_cancel_file(reg, texts, year, quarter, out):
    mine = O.cancel_file(reg, *texts, year, quarter, out)
    b, ts, o, n = Buf(reg), [Buf(t) for t in texts], Buf(out), Buf(b"\xA5" * 8)
    got = call(CANCEL_FILE, (b, *ts, o, n), (year, quarter))
    (after, g1), (length, g2) = o.get(), n.get()
    theirs = (got, int.from_bytes(length, "little"), after)
    C["cancel_file"] += 1
    C["cancel_file %d" % mine[0]] += 1
    if mine != theirs or not (g1 and g2) or b.get() != (reg, True) or any(t.get() != (x, True) for t, x in zip(ts, texts)):
        diff("cancel_file", (reg, *texts, year, quarter, out), mine, theirs + (g1, g2))
    return mine


def check_evaluation(reg, texts, on):
    """on: the day's text; what stands in the eleven bytes before the call is no evaluation"""
    mine = O.evaluation(reg, *texts, on)
    b, ts, f = Buf(reg), [Buf(t) for t in (*texts, on)], Buf(b"\xA5" * 11)
    got = call(EVALUATION, (b, *ts, f))
    fields, g = f.get()
    C["evaluation"] += 1
    C["evaluation %d" % mine[0]] += 1
    if mine != (got, fields) or not g or b.get() != (reg, True) or any(t.get() != (x, True) for t, x in zip(ts, (*texts, on))):
        diff("evaluation", (reg, *texts, on), mine, (got, fields, g))
    return got, fields


def check_convert(old, new):
    mine = O.convert(old, new)
    o, n = Buf(old), Buf(new)
    got = call(CONVERT, (o, n))
    after, g = n.get()
    C["convert"] += 1
    C["convert %d" % mine[0]] += 1
    if mine != (got, after) or not g or o.get() != (old, True):
        diff("convert", (old, new), mine, (got, after, g))
    return got, after


def check_empty(reg):
    mine = O.empty(reg)
    b = Buf(reg)
    theirs = (call(EMPTY, (b,)), b.get()[0])
    C["empty %d" % mine[0]] += 1
    if mine != theirs or not b.get()[1]:
        diff("empty", (reg,), mine, theirs)


# ------------------------------------------------------------------ trees
class T:
    __slots__ = ("n", "a", "k", "leaf")

    def __init__(self, n, a, k, leaf):
        self.n, self.a, self.k, self.leaf = n, a, k, leaf    # a: [[name, value]], k: [T or bytes]

    def copy(self):
        return T(self.n, [list(x) for x in self.a], [x.copy() if isinstance(x, T) else x for x in self.k], self.leaf)


def L(n, text, *a):
    return T(n, [list(x) for x in a], [text] if text else [], True)


def N(n, kids, *a):
    return T(n, [list(x) for x in a], kids, False)


COMMENTS = [b"<!---->", b"<!-- x -->", b"<!--->-->", b"<!--<a>-->", b"<!-- - -->", b"<!--?>-->", b"<!--<-->", b"<!--' \"-->"]


def some_space(rng, p):
    return bytes(rng.choice(b" \t\r\n") for _ in range(rng.randint(1, 3))) if rng.random() < p else b""


def ser(t, rng=None, p=0.0):
    """bytes; with p, white space, comments, other quotes, other attribute orders wherever the markup (M) allows them"""
    out = []

    def gap():
        if p:
            out.append(some_space(rng, p))
            if rng.random() < p / 3:
                out.append(rng.choice(COMMENTS) + some_space(rng, p))

    def go(t):
        out.append(b"<" + t.n)
        attrs = t.a
        if p and rng.random() < p:
            attrs = attrs[:]
            rng.shuffle(attrs)
        for n, v in attrs:
            if not p:
                out.append(b' %s="%s"' % (n, v))
            else:
                q = b'"' if b"'" in v else b"'" if b'"' in v else rng.choice([b'"', b"'"])
                out.append((some_space(rng, p) or b" ") + n + some_space(rng, p) + b"=" + some_space(rng, p) + q + v + q)
        if p:
            out.append(some_space(rng, p))
        if not t.k and (not p or rng.random() < 0.6):
            out.append(b"/>")
            return
        out.append(b">")
        if not t.leaf:
            gap()
        for k in t.k:
            if isinstance(k, bytes):
                out.append(k)
            else:
                go(k)
            if not t.leaf:
                gap()
        out.append(b"</" + t.n + (some_space(rng, p) if p else b"") + b">")
    if p:
        if rng.random() < p:
            out.append(rng.choice([b"<?xml ?>", b"<?xml version='1.0'?>", b'<?xml\n version="1.0" encoding="UTF-8" ?>', b"<?xml <a> ??>"]))
        gap()
    go(t)
    if p:
        gap()
    return b"".join(out)


def walk(t, out=None):
    out = [] if out is None else out
    for i, k in enumerate(t.k):
        if isinstance(k, T):
            out.append((t, i, k))
            walk(k, out)
    return out


# ------------------------------------------------------------------ records
def d2t(n):
    return date.fromordinal(max(1, n + O.DAY0)).isoformat().encode()


ID_CHARS = O.ID_SET
NEEDS1 = [b"DrenaggioPosturale", b"OssigenoTerapia", b"Ventiloterapia", b"Tracheostomia"]
NEEDS2 = [b"GestioneStomia", b"ElimiUrinariaIntestinale", b"AlterRitmoSonnoVeglia", b"IntEduTerapeutica", b"CuraUlcereCutanee12Grado",
          b"CuraUlcereCutanee34Grado", b"PrelieviVenosiNonOcc", b"ECG", b"Telemetria", b"TER", b"GestioneCatetere", b"Trasfusioni", b"ControlloDolore",
          b"AssistStatoTerminaleOnc", b"AssistStatoTerminaleNonOnc"]


def t12(rng):
    return rng.choice([b"1", b"2"])


def t13(rng):
    return rng.choice([b"1", b"2", b"3"])


def val_tree(rng, track, prevalente, full=False):
    maybe = lambda n, f: [L(n, f(rng))] if full or rng.random() < 0.6 else []
    k = [N(b"Patologia", [L(b"Prevalente", prevalente), L(b"Concomitante", rng.choice([b"000", b"   ", b"abc", b"\t>'", b"401"]))])]
    k += maybe(b"Autonomia", t13) + maybe(b"GradoMobilita", t13)
    if track == 1 or full or rng.random() < 0.6:
        k.append(N(b"Disturbi", maybe(b"Cognitivi", t13) + maybe(b"Comportamentali", t13)))
    k += maybe(b"SupportoSociale", t13) + maybe(b"RischioInfettivo", t12)
    k += [L(n, t12(rng)) for n in NEEDS1]
    k.append(N(b"Alimentazione", [L(n, t12(rng)) for n in (b"Assistita", b"Enterale", b"Parenterale")]))
    k += [L((b"TerSottocutIntraMusInfus" if track == 1 else b"TerSottocutIntraMuscInfus") if n == b"TER" else n, t12(rng)) for n in NEEDS2]
    if full or rng.random() < 0.4:
        k.append(N(b"TrattamentiRiab", maybe(b"Neurologico", t12) + maybe(b"Ortopedico", t12) + maybe(b"DiMantenimento", t12)))
    for n in (b"SupervisioneContinua", b"AssistenzaIADL", b"AssistenzaADL", b"SupportoCareGiver"):
        k += maybe(n, t12)
    return N(b"Valutazione", k)


PREV = [b"123", b"401", b"12345", b"A.b1", b"0000", b"00000", b" 0 ", b"\t\r\n", b">>>", b"]]>", b"\"'~", b"00 ", b"0001", b"V58.1"]


def prev(rng, bad=0.05):
    return b"000" if rng.random() < bad else rng.choice(PREV)


class World:
    def __init__(self, rng):
        self.rng = rng
        self.year = rng.choice([2018, 2018, 2020, 2009, 2099, 2012, 2100 - 1, 2023])
        self.quarter = rng.randint(1, 4)
        base = bytes(rng.choice(ID_CHARS) for _ in range(88))
        other = lambda b, i, c: b[:i] + bytes([c]) + b[i + 1:]
        self.ids = [base, other(base, 87, rng.choice(ID_CHARS)), other(base, 0, rng.choice(ID_CHARS)), b"A" * 88][:rng.randint(1, 4)]
        self.regions = rng.sample(O.REGIONS, 2)
        self.asls = [b"101", rng.choice([b"102", b"aZ9", b"000", b"zzz"])]
        self.set_quarter()
        self.keys = [(rng.choice(self.regions), rng.choice(self.asls), rng.choice(self.takings), rng.choice(self.ids)) for _ in range(rng.randint(1, 7))]

    def set_quarter(self):
        y, q, rng = self.year, self.quarter, self.rng
        f = date(y, 3 * q - 2, 1).toordinal() - O.DAY0
        l = (date(y, 3 * q + 1, 1) if q < 4 else date(y + 1, 1, 1)).toordinal() - O.DAY0 - 1
        self.first, self.last = f, l
        self.takings = [f, f + 1, f + rng.randint(2, 40), l]
        m = f + rng.randint(5, 60)
        self.days = [f, f + 1, m, m + 1, m + 2, m + 3, m + 4, m + 6, l - 1, l]
        self.outer = [f - 1, l + 1, f - 90, l + 30, 0, O.LAST_DAY]

    def forward(self):
        if self.quarter < 4:
            self.quarter += 1
        elif self.year < 2099:
            self.year, self.quarter = self.year + 1, 1
        self.set_quarter()
        rng = self.rng
        self.keys += [(rng.choice(self.regions), rng.choice(self.asls), rng.choice(self.takings), rng.choice(self.ids)) for _ in range(rng.randint(0, 3))]

    def day(self, out=0.03):
        return max(0, min(O.LAST_DAY, self.rng.choice(self.outer if self.rng.random() < out else self.days)))


def head(tipo, track, k, mid=None):
    kids = [L(b"Trasmissione", b"", (b"tipo", tipo))] + (mid or [])
    kids.append(N(b"Erogatore", [L(b"CodiceRegione", k[0]), L(b"CodiceASL", k[1])]))
    return kids


def rec1(w, tipo=None, key=None, calm=False):
    rng = w.rng
    k = key or rng.choice(w.keys)
    tipo = tipo or rng.choice([b"I"] * 6 + [b"V", b"V", b"C", b"C"])
    taken = k[2]
    if not calm and rng.random() < 0.05:
        taken = max(0, min(O.LAST_DAY, rng.choice(w.outer + w.takings)))
    ty = O.year_of(taken)
    birth = b"1950" if calm else rng.choice([b"1950"] * 12 + [b"1880", b"%04d" % ty, b"1881", b"1879", b"%04d" % (ty + 1), b"0000", b"9999", b"4095"])
    x = 0.1 if calm else rng.random()
    if x < 0.7:
        res = [b"010", b"999", b"999998", None] if rng.random() < 0.3 else [rng.choice(O.REGIONS), b"101", b"H501aZ", None]
    elif x < 0.85:
        res = [b"999", b"999", b"999999", rng.choice([b"FR", b"de", b"ti", b"iT" if rng.random() < 0.1 else b"Us"])]
    else:
        res = [rng.choice([b"999", b"010"]), rng.choice([b"999", b"99a"]), rng.choice([b"999999", b"999990"]), rng.choice([None, b"FR", b"IT", b"it", b"It", b"iT"])]
    residenza = [L(b"Regione", res[0]), L(b"ASL", res[1]), L(b"Comune", res[2])] + ([L(b"StatoEstero", res[3])] if res[3] else [])
    anag = N(b"DatiAnagrafici", [
        L(b"CUNI", bytes(rng.choice(ID_CHARS) for _ in range(rng.choice([1, 2, 88, 256])))), L(b"validitaCI", rng.choice([b"0", b"1"])),
        L(b"tipologiaCI", rng.choice([b"0", b"1", b"2", b"3", b"4", b"99", b"099", b"+3", b"-0"])), L(b"AnnoNascita", birth), L(b"Genere", t12(rng)),
        L(b"Cittadinanza", rng.choice([b"IT", b"FR", b"ZZ"])), L(b"StatoCivile", rng.choice([b"1", b"5", b"9"])), N(b"Residenza", residenza)])
    kids = head(tipo, 1, k, [N(b"Assistito", [anag]),
                             N(b"Conviventi", [L(b"NucleoFamiliare", rng.choice([b"0", b"7", b"07", b"+7", b"-0", b"99", b"0000099"])),
                                               L(b"AssistenteNonFamiliare", t12(rng))])])
    v = val_tree(rng, 1, prev(rng, 0 if calm else 0.05))
    v.a = [[b"data", d2t(w.day(0.3))]]
    kids.append(N(b"Eventi", [N(b"PresaInCarico", [L(b"Id_Rec", k[3])], (b"data", d2t(taken)), (b"soggettoRichiedente", rng.choice([b"1", b"9"]))), v]))
    return N(b"Assistenza", kids)


OPERATORS = [1, 2, 7, 9, 10, 13, 99]


def ev_tree(rng, kind, when, end=None, calm=False, code=None):
    """code: the operator, the Motivazione or the motivo; without one, any"""
    code = b"%d" % (code or rng.choice({O.RIV: [1, 2], O.ERO: OPERATORS, O.SOS: [1, 2, 3, 9], O.CON: [1, 9, 12, 97, 99]}[kind]))
    if kind == O.RIV:
        conf = t12(rng)
        withv = (conf == b"2") != (not calm and rng.random() < 0.04)
        return N(b"Rivalutazione", [val_tree(rng, 2, prev(rng, 0 if calm else 0.05))] if withv else [],
                 (b"data", d2t(when)), (b"motivo", code), (b"confermaPrecedente", conf))
    if kind == O.ERO:
        acc = [(b"numAccessi", rng.choice([b"1", b"9", b"10", b"99"]))] if rng.random() < 0.5 else []
        pres = [N(b"Prestazioni", [L(b"TipoPrestazione", rng.choice([b"1", b"21", b"021", b"+5"])), L(b"numPrestazione", rng.choice([b"1", b"99", b"+07"]))])
                for _ in range(rng.choice([0, 0, 0, 1, 2]))]
        return N(b"Erogazione", [L(b"TipoOperatore", code)] + pres, (b"data", d2t(when)), *acc)
    if kind == O.SOS:
        a = [(b"dataInizio", d2t(when))] + ([(b"dataFine", d2t(end))] if end is not None else [])
        return N(b"Sospensione", [L(b"Motivazione", code)], *a)
    return N(b"Conclusione", [L(b"Motivazione", code)], (b"dataAD", d2t(when)))


def operator(rng, kind):
    """what an event's key has behind its date: an Erogazione's operator, two of them often, and of other kinds 0"""
    return rng.choice([2, 7] if rng.random() < 0.5 else OPERATORS) if kind == O.ERO else 0


def rec2(w, reg, tipo=None, n=None):
    """reg: the taken apart register (oracle's), so that standing things come up"""
    rng = w.rng
    tipo = tipo or rng.choice([b"I"] * 6 + [b"V", b"V", b"C"])
    stand = list(reg.cases) if reg else []
    if stand and rng.random() < 0.93:
        ck = rng.choice(stand)
        k = (b"%03d" % ck[0], ck[1], ck[2], ck[3])
    else:
        k = rng.choice(w.keys)
        ck = (int(k[0]), k[1], k[2], k[3])
    have = reg.events.get(ck, {}) if reg else {}
    evs = []
    n = n if n is not None else rng.choice([0, 1, 1, 1, 1, 2, 2, 2, 3, 3, 4, 6])
    fit = [d for d in w.days if d >= k[2]] if rng.random() < 0.85 else w.days
    pick = lambda: w.day() if not fit or rng.random() < 0.08 else rng.choice(fit)
    if tipo in b"VC" and have and rng.random() < 0.9:
        for kind, d, code in rng.sample(list(have), min(len(have), max(n, 1))):
            evs.append((kind, d, code if rng.random() < 0.96 else operator(rng, kind)))
        if rng.random() < 0.15:
            kind = rng.randint(0, 3)
            evs.append((kind, pick(), operator(rng, kind)))
    elif n > 20:
        days = list(range(w.first, w.last + 1))
        for i in range(n):
            evs.append((i // len(days), days[i % len(days)], operator(rng, i // len(days))))
    else:
        for _ in range(n):
            kind = rng.choice([0, 0, 1, 1, 1, 1, 2, 2, 2]) if rng.random() < 0.85 else 3
            d = pick()
            if kind == 3:
                d = rng.choice([w.last, w.last - 1, w.last, d])
            if kind == 2 and rng.random() < 0.1:
                d = max(0, w.first - rng.randint(0, 20))
            evs.append((kind, d, operator(rng, kind)))
            if kind == 1 and rng.random() < 0.2:             # another operator on that day
                evs.append((kind, d, operator(rng, kind)))
    if n <= 20 and evs and rng.random() < 0.04:
        evs.append(rng.choice(evs))
    elif n <= 20:
        evs = list(dict.fromkeys(evs))
    seen, trees = 0, []
    for kind, d, code in sorted(evs, key=lambda e: e[0]):
        if kind == 3:
            if seen:
                continue
            seen = 1
        end = None
        if kind == 2:
            x = rng.random()
            if x < 0.75:
                end = max(d + rng.choice([0, 0, 1, 1, 2, 3]), w.first if rng.random() < 0.9 else 0)
                if rng.random() < 0.85:
                    end = min(end, max(w.last, d))
            elif x < 0.80:
                end = d - rng.choice([1, 2])
            if end is not None:
                end = max(0, min(O.LAST_DAY, end))
        trees.append(ev_tree(rng, kind, d, end, code=code))
    kids = head(tipo, 2, k)
    kids.append(N(b"Eventi", [N(b"PresaInCarico", [L(b"Id_Rec", k[3])], (b"data", d2t(k[2])))] + trees))
    return N(b"Assistenza", kids)


def root(track, recs, rng=None):
    a = []
    if rng and rng.random() < 0.15:
        a = rng.sample([(b"xmlns", b"http://flussi.mds.it/flsassdom_1"), (b"xmlns:xsi", b"x>y"), (b"xsi:schemaLocation", b"a 'b'"), (b"xmlnsfoo", b""), (b"xsi:", b"")],
                       rng.randint(1, 4))
    return N(b"FlsAssDom_%d" % track, recs, *a)


# ------------------------------------------------------------------ texts and mutations
ID88 = bytes(ID_CHARS[i % len(ID_CHARS)] for i in range(88))
NEAR = [b"", b"0", b"1", b"2", b"3", b"4", b"5", b"6", b"7", b"8", b"9", b"10", b"11", b"12", b"13", b"14", b"20", b"21", b"22", b"96", b"97", b"98", b"99", b"100", b"101",
        b"01", b"02", b"001", b"013", b"099", b"00", b"+1", b"-1", b"+0", b"-0", b"--1", b"++1", b"+-1", b"+", b"-", b" ", b"\n", b" 1", b"1 ", b"1\n", b"\t1", b"+ 1", b"1+", b"1.0", b"1e1", b"0x1",
        b"1_0", b"257", b"256", b"258", b"355", b"65537", b"65536", b"65635", b"4294967297", b"4294967296", b"4294967395", b"18446744073709551617", b"18446744073709551616", b"18446744073709551715",
        b"9223372036854775809", b"340282366920938463463374607431768211457", b"0" * 30 + b"1", b"0" * 300 + b"21", b"+" + b"0" * 70 + b"99", b"-" + b"0" * 40, b"1" + b"0" * 40, b"0" * 60,
        b"000", b"0000", b"00000", b"000000", b"999", b"999999", b"99999", b"9999999", b"998", b"010", b"10", b"0010", b"041", b"043", b"040", b"121", b"122", b"200", b"210", b"266", b"abc", b"aZ9", b"a-z", b"a z", b"ab_", b"abcd", b"ab",
        b"H501aZ", b"H501a", b"H501aZx", b"H501a.", b"IT", b"it", b"It", b"iT", b"FR", b"fR", b"F1", b"F", b"FRA", b"[[", b"@A", b"A@", b"`a", b"{a", b"I", b"V", b"C", b"i", b"IV", b"A", b"I ", b" I",
        b"1950", b"1879", b"1880", b"1899", b"2018", b"2019", b"2100", b"0000", b"9999", b"195", b"19500", b"+195", b"-195", b"195 ", b"19a0",
        b"2018-05-01", b"2018-06-30", b"2018-07-01", b"2018-02-29", b"2020-02-29", b"2018-04-31", b"2018-4-01", b"2018-05-1", b"+2018-05-01", b"-2018-05-01", b"02018-05-01", b"2018-05-01Z", b"2018-05-01+01:00", b" 2018-05-01", b"2018-05-01 ",
        b"1900-01-01", b"1899-12-31", b"2099-12-31", b"2100-01-01", b"2018-00-10", b"2018-13-01", b"2018-01-00", b"2018-01-32", b"2018-12-31", b"2018-12-32", b"2018/05/01", b"20180501", b"2018-05.01", b"2018-05-0a", b"2o18-05-01", b"1900-02-29", b"2000-02-29", b"2000-02-30", b"2018-09-31",
        b"2018-06-31", b"2018-11-31", b"2018-99-99", b"0000-00-00", b"9999-12-31", b"2018-05-:1", b"2018-0:-01",
        ID88, ID88[:87], ID88 + b"A", ID88[:87] + b" ", ID88[:87] + b">", ID88[:87] + b'"', ID88[:87] + b"'", b" " + ID88[1:], b"\t" + ID88[1:], b"~" * 88, b"!" * 88, b"B" * 256, b"B" * 257, b"B" * 255, b"B" * 255 + b">",
        b">>>", b"]]>", b"a\tb", b"\r\n", b"\r\n\r\n\r", b"     ", b"      ", b"12345", b"123456", b"1234", b"12", b"'", b"\"'\"", b"a>b"]
BADNEAR = [b"&amp;", b"a&b", b"<", b"\x7f\x7f\x7f", b"\x80bc", b"\0\0\0", b"<!--x-->", b"<!---->", b"<a/>", b"<![CDATA[1]]>", b"<?x?>", b"1<!---->", b"<!---->1", b"1<x/>", b"\x0b", b"\x1f1", b"12\xc3\xa0"]
NAMES = [b"Assistenza", b"X", b"assistenza", b"Eventi", b"PresaInCarico", b"PresainCarico", b"Valutazione", b"Motivazione", b"fls:Assistenza", b"Disturbi", b"FlsAssDom_1", b"FlsAssDom_2", b"_", b"a-b.c:d", b"Id_Rec", b"Erogazione", b"Comportamenti",
         b"TerSottocutIntraMusInfus", b"TerSottocutIntraMuscInfus", b"StatoEstero", b"Prestazioni", b"Conclusione", b"Sospensione", b"Rivalutazione", b"Trasmissione"]
ATTRS = [b"data", b"dataInizio", b"dataFine", b"dataAD", b"tipo", b"xmlns", b"xmlns:a", b"xmlnsfoo", b"xsi:type", b"xsi", b"xs", b"motivo", b"confermaPrecedente", b"numAccessi", b"soggettoRichiedente", b"Data", b"x", b"xml:lang", b"_a", b"XMLNS", b"xsi:", b"xmln"]
BETWEEN = [b" ", b"\n\t", b"<!-- c -->", b"<!---->", b"x", b"1", b">", b"\"", b"]]>", b"<X/>", b"<!-- a -- b -->", b"<!--->", b"<!-->", b"<!--a--->", b"<!-- & -->", b"<!--<!-- -->", b"<!--<?-->", b"<?pi x?>", b"<!DOCTYPE a>", b"<![CDATA[ ]]>", b"&#32;", b"<", b"<!--", b"-->", b"\0", b"\x7f", b"\xe9",
           b"<!--->-->", b"<!--<!-->", b"<!---->-->", b"<!-----> "]
BYTES = b"<>/!?-&\"'= \t\r\n\0\x7f\x80\xffaZ09_.:;~"


def mutate_tree(rng, t):
    """one mutation in place; returns a function for the bytes afterwards or None"""
    nodes = walk(t)
    if not nodes:
        return
    # spread over depths
    par, i, nd = rng.choice(nodes)
    if rng.random() < 0.15:
        par, i, nd = rng.choice([x for x in nodes if x[0] is t])
    op = rng.randint(0, 13)
    if op == 0:
        del par.k[i]
    elif op == 1:
        par.k.insert(i, nd.copy())
    elif op == 2:
        j = rng.randrange(len(par.k))
        par.k[i], par.k[j] = par.k[j], par.k[i]
    elif op == 3:
        nd.n = rng.choice(NAMES)
    elif op == 4:
        with_a = [x for _, _, x in nodes if x.a]
        if with_a:
            x = rng.choice(with_a)
            del x.a[rng.randrange(len(x.a))]
    elif op == 5:
        x = t if rng.random() < 0.3 else nd
        x.a.insert(rng.randint(0, len(x.a)), [rng.choice(ATTRS), rng.choice(NEAR[:60] + [b"2018-05-01", b"a>b"])])
    elif op == 6:
        with_a = [x for _, _, x in nodes if x.a]
        if with_a:
            x = rng.choice(with_a)
            x.a.append(list(rng.choice(x.a)))
    elif op in (7, 8, 9):
        leaves = [x for _, _, x in nodes if x.leaf]
        if leaves:
            x = rng.choice(leaves)
            x.k = [rng.choice(NEAR if rng.random() < 0.9 else BADNEAR)]
    elif op == 10:
        with_a = [x for _, _, x in nodes if x.a]
        if with_a:
            rng.choice(rng.choice(with_a).a)[1] = rng.choice([v for v in NEAR if b'"' not in v] + [b"<", b"&", b"a'b"])
    elif op == 11:
        x = t if rng.random() < 0.2 else nd
        x.k.insert(rng.randint(0, len(x.k)), rng.choice(BETWEEN))
    elif op == 12:
        t.n = rng.choice([b"FlsAssDom_1", b"FlsAssDom_2", b"FlsAssDom_3", b"flsAssDom_1", b"fls:FlsAssDom_1", b"Assistenza"])
    else:
        deep = rng.randint(1, 12)
        inner = b"" if rng.random() < 0.7 else b"<a/>"
        nd.k.insert(rng.randint(0, len(nd.k)), b"<d>" * deep + inner + b"</d>" * deep)


def mutate_bytes(rng, b):
    b = bytearray(b)
    for _ in range(rng.choice([1, 1, 1, 2, 3])):
        i = rng.randrange(len(b) + 1)
        op = rng.randint(0, 5)
        c = rng.choice(BYTES) if rng.random() < 0.85 else rng.randrange(256)
        if op == 0 and i < len(b):
            b[i] = c
        elif op == 1 and i < len(b):
            del b[i]
        elif op == 2:
            b[i:i] = bytes([c])
        elif op == 3:
            b[i:i] = rng.choice(BETWEEN)
        elif op == 4:
            j = min(len(b), i + rng.randint(1, 40))
            if rng.random() < 0.5:
                del b[i:j]
            else:
                b[i:i] = b[i:j]
        else:
            if rng.random() < 0.3:
                b = b[:i]
            else:
                tags = [k for k in range(len(b)) if b[k] in b"<>\"="]
                if tags:
                    k = rng.choice(tags)
                    b[k:k + 1] = rng.choice([b"", b" ", b"<", b">", b"\"", b"'", b"/>", b"</", b" =", b"= ", b"> ", b" <", b" >", b"\" ", b"\"\""])
        if not b:
            break
    return bytes(b)


# ------------------------------------------------------------------ generators
def new_register(rng):
    x = rng.random()
    if x < 0.05:
        n = rng.choice([4, 5, 3 + ROW])
    elif x < 0.35:
        n = 4 + ROW * rng.randint(1, 6) + rng.choice([0, 0, 1, ROW - 1])
    elif x < 0.97:
        n = 4 + ROW * rng.randint(7, 45) + rng.choice([0, 0, 45])
    else:
        n = 4 + ROW * rng.randint(150, 300)
    return bytes(n)


def answers_for(rng, n):
    m = rng.choice([n, n, n + 3, n + 20, n + 1, max(0, n - 1) if rng.random() < 0.35 else n])
    return bytes(rng.randrange(256) for _ in range(m))


def gen_history(rng, share):
    """one history: a sequence over one register"""
    w = World(rng)
    reg = new_register(rng)
    done = 0
    for step in range(rng.randint(5, 14)):
        parts = O.load(reg)
        if step and rng.random() < 0.12:
            w.forward()
        track = 1 if step < 2 or rng.random() < 0.3 else 2
        if track == 1:
            recs = [rec1(w, calm=step < 1) for _ in range(rng.choice([1, 1, 2, 3, 4]))]
            if parts and parts.cases and rng.random() < 0.3:
                ck = rng.choice(list(parts.cases))
                recs.append(rec1(w, rng.choice([b"C", b"C", b"V"]), (b"%03d" % ck[0], ck[1], ck[2], ck[3]), True))
        elif rng.random() < 0.012:
            recs = [rec2(w, parts, b"I", rng.choice([127, 128, 128, 129, 130]))]
        else:
            recs = [rec2(w, parts) for _ in range(rng.choice([1, 1, 2, 3]))]
        t = root(track, recs, rng)
        nrec = len(recs)
        year, quarter = w.year, w.quarter
        mutate = 0 if step == 0 else share
        if mutate and rng.random() < mutate:
            for _ in range(rng.choice([1, 1, 1, 2, 2, 3])):
                mutate_tree(rng, t)
        b = ser(t, rng, rng.choice([0, 0, 0.1, 0.4]))
        if mutate and rng.random() < mutate / 2:
            b = mutate_bytes(rng, b)
        if mutate and rng.random() < 0.02:
            year = rng.choice([0, 2008, 2009, 2099, 2100, 2**63, 2**64 - 1])
        if mutate and rng.random() < 0.02:
            quarter = rng.choice([0, 1, 4, 5, 2**32 + 1, 2**64 - 1])
        if mutate and rng.random() < 0.03:
            track = rng.choice([0, 1, 2, 3, 2**32 + 1, 2**64 - 1])
        out = check_submit(b, track, year, quarter, reg, answers_for(rng, nrec))
        reg = out[5]
        done += 1
    return done, reg, w


def near_texts(rng, w, reg):
    parts = O.load(reg)
    if parts and parts.cases and rng.random() < 0.6:
        k = rng.choice(list(parts.cases))
        t = [b"%03d" % k[0], k[1], d2t(k[2]), k[3]]
    else:
        k = rng.choice(w.keys)
        t = [k[0], k[1], d2t(k[2]), k[3]]
    if rng.random() < 0.5:
        i = rng.randrange(4)
        x = t[i]
        t[i] = rng.choice(NEAR + [x + b" ", b" " + x, x[:-1], x.lower(), x.upper(), x[:-1] + bytes([rng.randrange(256)])])
    return t


def some_value(rng):
    """an evaluation that a row may keep: its prevalente may stand alone"""
    levels = (0,) * 6 if rng.random() < 0.1 else tuple(rng.randint(0, 3) for _ in range(5)) + (rng.randint(0, 2),)
    return levels, rng.choice(PREV)


def conferma_and_value(rng):
    """what a Rivalutazione has last: with conferma 2 an evaluation, or the zeros that a conversion leaves"""
    conferma = rng.choice([1, 2, 2])
    return conferma, O.NO_VALUE if conferma == 1 or rng.random() < 0.3 else some_value(rng)


def odd_values(rng):
    """what may stand behind the kind, and as conferma and behind it: (name, kind, conferma, scales, five characters, zero bits, whether that is sound)"""
    (scales, prevalente), none = some_value(rng), (0,) * 6
    whole = prevalente.ljust(5, b"\0")
    out = [("conferma 2 and zeros", 0, 2, none, bytes(5), 0, True), ("conferma 2 and an evaluation", 0, 2, scales, whole, 0, True),
           ("conferma 2 and a prevalente alone", 0, 2, none, whole, 0, True), ("conferma 1 and zeros", 0, 1, none, bytes(5), 0, True),
           ("conferma 1 and an evaluation", 0, 1, scales, whole, 0, False), ("conferma 1 and a prevalente alone", 0, 1, none, whole, 0, False)]
    out += [("conferma %d and scale %d without a prevalente" % (c, i), 0, c, none[:i] + (v,) + none[i + 1:], bytes(5), 0, False)
            for c in (1, 2) for i in range(6) for v in ((1, 2, 3) if i < 5 else (1, 2))]
    out += [("RischioInfettivo 3", 0, 2, (*s[:5], 3), p, 0, False) for s in (scales, none) for p in (whole, bytes(5))]
    out += [("scale %d is 3" % i, 0, 2, none[:i] + (3,) + none[i + 1:], whole, 0, True) for i in range(5)]
    out += [("a prevalente of 3 to 5", 0, 2, scales, p, 0, True) for p in (b"V58.1", b"1234\0", b"123\0\0", b"0000\0", b"00000", b"\t\r\n\0\0", b"001\0\0", b"100\0\0")]
    out += [("a prevalente that is none", 0, 2, s, p, 0, False) for s in (scales, none)
            for p in (b"000\0\0", b"12\0\0\0", b"1\0\0\0\0", b"12\x003\0", b"\x00123\0", b"\0\x00123", b"123\x004", b"12<\0\0", b"1&2\0\0", b"12\x0b\0\0", b"12\x7f\0\0", b"000\x001")]
    out += [("zero bit %d" % (767 - i), 0, c, s, p, 1 << i, False) for i in range(7) for c, s, p in ((2, scales, whole), (2, none, bytes(5)), (1, none, bytes(5)))]
    out += [("kind %d and zeros" % kind, kind, 0, none, bytes(5), 0, True) for kind in (1, 2, 3)]
    return out + [("kind %d and an evaluation" % kind, kind, c, s, p, z, False) for kind in (1, 2, 3)
                  for c, s, p, z in ((0, scales, whole, 0), (2, scales, whole, 0), (0, none, whole, 0), (0, (1,) + none[1:], bytes(5), 0), (0, none, bytes(5), 1))]


def odd_row(f, odd):
    """an event's fields of that kind, with that put into them: the key and date of another, and what every kind may have between"""
    _, kind, conferma, scales, chars, zeros, _ = odd
    return f[:93] + [kind, f[94], 1, O.NO_END, 0, conferma, *scales, *chars, zeros]


def raw_rows(rng, w, n_cases, n_events, wrong):
    """rows of mostly allowed values, `wrong` of them a field off; sorted"""
    cases, evs = {}, {}
    for _ in range(n_cases):
        k = (int(rng.choice(w.regions)), rng.choice(w.asls), rng.choice(w.takings), rng.choice(w.ids))
        cases[k] = (rng.choice([1880, 1950, O.year_of(k[2])]), rng.choice(PREV), tuple(rng.randint(0, 3) for _ in range(5)) + (rng.randint(0, 2),))
    for _ in range(n_events):
        if not cases:
            break
        k = rng.choice(list(cases))
        kind = rng.choice([0, 1, 1, 2, 2, 3 if rng.random() < 0.5 else 1])
        d = min(O.LAST_DAY, max(k[2], rng.choice(w.days))) if rng.random() < 0.97 else rng.choice(w.days)
        if kind == 3 and rng.random() < 0.8:
            d = min(O.LAST_DAY, w.last + 1)
        end = O.NO_END
        if kind == 2 and rng.random() < 0.85:
            end = min(O.LAST_DAY, max(0, d + rng.choice([0, 0, 1, 1, 2, 5, -1 if rng.random() < 0.1 else 0])))
        for code in rng.sample(sorted(O.CODES[kind]), rng.choice([1, 1, 1, 2, 3]) if kind == 1 else 1):
            apart = kind == 1 or rng.random() < 0.03         # a second row of the day, with another code, is sound of kind 1 only
            behind = conferma_and_value(rng) if kind == 0 else (0, O.NO_VALUE)
            evs[k, kind, d, code if apart else 0] = (kind, d, code, end, rng.choice([0, 1, 99]) if kind == 1 else 0, *behind)
    cf = [O.unpack(O.pack_case(k, cases[k]), O.CASE_WIDTHS) for k in sorted(cases)]
    ef = [O.unpack(O.pack_event(x[0], evs[x]), O.EVENT_WIDTHS) for x in sorted(evs)]
    for _ in range(wrong):
        fs, ws = (cf, O.CASE_WIDTHS) if cf and (not ef or rng.random() < 0.5) else (ef, O.EVENT_WIDTHS)
        if not fs:
            break
        f = rng.choice(fs)
        if fs is ef and rng.random() < 0.25:
            f[:] = odd_row(f, rng.choice(odd_values(rng)))
            continue
        i = rng.choice([0, 1, 2, 3, 4, 5, 92, rng.randrange(5, 93)] + list(range(93, len(ws))) * 3)
        wd = ws[i]
        f[i] = rng.choice([0, 1, 2, 3, 9, 14, 13, 99, 100, 98, 127, f[i] + 1, f[i] - 1, f[i] ^ 1, rng.randrange(1 << wd), (1 << wd) - 1, (1 << wd) - 2, 73048, 73049, 1879, 1880, ord("0"), ord("&"), ord("<"), 9, 10, 11, 13, 32, 31, 126]) % (1 << wd)
    cr = [O.pack(list(zip(f, O.CASE_WIDTHS))) for f in cf]
    er = [O.pack(list(zip(f, O.EVENT_WIDTHS))) for f in ef]
    if rng.random() < 0.8:
        cr.sort()
        er.sort()
    return cr, er


def old_layout(row):
    """an event's row as it was before E2: the end date in front of the code"""
    n, rest = int.from_bytes(row, "big"), 8 * len(row) - 705
    code, end = n >> rest + 17 & 127, n >> rest & O.NO_END
    return (((n >> rest + 24 << 17 | end) << 7 | code) << rest | n & (1 << rest) - 1).to_bytes(len(row), "big")


def mutate_value(rng, row):
    """an event's row with something else as conferma and behind it: of any kind an evaluation, or what is nearly one; its other fields stay"""
    f = O.unpack(row, O.EVENT_WIDTHS)
    odd = rng.choice(odd_values(rng))
    if f[93] == odd[1] or rng.random() < 0.2:
        f[98:] = [odd[2], *odd[3], *odd[4], odd[5]]
    return O.pack(list(zip(f, O.EVENT_WIDTHS)))


def mutate_events(rng, b, first, n, width=ROW):
    """rows `first` to n - 1 are events: one row's code changed, two that follow each other swapped, an evaluation put in, or the old layout"""
    at = lambda i: slice(4 + width * i, 4 + width * (i + 1))
    shift = 8 * width - 688
    code = lambda i: int.from_bytes(b[at(i)], "big") >> shift & 127
    i = rng.randrange(first, n)
    same = [j for j in range(first, n - 1) if b[at(j)][:85] == b[at(j + 1)][:85]]       # the same case, kind and day, but for a bit of it
    if same and rng.random() < 0.6:
        i = rng.choice(same)
    x = rng.random()
    if x < 0.3 and width == ROW:
        riv = [j for j in range(first, n) if O.unpack(b[at(j)], O.EVENT_WIDTHS)[93] == 0] or [i]
        i = rng.choice(riv)
        b[at(i)] = mutate_value(rng, b[at(i)])
    elif x < 0.55:
        new = rng.choice([code(min(i + 1, n - 1)), code(max(i - 1, first)), code(i) + 1, code(i) - 1, 1, 2, 9, 99, rng.randrange(128)]) & 127
        row = int.from_bytes(b[at(i)], "big")
        b[at(i)] = (row ^ (code(i) ^ new) << shift).to_bytes(width, "big")
    elif x < 0.8 and i + 1 < n:
        b[at(i)], b[at(i + 1)] = b[at(i + 1)], b[at(i)]
    else:
        for j in range(first, n) if rng.random() < 0.7 else [i]:
            b[at(j)] = old_layout(b[at(j)])


def mutate_reg(rng, reg, width=ROW):
    b = bytearray(reg)
    n = int.from_bytes(b[0:2], "big") + int.from_bytes(b[2:4], "big") if len(b) >= 4 else 0
    op = rng.randint(0, 10)
    if op >= 9 and len(b) >= 4 + width * n and int.from_bytes(b[0:2], "big") < n:
        mutate_events(rng, b, int.from_bytes(b[0:2], "big"), n, width)
    elif op == 0 and b:
        i = rng.randrange(len(b) * 8 if rng.random() < 0.3 else max(1, min(len(b), 4 + width * n)) * 8)
        b[i // 8] ^= 128 >> i % 8
    elif op == 1 and len(b) >= 4:
        i = rng.randrange(4)
        b[i] = rng.choice([0, 1, 255, (b[i] + 1) & 255, (b[i] - 1) & 255, 16])
    elif op == 2 and n >= 2:
        i, j = rng.randrange(n), rng.randrange(n)
        x, y = b[at(i, width)], b[at(j, width)]
        b[at(i, width)], b[at(j, width)] = y, x
    elif op == 3:
        b += rng.choice([b"\0", b"\1", bytes(width), bytes(width - 1) + b"\x80"])
    elif op == 4:
        b = b[:rng.randint(0, len(b))] if rng.random() < 0.5 else b[:4 + width * n - rng.choice([0, 0, 1, width]) if n else rng.randint(0, 5)]
    elif op == 5 and n:
        i, j = rng.randrange(n), rng.randrange(n)
        b[at(i, width)] = b[at(j, width)]
    elif op == 6 and len(b) > 4 + width * n:
        b[rng.choice([4 + width * n, len(b) - 1, rng.randrange(4 + width * n, len(b))])] = rng.choice([1, 128, 255])
    elif op == 7 and n:
        i = rng.randrange(n)
        j = 4 + width * i + rng.choice([0, 1, 2, 3, 4, 5, *range(81, width)])
        if j < len(b):
            b[j] ^= 1 << rng.randrange(8)
    elif n and len(b) >= 4:          # move the border between cases and events
        c, e = int.from_bytes(b[0:2], "big"), int.from_bytes(b[2:4], "big")
        d = rng.choice([-1, 1])
        if c + d >= 0 and e - d >= 0:
            b[0:2], b[2:4] = (c + d).to_bytes(2, "big"), (e - d).to_bytes(2, "big")
    return bytes(b)


def small_file(rng, w, reg):
    parts = O.load(reg)
    if rng.random() < 0.4:
        return 1, ser(root(1, [rec1(w)]))
    return 2, ser(root(2, [rec2(w, parts)]))


def g_valid(seed, count):
    i = 0
    while C["submit"] < count:
        rng = random.Random("valid %d %d" % (seed, i))
        _, reg, w = gen_history(rng, 0)
        for _ in range(4):
            check_find(reg, near_texts(rng, w, reg))
        check_sound(reg)
        i += 1


def g_mixed(seed, count):
    i = 0
    while C["submit"] < count:
        rng = random.Random("mixed %d %d" % (seed, i))
        gen_history(rng, 0.55)
        i += 1


def g_register(seed, count):
    i = 0
    while C["submit"] < count:
        rng = random.Random("register %d %d" % (seed, i))
        i += 1
        w = World(rng)
        if rng.random() < 0.5:
            _, reg, w = gen_history(rng, 0)
            base = reg
        else:
            cr, er = raw_rows(rng, w, rng.randint(0, 4), rng.randint(0, 8), rng.choice([0, 0, 1, 1, 2]))
            base = len(cr).to_bytes(2, "big") + len(er).to_bytes(2, "big") + b"".join(cr + er) + bytes(rng.choice([0, 1, ROW - 1, ROW, 300]))
        for j in range(8):
            reg = base
            if j or rng.random() < 0.3:
                for _ in range(rng.choice([1, 1, 1, 2])):
                    reg = mutate_reg(rng, reg)
            check_sound(reg)
            check_find(reg, near_texts(rng, w, reg))
            if rng.random() < 0.5:
                track, b = small_file(rng, w, reg)
                if rng.random() < 0.2:
                    b = mutate_bytes(rng, b)
                check_submit(b, rng.choice([track] * 9 + [3]), rng.choice([w.year] * 9 + [2100]), w.quarter, reg, answers_for(rng, 1))
            if rng.random() < 0.1:
                check_empty(reg)


def base_state(track):
    """a fixed world with cases and events standing, for the systematic generators"""
    rng = random.Random("base")
    w = World(rng)
    w.year, w.quarter, w.regions, w.asls, w.ids = 2018, 2, [b"010", b"120"], [b"101", b"aZ9"], [ID88, b"A" * 88]
    w.set_quarter()
    k1, k2 = (b"010", b"101", w.first, ID88), (b"120", b"aZ9", w.first + 1, b"A" * 88)
    w.keys = [k1, k2]
    reg = bytes(4 + ROW * 20)
    out = O.submit(ser(root(1, [rec1(w, b"I", k1, True), rec1(w, b"I", k2, True)])), 1, 2018, 2, reg, bytes(2))
    assert out[:5] == (0, 0, 2, 2, 0)
    return rng, w, out[5], k1, k2


def full_tree(track):
    rng, w, reg, k1, k2 = base_state(track)
    if track == 1:
        r = rec1(w, b"V", k1, True)
        v = r.k[-1].k[1]
        nv = val_tree(rng, 1, b"401", True)
        nv.a = v.a
        r.k[-1].k[1] = nv
        anag = r.k[1].k[0]
        anag.k[-1].k = [L(b"Regione", b"999"), L(b"ASL", b"999"), L(b"Comune", b"999999"), L(b"StatoEstero", b"FR")]
        return w, reg, root(1, [r])
    f = w.first
    riv = N(b"Rivalutazione", [val_tree(rng, 2, b"401", True)], (b"data", d2t(f + 5)), (b"motivo", b"1"), (b"confermaPrecedente", b"2"))
    ero = N(b"Erogazione", [L(b"TipoOperatore", b"13")] + [N(b"Prestazioni", [L(b"TipoPrestazione", b"21"), L(b"numPrestazione", b"99")]) for _ in range(2)], (b"data", d2t(f + 6)), (b"numAccessi", b"12"))
    sos = N(b"Sospensione", [L(b"Motivazione", b"9")], (b"dataInizio", d2t(f + 10)), (b"dataFine", d2t(f + 12)))
    con = N(b"Conclusione", [L(b"Motivazione", b"97")], (b"dataAD", d2t(f + 50)))
    r = N(b"Assistenza", head(b"I", 2, k1) + [N(b"Eventi", [N(b"PresaInCarico", [L(b"Id_Rec", k1[3])], (b"data", d2t(k1[2])))] + [riv, ero, sos, con])])
    return w, reg, root(2, [r])


def g_leaves(seed, count):
    """every leaf and attribute of both tracks with every near text, one at a time"""
    for track in (1, 2):
        w, reg, t = full_tree(track)
        assert O.submit(ser(t), track, 2018, 2, reg, bytes(1))[:5] == (0, 0, 1, 1, 0)
        for _, _, nd in walk(t):
            if nd.leaf:
                kept = nd.k
                for x in NEAR + BADNEAR:
                    nd.k = [x] if x else []
                    check_submit(ser(t), track, 2018, 2, reg, b"\x77\x78")
                nd.k = kept
            for a in nd.a:
                kept = a[1]
                for x in NEAR + [b"<", b"&", b"\x80"]:
                    if b'"' not in x:
                        a[1] = x
                        check_submit(ser(t), track, 2018, 2, reg, b"\x77\x78")
                a[1] = kept


def g_structure(seed, count):
    """every element dropped, doubled, renamed, swapped; every attribute dropped, doubled, added; every gap filled; in the second of two records"""
    for track in (1, 2):
        w, reg, t = full_tree(track)
        first = t.k[0].copy()
        for two in (False, True):
            base = t.copy()
            if two:
                base.k.insert(0, first.copy())
            count_nodes = len(walk(base))
            go = lambda x: check_submit(ser(x), track, 2018, 2, reg, b"\x77\x78\x79")
            lo = 0 if not two else 1 + len(walk(first))
            for i in range(lo, count_nodes):
                def fresh():
                    x = base.copy()
                    return x, walk(x)[i]
                x, (p, j, nd) = fresh(); del p.k[j]; go(x)
                x, (p, j, nd) = fresh(); p.k.insert(j, nd.copy()); go(x)
                x, (p, j, nd) = fresh(); nd.k = []; go(x)
                x, (p, j, nd) = fresh(); nd.n = nd.n.lower(); go(x)
                x, (p, j, nd) = fresh(); nd.n = nd.n + b"x"; go(x)
                x, (p, j, nd) = fresh(); nd.n = nd.n[:-1] or b"Q"; go(x)
                x, (p, j, nd) = fresh(); nd.n = b"fls:" + nd.n; go(x)
                for jj in range(len(base.k) and len(p.k)):
                    if jj != j and (abs(jj - j) <= 2 or not two):
                        x, (p, j, nd) = fresh(); p.k[j], p.k[jj] = p.k[jj], p.k[j]; go(x)
                        x, (p, j, nd) = fresh(); p.k.insert(jj, nd.copy()); go(x)
                for ai in range(len(nd.a)):
                    x, (p, j, nd) = fresh(); del nd.a[ai]; go(x)
                    x, (p, j, nd) = fresh(); nd.a.append(list(nd.a[ai])); go(x)
                    x, (p, j, nd) = fresh(); nd.a[ai][0] = nd.a[ai][0].upper(); go(x)
                    x, (p, j, nd) = fresh(); nd.a.reverse(); go(x)
                for an in ATTRS:
                    x, (p, j, nd) = fresh(); nd.a.append([an, b"2018-05-05"]); go(x)
                for bt in BETWEEN:
                    x, (p, j, nd) = fresh(); nd.k.insert(0, bt); go(x)
                    if not two:
                        x, (p, j, nd) = fresh(); nd.k.append(bt); go(x)
                        x, (p, j, nd) = fresh(); p.k.insert(j, bt); go(x)
                if not two:
                    for deep in range(1, 13):
                        x, (p, j, nd) = fresh(); nd.k.append(b"<d>" * deep + b"</d>" * deep); go(x)
            for an in ATTRS:
                x = base.copy(); x.a.append([an, b"v"]); go(x)
            for bt in BETWEEN:
                x = base.copy(); x.k.append(bt); go(x)
                x = base.copy(); x.k.insert(0, bt); go(x)
                for b in (bt + ser(base), ser(base) + bt):
                    check_submit(b, track, 2018, 2, reg, b"\x77\x78\x79")
            for other in (1, 2):
                check_submit(ser(base), other, 2018, 2, reg, b"\x77\x78\x79")
    # depth
    for n in range(1, 20):
        for inner in (b"", b"<x/>", b"t", b"<!---->"):
            check_submit(b"<d>" * n + inner + b"</d>" * n, 1, 2018, 2, bytes(4), b"")
            check_submit(b"<d>" * n + b"<e/>" + inner + b"</d>" * n, 1, 2018, 2, bytes(4), b"")


DECLS = [b"", b"<?xml?>", b"<?xml ?>", b"<?xml\t?>", b"<?xml\x0b?>", b"<?xml <?>", b"<?xml <!?>", b"<?xml & ?>", b"<?xml ? >", b"<?xml ??>", b"<?xml > ?>", b"<?xml a?>?>", b" <?xml ?>", b"<?xmlx ?>", b"<?XML ?>", b"<?xml ?><?xml ?>", b"<?xml <a ?>", b"<?xml <<?>",
         b"<?xml", b"<?xml ", b"<?xml \x80?>", b"<?xml \0?>", b"<?", b"<? xml ?>", b"<?xml version='1.0'?>\r\n", b"<?xml --><!--?>", b"<?xml ?>x", b"<?xml ?><!-- -->", b"\xef\xbb\xbf", b"<?xml <! ?>", b"<?xml < ! ?>", b"<?xml ?>>", b"<?xml\n\n\n?>", b"<?xml '?>' ?>"]


def tiny(track):
    return (b'<FlsAssDom_2 xmlns="u"><Assistenza><Trasmissione tipo="I"/><Erogatore><CodiceRegione>010</CodiceRegione><CodiceASL>101</CodiceASL></Erogatore><Eventi>'
            b'<PresaInCarico data="2018-04-01"><Id_Rec>' + ID88 + b"</Id_Rec></PresaInCarico><Erogazione data='2018-05-02' numAccessi='7'><TipoOperatore>1</TipoOperatore></Erogazione>"
            b'<!--c--><Sospensione dataInizio="2018-05-03"><Motivazione>1</Motivazione></Sospensione></Eventi></Assistenza></FlsAssDom_2>')


def g_bytes(seed, count):
    """a small accepted file: every place with a byte changed, removed, inserted, cut there; every declaration before it"""
    _, w, reg, k1, _ = base_state(2)
    b = tiny(2)
    go = lambda x: check_submit(x, 2, 2018, 2, reg, b"\x77\x78")
    assert go(b)[:5] == (0, 0, 1, 1, 0)
    for d in DECLS:
        for sep in (b"", b" ", b"\n<!---->"):
            go(d + sep + b)
    go(b"")
    for i in range(len(b)):
        go(b[:i])
        go(b[:i] + b[i + 1:])
        if i + 1 < len(b):
            go(b[:i] + b[i + 1:i + 2] + b[i:i + 1] + b[i + 2:])
        for c in BYTES:
            go(b[:i] + bytes([c]) + b[i + 1:])
            go(b[:i] + bytes([c]) + b[i:])
    # every byte value at a few places
    for tok in (b">010<", b'tipo="', b"<Eventi>", b"<!--c", b"<Erogatore", b"Id_Rec>", b'xmlns="', b"</Eventi"):
        i = b.index(tok) + len(tok)
        for c in range(256):
            go(b[:i] + bytes([c]) + b[i:])
            go(b[:i] + bytes([c]) + b[i + 1:])
            go(b[:i - 1] + bytes([c]) + b[i:])


TOKENS = [b"<a", b"<a>", b"<b>", b"</a>", b"</b>", b"<a/>", b"<b/>", b"</a", b">", b"/>", b"/", b"<", b"<!--", b"-->", b"--", b"-", b"->", b"<!", b"<?", b"?>", b"<?xml ", b" ", b"\n", b"x", b'x="1"', b" x='1'", b" y=\"2\"", b"=", b'"', b"'", b"&", b"t", b" x = 'a>b'", b"x='", b"]]>",
          b"<!---->", b"<!-- -->", b"<FlsAssDom_1>", b"</FlsAssDom_1>", b"<FlsAssDom_1/>", b"<Assistenza>", b"</Assistenza>", b"<Assistenza/>", b"_", b"-", b".", b":", b"1"]


def g_tokens(seed, count):
    """random strings of tokens, whole or put into a balanced frame: markup against shape"""
    rng = random.Random("tokens %d" % seed)
    _, w, reg, k1, _ = base_state(2)
    t2 = tiny(2)
    while C["submit"] < count:
        n = rng.randint(1, 9)
        s = b"".join(rng.choice(TOKENS) for _ in range(n))
        x = rng.random()
        if x < 0.25:
            b = s
        elif x < 0.5:
            b = b"<FlsAssDom_1>" + s + b"</FlsAssDom_1>"
        elif x < 0.65:
            b = b"<FlsAssDom_1" + s + b"><Assistenza/></FlsAssDom_1>"
        elif x < 0.75:
            b = rng.choice([b"", b"<?xml ", b"<?xml", b"<?xml \n"]) + s + rng.choice([b"", b"?>"]) + b"<a/>"
        elif x < 0.85:
            b = b"<a/>" + s
        else:
            i = rng.choice([j for j in range(len(t2)) if t2[j] in b"<>\"' ="]) + rng.randint(0, 1)
            b = t2[:i] + b"".join(rng.choice(TOKENS) for _ in range(rng.randint(1, 3))) + t2[i:]
        check_submit(b, 2 if b.startswith(b"<FlsAssDom_2") else 1, 2018, 2, reg, b"\x77\x78")


def attribute_names(rng, n, long):
    """n names that differ, many of them the beginning of another, in random order"""
    names, first = set(), "abcXYZ_"
    stem = "n" * long
    while len(names) < n:
        x = stem + rng.choice(first) + "".join(rng.choice("abc019-.:_Z") for _ in range(rng.randint(0, 4 + n // 4000)))
        names.add(x)
    names = sorted(names)
    rng.shuffle(names)
    return names


def attribute_text(rng, name, plain):
    if plain:
        return ' %s=""' % name
    gap = lambda: rng.choice(["", "", " ", "\n\t"])
    q = rng.choice("\"'")
    return rng.choice([" ", "\r\n", "  "]) + name + gap() + "=" + gap() + q + rng.choice(["", "x", "a='b", ">", "a=b c"]).replace(q, "") + q


def g_attributes(seed, count):
    """tags with few and with very many attributes: a name repeated or not, wherever it stands, and tags that are no tags"""
    rng = random.Random("attributes %d" % seed)
    _, w, reg, k1, _ = base_state(2)
    t2 = tiny(2).decode()
    frames = [("<FlsAssDom_1", "/>"), ("<FlsAssDom_1><Assistenza", "></Assistenza></FlsAssDom_1>"), ("<FlsAssDom_1><a/><Assistenza", "/></FlsAssDom_1>")]
    sizes = [0, 1, 2, 3, 15, 16, 17, 18, 40, 200, 2047, 2048, 2049, 6143, 6144, 6145, 6146, 12288, 12290, 13000]
    while C["submit"] < count:
        n = rng.choice(sizes[:10] if rng.random() < 0.8 else sizes)
        names = attribute_names(rng, n, rng.choice([0, 0, 0, 3, 40]))
        free = rng.random() < 0.3
        if free:
            names = ["xmlns:" + x for x in names]
        x = rng.random()
        if n and x < 0.5:
            at = rng.choice([0, n - 1, rng.randrange(n)])
            names.insert(rng.choice([0, 1, n, len(names), rng.randint(0, len(names))]), names[at])
        parts = [attribute_text(rng, x, n > 200) for x in names]
        if n and rng.random() < 0.1:
            i = rng.randrange(len(parts))
            parts[i] = rng.choice([parts[i].lstrip(), parts[i][:-1], parts[i].replace("=", "", 1), parts[i] + "x", " 1" + parts[i][1:]])
        if free:
            i = t2.index(">")
            b = t2[:i] + "".join(parts) + t2[i:]
        else:
            a, e = rng.choice(frames)
            b = a + "".join(parts) + e
        b = b.encode()
        check_submit(b, 2 if b.startswith(b"<FlsAssDom_2") else 1, 2018, 2, reg, b"\x77\x78")


def g_big(seed, count):
    """limits: 1,048,576 bytes, 128 events, many records, 4,096 rows, long names, comments and values"""
    rng = random.Random("big %d" % seed)
    _, w, reg, k1, k2 = base_state(2)
    t2 = tiny(2)
    for n in (1048575, 1048576, 1048577, 1100000):
        for fill in (b" ", b"\n", b"x", b"<"):
            check_submit(t2 + fill * (n - len(t2)), 2, 2018, 2, reg, b"\x77")
        check_submit(t2 + b"<!--" + b"c" * (n - len(t2) - 7) + b"-->", 2, 2018, 2, reg, b"\x77")
        check_submit(t2.replace(b'xmlns="u"', b'xmlns="' + b"u" * (n - len(t2) + 1) + b'"'), 2, 2018, 2, reg, b"\x77")
        check_submit(t2 + b" " * (n - len(t2)), 2, 2018, 2, b"", b"\x77")
        check_submit(t2 + b" " * (n - len(t2)), 3, 2018, 2, b"", b"\x77")
        check_submit(t2 + b" " * (n - len(t2)), 3, 2018, 5, b"", b"\x77")
        check_submit(b"<" + b"a" * (n - 3) + b"/>", 2, 2018, 2, reg, b"\x77")
        check_submit(b"<a>" + b"t" * (n - 7) + b"</a>", 2, 2018, 2, reg, b"\x77")
        check_submit(t2.replace(b">1</Mot", b">" + b"0" * (n - len(t2)) + b"1</Mot"), 2, 2018, 2, reg, b"\x77")
    w.year, w.quarter = 2018, 2
    w.set_quarter()
    for i in range(60):
        parts = O.load(reg)
        big = bytes(4 + ROW * rng.choice([60, 130, 131, 200, 300]))
        big = reg[:4 + ROW * 2] + big[4 + ROW * 2:]
        parts = O.load(big)
        recs = [rec2(w, parts, b"I", rng.choice([1, 2, 126, 127, 128, 129, 130, 250])) for _ in range(rng.randint(1, 3))]
        t = root(2, recs)
        if rng.random() < 0.3:
            mutate_tree(rng, t)
        out = check_submit(ser(t), 2, 2018, 2, big, answers_for(rng, len(recs)))
        recs = [rec2(w, O.load(out[5]), rng.choice([b"V", b"C", b"I"])) for _ in range(2)]
        check_submit(ser(root(2, recs)), 2, 2018, 2, out[5], answers_for(rng, 2))
    # many records; the answer list at its limit
    for n in (254, 255, 256, 257, 300, 700):
        kk = [(b"010", b"101", w.first, b"%088d" % rng.randrange(10**30)) for _ in range(n)]
        e = lambda k: N(b"Assistenza", head(b"I", 2, k) + [N(b"Eventi", [N(b"PresaInCarico", [L(b"Id_Rec", k[3])], (b"data", d2t(k[2])))])])
        b = ser(root(2, [e(k) for k in kk]))
        for m in (n - 1, n, n + 1, 0):
            check_submit(b, 2, 2018, 2, reg, bytes(m))
    for n in (130, 260, 290):
        kk = [(b"010", b"101", w.first, b"%088d" % rng.randrange(10**30)) for _ in range(n)]
        b = ser(root(1, [rec1(w, b"I", k, True) for k in kk]))
        for m in (n - 1, n):
            for size in (4 + ROW * (n - 1), 4 + ROW * n, 4 + ROW * n + 50):
                check_submit(b, 1, 2018, 2, bytes(size), bytes(m))
    # 4,096 rows
    for rows in (4094, 4095, 4096, 4097):
        for length in (4 + ROW * 4095, 4 + ROW * 4096, 4 + ROW * 4097, 4 + ROW * 4200):
            keys = sorted((10, b"101", O.day(b"2018-04-01"), b"%088d" % (i * 7)) for i in range(rows))
            rb = b"".join(O.pack_case(k, (1950, b"123", (1,) * 6)) for k in keys)
            r = (rows.to_bytes(2, "big") + bytes(2) + rb).ljust(length, b"\0")
            check_sound(r)
            check_find(r, (b"010", b"101", b"2018-04-01", b"%088d" % (7 * (rows - 1))))
            for k in ((b"010", b"101", w.first, b"%088d" % 3), (b"010", b"100", w.first, b"%088d" % 3), (b"200", b"101", w.first, b"%088d" % 3)):
                check_submit(ser(root(1, [rec1(w, b"I", k, True), rec1(w, b"I", (b"010", b"zzz", w.first, b"Z" * 88), True)])), 1, 2018, 2, r, bytes(2))
            check_submit(t2.replace(ID88, b"%088d" % 7), 2, 2018, 2, r, bytes(2))
            check_submit(t2.replace(ID88, b"%088d" % 7).replace(b"<!--c-->", b"").replace(b"Erogazione data='2018-05-02' numAccessi='7'", b"Erogazione data='2018-05-02'"), 2, 2018, 2, r, bytes(2))


def g_files(seed, count):
    """single-file runs, several mutations, each over a register that the file might change"""
    states = []
    for i in range(60):
        rng = random.Random("files-state %d %d" % (seed, i))
        _, reg, w = gen_history(rng, 0)
        states.append((reg, w))
    rng = random.Random("files %d" % seed)
    while C["submit"] < count:
        reg, w = rng.choice(states)
        w.rng = rng
        parts = O.load(reg)
        track = rng.choice([1, 2, 2])
        recs = [rec1(w) if track == 1 else rec2(w, parts) for _ in range(rng.choice([1, 1, 2, 3]))]
        t = root(track, recs, rng)
        kind = rng.randint(0, 2)
        if kind != 1:
            for _ in range(rng.choice([1, 1, 2, 3, 4])):
                mutate_tree(rng, t)
        b = ser(t, rng, rng.choice([0, 0, 0.15, 0.5]))
        if kind != 0:
            b = mutate_bytes(rng, b)
        check_submit(b, track, w.year, w.quarter, reg, answers_for(rng, len(recs)))


if __name__ == "__main__":
    t0 = time.time()
    globals()["g_" + sys.argv[1]](int(sys.argv[2]), int(sys.argv[3]))
    print(json.dumps({"generator": sys.argv[1], "seed": int(sys.argv[2]), "seconds": round(time.time() - t0), "counts": dict(sorted(C.items()))}))
    sys.exit(C["diff"] > 0)
