"""The rules in plain Python: an oracle written from the paper that docs/RULES.md retells, the requests for change that have landed and the schemas 4.5.2 and
   4.6.2 of SIAD 6.4, without a look at the proved code or its definitions. A letter and a number name a rule, E and a number a request; quotes are its words.
   docs/DECISIONS.md: the points that were open."""
import re
from datetime import date
from functools import lru_cache

# ------------------------------------------------------------------ markup
WS = b" \t\r\n"                                              # M3: "White space is the bytes 32, 9, 13 and 10"
ALLOWED = bytes([9, 10, 13]) + bytes(range(32, 127))         # M1: "Only the bytes 9, 10, 13 and 32 to 126 stand in a file"
NAME = re.compile(rb"[A-Za-z_][A-Za-z0-9_\-.:]*")            # M9: "then letters, digits, `_`, `-`, `.`, `:`"
SPACE = re.compile(rb"[ \t\r\n]*")
MAX_DEPTH = 12                                               # M16: "The root is at depth 1; an element at 12 is read"


class Refused(Exception):
    """Not in the markup: answer 5."""


class Elem:
    __slots__ = ("name", "attrs", "items", "place")

    def __init__(self, name, attrs, items, place):
        self.name, self.attrs, self.items = name, attrs, items   # items: bytes (text), None (comment), Elem
        self.place = place                                       # of its `<`; "Places count bytes from 0"


class Parser:
    def __init__(self, src):
        self.s, self.p, self.comments, self.declared = src, 0, 0, 0

    def space(self):
        q = SPACE.match(self.s, self.p).end()
        got = q > self.p
        self.p = q
        return got

    def at(self, tok):
        return self.s.startswith(tok, self.p)

    def expect(self, tok):
        if not self.at(tok):
            raise Refused
        self.p += len(tok)

    def name(self):
        m = NAME.match(self.s, self.p)
        if not m:
            raise Refused
        self.p = m.end()
        return m.group()

    def comment(self):
        # M7: "A comment goes from `<!--` to the next `--`, which `>` must follow; the two pairs of dashes share none"
        self.expect(b"<!--")
        q = self.s.find(b"--", self.p)
        if q < 0:
            raise Refused
        self.p = q + 2
        self.expect(b">")
        self.comments += 1

    def misc(self):
        while True:
            self.space()
            if not self.at(b"<!--"):
                return
            self.comment()

    def document(self):
        # M4: "A declaration may stand at place 0, and only there: `<?xml`, at least one byte of white space, then any bytes up to the first `?>`"
        if self.at(b"<?"):
            self.expect(b"<?xml")
            if not self.space():
                raise Refused
            # the bytes after the first white-space byte; white space holds no `?>`, so searching after all of it is the same
            q = self.s.find(b"?>", self.p)
            if q < 0:
                raise Refused
            self.p = q + 2
            self.declared = 1
        # M6: "After the declaration come white space and comments, one root element, white space and comments, and the end"
        self.misc()
        root = self.element(MAX_DEPTH)
        self.misc()
        if self.p != len(self.s):
            raise Refused
        return root

    def element(self, left):
        # an element's children are read by the same rule, with one level less left (M16)
        if left == 0:
            raise Refused
        place = self.p
        self.expect(b"<")
        name = self.name()
        attrs = {}
        while True:
            spaced = self.space()
            if self.at(b"/>"):
                self.p += 2
                return Elem(name, attrs, [], place)          # M17: "`<X/>` and `<X></X>` mean the same"
            if self.at(b">"):
                self.p += 1
                break
            if not spaced:                                   # M11: "white space must precede it"
                raise Refused
            a = self.name()
            if a in attrs:                                   # M13: "No two attributes of a tag have the same name"
                raise Refused
            self.space()                                     # M11: "and may surround its `=`"
            self.expect(b"=")
            self.space()
            quote = self.s[self.p:self.p + 1]
            if quote not in (b'"', b"'"):                    # M12: "A value stands between two `"` or two `'`"
                raise Refused
            q = self.s.find(quote, self.p + 1)
            if q < 0:
                raise Refused
            value = self.s[self.p + 1:q]
            if b"<" in value:                                # M12: "and holds neither that quote nor `<`"
                raise Refused
            attrs[a] = value
            self.p = q + 1
        items = []
        while True:
            q = self.s.find(b"<", self.p)
            if q < 0:
                raise Refused
            if q > self.p:
                items.append(self.s[self.p:q])
                self.p = q
            if self.at(b"</"):
                self.p += 2
                if self.name() != name:                      # M14: "at once its start tag's name"
                    raise Refused
                self.space()                                 # M14: "white space or none"
                self.expect(b">")
                return Elem(name, attrs, items, place)
            if self.at(b"<!--"):
                self.comment()
                items.append(None)
            else:
                items.append(self.element(left - 1))


def parse(src):
    """The root, or Refused."""
    if src.translate(None, ALLOWED):
        raise Refused
    parser = Parser(src)
    root = parser.document()
    # M2: "No `&` stands in a file"; M5: "No `<?` and no `<!` stands in the declaration or in a comment"; M8
    if src.count(b"<?") != parser.declared or src.count(b"<!") != parser.comments or b"&" in src:
        raise Refused
    return root


# ------------------------------------------------------------------ texts
DAY0 = date(1900, 1, 1).toordinal()                          # D2: "1900-01-01 is day 0"
LAST_DAY = date(2099, 12, 31).toordinal() - DAY0
REGIONS = b"010 020 030 041 042 050 060 070 080 090 100 110 120 121 130 140 150 160 170 180 190 200".split()
REGION_NUMBERS = {int(r) for r in REGIONS}
ID_SET = bytes(c for c in range(33, 127) if c not in b"&<>\"'")   # S16: "88 characters from 33 to 126 but `&`, `<`, `>`, `"`, `'`"
TEXT_SET = bytes(c for c in ALLOWED if c not in b"<&")            # M1, M2, M15
ALNUM = b"0123456789ABCDEFGHIJKLMNOPQRSTUVWXYZabcdefghijklmnopqrstuvwxyz"
NO_END = (1 << 17) - 1                                       # R26: "all ones for none"


def only(text, chars):
    return not text.translate(None, chars)


@lru_cache(None)
def day(text):
    """D3: "A date is exactly AAAA-MM-GG, ten bytes, a real day of those, without time zone". The day number, or None."""
    if not re.fullmatch(rb"[0-9]{4}-[0-9]{2}-[0-9]{2}", text):
        return None
    y, m, d = int(text[:4]), int(text[5:7]), int(text[8:])
    if not 1900 <= y <= 2099:
        return None
    try:
        return date(y, m, d).toordinal() - DAY0
    except ValueError:
        return None


def year_of(n):
    return date.fromordinal(n + DAY0).year


def pattern(p):
    r = re.compile(p)
    return lambda t: r.fullmatch(t) is not None


def number(values):
    """S22: "a sign and any number of leading zeros may stand before it", "its value is one of the schema's"."""
    r = re.compile(rb"([+-]?)0*([0-9]+)")

    def test(t):
        m = r.fullmatch(t)
        if not m or len(m.group(2)) > 3:     # a value of four digits without leading zeros is in no range here
            return False
        v = int(m.group(2))
        return (-v if m.group(1) == b"-" else v) in values
    return test


is_date = lambda t: day(t) is not None
is_region = lambda t: t in REGIONS
is_residence_region = lambda t: t in REGIONS or t == b"999"  # S12: "a residence's may also be 999"
is_asl = pattern(rb"[A-Za-z0-9]{3}")                         # S13: "An ASL has three letters or digits"
is_comune = pattern(rb"[A-Za-z0-9]{6}")                      # S13: "a Comune six"
is_stato_estero = pattern(rb"[A-Za-z]{2}")                   # S14: "StatoEstero is two letters of any case"
is_tipo = pattern(rb"[IVC]")                                 # S11: "`tipo` is I (insertion), V (variation) or C (cancellation)"
is_id = lambda t: len(t) == 88 and only(t, ID_SET)
is_cuni = lambda t: 1 <= len(t) <= 256 and only(t, ID_SET)   # S17: "A CUNI has 1 to 256 characters of that set"
is_prevalente = lambda t: 3 <= len(t) <= 5                   # S15: "A Prevalente has 3 to 5 bytes"
is_concomitante = lambda t: len(t) == 3                      # S15: "a Concomitante 3"
is_anno = pattern(rb"[0-9]{4}")                              # S19: "AnnoNascita has four digits, any"
is_accessi = pattern(rb"[1-9][0-9]?")                        # S21: "`numAccessi` is 1 to 99 without leading zero or sign"
one_two = pattern(rb"[12]")
one_three = pattern(rb"[1-3]")
OPERATOR_CODES = set(range(1, 14)) | {99}                    # S20: "TipoOperatore 1 to 13 or 99"
END_CODES = set(range(1, 13)) | {97, 98, 99}
STOP_CODES = {1, 2, 3, 9}
MOTIVE_CODES = {1, 2}
code_of = lambda codes: (lambda t: t in {b"%d" % c for c in codes})
is_operator, is_end_code, is_stop_code = code_of(OPERATOR_CODES), code_of(END_CODES), code_of(STOP_CODES)


# ------------------------------------------------------------------ schemas
class Leaf:
    def __init__(self, test, attrs=None):
        self.test, self.attrs = test, attrs or {}


class Node:
    def __init__(self, children, attrs=None):
        self.children, self.attrs = children, attrs or {}    # children: (name, min, max or None, type)


def one(name, t):
    return (name, 1, 1, t)


def opt(name, t):
    return (name, 0, 1, t)


def many(name, t):
    return (name, 0, None, t)


BISOGNO = Leaf(one_two)
THREE = Leaf(one_three)
TRASMISSIONE = Leaf(lambda t: t == b"", {b"tipo": (True, is_tipo)})      # S8: "`Trasmissione` is a leaf whose text is empty"
EROGATORE = Node([one(b"CodiceRegione", Leaf(is_region)), one(b"CodiceASL", Leaf(is_asl))])
PATOLOGIA = Node([one(b"Prevalente", Leaf(is_prevalente)), one(b"Concomitante", Leaf(is_concomitante))])
DISTURBI = Node([opt(b"Cognitivi", THREE), opt(b"Comportamentali", THREE)])
ALIMENTAZIONE = Node([one(b"Assistita", BISOGNO), one(b"Enterale", BISOGNO), one(b"Parenterale", BISOGNO)])
RIAB = Node([opt(b"Neurologico", BISOGNO), opt(b"Ortopedico", BISOGNO), opt(b"DiMantenimento", BISOGNO)])


def valutazione(track):
    b = lambda *names: [one(n, BISOGNO) for n in names]
    return Node(
        [one(b"Patologia", PATOLOGIA), opt(b"Autonomia", THREE), opt(b"GradoMobilita", THREE),
         (b"Disturbi", 1 if track == 1 else 0, 1, DISTURBI),             # S10: "also where the two differ (`Disturbi`, .."
         opt(b"SupportoSociale", THREE), opt(b"RischioInfettivo", BISOGNO)]
        + b(b"DrenaggioPosturale", b"OssigenoTerapia", b"Ventiloterapia", b"Tracheostomia")
        + [one(b"Alimentazione", ALIMENTAZIONE)]
        + b(b"GestioneStomia", b"ElimiUrinariaIntestinale", b"AlterRitmoSonnoVeglia", b"IntEduTerapeutica", b"CuraUlcereCutanee12Grado",
            b"CuraUlcereCutanee34Grado", b"PrelieviVenosiNonOcc", b"ECG", b"Telemetria",
            b"TerSottocutIntraMusInfus" if track == 1 else b"TerSottocutIntraMuscInfus", b"GestioneCatetere", b"Trasfusioni",
            b"ControlloDolore", b"AssistStatoTerminaleOnc", b"AssistStatoTerminaleNonOnc")
        + [opt(b"TrattamentiRiab", RIAB), opt(b"SupervisioneContinua", BISOGNO), opt(b"AssistenzaIADL", BISOGNO),
           opt(b"AssistenzaADL", BISOGNO), opt(b"SupportoCareGiver", BISOGNO)],
        {b"data": (True, is_date)} if track == 1 else {})


RECORD1 = Node([
    one(b"Trasmissione", TRASMISSIONE),
    one(b"Assistito", Node([one(b"DatiAnagrafici", Node([
        one(b"CUNI", Leaf(is_cuni)),
        one(b"validitaCI", Leaf(pattern(rb"[01]"))),
        one(b"tipologiaCI", Leaf(number({0, 1, 2, 3, 4, 99}))),
        one(b"AnnoNascita", Leaf(is_anno)),
        one(b"Genere", BISOGNO),
        one(b"Cittadinanza", Leaf(pattern(rb"[A-Z]{2}"))),
        one(b"StatoCivile", Leaf(pattern(rb"[1-59]"))),
        one(b"Residenza", Node([one(b"Regione", Leaf(is_residence_region)), one(b"ASL", Leaf(is_asl)), one(b"Comune", Leaf(is_comune)),
                                opt(b"StatoEstero", Leaf(is_stato_estero))]))]))])),
    one(b"Conviventi", Node([one(b"NucleoFamiliare", Leaf(number(range(0, 100)))), one(b"AssistenteNonFamiliare", BISOGNO)])),
    one(b"Erogatore", EROGATORE),
    one(b"Eventi", Node([
        one(b"PresaInCarico", Node([one(b"Id_Rec", Leaf(is_id))], {b"data": (True, is_date), b"soggettoRichiedente": (True, pattern(rb"[1-9]"))})),
        one(b"Valutazione", valutazione(1))]))])

RECORD2 = Node([
    one(b"Trasmissione", TRASMISSIONE),
    one(b"Erogatore", EROGATORE),
    one(b"Eventi", Node([
        one(b"PresaInCarico", Node([one(b"Id_Rec", Leaf(is_id))], {b"data": (True, is_date)})),
        many(b"Rivalutazione", Node([opt(b"Valutazione", valutazione(2))],
                                    {b"data": (True, is_date), b"motivo": (True, one_two), b"confermaPrecedente": (True, one_two)})),
        many(b"Erogazione", Node([one(b"TipoOperatore", Leaf(is_operator)),
                                  many(b"Prestazioni", Node([one(b"TipoPrestazione", Leaf(number(range(1, 22)))),
                                                             one(b"numPrestazione", Leaf(number(range(1, 100))))]))],
                                 {b"data": (True, is_date), b"numAccessi": (False, is_accessi)})),
        many(b"Sospensione", Node([one(b"Motivazione", Leaf(is_stop_code))], {b"dataInizio": (True, is_date), b"dataFine": (False, is_date)})),
        opt(b"Conclusione", Node([one(b"Motivazione", Leaf(is_end_code))], {b"dataAD": (True, is_date)}))]))])


def leaf_text(e):
    """A leaf's text, M18: "used as written", or None: a comment (S8) or a child in it is a fault."""
    if not e.items:
        return b""
    if len(e.items) == 1 and isinstance(e.items[0], bytes):
        return e.items[0]
    return None


def children(e):
    """The child elements, or None. S9: "only white space and comments stand beside the children"."""
    kids = []
    for i in e.items:
        if isinstance(i, Elem):
            kids.append(i)
        elif i is not None and not only(i, WS):
            return None
    return kids


def tag_fault(e, t):
    """S6: "each attribute that the schema requires and none that it doesn't name", each with a text that it takes"""
    return (any(a not in t.attrs or not t.attrs[a][1](v) for a, v in e.attrs.items())
            or any(required and a not in e.attrs for a, (required, _) in t.attrs.items()))


def come(t, i, n, name):
    """(which of the group's children a child of this name is, how many of it then stand there), where the last one was the n-th of child i, or None.
       S5: "Children come in the schema's order, each as often as the schema says" """
    while i < len(t.children):
        next_name, low, high, _ = t.children[i]
        if name == next_name and (high is None or n < high):
            return i, n + 1
        if n < low:
            return None
        i, n = i + 1, 0
    return None


def fault(e, t):
    """The place of the first fault in an element, or None. S25: "the first met in reading: an element's attributes, what stands in it, what is missing at its
       end". E5: "the `<` opening the element they refused in (for an attribute, its own element)", "Missing, extra or misordered children and text between
       them report the parent's opening" """
    if tag_fault(e, t):
        return e.place
    if isinstance(t, Leaf):
        text = leaf_text(e)
        return None if text is not None and t.test(text) else e.place
    i = n = 0
    for item in e.items:
        if isinstance(item, Elem):
            next_one = come(t, i, n, item.name)              # S25: "its parent's fault before anything of it is looked at"
            if next_one is None:
                return e.place
            i, n = next_one
            inner = fault(item, t.children[i][3])
            if inner is not None:
                return inner
        elif item is not None and not only(item, WS):
            return e.place
    lows = [low for _, low, _, _ in t.children]
    return e.place if n < lows[i] or any(lows[i + 1:]) else None


def shape(root, track):
    """(the first bad record's number, or 0 for a fault outside every record, and the place), or None; and the records"""
    outside = (0, root.place), []                            # E5: "record number 0 goes with the place of the root"
    if root.name != b"FlsAssDom_%d" % track:
        return outside
    for a in root.attrs:                                     # S7: "begins with the bytes `xmlns` or `xsi:`"
        if not (a.startswith(b"xmlns") or a.startswith(b"xsi:")):
            return outside
    records = children(root)
    if not records or any(r.name != b"Assistenza" for r in records):   # F6: "which is looked for first"; S24
        return outside
    for number, r in enumerate(records, 1):
        place = fault(r, RECORD1 if track == 1 else RECORD2)
        if place is not None:
            return (number, place), []
    return None, records


# ------------------------------------------------------------------ a record's fields
def kid(e, *path):
    for name in path:
        e = next((i for i in e.items if isinstance(i, Elem) and i.name == name), None)
        if e is None:
            return None
    return e


def text_at(e, *path):
    e = kid(e, *path)
    return None if e is None else leaf_text(e)


def level(text):
    return 0 if text is None else int(text)                  # R16: "0 is missing"


def case_key(r):
    return (int(text_at(r, b"Erogatore", b"CodiceRegione")), text_at(r, b"Erogatore", b"CodiceASL"),
            day(kid(r, b"Eventi", b"PresaInCarico").attrs[b"data"]), text_at(r, b"Eventi", b"PresaInCarico", b"Id_Rec"))


RIV, ERO, SOS, CON = 0, 1, 2, 3                              # R23: "0 Rivalutazione, 1 Erogazione, 2 Sospensione, 3 Conclusione"
SCALES = [(b"Autonomia",), (b"GradoMobilita",), (b"Disturbi", b"Cognitivi"), (b"Disturbi", b"Comportamentali"), (b"SupportoSociale",), (b"RischioInfettivo",)]
NO_VALUE = (0,) * 6, b""                                     # E6: "With conferma 1, and for other kinds, they are zero"


def value_of(v):
    """(the six evaluation fields, the prevalente) of a Valutazione, in either track"""
    return tuple(level(text_at(v, *path)) for path in SCALES), text_at(v, b"Patologia", b"Prevalente")


def revaluation(e):
    """a Rivalutazione's event; what it keeps of its Valutazione is asked for with conferma 2 alone, of which A21 wants one"""
    conferma, v = int(e.attrs[b"confermaPrecedente"]), kid(e, b"Valutazione")
    value = value_of(v) if conferma == 2 and v is not None else NO_VALUE
    return (RIV, day(e.attrs[b"data"]), int(e.attrs[b"motivo"]), NO_END, 0, conferma, value), v


def events_of(r):
    """[(kind, date, code, end, accesses, conferma, value)], in the row's order (R23 to R33), with the Rivalutazione's Valutazione beside"""
    out = []
    for e in kid(r, b"Eventi").items:
        if not isinstance(e, Elem):
            continue
        if e.name == b"Rivalutazione":
            out.append(revaluation(e))
        elif e.name == b"Erogazione":
            out.append(((ERO, day(e.attrs[b"data"]), int(text_at(e, b"TipoOperatore")), NO_END, int(e.attrs.get(b"numAccessi", b"0")), 0, NO_VALUE), None))
        elif e.name == b"Sospensione":
            end = day(e.attrs[b"dataFine"]) if b"dataFine" in e.attrs else NO_END
            out.append(((SOS, day(e.attrs[b"dataInizio"]), int(text_at(e, b"Motivazione")), end, 0, 0, NO_VALUE), None))
        elif e.name == b"Conclusione":
            out.append(((CON, day(e.attrs[b"dataAD"]), int(text_at(e, b"Motivazione")), NO_END, 0, 0, NO_VALUE), None))
    return out


def event_key(e):
    """R9 without the case's key: "its kind and its date, .. and of an Erogazione its code, the operator, too"; "zeros for a code that is no part of it" """
    kind, when, code = e[:3]
    return kind, when, code if kind == ERO else 0            # E2: "part of the key for kind 1 only"


# ------------------------------------------------------------------ the register
# what follows is over the bytes of a row: those of R2, or those of before E6 (section 16), of which a conversion asks whether they are sound
ROW, OLD_ROW = 96, 91


def pack(fields, row=ROW):
    """R6: "packed in the order of the table from its first bit on, the most significant bit first" """
    n = bits = 0
    for v, w in fields:
        assert 0 <= v < 1 << w
        n, bits = n << w | v, bits + w
    assert bits == row * 8
    return n.to_bytes(row, "big")


def key_fields(k):
    region, asl, taken, ident = k
    return [(region, 8)] + [(c, 7) for c in asl] + [(taken, 17)] + [(c, 7) for c in ident]


def pack_case(k, body, row=ROW):
    birth, prevalente, levels = body
    return pack(key_fields(k) + [(birth, 12)] + [(c, 7) for c in prevalente.ljust(5, b"\0")] + [(v, 2) for v in levels] + [(0, row * 8 - 721)], row)


def pack_event(k, ev, row=ROW):
    """an event without its seventh field keeps no evaluation, and none does in a row of before E6"""
    kind, when, code, end, accesses, conferma, (levels, prevalente) = ev if len(ev) > 6 else (*ev, NO_VALUE)
    # E6: "after conferma: 12 and then 35 bits", "zero bits at the end"
    behind = [(v, 2) for v in levels] + [(c, 7) for c in prevalente.ljust(5, b"\0")] + [(0, 7)] if row == ROW else [(0, 14)]
    # E2: "In event rows the code moves in front of the end date"
    return pack(key_fields(k) + [(kind, 2), (when, 17), (code, 7), (end, 17), (accesses, 7), (conferma, 2)] + behind, row)


def unpack(row, widths):
    n, left, out = int.from_bytes(row, "big"), len(row) * 8, []
    for w in widths:
        left -= w
        out.append(n >> left & (1 << w) - 1)
    return out


KEY_WIDTHS = [8, 7, 7, 7, 17] + [7] * 88
case_widths = lambda row: KEY_WIDTHS + [12] + [7] * 5 + [2] * 6 + [row * 8 - 721]
event_widths = lambda row: KEY_WIDTHS + [2, 17, 7, 17, 7, 2] + ([2] * 6 + [7] * 5 + [7] if row == ROW else [14])
CASE_WIDTHS, EVENT_WIDTHS = case_widths(ROW), event_widths(ROW)


def read_key(f):
    """The key if its values are allowed, else None."""
    region, asl, taken, ident = f[0], bytes(f[1:4]), f[4], bytes(f[5:93])
    if region in REGION_NUMBERS and only(asl, ALNUM) and taken <= LAST_DAY and only(ident, ID_SET):
        return (region, asl, taken, ident)
    return None


def anomaly11(birth, taken):
    return birth < 1880 or birth > year_of(taken)            # A11: "the birth year is before 1880 or after the year of taking in"


def read_value(levels, raw):
    """(the six fields, the prevalente) if they are allowed, else None"""
    prevalente = bytes(raw).rstrip(b"\0")                    # R15: "unused last characters are 0"
    if not (3 <= len(prevalente) <= 5 and only(prevalente, TEXT_SET)):
        return None
    if prevalente == b"000" or levels[5] > 2:                # V3: "and is not `000`", "RischioInfettivo is 0 to 2"
        return None
    return tuple(levels), prevalente


@lru_cache(100000)
def read_case(row):
    """(key, body) if the row is the packing of allowed values, else None"""
    f = unpack(row, case_widths(len(row)))
    k = read_key(f)
    if k is None:
        return None
    birth, value, rest = f[93], read_value(f[99:105], f[94:99]), f[105]
    if value is None or anomaly11(birth, k[2]) or rest != 0:   # V3: "the birth year is free of A11", "and the zero bits are zero"
        return None
    levels, prevalente = value
    return k, (birth, prevalente, levels)


CODES = {RIV: MOTIVE_CODES, ERO: OPERATOR_CODES, SOS: STOP_CODES, CON: END_CODES}


@lru_cache(100000)
def read_event(row):
    f = unpack(row, event_widths(len(row)))
    k = read_key(f)
    if k is None:
        return None
    kind, when, code, end, accesses, conferma, *behind = f[93:]
    if when > LAST_DAY:                                      # V4: "the date is a day"
        return None
    if not (end == NO_END or kind == SOS and end <= LAST_DAY):   # V4: "the end date a Sospensione's day or all ones"
        return None
    if code not in CODES[kind]:                              # V4: "the code one of its kind's list"
        return None
    if accesses > (99 if kind == ERO else 0):                # V4: "accesses 0 to 99 for an Erogazione and else 0"
        return None
    if conferma not in ((1, 2) if kind == RIV else (0,)):    # V4: "conferma 1 or 2 for a Rivalutazione and else 0"
        return None
    value = NO_VALUE
    if any(behind):                                          # V4: "all bits are zero or, of a Rivalutazione with conferma 2, a whole evaluation stands"
        if len(row) == OLD_ROW or kind != RIV or conferma != 2 or behind[11] != 0:
            return None
        value = read_value(behind[:6], behind[6:11])         # V4: "its prevalente and its six fields as V3 allows them, and then zero bits"
    return None if value is None else (k, (kind, when, code, end, accesses, conferma, value))


def anomaly23(ev):
    return ev[0] == SOS and ev[3] < ev[1]                    # A23: "ends before it begins"; none = all ones is never before


def after_anomaly(taken, evs):
    """25 to 28 over the events a case has: the first that holds, or 0"""
    if any(e[1] < taken for e in evs):                       # A25: "an event's date (of a Sospensione: `dataInizio`) is before the taking in"
        return 25
    stops = [e for e in evs if e[0] == SOS]
    for i, a in enumerate(stops):                            # A26: "two Sospensione share a day, first and last days included"; "for ever"
        for b in stops[i + 1:]:
            if a[1] <= b[3] and b[1] <= a[3]:
                return 26
    ends = [e for e in evs if e[0] == CON]
    if len(ends) >= 2:                                       # A27: "there are two Conclusione"
        return 27
    for c in ends:                                           # A28: "an event's date or end date is after a Conclusione's date; a missing end is not"
        for e in evs:
            if e[1] > c[1] or e[3] != NO_END and e[3] > c[1]:
                return 28
    return 0


class Register:
    """A sound register taken apart: cases {key: body}, events {key: {event_key: event}}"""


def room(reg, row=ROW):
    return min(4096, (len(reg) - 4) // row)                  # R4: "the smaller of 4,096 and (length - 4) / 96 rounded down"


def rows_in(reg, row):
    """the rows that the first four bytes count (R1, R2): cases, events"""
    nc, ne = int.from_bytes(reg[0:2], "big"), int.from_bytes(reg[2:4], "big")
    rows = [reg[4 + row * i:4 + row * (i + 1)] for i in range(nc + ne)]
    return rows[:nc], rows[nc:]


def load(reg, row=ROW):
    """The register taken apart, or None if it is not sound."""
    if len(reg) < 4:                                         # V1: "It has at least 4 bytes"
        return None
    nc, ne = int.from_bytes(reg[0:2], "big"), int.from_bytes(reg[2:4], "big")
    if nc + ne > room(reg, row):                             # V2: "are together at most R"
        return None
    if reg[4 + row * (nc + ne):].strip(b"\0"):               # V8: "Every byte past the last standing row is zero"
        return None
    cases, events = rows_in(reg, row)
    cases, events = list(map(read_case, cases)), list(map(read_event, events))
    if None in cases or None in events:                      # V3, V4
        return None
    ck = [k for k, _ in cases]
    ek = [(k, event_key(e)) for k, e in events]              # R3: "a key being the number that its bits make"
    if any(a >= b for a, b in zip(ck, ck[1:])) or any(a >= b for a, b in zip(ek, ek[1:])):   # V5: "Keys ascend strictly"
        return None
    out = Register()
    out.room = room(reg, row)
    out.cases = dict(cases)
    out.events = {k: {} for k in out.cases}
    for k, e in events:
        if k not in out.cases:                               # V6: "The case of every event stands"
            return None
        out.events[k][event_key(e)] = e
    for k, evs in out.events.items():                        # V7: "The events of each case are free of 23 and of 25 to 28"
        evs = list(evs.values())
        if any(map(anomaly23, evs)) or after_anomaly(k[2], evs):
            return None
    return out


def store(r, length, row=ROW):
    evs = sorted(((k, e) for k, d in r.events.items() for e in d.values()), key=lambda x: (x[0], event_key(x[1])))
    out = len(r.cases).to_bytes(2, "big") + len(evs).to_bytes(2, "big")
    out += b"".join(pack_case(k, r.cases[k], row) for k in sorted(r.cases))
    out += b"".join(pack_event(k, e, row) for k, e in evs)
    return out.ljust(length, b"\0")                          # R5: "Every byte past the last standing row is zero"


def empty(reg):
    return (3, reg) if len(reg) < 4 else (0, bytes(len(reg)))


def sound(reg, row=ROW):
    return 3 if load(reg, row) is None else 0


def case_named(r, region, asl, when, ident):
    """The key, or None. C10: "where a text is not allowed or the case doesn't stand" """
    if not (is_region(region) and is_asl(asl) and is_date(when) and is_id(ident)):
        return None
    k = (int(region), asl, day(when), ident)
    return k if k in r.cases else None


def find(reg, region, asl, when, ident):
    r = load(reg)
    if r is None:
        return 3, 0
    k = case_named(r, region, asl, when, ident)
    if k is None:
        return 30, 0
    return 0, 4 + ROW * sorted(r.cases).index(k)             # C11: "the first case's being 4"


# ------------------------------------------------------------------ records judged and applied
def is_period(year, quarter):
    return 2009 <= year <= 2099 and 1 <= quarter <= 4        # D5: "a year from 2009 to 2099 and a quarter from 1 to 4"


def days_of(year, quarter):
    """D6: "all days of the months 3q - 2 to 3q"; whether a day is one of them"""
    first = date(year, 3 * quarter - 2, 1).toordinal() - DAY0
    following = (date(year, 3 * quarter + 1, 1) if quarter < 4 else date(year + 1, 1, 1)).toordinal() - DAY0
    return lambda d: first <= d < following


def day_held(e):
    """A10: the day that is held to the quarter: "of a Sospensione `dataFine`, .. or `dataInizio` where it has no end" """
    return e[3] if e[0] == SOS and e[3] != NO_END else e[1]


def standing(r):
    return len(r.cases) + sum(map(len, r.events.values()))


def apply1(r, rec, in_quarter):
    tipo = kid(rec, b"Trasmissione").attrs[b"tipo"]
    k = case_key(rec)
    anag = kid(rec, b"Assistito", b"DatiAnagrafici")
    birth = int(text_at(anag, b"AnnoNascita"))
    levels, prevalente = value_of(kid(rec, b"Eventi", b"Valutazione"))
    if not in_quarter(k[2]):                                 # A10: "A date is outside the declared quarter (D6). Track 1: that of taking in, and no other"
        return 10
    if anomaly11(birth, k[2]):
        return 11
    stato = text_at(anag, b"Residenza", b"StatoEstero")
    abroad = [text_at(anag, b"Residenza", n) for n in (b"Regione", b"Comune", b"ASL")] == [b"999", b"999999", b"999"]
    # A12: "StatoEstero is there and region 999, Comune 999999 and ASL 999 are not all three; or it is missing and all three are; or it is IT"
    if stato is not None and not abroad or stato is None and abroad or stato is not None and stato.upper() == b"IT":
        return 12
    if prevalente == b"000":                                 # A13: "A Prevalente is `000`"
        return 13
    if tipo == b"I" and k in r.cases:                        # A14
        return 14
    if tipo in b"VC" and k not in r.cases:                   # A15
        return 15
    if tipo == b"I" and standing(r) + 1 > r.room:            # A17: "Type I, and the rows standing with those of the record are more than R"
        return 17
    if tipo == b"C":                                         # E1: "An accepted Track 1 cancellation now removes the case and all its events"
        del r.cases[k], r.events[k]
    else:
        r.cases[k] = (birth, prevalente, levels)
        r.events.setdefault(k, {})
    return 0


def apply2(r, rec, in_quarter):
    tipo = kid(rec, b"Trasmissione").attrs[b"tipo"]
    k = case_key(rec)
    pairs = events_of(rec)
    evs = [e for e, _ in pairs]
    if not evs:                                              # A20: "the record has no event"
        return 20
    if not all(in_quarter(day_held(e)) for e in evs):        # A10
        return 10
    for e, v in pairs:                                       # A21: "a Rivalutazione has conferma 1 and a Valutazione, or 2 and none"
        if e[0] == RIV and (e[5] == 1) == (v is not None):
            return 21
    for e, v in pairs:                                       # A13
        if v is not None and text_at(v, b"Patologia", b"Prevalente") == b"000":
            return 13
    keys = list(map(event_key, evs))                         # E2: "refusals 14, 15 and 22 use the new key, order unchanged"
    if len(set(keys)) < len(keys):                           # A22: "two events of the record have one key (R9)"
        return 22
    if any(map(anomaly23, evs)):
        return 23
    if k not in r.cases:                                     # A24: "the case does not stand"
        return 24
    have = r.events[k]
    if tipo == b"I" and any(x in have for x in keys):        # A14
        return 14
    if tipo in b"VC" and any(x not in have for x in keys):   # A15
        return 15
    after = dict(have)                                       # J5: "25 to 28 look at the events that the case would have afterwards"
    for x, e in zip(keys, evs):
        if tipo == b"C":
            del after[x]
        else:
            after[x] = e                                     # W2: "whole rows in the place of those with their keys"
    a = after_anomaly(k[2], list(after.values()))
    if a:
        return a
    if tipo == b"I" and standing(r) + len(evs) > r.room:     # A17
        return 17
    r.events[k] = after                                      # J6: "one of Track 2 is taken whole or not at all"
    return 0


def submit(sub, track, year, quarter, reg, answers, row=ROW):
    """-> (answer, record number, records, accepted, discarded, register after, answer list after, place)"""
    # G4: "With 1 to 8 all three counts are 0, and no byte of register or answer list changes"; E5: "Other answers report place 0"
    refuse = lambda a, n=0, place=0: (a, n, 0, 0, 0, reg, answers, place)
    if not is_period(year, quarter):
        return refuse(1)
    if track not in (1, 2):
        return refuse(2)
    r = load(reg, row)
    if r is None:
        return refuse(3)
    if len(sub) > 1048576:
        return refuse(4)
    try:
        root = parse(sub)
    except Refused:
        return refuse(5)
    bad, records = shape(root, track)
    if bad:
        return refuse(6, *bad)
    if track == 2:
        for n, rec in enumerate(records, 1):
            if len(events_of(rec)) > 128:
                return refuse(7, n)
    if len(answers) < len(records):
        return refuse(8)
    in_quarter = days_of(year, quarter)
    judge = apply1 if track == 1 else apply2
    got = bytes(judge(r, rec, in_quarter) for rec in records)   # G7: "Records are taken in file order"
    accepted = got.count(0)
    return 0, 0, len(records), accepted, len(records) - accepted, store(r, len(reg), row), got + answers[len(got):], 0


# ------------------------------------------------------------------ E3: "A cancellation file written from the register"
def written(n):
    return date.fromordinal(n + DAY0).isoformat().encode()   # D3: "exactly AAAA-MM-GG"


def event_text(e):
    """E3: "the schema's spelling of codes"; numAccessi where the row has one, dataFine likewise, since A10 looks at it; never `<X/>`"""
    kind, when, code, end, accesses = e[:5]
    when, code = written(when), b"%d" % code
    if kind == RIV:
        return b'<Rivalutazione data="%s" motivo="%s" confermaPrecedente="1"></Rivalutazione>' % (when, code)
    if kind == ERO:
        return b'<Erogazione data="%s"%s><TipoOperatore>%s</TipoOperatore></Erogazione>' % (when, b' numAccessi="%d"' % accesses if accesses else b"", code)
    if kind == SOS:
        fine = b"" if end == NO_END else b' dataFine="%s"' % written(end)
        return b'<Sospensione dataInizio="%s"%s><Motivazione>%s</Motivazione></Sospensione>' % (when, fine, code)
    return b'<Conclusione dataAD="%s"><Motivazione>%s</Motivazione></Conclusione>' % (when, code)


def record_text(region, asl, when, ident, evs):
    """E3: "given a case key": the four texts, which are written as they were lent"""
    return (b'<Assistenza><Trasmissione tipo="C"></Trasmissione><Erogatore><CodiceRegione>%s</CodiceRegione><CodiceASL>%s</CodiceASL></Erogatore>'
            b'<Eventi><PresaInCarico data="%s"><Id_Rec>%s</Id_Rec></PresaInCarico>%s</Eventi></Assistenza>'
            % (region, asl, when, ident, b"".join(map(event_text, evs))))


def cancel_file(reg, region, asl, when, ident, year, quarter, out):
    """-> (answer, length, output after); the first refusal of 1, 3, 30, 31, 32, 33"""
    refuse = lambda a: (a, 0, out)                           # E3: "output untouched"
    if not is_period(year, quarter):
        return refuse(1)
    r = load(reg)
    if r is None:
        return refuse(3)
    k = case_named(r, region, asl, when, ident)
    if k is None:                                            # E3: "case not standing"; nor does one with a text that is not allowed
        return refuse(30)
    in_quarter = days_of(year, quarter)                      # E3: "every event of the case that check 10 places in the quarter", in the rows' order
    evs = [e for _, e in sorted(r.events[k].items()) if in_quarter(day_held(e))]
    if any(e[0] == RIV and e[5] == 2 for e in evs):          # E3: "among those events": by A21 conferma 2 wants a Valutazione, of which a part only is kept (U4)
        return refuse(31)
    if not evs:                                              # there is none
        return refuse(32)
    records = [evs[i:i + 128] for i in range(0, len(evs), 128)]   # E3: "128 to each record but the last"
    text = b"<FlsAssDom_2>%s</FlsAssDom_2>" % b"".join(record_text(region, asl, when, ident, x) for x in records)
    if len(out) < len(text):                                 # the output has no room for it
        return refuse(33)
    return 0, len(text), text + out[len(text):]              # E3: "bytes past it stay"


# ------------------------------------------------------------------ E6: "Keep the new evaluation"
def evaluation(reg, region, asl, when, ident, on):
    """-> (answer, the eleven bytes); on: the day's text"""
    refuse = lambda a: (a, bytes(11))                        # N6: "With 3 and with 30 all eleven are 0"
    r = load(reg)
    if r is None:                                            # E6: "the reader gives 3 for an unsound register"
        return refuse(3)
    k = case_named(r, region, asl, when, ident)
    if k is None or not is_date(on) or day(on) < k[2]:       # E6: "else 30 for a case not standing or a day not allowed or before its taking in"
        return refuse(30)
    # E6: "those of the latest Rivalutazione with conferma 2 on or before it, else the case's own"; of one with zeros "the reader passes over it"
    kept = [e for e in r.events[k].values() if e[0] == RIV and e[5] == 2 and e[1] <= day(on) and e[6] != NO_VALUE]
    _, prevalente, levels = r.cases[k]
    if kept:
        levels, prevalente = max(kept, key=lambda e: e[1])[6]
    return 0, bytes(levels) + prevalente.ljust(5, b"\0")     # N5: "the six numbers in the order of R16 to R21, then the prevalente's five characters"


def convert(old, new):
    """-> (answer, the new register after)"""
    if load(old, OLD_ROW) is None:                           # E6: "changing neither buffer, gives 3 for any other register"
        return 3, new
    cases, events = rows_in(old, OLD_ROW)
    if len(new) < 4 or room(new) < len(cases + events):      # E6: "else 33 if the new one has under 4 bytes or too little room"
        return 33, new
    # T4: "the old one's counts and rows, each row with five zero bytes behind it, and every other byte of it is zero"
    return 0, (old[:4] + b"".join(row + bytes(ROW - OLD_ROW) for row in cases + events)).ljust(len(new), b"\0")


if __name__ == "__main__":                                   # P1, P5 and P6; E2's and E6's rows and E3's file, worked out by hand
    assert LAST_DAY == 73048 and day(b"2000-02-29") == 36583 and day(b"1900-02-29") is None
    k = (10, b"101", day(b"2018-05-01"), b"A" * 88)
    assert pack_case(k, (1950, b"123", (0,) * 6))[:6].hex() == "0a62c18aa34e"
    may = lambda d: day(b"2018-05-%02d" % d)
    two, one, stop = (ERO, may(2), 2, NO_END, 3, 0), (ERO, may(2), 1, NO_END, 0, 0), (SOS, may(3), 9, may(5), 0, 0)
    said = (1, 2, 3, 0, 1, 2), b"250"                        # E6: what a Rivalutazione keeps, and keeps no more once it is converted
    new, bare = (RIV, may(10), 1, NO_END, 0, 2, said), (RIV, may(10), 1, NO_END, 0, 2)
    for e, last in ((two, "05546a02ffff8300000000000000"), (one, "05546a01ffff8000000000000000"), (stop, "06546a89546b8000000000000000"),
                    (new, "04546e01ffff809b199356000000"), (bare, "04546e01ffff8080000000000000")):
        row = pack_event(k, e)
        bits = int.from_bytes(row, "big") >> 80              # R9: "its row's first 688 bits"
        assert row[82:].hex() == last and row[:6].hex() == "0a62c18aa34e" and read_event(row) == (k, e if e is new else (*e, NO_VALUE))
        assert event_key(e) == (bits >> 24 & 3, bits >> 7 & NO_END, bits & 127 if e[0] == ERO else 0)
    of = lambda *evs: sound(bytes([0, 1, 0, len(evs)]) + pack_case(k, (1950, b"123", (0,) * 6)) + b"".join(pack_event(k, e) for e in evs))
    assert of(one, two, stop) == 0 and of(two, one) == of(two, two) == of(stop, two) == of((RIV, may(2), 1, NO_END, 0, 1), (RIV, may(2), 2, NO_END, 0, 1)) == 3
    assert sound(bytes(4)) == sound(bytes(99)) == sound(bytes(100)) == 0 and sound(bytes(3)) == 3 and room(bytes(99)) == 0 and room(bytes(100)) == 1
    # E6's reader and conversion
    case, key = pack_case(k, (1950, b"123", (0,) * 6)), (b"010", b"101", b"2018-05-01", b"A" * 88)
    late = (RIV, may(20), 2, NO_END, 0, 2, ((0, 0, 0, 0, 0, 0), b"V58.1"))
    on = lambda reg, *days: [evaluation(reg, *key, b"2018-05-%02d" % d) for d in days]
    kept = lambda *evs: bytes([0, 1, 0, len(evs)]) + case + b"".join(pack_event(k, e) for e in evs)
    first, second, third = (0, b"\0\0\0\0\0\x00123\0\0"), (0, b"\1\2\3\0\1\x02250\0\0"), (0, b"\0\0\0\0\0\0V58.1")
    assert on(kept(new, (RIV, may(12), 1, NO_END, 0, 1), late), 1, 9, 10, 11, 12, 19, 20, 31) == [first] * 2 + [second] * 4 + [third] * 2
    assert on(kept(bare, late), 9, 10, 19, 20) == [first] * 3 + [third] and on(kept(new, (*late[:6], NO_VALUE)), 20) == [second]
    assert evaluation(kept(new), *key, b"2018-04-30") == on(kept(new), 32)[0] == evaluation(kept(new), b"011", *key[1:], key[2]) == (30, bytes(11))
    assert evaluation(kept(late, new), *key, b"") == (3, bytes(11)) and on(bytes(100), 1) == [(30, bytes(11))]
    old = bytes([0, 1, 0, 2]) + pack_case(k, (1950, b"123", (0,) * 6), OLD_ROW) + pack_event(k, new, OLD_ROW) + pack_event(k, two, OLD_ROW)
    assert old[186:277].hex()[164:] == "05546a02ffff830000" and old[95:186].hex()[164:] == "04546e01ffff808000" and sound(old, OLD_ROW) == 0 and sound(old) == 3
    assert convert(old + b"\0", b"?" * 300) == (0, kept(bare, two) + bytes(8)) and convert(old, b"?" * 292) == (0, kept(bare, two))
    assert convert(old, b"?" * 291) == (33, b"?" * 291) and convert(bytes(94), b"??") == (33, b"??") and convert(bytes(4), b"????") == (0, bytes(4))
    assert convert(kept(bare, two), b"?" * 300) == convert(old + b"\1", b"?" * 300) == (3, b"?" * 300) and convert(b"", b"") == (3, b"")
    # E3's file, each kind with and without what is optional
    held = lambda *evs: (bytes([0, 1, 0, len(evs)]) + case + b"".join(pack_event(k, e) for e in evs)).ljust(1000, b"\0")
    plain, last, many = (RIV, may(31), 2, NO_END, 0, 1), (CON, may(31), 97, NO_END, 0, 0), (ERO, may(31), 99, NO_END, 99, 0)
    reg = held(plain, two, (ERO, may(2), 13, NO_END, 0, 0), many, stop, (SOS, may(31), 1, NO_END, 0, 0), last)
    file = (b'<FlsAssDom_2><Assistenza><Trasmissione tipo="C"></Trasmissione>'
            b'<Erogatore><CodiceRegione>010</CodiceRegione><CodiceASL>101</CodiceASL></Erogatore><Eventi><PresaInCarico data="2018-05-01"><Id_Rec>'
            b'AAAAAAAAAAAAAAAAAAAAAAAAAAAAAAAAAAAAAAAAAAAAAAAAAAAAAAAAAAAAAAAAAAAAAAAAAAAAAAAAAAAAAAAA</Id_Rec></PresaInCarico>'
            b'<Rivalutazione data="2018-05-31" motivo="2" confermaPrecedente="1"></Rivalutazione>'
            b'<Erogazione data="2018-05-02" numAccessi="3"><TipoOperatore>2</TipoOperatore></Erogazione>'
            b'<Erogazione data="2018-05-02"><TipoOperatore>13</TipoOperatore></Erogazione>'
            b'<Erogazione data="2018-05-31" numAccessi="99"><TipoOperatore>99</TipoOperatore></Erogazione>'
            b'<Sospensione dataInizio="2018-05-03" dataFine="2018-05-05"><Motivazione>9</Motivazione></Sospensione>'
            b'<Sospensione dataInizio="2018-05-31"><Motivazione>1</Motivazione></Sospensione>'
            b'<Conclusione dataAD="2018-05-31"><Motivazione>97</Motivazione></Conclusione></Eventi></Assistenza></FlsAssDom_2>')
    assert cancel_file(reg, *key, 2018, 2, bytes(len(file)) + b"past") == (0, len(file), file + b"past")
    assert len(file) == 27 + 317 + 83 + 90 + 76 + 92 + 101 + 79 + 76
    assert submit(file, 2, 2018, 2, reg, b"??") == (0, 0, 1, 1, 0, held(), b"\0?", 0)
    # E5's places in that file, counted by hand
    told = lambda old, new: [submit(file.replace(old, new, 1), 2, 2018, 2, reg, b"??")[i] for i in (0, 1, 7)]
    assert told(b"010<", b"XXX<") == told(b"010</CodiceRegione><CodiceASL>101</CodiceASL>", b"XXX</CodiceRegione>") == [6, 1, 74]
    assert told(b"<CodiceASL>101</CodiceASL>", b"") == told(b"</Erogatore>", b"x</Erogatore>") == [6, 1, 63] and told(b"101<", b"10<!----><") == [6, 1, 108]
    assert told(b"<Assistenza>", b"<Assistenza a=''>") == told(b"<Erogatore>", b"<Erogator/><Erogatore>") == [6, 1, 13]
    assert told(b'data="2018-05-01"', b"") == [6, 1, 154] and told(b"<Eventi>", b"<Eventi><X/>") == [6, 1, 146] and told(b">9<", b"> 9<") == [6, 1, 708]
    assert told(b"<FlsAssDom_2>", b"<?xml ?> <FlsAssDom_2 a=''>") == [6, 0, 9] and told(b"</Fls", b"x</Fls") == [6, 0, 0]
    answer = lambda reg, quarter, out=bytes(900), texts=key: cancel_file(reg, *texts, 2018, quarter, out)[0]
    over = held((RIV, may(2), 1, NO_END, 0, 2), (SOS, day(b"2018-06-30"), 3, day(b"2018-07-01"), 0, 0))     # conferma 2; and over the quarter's end
    assert [answer(over, q) for q in (2, 3, 4)] == [31, 0, 32] and cancel_file(reg, *key, 2018, 2, file[1:]) == (33, 0, file[1:])
    assert answer(over[:-900], 5) == 1 and answer(over[:-900], 2, b"", (b"10", *key[1:])) == 3      # the first of two or three that hold
    assert answer(over, 2, b"", (b"10", *key[1:])) == 30 and answer(over, 2, b"") == 31 and answer(over, 4, b"") == 32
    print("ok")
