#!/usr/bin/env python3
"""Makes crates/histories/data, args and stdout: the submissions, the register images, the scripts, and what each command must print.

    tools/histories/make.py

What stands after each command and what each record is answered is said in scripts.py by hand, from docs/RULES.md; rows and sums are packed here, by
arithmetic of this file's own. Which evaluation is in force is said by hand too, and looked up again in those rows. Nothing is taken from what the program prints. A request that changes the row, the key or an answer changes it here first.
"""
import datetime
import os
import shutil

HERE = os.path.dirname(os.path.abspath(__file__))
ROOT = os.path.join(HERE, "..", "..", "crates", "histories")
D = ROOT + '/data'
P = 2 ** 56 - 5
NEVER = 2 ** 17 - 1
ROW, OLD_ROW = 96, 91       # OLD_ROW: before a Rivalutazione kept its evaluation (T2), with zero bits behind R21 and R28 to the row's end
def day(t): return (datetime.date.fromisoformat(t) - datetime.date(1900, 1, 1)).days
def bits(*fields):
    s = "".join(format(v, "0%db" % w) for v, w in fields)
    assert len(s) == ROW * 8, len(s)
    return int(s, 2).to_bytes(ROW, "big")
def chars(t, n): return [(ord(c), 7) for c in t] + [(0, 7)] * (n - len(t))
def ident(id): return id * 88 if len(id) == 1 else id
def key(id="A", region=10, asl="101", taken="2018-05-01"):
    return [(region, 8)] + chars(asl, 3) + [(day(taken), 17)] + chars(ident(id), 88)
def two(scales): return [(x, 2) for x in scales]
MISSING = (0,) * 6          # of Autonomia, GradoMobilita, Cognitivi, Comportamenti, SupportoSociale, RischioInfettivo none is there
def case(id="A", birth=1940, prevalente="250", scales=MISSING, taken="2018-05-01"):
    return bits(*key(id, taken=taken), (birth, 12), *chars(prevalente, 5), *two(scales), (0, 47))
def event(kind, date, end=None, code=1, accesses=0, conferma=0, id="A", scales=MISSING, prevalente="", taken="2018-05-01"):
    return bits(*key(id, taken=taken), (kind, 2), (day(date), 17), (code, 7), (NEVER if end is None else day(end), 17), (accesses, 7), (conferma, 2),
      *two(scales), *chars(prevalente, 5), (0, 7))
def reval(date, code=1, conferma=1, **k): return event(0, date, code=code, conferma=conferma, **k)
def visit(date, code=2, accesses=0, **k): return event(1, date, code=code, accesses=accesses, **k)
def susp(date, end=None, code=1, **k): return event(2, date, end, code=code, **k)
def concl(date, code=1, **k): return event(3, date, code=code, **k)
def before_e2(row):
    """an event's row as it was before E2: the end date in front of the code"""
    s = format(int.from_bytes(row, "big"), "0%db" % (ROW * 8))
    return int(s[:681] + s[688:705] + s[681:688] + s[705:], 2).to_bytes(ROW, "big")
def narrow(row):
    assert not any(row[OLD_ROW:])
    return row[:OLD_ROW]
# bytes 82 to 95, worked out by hand from R23 to R33
assert visit("2018-05-02", 2, 3)[82:].hex() == "05546a02ffff8300000000000000" and visit("2018-05-02", 1)[82:].hex() == "05546a01ffff8000000000000000"
assert susp("2018-05-03", "2018-05-05", 9)[82:].hex() == "06546a89546b8000000000000000"
assert reval("2018-05-10", 1, 2, scales=(1, 2, 3, 0, 1, 2), prevalente="250")[82:].hex() == "04546e01ffff809b199356000000"
assert reval("2018-05-10", 1, 2)[82:].hex() == "04546e01ffff8080000000000000"
class Reg:
    def __init__(self, n, cases=(), events=()):
        self.n, self.cases, self.events = n, list(cases), list(events)
    def bytes(self):
        b = len(self.cases).to_bytes(2, "big") + len(self.events).to_bytes(2, "big") + b"".join(self.cases + self.events)
        assert len(b) <= self.n
        return b + bytes(self.n - len(b))
def rows(n, cases=(), events=()): return Reg(4 + ROW * n, cases, events)
def rows_91(n, cases=(), events=(), more=0): return Reg(4 + OLD_ROW * n + more, map(narrow, cases), map(narrow, events))
def sum_of(b): return int.from_bytes(b, "big") % P
def standing(r):
    b = r if isinstance(r, bytes) else r.bytes()
    out = []
    if len(b) >= 4:
        out.append("cases %d events %d" % (int.from_bytes(b[:2], "big"), int.from_bytes(b[2:4], "big")))
    return out + ["sum %d" % sum_of(b)]
def taken(answers, r):
    a = sum(1 for x in answers if x == 0)
    return ["file 0 0 records %d accepted %d discarded %d" % (len(answers), a, len(answers) - a)] + ["%d %d" % (i + 1, x) for i, x in enumerate(answers)] + standing(r)
def refused(answer, r, number=0, place=0):
    return ["file %d %d records 0 accepted 0 discarded 0" % (answer, number)] + (["place %d" % place] if answer == 6 else []) + standing(r)

# ---- submissions
NEEDS1 = ["DrenaggioPosturale", "OssigenoTerapia", "Ventiloterapia", "Tracheostomia", "(", "GestioneStomia", "ElimiUrinariaIntestinale", "AlterRitmoSonnoVeglia",
 "IntEduTerapeutica", "CuraUlcereCutanee12Grado", "CuraUlcereCutanee34Grado", "PrelieviVenosiNonOcc", "ECG", "Telemetria", "TerSottocutIntraMusInfus",
 "GestioneCatetere", "Trasfusioni", "ControlloDolore", "AssistStatoTerminaleOnc", "AssistStatoTerminaleNonOnc"]
def needs(musc):
    out = []
    for n in NEEDS1:
        if n == "(":
            out.append("<Alimentazione><Assistita>2</Assistita><Enterale>2</Enterale><Parenterale>2</Parenterale></Alimentazione>")
        else:
            n = n.replace("MusInfus", "MuscInfus") if musc else n
            out.append("<%s>2</%s>" % (n, n))
    return "\n".join(out)
def leaf(name, n): return "<%s>%d</%s>\n" % (name, n, name) if n else ""
def levels(scales, disturbi):
    """the six leaves that are there, the third and the fourth in Disturbi, which in Track 1 must stand"""
    a, g, co, cm, s, r = scales
    inside = leaf("Cognitivi", co) + leaf("Comportamentali", cm)
    group = "<Disturbi>\n" + inside + "</Disturbi>\n" if inside else disturbi
    return leaf("Autonomia", a) + leaf("GradoMobilita", g) + group + leaf("SupportoSociale", s) + leaf("RischioInfettivo", r)
def t1(id="A", tipo="I", birth="1940", prevalente="250", res=("010", "101", "001272", None), taken="2018-05-01", scales=MISSING):
    reg, asl, com, st = res
    stato = "<StatoEstero>%s</StatoEstero>" % st if st else ""
    return f"""<Assistenza>
<Trasmissione tipo="{tipo}"/>
<Assistito><DatiAnagrafici>
<CUNI>C</CUNI><validitaCI>0</validitaCI><tipologiaCI>0</tipologiaCI>
<AnnoNascita>{birth}</AnnoNascita><Genere>2</Genere><Cittadinanza>IT</Cittadinanza><StatoCivile>9</StatoCivile>
<Residenza><Regione>{reg}</Regione><ASL>{asl}</ASL><Comune>{com}</Comune>{stato}</Residenza>
</DatiAnagrafici></Assistito>
<Conviventi><NucleoFamiliare>1</NucleoFamiliare><AssistenteNonFamiliare>2</AssistenteNonFamiliare></Conviventi>
<Erogatore><CodiceRegione>010</CodiceRegione><CodiceASL>101</CodiceASL></Erogatore>
<Eventi>
<PresaInCarico data="{taken}" soggettoRichiedente="1">
<Id_Rec>{ident(id)}</Id_Rec>
</PresaInCarico>
<Valutazione data="{taken}">
<Patologia><Prevalente>{prevalente}</Prevalente><Concomitante>000</Concomitante></Patologia>
{levels(scales, "<Disturbi/>" + chr(10))}{needs(False)}
</Valutazione>
</Eventi>
</Assistenza>
"""
def f1(*recs): return "<FlsAssDom_1>\n" + "".join(recs) + "</FlsAssDom_1>\n"
def t2(events=(), id="A", tipo="I", taken="2018-05-01"):
    return f"""<Assistenza>
<Trasmissione tipo="{tipo}"/>
<Erogatore><CodiceRegione>010</CodiceRegione><CodiceASL>101</CodiceASL></Erogatore>
<Eventi>
<PresaInCarico data="{taken}">
<Id_Rec>{ident(id)}</Id_Rec>
</PresaInCarico>
{"".join(e + chr(10) for e in events)}</Eventi>
</Assistenza>
"""
def f2(*recs): return "<FlsAssDom_2>\n" + "".join(recs) + "</FlsAssDom_2>\n"
def xv(date, code=2, accesses=None):
    a = ' numAccessi="%d"' % accesses if accesses else ""
    return f'<Erogazione data="{date}"{a}><TipoOperatore>{code}</TipoOperatore></Erogazione>'
def xs(date, end=None, code=1):
    e = f' dataFine="{end}"' if end else ""
    return f'<Sospensione dataInizio="{date}"{e}><Motivazione>{code}</Motivazione></Sospensione>'
def xc(date, code=1): return f'<Conclusione dataAD="{date}"><Motivazione>{code}</Motivazione></Conclusione>'
def valut(prevalente, scales=MISSING):
    patologia = f"<Patologia><Prevalente>{prevalente}</Prevalente><Concomitante>000</Concomitante></Patologia>"
    return f"<Valutazione>\n{patologia}\n{levels(scales, '')}{needs(True)}\n</Valutazione>"
def xr(date, motivo=1, conferma=1, inside=None):
    h = f'<Rivalutazione data="{date}" motivo="{motivo}" confermaPrecedente="{conferma}"'
    return h + "/>" if inside is None else h + ">\n" + inside + "\n</Rivalutazione>"

F = {}
F["case_a"] = f1(t1())
F["case_b"] = f1(t1("B"))
F["case_a_varied"] = f1(t1(tipo="V", birth="1941", prevalente="4019"))
F["case_a_cancelled"] = f1(t1(tipo="C"))
F["born_1879"] = f1(t1(birth="1879"))
F["born_2019"] = f1(t1(birth="2019"))
F["abroad_it"] = f1(t1(res=("999", "999", "999999", "It")))
F["abroad_fr_in_010"] = f1(t1(res=("010", "999", "999999", "FR")))
F["abroad_without_state"] = f1(t1(res=("999", "999", "999999", None)))
F["abroad_fr"] = f1(t1(res=("999", "999", "999999", "FR")))
F["prevalente_000"] = f1(t1(prevalente="000"))
F["prevalente_0000"] = f1(t1(prevalente="0000"))
F["cases_a_000_b"] = f1(t1(), t1("C", prevalente="000"), t1("B"))
F["no_event"] = f2(t2())
F["visit"] = f2(t2([xv("2018-05-02", 2, 3)]))
F["visit_varied"] = f2(t2([xv("2018-05-02", 2, 7)], tipo="V"))
F["visit_cancelled"] = f2(t2([xv("2018-05-02")], tipo="C"))
F["visit_2018_04_30"] = f2(t2([xv("2018-04-30")]))
F["visit_2018_05_03"] = f2(t2([xv("2018-05-03")]))
F["visit_2018_06_02"] = f2(t2([xv("2018-06-02")]))
F["visit_2018_06_30"] = f2(t2([xv("2018-06-30")]))
F["visit_2018_07_01"] = f2(t2([xv("2018-07-01")]))
F["visits_2018_05_04_and_05"] = f2(t2([xv("2018-05-04"), xv("2018-05-05")]))
# operator 2 is a nurse, 7 a physiotherapist
F["visits_on_one_day"] = f2(t2([xv("2018-05-02", 7), xv("2018-05-02", 2, 3)]))
F["visits_on_one_day_cancelled"] = f2(t2([xv("2018-05-02", 2), xv("2018-05-02", 7)], tipo="C"))
F["visits_on_one_day_varied"] = f2(*[t2([xv("2018-05-02", code, 9)], tipo="V") for code in (2, 7)])
F["visits_in_two_records"] = f2(t2([xv("2018-05-02", 2, 3)]), t2([xv("2018-05-02", 7)]))
F["visit_by_7"] = f2(t2([xv("2018-05-02", 7)]))
F["visit_by_7_cancelled"] = f2(t2([xv("2018-05-02", 7, 99)], tipo="C"))
F["visit_by_5_varied"] = f2(t2([xv("2018-05-02", 5, 3)], tipo="V"))
F["visit_by_5_cancelled"] = f2(t2([xv("2018-05-02", 5, 3)], tipo="C"))
F["visits_by_2_and_5_varied"] = f2(t2([xv("2018-05-02", 2, 7), xv("2018-05-02", 5)], tipo="V"))
F["visits_by_2_and_5"] = f2(t2([xv("2018-05-02", 5), xv("2018-05-02", 2)]))
F["visit_twice"] = f2(t2([xv("2018-05-02", 2, 3), xv("2018-05-02", 2)]))
F["visit_twice_and_7"] = f2(t2([xv("2018-05-02", 2), xv("2018-05-02", 7), xv("2018-05-02", 2)]))
F["visit_twice_in_two_records"] = f2(t2([xv("2018-05-02", 2, 3)]), t2([xv("2018-05-02", 2)]), t2([xv("2018-05-02", 7)]))
OPERATORS = [*range(1, 14), 99]
F["visits_by_all"] = f2(t2([xv("2018-05-02", code) for code in OPERATORS[::-1]]))
F["visits_by_odd_cancelled"] = f2(t2([xv("2018-05-02", code) for code in OPERATORS if code % 2], tipo="C"))
F["visits_the_second_stands"] = f2(t2([xv("2018-05-02")]), t2([xv("2018-05-04"), xv("2018-05-02")]), t2([xv("2018-05-06")]))
F["revaluation_1_with"] = f2(t2([xr("2018-05-10", 1, 1, valut("250"))]))
F["revaluation_2_without"] = f2(t2([xr("2018-05-10", 1, 2)]))
F["revaluation_000"] = f2(t2([xr("2018-05-10", 1, 2, valut("000"))]))
F["revaluation_2_with"] = f2(t2([xr("2018-05-10", 1, 2, valut("250"))]))
F["revaluations_on_one_day"] = f2(t2([xr("2018-05-10", 1), xr("2018-05-10", 2)]))
F["revaluations_in_two_records"] = f2(t2([xr("2018-05-10", 1)]), t2([xr("2018-05-10", 2)]))
F["revaluation_motivo_2_varied"] = f2(t2([xr("2018-05-10", 2)], tipo="V"))
F["revaluation_motivo_1_cancelled"] = f2(t2([xr("2018-05-10", 1)], tipo="C"))
F["suspension_for_1"] = f2(t2([xs("2018-05-03", "2018-05-05")]))
F["suspension_for_9"] = f2(t2([xs("2018-05-03", "2018-05-05", 9)]))
F["suspension_for_9_varied"] = f2(t2([xs("2018-05-03", "2018-05-05", 9)], tipo="V"))
F["suspension_for_2_cancelled"] = f2(t2([xs("2018-05-03", code=2)], tipo="C"))
F["suspensions_from_05_03"] = f2(t2([xs("2018-05-03", "2018-05-05", 1), xs("2018-05-03", "2018-05-05", 9)]))
F["suspension_backwards"] = f2(t2([xs("2018-05-05", "2018-05-03")]))
F["suspension_june_to_july"] = f2(t2([xs("2018-06-28", "2018-07-02")]))
F["suspensions_share_05_05"] = f2(t2([xs("2018-05-03", "2018-05-05"), xs("2018-05-05", "2018-05-09")]))
F["suspensions_apart"] = f2(t2([xs("2018-05-03", "2018-05-05"), xs("2018-05-06", "2018-05-09")]))
F["suspension_without_end"] = f2(t2([xs("2018-05-10")]))
F["suspension_in_june"] = f2(t2([xs("2018-06-20", "2018-06-21")]))
F["conclusion_2018_06_01"] = f2(t2([xc("2018-06-01")]))
F["conclusion_for_12"] = f2(t2([xc("2018-06-01", 12)]))
F["conclusion_for_12_varied"] = f2(t2([xc("2018-06-01", 12)], tipo="V"))
F["conclusion_for_99_cancelled"] = f2(t2([xc("2018-06-01", 99)], tipo="C"))
F["conclusion_2018_06_02"] = f2(t2([xc("2018-06-02")]))
F["conclusion_2018_07_31"] = f2(t2([xc("2018-07-31", 3)]))
F["not_closed"] = "<FlsAssDom_2>\n"
DAYS = [(datetime.date(2018, 5, 1) + datetime.timedelta(i)).isoformat() for i in range(61)]
E128 = [xr(d) for d in DAYS] + [xv(d) for d in DAYS] + [xs(d, d) for d in DAYS[:6]]
F["events_128"] = f2(t2(E128))
F["events_128_cancelled"] = f2(t2(E128, tipo="C"))
F["events_129"] = f2(t2(E128 + [xc("2018-06-30")]))
# cases A, B and C, whose rows stand in this order; B's events lie in two quarters, A's last and C's first right beside them
F["cases_a_b_c"] = f1(t1("A"), t1("B"), t1("C"))
F["events_of_a_b_c"] = f2(t2([xv("2018-05-02"), xc("2018-06-30")]), t2([xr("2018-05-10"), xv("2018-05-02")], "B"), t2([xr("2018-05-01"), xv("2018-05-02")], "C"))
F["visit_b_2018_07_05"] = f2(t2([xv("2018-07-05")], "B"))
F["visit_b_2018_07_05_cancelled"] = f2(t2([xv("2018-07-05")], "B", "C"))
F["visit_b_cancelled"] = f2(t2([xv("2018-05-02")], "B", "C"))
F["case_d"] = f1(t1("D"))
F["b_cancelled"] = f1(t1("B", "C"))
F["b_cancelled_inserted_cancelled"] = f1(t1("B", "C"), t1("B"), t1("B", "C"))
F["b_cancelled_with_faults"] = f1(t1("B", "C", birth="1879"), t1("B", "C", res=("999", "999", "999999", "It")), t1("B", "C", prevalente="000"), t1("D", "C"))
F["old_events_of_b"] = f2(*[t2([xv("2018-05-02", 2, 5)], "B", tipo) for tipo in "VCIV"], *[t2([xr("2018-05-10")], "B", tipo) for tipo in "VC"])
F["b_cancelled_and_d_to_h"] = f1(t1("B", "C"), *[t1(id) for id in "DEFGH"])
AFTER_A, BEHIND = "A" * 87 + "B", "A" * 87 + "C"
F["after_a_cancelled"] = f1(t1(AFTER_A, "C"))
F["after_a_cancelled_inserted"] = f1(t1(AFTER_A, "C"), t1(AFTER_A))
F["depth_12"] = "<D>" * 11 + "<D/>" + "</D>" * 11 + "\n"
F["depth_13"] = "<D>" * 12 + "<D/>" + "</D>" * 12 + "\n"

# ---- files at fault: `@` is no byte of the file. It stands before the `<` of the element that S24 to S26 refuse in, and the bytes before it are the place that
# 6 must tell
PLACE = {}
def at_fault(name, text):
    assert text.count("@") == 1 and "@<" in text, name
    PLACE[name], F[name] = text.index("@"), text.replace("@", "")
def but(text, *changes):
    for old, new in changes:
        assert text.count(old) == 1, old
        text = text.replace(old, new)
    return text
VISIT, NO_DAY = t2([xv("2018-05-02")]), t2(taken="2018-02-30")
TIPO, REGION, ASL = '<Trasmissione tipo="I"/>', "<CodiceRegione>010</CodiceRegione>", "<CodiceASL>101</CodiceASL>"
EROGATORE, OPERATOR = "<Erogatore>" + REGION + ASL + "</Erogatore>", "<TipoOperatore>2</TipoOperatore>"
BAD_OPERATOR = (OPERATOR, "@<TipoOperatore>14</TipoOperatore>")
# outside the records: the root's place
at_fault("no_record", "@<FlsAssDom_2/>\n")
at_fault("text_between_records", "@" + f2(NO_DAY, "text\n"))
at_fault("no_record_but_a_comment", " \t\n@<FlsAssDom_2><!-- none --></FlsAssDom_2>\n")
at_fault("other_root_after_a_comment", "<!-- Track 1 -->\n@" + F["case_a"])
at_fault("root_attribute_after_a_declaration", '<?xml version="1.0"?>\n@' + but(f2(VISIT), ("<FlsAssDom_2>", '<FlsAssDom_2 anno="2018">')))
at_fault("child_of_root_after_a_comment", "<!-- -->\n@" + f2(VISIT, '<Nota data="2018-02-30"/>\n'))
at_fault("fault_in_a_record_then_text", "<!-- -->\n@" + f2(NO_DAY, "text\n", VISIT))
at_fault("text_then_fault_in_a_record", "<!-- -->\n@" + f2("text\n", NO_DAY, VISIT))
# attributes: the place of their element
at_fault("second_taken_in_2018_02_30", f2(t2(), but(NO_DAY, ("<PresaInCarico", "@<PresaInCarico"))))
at_fault("second_visit_2018_02_30_crlf", ('<?xml version="1.0" encoding="UTF-8"?>\n<!-- second quarter -->\n'
  + f2(t2(), but(t2([xv("2018-02-30")]), ("<Erogazione", "@<Erogazione")))).replace("\n", "\r\n"))
at_fault("suspension_to_2018_05_32", f2(but(t2([xs("2018-05-03", "2018-05-32")]), ("<Sospensione", "@<Sospensione"))))
at_fault("attribute_in_assistenza", f2(t2(), but(VISIT, ("<Assistenza>", '@<Assistenza anno="2018">'))))
at_fault("attribute_missing", f2(but(VISIT, (TIPO, "@<Trasmissione/>"))))
at_fault("attribute_unknown", f2(but(VISIT, ("<CodiceASL>", '@<CodiceASL anno="2018">'))))
# leaves: their own place, also for a comment or a child in them
at_fault("comment_in_a_leaf", f2(but(VISIT, (REGION, "@<CodiceRegione>010<!-- Piemonte --></CodiceRegione>"))))
at_fault("comment_in_an_empty_leaf", f2(but(VISIT, (TIPO, '@<Trasmissione tipo="I"><!-- --></Trasmissione>'))))
at_fault("child_in_a_leaf", f2(but(VISIT, (ASL, "@<CodiceASL>101<Nota/></CodiceASL>"))))
at_fault("blank_in_a_leaf", f2(but(VISIT, (OPERATOR, "@<TipoOperatore> 2</TipoOperatore>"))))
at_fault("leaf_without_text", f2(but(VISIT, (ASL, "@<CodiceASL/>"))))
at_fault("operator_14", f2(t2(), but(VISIT, BAD_OPERATOR)))
# children missing, extra or moved, and text between them: the place of their parent
at_fault("last_child_missing", f2(but(VISIT, (ASL, ""), ("<Erogatore>", "@<Erogatore>"))))
at_fault("no_child", f2(but(VISIT, (EROGATORE, "@<Erogatore/>"))))
at_fault("no_eventi", f2(t2(), "@<Assistenza>\n" + TIPO + "\n" + EROGATORE + "\n</Assistenza>\n"))
at_fault("child_moved", f2(but(VISIT, (EROGATORE, "@<Erogatore>" + ASL + REGION + "</Erogatore>"))))
at_fault("visit_after_a_suspension", f2(but(t2([xs("2018-05-03"), xv("2018-05-02")]), ("<Eventi>", "@<Eventi>"))))
at_fault("child_doubled", f2(but(VISIT, (EROGATORE, "@<Erogatore>" + REGION + ASL + ASL + "</Erogatore>"))))
at_fault("erogatore_doubled", f2(but(VISIT, (EROGATORE, EROGATORE + EROGATORE), ("<Assistenza>", "@<Assistenza>"))))
at_fault("child_unknown", f2(but(t2(['<Visita data="2018-02-30"/>']), ("<Eventi>", "@<Eventi>"))))
at_fault("text_between_children", f2(but(VISIT, ("<Eventi>", "@<Eventi>\ntext"))))
at_fault("text_behind_the_last_child", f2(but(VISIT, ("<PresaInCarico", "@<PresaInCarico"), ("</PresaInCarico>", "text</PresaInCarico>"))))
# two faults: the first met in reading
at_fault("region_then_text", f2(but(VISIT, (REGION, "@<CodiceRegione>999</CodiceRegione>"), ("<Eventi>", "<Eventi>text"))))
at_fault("text_then_operator", f2(but(VISIT, ("<Erogatore>", "@<Erogatore>text"), (OPERATOR, "<TipoOperatore>14</TipoOperatore>"))))
at_fault("child_then_its_parent", f2(but(VISIT, (REGION, "@<CodiceRegione>XXX</CodiceRegione>"), (ASL, ""))))
at_fault("parent_then_its_child", f2(but(VISIT, ("<Erogatore>", "@<Erogatore>"), (REGION, ""), (ASL, "<CodiceASL>1</CodiceASL>"))))
at_fault("attribute_then_leaf", f2(but(t2([xv("2018-02-30", 14)]), ("<Erogazione", "@<Erogazione"))))
at_fault("leaf_then_attribute", f2(but(VISIT, BAD_OPERATOR, ("</Eventi>", xv("2018-02-30") + "\n</Eventi>"))))
at_fault("two_bad_records", f2(but(VISIT, BAD_OPERATOR), NO_DAY))
at_fault("events_129_then_operator_14", f2(t2(E128 + [xc("2018-06-30")]), but(VISIT, BAD_OPERATOR)))
# Track 1
at_fault("case_a_without_parenterale", f1(but(t1(), ("<Parenterale>2</Parenterale>", ""), ("<Alimentazione>", "@<Alimentazione>"))))
at_fault("case_b_prevalente_25", f1(t1(), but(t1("B"), ("<Prevalente>250<", "@<Prevalente>25<"))))
at_fault("case_a_without_disturbi", f1(but(t1(), ("<Disturbi/>\n", ""), ("<Valutazione", "@<Valutazione"))))
# the same places, counted: a root and its line feed have 14 bytes, a record without events has 312, or 321 with carriage returns; in it Trasmissione stands at
# 13, Erogatore at 38, Eventi at 122, PresaInCarico at 131 and the first event at 288 (295 with carriage returns)
assert [PLACE[f] for f in ("no_record", "text_between_records", "no_record_but_a_comment", "other_root_after_a_comment", "root_attribute_after_a_declaration",
  "child_of_root_after_a_comment", "fault_in_a_record_then_text", "text_then_fault_in_a_record")] == [0, 0, 3, 17, 22, 9, 9, 9]
assert [PLACE[f] for f in ("second_taken_in_2018_02_30", "second_visit_2018_02_30_crlf", "suspension_to_2018_05_32", "attribute_in_assistenza",
  "attribute_missing", "attribute_unknown")] == [14 + 312 + 131, 40 + 25 + 15 + 321 + 295, 14 + 288, 14 + 312, 14 + 13, 14 + 38 + 45]
assert [PLACE[f] for f in ("comment_in_a_leaf", "comment_in_an_empty_leaf", "child_in_a_leaf", "blank_in_a_leaf", "leaf_without_text", "operator_14")] == [
  14 + 38 + 11, 14 + 13, 14 + 38 + 45, 14 + 288 + 30, 14 + 38 + 45, 14 + 312 + 288 + 30]
assert [PLACE[f] for f in ("last_child_missing", "no_child", "no_eventi", "child_moved", "visit_after_a_suspension", "child_doubled", "erogatore_doubled",
  "child_unknown", "text_between_children", "text_behind_the_last_child")] == [
  14 + 38, 14 + 38, 14 + 312, 14 + 38, 14 + 122, 14 + 38, 14, 14 + 122, 14 + 122, 14 + 131]
assert [PLACE[f] for f in ("region_then_text", "text_then_operator", "child_then_its_parent", "parent_then_its_child", "attribute_then_leaf",
  "leaf_then_attribute", "two_bad_records")] == [14 + 38 + 11, 14 + 38, 14 + 38 + 11, 14 + 38, 14 + 288, 14 + 288 + 30, 14 + 288 + 30]

# ---- cancellation files (docs/CANCELLATION.md): the case's texts as they are lent, events in the register's order, 128 to a record
def xr1(date, motivo=1): return f'<Rivalutazione data="{date}" motivo="{motivo}" confermaPrecedente="1"></Rivalutazione>'
def undone(events, id="A"):
    head = ('<Assistenza><Trasmissione tipo="C"></Trasmissione><Erogatore><CodiceRegione>010</CodiceRegione><CodiceASL>101</CodiceASL></Erogatore>'
      f'<Eventi><PresaInCarico data="2018-05-01"><Id_Rec>{ident(id)}</Id_Rec></PresaInCarico>')
    records = [head + "".join(events[i:i + 128]) + "</Eventi></Assistenza>" for i in range(0, len(events), 128)]
    text = "<FlsAssDom_2>" + "".join(records) + "</FlsAssDom_2>"
    assert len(text) == 27 + 317 * len(records) + sum(map(len, events))
    return text
F["nothing"] = ""
# written out by hand
F["undo_visit"] = (
 '<FlsAssDom_2><Assistenza><Trasmissione tipo="C"></Trasmissione><Erogatore><CodiceRegione>010</CodiceRegione><CodiceASL>101</CodiceASL></Erogatore><Eventi>'
 '<PresaInCarico data="2018-05-01"><Id_Rec>AAAAAAAAAAAAAAAAAAAAAAAAAAAAAAAAAAAAAAAAAAAAAAAAAAAAAAAAAAAAAAAAAAAAAAAAAAAAAAAAAAAAAAAA</Id_Rec></PresaInCarico>'
 '<Erogazione data="2018-05-02" numAccessi="3"><TipoOperatore>2</TipoOperatore></Erogazione></Eventi></Assistenza></FlsAssDom_2>')
F["undo_every_kind"] = (
 '<FlsAssDom_2><Assistenza><Trasmissione tipo="C"></Trasmissione><Erogatore><CodiceRegione>010</CodiceRegione><CodiceASL>101</CodiceASL></Erogatore><Eventi>'
 '<PresaInCarico data="2018-05-01"><Id_Rec>AAAAAAAAAAAAAAAAAAAAAAAAAAAAAAAAAAAAAAAAAAAAAAAAAAAAAAAAAAAAAAAAAAAAAAAAAAAAAAAAAAAAAAAA</Id_Rec></PresaInCarico>'
 '<Rivalutazione data="2018-05-01" motivo="2" confermaPrecedente="1"></Rivalutazione>'
 '<Rivalutazione data="2018-06-30" motivo="1" confermaPrecedente="1"></Rivalutazione>'
 '<Erogazione data="2018-05-02" numAccessi="1"><TipoOperatore>9</TipoOperatore></Erogazione>'
 '<Erogazione data="2018-05-02"><TipoOperatore>10</TipoOperatore></Erogazione>'
 '<Erogazione data="2018-05-02" numAccessi="99"><TipoOperatore>99</TipoOperatore></Erogazione>'
 '<Erogazione data="2018-06-09" numAccessi="10"><TipoOperatore>1</TipoOperatore></Erogazione>'
 '<Sospensione dataInizio="2018-05-10" dataFine="2018-05-19"><Motivazione>9</Motivazione></Sospensione>'
 '<Sospensione dataInizio="2018-06-29"><Motivazione>1</Motivazione></Sospensione>'
 '<Conclusione dataAD="2018-06-30"><Motivazione>99</Motivazione></Conclusione>'
 '</Eventi></Assistenza></FlsAssDom_2>')
assert F["undo_visit"] == undone([xv("2018-05-02", 2, 3)]) and len(F["undo_visit"]) == 27 + 317 + 90
KIND = [xr1("2018-05-01", 2), xr1("2018-06-30"), xv("2018-05-02", 9, 1), xv("2018-05-02", 10), xv("2018-05-02", 99, 99), xv("2018-06-09", 1, 10),
  xs("2018-05-10", "2018-05-19", 9), xs("2018-06-29"), xc("2018-06-30", 99)]
assert F["undo_every_kind"] == undone(KIND) and [len(e) for e in KIND] == [83, 83, 90, 76, 92, 91, 101, 79, 76]
F["every_kind"] = f2(t2(KIND))
F["undo_visit_varied"] = undone([xv("2018-05-02", 2, 7)])
F["undo_visit_2018_06_30"] = undone([xv("2018-06-30")])
F["undo_visit_2018_07_01"] = undone([xv("2018-07-01")])
F["undo_suspension_june_to_july"] = undone([xs("2018-06-28", "2018-07-02")])
F["undo_suspension_without_end"] = undone([xs("2018-05-10")])
F["revaluation_2_cancelled"] = f2(t2([xr("2018-05-10", 1, 2, valut("250"))], tipo="C"))
F["events_of_b_undone"] = undone([xr1("2018-05-10"), xv("2018-05-02")], "B")
# 257 events of a quarter: a Rivalutazione and three visits on each of 61 days, twelve suspensions, a conclusion
THREE = [(d, code) for d in DAYS for code in (1, 2, 13)]
E257 = [xr1(d) for d in DAYS] + [xv(d, code) for d, code in THREE] + [xs(d, d) for d in DAYS[:12]] + [xc("2018-06-30")]
assert len(E257) == 257
F["events_1_to_127"], F["event_128"], F["event_129"], F["events_130_to_257"] = [f2(t2(E257[a:b])) for a, b in ((0, 127), (127, 128), (128, 129), (129, 257))]
for n in (127, 128, 129, 257): F["undo_%d_events" % n] = undone(E257[:n])
# events of A in three quarters, the last days of a year and of a February among them, and of B beside them
Q4, Q1, LEAP = ["2018-12-31"], ["2019-01-01", "2019-03-31"], ["2020-02-28", "2020-02-29", "2020-03-01"]
F["visits_a_b_2018_12_31"], F["visits_a_b_2019_1"], F["visits_a_b_2020_1"] = [f2(t2([xv(d) for d in ds]), t2([xv(d) for d in ds], "B")) for ds in (Q4, Q1, LEAP)]
F["undo_2018_12_31"], F["undo_2019_1"], F["undo_2020_1"] = [undone([xv(d) for d in ds]) for ds in (Q4, Q1, LEAP)]

# ---- evaluations (docs/RULES.md, 15): six fields and a prevalente; the first three share none of the six
OWN, FIRST, LAST = ((1, 2, 3, 0, 1, 2), "250"), ((3, 1, 0, 2, 0, 1), "4019"), ((0, 3, 1, 1, 3, 0), "E1165")
FEW = (MISSING, "V58")
ODD = ((3, 3, 3, 3, 3, 2), "\t >~]")
def c1(e, *more, **k): return t1(*more, prevalente=e[1], scales=e[0], **k)
def xe(date, e): return xr(date, 1, 2, valut(e[1], e[0]))
def varied(*events): return f2(t2(events, tipo="V"))
F["evaluated"] = f1(c1(OWN))
F["evaluated_varied"] = f1(c1(LAST, tipo="V"))
F["evaluated_cancelled"] = f1(c1(FIRST, tipo="C"))
F["revaluations_2_1_2"] = f2(t2([xe("2018-05-14", LAST), xe("2018-05-10", FIRST), xr("2018-05-12")]))
F["revaluation_on_taking_in"] = f2(t2([xe("2018-05-01", FIRST)]))
F["revaluation_05_10_first"] = f2(t2([xe("2018-05-10", FIRST)]))
F["revaluation_05_16_odd"] = f2(t2([xe("2018-05-16", ODD)]))
F["conclusion_2018_05_16"] = f2(t2([xc("2018-05-16")]))
F["revaluation_05_10_to_1"], F["revaluation_05_14_to_1"] = varied(xr("2018-05-10")), varied(xr("2018-05-14"))
F["revaluation_05_12_to_last"], F["revaluation_05_12_to_first"] = varied(xe("2018-05-12", LAST)), varied(xe("2018-05-12", FIRST))
F["revaluation_05_14_to_few"], F["revaluation_05_14_to_odd"] = varied(xe("2018-05-14", FEW)), varied(xe("2018-05-14", ODD))
F["revaluation_05_10_to_first"], F["revaluation_05_14_to_last"] = varied(xe("2018-05-10", FIRST)), varied(xe("2018-05-14", LAST))
F["revaluation_05_14_to_0000"] = varied(xe("2018-05-14", (MISSING, "0000")))
# a cancellation names the key; what else it says is judged, and kept nowhere
F["revaluation_05_14_cancelled"] = f2(t2([xe("2018-05-14", ODD)], tipo="C"))
F["revaluation_05_10_cancelled_as_1"] = f2(t2([xr("2018-05-10", 2)], tipo="C"))
F["revaluations_05_16_and_21"] = f2(t2([xe("2018-05-16", LAST), xr("2018-05-17", 1, 2)]))
F["revaluations_05_16_and_000"] = f2(t2([xe("2018-05-16", LAST), xe("2018-05-17", (LAST[0], "000"))]))
F["revaluation_05_10_to_1_with"] = varied(xr("2018-05-10", 1, 1, valut(LAST[1], LAST[0])))
F["revaluation_05_10_to_2_without"] = varied(xr("2018-05-10", 1, 2))
F["revaluation_05_10_to_000"] = varied(xe("2018-05-10", (LAST[0], "000")))
F["revaluation_05_16_varied"] = varied(xe("2018-05-16", LAST))
F["revaluation_05_10_twice"] = varied(xe("2018-05-10", LAST), xe("2018-05-10", ODD))
F["visit_and_revaluation_05_16"] = f2(t2([xe("2018-05-16", LAST), xv("2018-05-16")]))
# three Id_Recs beside each other, and the first once more with a later taking in
F["four_evaluated"] = f1(c1(OWN), c1(FEW, taken="2018-06-01"), c1(ODD, AFTER_A), c1(LAST, BEHIND))
F["four_revaluated"] = f2(t2([xv("2018-05-02"), xs("2018-05-03", "2018-05-05"), xc("2018-06-30")]), t2([xe("2018-06-10", LAST)], taken="2018-06-01"),
  t2([xe("2018-05-10", FIRST), xv("2018-05-02")], AFTER_A))
# an evaluation of its own on each of 61 days, every third day one that confirms; the record has them from the last to the first
def of_day(i): return ((i % 4, i // 4 % 4, i // 16 % 4, (i + 1) % 4, (i + 2) % 4, i % 3), "%d" % (100 * 10 ** (i % 3) + i))
def confirms(i): return i % 3 == 1
MANY_RE = [xr(d) if confirms(i) else xe(d, of_day(i)) for i, d in enumerate(DAYS)]
F["revaluations_61"] = f2(t2(MANY_RE[::-1] + [xv(d) for d in DAYS[::-1]] + [xs(d, d) for d in DAYS[:6]]))

A, B = case("A"), case("B")
AV = case("A", 1941, "4019")
V2, V7 = visit("2018-05-02", 2, 3), visit("2018-05-02", 7)
# three cases whose Id_Recs differ in the last character, the middle one with 300 events; no row is free
MANY = [(datetime.date(2018, 5, 1) + datetime.timedelta(i)).isoformat() for i in range(250)]
MANY_OF = {
 "A": [visit(d) for d in MANY[:19]] + [concl("2018-12-31")],
 AFTER_A: [reval(d, id=AFTER_A) for d in MANY[:40]] + [visit(d, id=AFTER_A) for d in MANY] + [susp(d, d, id=AFTER_A) for d in MANY[:10]],
 BEHIND: [reval(d, id=BEHIND) for d in MANY[:20]],
}
EVALUATED = case("A", prevalente=OWN[1], scales=OWN[0])
def re2(date, e, **k): return reval(date, 1, 2, scales=e[0], prevalente=e[1], **k)
# without their evaluations, as a register in rows of 91 bytes has them: conferma 2, 1 and 2, and a visit
CONVERTED = [reval("2018-05-10", 1, 2), reval("2018-05-12"), reval("2018-05-14", 1, 2), V2]
# 24 cases, the first with four events, the others with none, one or two
LETTERS = "ABCDEFGHIJKLMNOPQRSTUVWX"
LETTER_CASES = [case(id, prevalente="%d" % (300 + i), scales=of_day(i)[0]) for i, id in enumerate(LETTERS)]
LETTER_EVENTS = [reval("2018-05-10"), V2, susp("2018-05-03", "2018-05-05", 9), concl("2018-06-30", 97)]
LETTER_EVENTS += [e for i, id in enumerate(LETTERS) for e in (reval("2018-05-10", 2, 2, id=id), visit("2018-05-02", 13, 99, id=id))[:i % 3]]
# as many rows as any register has: 64 cases with 63 events each
FULL_IDS = [chr(c) for c in range(48, 123) if chr(c) not in "<>"][:64]
FULL_CASES = [case(id, prevalente="%d" % (300 + i), scales=of_day(i)[0]) for i, id in enumerate(FULL_IDS)]
FULL_EVENTS = [e for id in FULL_IDS for e in [reval(d, conferma=1 + i % 2, id=id) for i, d in enumerate(DAYS[:30])] + [visit(d, id=id) for d in DAYS[:32]]
  + [susp("2018-05-03", "2018-05-05", 9, id=id)]]
assert len(FULL_CASES + FULL_EVENTS) == 4096
def with_bit(b, i): return (int.from_bytes(b, "big") ^ 1 << 8 * len(b) - 1 - i).to_bytes(len(b), "big")
REGS = {
 "a_case_with_300_events": rows(343, [case(id) for id in MANY_OF], sum(MANY_OF.values(), [])).bytes(),
 "case_a": rows(2, [A]).bytes(),
 "case_a_and_a_bit_behind": rows(2, [A]).bytes()[:-1] + b"\x01",
 # in rows of 91 bytes
 "rows_91_case_a": rows_91(1, [A]).bytes(),
 "rows_91_case_a_100": rows_91(1, [A], more=5).bytes(),
 "rows_91_visit": rows_91(2, [A], [V2], 10).bytes(),
 "rows_91_revaluations": rows_91(5, [EVALUATED], CONVERTED).bytes(),
 "rows_91_letters": rows_91(60, LETTER_CASES, LETTER_EVENTS).bytes(),
 "rows_91_full": rows_91(4096, FULL_CASES, FULL_EVENTS).bytes(),
 # not sound there: a bit behind the last row, the first and the last behind conferma, the last byte of the last row missing
 "rows_91_bit_behind": rows_91(2, [A], [V2], 10).bytes()[:-1] + b"\x01",
 "rows_91_bit_714": with_bit(rows_91(2, [A], [reval("2018-05-10", 1, 2)]).bytes(), 8 * 95 + 714),
 "rows_91_bit_727": with_bit(rows_91(2, [A], [reval("2018-05-10", 1, 2)]).bytes(), 8 * 95 + 727),
 "rows_91_no_room": rows_91(2, [A], [V2]).bytes()[:-1],
 # in rows of 96
 "rows_96_visit": rows(2, [A], [V2]).bytes(),
 "rows_96_evaluation": rows(3, [EVALUATED], [re2("2018-05-10", FIRST)]).bytes(),
 # in the layout before E2, of rows of 91 bytes; there is room for two of 96
 "old_visit": rows_91(2, [A], [before_e2(V2)], 10).bytes(),
 "old_suspension": rows_91(2, [A], [before_e2(susp("2018-05-03", "2018-05-05", 9))], 10).bytes(),
}

S = []
def script(name, *steps): S.append((name, steps))
def sub(track, f, exp, year=2018, quarter=2): return ("submit %d %d %d files/%s.xml" % (track, year, quarter, f), exp)
# a file at fault in a record, or outside them all; and a report of so many numbers, of which the call tells the first five
def fault(track, f, r, number=0): return sub(track, f, refused(6, r, number, PLACE[f]))
def report(n, track, f, answer, told, r, year=2018, quarter=2):
    assert len(told) == 5
    numbers = (told[:n] + [77] * 8)[:8]
    return ("report %d %d %d %d files/%s.xml" % (n, track, year, quarter, f), ans(answer) + ["report " + " ".join(map(str, numbers))] + standing(r))
def note(t): return ("# " + t, [])
def ans(n): return ["answer %d" % n]
def at(n, p): return ["answer %d place %d" % (n, p)]
def cancel(room, exp, year=2018, quarter=2, texts="010 101 2018-05-01 A"): return ("cancel %d %s %d %d" % (room, texts, year, quarter), exp)
def long(n, length): return ["answer %d length %d" % (n, length)]
def text(f): return ("text files/%s.xml" % f, ["same"])
def undo(exp, year=2018, quarter=2): return ("undo %d %d" % (year, quarter), exp)
# a file that is written, into an output of its length and so many bytes more; none is written, and no byte of the output changes
def writes(f, more=0, **k): return [cancel(len(F[f]) + more, long(0, len(F[f])), **k), text(f)]
def writes_none(n, room=1000, **k): return [cancel(room, long(n, 0), **k), text("nothing")]
# ---- the evaluation in force (N1 to N7): its eleven bytes, said by hand and found again in the rows
CASE_A = "010 101 2018-05-01 A"
def eleven(e): return list(e[0]) + [ord(c) for c in e[1]] + [0] * (5 - len(e[1]))
def told(n, fields): return ["evaluation %d " % n + " ".join(map(str, fields))]
def packed(row, at, widths):
    s, out = format(int.from_bytes(row, "big"), "0%db" % (ROW * 8)), []
    for w in widths: out.append(int(s[at:at + w], 2)); at += w
    return out
def of_key(row, k): return int.from_bytes(row, "big") >> ROW * 8 - 662 == int("".join(format(v, "0%db" % w) for v, w in k), 2)
def latest(r, k, when):
    """N4: of the rows of kind 0 with conferma 2 and an evaluation that of the greatest date up to the day, else the case's own; none before the taking in"""
    if day(when) < k[4][0]: return None
    found = []
    for row in r.events:
        kind, date, _, _, conferma, *fields = packed(row, 662, [2, 17, 24, 7, 2] + [2] * 6 + [7] * 5)
        if of_key(row, k) and kind == 0 and conferma == 2 and any(fields) and date <= day(when): found.append((date, fields))
    if found: return max(found)[1]
    own = [packed(row, 674, [7] * 5 + [2] * 6) for row in r.cases if of_key(row, k)]
    return own[0][5:] + own[0][:5]
def force(r, when, e, id="A", taken="2018-05-01"):
    assert latest(r, key(id, taken=taken), when) == eleven(e), (when, e)
    return ("evaluation 010 101 %s %s %s" % (taken, id, when), told(0, eleven(e)))
def forces(r, e, first, last, **k): return [force(r, d, e, **k) for d in between(first, last)]
def between(first, last): return [(datetime.date(1900, 1, 1) + datetime.timedelta(i)).isoformat() for i in range(day(first), day(last) + 1)]
def no_force(n, when="2018-05-10", texts=CASE_A): return ("evaluation %s %s" % (texts, when), told(n, [0] * 11))
# a register converted (T1 to T6): into one of so many bytes, or into none, whose bytes stay. What a register holds is seen by its sum, which a record that is
# discarded leaves as it was (no event: 20)
def converts(n): return ("convert %d" % n, ["convert 0"])
def converts_none(n, length): return ("convert %d" % length, ["convert %d same" % n])
def holds(r): return sub(2, "no_event", taken([20], r))
def holds_91(r): return sub(2, "no_event", refused(3, r))
exec(open(os.path.join(HERE, "scripts.py")).read())

if __name__ == "__main__":
    shutil.rmtree(D, ignore_errors=True)
    os.makedirs(D + "/files"); os.makedirs(D + "/registers"); os.makedirs(D + "/answers"); os.makedirs(D + "/histories")
    used = set()
    for k, v in F.items(): open(f"{D}/files/{k}.xml", "w").write(v)
    for k, v in REGS.items(): open(f"{D}/registers/{k}", "wb").write(v)
    out = []
    for name, steps in S:
        open(f"{D}/{name}", "w").write("".join(c + "\n" for c, e in steps))
        out.append(name + ":")
        for c, e in steps:
            out.append("> " + c)
            out += e
            used.update(w for w in c.split() if "/" in w)
    open(ROOT + "/stdout", "w").write("".join(l + "\n" for l in out))
    open(ROOT + "/args", "w").write("".join(n + "\n" for n, _ in S))
    for k in F:
        if f"files/{k}.xml" not in used: print("unused", k)
    for k in REGS:
        if f"registers/{k}" not in used: print("unused", k)
