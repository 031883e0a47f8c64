#!/usr/bin/env python3
"""Makes crates/register_cases/data (but for put_case and put_event), args and stdout: the register images, and what the program must print of each.

    tools/images.py

Rows are packed here, by arithmetic of this file's own, from the table of docs/RULES.md (R10 to R34); whether an image is sound and where the case stands is
said by hand, from V1 to V9 and C9 to C13. Nothing is taken from what the program prints. docs/IMAGES.md says what the images are for.
"""
import datetime
import os
import random

ROOT = os.path.join(os.path.dirname(os.path.abspath(__file__)), "..", "crates", "register_cases")
NEVER = 2 ** 17 - 1
ROW, OLD_ROW = 96, 91                   # OLD_ROW: before R32 and R33, with zero bits behind R21 and R28 to the row's end
def day(t): return (datetime.date.fromisoformat(t) - datetime.date(1900, 1, 1)).days
def bits(*fields):                      # (value, width) each, most significant first
    s = "".join(format(v, "0%db" % w) for v, w in fields)
    assert len(s) == ROW * 8
    return int(s, 2).to_bytes(ROW, "big")
def chars(t, n): return [(ord(c), 7) for c in t] + [(0, 7)] * (n - len(t))
def two(scales): return [(x, 2) for x in scales]
def key(region=10, asl="101", taken=day("2018-05-01"), id="A" * 88): return [(region, 8)] + chars(asl, 3) + [(taken, 17)] + chars(id, 88)
SCALES = (1, 2, 3, 0, 1, 2)             # Autonomia, GradoMobilita, Cognitivi, Comportamenti, SupportoSociale, RischioInfettivo
NONE = (0,) * 6
def case(k=key(), birth=1940, prevalente="250", scales=SCALES, pad=0): return bits(*k, (birth, 12), *chars(prevalente, 5), *two(scales), (pad, 47))
def event(kind, date, code=1, end=NEVER, accesses=0, conferma=0, scales=None, prevalente=None, pad=0, k=key()):
    evaluation = two(scales or NONE) + chars(prevalente or "", 5)
    return bits(*k, (kind, 2), (date, 17), (code, 7), (end, 17), (accesses, 7), (conferma, 2), *evaluation, (pad, 7))
def register(cases, events, tail=bytes(ROW)): return len(cases).to_bytes(2, "big") + len(events).to_bytes(2, "big") + b"".join(cases + events) + tail

# ---- rows of 91 bytes
def narrow(row):
    assert not any(row[OLD_ROW:])
    return row[:OLD_ROW]
def rows_91(cases, events, tail=bytes(OLD_ROW)): return register(list(map(narrow, cases)), list(map(narrow, events)), tail)
def before_e2(row):
    """an event's row of 91 bytes as it was before E2: the end date in front of the code"""
    s = format(int.from_bytes(row, "big"), "0%db" % (8 * ROW))
    return int(s[:681] + s[688:705] + s[681:688] + s[705:], 2).to_bytes(ROW, "big")

A = case()
def visit(date="2018-05-02", code=2, accesses=3, **k): return event(1, day(date), code, accesses=accesses, **k)
def reval(code=1, conferma=1, date="2018-05-10", **k): return event(0, day(date), code, conferma=conferma, **k)
def susp(date, end=None, code=1, **k): return event(2, day(date), code, NEVER if end is None else day(end), **k)
def concl(date="2018-06-30", code=97, **k): return event(3, day(date), code, **k)
V, S35, S69, C = visit(), susp("2018-05-03", "2018-05-05"), susp("2018-05-06", "2018-05-09", 9), concl()
EARLIER = key(asl="0zZ", taken=day("2018-01-01"))
BEFORE, NEXT = case(key(asl="0zZ", id="!" * 88)), key(id="A" * 87 + "B")
EVALUATION = {"scales": SCALES, "prevalente": "250"}
# bytes 82 to 95 of a Rivalutazione that keeps its evaluation, and of one that a conversion left without, worked out by hand from R23 to R33
assert reval(conferma=2, **EVALUATION)[82:].hex() == "04546e01ffff809b199356000000" and reval(conferma=2)[82:].hex() == "04546e01ffff8080000000000000"
assert A[:6].hex() == "0a62c18aa34e"

IMAGES = []
def image(name, b, answer, found, place=0): IMAGES.append((name, b, "%s: sound %d find %d %d" % (name, answer, found, place)))
def sound(name, b, place=4): image(name, b, 0, 0, place)
def elsewhere(name, b): image(name, b, 0, 30)             # sound, and the case doesn't stand
def unsound(name, b): image(name, b, 3, 3)
def one(*events): return register([A], list(events))      # the case and these events

elsewhere("empty_4", bytes(4))
unsound("short_3", bytes(3))
elsewhere("zeros_99", bytes(99))
elsewhere("zeros_100", bytes(100))
sound("one_case", one())
sound("two_cases", register([BEFORE, A], []), 4 + ROW)
sound("case_and_event", one(V))
sound("case_and_all_kinds", one(reval(), V, S35, S69, C))
unsound("count_too_many", b"\0\2\0\0" + A)
unsound("no_room", register([A], [V], b"")[:-1])
unsound("region_11", register([case(key(region=11))], []))
unsound("asl_blank", register([case(key(asl="1 1"))], []))
unsound("day_73049", register([case(key(taken=73049))], []))
unsound("id_ampersand", register([case(key(id="A" * 87 + "&"))], []))
unsound("birth_1879", register([case(birth=1879)], []))
unsound("birth_after", register([case(birth=2019)], []))
unsound("prevalente_000", register([case(prevalente="000")], []))
unsound("prevalente_2", register([case(prevalente="25")], []))
unsound("infettivo_3", register([case(scales=(1, 2, 3, 0, 1, 3))], []))
unsound("pad_case", register([case(pad=1)], []))
unsound("pad_event", one(visit(pad=1)))
unsound("keys_swapped", register([A, BEFORE], []))
unsound("key_twice", register([A, A], []))
unsound("event_without_case", one(visit(k=NEXT)))
unsound("event_day", one(event(1, 73049, 2, accesses=3)))
unsound("end_for_visit", one(event(1, day("2018-05-02"), 2, day("2018-05-02"), 3)))
unsound("code_of_other_kind", one(susp("2018-05-03", "2018-05-05", 4)))
unsound("accesses_for_suspension", one(susp("2018-05-03", "2018-05-05", accesses=1)))
unsound("conferma_for_visit", one(visit(conferma=1)))
unsound("conferma_0", one(reval(conferma=0)))
unsound("before_taking_in", one(visit("2018-04-30")))
unsound("ends_before_begin", one(susp("2018-05-05", "2018-05-04")))
unsound("suspensions_share", one(S35, susp("2018-05-05", "2018-05-09", 9)))
unsound("open_suspension_then_another", one(susp("2018-05-03"), S69))
unsound("two_conclusions", one(concl("2018-06-29"), C))
unsound("after_conclusion", one(visit("2018-07-01"), C))
unsound("end_after_conclusion", one(susp("2018-06-28", "2018-07-01"), C))
unsound("tail_bit", register([A], [], bytes(ROW - 1) + b"\1"))
sound("birth_1880", register([case(birth=1880)], []))
sound("birth_same_year", register([case(birth=2018)], []))
sound("prevalente_0000", register([case(prevalente="0000")], []))
elsewhere("day_73048", register([case(key(taken=73048))], []))
sound("visit_on_conclusion", one(visit("2018-06-30", accesses=99), C))
sound("open_suspension_last", one(S35, susp("2018-05-06", code=9), C))
sound("exact_room", register([A], [V], b""))
sound("two_cases_events", register([case(EARLIER), A],
  [susp("2018-01-02", "2018-01-05", 3, k=EARLIER), concl("2018-01-31", 12, k=EARLIER), S35, S69]), 4 + ROW)
sound("days_shared_by_two_cases", register([A, case(NEXT)], [S35, susp("2018-05-05", "2018-05-09", 9, k=NEXT)]))
sound("cases_300", register([case(key(asl="%03d" % i)) for i in range(300)], [V]), 4 + ROW * 101)
unsound("count_too_few", bytes(4) + A + bytes(ROW))
unsound("events_swapped", one(S35, V))
unsound("event_twice", one(V, V))
unsound("event_alone", register([], [V]))
sound("accesses_missing", one(visit(code=99, accesses=0)))
unsound("accesses_100", one(visit(accesses=100)))
sound("conferma_2", one(reval(2, 2)))
unsound("conferma_3", one(reval(2, 3)))
unsound("motivo_3", one(reval(3)))
unsound("operator_14", one(visit(code=14)))
sound("end_73048", one(event(2, day("2018-05-03"), 1, 73048)))
unsound("end_73049", one(event(2, day("2018-05-03"), 1, 73049)))
sound("suspension_of_a_day", one(susp("2018-05-03", "2018-05-03")))
sound("on_taking_in", one(visit("2018-05-01")))
sound("prevalente_5", register([case(prevalente="\t >~]")], []))
unsound("prevalente_less", register([case(prevalente="25<")], []))
unsound("prevalente_hole", register([case(prevalente="250\0001")], []))
unsound("asl_all_ones", register([case(key(asl="\x7f\x7f\x7f"))], []))
sound("scales_3", register([case(scales=(3, 3, 3, 3, 3, 2))], []))
RANDOM = random.Random(2018)
def any_bytes(n): return bytes(RANDOM.randrange(256) for _ in range(n))
unsound("random", any_bytes(4 + 3 * ROW))
unsound("random_row", register([any_bytes(ROW)], []))
sound("operators_1_2", one(visit(code=1, accesses=0), V))
unsound("operators_2_1", one(V, visit(code=1, accesses=0)))
unsound("operators_2_2", one(V, visit(accesses=0)))
sound("operators_7_then_2", one(visit(code=7, accesses=0), visit("2018-05-03", accesses=0)))
unsound("motivo_1_2", one(reval(1), reval(2)))
for name, e in (("revaluation", reval()), ("visit", V), ("suspension", susp("2018-05-03", "2018-05-05", 9)), ("conclusion", C)):
    unsound("old_" + name, rows_91([A], [before_e2(e)]))

# ---- an evaluation kept (E6); conferma_2 above is a Rivalutazione without one, as a conversion leaves it
def kept(conferma=2, scales=SCALES, prevalente="250", pad=0): return one(reval(1, conferma, scales=scales, prevalente=prevalente, pad=pad))
sound("evaluation", kept())
unsound("evaluation_conferma_1", kept(1))
unsound("evaluation_conferma_3", kept(3))
unsound("evaluation_for_visit", one(visit(**EVALUATION)))
unsound("evaluation_for_suspension", one(susp("2018-05-03", "2018-05-05", **EVALUATION)))
unsound("evaluation_for_conclusion", one(concl(**EVALUATION)))
unsound("evaluation_scales_alone", kept(prevalente=""))
sound("evaluation_prevalente_alone", kept(scales=NONE))
unsound("evaluation_000", kept(prevalente="000"))
sound("evaluation_0000", kept(prevalente="0000"))
unsound("evaluation_prevalente_2", kept(prevalente="25"))
sound("evaluation_prevalente_5", kept(prevalente="\t >~]"))
unsound("evaluation_prevalente_less", kept(prevalente="25<"))
unsound("evaluation_prevalente_hole", kept(prevalente="250\0001"))
unsound("evaluation_prevalente_late", kept(prevalente="\000250"))
unsound("evaluation_infettivo_3", kept(scales=(1, 2, 3, 0, 1, 3)))
sound("evaluation_scales_3", kept(scales=(3, 3, 3, 3, 3, 2)))
def swapped():                          # the prevalente in front of the six fields, as a case has them
    s = format(int.from_bytes(reval(1, 2, **EVALUATION), "big"), "0%db" % (8 * ROW))
    return int(s[:714] + s[726:761] + s[714:726] + s[761:], 2).to_bytes(ROW, "big")
unsound("evaluation_swapped", one(swapped()))
sound("evaluations_2_1_2", one(reval(conferma=2, **EVALUATION), reval(date="2018-05-12"), reval(conferma=2, date="2018-05-14", scales=NONE, prevalente="4019")))
sound("evaluation_then_none", one(reval(conferma=2, **EVALUATION), reval(conferma=2, date="2018-05-14")))
# one bit: the first and the last behind a case's fields, behind conferma, and behind an evaluation
unsound("case_bit_721", register([case(pad=2 ** 46)], []))
unsound("case_bit_727", register([case(pad=2 ** 40)], []))
unsound("case_bit_728", register([case(pad=2 ** 39)], []))
def bit(row, i): return (int.from_bytes(row, "big") ^ 1 << 8 * ROW - 1 - i).to_bytes(ROW, "big")
for i in (714, 725, 726, 760, 761): unsound("visit_bit_%d" % i, one(bit(V, i)))
for i in (714, 760, 761, 767): unsound("conferma_1_bit_%d" % i, one(bit(reval(), i)))
for i in (714, 726, 761, 767): unsound("conferma_2_bit_%d" % i, one(bit(reval(conferma=2), i)))
for i in (761, 767): unsound("evaluation_bit_%d" % i, one(bit(reval(conferma=2, **EVALUATION), i)))

# ---- registers in rows of 91 bytes, lent to the calls
unsound("rows_91", rows_91([A], [reval(), V, S35, S69, C]))
unsound("rows_91_conferma_2", rows_91([A], [reval(2, 2)]))
unsound("rows_91_two_cases", rows_91([BEFORE, A], []))
unsound("rows_91_one_case_99", rows_91([A], [], bytes(4)))
sound("rows_91_one_case_100", rows_91([A], [], bytes(5)))
sound("rows_91_one_case_186", rows_91([A], []))

# what the program prints of a register of its own, behind the images
STORY = """fresh, sound 3
empty 0
sound 0
find 30 0
put_case 1
sound 0
find 0 4
put_event 1
sound 0
cases 1
events 1
drop_event 1
drop_case 1
sound 0
zero 1
three bytes, empty 3
"""

def write():
    put = {"put_case", "put_event"}
    names = [name for name, _, _ in IMAGES]
    assert len(set(names)) == len(names)
    for old in set(os.listdir(ROOT + "/data")) - put: os.remove(ROOT + "/data/" + old)
    for name, b, _ in IMAGES:
        with open(ROOT + "/data/" + name, "wb") as f: f.write(b)
    with open(ROOT + "/args", "w") as f: f.write("".join(name + "\n" for name in names))
    with open(ROOT + "/stdout", "w") as f: f.write("".join(line + "\n" for _, _, line in IMAGES) + STORY)

if __name__ == "__main__": write()
