# The scripts of crates/histories: each command, and what it must print. Read by make.py.
CASE = sub(1, "case_a", taken([0], rows(4, [A])))
def with_case(name, *steps): script(name, *steps[:1], ("rows 4", []), CASE, *steps[1:])

# ---- an example of each answer: files
script("answers/00_taken", note("the file is taken, its one record accepted"), ("rows 1", []), sub(1, "case_a", taken([0], rows(1, [A]))))
script("answers/01_year_or_quarter", note("year 2008, quarter 0, quarter 5; 2009 is a year, though outside the record's quarter"), ("rows 1", []),
  sub(1, "case_a", refused(1, rows(1)), 2008), sub(1, "case_a", refused(1, rows(1)), 2100), sub(1, "case_a", refused(1, rows(1)), quarter=0), sub(1, "case_a", refused(1, rows(1)), quarter=5),
  sub(1, "case_a", taken([10], rows(1)), 2009), sub(1, "case_a", taken([10], rows(1)), 2099))
script("answers/02_track", note("neither 1 nor 2; the period comes first"), ("rows 1", []),
  sub(0, "case_a", refused(2, rows(1))), sub(3, "case_a", refused(2, rows(1))), sub(3, "case_a", refused(1, rows(1)), 2008))
script("answers/03_not_sound", note("a register under 4 bytes is never sound, and is not emptied"), ("bytes 3", []),
  sub(1, "case_a", refused(3, bytes(3))), ("sound", ans(3)), ("find 010 101 2018-05-01 A", at(3, 0)), no_force(3), converts_none(3, 100),
  ("empty", ans(3) + standing(bytes(3))),
  note("one bit behind the last row is enough"), ("load registers/case_a_and_a_bit_behind", []),
  sub(1, "case_a", refused(3, REGS["case_a_and_a_bit_behind"])), ("sound", ans(3)), ("find 010 101 2018-05-01 A", at(3, 0)), no_force(3), converts_none(3, 196),
  ("empty", ans(0) + standing(rows(2))), ("sound", ans(0)), converts(196), ("sound", ans(0)))
script("answers/04_too_long", note("one byte too long; the longest is taken"), ("rows 1", []),
  ("padded 1048577 1 2018 2 files/case_a.xml", refused(4, rows(1))), ("padded 1048576 1 2018 2 files/case_a.xml", taken([0], rows(1, [A]))))
script("answers/05_not_in_the_markup", note("the root's end tag is missing"), ("rows 1", []), sub(2, "not_closed", refused(5, rows(1))))
script("answers/06_not_of_the_shape",
  note("no record; a text between the records, though one is bad; the other track's root: the place is the root's"), ("rows 1", []),
  fault(2, "no_record", rows(1)), fault(2, "text_between_records", rows(1)), sub(2, "case_a", refused(6, rows(1))),
  fault(2, "other_root_after_a_comment", rows(1)),
  note("a second record with a date that is no day: the place is that of its PresaInCarico"), fault(2, "second_taken_in_2018_02_30", rows(1), 2))
script("answers/07_more_than_128_events", note("129 events in the first record"), ("rows 1", []), sub(2, "events_129", refused(7, rows(1), 1)))
script("answers/08_answer_list_too_short", note("no byte for the one record; one byte is enough"), ("rows 1", []), ("list 0", []), sub(1, "case_a", refused(8, rows(1))),
  ("list 1", []), sub(1, "case_a", taken([0], rows(1, [A]))))

# ---- records, Track 1
script("answers/10_outside_the_quarter", note("Track 1: the taking in of 2018-05-01, declared for the third quarter"), ("rows 4", []),
  sub(1, "case_a", taken([10], rows(4)), quarter=3), CASE,
  note("Track 2: the first day after the quarter; its last day is in it; a suspension by its end"),
  sub(2, "visit_2018_07_01", taken([10], rows(4, [A]))), sub(2, "visit_2018_06_30", taken([0], rows(4, [A], [visit("2018-06-30")]))),
  sub(2, "suspension_june_to_july", taken([10], rows(4, [A], [visit("2018-06-30")]))))
script("answers/11_birth_year", note("born in 1879; born after the year of taking in"), ("rows 1", []),
  sub(1, "born_1879", taken([11], rows(1))), sub(1, "born_2019", taken([11], rows(1))))
script("answers/12_residence_abroad", note("the state is Italy; a state with region 010; 999 throughout without a state; with one it is accepted"), ("rows 1", []),
  sub(1, "abroad_it", taken([12], rows(1))), sub(1, "abroad_fr_in_010", taken([12], rows(1))), sub(1, "abroad_without_state", taken([12], rows(1))), sub(1, "abroad_fr", taken([0], rows(1, [A]))))
script("answers/13_prevalente_000", note("000 is no prevalente, 0000 is one"), ("rows 4", []),
  sub(1, "prevalente_000", taken([13], rows(4))), sub(1, "prevalente_0000", taken([0], rows(4, [case("A", 1940, "0000")]))),
  note("Track 2: in the evaluation of a Rivalutazione"), sub(2, "revaluation_000", taken([13], rows(4, [case("A", 1940, "0000")]))))
with_case("answers/14_stands_already", note("inserted twice: a case, an event"),
  sub(1, "case_a", taken([14], rows(4, [A]))), sub(2, "visit", taken([0], rows(4, [A], [V2]))), sub(2, "visit", taken([14], rows(4, [A], [V2]))),
  note("of two visits one is enough; another operator's visit of that day doesn't stand yet"),
  sub(2, "visits_on_one_day", taken([14], rows(4, [A], [V2]))), sub(2, "visit_by_7", taken([0], rows(4, [A], [V2, V7]))))
script("answers/15_does_not_stand", note("varied or cancelled, and never inserted: a case, an event"), ("rows 4", []),
  sub(1, "case_a_varied", taken([15], rows(4))), sub(1, "case_a_cancelled", taken([15], rows(4))), CASE,
  sub(2, "visit_varied", taken([15], rows(4, [A]))), sub(2, "visit_cancelled", taken([15], rows(4, [A]))),
  note("by an operator who didn't come that day"), sub(2, "visit", taken([0], rows(4, [A], [V2]))),
  sub(2, "visit_by_5_varied", taken([15], rows(4, [A], [V2]))), sub(2, "visit_by_5_cancelled", taken([15], rows(4, [A], [V2]))))
script("answers/17_no_room", note("room for one row: a second case, an event"), ("rows 1", []),
  sub(1, "case_a", taken([0], rows(1, [A]))), sub(1, "case_b", taken([17], rows(1, [A]))), sub(2, "visit", taken([17], rows(1, [A]))))

# ---- records, Track 2
R12 = reval("2018-05-10", 1, 2, prevalente="250")
script("answers/20_no_event", note("tested first: the case does not stand either"), ("rows 4", []), sub(2, "no_event", taken([20], rows(4))))
with_case("answers/21_conferma", note("confermaPrecedente 1 with a Valutazione; 2 without; 2 with one is accepted"),
  sub(2, "revaluation_1_with", taken([21], rows(4, [A]))), sub(2, "revaluation_2_without", taken([21], rows(4, [A]))),
  sub(2, "revaluation_2_with", taken([0], rows(4, [A], [R12]))))
with_case("answers/22_key_twice", note("in one record: two visits of a day by one operator; two Rivalutazioni of a day, two Sospensioni from one, whatever the code"),
  sub(2, "visit_twice", taken([22], rows(4, [A]))), sub(2, "revaluations_on_one_day", taken([22], rows(4, [A]))), sub(2, "suspensions_from_05_03", taken([22], rows(4, [A]))),
  note("two operators on one day are two visits"), sub(2, "visits_on_one_day", taken([0], rows(4, [A], [V2, V7]))))
with_case("answers/23_ends_before_it_begins", note("a suspension from 2018-05-05 to 2018-05-03"), sub(2, "suspension_backwards", taken([23], rows(4, [A]))))
script("answers/24_case_not_standing", note("an event, and no case"), ("rows 4", []), sub(2, "visit", taken([24], rows(4))))
with_case("answers/25_before_the_taking_in", note("a visit on the day before"), sub(2, "visit_2018_04_30", taken([25], rows(4, [A]))))
with_case("answers/26_suspensions_share_a_day", note("to 2018-05-05 and from 2018-05-05; from 2018-05-06 they share none"),
  sub(2, "suspensions_share_05_05", taken([26], rows(4, [A]))),
  sub(2, "suspensions_apart", taken([0], rows(4, [A], [susp("2018-05-03", "2018-05-05"), susp("2018-05-06", "2018-05-09")]))),
  note("one without end runs on for ever"),
  sub(2, "suspension_without_end", taken([0], rows(4, [A], [susp("2018-05-03", "2018-05-05"), susp("2018-05-06", "2018-05-09"), susp("2018-05-10")]))),
  sub(2, "suspension_in_june", taken([26], rows(4, [A], [susp("2018-05-03", "2018-05-05"), susp("2018-05-06", "2018-05-09"), susp("2018-05-10")]))))
with_case("answers/27_two_conclusions", note("one stands, another is inserted"),
  sub(2, "conclusion_2018_06_01", taken([0], rows(4, [A], [concl("2018-06-01")]))), sub(2, "conclusion_2018_06_02", taken([27], rows(4, [A], [concl("2018-06-01")]))))
with_case("answers/28_after_the_conclusion", note("a visit on the day after the conclusion"),
  sub(2, "conclusion_2018_06_01", taken([0], rows(4, [A], [concl("2018-06-01")]))), sub(2, "visit_2018_06_02", taken([28], rows(4, [A], [concl("2018-06-01")]))))
script("answers/30_not_found", note("found; another Id_Rec; texts that no case has: a region, an ASL, a date, an Id_Rec of two characters"), ("load registers/case_a", []),
  ("find 010 101 2018-05-01 A", at(0, 4)), ("find 010 101 2018-05-01 B", at(30, 0)), ("find 011 101 2018-05-01 A", at(30, 0)), ("find 010 10 2018-05-01 A", at(30, 0)),
  ("find 010 101 2018-02-30 A", at(30, 0)), ("find 010 101 2018-05-01 AA", at(30, 0)),
  note("the evaluation in force: on the day of taking in; on the day before; on a day that is none; of another Id_Rec"),
  force(rows(2, [A]), "2018-05-01", (MISSING, "250")), no_force(30, "2018-04-30"), no_force(30, "2018-05-32"), no_force(30, texts="010 101 2018-05-01 B"))

with_case("answers/31_replaces_the_evaluation", note("a Rivalutazione with confermaPrecedente 2 in the quarter: of its Valutazione a part is kept, so no cancellation is written"),
  sub(2, "visit", taken([0], rows(4, [A], [V2]))), sub(2, "revaluation_2_with", taken([0], rows(4, [A], [R12, V2]))), *writes_none(31), *writes_none(31, 0),
  note("the third quarter has none, and its file is written"), sub(2, "visit_2018_07_01", taken([0], rows(4, [A], [R12, V2, visit("2018-07-01")])), quarter=3),
  *writes("undo_visit_2018_07_01", quarter=3), undo(taken([0], rows(4, [A], [R12, V2])), quarter=3),
  note("the Rivalutazione is cancelled with its Valutazione: what is left of the second quarter is written"),
  sub(2, "revaluation_2_cancelled", taken([0], rows(4, [A], [V2]))), *writes("undo_visit"), undo(taken([0], rows(4, [A]))))
with_case("answers/32_nothing_in_the_quarter", note("a case without events; then one event, of the second quarter's last day: none in the first, none in the third, nor in another year's"),
  *writes_none(32), *writes_none(32, 0), sub(2, "visit_2018_06_30", taken([0], rows(4, [A], [visit("2018-06-30")]))),
  *writes_none(32, quarter=1), *writes_none(32, quarter=3), *writes_none(32, year=2017), *writes_none(32, year=2019), *writes("undo_visit_2018_06_30"))
UNDO = len(F["undo_visit"])
with_case("answers/33_output_too_short", note("one byte too short, and none: nothing is written; the file's length is enough, and what is behind it stays"),
  sub(2, "visit", taken([0], rows(4, [A], [V2]))), *writes_none(33, UNDO - 1), *writes_none(33, 0), *writes("undo_visit"), *writes("undo_visit", 1),
  note("a file as long, with one byte that isn't the same"), ("text files/undo_visit_varied.xml", ["differs"]),
  note("an output of 423,766 bytes is long enough for every file"), *writes("undo_visit", 423766 - UNDO),
  note("a register of two rows of 91 bytes to be converted: a new one of 3 bytes, one that has room for a row, one that is a byte too short, one that isn't"),
  ("load registers/rows_91_visit", []), converts_none(33, 3), converts_none(33, 100), converts_none(33, 195), converts(196), holds(rows(2, [A], [V2])))

# ---- histories
JULY = [V2, susp("2018-06-28", "2018-07-02")]
VV = visit("2018-05-02", 2, 7)
script("histories/a_case_over_two_quarters", note("second quarter: a case, a visit; a suspension that ends in July is the third quarter's"), ("rows 5", []),
  sub(1, "case_a", taken([0], rows(5, [A]))), sub(2, "visit", taken([0], rows(5, [A], [V2]))), sub(2, "suspension_june_to_july", taken([10], rows(5, [A], [V2]))),
  ("sound", ans(0)), ("find 010 101 2018-05-01 A", at(0, 4)),
  note("third quarter: the suspension, a visit whose row goes before it, the conclusion"),
  sub(2, "suspension_june_to_july", taken([0], rows(5, [A], JULY)), quarter=3),
  sub(2, "visit_2018_07_01", taken([0], rows(5, [A], [V2, visit("2018-07-01"), susp("2018-06-28", "2018-07-02")])), quarter=3),
  sub(2, "conclusion_2018_07_31", taken([0], rows(5, [A], [V2, visit("2018-07-01"), susp("2018-06-28", "2018-07-02"), concl("2018-07-31", 3)])), quarter=3),
  note("corrections of the second quarter: the visit and the case are varied; a second conclusion is discarded"),
  sub(2, "visit_varied", taken([0], rows(5, [A], [VV, visit("2018-07-01"), susp("2018-06-28", "2018-07-02"), concl("2018-07-31", 3)]))),
  sub(1, "case_a_varied", taken([0], rows(5, [AV], [VV, visit("2018-07-01"), susp("2018-06-28", "2018-07-02"), concl("2018-07-31", 3)]))),
  sub(2, "conclusion_2018_06_01", taken([27], rows(5, [AV], [VV, visit("2018-07-01"), susp("2018-06-28", "2018-07-02"), concl("2018-07-31", 3)]))),
  ("sound", ans(0)), ("find 010 101 2018-05-01 A", at(0, 4)), ("find 010 101 2018-05-01 B", at(30, 0)),
  note("emptied: nothing stands, and no byte is left"), ("empty", ans(0) + standing(rows(5))), ("sound", ans(0)), ("find 010 101 2018-05-01 A", at(30, 0)),
  sub(2, "visit_varied", taken([24], rows(5))))
script("histories/a_record_discarded_in_the_middle", note("of three cases the second is discarded: the first and the third stand"), ("rows 4", []),
  sub(1, "cases_a_000_b", taken([0, 13, 0], rows(4, [A, B]))), ("find 010 101 2018-05-01 A", at(0, 4)), ("find 010 101 2018-05-01 B", at(0, 4 + ROW)), ("find 010 101 2018-05-01 C", at(30, 0)),
  note("the second record's second visit stands by then: its first is not stored either"),
  sub(2, "visits_the_second_stands", taken([0, 14, 0], rows(4, [A, B], [visit("2018-05-02"), visit("2018-05-06")]))), ("sound", ans(0)))
B6 = rows(6, [B])
AB6 = rows(6, [A, B])
script("histories/inserted_and_cancelled", note("what stands before: case B"), ("rows 6", []), sub(1, "case_b", taken([0], B6)),
  note("case A is inserted, its row before B's, and an event of it"),
  sub(1, "case_a", taken([0], AB6)), sub(2, "visit", taken([0], rows(6, [A, B], [V2]))),
  note("a file is refused and a record discarded; then the event is cancelled: the sum is the one before it"),
  sub(2, "not_closed", refused(5, rows(6, [A, B], [V2]))), sub(2, "visit_twice", taken([22], rows(6, [A, B], [V2]))), sub(2, "visit_cancelled", taken([0], AB6)),
  note("again a file refused and a record discarded; then the case is cancelled: the sum is the one before both"),
  sub(2, "events_129", refused(7, AB6, 1)), sub(1, "case_a", taken([14], AB6)), sub(1, "case_a_cancelled", taken([0], B6)), ("sound", ans(0)))
ALL = [reval(d) for d in DAYS] + [visit(d) for d in DAYS] + [susp(d, d) for d in DAYS[:6]]
script("histories/events_128_in_one_record", note("128 are taken, 129 give 7, and cancelling the 128 gives the sum before"), ("rows 129", []),
  sub(1, "case_a", taken([0], rows(129, [A]))), sub(2, "events_128", taken([0], rows(129, [A], ALL))), ("sound", ans(0)),
  sub(2, "events_129", refused(7, rows(129, [A], ALL), 1)), sub(1, "case_b", taken([17], rows(129, [A], ALL))),
  sub(2, "events_128_cancelled", taken([0], rows(129, [A]))))
script("histories/depth_12_and_13", note("depth 12 is read, and is not of the shape; depth 13 is not in the markup"), ("rows 1", []), sub(2, "depth_12", refused(6, rows(1))), sub(2, "depth_13", refused(5, rows(1))))
FULL = rows(3, [A], [V2, visit("2018-05-03")])
script("histories/the_last_row_of_room", note("room for three rows: a record with two events when one row is left is not taken in part"), ("rows 3", []),
  sub(1, "case_a", taken([0], rows(3, [A]))), sub(2, "visit", taken([0], rows(3, [A], [V2]))), sub(2, "visits_2018_05_04_and_05", taken([17], rows(3, [A], [V2]))),
  note("the last row is used; then no case and no event goes in, and a variation does"),
  sub(2, "visit_2018_05_03", taken([0], FULL)), sub(1, "case_b", taken([17], FULL)), sub(2, "visit_2018_06_02", taken([17], FULL)),
  sub(2, "visit_varied", taken([0], rows(3, [A], [VV, visit("2018-05-03")]))), ("sound", ans(0)),
  note("a cancelled row is room again, also for a case"),
  sub(2, "visit_cancelled", taken([0], rows(3, [A], [visit("2018-05-03")]))), sub(1, "case_b", taken([0], rows(3, [A, B], [visit("2018-05-03")]))),
  ("find 010 101 2018-05-01 B", at(0, 4 + ROW)), ("sound", ans(0)))
script("histories/registers_from_files", note("a register that another tool packed is gone on with"), ("load registers/case_a", []), ("sound", ans(0)),
  sub(2, "visit", taken([0], rows(2, [A], [V2]))), ("find 010 101 2018-05-01 A", at(0, 4)),
  note("with one bit behind the last row every file is answered 3, and no byte moves, until the register is emptied"),
  ("load registers/case_a_and_a_bit_behind", []), sub(2, "visit", refused(3, REGS["case_a_and_a_bit_behind"])), ("find 010 101 2018-05-01 A", at(3, 0)), ("sound", ans(3)),
  ("empty", ans(0) + standing(rows(2))), sub(1, "case_a", taken([0], rows(2, [A]))), sub(2, "visit", taken([0], rows(2, [A], [V2]))))
script("histories/lengths_without_room", note("4 and 99 bytes: sound, no room; 100: room for one"), ("bytes 4", []), ("sound", ans(0)), sub(1, "case_a", taken([17], bytes(4))),
  ("bytes 99", []), ("sound", ans(0)), sub(1, "case_a", taken([17], bytes(99))), ("bytes 100", []), sub(1, "case_a", taken([0], rows(1, [A]))))

# ---- a cancelled case takes its events along (E1)
with_case("histories/a_cancelled_case_takes_its_events_along", note("a case with a visit is cancelled, and both are gone"),
  sub(2, "visit", taken([0], rows(4, [A], [V2]))), sub(1, "case_a_cancelled", taken([0], rows(4))), ("sound", ans(0)), ("find 010 101 2018-05-01 A", at(30, 0)),
  note("cancelled once more, and its visit sent again: the case doesn't stand"), sub(1, "case_a_cancelled", taken([15], rows(4))), sub(2, "visit", taken([24], rows(4))))
C3 = case("C")
AE = [visit("2018-05-02"), concl("2018-06-30")]
BE = [reval("2018-05-10", id="B"), visit("2018-05-02", id="B"), visit("2018-07-05", id="B")]
CE = [reval("2018-05-01", id="C"), visit("2018-05-02", id="C")]
ABC = rows(10, [A, B, C3], AE + BE + CE)
WITHOUT_B = rows(10, [A, C3], AE + CE)
def with_three(name, what, *steps):
    script(name, note("cases A, B and C with events in the second quarter, B with one in the third too: no row is left"), ("rows 10", []),
      sub(1, "cases_a_b_c", taken([0, 0, 0], rows(10, [A, B, C3]))), sub(2, "events_of_a_b_c", taken([0, 0, 0], rows(10, [A, B, C3], AE + BE[:2] + CE))),
      sub(2, "visit_b_2018_07_05", taken([0], ABC), quarter=3), note(what), *steps)
with_three("histories/the_neighbours_stay", "B is cancelled: its three events go, that of the third quarter too, and no other row",
  sub(1, "b_cancelled", taken([0], WITHOUT_B)), ("sound", ans(0)),
  ("find 010 101 2018-05-01 A", at(0, 4)), ("find 010 101 2018-05-01 B", at(30, 0)), ("find 010 101 2018-05-01 C", at(0, 4 + ROW)))
with_three("histories/cancelled_inserted_cancelled", "in one file B is cancelled, inserted, cancelled: its events go with the first, and once",
  sub(1, "b_cancelled_inserted_cancelled", taken([0, 0, 0], WITHOUT_B)), ("sound", ans(0)))
BACK = rows(10, [A, B, C3], AE + [visit("2018-05-02", 2, 5, id="B")] + CE)
with_three("histories/events_do_not_come_back", "B is cancelled: of its events none is admitted; it is inserted again, and they don't come back",
  sub(1, "b_cancelled", taken([0], WITHOUT_B)), sub(2, "old_events_of_b", taken([24] * 6, WITHOUT_B)), sub(1, "case_b", taken([0], rows(10, [A, B, C3], AE + CE))),
  note("an old visit: varied and cancelled 15, inserted and then varied 0; an old Rivalutazione: varied and cancelled 15"),
  sub(2, "old_events_of_b", taken([15, 15, 0, 0, 15, 15], BACK)), note("that of the third quarter doesn't stand either, and goes in again"),
  sub(2, "visit_b_2018_07_05_cancelled", taken([15], BACK), quarter=3),
  sub(2, "visit_b_2018_07_05", taken([0], rows(10, [A, B, C3], AE + [visit("2018-05-02", 2, 5, id="B"), BE[2]] + CE)), quarter=3), ("sound", ans(0)))
with_three("histories/a_discarded_cancellation_takes_nothing", "B's cancellation, declared for the third quarter, gives 10: every byte stays",
  sub(1, "b_cancelled", taken([10], ABC), quarter=3), note("with a birth year of 1879, with the state Italy, with prevalente 000; and of a case that doesn't stand"),
  sub(1, "b_cancelled_with_faults", taken([11, 12, 13, 15], ABC)), ("sound", ans(0)))
with_three("histories/room_of_events_carried_away", "D has no room; then one file cancels B and inserts five, D to H: four take the rows of B and its events, the fifth gives 17",
  sub(1, "case_d", taken([17], ABC)), sub(1, "b_cancelled_and_d_to_h", taken([0, 0, 0, 0, 0, 17], rows(10, [A, C3] + [case(id) for id in "DEFG"], AE + CE))), ("sound", ans(0)),
  ("find 010 101 2018-05-01 G", at(0, 4 + 5 * ROW)), ("find 010 101 2018-05-01 H", at(30, 0)))
with_three("histories/a_cancelled_event_takes_nothing_along", "Track 2: one visit of B is cancelled, and only its row goes",
  sub(2, "visit_b_cancelled", taken([0], rows(10, [A, B, C3], AE + [BE[0], BE[2]] + CE))), ("sound", ans(0)))
MANY_LEFT = MANY_OF["A"] + MANY_OF[BEHIND]
script("histories/a_case_with_300_events", note("Id_Recs that differ in the last character: the middle case has 300 events over 250 days, and no row is free"),
  ("load registers/a_case_with_300_events", []), ("sound", ans(0)), ("find 010 101 2018-05-01 " + AFTER_A, at(0, 4 + ROW)), sub(1, "case_b", taken([17], REGS["a_case_with_300_events"])),
  note("it is cancelled: its neighbours' 40 events stay"),
  sub(1, "after_a_cancelled", taken([0], rows(343, [A, case(BEHIND)], MANY_LEFT))), ("sound", ans(0)),
  ("find 010 101 2018-05-01 A", at(0, 4)), ("find 010 101 2018-05-01 " + AFTER_A, at(30, 0)), ("find 010 101 2018-05-01 " + BEHIND, at(0, 4 + ROW)),
  note("once more, inserted again in the same file: it has no events"), ("load registers/a_case_with_300_events", []),
  sub(1, "after_a_cancelled_inserted", taken([0, 0], rows(343, [A, case(AFTER_A), case(BEHIND)], MANY_LEFT))), ("sound", ans(0)))

# ---- two operators on one day (E2)
BOTH = rows(4, [A], [V2, V7])
with_case("histories/two_operators_in_one_record", note("a nurse (2) and a physiotherapist (7) visit on one day: the rows go by the operator, though the record has 7 first"),
  sub(2, "visits_on_one_day", taken([0], BOTH)), ("sound", ans(0)), sub(2, "visits_on_one_day", taken([14], BOTH)))
with_case("histories/two_operators_in_two_records", note("the same in two records of one file"),
  sub(2, "visits_in_two_records", taken([0, 0], BOTH)), ("sound", ans(0)), sub(2, "visits_in_two_records", taken([14, 14], BOTH)))
with_case("histories/two_operators_in_two_files", note("the same in two files"),
  sub(2, "visit", taken([0], rows(4, [A], [V2]))), sub(2, "visit_by_7", taken([0], BOTH)), ("sound", ans(0)),
  note("the other way round: the second one's row goes in front of the first one's"), ("rows 4", []), CASE,
  sub(2, "visit_by_7", taken([0], rows(4, [A], [V7]))), sub(2, "visit", taken([0], BOTH)), ("sound", ans(0)),
  note("the nurse's visit of the next day goes behind both: rows go by the date, then by the operator"),
  sub(2, "visit_2018_05_03", taken([0], rows(4, [A], [V2, V7, visit("2018-05-03")]))), ("sound", ans(0)))
with_case("histories/one_operator_twice", note("by the same operator twice in one record: 22, with a third visit between them too"),
  sub(2, "visit_twice", taken([22], rows(4, [A]))), sub(2, "visit_twice_and_7", taken([22], rows(4, [A]))),
  note("in two records: 14 for the second, and the other operator's goes in; once more in files of their own"),
  sub(2, "visit_twice_in_two_records", taken([0, 14, 0], BOTH)), sub(2, "visit", taken([14], BOTH)), sub(2, "visit_by_7", taken([14], BOTH)), ("sound", ans(0)))
with_case("histories/another_operator_is_another_key", note("a nurse came: a variation and a cancellation that name operator 5 give 15, alone or beside hers"),
  sub(2, "visit", taken([0], rows(4, [A], [V2]))), sub(2, "visit_by_5_varied", taken([15], rows(4, [A], [V2]))), sub(2, "visit_by_5_cancelled", taken([15], rows(4, [A], [V2]))),
  sub(2, "visits_by_2_and_5_varied", taken([15], rows(4, [A], [V2]))), note("an insertion of both gives 14, and of operator 5's nothing is stored; the nurse's own variation goes in"),
  sub(2, "visits_by_2_and_5", taken([14], rows(4, [A], [V2]))), sub(2, "visit_varied", taken([0], rows(4, [A], [VV]))), ("sound", ans(0)))
with_case("histories/each_of_two_visits_varied", note("each operator's variation changes that one's row alone"),
  sub(2, "visits_on_one_day", taken([0], BOTH)), sub(2, "visit_varied", taken([0], rows(4, [A], [VV, V7]))),
  sub(2, "visits_on_one_day_varied", taken([0, 0], rows(4, [A], [visit("2018-05-02", 2, 9), visit("2018-05-02", 7, 9)]))), ("sound", ans(0)))
with_case("histories/one_of_two_visits_cancelled", note("the nurse's visit is cancelled: the physiotherapist's stays; cancelled once more 15"),
  sub(2, "visits_on_one_day", taken([0], BOTH)), sub(2, "visit_cancelled", taken([0], rows(4, [A], [V7]))), ("sound", ans(0)), sub(2, "visit_cancelled", taken([15], rows(4, [A], [V7]))),
  note("both at once: one doesn't stand, so nothing goes; the nurse's goes in again"),
  sub(2, "visits_on_one_day_cancelled", taken([15], rows(4, [A], [V7]))), sub(2, "visit", taken([0], BOTH)),
  note("then the physiotherapist's is cancelled, whatever its accesses, and inserted; then both"),
  sub(2, "visit_by_7_cancelled", taken([0], rows(4, [A], [V2]))), sub(2, "visit_by_7", taken([0], BOTH)),
  sub(2, "visits_on_one_day_cancelled", taken([0], rows(4, [A]))), ("sound", ans(0)))
with_case("histories/two_visits_carried_away", note("the case is cancelled: both visits go with it"),
  sub(2, "visits_on_one_day", taken([0], BOTH)), sub(1, "case_a_cancelled", taken([0], rows(4))), ("sound", ans(0)), sub(2, "visits_on_one_day", taken([24], rows(4))),
  note("it is inserted again: neither visit stands, and both go in again"), CASE,
  sub(2, "visits_on_one_day_varied", taken([15, 15], rows(4, [A]))), sub(2, "visits_in_two_records", taken([0, 0], BOTH)), ("sound", ans(0)))
EVERY = [visit("2018-05-02", code) for code in OPERATORS]
EVEN = [visit("2018-05-02", code) for code in OPERATORS if code % 2 == 0]
script("histories/every_operator_on_one_day", note("operators 99, 13, 12 .. 1 in one record: the rows are 1 .. 13, 99, and no row is left"), ("rows 15", []),
  sub(1, "case_a", taken([0], rows(15, [A]))), sub(2, "visits_by_all", taken([0], rows(15, [A], EVERY))), ("sound", ans(0)), sub(1, "case_b", taken([17], rows(15, [A], EVERY))),
  note("those of odd number are cancelled; all of them once more give 14"),
  sub(2, "visits_by_odd_cancelled", taken([0], rows(15, [A], EVEN))), ("sound", ans(0)), sub(2, "visits_by_all", taken([14], rows(15, [A], EVEN))))
R1, R2 = reval("2018-05-10", 1), reval("2018-05-10", 2)
with_case("histories/two_revaluations_on_one_day", note("the motivo is no part of the key: in one record 22; in two records 14 for the second"),
  sub(2, "revaluations_on_one_day", taken([22], rows(4, [A]))), sub(2, "revaluations_in_two_records", taken([0, 14], rows(4, [A], [R1]))),
  note("varied to motivo 2: one row, with the new one; a cancellation that names motivo 1 takes it out"),
  sub(2, "revaluation_motivo_2_varied", taken([0], rows(4, [A], [R2]))), ("sound", ans(0)), sub(2, "revaluations_in_two_records", taken([14, 14], rows(4, [A], [R2]))),
  sub(2, "revaluation_motivo_1_cancelled", taken([0], rows(4, [A]))), sub(2, "revaluation_motivo_2_varied", taken([15], rows(4, [A]))))
S1, S9, C1, C12 = susp("2018-05-03", "2018-05-05"), susp("2018-05-03", "2018-05-05", 9), concl("2018-06-01"), concl("2018-06-01", 12)
with_case("histories/another_motivazione", note("nor is a Motivazione part of it: from one day 22 in a record; varied to Motivazione 9 there is one row, with 9"),
  sub(2, "suspensions_from_05_03", taken([22], rows(4, [A]))), sub(2, "suspension_for_1", taken([0], rows(4, [A], [S1]))), sub(2, "suspension_for_9", taken([14], rows(4, [A], [S1]))),
  sub(2, "suspension_for_9_varied", taken([0], rows(4, [A], [S9]))), ("sound", ans(0)), note("a Conclusione so too"),
  sub(2, "conclusion_2018_06_01", taken([0], rows(4, [A], [S9, C1]))), sub(2, "conclusion_for_12", taken([14], rows(4, [A], [S9, C1]))),
  sub(2, "conclusion_for_12_varied", taken([0], rows(4, [A], [S9, C12]))), ("sound", ans(0)),
  note("a cancellation takes the row, whatever Motivazione and end it names"),
  sub(2, "suspension_for_2_cancelled", taken([0], rows(4, [A], [C12]))), sub(2, "conclusion_for_99_cancelled", taken([0], rows(4, [A]))))
script("histories/two_operators_and_no_room", note("a case and a visit fill the register: another operator's visit 17, the same one's 14, twice in a record 22"), ("rows 2", []),
  sub(1, "case_a", taken([0], rows(2, [A]))), sub(2, "visits_on_one_day", taken([17], rows(2, [A]))), sub(2, "visit", taken([0], rows(2, [A], [V2]))),
  sub(2, "visit_by_7", taken([17], rows(2, [A], [V2]))), sub(2, "visits_on_one_day", taken([14], rows(2, [A], [V2]))), sub(2, "visit_twice", taken([22], rows(2, [A], [V2]))),
  sub(2, "visit_by_5_varied", taken([15], rows(2, [A], [V2]))))
def old_register(name, event):
    return [("load registers/" + name, []), ("sound", ans(3)), converts_none(3, 1000), sub(2, "visit_by_7", refused(3, REGS[name])), sub(1, "case_a", refused(3, REGS[name])), ("find 010 101 2018-05-01 A", at(3, 0)),
      ("empty", ans(0) + standing(rows(2))), sub(1, "case_a", taken([0], rows(2, [A]))), sub(2, event[0], taken([0], rows(2, [A], [event[1]])))]
script("histories/registers_of_the_old_layout", note("a register of the layout before E2, with a visit: every file gives 3, it isn't converted, and no byte moves; it is emptied, and all sent again"),
  *old_register("old_visit", ("visit", V2)), note("the same with a suspension that ends"), *old_register("old_suspension", ("suspension_for_9", S9)), ("sound", ans(0)))

A1 = rows(1, [A])
def pad(n, f, exp): return ("padded %d 2 2018 2 files/%s.xml" % (n, f), exp)
script("histories/the_first_that_holds", note("files to which two answers would fit: the first in the order 1 to 8 is given"), ("bytes 3", []),
  sub(3, "not_closed", refused(1, bytes(3)), 2008), sub(3, "not_closed", refused(2, bytes(3))), pad(1048577, "not_closed", refused(3, bytes(3))),
  ("rows 1", []), ("list 0", []), pad(1048577, "not_closed", refused(4, rows(1))), sub(2, "not_closed", refused(5, rows(1))), sub(2, "no_record", refused(6, rows(1))),
  sub(2, "events_129", refused(7, rows(1), 1)), sub(2, "no_event", refused(8, rows(1))), ("list 1", []), sub(2, "no_event", taken([20], rows(1))),
  note("records of Track 2, while the case does not stand: 20, 10, 22, 23 before 24; 24 before 15 and 25"),
  sub(2, "no_event", taken([20], rows(1)), quarter=3), sub(2, "suspension_backwards", taken([10], rows(1)), quarter=3), sub(2, "visit_twice", taken([22], rows(1))),
  sub(2, "suspension_backwards", taken([23], rows(1))), sub(2, "visit_varied", taken([24], rows(1))), sub(2, "visit_2018_04_30", taken([24], rows(1))),
  note("Track 1, with the case standing and no room: 10 to 13 before 14, and 14 before 17"),
  sub(1, "case_a", taken([0], A1)), sub(1, "case_a", taken([10], A1), quarter=3), sub(1, "born_1879", taken([11], A1)), sub(1, "abroad_it", taken([12], A1)),
  sub(1, "prevalente_000", taken([13], A1)), sub(1, "case_a", taken([14], A1)),
  note("Track 2, with no room: 25 and 26 before 17"),
  sub(2, "visit_2018_04_30", taken([25], A1)), sub(2, "suspensions_share_05_05", taken([26], A1)), sub(2, "visit", taken([17], A1)))

# ---- a cancellation file written from the register (E3)
with_case("histories/undo_1_event", note("a visit: its cancellation is written and submitted, and the register is as before; then nothing is left to write"),
  sub(2, "visit", taken([0], rows(4, [A], [V2]))), *writes("undo_visit"), undo(taken([0], rows(4, [A]))), ("sound", ans(0)), *writes_none(32),
  note("of a varied visit it is the new one; declared for another quarter 10, submitted twice 15; inserted again it stands as before"),
  sub(2, "visit", taken([0], rows(4, [A], [V2]))), sub(2, "visit_varied", taken([0], rows(4, [A], [VV]))), *writes("undo_visit_varied"),
  undo(taken([10], rows(4, [A], [VV])), quarter=3), undo(taken([0], rows(4, [A]))), undo(taken([15], rows(4, [A]))), sub(2, "visit", taken([0], rows(4, [A], [V2]))))
EVERY_KIND = [reval("2018-05-01", 2), reval("2018-06-30"), visit("2018-05-02", 9, 1), visit("2018-05-02", 10), visit("2018-05-02", 99, 99), visit("2018-06-09", 1, 10),
  susp("2018-05-10", "2018-05-19", 9), susp("2018-06-29"), concl("2018-06-30", 99)]
script("histories/undo_every_kind", note("every kind of event, codes and accesses of one digit and of two, with and without accesses and end: no byte besides"), ("rows 10", []),
  sub(1, "case_a", taken([0], rows(10, [A]))), sub(2, "every_kind", taken([0], rows(10, [A], EVERY_KIND))),
  *writes("undo_every_kind"), undo(taken([0], rows(10, [A]))), ("sound", ans(0)))
MOST = [reval(d) for d in DAYS] + [visit(d, code) for d, code in THREE] + [susp(d, d) for d in DAYS[:12]] + [concl("2018-06-30")]
STEPS = {127: "events_1_to_127", 128: "event_128", 129: "event_129", 257: "events_130_to_257"}
def of_many(n): return rows(258, [A], MOST[:n])
def with_many(n, what, *steps):
    script("histories/undo_%d_events" % n, note(what), ("rows 258", []), sub(1, "case_a", taken([0], of_many(0))),
      *[sub(2, f, taken([0], of_many(k))) for k, f in STEPS.items() if k <= n],
      *writes_none(33, len(F["undo_%d_events" % n]) - 1), *writes("undo_%d_events" % n), *steps, ("sound", ans(0)), *writes_none(32))
with_many(127, "127 events: one record", undo(taken([0], of_many(0))))
with_many(128, "128 events: one record, as many as it may have", undo(taken([0], of_many(0))))
with_many(129, "129 events: the second record has one", undo(taken([0, 0], of_many(0))))
with_many(257, "257 events: records of 128, 128 and 1; the answer list must have three bytes", ("list 2", []), undo(refused(8, of_many(257))), ("list 3", []),
  undo(taken([0, 0, 0], of_many(0))), undo(taken([15, 15, 15], of_many(0))))
S67 = susp("2018-06-28", "2018-07-02")
with_case("histories/undo_a_suspension_over_two_quarters", note("begun in June and ended in July, it is the third quarter's: of the second only the visit is written, then nothing"),
  sub(2, "suspension_june_to_july", taken([0], rows(4, [A], [S67])), quarter=3), sub(2, "visit", taken([0], rows(4, [A], [V2, S67]))),
  *writes("undo_visit"), undo(taken([0], rows(4, [A], [S67]))), *writes_none(32),
  *writes("undo_suspension_june_to_july", quarter=3), undo(taken([0], rows(4, [A])), quarter=3),
  note("without end it is that of its begin"), sub(2, "suspension_without_end", taken([0], rows(4, [A], [susp("2018-05-10")]))),
  *writes_none(32, quarter=3), *writes("undo_suspension_without_end"), undo(taken([0], rows(4, [A]))), ("sound", ans(0)))
def both(*quarters): return [visit(d, id=id) for id, qs in zip("AB", quarters) for d in sum(qs, [])]
def twelve(*quarters): return rows(14, [A, B], both(*quarters))
ALL3 = [Q4, Q1, LEAP]
script("histories/undo_quarter_by_quarter", note("cases A and B with the same events in three quarters of three years"), ("rows 14", []),
  sub(1, "case_a", taken([0], rows(14, [A]))), sub(1, "case_b", taken([0], rows(14, [A, B]))),
  sub(2, "visits_a_b_2020_1", taken([0, 0], twelve([LEAP], [LEAP])), 2020, 1), sub(2, "visits_a_b_2018_12_31", taken([0, 0], twelve([Q4, LEAP], [Q4, LEAP])), 2018, 4),
  sub(2, "visits_a_b_2019_1", taken([0, 0], twelve(ALL3, ALL3)), 2019, 1),
  note("A's are undone quarter by quarter until none is left; B's stay"),
  *writes("undo_2019_1", year=2019, quarter=1), undo(taken([0], twelve([Q4, LEAP], ALL3)), 2019, 1), *writes_none(32, year=2019, quarter=1),
  *writes("undo_2018_12_31", year=2018, quarter=4), undo(taken([0], twelve([LEAP], ALL3)), 2018, 4), *writes_none(32, year=2018, quarter=4),
  *writes("undo_2020_1", year=2020, quarter=1), undo(taken([0], twelve([], ALL3)), 2020, 1), *writes_none(32, year=2020, quarter=1),
  ("sound", ans(0)), ("find 010 101 2018-05-01 A", at(0, 4)), ("find 010 101 2018-05-01 B", at(0, 4 + ROW)))
OF_B = {"texts": "010 101 2018-05-01 B"}
with_three("histories/undo_the_neighbours_stay", "B's events of the second quarter are undone: those of A and of C, and B's of the third, stay",
  *writes("events_of_b_undone", **OF_B), undo(taken([0], rows(10, [A, B, C3], AE + BE[2:] + CE))), ("sound", ans(0)), *writes_none(32, **OF_B),
  note("its file of the third quarter is written; then B is cancelled, and the file submitted: 24"),
  cancel(1000, long(0, len(undone([xv("2018-07-05")], "B"))), quarter=3, **OF_B), sub(1, "b_cancelled", taken([0], WITHOUT_B)), undo(taken([24], WITHOUT_B), quarter=3))
with_case("histories/undo_refused", note("years 2008 and 2100, quarters 0 and 5"), sub(2, "visit", taken([0], rows(4, [A], [V2]))),
  *writes_none(1, year=2008), *writes_none(1, year=2100), *writes_none(1, quarter=0), *writes_none(1, quarter=5),
  note("a case that doesn't stand; texts that no case has"),
  *[step for t in ("010 101 2018-05-01 B", "011 101 2018-05-01 A", "10 101 2018-05-01 A", "010 10 2018-05-01 A", "010 101 2018-02-30 A", "010 101 2018-05-02 A", "010 101 2018-05-01 AA")
    for step in writes_none(30, texts=t)],
  note("a register that isn't sound"), ("load registers/case_a_and_a_bit_behind", []), *writes_none(3), ("bytes 3", []), *writes_none(3),
  note("the first that holds is given: 1 before 3, 3 before 30, 30 before 33, and 31 and 32 before it"), *writes_none(1, 0, year=2008), *writes_none(3, 0, texts="010 101 2018-05-01 B"),
  ("load registers/case_a", []), *writes_none(1, 0, quarter=5, texts="010 101 2018-05-01 B"), *writes_none(30, 0, texts="010 101 2018-05-01 B"), *writes_none(32, 0),
  sub(2, "revaluation_2_with", taken([0], rows(2, [A], [R12]))), *writes_none(31, 0))

# ---- where the file goes wrong (E5)
EMPTY = rows(1)
script("histories/places_outside_the_records",
  note("the place is the root's, whatever is wrong: 0 where the file begins with it, so that the answer tells a fault and never the place"), ("rows 1", []),
  fault(2, "no_record", EMPTY), fault(2, "no_record_but_a_comment", EMPTY), fault(2, "root_attribute_after_a_declaration", EMPTY),
  fault(2, "child_of_root_after_a_comment", EMPTY), note("a record is bad as well, before the text and behind it"),
  fault(2, "fault_in_a_record_then_text", EMPTY), fault(2, "text_then_fault_in_a_record", EMPTY),
  note("the other track's root after a comment; in its own track the file is taken"),
  fault(2, "other_root_after_a_comment", EMPTY), sub(1, "other_root_after_a_comment", taken([0], rows(1, [A]))))
script("histories/places_of_attributes",
  note("the place is that of their element: a date in the second record, after a declaration and a comment, each line ended by two bytes"), ("rows 1", []),
  fault(2, "second_visit_2018_02_30_crlf", EMPTY, 2), fault(2, "suspension_to_2018_05_32", EMPTY, 1),
  note("one that is missing, one that the schema doesn't name, one in an Assistenza tag"),
  fault(2, "attribute_missing", EMPTY, 1), fault(2, "attribute_unknown", EMPTY, 1), fault(2, "attribute_in_assistenza", EMPTY, 2))
script("histories/places_of_leaves", note("their own: a code, a blank before one, no text; a comment and a child in a leaf too"), ("rows 1", []),
  fault(2, "operator_14", EMPTY, 2), fault(2, "blank_in_a_leaf", EMPTY, 1), fault(2, "leaf_without_text", EMPTY, 1), fault(2, "comment_in_a_leaf", EMPTY, 1),
  fault(2, "comment_in_an_empty_leaf", EMPTY, 1), fault(2, "child_in_a_leaf", EMPTY, 1),
  note("Track 1: a Prevalente of two bytes in the second record"), fault(1, "case_b_prevalente_25", EMPTY, 2),
  note("blanks behind the file move no place"), ("padded 1048576 2 2018 2 files/operator_14.xml", refused(6, EMPTY, 2, PLACE["operator_14"])))
script("histories/places_of_parents", note("a last child is missing: of an Erogatore, of an Assistenza; an Erogatore has none"), ("rows 1", []),
  fault(2, "last_child_missing", EMPTY, 1), fault(2, "no_eventi", EMPTY, 2), fault(2, "no_child", EMPTY, 1),
  note("a child is moved; one is doubled; one is none of the schema, whatever its date"), fault(2, "child_moved", EMPTY, 1),
  fault(2, "visit_after_a_suspension", EMPTY, 1), fault(2, "child_doubled", EMPTY, 1), fault(2, "erogatore_doubled", EMPTY, 1),
  fault(2, "child_unknown", EMPTY, 1),
  note("a text between children, and behind the last"), fault(2, "text_between_children", EMPTY, 1), fault(2, "text_behind_the_last_child", EMPTY, 1),
  note("Track 1: Parenterale is missing in Alimentazione; Disturbi is missing in Valutazione when a later child comes"),
  fault(1, "case_a_without_parenterale", EMPTY, 1), fault(1, "case_a_without_disturbi", EMPTY, 1))
script("histories/places_of_the_first_fault",
  note("of two faults in a record the first met in reading: a region, and a text behind it; a text, and an operator behind it"), ("rows 1", []),
  fault(2, "region_then_text", EMPTY, 1), fault(2, "text_then_operator", EMPTY, 1),
  note("a child is bad, and at the end another is missing: the child's place; one is missing when the next comes, which is bad: the parent's"),
  fault(2, "child_then_its_parent", EMPTY, 1), fault(2, "parent_then_its_child", EMPTY, 1),
  note("an attribute, and what stands in its element; a leaf, and a later attribute"),
  fault(2, "attribute_then_leaf", EMPTY, 1), fault(2, "leaf_then_attribute", EMPTY, 1),
  note("of two bad records the first; a bad record behind one with 129 events"),
  fault(2, "two_bad_records", EMPTY, 1), fault(2, "events_129_then_operator_14", EMPTY, 2))
NONE = [0, 0, 0, 0, 0]
SECOND = [2, 0, 0, 0, PLACE["second_taken_in_2018_02_30"]]
script("histories/no_place_but_with_6", note("a file at fault: with 1 to 4 no place is told"), ("rows 1", []), ("list 0", []),
  report(5, 2, "second_taken_in_2018_02_30", 1, NONE, EMPTY, 2008), report(5, 3, "second_taken_in_2018_02_30", 2, NONE, EMPTY), ("bytes 3", []),
  report(5, 2, "second_taken_in_2018_02_30", 3, NONE, bytes(3)), ("rows 1", []),
  ("padded 1048577 2 2018 2 files/second_taken_in_2018_02_30.xml", refused(4, EMPTY)),
  note("with 6 it is, and then with 5, 7, 8 and 0 not"), report(5, 2, "second_taken_in_2018_02_30", 6, SECOND, EMPTY),
  report(5, 2, "not_closed", 5, NONE, EMPTY), report(5, 2, "events_129", 7, [1, 0, 0, 0, 0], EMPTY), report(5, 1, "case_a", 8, NONE, EMPTY),
  ("list 1", []), report(5, 1, "case_a", 0, [0, 1, 1, 0, 0], rows(1, [A])))
script("histories/reports_of_0_to_8_numbers",
  note("of eight numbers 77 so many are lent: as many as fit are written, and those past the fifth stay"), ("rows 1", []),
  *[report(n, 2, "second_taken_in_2018_02_30", 6, SECOND, EMPTY) for n in range(9)],
  note("of a file that is taken, three cases of which the second is discarded, too: what stands doesn't depend on the report"),
  *[step for n in range(9) for step in (("rows 4", []), report(n, 1, "cases_a_000_b", 0, [0, 3, 2, 1, 0], rows(4, [A, B])))])

# ---- the evaluation in force (E6)
RE10, RE12, RE14 = re2("2018-05-10", FIRST), reval("2018-05-12"), re2("2018-05-14", LAST)
def six(*events): return rows(6, [EVALUATED], events)
def with_evaluated(name, what, *steps): script(name, note(what), ("rows 6", []), sub(1, "evaluated", taken([0], six())), *steps)
def with_2_1_2(name, what, *steps):
    with_evaluated(name, "a case with its evaluation and three Rivalutazioni, of 05-10, 05-12 and 05-14, with conferma 2, 1 and 2",
      sub(2, "revaluations_2_1_2", taken([0], six(RE10, RE12, RE14))), note(what), *steps)
ENDED = six(RE10, RE12, RE14, V2, concl("2018-05-16"))
def day_by_day(r):
    return [no_force(30, "2018-04-30"), *forces(r, OWN, "2018-05-01", "2018-05-09"), *forces(r, FIRST, "2018-05-10", "2018-05-13"),
      *forces(r, LAST, "2018-05-14", "2018-05-20"), force(r, "2018-12-31", LAST), force(r, "2020-02-29", LAST), force(r, "2099-12-31", LAST)]
with_evaluated("histories/evaluation_day_by_day", "before any Rivalutazione the case's own holds, from the taking in on",
  no_force(30, "2018-04-30"), *forces(six(), OWN, "2018-05-01", "2018-05-03"), force(six(), "2099-12-31", OWN),
  note("three Rivalutazioni, 05-10, 05-12 and 05-14, with conferma 2, 1 and 2: each day from the one before the taking in"),
  sub(2, "revaluations_2_1_2", taken([0], six(RE10, RE12, RE14))), ("sound", ans(0)), *day_by_day(six(RE10, RE12, RE14)),
  note("a visit, and the conclusion of 05-16: the same, and after the conclusion too"),
  sub(2, "visit", taken([0], six(RE10, RE12, RE14, V2))), sub(2, "conclusion_2018_05_16", taken([0], ENDED)), *day_by_day(ENDED), holds(ENDED))
with_evaluated("histories/evaluation_on_the_day_of_taking_in", "a Rivalutazione of that day holds from it on; the day before is refused",
  sub(2, "revaluation_on_taking_in", taken([0], six(re2("2018-05-01", FIRST)))), no_force(30, "2018-04-30"),
  *forces(six(re2("2018-05-01", FIRST)), FIRST, "2018-05-01", "2018-05-03"))
script("histories/evaluation_refused", note("an emptied register, of four bytes and of six rows: no case stands"), ("bytes 4", []), no_force(30), ("rows 6", []), no_force(30),
  sub(1, "evaluated", taken([0], six())), force(six(), "2018-05-10", OWN), note("a case that doesn't stand"),
  *[no_force(30, texts=t) for t in ("010 101 2018-05-01 B", "020 101 2018-05-01 A", "010 102 2018-05-01 A", "010 101 2018-05-02 A", "010 101 2018-05-01 " + AFTER_A)],
  note("texts that no case has: a region, an ASL, a date, an Id_Rec"),
  *[no_force(30, texts=t + " 101 2018-05-01 A") for t in ("011", "999", "10", "0100", "01O")],
  *[no_force(30, texts="010 " + t + " 2018-05-01 A") for t in ("10", "1011", "1-1")],
  *[no_force(30, texts="010 101 " + t + " A") for t in ("2018-02-30", "2018-5-01", "2018-05-01Z", "1899-12-31", "2100-01-01")],
  *[no_force(30, texts="010 101 2018-05-01 " + t) for t in ("AA", "A" * 87, "A" * 89, "<", "&")],
  note("a day that is no date"),
  *[no_force(30, t) for t in ("2018-02-29", "2018-04-31", "2018-05-00", "2018-05-32", "2018-00-10", "2018-13-10", "2100-01-01", "1899-12-31",
    "2018-5-10", "18-05-10", "2018-05-1", "2018-05-100", "2018/05/10", "20180510", "+018-05-10", "2018-05-10Z", "today", "0", "")],
  note("a date before the taking in; the taking in itself, and the last day that there is"),
  no_force(30, "2018-04-30"), no_force(30, "2018-01-01"), no_force(30, "1900-01-01"), force(six(), "2018-05-01", OWN), force(six(), "2099-12-31", OWN), holds(six()),
  note("a register that isn't sound, whatever the texts"), ("load registers/case_a_and_a_bit_behind", []), no_force(3), no_force(3, "2018-04-30"), no_force(3, "today"),
  no_force(3, texts="011 101 2018-05-01 A"), no_force(3, texts="010 101 2018-05-01 B"), ("bytes 3", []), no_force(3), ("bytes 0", []), no_force(3))
FEW14, ODD14 = re2("2018-05-14", FEW), re2("2018-05-14", ODD)
TO_1 = six(RE10, RE12, reval("2018-05-14"))
TO_2 = six(RE10, re2("2018-05-12", LAST), reval("2018-05-14"))
BACK_1 = six(reval("2018-05-10"), re2("2018-05-12", LAST), reval("2018-05-14"))
def around(r, *es): return [force(r, d, e) for d, e in zip(("2018-05-09", "2018-05-10", "2018-05-11", "2018-05-12", "2018-05-13", "2018-05-14", "2018-05-15"), es)]
with_2_1_2("histories/evaluation_varied", "the last is varied to conferma 1: its evaluation is gone, and the first one's holds on",
  sub(2, "revaluation_05_14_to_1", taken([0], TO_1)), *around(TO_1, OWN, FIRST, FIRST, FIRST, FIRST, FIRST, FIRST),
  note("the one that confirms is varied to conferma 2"), sub(2, "revaluation_05_12_to_last", taken([0], TO_2)), *around(TO_2, OWN, FIRST, FIRST, LAST, LAST, LAST, LAST),
  note("the first is varied to conferma 1: up to 05-11 the case's own"),
  sub(2, "revaluation_05_10_to_1", taken([0], BACK_1)), *around(BACK_1, OWN, OWN, OWN, LAST, LAST, LAST, LAST),
  note("from one evaluation to another"), sub(2, "revaluation_05_12_to_first", taken([0], six(reval("2018-05-10"), re2("2018-05-12", FIRST), reval("2018-05-14")))),
  *around(six(reval("2018-05-10"), re2("2018-05-12", FIRST), reval("2018-05-14")), OWN, OWN, OWN, FIRST, FIRST, FIRST, FIRST), ("sound", ans(0)))
with_2_1_2("histories/evaluation_of_few_fields", "a Valutazione has none of the six, and its prevalente alone: it isn't passed over",
  sub(2, "revaluation_05_14_to_few", taken([0], six(RE10, RE12, FEW14))), *around(six(RE10, RE12, FEW14), OWN, FIRST, FIRST, FIRST, FIRST, FEW, FEW), ("sound", ans(0)),
  note("0000 is a prevalente"), sub(2, "revaluation_05_14_to_0000", taken([0], six(RE10, RE12, re2("2018-05-14", (MISSING, "0000"))))),
  force(six(RE10, RE12, re2("2018-05-14", (MISSING, "0000"))), "2018-05-14", (MISSING, "0000")), ("sound", ans(0)),
  note("each field at its greatest, and a prevalente of a tab, a blank, >, ~ and ]"),
  sub(2, "revaluation_05_14_to_odd", taken([0], six(RE10, RE12, ODD14))), *around(six(RE10, RE12, ODD14), OWN, FIRST, FIRST, FIRST, FIRST, ODD, ODD), ("sound", ans(0)))
def own_of(e): return case("A", prevalente=e[1], scales=e[0])
with_2_1_2("histories/evaluation_cancelled", "the last is cancelled: the first one's holds on; then the first, by a record that says conferma 1: the case's own",
  sub(2, "revaluation_05_14_cancelled", taken([0], six(RE10, RE12))), *around(six(RE10, RE12), OWN, FIRST, FIRST, FIRST, FIRST, FIRST, FIRST),
  sub(2, "revaluation_05_10_cancelled_as_1", taken([0], six(RE12))), *around(six(RE12), OWN, OWN, OWN, OWN, OWN, OWN, OWN),
  note("the case is varied, and its own with it; the first goes in again"), sub(1, "evaluated_varied", taken([0], rows(6, [own_of(LAST)], [RE12]))),
  *around(rows(6, [own_of(LAST)], [RE12]), LAST, LAST, LAST, LAST, LAST, LAST, LAST),
  sub(2, "revaluation_05_10_first", taken([0], rows(6, [own_of(LAST)], [RE10, RE12]))),
  *around(rows(6, [own_of(LAST)], [RE10, RE12]), LAST, FIRST, FIRST, FIRST, FIRST, FIRST, FIRST),
  note("the case is cancelled; inserted again it has its own alone"), sub(1, "evaluated_cancelled", taken([0], rows(6))), no_force(30), no_force(30, "2018-05-14"),
  sub(1, "evaluated", taken([0], six())), *around(six(), OWN, OWN, OWN, OWN, OWN, OWN, OWN), ("sound", ans(0)))
FOUR_CASES = [EVALUATED, case(AFTER_A, prevalente=ODD[1], scales=ODD[0]), case(BEHIND, prevalente=LAST[1], scales=LAST[0]),
  case("A", prevalente=FEW[1], scales=FEW[0], taken="2018-06-01")]
FOUR_EVENTS = [visit("2018-05-02"), susp("2018-05-03", "2018-05-05"), concl("2018-06-30"), re2("2018-05-10", FIRST, id=AFTER_A), visit("2018-05-02", id=AFTER_A),
  re2("2018-06-10", LAST, taken="2018-06-01")]
FOUR = rows(10, FOUR_CASES, FOUR_EVENTS)
script("histories/evaluation_beside_others", note("three Id_Recs that differ in the last character, and the first of them taken in once more on 2018-06-01"), ("rows 10", []),
  sub(1, "four_evaluated", taken([0] * 4, rows(10, FOUR_CASES))), sub(2, "four_revaluated", taken([0] * 3, FOUR)), ("sound", ans(0)),
  note("the first has a visit, a suspension and a conclusion, and its own evaluation throughout"), *[force(FOUR, d, OWN) for d in ("2018-05-01", "2018-05-10", "2018-06-10", "2018-07-01")],
  note("its second taking in, with a Rivalutazione of 06-10"), no_force(30, "2018-05-31", "010 101 2018-06-01 A"),
  force(FOUR, "2018-06-01", FEW, taken="2018-06-01"), force(FOUR, "2018-06-09", FEW, taken="2018-06-01"), force(FOUR, "2018-06-10", LAST, taken="2018-06-01"),
  note("the second Id_Rec has a Rivalutazione of 05-10; the third has no event"),
  force(FOUR, "2018-05-09", ODD, AFTER_A), force(FOUR, "2018-05-10", FIRST, AFTER_A), force(FOUR, "2018-06-30", FIRST, AFTER_A),
  force(FOUR, "2018-05-01", LAST, BEHIND), force(FOUR, "2018-06-30", LAST, BEHIND), holds(FOUR))
def discarded(f, n, r, quarter=2): return [sub(2, f, taken([n], r), quarter=quarter), force(r, "2018-05-09", OWN), force(r, "2018-05-10", FIRST), force(r, "2018-05-17", FIRST)]
ONE3 = rows(3, [EVALUATED], [RE10])
script("histories/evaluation_and_discarded_records", note("room for three rows: a case and a Rivalutazione of 05-10 with conferma 2"), ("rows 3", []),
  sub(1, "evaluated", taken([0], rows(3, [EVALUATED]))), sub(2, "revaluation_05_10_first", taken([0], ONE3)), force(ONE3, "2018-05-10", FIRST),
  note("varied to conferma 1 with a Valutazione, and to 2 without: 21; a record whose second Rivalutazione is so: its first isn't kept"),
  *discarded("revaluation_05_10_to_1_with", 21, ONE3), *discarded("revaluation_05_10_to_2_without", 21, ONE3), *discarded("revaluations_05_16_and_21", 21, ONE3),
  note("prevalente 000: 13"), *discarded("revaluation_05_10_to_000", 13, ONE3), *discarded("revaluations_05_16_and_000", 13, ONE3),
  note("twice in a record 22, inserted again 14, varied and not standing 15, of another quarter 10, a Rivalutazione and a visit with one row left 17"),
  *discarded("revaluation_05_10_twice", 22, ONE3), *discarded("revaluation_05_10_first", 14, ONE3), *discarded("revaluation_05_16_varied", 15, ONE3),
  *discarded("revaluation_05_10_to_1", 10, ONE3, 3), *discarded("visit_and_revaluation_05_16", 17, ONE3), ("sound", ans(0)))
OF_61 = [reval(d) if confirms(i) else re2(d, of_day(i)) for i, d in enumerate(DAYS)] + ALL[61:]
R61 = rows(129, [EVALUATED], OF_61)
script("histories/evaluation_on_each_of_61_days", note("128 events in a record, 61 of them Rivalutazioni from the last day to the first, every third one confirming"), ("rows 129", []),
  sub(1, "evaluated", taken([0], rows(129, [EVALUATED]))), sub(2, "revaluations_61", taken([0], R61)), ("sound", ans(0)),
  *[force(R61, d, of_day(i - 1 if confirms(i) else i)) for i, d in enumerate(DAYS)])

# ---- registers in rows of 91 bytes, and what a conversion makes of them (E6)
CASE_91, VISIT_91 = REGS["rows_91_case_a"], REGS["rows_91_visit"]
script("histories/rows_of_91_bytes_lent", note("a case and a visit in rows of 91 bytes: every call gives 3, and no byte moves; emptied, it is used in rows of 96"),
  ("load registers/rows_91_visit", []), ("sound", ans(3)), ("find 010 101 2018-05-01 A", at(3, 0)), no_force(3), *writes_none(3), sub(2, "visit_by_7", refused(3, VISIT_91)),
  sub(1, "case_b", refused(3, VISIT_91)), ("empty", ans(0) + standing(rows(2))), sub(1, "case_a", taken([0], rows(2, [A]))), sub(2, "visit", taken([0], rows(2, [A], [V2]))),
  note("one case, in 95 bytes: no room for a row of 96"), ("load registers/rows_91_case_a", []), ("sound", ans(3)), holds_91(CASE_91),
  note("one case, in 100 bytes: the same bytes say the same in rows of 96"), ("load registers/rows_91_case_a_100", []), ("sound", ans(0)),
  ("find 010 101 2018-05-01 A", at(0, 4)), force(rows(1, [A]), "2018-05-01", (MISSING, "250")), holds(rows(1, [A])), sub(1, "case_a_varied", taken([0], rows(1, [AV]))))
script("histories/converted_lengths", note("no row: 33 for a new one under 4 bytes, though nothing stands"), ("bytes 4", []),
  converts_none(33, 0), converts_none(33, 3), converts(4), ("sound", ans(0)), holds(bytes(4)), ("bytes 94", []), converts(99), ("sound", ans(0)), holds(bytes(99)),
  converts(1000), ("sound", ans(0)), holds(bytes(1000)), ("bytes 1000", []), converts(4), ("sound", ans(0)), holds(bytes(4)),
  note("one row of 91 bytes: a new one of 99 bytes has no room, one of 100 has"), ("load registers/rows_91_case_a", []),
  *[converts_none(33, n) for n in (0, 3, 4, 95, 99)], holds_91(CASE_91), converts(100), ("sound", ans(0)), ("find 010 101 2018-05-01 A", at(0, 4)), holds(rows(1, [A])),
  note("a single case says the same in both rows: it is converted once more, into room for two, and a visit goes in"),
  converts(196), holds(rows(2, [A])), sub(2, "visit", taken([0], rows(2, [A], [V2]))), ("sound", ans(0)), note("and then no more"), converts_none(3, 1000), holds(rows(2, [A], [V2])),
  note("two rows: a byte too few, as many as they need, up to a byte less than a third one needs"), ("load registers/rows_91_visit", []),
  converts_none(33, 195), holds_91(VISIT_91), converts(196), ("sound", ans(0)), holds(rows(2, [A], [V2])), ("load registers/rows_91_visit", []),
  converts(291), ("sound", ans(0)), holds(Reg(291, [A], [V2])), sub(1, "case_b", taken([17], Reg(291, [A], [V2]))),
  ("load registers/rows_91_visit", []), converts(292), sub(1, "case_b", taken([0], rows(3, [A, B], [V2]))), ("find 010 101 2018-05-01 B", at(0, 100)))
PASSED = rows(6, [EVALUATED], CONVERTED)
SEEN_14 = rows(6, [EVALUATED], [CONVERTED[0], RE12, RE14, V2])
SEEN = rows(6, [EVALUATED], [RE10, RE12, RE14, V2])
SEEN_16 = rows(6, [EVALUATED], [RE10, RE12, RE14, re2("2018-05-16", ODD), V2])
script("histories/converted_then_varied", note("a case, Rivalutazioni with conferma 2, 1 and 2 and a visit, in rows of 91 bytes"), ("load registers/rows_91_revaluations", []),
  ("sound", ans(3)), no_force(3), converts_none(33, 483), holds_91(REGS["rows_91_revaluations"]), converts(580), ("sound", ans(0)), ("find 010 101 2018-05-01 A", at(0, 4)), holds(PASSED),
  note("no evaluation came along: every day has the case's own"), no_force(30, "2018-04-30"), *forces(PASSED, OWN, "2018-05-09", "2018-05-16"),
  note("nor does any cancellation file"), *writes_none(31),
  note("the last is varied, and seen; the first is passed over still"), sub(2, "revaluation_05_14_to_last", taken([0], SEEN_14)), ("sound", ans(0)),
  *forces(SEEN_14, OWN, "2018-05-09", "2018-05-13"), *forces(SEEN_14, LAST, "2018-05-14", "2018-05-16"),
  note("the first too; then a new one goes in"), sub(2, "revaluation_05_10_to_first", taken([0], SEEN)), *forces(SEEN, OWN, "2018-05-08", "2018-05-09"),
  *forces(SEEN, FIRST, "2018-05-10", "2018-05-13"), *forces(SEEN, LAST, "2018-05-14", "2018-05-16"), sub(2, "revaluation_05_16_odd", taken([0], SEEN_16)),
  *forces(SEEN_16, LAST, "2018-05-14", "2018-05-15"), *forces(SEEN_16, ODD, "2018-05-16", "2018-05-17"), ("sound", ans(0)))
AFTER_PASSED = rows(6, [EVALUATED], [RE10, RE12, CONVERTED[2], V2])
script("histories/converted_then_the_first_varied", note("the same, and the first is varied: the last, passed over, leaves it in force"), ("load registers/rows_91_revaluations", []),
  converts(580), sub(2, "revaluation_05_10_to_first", taken([0], AFTER_PASSED)), *around(AFTER_PASSED, OWN, FIRST, FIRST, FIRST, FIRST, FIRST, FIRST),
  note("a record that is discarded leaves the last without; cancelled, it is gone"), sub(2, "revaluation_05_10_to_2_without", taken([21], AFTER_PASSED)),
  sub(2, "revaluation_05_14_cancelled", taken([0], rows(6, [EVALUATED], [RE10, RE12, V2]))), ("sound", ans(0)))
def refuses_old(name, r=None): return [("load registers/" + name, []), converts_none(3, 1000), converts_none(3, 3), sub(2, "no_event", r or refused(3, REGS[name]))]
script("histories/converted_refused", note("not sound in rows of 91 bytes, which comes before 33: under 4 bytes"), ("bytes 3", []), converts_none(3, 1000), converts_none(3, 3), holds_91(bytes(3)),
  ("bytes 0", []), converts_none(3, 4), note("a bit behind the last row; the first and the last bit behind conferma; a byte too few for two rows"),
  *[step for name in ("rows_91_bit_behind", "rows_91_bit_714", "rows_91_bit_727", "rows_91_no_room") for step in refuses_old(name)],
  note("in the layout before E2"), *refuses_old("old_visit"), *refuses_old("old_suspension"),
  note("in rows of 96 bytes: a case and a visit, a case and a Rivalutazione that keeps its evaluation; both stay sound"),
  *refuses_old("rows_96_visit", taken([20], rows(2, [A], [V2]))), ("sound", ans(0)),
  *refuses_old("rows_96_evaluation", taken([20], rows(3, [EVALUATED], [RE10]))), ("sound", ans(0)), force(rows(3, [EVALUATED], [RE10]), "2018-05-10", FIRST))
N_LETTERS = len(LETTER_CASES + LETTER_EVENTS)
AS_LETTERS = rows(N_LETTERS, LETTER_CASES, LETTER_EVENTS)
def letter(i): return (of_day(i)[0], "%d" % (300 + i))
script("histories/converted_every_case_found", note("24 cases and their events: room for all of them but one, then for all; every case is found, with its own evaluation"),
  ("load registers/rows_91_letters", []), converts_none(33, 4 + ROW * N_LETTERS - 1), holds_91(REGS["rows_91_letters"]), converts(4 + ROW * N_LETTERS), ("sound", ans(0)), holds(AS_LETTERS),
  *[("find 010 101 2018-05-01 " + id, at(0, 4 + ROW * i)) for i, id in enumerate(LETTERS)], ("find 010 101 2018-05-01 Y", at(30, 0)),
  *[force(AS_LETTERS, "2018-06-01", letter(i), id) for i, id in enumerate(LETTERS)], sub(1, "case_a", taken([14], AS_LETTERS)))
AS_FULL = rows(4096, FULL_CASES, FULL_EVENTS)
script("histories/converted_4096_rows", note("64 cases with 63 events each, as many rows as a register has"), ("load registers/rows_91_full", []),
  converts_none(33, 393219), holds_91(REGS["rows_91_full"]), converts(393220), ("sound", ans(0)), holds(AS_FULL),
  *[("find 010 101 2018-05-01 " + id, at(0, 4 + ROW * i)) for i, id in enumerate(FULL_IDS) if i % 9 == 0],
  *[force(AS_FULL, "2018-06-30", letter(i), FULL_IDS[i]) for i in (0, 31, 63)], note("no row is left; a longer one has no more room"), sub(1, "case_a", taken([14], AS_FULL)),
  sub(1, "after_a_cancelled_inserted", taken([15, 17], AS_FULL)), ("load registers/rows_91_full", []), converts(393420), ("sound", ans(0)),
  sub(1, "after_a_cancelled_inserted", taken([15, 17], Reg(393420, FULL_CASES, FULL_EVENTS))))
