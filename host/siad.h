/* The calls of the SIAD intake (crates/exports_c), in C and C++. What each answers, and what every lent byte holds
   afterwards, is stated and proved in crates/exports_c/src/lib.rt. `rt lib` in crates/exports_c makes the archive, for
   x86-64 processors from the level x86-64-v2 on.

   Lent: a slice is a pointer and a length, which must be that of the buffer. Buffers of one call must not overlap, and
   nobody else may write to them while it runs. Pass no NULL: the proved code's references are never null. With length 0
   NULL was tried for each slice (host/test.c), and was answered as an empty buffer is; nothing promises that.
   Threads: no state is kept between calls (the archive has no writable data) and no memory is taken but stack, so calls
   over buffers of their own may run at the same time.
   Stack: measured, not proved: siad_submit at most 14,968 bytes on the files that bench/stack makes, hostile ones among
   them; siad_cancel_file 11,544, for 1 to 1,274 events (bench/cancel); siad_evaluation 10,728 and siad_convert 10,040,
   for 1 to 4,095 events (bench/evaluation); siad_find 10,472 and siad_sound 10,024, each on a register of 4,096 rows, a
   case and its reassessments. Keep 16 KB free. */
#ifndef SIAD_H
#define SIAD_H
#include <stddef.h>
#include <stdint.h>

/* A register for n rows: its header, then rows of cases and of events. More than SIAD_MOST_ROWS are never used. */
#define SIAD_HEADER_BYTES 4
#define SIAD_ROW_BYTES 96
#define SIAD_MOST_ROWS 4096
#define SIAD_REGISTER_BYTES(n) (SIAD_HEADER_BYTES + (size_t)SIAD_ROW_BYTES * (n))

/* The same before a Rivalutazione's evaluation was kept (E6), when rows were shorter: what siad_convert reads. */
#define SIAD_OLD_ROW_BYTES 91
#define SIAD_OLD_REGISTER_BYTES(n) (SIAD_HEADER_BYTES + (size_t)SIAD_OLD_ROW_BYTES * (n))

/* The longest submission, and the events that a record may have. */
#define SIAD_MOST_BYTES 1048576
#define SIAD_MOST_EVENTS 128

/* No cancellation file is longer: an output of so many bytes never gets SIAD_SHORT_OUTPUT. 4,095 events of at most 101
   bytes each, 317 for each of 32 records, 27 for the root. */
#define SIAD_MOST_CANCEL_BYTES 423766

/* The texts that siad_find, siad_cancel_file and siad_evaluation take: their lengths, a date and a day as AAAA-MM-GG.
   Any other length is answered 30. */
#define SIAD_REGION_BYTES 3
#define SIAD_ASL_BYTES 3
#define SIAD_DATE_BYTES 10
#define SIAD_ID_BYTES 88

/* Answers for a file, in the order in which they are tested (docs/RULES.md, 6 Answers for a file). */
enum siad_file_answer {
    SIAD_TAKEN = 0,
    SIAD_BAD_PERIOD = 1,  /* year outside 2009 to 2099, or quarter outside 1 to 4 */
    SIAD_BAD_TRACK = 2,   /* track is neither 1 nor 2 */
    SIAD_UNSOUND = 3,     /* the register is not sound; of siad_empty: it has fewer than 4 bytes */
    SIAD_TOO_LONG = 4,    /* more than SIAD_MOST_BYTES */
    SIAD_NOT_MARKUP = 5,  /* not in the markup */
    SIAD_NOT_SHAPE = 6,   /* not of the shape; the record's number and its first fault's place, or 0 and the root's for
                             a fault outside every record */
    SIAD_MANY_EVENTS = 7, /* a record has more than SIAD_MOST_EVENTS; the first one's number */
    SIAD_SHORT_LIST = 8   /* the answer list has fewer bytes than there are records */
};

/* Answers for a record of a taken file, the first that holds (docs/RULES.md, 7 Anomalies of a record). */
enum siad_record_answer {
    SIAD_ACCEPTED = 0,
    SIAD_OUTSIDE_QUARTER = 10,  /* a date outside the declared quarter */
    SIAD_BIRTH_YEAR = 11,       /* before 1880, or after the year of taking in */
    SIAD_RESIDENCE = 12,        /* StatoEstero and the codes 999 don't go together, or it is IT */
    SIAD_NO_PATHOLOGY = 13,     /* a prevalente is 000 */
    SIAD_STANDS = 14,           /* I, and its case or event stands */
    SIAD_STANDS_NOT = 15,       /* V or C, and its case or event doesn't stand */
    /* 16 is not given any more, and stays unused: a cancelled case takes its events along */
    SIAD_NO_ROOM = 17,          /* I, and there are too few rows */
    SIAD_NO_EVENT = 20,         /* no event in the record */
    SIAD_CONFIRMATION = 21,     /* confermaPrecedente 1 with a Valutazione, or 2 without */
    SIAD_EVENT_TWICE = 22,      /* one event key twice in the record */
    SIAD_ENDS_BEFORE = 23,      /* a suspension ends before it begins */
    SIAD_NO_CASE = 24,          /* the case isn't standing */
    SIAD_BEFORE_TAKING_IN = 25, /* an event before the taking in */
    SIAD_SUSPENSIONS_MEET = 26, /* two suspensions share a day */
    SIAD_TWO_CONCLUSIONS = 27,  /* two conclusions */
    SIAD_AFTER_CONCLUSION = 28  /* an event or its end after the conclusion */
};

/* siad_find and siad_evaluation beside 0 and SIAD_UNSOUND: a text isn't allowed, or the case doesn't stand; or the day,
   which siad_evaluation alone is told, is before the taking in. */
enum siad_find_answer { SIAD_NOT_FOUND = 30 };

/* siad_cancel_file beside 0, SIAD_BAD_PERIOD, SIAD_UNSOUND and SIAD_NOT_FOUND, and after them; siad_convert has the
   last of these alone beside 0 and SIAD_UNSOUND. */
enum siad_cancel_answer {
    SIAD_REPLACES = 31,           /* a Rivalutazione in the quarter has confermaPrecedente 2: its cancellation must have
                                     the Valutazione, of which the register keeps a part only */
    SIAD_NOTHING_IN_QUARTER = 32, /* the case has no event in the quarter */
    SIAD_SHORT_OUTPUT = 33        /* the file is longer than the output; of siad_convert: the new register has fewer
                                     than 4 bytes, or too little room for the rows that stand */
};

/* Where a report's numbers stand, and how many they are. */
enum siad_report {
    SIAD_NUMBER,            /* the record's, counted from 1, with SIAD_NOT_SHAPE and SIAD_MANY_EVENTS; else 0 */
    SIAD_RECORDS,           /* with SIAD_TAKEN, as the next two; else 0 */
    SIAD_RECORDS_ACCEPTED,
    SIAD_RECORDS_DISCARDED,
    SIAD_PLACE,             /* with SIAD_NOT_SHAPE, counted from the submission's byte 0; else 0 */
    SIAD_REPORT
};

/* Where the fields of an evaluation stand, and how many bytes they are: six numbers, 0 for one that is missing, else 1
   to 3, RischioInfettivo 1 or 2; then the Prevalente's 3 to 5 characters, unused last ones 0. */
enum siad_field {
    SIAD_AUTONOMIA,
    SIAD_GRADO_MOBILITA,
    SIAD_COGNITIVI,
    SIAD_COMPORTAMENTI,
    SIAD_SUPPORTO_SOCIALE,
    SIAD_RISCHIO_INFETTIVO,
    SIAD_PREVALENTE,
    SIAD_FIELDS = 11
};

#ifdef __cplusplus
extern "C" {
#endif

/* Empties a register: 0, every byte zero; or SIAD_UNSOUND, nothing changed, under 4 bytes. */
uint64_t siad_empty(uint8_t *reg, size_t reg_len);

/* 0 for a sound register, SIAD_UNSOUND for any other. */
uint64_t siad_sound(const uint8_t *reg, size_t reg_len);

/* Finds a case by its texts: 0 with the place of its row's first byte, counted from 0; or SIAD_UNSOUND or
   SIAD_NOT_FOUND, and the place is 0. */
uint64_t siad_find(const uint8_t *reg, size_t reg_len, const uint8_t *region, size_t region_len, const uint8_t *asl,
                   size_t asl_len, const uint8_t *date, size_t date_len, const uint8_t *id, size_t id_len,
                   uint64_t *place);

/* Writes a cancellation file: a submission of Track 2 that cancels every event of a case in a quarter. The case is
   named as for siad_find; a suspension counts in the quarter of its end, or of its begin where it has none. With 0 the
   first `length` bytes of `out` are the file, and later bytes stay. The file has 128 events to each record but the
   last; submitted to this register for this year and quarter, with an answer byte for each record, all of it is
   accepted, and of what stands these events alone are gone. With any other answer `length` is 0 and no byte of `out`
   changes. */
uint64_t siad_cancel_file(const uint8_t *reg, size_t reg_len, const uint8_t *region, size_t region_len,
                          const uint8_t *asl, size_t asl_len, const uint8_t *date, size_t date_len, const uint8_t *id,
                          size_t id_len, uint64_t year, uint64_t quarter, uint8_t *out, size_t out_len,
                          uint64_t *length);

/* Tells the evaluation that is in force for a case on a day: that of its latest Rivalutazione which is dated on the day
   or before it, has confermaPrecedente 2 and keeps an evaluation; where there is none, the case's own. The case is
   named as for siad_find; a day after its conclusion is answered too. `fields` are SIAD_FIELDS bytes, lent without a
   length, and all of them are written: with 0 the fields; with SIAD_UNSOUND or SIAD_NOT_FOUND zeros, which no
   evaluation is. */
uint64_t siad_evaluation(const uint8_t *reg, size_t reg_len, const uint8_t *region, size_t region_len,
                         const uint8_t *asl, size_t asl_len, const uint8_t *date, size_t date_len, const uint8_t *id,
                         size_t id_len, const uint8_t *day, size_t day_len, uint8_t fields[SIAD_FIELDS]);

/* Converts a register that is sound in rows of SIAD_OLD_ROW_BYTES. With 0 every byte of `fresh` is written, whatever it
   held: it is a sound register, in which the same cases and events stand, with the same fields; its header is the old
   one's, each row is the old one and five zero bytes, and all behind them is zero. A Rivalutazione keeps no evaluation
   then, and siad_evaluation passes it over until a submission varies it. With SIAD_UNSOUND, for any other old register,
   and with SIAD_SHORT_OUTPUT no byte of `fresh` changes. The old one is only read. So a `fresh` of length 0 asks
   whether a register is sound in old rows: SIAD_SHORT_OUTPUT, or SIAD_UNSOUND.
   To the calls that ask for a sound register an old one is SIAD_UNSOUND; but one without rows, or with a single case
   and room for a row of SIAD_ROW_BYTES, is sound in both and means the same. This last sentence was run
   (crates/register_cases), and is not proved. */
uint64_t siad_convert(const uint8_t *old, size_t old_len, uint8_t *fresh, size_t fresh_len);

/* Takes a submission of a track, a year and a quarter into a register. With SIAD_TAKEN byte i - 1 of `answers` is
   record i's answer, later bytes stay, and the register holds what the accepted records say. With any other answer all
   counts are 0 and no byte of register or answer list changes. An answer list as long as the submission never gets
   SIAD_SHORT_LIST.
   `report` is lent as `report_len` numbers, not bytes, and gets SIAD_REPORT of them: record number, records, accepted,
   discarded, place. A shorter one gets as many as fit; entries behind them stay. With SIAD_NOT_SHAPE the place is that
   of the `<` which opens the element that the record's first fault, in reading order, was met in: of a text, a code, a
   date or an attribute its own element; of missing, extra or misordered children, and of text between them, their
   parent; with record number 0 the root. A root may stand at place 0: SIAD_NOT_SHAPE is told by the answer alone.
   The report was four numbers without a length before there was a place (E5): the one change of this call's form, made
   while nothing is in the field yet. A host that was built for the old form still links, and lends whatever stands
   there as the length: build it anew. */
uint64_t siad_submit(const uint8_t *sub, size_t sub_len, uint64_t track, uint64_t year, uint64_t quarter, uint8_t *reg,
                     size_t reg_len, uint8_t *answers, size_t answers_len, uint64_t *report, size_t report_len);

#ifdef __cplusplus
}
#endif

#endif
