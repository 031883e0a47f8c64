/* The evaluation in force, and a register converted: evaluation KIND REPEATS, where KIND is WHAT-EVENTS, packs a
   register with one case and so many Rivalutazioni with confermaPrecedente 2, one a day, and makes a call REPEATS
   times. WHAT is `kept`, where each of them keeps an evaluation and that of the last day is asked; `passed`, where
   none does, so that all of them are passed over; or `convert`, where they stand in rows of 91 bytes. It prints the
   answer and the stack of a call; the exit status is 1 where the answer or what was written is wrong. */
#include "../host/siad.h"
#include "bits.h"
#include "painted.h"
#include <inttypes.h>
#include <stdio.h>
#include <stdlib.h>
#include <string.h>

/* 2018-04-01 as a day number; no end; the last of 4,095 days. */
enum { APRIL = 43189, NEVER = 131071, MOST = SIAD_MOST_ROWS - 1 };
#define LAST_DAY "2029-06-16"
#define ID "AAAAAAAAAAAAAAAAAAAAAAAAAAAAAAAAAAAAAAAAAAAAAAAAAAAAAAAAAAAAAAAAAAAAAAAAAAAAAAAAAAAAAAAA"

static uint8_t reg[SIAD_REGISTER_BYTES(SIAD_MOST_ROWS)], fresh[sizeof reg], fields[SIAD_FIELDS];
static size_t reg_len, row_bytes;
static uint64_t answer;

/* The bits up to the end of row i's key of a case; answers the next place. */
static size_t row(size_t i) {
    size_t at = put_bits(reg, 8 * (SIAD_HEADER_BYTES + row_bytes * i), 8, 10);
    return put_text(reg, put_bits(reg, put_text(reg, at, "101"), 17, APRIL), ID);
}

/* The case has 1 in each field and `250`, a Rivalutazione 2 and `300`. */
static void fill(size_t events, int keeps) {
    size_t at = put_text(reg, put_bits(reg, row(0), 12, 1940), "250");
    put_bits(reg, put_bits(reg, at, 14, 0), 12, 0x555);
    for (size_t e = 1; e <= events; e++) {
        at = put_bits(reg, put_bits(reg, put_bits(reg, row(e), 2, 0), 17, APRIL + e - 1), 7, 1);
        at = put_bits(reg, put_bits(reg, put_bits(reg, at, 17, NEVER), 7, 0), 2, 2);
        if (keeps) put_text(reg, put_bits(reg, at, 12, 0xaaa), "300");
    }
    reg[1] = 1;
    reg[2] = (uint8_t)(events >> 8);
    reg[3] = (uint8_t)events;
}

static void ask(void) {
    answer = siad_evaluation(reg, reg_len, (const uint8_t *)"010", 3, (const uint8_t *)"101", 3,
                             (const uint8_t *)"2018-04-01", 10, (const uint8_t *)ID, 88, (const uint8_t *)LAST_DAY, 10,
                             fields);
}

static void convert(void) {
    answer = siad_convert(reg, reg_len, fresh, sizeof fresh);
}

int main(int argc, char **argv) {
    char what[8] = "";
    size_t events = 0;
    if (argc != 3 || sscanf(argv[1], "%7[a-z]-%zu", what, &events) != 2 || events < 1 || events > MOST) {
        fprintf(stderr, "%s kept|passed|convert-EVENTS REPEATS, EVENTS from 1 to %d\n", argv[0], MOST);
        return 2;
    }
    int converts = !strcmp(what, "convert"), keeps = !strcmp(what, "kept");
    row_bytes = converts ? SIAD_OLD_ROW_BYTES : SIAD_ROW_BYTES;
    reg_len = SIAD_HEADER_BYTES + row_bytes * SIAD_MOST_ROWS;
    fill(events, keeps);
    size_t used = used_by(converts ? convert : ask);
    for (int i = atoi(argv[2]); i > 0; i--) (converts ? convert : ask)();
    printf("%s %zu events: answer %" PRIu64 ", %zu bytes of stack\n", what, events, answer, used);
    return answer != 0 || (converts ? fresh[3] != (uint8_t)events : fields[SIAD_AUTONOMIA] != 1 + keeps);
}
