/* A cancellation file: cancel EVENTS REPEATS packs a register with one case and so many visits in quarter 2 of 2018, 14
   operators a day, and has the file written REPEATS times. It prints the answer, the length and the stack of a call. */
#include "../host/siad.h"
#include "bits.h"
#include "painted.h"
#include <inttypes.h>
#include <stdio.h>
#include <stdlib.h>
#include <string.h>

/* 2018-04-01 as a day number, the days of the quarter; no end. */
enum { ROWS = 4096, APRIL = 43189, DAYS = 91, OPERATORS = 14, NEVER = 131071 };
static uint8_t reg[SIAD_REGISTER_BYTES(ROWS)], out[SIAD_MOST_CANCEL_BYTES], id[SIAD_ID_BYTES];
static uint64_t answer, length;
static size_t bit;

/* The next field of the rows. */
static void field(uint64_t value, int bits) {
    bit = put_bits(reg, bit, bits, value);
}

static void row(size_t i) {
    bit = 8 * SIAD_REGISTER_BYTES(i);
    field(10, 8);
    for (int j = 0; j < 3; j++) field((uint64_t)"101"[j], 7);
    field(APRIL, 17);
    for (int j = 0; j < SIAD_ID_BYTES; j++) field(id[j], 7);
}

static void fill(size_t events) {
    memset(id, 'A', sizeof id);
    reg[1] = 1;
    reg[2] = (uint8_t)(events >> 8);
    reg[3] = (uint8_t)events;
    row(0);
    field(1940, 12);
    for (int j = 0; j < 5; j++) field((uint64_t)"250\0\0"[j], 7);
    for (size_t e = 0; e < events; e++) {
        size_t code = e % OPERATORS;
        row(e + 1);
        field(1, 2);
        field(APRIL + e / OPERATORS, 17);
        field(code == OPERATORS - 1 ? 99 : code + 1, 7);
        field(NEVER, 17);
        field(e % 100, 7);
        field(0, 2);
    }
}

static void call(void) {
    answer = siad_cancel_file(reg, sizeof reg, (const uint8_t *)"010", 3, (const uint8_t *)"101", 3,
                              (const uint8_t *)"2018-04-01", 10, id, sizeof id, 2018, 2, out, sizeof out, &length);
}

int main(int argc, char **argv) {
    size_t events = argc == 3 ? strtoul(argv[1], NULL, 10) : 0;
    if (events == 0 || events > DAYS * OPERATORS) {
        fprintf(stderr, "%s EVENTS REPEATS, EVENTS from 1 to %d\n", argv[0], DAYS * OPERATORS);
        return 2;
    }
    fill(events);
    size_t used = used_by(call);
    for (int i = atoi(argv[2]); i > 0; i--) call();
    printf("%zu events: answer %" PRIu64 ", %" PRIu64 " bytes, %zu bytes of stack\n", events, answer, length, used);
    return answer != 0;
}
