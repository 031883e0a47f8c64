/* The main function of the programs that store rows: see rows.h. */
#include "rows.h"
#include "bits.h"
#include <inttypes.h>
#include <stdio.h>
#include <stdlib.h>
#include <string.h>

enum { REGION = 10, TAKEN_IN = 43220, EROGAZIONE = 1, NO_END = 131071, CODE = 1, ACCESSES = 1, FAR = 10000 };

static size_t put_key(uint8_t row[ROW], int number) {
    char id[89];
    snprintf(id, sizeof id, "%088d", number);
    memset(row, 0, ROW);
    return put_text(row, put_bits(row, put_text(row, put_bits(row, 0, 8, REGION), "101"), 17, TAKEN_IN), id);
}

/* The events of a case: an Erogazione on each of the days after its taking in. */
static void make(struct record *r, int number, size_t n) {
    size_t at = put_key(r->probe, number);
    r->events = calloc(n, sizeof *r->events);
    r->rows = calloc(n, sizeof *r->rows);
    if (!r->events || !r->rows) exit(2);
    for (size_t i = 0; i < n; i++) {
        uint64_t key = (EROGAZIONE * 131072ull + TAKEN_IN + 1 + i) * 128 + CODE;
        r->events[i] = ((key * 131072 + NO_END) * 128 + ACCESSES) * 4;
        memcpy(r->rows[i], r->probe, ROW);
        put_bits(r->rows[i], at, 52, r->events[i]);
    }
    r->n = n;
}

static size_t rows;
static uint64_t sum;

static void see(const uint8_t row[ROW]) {
    rows++;
    for (int i = 0; i < ROW; i++) sum = (sum ^ row[i]) * 1099511628211u;
}

static int usage(const char *program) {
    fprintf(stderr, "%s STANDING-up|down-EACH REPEATS [bare]\n", program);
    return 2;
}

int main(int argc, char **argv) {
    size_t standing, each;
    char order[5];
    if (argc < 3 || sscanf(argv[1], "%zu-%4[a-z]-%zu", &standing, order, &each) != 3 || !each) return usage(argv[0]);
    size_t n = EVENTS / each;
    int bare = argc > 3 && !strcmp(argv[3], "bare"), down = !strcmp(order, "down");
    struct record *before = calloc(standing + 1, sizeof *before), *records = calloc(n, sizeof *records);
    if (!before || !records) return 2;
    for (size_t i = 0; i < standing; i++) make(&before[i], FAR + (int)i, 1);
    for (size_t i = 0; i < n; i++) make(&records[i], (int)(down ? n - 1 - i : i), each);
    for (int times = atoi(argv[2]); times > 0; times--) {
        prepare(before, standing);
        for (size_t i = 0; !bare && i < n; i++) store(&records[i]);
        finish();
    }
    each_row(see);
    printf("%zu rows, %016" PRIx64 "\n", rows, sum);
    return 0;
}
