/* A whole call: the submission is taken into its register. The register is restored before each. */
#include "../host/siad.h"
#include "repeat.h"
#include <inttypes.h>
#include <stdio.h>
#include <string.h>

static uint8_t reg[ROOM], answers[MOST];
static uint64_t answer, report[SIAD_REPORT];

submitter *const preparing = siad_submit;

void ready(const char *word) {
    (void)word;
}

void once(const struct file *f) {
    memcpy(reg, f->reg, ROOM);
    answer = siad_submit((const uint8_t *)f->bytes, f->n, f->track, f->year, f->quarter, reg, ROOM, answers, MOST,
                         report, SIAD_REPORT);
}

void tell(void) {
    uint64_t records = report[SIAD_RECORDS];
    printf("answer %" PRIu64 ", %" PRIu64 " records, %" PRIu64 " accepted", answer, records,
           report[SIAD_RECORDS_ACCEPTED]);
    if (answer) printf(", record %" PRIu64 ", place %" PRIu64, report[SIAD_NUMBER], report[SIAD_PLACE]);
    if (records) printf(", the last answered %d", answers[records - 1]);
}
