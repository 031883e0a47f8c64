/* How much stack siad_submit takes: for each kind of file, and the greatest. */
#include "../host/siad.h"
#include "files.h"
#include "painted.h"
#include <inttypes.h>
#include <stdio.h>
#include <stdlib.h>

static uint8_t answers[MOST];
static uint64_t answer, report[SIAD_REPORT];
static struct file file;

static void call(void) {
    answer = siad_submit((uint8_t *)file.bytes, file.n, file.track, file.year, file.quarter, file.reg, ROOM, answers,
                         MOST, report, SIAD_REPORT);
}

int main(void) {
    size_t most = 0;
    const char *which = "";
    for (const struct kind *k = kinds; k->name; k++) {
        make_file(&file, k->name, siad_submit);
        size_t used = used_by(call);
        printf("%-18s %6zu bytes of stack, answer %" PRIu64 "\n", k->name, used, answer);
        if (used > most) most = used, which = k->name;
        free(file.bytes);
        free(file.reg);
    }
    printf("greatest stack: %zu bytes (%s)\n", most, which);
    return 0;
}
