/* The markup alone, without shape and register: what expat's bare parse does. From crates/bench_calls. */
#include "repeat.h"
#include <stdbool.h>
#include <stdio.h>

bool bench_in_markup(const uint8_t *s, size_t n);

static bool taken;

submitter *const preparing = NULL;

void ready(const char *word) {
    (void)word;
}

void once(const struct file *f) {
    taken = bench_in_markup((const uint8_t *)f->bytes, f->n);
}

void tell(void) {
    printf("%s by the markup", taken ? "taken" : "refused");
}
