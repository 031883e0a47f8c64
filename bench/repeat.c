/* The main function of the measuring programs: see repeat.h. */
#define _GNU_SOURCE
#include "repeat.h"
#include <stdio.h>
#include <stdlib.h>
#include <string.h>
#include <time.h>

static double now(void) {
    struct timespec t;
    clock_gettime(CLOCK_MONOTONIC, &t);
    return (double)t.tv_sec * 1e3 + (double)t.tv_nsec * 1e-6;
}

static double best_of_20(const struct file *f) {
    double best = 1e9;
    for (int i = 0; i < 20; i++) {
        double t = now();
        once(f);
        t = now() - t;
        if (t < best) best = t;
    }
    return best;
}

static int usage(const char *program) {
    fprintf(stderr, "%s KIND REPEATS|time [WORD], where KIND is one of\n", program);
    for (const struct kind *k = kinds; k->name; k++) printf("%-18s %s\n", k->name, k->what);
    return 2;
}

int main(int argc, char **argv) {
    struct file f;
    if (argc < 3) return usage(argv[0]);
    make_file(&f, argv[1], preparing);
    ready(argc > 3 ? argv[3] : NULL);
    double best = 0;
    int timed = !strcmp(argv[2], "time");
    if (timed) best = best_of_20(&f);
    for (int i = timed ? 0 : atoi(argv[2]); i > 0; i--) once(&f);
    printf("%s %zu bytes, ", argv[1], f.n);
    tell();
    if (timed) printf(", %.3f ms", best);
    printf("\n");
    return 0;
}
