/* Makes the calls of siad.h that are asked for on standard input, so that the asking program may run on another
   processor. Numbers are 8 bytes, least significant first. Asked: the call's number (0 empty, 1 sound, 2 find,
   3 submit, 4 cancel_file, 5 evaluation, 6 convert), for a submission track, year and quarter, for a cancellation file
   year and quarter, then each buffer in the call's order: the bytes lent, the bytes kept on either side, and all of
   them. In place of the second, AT_END has the buffer end, and AT_START begin, at a page that no one may touch. A
   submission's last buffer is its report, of as many numbers as its bytes hold; an evaluation's is its eleven bytes,
   which are lent without a length. Told: the answer, and all bytes of each buffer. */
#define _GNU_SOURCE
#include "../siad.h"
#include <stdio.h>
#include <stdlib.h>
#include <sys/mman.h>

enum { CALLS = 7, MOST = 7, PAGE = 4096 };
#define AT_END UINT64_MAX
#define AT_START (UINT64_MAX - 1)
static const int buffers_of[CALLS] = {1, 1, 6, 4, 7, 7, 2};
static const int numbers_of[CALLS] = {0, 0, 0, 3, 2, 0, 0};

struct buffer {
    uint8_t *pages, *all, *lent;
    size_t mapped, held, len;
};

/* n bytes, or the program ends: with status 0 where the input ends between two calls. */
static void get(void *to, size_t n, int between) {
    if (n > 0 && fread(to, 1, n, stdin) != n) exit(between && feof(stdin) ? 0 : 2);
}

static void put(const void *from, size_t n) {
    if (fwrite(from, 1, n, stdout) != n) exit(2);
}

static uint64_t number(int between) {
    uint64_t n;
    get(&n, sizeof n, between);
    return n;
}

/* Room for a buffer, between two pages that no one may touch. */
static void get_buffer(struct buffer *b) {
    b->len = number(0);
    uint64_t side = number(0);
    size_t kept = side >= AT_START ? 0 : side;
    b->held = b->len + 2 * kept;
    size_t inner = (b->held / PAGE + 1) * PAGE;
    b->mapped = inner + 2 * PAGE;
    b->pages = mmap(NULL, b->mapped, PROT_READ | PROT_WRITE, MAP_PRIVATE | MAP_ANONYMOUS, -1, 0);
    if (b->pages == MAP_FAILED || mprotect(b->pages, PAGE, PROT_NONE) != 0 ||
        mprotect(b->pages + PAGE + inner, PAGE, PROT_NONE) != 0)
        exit(2);
    b->all = b->pages + PAGE + (side == AT_END ? inner - b->held : 0);
    b->lent = b->all + kept;
    get(b->all, b->held, 0);
}

static uint64_t call(uint64_t which, const uint64_t *n, const struct buffer *b) {
    switch (which) {
    case 0: return siad_empty(b->lent, b->len);
    case 1: return siad_sound(b->lent, b->len);
    case 2:
        return siad_find(b[0].lent, b[0].len, b[1].lent, b[1].len, b[2].lent, b[2].len, b[3].lent, b[3].len, b[4].lent,
                         b[4].len, (uint64_t *)(void *)b[5].lent);
    case 3:
        return siad_submit(b[0].lent, b[0].len, n[0], n[1], n[2], b[1].lent, b[1].len, b[2].lent, b[2].len,
                           (uint64_t *)(void *)b[3].lent, b[3].len / sizeof(uint64_t));
    case 4:
        return siad_cancel_file(b[0].lent, b[0].len, b[1].lent, b[1].len, b[2].lent, b[2].len, b[3].lent, b[3].len,
                                b[4].lent, b[4].len, n[0], n[1], b[5].lent, b[5].len, (uint64_t *)(void *)b[6].lent);
    case 5:
        return siad_evaluation(b[0].lent, b[0].len, b[1].lent, b[1].len, b[2].lent, b[2].len, b[3].lent, b[3].len,
                               b[4].lent, b[4].len, b[5].lent, b[5].len, b[6].lent);
    default: return siad_convert(b[0].lent, b[0].len, b[1].lent, b[1].len);
    }
}

int main(void) {
    struct buffer b[MOST] = {{NULL, NULL, NULL, 0, 0, 0}};
    for (;;) {
        uint64_t which = number(1), n[3] = {0, 0, 0};
        if (which >= CALLS) return 2;
        for (int i = 0; i < numbers_of[which]; i++) n[i] = number(0);
        for (int i = 0; i < buffers_of[which]; i++) get_buffer(&b[i]);
        uint64_t answer = call(which, n, b);
        put(&answer, sizeof answer);
        for (int i = 0; i < buffers_of[which]; i++) {
            put(b[i].all, b[i].held);
            munmap(b[i].pages, b[i].mapped);
        }
        if (fflush(stdout) != 0) return 2;
    }
}
