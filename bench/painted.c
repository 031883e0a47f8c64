/* See painted.h. */
#define _GNU_SOURCE
#include "painted.h"
#include <string.h>
#include <ucontext.h>

enum { SIZE = 256 * 1024, PATTERN = 0xa5 };
static _Alignas(64) unsigned char stack[SIZE];

static void nothing(void) {
}

/* The stack grows towards its first byte. */
static size_t painted(void (*function)(void)) {
    ucontext_t here, there;
    size_t left = 0;
    memset(stack, PATTERN, SIZE);
    getcontext(&there);
    there.uc_stack.ss_sp = stack;
    there.uc_stack.ss_size = SIZE;
    there.uc_link = &here;
    makecontext(&there, function, 0);
    swapcontext(&here, &there);
    while (left < SIZE && stack[left] == PATTERN) left++;
    return SIZE - left;
}

size_t used_by(void (*function)(void)) {
    size_t empty = painted(nothing);
    return painted(function) - empty;
}
