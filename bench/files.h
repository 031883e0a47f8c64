/* The measured files. Each is made by the name of its kind, the same on every machine, with the register that it is
   submitted to. */
#ifndef FILES_H
#define FILES_H
#include <stddef.h>
#include <stdint.h>

enum { MOST = 1 << 20, ROOM = 4 + 96 * 4096 };

/* siad_submit, or NULL for a program that only parses: such a one needs no register, and then none is prepared. */
typedef uint64_t submitter(const uint8_t *, size_t, uint64_t, uint64_t, uint64_t, uint8_t *, size_t, uint8_t *, size_t,
                           uint64_t *, size_t);

struct file {
    char *bytes;
    size_t n; /* at most MOST */
    uint64_t track, year, quarter;
    uint8_t *reg; /* ROOM bytes: the register before the call */
    submitter *submit;
};

struct kind {
    const char *name, *what;
    uint64_t track;
    void (*make)(struct file *, const struct kind *);
    const char *at;                  /* the good file's text behind which something is put */
    const char *open, *each, *close; /* what is put there: one, as many as fit, one */
    int number;
};

/* All kinds; the last has no name. */
extern const struct kind kinds[];

/* Makes the file of a kind. Ends the program, with the reason on standard error, where it can't. */
void make_file(struct file *f, const char *wanted, submitter *submit);

#endif
