/* The gateway: an office's register file, over the calls of siad.h. It decodes no row of a register: it reads the two
   counts of a header, once the register is known to be sound. A file is written only as a whole, as a new one that
   takes the old one's name (files.c), so whoever reads a register sees it before or after a call. */
#define _GNU_SOURCE
#include "answers.h"
#include "files.h"
#include "where.h"
#include <errno.h>
#include <inttypes.h>
#include <signal.h>
#include <stdio.h>
#include <stdlib.h>
#include <string.h>

enum { GOOD = 0, NOT_SO = 1, FAILED = 2 }; /* exit statuses */

struct options {
    int force, backup;
};

static int failed(const char *what, const char *name) {
    fprintf(stderr, "gateway: %s %s: %s\n", what, name, strerror(errno));
    return FAILED;
}

/* The bytes take a file's name, to be used by those who use the file `like`. `undone` is what did not happen where they
   can't, `what` is what the file is. Gives replace_file's 0, 1 or -1, and has told the reason for the last two. */
static int write_whole(const char *name, const char *like, const char *said, const struct bytes *b, const char *undone,
                       const char *what) {
    int done = replace_file(name, like, b);
    if (done < 0) fprintf(stderr, "gateway: %s: cannot write %s %s: %s\n", undone, what, said, strerror(errno));
    else if (done > 0) failed("done, but a power failure may undo it: cannot sync the folder of", said);
    return done;
}

/* ---- a register's file */

struct reg {
    const char *said;   /* its name as it was given */
    char *name;         /* its name without links: what stands beside the file stands beside this name */
    struct bytes bytes; /* empty where the file is not there */
    int lock;           /* -1 without one */
};

static void waiting(void) {
    fputs("gateway: another gateway is writing this register: waiting for it\n", stderr);
}

static void close_register(struct reg *r) {
    if (r->lock >= 0) unlock_file(r->lock);
    free(r->bytes.at);
    free(r->name);
}

/* A name without links, where it is that of a regular file, or of nothing and `missing` is fine; `cannot` is told where
   it is neither. */
static int named(const char *said, int missing, const char *cannot, char **name) {
    *name = realpath(said, NULL);
    if (*name == NULL && errno == ENOENT && missing) *name = beside(said, "");
    if (*name == NULL) return failed(cannot, said);
    enum kind kind = kind_of(*name);
    if (kind == UNKNOWN) return failed(cannot, said);
    if (kind != OTHER) return GOOD;
    fprintf(stderr, "gateway: %s %s: it is not a regular file\n", cannot, said);
    return FAILED;
}

/* Reads a register; a writer locks it before and until close_register, which is called whatever this gives. */
static int open_register(struct reg *r, const char *said, int writer, int missing) {
    *r = (struct reg){said, NULL, {NULL, 0}, -1};
    if (named(said, missing, "cannot read the register", &r->name) != GOOD) return FAILED;
    if (writer && (r->lock = lock_file(r->name, waiting)) < 0) return failed("cannot lock the register", said);
    if (missing && kind_of(r->name) == NOTHING) return GOOD;
    return read_file(r->name, SIZE_MAX, &r->bytes) == 0 ? GOOD : failed("cannot read the register", said);
}

/* The new bytes take the register's name; with --backup the old ones first go to REGISTER.bak. A register that is not
   there yet is used as the file `like` is, where that is one. `undone` is what did not happen where they can't. Gives
   and tells what write_whole does. */
static int write_register(const struct reg *r, const char *like, const struct bytes *now, const struct options *o,
                          const char *undone) {
    char *bak = beside(r->name, ".bak");
    int done = o->backup && r->bytes.at != NULL ? replace_file(bak, r->name, &r->bytes) : 0;
    if (done < 0) fprintf(stderr, "gateway: %s: cannot write the backup %s: %s\n", undone, bak, strerror(errno));
    else done = write_whole(r->name, r->bytes.at != NULL ? r->name : like, r->said, now, undone, "the register");
    free(bak);
    return done;
}

/* The counts of a sound register's header, most significant byte first. */
static unsigned cases_of(const struct bytes *b) {
    return 256u * b->at[0] + b->at[1];
}

static unsigned events_of(const struct bytes *b) {
    return 256u * b->at[2] + b->at[3];
}

/* Whether it is a sound register of before, in rows of 91 bytes: only then a new one without a byte is too short. */
static int is_old(const struct bytes *b) {
    uint8_t none;
    return siad_convert(b->at, b->len, &none, 0) == SIAD_SHORT_OUTPUT;
}

/* ---- what is printed: the program's words, a tab, the answer in words */

static const char *in_words(uint64_t answer, const char *zero) {
    const char *words = words_of(answer, zero);
    return words == NULL ? "an answer that no call gives" : words;
}

/* The status, once all that was printed is out; `done` is what stays done where it can't be. */
static int printed(int status, const char *done) {
    if (fflush(stdout) == 0 && !ferror(stdout)) return status;
    return failed(done, "cannot be printed");
}

/* With answer 3, what to do about a register of before. */
static void tell_old(const struct reg *r, uint64_t answer) {
    if (answer != SIAD_UNSOUND || !is_old(&r->bytes)) return;
    fprintf(stderr, "gateway: %s is a register of before, in rows of %d bytes: gateway convert makes rows of %d\n",
            r->said, SIAD_OLD_ROW_BYTES, SIAD_ROW_BYTES);
}

/* The status of an answer about a register, once that is out. */
static int answered(const struct reg *r, uint64_t answer) {
    int status = printed(answer == 0 ? GOOD : NOT_SO, "the answer");
    if (status == NOT_SO) tell_old(r, answer);
    return status;
}

static void print_file(uint64_t answer, const uint64_t *report) {
    uint64_t number = report[SIAD_NUMBER];
    printf("file %" PRIu64 " %" PRIu64 " records %" PRIu64 " accepted %" PRIu64 " discarded %" PRIu64 "\t%s", answer,
           number, report[SIAD_RECORDS], report[SIAD_RECORDS_ACCEPTED], report[SIAD_RECORDS_DISCARDED],
           in_words(answer, "taken"));
    if (number > 0) printf(": record (Assistenza) %" PRIu64, number);
    else if (answer == SIAD_NOT_SHAPE) fputs(" outside every record (Assistenza), or no record at all", stdout);
    putchar('\n');
}

static void print_records(const uint8_t *answers, uint64_t records) {
    for (uint64_t i = 0; i < records; i++)
        printf("%" PRIu64 " %u\t%s\n", i + 1, answers[i], in_words(answers[i], "accepted"));
}

/* Where a submission is not of the shape, as compilers tell it. A place that is none in the file is not told. */
static void tell_place(const char *said, const struct bytes *sub, const uint64_t *report) {
    const char *fault = report[SIAD_NUMBER] > 0
                            ? "the first fault is in the element that begins here"
                            : "the fault is outside every record, or there is no record: this is the root";
    struct where w;
    if (!where_is(sub->at, sub->len, report[SIAD_PLACE], &w)) return;
    fprintf(stderr, "%s:%zu:%zu: %s (byte %" PRIu64 ", counted from 0)\n%s\n%s\n", said, w.line, w.column,
            fault, report[SIAD_PLACE], w.text, w.mark);
}

/* What stands, and how much room a register of this length has. */
static void print_counts(const struct bytes *b) {
    size_t rows = (b->len - SIAD_HEADER_BYTES) / SIAD_ROW_BYTES;
    if (rows > SIAD_MOST_ROWS) rows = SIAD_MOST_ROWS;
    unsigned cases = cases_of(b), events = events_of(b);
    printf("cases %u events %u\t%u of %zu rows are in use\n", cases, events, cases + events, rows);
}

/* ---- the arguments */

/* A number of 1 to 4 digits, as the program's first line has it. */
static int number(const char *what, const char *text, uint64_t *n) {
    size_t len = strlen(text);
    *n = strtoull(text, NULL, 10);
    if (len >= 1 && len <= 4 && strspn(text, "0123456789") == len) return GOOD;
    fprintf(stderr, "gateway: %s is a number of 1 to 4 digits, not \"%s\"\n", what, text);
    return FAILED;
}

static int rows_of(const char *text, uint64_t *rows) {
    if (number("ROWS", text, rows) != GOOD) return FAILED;
    if (*rows >= 1 && *rows <= SIAD_MOST_ROWS) return GOOD;
    fprintf(stderr, "gateway: ROWS is a number from 1 to %d, not %s\n", SIAD_MOST_ROWS, text);
    return FAILED;
}

/* The texts that name a case: region, ASL, date, Id_Rec. */
struct key {
    const uint8_t *text[4];
    size_t len[4];
};

static struct key key_of(char **w) {
    struct key k;
    for (int i = 0; i < 4; i++) {
        k.text[i] = (const uint8_t *)w[i];
        k.len[i] = strlen(w[i]);
    }
    return k;
}

/* ---- the commands, each over its words */

/* 0 where the file is not there or an emptied register: nothing is lost with it. `forced` is what --force does. */
static int holds_something(const struct reg *r, const char *forced) {
    if (r->bytes.at == NULL) return 0;
    int before = siad_sound(r->bytes.at, r->bytes.len) != 0;
    if (before && !is_old(&r->bytes)) {
        fprintf(stderr, "gateway: %s is not a sound register and is left as it is; --force overwrites it\n", r->said);
        return 1;
    }
    unsigned cases = cases_of(&r->bytes), events = events_of(&r->bytes);
    if (cases + events == 0) return 0;
    fprintf(stderr, "gateway: %s holds something (cases %u events %u%s) and is left as it is; --force %s it\n", r->said,
            cases, events, before ? ", in rows of before: gateway convert keeps them" : "", forced);
    return 1;
}

/* Writes the emptied register and tells so. */
static int write_empty(const struct reg *r, const struct options *o, size_t len) {
    struct bytes now = {room(len), len};
    uint64_t answer = siad_empty(now.at, now.len);
    int wrote = write_register(r, r->name, &now, o, "NOT emptied"), status = wrote == 0 ? GOOD : FAILED;
    if (wrote >= 0) {
        printf("empty %" PRIu64 "\t%s\n", answer, in_words(answer, "an emptied register"));
        print_counts(&now);
        status = printed(status, "the register is emptied, but that");
    }
    free(now.at);
    return status;
}

static int empty(char **w, const struct options *o) {
    uint64_t rows;
    struct reg r;
    if (rows_of(w[1], &rows) != GOOD) return FAILED;
    int status = open_register(&r, w[0], 1, 1);
    if (status == GOOD && !o->force && holds_something(&r, "empties")) status = NOT_SO;
    if (status == GOOD) status = write_empty(&r, o, SIAD_REGISTER_BYTES(rows));
    close_register(&r);
    return status;
}

/* What was answered, and what stands; of an unsound register nothing can be told. */
static int print_report(int status, uint64_t answer, const uint64_t *report, const uint8_t *answers,
                        const struct bytes *now) {
    print_file(answer, report);
    print_records(answers, report[SIAD_RECORDS]);
    if (siad_sound(now->at, now->len) == 0) print_counts(now);
    return printed(status, answer == SIAD_TAKEN ? "the submission is taken, but its report"
                                                : "the submission is refused, and its report");
}

/* The call, the register's file, the report. The file is written where the register's bytes changed, which only a taken
   submission does. `said` is the submission's name. */
static int take(const struct reg *r, const char *said, const struct bytes *sub, const uint64_t *period,
                const struct options *o) {
    uint64_t report[SIAD_REPORT] = {0};
    uint8_t *answers = room(sub->len); /* a record takes more than a byte, so this list is never too short */
    struct bytes now = {room(r->bytes.len), r->bytes.len};
    memcpy(now.at, r->bytes.at, now.len);
    uint64_t answer = siad_submit(sub->at, sub->len, period[0], period[1], period[2], now.at, now.len, answers,
                                  sub->len, report, SIAD_REPORT);
    int changed = memcmp(now.at, r->bytes.at, now.len) != 0;
    int wrote = changed ? write_register(r, r->name, &now, o, "the submission is NOT taken") : 0;
    int status = wrote != 0 ? FAILED : answer == SIAD_TAKEN ? GOOD : NOT_SO;
    if (wrote >= 0) status = print_report(status, answer, report, answers, &now);
    if (answer == SIAD_NOT_SHAPE && status == NOT_SO) tell_place(said, sub, report);
    if (status == NOT_SO) tell_old(r, answer);
    free(now.at);
    free(answers);
    return status;
}

static int submit(char **w, const struct options *o) {
    static const char *const what[3] = {"TRACK", "YEAR", "QUARTER"};
    uint64_t period[3];
    struct bytes sub = {NULL, 0};
    struct reg r;
    for (int i = 0; i < 3; i++)
        if (number(what[i], w[2 + i], &period[i]) != GOOD) return FAILED;
    /* one byte more than a submission may have is enough for answer 4 */
    if (read_file(w[1], SIAD_MOST_BYTES + 1, &sub) != 0) {
        free(sub.at);
        return failed("cannot read the submission", w[1]);
    }
    int status = open_register(&r, w[0], 1, 0);
    if (status == GOOD) status = take(&r, w[1], &sub, period, o);
    close_register(&r);
    free(sub.at);
    return status;
}

static int sound(char **w, const struct options *o) {
    struct reg r;
    (void)o;
    int status = open_register(&r, w[0], 0, 0);
    if (status == GOOD) {
        uint64_t answer = siad_sound(r.bytes.at, r.bytes.len);
        printf("sound %" PRIu64 "\t%s\n", answer, in_words(answer, "the register is sound"));
        status = answered(&r, answer);
    }
    close_register(&r);
    return status;
}

static int find(char **w, const struct options *o) {
    struct reg r;
    (void)o;
    int status = open_register(&r, w[0], 0, 0);
    if (status == GOOD) {
        uint64_t place;
        struct key k = key_of(w + 1);
        uint64_t answer = siad_find(r.bytes.at, r.bytes.len, k.text[0], k.len[0], k.text[1], k.len[1], k.text[2],
                                    k.len[2], k.text[3], k.len[3], &place);
        printf("find %" PRIu64 " %" PRIu64 "\t%s\n", answer, place,
               in_words(answer, "the case stands; its row begins at this place of the register, counted from 0"));
        status = answered(&r, answer);
    }
    close_register(&r);
    return status;
}

static int count(char **w, const struct options *o) {
    struct reg r;
    (void)o;
    int status = open_register(&r, w[0], 0, 0);
    if (status == GOOD) {
        uint64_t answer = siad_sound(r.bytes.at, r.bytes.len);
        if (answer == 0) print_counts(&r.bytes);
        else printf("count %" PRIu64 "\t%s\n", answer, in_words(answer, ""));
        status = answered(&r, answer);
    }
    close_register(&r);
    return status;
}

/* ---- a cancellation file */

static void waiting_beside(void) {
    fputs("gateway: another gateway is writing beside this file: waiting for it\n", stderr);
}

static int left(const char *name, const char *why, const char *unless) {
    fprintf(stderr, "gateway: %s %s and is left as it is%s\n", name, why, unless);
    return NOT_SO;
}

/* Not so where the name is the register's, or that of a file which a gateway makes beside it: what is written there
   would be lost with the next submission, or be taken for a lock or a backup. `which` register it is, is told. */
static int not_its_own(const struct reg *r, const char *which, const char *said, const char *name) {
    static const char *const own[][2] = {
        {"", ""}, {".new", "'s new bytes"}, {".lock", "'s lock"}, {".bak", "'s backup"}, {".bak.new", "'s new backup"}};
    for (size_t i = 0; i < sizeof own / sizeof *own; i++) {
        char *kept = beside(r->name, own[i][0]);
        int same = same_file(name, kept);
        free(kept);
        if (!same) continue;
        fprintf(stderr, "gateway: %s is %s%s%s and is left as it is\n", said, i > 0 ? "for " : "", which, own[i][1]);
        return NOT_SO;
    }
    return GOOD;
}

/* Whether a file may be written by way of `fresh`, which replace_file removes before: neither is the register's, and
   nothing stands there but what --force gives up. A name that is still a link leads to nothing (named). */
static int may_write_by(const char *fresh, const struct reg *r, const char *said, const char *name, int force) {
    if (not_its_own(r, "the register", said, name) != GOOD) return NOT_SO;
    if (not_its_own(r, "the register", fresh, fresh) != GOOD) return NOT_SO;
    enum kind kind = kind_of(name);
    if (kind == NOTHING && taken(name)) return left(said, "is a link to nothing", "");
    if (force) return GOOD;
    if (kind != NOTHING) return left(said, "exists", "; --force replaces it");
    return taken(fresh) ? left(fresh, "is in the way", "; --force removes it") : GOOD;
}

static int may_write(const struct reg *r, const char *said, const char *name, const struct options *o) {
    char *fresh = beside(name, ".new");
    int status = may_write_by(fresh, r, said, name, o->force);
    free(fresh);
    return status;
}

/* What was answered; with 0, what the file is good for: w are the case's texts, the year and the quarter. */
static void print_cancel(uint64_t answer, uint64_t length, char **w) {
    printf("cancel-file %" PRIu64 " %" PRIu64 "\t", answer, length);
    if (answer != 0) printf("%s\n", in_words(answer, ""));
    else
        printf("%" PRIu64 " bytes that cancel the events of quarter %s of %s of the case %s %s %s %s\n", length, w[5],
               w[4], w[0], w[1], w[2], w[3]);
}

/* The call, the file where there is one, the answer. */
static int write_cancel(const struct reg *r, const char *name, char **w, const uint64_t *period) {
    struct bytes out = {room(SIAD_MOST_CANCEL_BYTES), 0};
    struct key k = key_of(w + 2);
    uint64_t length;
    uint64_t answer =
        siad_cancel_file(r->bytes.at, r->bytes.len, k.text[0], k.len[0], k.text[1], k.len[1], k.text[2], k.len[2],
                         k.text[3], k.len[3], period[0], period[1], out.at, SIAD_MOST_CANCEL_BYTES, &length);
    out.len = length;
    int wrote = answer == 0 ? write_whole(name, name, w[1], &out, "NOT written", "the cancellation file") : 0;
    int status = wrote != 0 ? FAILED : answer == 0 ? GOOD : NOT_SO;
    if (wrote >= 0) {
        print_cancel(answer, length, w + 2);
        status = printed(status, answer == 0 ? "the cancellation file is written, but that" : "the answer");
        if (status == NOT_SO) tell_old(r, answer);
    }
    free(out.at);
    return status;
}

static int cancel_file(char **w, const struct options *o) {
    static const char *const what[2] = {"YEAR", "QUARTER"};
    uint64_t period[2];
    char *name = NULL;
    int lock = -1;
    struct reg r;
    for (int i = 0; i < 2; i++)
        if (number(what[i], w[6 + i], &period[i]) != GOOD) return FAILED;
    int status = open_register(&r, w[0], 0, 0);
    if (status == GOOD) status = named(w[1], 1, "cannot write", &name);
    if (status == GOOD && (lock = lock_folder(name, waiting_beside)) < 0)
        status = failed("cannot lock the folder of", w[1]);
    if (status == GOOD) status = may_write(&r, w[1], name, o);
    if (status == GOOD) status = write_cancel(&r, name, w, period);
    if (lock >= 0) unlock_file(lock);
    free(name);
    close_register(&r);
    return status;
}

/* ---- an evaluation */

/* Its prevalente, which may have blanks and line ends (S15): each of them, and a backslash, as \x and two digits. */
enum { SPELLED = 4 * (SIAD_FIELDS - SIAD_PREVALENTE) + 1 };

static void spell(const uint8_t *fields, char text[SPELLED]) {
    text[0] = '\0';
    for (int i = SIAD_PREVALENTE; i < SIAD_FIELDS && fields[i] != 0; i++) {
        int seen = fields[i] > ' ' && fields[i] <= '~' && fields[i] != '\\';
        text += sprintf(text, seen ? "%c" : "\\x%02X", (unsigned)fields[i]);
    }
}

static void print_evaluation(const uint8_t *fields) {
    static const char *const names[SIAD_PREVALENTE] = {
        "autonomy (Autonomia)",
        "mobility (GradoMobilita)",
        "cognitive disorders (Cognitivi)",
        "behavioural disorders (Comportamentali)",
        "social support (SupportoSociale)",
        "risk of infection (RischioInfettivo)",
    };
    char prevalente[SPELLED];
    spell(fields, prevalente);
    fputs("evaluation 0", stdout);
    for (int i = 0; i < SIAD_PREVALENTE; i++) printf(" %u", fields[i]);
    printf(" %s\t", prevalente);
    for (int i = 0; i < SIAD_PREVALENTE; i++)
        if (fields[i] == 0) printf("%s missing, ", names[i]);
        else printf("%s %u, ", names[i], fields[i]);
    printf("main diagnosis (Prevalente) %s\n", prevalente);
}

static int evaluation(char **w, const struct options *o) {
    struct reg r;
    (void)o;
    int status = open_register(&r, w[0], 0, 0);
    if (status == GOOD) {
        uint8_t fields[SIAD_FIELDS];
        struct key k = key_of(w + 1);
        uint64_t answer = siad_evaluation(r.bytes.at, r.bytes.len, k.text[0], k.len[0], k.text[1], k.len[1], k.text[2],
                                          k.len[2], k.text[3], k.len[3], (const uint8_t *)w[5], strlen(w[5]), fields);
        if (answer == 0) print_evaluation(fields);
        else
            printf("evaluation %" PRIu64 "\t%s\n", answer,
                   answer == SIAD_NOT_FOUND ? NO_EVALUATION : in_words(answer, ""));
        status = answered(&r, answer);
    }
    close_register(&r);
    return status;
}

/* ---- a register converted */

/* Reads the old register; where gateways have written it, its lock stands, and one that is writing it is waited for. */
static int open_old(struct reg *r, const char *said) {
    int status = open_register(r, said, 0, 0);
    if (status != GOOD) return status;
    char *lock = beside(r->name, ".lock");
    if (taken(lock)) {
        close_register(r);
        status = open_register(r, said, 1, 0);
        if (r->lock >= 0) unlock_file(r->lock);
        r->lock = -1;
    }
    free(lock);
    return status;
}

/* Not so where one of the two registers is the other, or a file that a gateway makes beside it, and, without --force,
   where the new one is not there but what it is written by way of is. Asked before the new one is locked, so that no
   lock is made beside the old one. */
static int apart(const struct reg *old, const char *said, const struct options *o) {
    struct reg fresh = {said, NULL, {NULL, 0}, -1};
    int status = named(said, 1, "cannot write the register", &fresh.name);
    if (status == GOOD) status = not_its_own(old, "the old register", said, fresh.name);
    if (status == GOOD) status = not_its_own(&fresh, "the new register", old->said, old->name);
    if (status == GOOD && kind_of(fresh.name) == NOTHING && taken(fresh.name))
        status = left(said, "is a link to nothing", "");
    if (status == GOOD && !o->force && kind_of(fresh.name) == NOTHING) {
        char *way = beside(fresh.name, ".new");
        if (taken(way)) status = left(way, "is in the way", "; --force removes it");
        free(way);
    }
    close_register(&fresh);
    return status;
}

/* The new register's file, where nothing is lost with what stands there, and what stands in it then. A file that was
   not there is used as the old register's is. */
static int write_converted(const struct reg *old, const char *said, const struct bytes *now, const struct options *o) {
    struct reg fresh;
    int wrote = -1, status = open_register(&fresh, said, 1, 1);
    if (status == GOOD) status = not_its_own(old, "the old register", said, fresh.name); /* as it is named now */
    if (status == GOOD && !o->force && holds_something(&fresh, "replaces")) status = NOT_SO;
    if (status == GOOD) {
        wrote = write_register(&fresh, old->name, now, o, "NOT converted");
        status = wrote == 0 ? GOOD : FAILED;
    }
    if (wrote >= 0) {
        puts("convert 0\tall stands as before; a reassessment (Rivalutazione) keeps no Valutazione until it is varied");
        print_counts(now);
        status = printed(status, "the register is converted, but that");
    }
    close_register(&fresh);
    return status;
}

/* Why not. Of a register that is too large for the new one the counts are known: it is sound. */
static int print_not_converted(uint64_t answer, const struct reg *old, uint64_t rows) {
    printf("convert %" PRIu64 "\t", answer);
    if (answer == SIAD_SHORT_OUTPUT) {
        unsigned cases = cases_of(&old->bytes), events = events_of(&old->bytes);
        printf("%u rows stand (cases %u events %u), too many for %" PRIu64 "\n", cases + events, cases, events, rows);
    } else if (answer == SIAD_UNSOUND) {
        puts(siad_sound(old->bytes.at, old->bytes.len) == 0 ? WIDE_ALREADY : NOT_OLD);
    } else {
        puts(in_words(answer, ""));
    }
    return printed(NOT_SO, "the answer");
}

static int convert(char **w, const struct options *o) {
    uint64_t rows;
    struct reg old;
    if (rows_of(w[2], &rows) != GOOD) return FAILED;
    int status = open_old(&old, w[0]);
    if (status == GOOD) status = apart(&old, w[1], o);
    if (status == GOOD) {
        struct bytes now = {room(SIAD_REGISTER_BYTES(rows)), SIAD_REGISTER_BYTES(rows)};
        uint64_t answer = siad_convert(old.bytes.at, old.bytes.len, now.at, now.len);
        status = answer == 0 ? write_converted(&old, w[1], &now, o) : print_not_converted(answer, &old, rows);
        free(now.at);
    }
    close_register(&old);
    return status;
}

static const char help[] =
    "gateway empty [--force] [--backup] REGISTER ROWS\n"
    "    makes an emptied register for ROWS cases and events, 1 to 4096; a file that holds something is\n"
    "    left as it is, unless --force\n"
    "gateway submit [--backup] REGISTER SUBMISSION TRACK YEAR QUARTER\n"
    "    takes a submission (XML) of a track (1 or 2) and a quarter (1 to 4) into a register; prints the\n"
    "    file's answer, record number, records, accepted, discarded; each record's number and answer;\n"
    "    the cases and events that stand; with answer 6, on standard error, where the first fault is, as\n"
    "    SUBMISSION:LINE:COLUMN, and that line with a mark\n"
    "gateway sound REGISTER\n"
    "    tells whether a register is sound\n"
    "gateway find REGISTER REGION ASL DATE ID\n"
    "    tells where a case stands; DATE is that of the taking in (presa in carico), as AAAA-MM-GG, and ID\n"
    "    its Id_Rec\n"
    "gateway count REGISTER\n"
    "    tells how many cases and events stand\n"
    "gateway cancel-file [--force] REGISTER FILE REGION ASL DATE ID YEAR QUARTER\n"
    "    writes FILE, a submission of Track 2 that cancels every event of a case in a quarter; the register is\n"
    "    only read, until FILE is submitted; a FILE that exists is left as it is, unless --force\n"
    "gateway evaluation REGISTER REGION ASL DATE ID DAY\n"
    "    tells the assessment (Valutazione) of a case that is in force on DAY, as AAAA-MM-GG: six numbers, 0 for\n"
    "    one that is missing (Autonomia, GradoMobilita, Cognitivi, Comportamentali, SupportoSociale,\n"
    "    RischioInfettivo), and the main diagnosis (Prevalente), in which \\x and two digits stand for a blank, a\n"
    "    tab, a line end or a backslash\n"
    "gateway convert [--force] [--backup] OLD NEW ROWS\n"
    "    makes NEW, a register for ROWS cases and events, 1 to 4096, of OLD, a register of before, in rows of 91\n"
    "    bytes; OLD is only read; a NEW that holds something is left as it is, unless --force\n"
    "--backup keeps the register as it was before, as REGISTER.bak (of convert: NEW.bak).\n"
    "After a tab each line has its answer in words. Exit status: 0 taken, or so; 1 refused, or not so;\n"
    "2 the gateway failed, with the reason on standard error. REGISTER.lock keeps two gateways from writing\n"
    "one register at the same time: the second waits.\n";

static const struct command {
    const char *name;
    int words;
    const char *takes;
    int forces, backs_up; /* the options that it has */
    int (*run)(char **words, const struct options *o);
} commands[] = {
    {"empty", 2, "REGISTER ROWS", 1, 1, empty},
    {"submit", 5, "REGISTER SUBMISSION TRACK YEAR QUARTER", 0, 1, submit},
    {"sound", 1, "REGISTER", 0, 0, sound},
    {"find", 5, "REGISTER REGION ASL DATE ID", 0, 0, find},
    {"count", 1, "REGISTER", 0, 0, count},
    {"cancel-file", 8, "REGISTER FILE REGION ASL DATE ID YEAR QUARTER", 1, 0, cancel_file},
    {"evaluation", 6, "REGISTER REGION ASL DATE ID DAY", 0, 0, evaluation},
    {"convert", 3, "OLD NEW ROWS", 1, 1, convert},
};

/* Takes the options out of a command's words: how many words are left, or -1. */
static int without_options(const struct command *c, char **words, struct options *o) {
    int left = 0;
    for (int i = 0; words[i] != NULL; i++) {
        if (strncmp(words[i], "--", 2) != 0) words[left++] = words[i];
        else if (c->forces && strcmp(words[i], "--force") == 0) o->force = 1;
        else if (c->backs_up && strcmp(words[i], "--backup") == 0) o->backup = 1;
        else {
            fprintf(stderr, "gateway: %s has no option %s; gateway --help tells more\n", c->name, words[i]);
            return -1;
        }
    }
    return left;
}

static int run(const struct command *c, char **words) {
    struct options o = {0, 0};
    int left = without_options(c, words, &o);
    if (left < 0) return FAILED;
    if (left == c->words) return c->run(words, &o);
    fprintf(stderr, "gateway: %s takes %s; gateway --help tells more\n", c->name, c->takes);
    return FAILED;
}

int main(int argc, char **argv) {
    hold_streams();
    signal(SIGPIPE, SIG_IGN); /* a reader that goes away is an error like any other */
    signal(SIGXFSZ, SIG_IGN); /* as is a file that may not grow */
    if (argc >= 2 && strcmp(argv[1], "--help") == 0) {
        fputs(help, stdout);
        return printed(GOOD, "the help");
    }
    for (size_t i = 0; argc >= 2 && i < sizeof commands / sizeof *commands; i++)
        if (strcmp(argv[1], commands[i].name) == 0) return run(&commands[i], argv + 2);
    if (argc < 2) fputs("gateway: no command", stderr);
    else fprintf(stderr, "gateway: no command %s", argv[1]);
    fputs("; there are empty, submit, sound, find, count, cancel-file, evaluation, convert and --help\n", stderr);
    return FAILED;
}
