/* Makes the measured files: ordinary ones, and ones that a sender could make to cost the reader as much as possible. */
#define _GNU_SOURCE
#include "../host/siad.h"
#include "files.h"
#include <stdarg.h>
#include <stdio.h>
#include <stdlib.h>
#include <string.h>
#include <time.h>

static _Noreturn void fail(const char *why, const char *what) {
    fprintf(stderr, "bench: %s %.200s\n", why, what);
    exit(2);
}

static void put(struct file *f, const char *format, ...) {
    va_list words;
    va_start(words, format);
    size_t n = (size_t)vsnprintf(f->bytes + f->n, MOST + 1 - f->n, format, words);
    va_end(words);
    if (f->n + n > MOST) fail("no room for", format);
    f->n += n;
}

static int fits(const struct file *f, size_t more) {
    return f->n + more <= MOST;
}

/* Submits what is made so far, so that it stands, and begins anew. Every record must be accepted: a kind whose register
   isn't the one meant would measure something else. */
static void stand(struct file *f, uint64_t track, uint64_t year, uint64_t quarter) {
    static uint8_t answers[4096];
    uint64_t report[SIAD_REPORT] = {0};
    if (f->submit && (f->submit((uint8_t *)f->bytes, f->n, track, year, quarter, f->reg, ROOM, answers, sizeof answers,
                                report, SIAD_REPORT) != 0 ||
                      report[SIAD_RECORDS] != report[SIAD_RECORDS_ACCEPTED]))
        fail("not accepted in full:", f->bytes);
    f->n = 0;
}

/* Days. Day 0 is 2010-01-01, when the cases with a long history are taken in. */

enum { LAST_DAY = 4017, LAST_QUARTER = 3926 }; /* 2020-12-31, and the first day of its quarter */

struct day {
    int year, quarter;
    char text[11];
};

static struct day day(int number) {
    time_t t = (time_t)(14610 + number) * 86400; /* 14,610 days after 1970-01-01 */
    struct tm *m = gmtime(&t);
    struct day d = {m->tm_year + 1900, m->tm_mon / 3 + 1, ""};
    strftime(d.text, sizeof d.text, "%Y-%m-%d", m);
    return d;
}

/* Records. Case i's Id_Rec is i in 88 digits. */

/* The record of Track 1 that all cases are made from: the first of a sample file. */
static const char *pattern(void) {
    static char text[8192];
    const char *path = "crates/siad_cases/data/case_twice";
    if (text[0]) return text;
    FILE *f = fopen(path, "r");
    if (!f) fail("from the repository's root I'd read", path);
    text[fread(text, 1, sizeof text - 1, f)] = 0;
    fclose(f);
    char *from = strstr(text, "<Assistenza>"), *to = strstr(text, "</Assistenza>");
    if (!from || !to) fail("no record in", path);
    to[13] = 0;
    return memmove(text, from, (size_t)(to + 14 - from));
}

static void put_case(struct file *f, char type, int i, const char *taken_in) {
    char id[89], *record = f->bytes + f->n;
    put(f, "%s", pattern());
    snprintf(id, sizeof id, "%088d", i);
    strstr(record, "<Trasmissione tipo=")[20] = type;
    memcpy(strstr(record, "<Id_Rec>") + 8, id, 88);
    memcpy(strstr(record, "<PresaInCarico data=") + 21, taken_in, 10);
}

/* Cases 0 to n - 1 stand. */
static void stand_cases(struct file *f, int n, struct day taken_in) {
    put(f, "<FlsAssDom_1>");
    for (int i = 0; i < n; i++) put_case(f, 'I', i, taken_in.text);
    put(f, "</FlsAssDom_1>");
    stand(f, 1, (uint64_t)taken_in.year, (uint64_t)taken_in.quarter);
}

static void put_head(struct file *f, char type, int i, const char *taken_in) {
    put(f,
        "<Assistenza><Trasmissione tipo=\"%c\"/><Erogatore><CodiceRegione>010</CodiceRegione>"
        "<CodiceASL>101</CodiceASL></Erogatore><Eventi><PresaInCarico data=\"%s\"><Id_Rec>%088d</Id_Rec>"
        "</PresaInCarico>",
        type, taken_in, i);
}

static void put_end(struct file *f) {
    put(f, "</Eventi></Assistenza>");
}

static void put_erogazione(struct file *f, const char *date) {
    put(f, "<Erogazione data=\"%s\"><TipoOperatore>1</TipoOperatore></Erogazione>", date);
}

#define SUSPENDED(from, to) \
    "<Sospensione dataInizio=\"" from "\" dataFine=\"" to "\"><Motivazione>1</Motivazione></Sospensione>"

static void put_sospensione(struct file *f, int number) {
    put(f, SUSPENDED("%s", "%s"), day(number).text, day(number).text);
}

/* The ordinary files. */

static const struct day may = {2018, 2, "2018-05-01"};

static void cases(struct file *f, const struct kind *k) {
    (void)k;
    put(f, "<FlsAssDom_1>");
    for (int i = 0; fits(f, strlen(pattern()) + 14); i++) put_case(f, 'I', i, may.text);
    put(f, "</FlsAssDom_1>");
}

static void events(struct file *f, const struct kind *k) {
    stand_cases(f, k->number, may);
    put(f, "<FlsAssDom_2>");
    for (int i = 0; i < k->number; i++) {
        put_head(f, 'I', i, may.text);
        for (int d = 2; d < 9; d++)
            put(f, "<Erogazione data=\"2018-05-%02d\" numAccessi=\"1\"><TipoOperatore>1</TipoOperatore></Erogazione>",
                d);
        put_end(f);
    }
    put(f, "</FlsAssDom_2>");
}

/* One good record with something put in. */

/* Writes the good file's part up to the kind's place; answers the part behind it. */
static const char *up_to(struct file *f, const struct kind *k) {
    static char rest[8192];
    if (k->track == 2) stand_cases(f, 1, may);
    put(f, "<FlsAssDom_%d>", (int)k->track);
    if (k->track == 1) {
        put_case(f, 'I', 0, may.text);
    } else {
        put_head(f, 'I', 0, may.text);
        put_erogazione(f, "2018-05-02");
        put_end(f);
    }
    put(f, "</FlsAssDom_%d>", (int)k->track);
    char *place = strstr(f->bytes, k->at);
    if (!place) fail("nowhere in the good file:", k->at);
    place += strlen(k->at);
    strcpy(rest, place);
    f->n = (size_t)(place - f->bytes);
    return rest;
}

static void filled(struct file *f, const struct kind *k) {
    const char *rest = up_to(f, k);
    size_t n = strlen(k->each), end = strlen(k->close) + strlen(rest);
    put(f, "%s", k->open);
    for (; fits(f, n + end); f->n += n) memcpy(f->bytes + f->n, k->each, n);
    put(f, "%s%s", k->close, rest);
}

/* Attributes. */

enum { LETTERS = 53, NAMES = LETTERS + LETTERS * LETTERS + LETTERS * LETTERS * LETTERS };
enum { ABSENT, FIRST, LAST, DOWN }; /* where a name repeats; or nowhere, and each comes before the one before it */

/* Name i: all of one letter, then all of two, then all of three. */
static const char *name(int i) {
    static char text[4];
    static const char letter[] = "ABCDEFGHIJKLMNOPQRSTUVWXYZ_abcdefghijklmnopqrstuvwxyz";
    char *p = text + 3;
    for (; i >= 0; i = i / LETTERS - 1) *--p = letter[i % LETTERS];
    return p;
}

/* The numbers under n in an order without a pattern, always the same. */
static int *scrambled(int n) {
    int *order = calloc((size_t)n, sizeof *order);
    uint64_t seed = 1;
    if (!order) fail("no memory for", "the names");
    for (int i = 0; i < n; i++) {
        seed = seed * 6364136223846793005u + 1442695040888963407u;
        int j = (int)((seed >> 33) % (uint64_t)(i + 1));
        order[i] = order[j];
        order[j] = i;
    }
    return order;
}

/* As many attributes as fit; where a name is to repeat, the first two are alike or the last two. */
static void attributes(struct file *f, const struct kind *k) {
    const char *rest = up_to(f, k), *of;
    int *order = scrambled(NAMES), i = 0;
    size_t end = 2 * (strlen(k->each) + 7) + strlen(k->close) + strlen(rest);
    put(f, "%s", k->open);
    do {
        of = name(k->number == DOWN ? NAMES - 1 - i : order[i]);
        put(f, " %s%s=\"\"", k->each, of);
        if (i++ == 0 && k->number == FIRST) put(f, " %s%s=\"\"", k->each, of);
    } while (fits(f, end));
    if (k->number == LAST) put(f, " %s%s=\"\"", k->each, of);
    put(f, "%s%s", k->close, rest);
    free(order);
}

/* Tags of a number of attributes each. */
static void tags(struct file *f, const struct kind *k) {
    char tag[512] = "<a";
    struct kind filler = *k;
    for (int i = 0; i < k->number; i++) sprintf(tag + strlen(tag), " %s=\"\"", name(i * 23 % LETTERS));
    filler.each = strcat(tag, "/>");
    filled(f, &filler);
}

/* Records of Track 2 over a register that is prepared for them. */

enum { RECORD = 1 << 14 }; /* no record below is longer */

/* Records without events, of cases that stand. */
static void empty2(struct file *f, const struct kind *k) {
    stand_cases(f, k->number, may);
    put(f, "<FlsAssDom_2>");
    for (int i = 0; fits(f, 1024); i++) {
        put_head(f, 'I', i % k->number, may.text);
        put_end(f);
    }
    put(f, "</FlsAssDom_2>");
}

/* The same for a file of the last quarter and cases taken in on day 0. */
static void stand_old_cases(struct file *f, int n) {
    stand_cases(f, n, day(0));
    f->year = 2020;
    f->quarter = 4;
}

/* A record of 128 events in the last quarter: an Erogazione on each of its 92 days, a Rivalutazione on 36 of them. */
static void put_wide(struct file *f, char type, int i) {
    put_head(f, type, i, day(0).text);
    for (int d = 0; d < 36; d++)
        put(f, "<Rivalutazione data=\"%s\" motivo=\"1\" confermaPrecedente=\"1\"/>", day(LAST_QUARTER + d).text);
    for (int d = LAST_QUARTER; d <= LAST_DAY; d++) put_erogazione(f, day(d).text);
    put_end(f);
}

/* Of 32 cases 31 have 128 events each: a V of any of these is accepted, an I of the last has no room. */
static void wide2(struct file *f, const struct kind *k) {
    stand_old_cases(f, 32);
    put(f, "<FlsAssDom_2>");
    for (int i = 0; i < 31; i++) put_wide(f, 'I', i);
    put(f, "</FlsAssDom_2>");
    stand(f, 2, 2020, 4);
    put(f, "<FlsAssDom_2>");
    for (int i = 0; fits(f, RECORD); i++) put_wide(f, (char)k->number, k->number == 'V' ? i % 31 : 31);
    put(f, "</FlsAssDom_2>");
}

/* Case i is suspended on each day of a range, a day at a time; they stand, quarter by quarter. */
static void stand_suspended(struct file *f, int i, int from, int to) {
    while (from <= to) {
        struct day first = day(from);
        put(f, "<FlsAssDom_2>");
        put_head(f, 'I', i, day(0).text);
        for (; from <= to && day(from).quarter == first.quarter; from++) put_sospensione(f, from);
        put_end(f);
        put(f, "</FlsAssDom_2>");
        stand(f, 2, (uint64_t)first.year, (uint64_t)first.quarter);
    }
}

/* 4,000 suspensions of one case stand; each record varies those of the last quarter to what they are. */
static void suspensions(struct file *f, const struct kind *k) {
    (void)k;
    stand_old_cases(f, 1);
    stand_suspended(f, 0, LAST_DAY - 3999, LAST_DAY);
    put(f, "<FlsAssDom_2>");
    while (fits(f, RECORD)) {
        put_head(f, 'V', 0, day(0).text);
        for (int d = LAST_QUARTER; d <= LAST_DAY; d++) put_sospensione(f, d);
        put_end(f);
    }
    put(f, "</FlsAssDom_2>");
}

/* A file of records with one event each, of case 0: one record, or as many as fit. */
static void put_singles(struct file *f, char type, int many, const char *event) {
    put(f, "<FlsAssDom_2>");
    do {
        put_head(f, type, 0, day(0).text);
        put(f, "%s", event);
        put_end(f);
    } while (many && fits(f, 1024));
    put(f, "</FlsAssDom_2>");
}

/* 3,999 suspensions up to two days before the last stand, and one event more; each record has one event. */
static void singles(struct file *f, const struct kind *k) {
    stand_old_cases(f, 1);
    stand_suspended(f, 0, LAST_DAY - 4000, LAST_DAY - 2);
    put_singles(f, 'I', 0, k->open);
    stand(f, 2, 2020, 4);
    put_singles(f, (char)k->number, 1, k->each);
}

/* Two cases, the second with so many events that the register is full with `number` more. The records insert that many
   for the first case and cancel them, again and again: each event moves all of the second case's. */
static void moves(struct file *f, const struct kind *k) {
    stand_old_cases(f, 2);
    stand_suspended(f, 1, 0, 4096 - 2 - k->number - 1);
    put(f, "<FlsAssDom_2>");
    for (int i = 0; fits(f, RECORD) || i % 2; i++) {
        put_head(f, i % 2 ? 'C' : 'I', 0, day(0).text);
        for (int d = 0; d < k->number; d++) put_erogazione(f, day(LAST_QUARTER + d).text);
        put_end(f);
    }
    put(f, "</FlsAssDom_2>");
}

/* Cancellations of cases that take their events along, over a register that is prepared for them. */

/* Each of the ordinary file's cases is cancelled with its seven events, the first one first: all rows behind move. */
static void carried(struct file *f, const struct kind *k) {
    events(f, k);
    stand(f, 2, (uint64_t)may.year, (uint64_t)may.quarter);
    put(f, "<FlsAssDom_1>");
    for (int i = 0; i < k->number; i++) put_case(f, 'C', i, may.text);
    put(f, "</FlsAssDom_1>");
}

/* Cases with one event each, in front of one with so many that the register is full, are cancelled, the first one first:
   each time all rows behind move, by two rows. */
static void carried_ones(struct file *f, const struct kind *k) {
    struct day first = day(0);
    stand_cases(f, k->number + 1, first);
    for (int i = 0; i < k->number; i++) stand_suspended(f, i, 0, 0);
    stand_suspended(f, k->number, 0, 4096 - 2 * (k->number + 1));
    f->year = (uint64_t)first.year;
    f->quarter = (uint64_t)first.quarter;
    put(f, "<FlsAssDom_1>");
    for (int i = 0; i < k->number; i++) put_case(f, 'C', i, first.text);
    put(f, "</FlsAssDom_1>");
}

/* Two cases, the first with one event, the second with so many that the register is full. The first is cancelled, which
   takes its event along, and inserted, again and again: each time all of the second's rows move. */
static void case_again(struct file *f, const struct kind *k) {
    struct day first = day(0);
    stand_cases(f, 2, first);
    stand_suspended(f, 0, 0, 0);
    stand_suspended(f, 1, 0, k->number - 1);
    f->year = (uint64_t)first.year;
    f->quarter = (uint64_t)first.quarter;
    put(f, "<FlsAssDom_1>");
    for (int i = 0; fits(f, strlen(pattern()) + 14); i++) put_case(f, i % 2 ? 'I' : 'C', 0, first.text);
    put(f, "</FlsAssDom_1>");
}

#define ROOT "<FlsAssDom_1"
#define CHILD "<Assistenza"
#define FIELD "<Trasmissione tipo=\"I\""
#define BAD "<Assistenza/>"
#define LONG "abcdefghijklmnopqrstuvwxyzabcdefghijk"
#define LAST1 SUSPENDED("2020-12-31", "2020-12-31")
#define LAST2 SUSPENDED("2020-12-30", "2020-12-31")
#define CONCLUSION "<Conclusione dataAD=\"2020-12-31\"><Motivazione>1</Motivazione></Conclusione>"
#define NESTED(inner) "<a><a><a><a><a><a><a><a><a>" inner "</a></a></a></a></a></a></a></a></a>"
#define NEST NESTED("<a></a>")
#define NEST_MANY NESTED("<a" MANY "/>")
/* One attribute more than a small batch takes, in the deepest element: the deepest stack. */
#define MANY " a='' b='' c='' d='' e='' f='' g='' h='' i='' j='' k='' l='' m='' n='' o='' p='' q=''"

const struct kind kinds[] = {
    {"cases", "Track 1: 522 cases, all accepted", 1, cases, "", "", "", "", 0},
    {"events", "Track 2: 510 records of 7 Erogazioni, all accepted", 2, events, "", "", "", "", 510},

    {"root", "attributes in the root's tag, no name twice", 1, attributes, ROOT, "", "", "", ABSENT},
    {"root_first", "the same, the first two alike", 1, attributes, ROOT, "", "", "", FIRST},
    {"root_last", "the same, the last two alike", 1, attributes, ROOT, "", "", "", LAST},
    {"root_down", "the same, in descending order", 1, attributes, ROOT, "", "", "", DOWN},
    {"child", "attributes in a record's tag, no name twice", 1, attributes, CHILD, "", "", "", ABSENT},
    {"child_first", "the same, the first two alike", 1, attributes, CHILD, "", "", "", FIRST},
    {"child_last", "the same, the last two alike", 1, attributes, CHILD, "", "", "", LAST},
    {"field", "attributes in a field of a record, no name twice", 1, attributes, FIELD, "", "", "", ABSENT},
    {"field_first", "the same, the first two alike", 1, attributes, FIELD, "", "", "", FIRST},
    {"field_last", "the same, the last two alike", 1, attributes, FIELD, "", "", "", LAST},
    {"after", "attributes in the tag after a bad record", 1, attributes, ROOT ">", BAD CHILD, "", "/>", ABSENT},
    {"after_first", "the same, the first two alike", 1, attributes, ROOT ">", BAD CHILD, "", "/>", FIRST},
    {"after_last", "the same, the last two alike", 1, attributes, ROOT ">", BAD CHILD, "", "/>", LAST},
    {"long", "attributes with names of about 40 letters, 37 alike", 1, attributes, ROOT, "", LONG, "", ABSENT},
    {"long_first", "the same, the first two alike", 1, attributes, ROOT, "", LONG, "", FIRST},
    {"long_last", "the same, the last two alike", 1, attributes, ROOT, "", LONG, "", LAST},
    {"xmlns", "attributes xmlns:.. of a root that is accepted", 1, attributes, ROOT, "", "xmlns:", "", ABSENT},

    {"tags_0", "tags after a bad record, without attributes", 1, tags, ROOT ">", BAD CHILD ">", "", "</Assistenza>", 0},
    {"tags_1", "tags with an attribute", 1, tags, ROOT ">", BAD CHILD ">", "", "</Assistenza>", 1},
    {"tags_16", "tags with 16 attributes", 1, tags, ROOT ">", BAD CHILD ">", "", "</Assistenza>", 16},
    {"tags_17", "tags with 17 attributes", 1, tags, ROOT ">", BAD CHILD ">", "", "</Assistenza>", 17},
    {"tags_40", "tags with 40 attributes", 1, tags, ROOT ">", BAD CHILD ">", "", "</Assistenza>", 40},

    {"space", "white space before a record", 1, filled, ROOT ">", "", " ", "", 0},
    {"space_tag", "white space in a tag", 2, filled, "<Erogazione data=\"2018-05-02\"", "", " ", "", 0},
    {"comments", "short comments before a record", 1, filled, ROOT ">", "", "<!---->", "", 0},
    {"comment", "one long comment before a record", 1, filled, ROOT ">", "<!--", "-<", " -->", 0},
    {"comments_inside", "short comments in Eventi, Track 1", 1, filled, "</PresaInCarico>", "", "<!---->", "", 0},
    {"comments_inside2", "short comments in Eventi, Track 2", 2, filled, "</PresaInCarico>", "", "<!---->", "", 0},
    {"text", "zeros before the digit of a number", 1, filled, "<NucleoFamiliare>", "", "0", "", 0},
    {"quotes", "one value of an attribute xmlns:a", 1, filled, ROOT, " xmlns:a=\"", "'", "\"", 0},
    {"deep", "elements down to depth 12 in the root", 1, filled, ROOT ">", "", "<a>" NEST "</a>", "", 0},
    {"deep_tag", "the same, the deepest with 17 attributes", 1, filled, ROOT ">", "", "<a>" NEST_MANY "</a>", "", 0},
    {"deep_after", "the same after a bad record", 1, filled, ROOT ">", BAD CHILD ">", NEST, "</Assistenza>", 0},
    {"open", "< again and again", 1, filled, "", "", "<", "", 0},

    {"empty2", "Track 2: records without events, all 20", 2, empty2, "", "", "", "", 500},
    {"wide2", "Track 2: V records of 128 events, all accepted", 2, wide2, "", "", "", "", 'V'},
    {"wide2_room", "Track 2: I records of 128 events, all 17", 2, wide2, "", "", "", "", 'I'},
    {"suspensions", "Track 2: V records of 92 of 4,000 suspensions", 2, suspensions, "", "", "", "", 0},
    {"suspensions_one", "Track 2: V records of one of 4,000", 2, singles, "", LAST1, LAST1, "", 'V'},
    {"suspensions_back", "Track 2: I records that share a day with the last", 2, singles, "", LAST2, LAST1, "", 'I'},
    {"conclusion", "Track 2: V records of the conclusion after 3,999", 2, singles, "", CONCLUSION, CONCLUSION, "", 'V'},
    {"moves", "Track 2: 60 events put before 4,034 and cancelled", 2, moves, "", "", "", "", 60},
    {"moves_one", "Track 2: one event put before 4,093 and cancelled", 2, moves, "", "", "", "", 1},
    {"carried", "Track 1: 510 cases cancelled with 7 events each", 1, carried, "", "", "", "", 510},
    {"carried_ones", "Track 1: 520 cases cancelled with an event each", 1, carried_ones, "", "", "", "", 520},
    {"case_again", "Track 1: a case cancelled and put before 4,093 events", 1, case_again, "", "", "", "", 4093},
    {NULL, NULL, 0, NULL, "", "", "", "", 0},
};

void make_file(struct file *f, const char *wanted, submitter *submit) {
    const struct kind *k = kinds;
    while (k->name && strcmp(k->name, wanted)) k++;
    if (!k->name) fail("no kind of file is named", wanted);
    *f = (struct file){calloc(1, MOST + 1), 0, k->track, 2018, 2, calloc(1, ROOM), submit};
    if (!f->bytes || !f->reg) fail("no memory for", wanted);
    k->make(f, k);
}
