/* The calls of siad.h from C, and where.c, over heap buffers of exactly the lent length, so that a byte read or written
   past an end is seen: by valgrind, and of the C code also by the sanitizers, which the archive is not built with.
   The argument is the folder of the program's cases (crates/siad_cases/data). host/run builds and runs it. */
#include "answers.h"
#include "where.h"
#include <stdio.h>
#include <stdlib.h>
#include <string.h>

static int bad;
#define IS(x, y) is(__LINE__, #x, (x), (y))

static void is(int line, const char *what, unsigned long long got, unsigned long long wanted) {
    if (got == wanted) return;
    printf("line %d: %s is %llu, not %llu\n", line, what, got, wanted);
    bad = 1;
}

/* A buffer of n bytes b. */
static uint8_t *filled(size_t n, int b) {
    uint8_t *p = malloc(n ? n : 1);
    if (p == NULL) exit(2);
    memset(p, b, n);
    return p;
}

static int all(const uint8_t *p, size_t n, int b) {
    for (size_t i = 0; i < n; i++)
        if (p[i] != b) return 0;
    return 1;
}

/* n numbers for a report, each byte of them 77. */
static uint64_t *numbers(size_t n) {
    return (uint64_t *)(void *)filled(n * sizeof(uint64_t), 77);
}

/* The submission of a case: what follows its first line. */
static uint8_t *submission(const char *folder, const char *name, size_t *n) {
    char path[4096];
    snprintf(path, sizeof path, "%s/%s", folder, name);
    FILE *f = fopen(path, "rb");
    if (f == NULL) {
        perror(path);
        exit(2);
    }
    while (fgetc(f) != '\n')
        if (feof(f)) exit(2);
    long from = ftell(f);
    fseek(f, 0, SEEK_END);
    *n = (size_t)(ftell(f) - from);
    fseek(f, from, SEEK_SET);
    uint8_t *p = filled(*n, 0);
    if (fread(p, 1, *n, f) != *n) exit(2);
    fclose(f);
    return p;
}

static uint64_t told[SIAD_REPORT]; /* the report of the last that was refused */

/* One call over a register of zeros: its answer; a refusal must leave register and answer list as they were and every
   count 0. */
static uint64_t refused(const uint8_t *sub, size_t n, uint64_t track, uint64_t year, uint64_t quarter, size_t reg_len,
                        size_t answers_len) {
    uint8_t *reg = filled(reg_len, 0), *answers = filled(answers_len, 9);
    uint64_t *report = numbers(SIAD_REPORT);
    uint64_t answer =
        siad_submit(sub, n, track, year, quarter, reg, reg_len, answers, answers_len, report, SIAD_REPORT);
    IS(all(reg, reg_len, 0), 1);
    IS(all(answers, answers_len, 9), 1);
    IS(report[SIAD_RECORDS] + report[SIAD_RECORDS_ACCEPTED] + report[SIAD_RECORDS_DISCARDED], 0);
    if (answer != SIAD_NOT_SHAPE && answer != SIAD_MANY_EVENTS) IS(report[SIAD_NUMBER], 0);
    if (answer != SIAD_NOT_SHAPE) IS(report[SIAD_PLACE], 0);
    memcpy(told, report, sizeof told);
    free(reg);
    free(answers);
    free(report);
    return answer;
}

/* A file that ends early, in a buffer that ends with it. */
static void cut_short(const uint8_t *sub, size_t n) {
    for (size_t cut = 0; cut < n; cut++) {
        uint8_t *part = filled(cut, 0);
        memcpy(part, sub, cut);
        IS(refused(part, cut, 1, 2018, 2, SIAD_REGISTER_BYTES(1), 2), SIAD_NOT_MARKUP);
        free(part);
    }
}

static void refusals(const char *folder) {
    size_t two, shape, many, most = SIAD_MOST_BYTES, one_row = SIAD_REGISTER_BYTES(1);
    uint8_t *sub = submission(folder, "case_twice", &two), *faulty = submission(folder, "wrong_shape", &shape);
    uint8_t *crowded = submission(folder, "events_129", &many), *none = filled(0, 0);
    uint8_t *blanks = filled(most, ' '), *over = filled(most + 1, ' ');
    IS(refused(sub, two, 1, 2008, 2, one_row, 2), SIAD_BAD_PERIOD);
    IS(refused(sub, two, 1, 2018, 5, one_row, 2), SIAD_BAD_PERIOD);
    IS(refused(sub, two, ~0ull, ~0ull, ~0ull, one_row, 2), SIAD_BAD_PERIOD);
    IS(refused(sub, two, 3, 2018, 2, one_row, 2), SIAD_BAD_TRACK);
    IS(refused(sub, two, 1, 2018, 2, SIAD_HEADER_BYTES - 1, 2), SIAD_UNSOUND);
    IS(refused(over, most + 1, 1, 2018, 2, one_row, 2), SIAD_TOO_LONG);
    IS(refused(blanks, most, 1, 2018, 2, one_row, 2), SIAD_NOT_MARKUP);
    IS(refused(none, 0, 1, 2018, 2, SIAD_HEADER_BYTES, 0), SIAD_NOT_MARKUP);
    IS(refused(sub, two, 2, 2018, 2, one_row, 2), SIAD_NOT_SHAPE);
    IS(told[SIAD_NUMBER], 0);
    IS(told[SIAD_PLACE], 0); /* the root's */
    IS(refused(faulty, shape, 2, 2018, 2, one_row, 2), SIAD_NOT_SHAPE);
    IS(told[SIAD_NUMBER], 2);
    IS(refused(crowded, many, 2, 2018, 2, one_row, 2), SIAD_MANY_EVENTS);
    IS(told[SIAD_NUMBER], 2);
    IS(refused(sub, two, 1, 2018, 2, one_row, 1), SIAD_SHORT_LIST);
    cut_short(sub, two);
    free(sub);
    free(faulty);
    free(crowded);
    free(blanks);
    free(over);
    free(none);
}

/* One call with a report of some length, over a register of one row: as many of these numbers as fit, and what is
   behind them stays, in the report and in so many entries more that are not lent. */
static void reports(const uint8_t *sub, size_t n, uint64_t track, uint64_t answer, const uint64_t *wanted, size_t len,
                    size_t more) {
    size_t reg_len = SIAD_REGISTER_BYTES(1), fit = len < SIAD_REPORT ? len : SIAD_REPORT;
    uint8_t *reg = filled(reg_len, 0), *answers = filled(2, 9);
    uint64_t *report = numbers(len + more);
    IS(siad_submit(sub, n, track, 2018, 2, reg, reg_len, answers, 2, report, len), answer);
    IS(memcmp(report, wanted, fit * sizeof *report) == 0, 1);
    IS(all((uint8_t *)(report + fit), (len + more - fit) * sizeof *report, 77), 1);
    IS(reg[1], wanted[SIAD_RECORDS_ACCEPTED]);
    IS(answers[0], answer == SIAD_TAKEN ? SIAD_ACCEPTED : 9);
    free(reg);
    free(answers);
    free(report);
}

/* Reports of each length from 0 to 7: of a taken file, of one with a place, of one with a number alone. */
static void report_lengths(const char *folder) {
    static const uint64_t of_taken[SIAD_REPORT] = {0, 2, 1, 1, 0}, of_crowded[SIAD_REPORT] = {2, 0, 0, 0, 0};
    static const uint64_t of_faulty[SIAD_REPORT] = {2, 0, 0, 0, 438}; /* <CodiceRegione>011 */
    size_t two, shape, many;
    uint8_t *sub = submission(folder, "case_twice", &two), *faulty = submission(folder, "wrong_shape", &shape);
    uint8_t *crowded = submission(folder, "events_129", &many);
    for (size_t i = 0; i < 16; i++) {
        size_t len = i / 2, more = 2 * (i % 2);
        reports(sub, two, 1, SIAD_TAKEN, of_taken, len, more);
        reports(faulty, shape, 2, SIAD_NOT_SHAPE, of_faulty, len, more);
        reports(crowded, many, 2, SIAD_MANY_EVENTS, of_crowded, len, more);
    }
    free(sub);
    free(faulty);
    free(crowded);
}

/* The case of case_twice. */
#define ID "AAAAAAAAAAAAAAAAAAAAAAAAAAAAAAAAAAAAAAAAAAAAAAAAAAAAAAAAAAAAAAAAAAAAAAAAAAAAAAAAAAAAAAAA"
static const char region[] = "010", asl[] = "101", date[] = "2018-05-01", id[] = ID;

static uint64_t find(const uint8_t *reg, size_t reg_len, size_t region_len, size_t asl_len, size_t date_len,
                     size_t id_len, uint64_t *place) {
    return siad_find(reg, reg_len, (const uint8_t *)region, region_len, (const uint8_t *)asl, asl_len,
                     (const uint8_t *)date, date_len, (const uint8_t *)id, id_len, place);
}

/* Found, and with each text a byte short not found. */
static void finding(const uint8_t *reg, size_t reg_len, int stands) {
    enum { R = SIAD_REGION_BYTES, A = SIAD_ASL_BYTES, D = SIAD_DATE_BYTES, I = SIAD_ID_BYTES };
    uint64_t place = 77;
    IS(find(reg, reg_len, R, A, D, I, &place), stands ? 0 : SIAD_NOT_FOUND);
    IS(place, stands ? SIAD_HEADER_BYTES : 0);
    IS(find(reg, reg_len, R - 1, A, D, I, &place), SIAD_NOT_FOUND);
    IS(find(reg, reg_len, R, A - 1, D, I, &place), SIAD_NOT_FOUND);
    IS(find(reg, reg_len, R, A, D - 1, I, &place), SIAD_NOT_FOUND);
    IS(find(reg, reg_len, R, A, D, I - 1, &place), SIAD_NOT_FOUND);
    IS(place, 0);
    IS(find(reg, SIAD_HEADER_BYTES - 1, R, A, D, I, &place), SIAD_UNSOUND);
}

/* Two records with one key, over a register of some rows: the first is taken where there is room. */
static void taken(const char *folder, size_t reg_len, unsigned first, unsigned second) {
    static const uint8_t row[] = {0x0A, 0x62, 0xC1, 0x8A, 0xA3, 0x4E}; /* P6 */
    size_t n, stands = first == SIAD_ACCEPTED;
    uint8_t *sub = submission(folder, "case_twice", &n), *reg = filled(reg_len, 9), *answers = filled(3, 9);
    uint64_t report[SIAD_REPORT] = {77, 77, 77, 77, 77};
    IS(siad_sound(reg, reg_len), SIAD_UNSOUND);
    IS(siad_empty(reg, reg_len), 0);
    IS(all(reg, reg_len, 0), 1);
    IS(siad_submit(sub, n, 1, 2018, 2, reg, reg_len, answers, 3, report, SIAD_REPORT), SIAD_TAKEN);
    IS(report[SIAD_NUMBER], 0);
    IS(report[SIAD_RECORDS], 2);
    IS(report[SIAD_RECORDS_ACCEPTED], stands);
    IS(report[SIAD_RECORDS_DISCARDED], 2 - stands);
    IS(report[SIAD_PLACE], 0);
    IS(answers[0], first);
    IS(answers[1], second);
    IS(answers[2], 9);
    IS(reg[0] * 256u + reg[1], stands);
    IS(reg[2] * 256u + reg[3], 0);
    if (stands) IS(memcmp(reg + SIAD_HEADER_BYTES, row, sizeof row) == 0, 1);
    IS(siad_sound(reg, reg_len), 0);
    finding(reg, reg_len, (int)stands);
    free(sub);
    free(reg);
    free(answers);
}

/* One file of one or two records that must be taken into a register of some rows; the answer list is lent with 9s. */
static void submits(const uint8_t *sub, size_t n, uint64_t track, uint8_t *reg, size_t rows, size_t records,
                    unsigned first, unsigned second) {
    uint8_t *answers = filled(2, 9);
    uint64_t report[SIAD_REPORT] = {77, 77, 77, 77, 77};
    size_t len = SIAD_REGISTER_BYTES(rows);
    IS(siad_submit(sub, n, track, 2018, 2, reg, len, answers, 2, report, SIAD_REPORT), SIAD_TAKEN);
    IS(report[SIAD_RECORDS], records);
    IS(report[SIAD_PLACE], 0);
    IS(answers[0], first);
    IS(answers[1], second);
    IS(siad_sound(reg, len), 0);
    free(answers);
}

#define VISIT(day, operator, more) \
    "<Erogazione data=\"2018-" day "\"" more "><TipoOperatore>" operator "</TipoOperatore></Erogazione>"

/* A file with one record of Track 2, of the case of case_twice. With type C and events in the register's order it is the
   cancellation file of these events, byte for byte (docs/CANCELLATION.md). */
static uint8_t *events_of_case(char type, const char *events, size_t *n) {
    static const char record[] =
        "<FlsAssDom_2><Assistenza><Trasmissione tipo=\"%c\"></Trasmissione><Erogatore>"
        "<CodiceRegione>%s</CodiceRegione><CodiceASL>%s</CodiceASL></Erogatore><Eventi>"
        "<PresaInCarico data=\"%s\"><Id_Rec>%s</Id_Rec></PresaInCarico>%s</Eventi></Assistenza></FlsAssDom_2>";
    char text[4096];
    *n = (size_t)snprintf(text, sizeof text, record, type, region, asl, date, id, events);
    if (*n >= sizeof text) exit(2);
    uint8_t *p = filled(*n, 0);
    memcpy(p, text, *n);
    return p;
}

/* A case and two events fill a register; the case is cancelled, and the register is as if it were emptied. */
static void carried_away(const char *folder) {
    static const char type[] = "tipo=\"I";
    size_t n, events, rows = 3, len = SIAD_REGISTER_BYTES(rows);
    uint8_t *sub = submission(folder, "case_twice", &n), *reg = filled(len, 0);
    uint8_t *visited = events_of_case('I', VISIT("05-02", "1", "") VISIT("06-30", "2", ""), &events);
    submits(sub, n, 1, reg, rows, 2, SIAD_ACCEPTED, SIAD_STANDS);
    submits(visited, events, 2, reg, rows, 1, SIAD_ACCEPTED, 9);
    IS(reg[0] * 256u + reg[1], 1);
    IS(reg[2] * 256u + reg[3], 2);
    finding(reg, len, 1);
    for (size_t i = 0; i + sizeof type - 1 <= n; i++)
        if (memcmp(sub + i, type, sizeof type - 1) == 0) sub[i + sizeof type - 2] = 'C';
    submits(sub, n, 1, reg, rows, 2, SIAD_ACCEPTED, SIAD_STANDS_NOT);
    IS(all(reg, len, 0), 1);
    finding(reg, len, 0);
    submits(visited, events, 2, reg, rows, 1, SIAD_NO_CASE, 9);
    free(sub);
    free(visited);
    free(reg);
}

/* One record of that case over a register of four rows. */
static void sends(uint8_t *reg, char type, const char *events, unsigned answer) {
    size_t n;
    uint8_t *sub = events_of_case(type, events, &n);
    submits(sub, n, 2, reg, 4, 1, answer, 9);
    free(sub);
}

/* Behind the case's row stand these events' rows: what is not the case's in them, bytes 82 to 95 (R13, R23 to R33). */
enum { REST = 14, KEY = SIAD_ROW_BYTES - REST };

static void rows_are(const uint8_t *reg, const uint8_t wanted[][REST], size_t n) {
    const uint8_t *case_row = reg + SIAD_HEADER_BYTES, *row = case_row;
    IS(reg[0] * 256u + reg[1], 1);
    IS(reg[2] * 256u + reg[3], n);
    for (size_t i = 0; i < n; i++) {
        row += SIAD_ROW_BYTES;
        IS(memcmp(row, case_row, KEY) == 0, 1);
        IS(memcmp(row + KEY, wanted[i], REST) == 0, 1);
    }
    IS(all(row + SIAD_ROW_BYTES, SIAD_ROW_BYTES * (3 - n), 0), 1);
}

/* Two operators on one day and a suspension: their rows, worked out by hand. Then the visits by their keys. */
static void two_operators(const char *folder) {
    static const uint8_t rows[][REST] = {
        {0x05, 0x54, 0x6A, 0x01, 0xFF, 0xFF, 0x80}, /* 2018-05-02, operator 1; then zeros, as in the others */
        {0x05, 0x54, 0x6A, 0x02, 0xFF, 0xFF, 0x83}, /* 2018-05-02, operator 2, three accesses */
        {0x06, 0x54, 0x6A, 0x89, 0x54, 0x6B, 0x80}, /* 2018-05-03 to 2018-05-05, Motivazione 9 */
    };
    static const char one[] = VISIT("05-02", "1", ""), two[] = VISIT("05-02", "2", " numAccessi=\"3\"");
    static const char three[] = VISIT("05-02", "3", "");
    size_t n;
    uint8_t *sub = submission(folder, "case_twice", &n), *reg = filled(SIAD_REGISTER_BYTES(4), 0);
    submits(sub, n, 1, reg, 4, 2, SIAD_ACCEPTED, SIAD_STANDS);
    sends(reg, 'I', VISIT("05-02", "1", "") VISIT("05-02", "1", " numAccessi=\"3\""), SIAD_EVENT_TWICE);
    sends(reg, 'I',
          VISIT("05-02", "2", " numAccessi=\"3\"") VISIT("05-02", "1", "") "<Sospensione dataInizio=\"2018-05-03\" "
          "dataFine=\"2018-05-05\"><Motivazione>9</Motivazione></Sospensione>",
          SIAD_ACCEPTED);
    rows_are(reg, rows, 3);
    sends(reg, 'I', one, SIAD_STANDS);
    sends(reg, 'I', three, SIAD_NO_ROOM);
    sends(reg, 'V', three, SIAD_STANDS_NOT);
    sends(reg, 'C', three, SIAD_STANDS_NOT);
    rows_are(reg, rows, 3);
    sends(reg, 'C', one, SIAD_ACCEPTED);
    rows_are(reg, rows + 1, 2);
    sends(reg, 'V', one, SIAD_STANDS_NOT);
    sends(reg, 'I', one, SIAD_ACCEPTED);
    sends(reg, 'V', two, SIAD_ACCEPTED);
    rows_are(reg, rows, 3);
    free(sub);
    free(reg);
}

/* A cancellation file of that case, for an output of n bytes. */
static uint64_t cancel(const uint8_t *reg, size_t reg_len, uint64_t year, uint64_t quarter, uint8_t *out, size_t n,
                       uint64_t *length) {
    return siad_cancel_file(reg, reg_len, (const uint8_t *)region, SIAD_REGION_BYTES, (const uint8_t *)asl,
                            SIAD_ASL_BYTES, (const uint8_t *)date, SIAD_DATE_BYTES, (const uint8_t *)id, SIAD_ID_BYTES,
                            year, quarter, out, n, length);
}

/* None is written: the length is 0, and no byte of the output changes. */
static void cancels_not(const uint8_t *reg, size_t reg_len, uint64_t year, uint64_t quarter, size_t n,
                        unsigned answer) {
    uint8_t *out = filled(n, 9);
    uint64_t length = 77;
    IS(cancel(reg, reg_len, year, quarter, out, n, &length), answer);
    IS(length, 0);
    IS(all(out, n, 9), 1);
    free(out);
}

/* This file is written, and so many bytes behind it stay. Gives the output. */
static uint8_t *cancels(const uint8_t *reg, size_t reg_len, const uint8_t *file, size_t n, size_t more) {
    uint8_t *out = filled(n + more, 9);
    uint64_t length = 77;
    IS(cancel(reg, reg_len, 2018, 2, out, n + more, &length), 0);
    IS(length, n);
    IS(memcmp(out, file, n) == 0, 1);
    IS(all(out + n, more, 9), 1);
    return out;
}

/* Three events: their cancellation file is written into outputs of its length and of more bytes, and not into shorter
   ones; then what was written is submitted, and the register is as before the events. */
static void undone(const char *folder) {
    static const char events[] =
        "<Rivalutazione data=\"2018-06-30\" motivo=\"1\" confermaPrecedente=\"1\"></Rivalutazione>"
        VISIT("05-02", "13", " numAccessi=\"3\"")
        "<Sospensione dataInizio=\"2018-05-03\" dataFine=\"2018-05-05\"><Motivazione>9</Motivazione></Sospensione>";
    enum { CONFERMA = SIAD_HEADER_BYTES + SIAD_ROW_BYTES + 89 }; /* its byte in the first event's row (R28) */
    size_t n, file_n, len = SIAD_REGISTER_BYTES(4);
    uint8_t *sub = submission(folder, "case_twice", &n), *file = events_of_case('C', events, &file_n);
    uint8_t *reg = filled(len, 0), *before = filled(len, 0), *after = filled(len, 0);
    uint64_t length = 77;
    cancels_not(reg, len, 2018, 2, file_n, SIAD_NOT_FOUND);
    submits(sub, n, 1, reg, 4, 2, SIAD_ACCEPTED, SIAD_STANDS);
    memcpy(before, reg, len);
    cancels_not(reg, len, 2018, 2, file_n, SIAD_NOTHING_IN_QUARTER);
    sends(reg, 'I', events, SIAD_ACCEPTED);
    memcpy(after, reg, len);
    cancels_not(reg, len, 2008, 2, file_n, SIAD_BAD_PERIOD);
    cancels_not(reg, len, ~0ull, ~0ull, file_n, SIAD_BAD_PERIOD);
    cancels_not(reg, SIAD_HEADER_BYTES - 1, 2018, 2, file_n, SIAD_UNSOUND);
    cancels_not(reg, len, 2018, 3, file_n, SIAD_NOTHING_IN_QUARTER);
    cancels_not(reg, len, 2018, 2, file_n - 1, SIAD_SHORT_OUTPUT);
    cancels_not(reg, len, 2018, 2, 0, SIAD_SHORT_OUTPUT);
    IS(cancel(reg, len, 2018, 2, NULL, 0, &length), SIAD_SHORT_OUTPUT);
    IS(length, 0);
    IS(reg[CONFERMA], 0x40);
    reg[CONFERMA] = 0x80; /* confermaPrecedente 2 */
    IS(siad_sound(reg, len), 0);
    cancels_not(reg, len, 2018, 2, file_n, SIAD_REPLACES);
    reg[CONFERMA] = 0x40;
    uint8_t *out = cancels(reg, len, file, file_n, 0);
    free(cancels(reg, len, file, file_n, 1));
    free(cancels(reg, len, file, file_n, SIAD_MOST_CANCEL_BYTES - file_n));
    IS(memcmp(reg, after, len) == 0, 1);
    submits(out, file_n, 2, reg, 4, 1, SIAD_ACCEPTED, 9);
    IS(memcmp(reg, before, len) == 0, 1);
    free(sub);
    free(file);
    free(out);
    free(reg);
    free(before);
    free(after);
}

/* What else a Valutazione of Track 2 must have. */
#define NEEDS \
    "<DrenaggioPosturale>2</DrenaggioPosturale><OssigenoTerapia>2</OssigenoTerapia>" \
    "<Ventiloterapia>2</Ventiloterapia><Tracheostomia>2</Tracheostomia>" \
    "<Alimentazione><Assistita>2</Assistita><Enterale>2</Enterale><Parenterale>2</Parenterale></Alimentazione>" \
    "<GestioneStomia>2</GestioneStomia><ElimiUrinariaIntestinale>2</ElimiUrinariaIntestinale>" \
    "<AlterRitmoSonnoVeglia>2</AlterRitmoSonnoVeglia><IntEduTerapeutica>2</IntEduTerapeutica>" \
    "<CuraUlcereCutanee12Grado>2</CuraUlcereCutanee12Grado><CuraUlcereCutanee34Grado>2</CuraUlcereCutanee34Grado>" \
    "<PrelieviVenosiNonOcc>2</PrelieviVenosiNonOcc><ECG>2</ECG><Telemetria>2</Telemetria>" \
    "<TerSottocutIntraMuscInfus>2</TerSottocutIntraMuscInfus><GestioneCatetere>2</GestioneCatetere>" \
    "<Trasfusioni>2</Trasfusioni><ControlloDolore>2</ControlloDolore>" \
    "<AssistStatoTerminaleOnc>2</AssistStatoTerminaleOnc><AssistStatoTerminaleNonOnc>2</AssistStatoTerminaleNonOnc>"
/* A Rivalutazione with confermaPrecedente 2: its day, its Prevalente, the fields that are kept beside it. */
#define REPLACES(day, prevalente, fields) \
    "<Rivalutazione data=\"2018-" day "\" motivo=\"1\" confermaPrecedente=\"2\"><Valutazione><Patologia><Prevalente>" \
    prevalente "</Prevalente><Concomitante>000</Concomitante></Patologia>" fields NEEDS "</Valutazione></Rivalutazione>"
#define CONFIRMS(day) "<Rivalutazione data=\"2018-" day "\" motivo=\"1\" confermaPrecedente=\"1\"></Rivalutazione>"

/* The lengths that are lent of that case's texts and of a day. */
enum { REGION, ASL, DATE, ID_REC, DAY, TEXTS };
static const size_t whole[TEXTS] = {SIAD_REGION_BYTES, SIAD_ASL_BYTES, SIAD_DATE_BYTES, SIAD_ID_BYTES, SIAD_DATE_BYTES};

/* The evaluation in force on a day has this answer and these fields; the bytes beside them stay. */
static void in_force(const uint8_t *reg, size_t reg_len, const size_t *n, const char *day, uint64_t answer,
                     const char *fields) {
    enum { GUARD = 3 };
    uint8_t *lent = filled(GUARD + SIAD_FIELDS + GUARD, 77), *text = filled(n[DAY], 0);
    memcpy(text, day, n[DAY]);
    uint64_t got = siad_evaluation(reg, reg_len, (const uint8_t *)region, n[REGION], (const uint8_t *)asl, n[ASL],
                                   (const uint8_t *)date, n[DATE], (const uint8_t *)id, n[ID_REC], text, n[DAY],
                                   lent + GUARD);
    if (got != answer || memcmp(lent + GUARD, fields, SIAD_FIELDS) != 0) {
        printf("evaluation on %s: answer %llu, fields", day, (unsigned long long)got);
        for (int i = 0; i < SIAD_FIELDS; i++) printf(" %u", lent[GUARD + i]);
        puts("");
        bad = 1;
    }
    IS(all(lent, GUARD, 77), 1);
    IS(all(lent + GUARD + SIAD_FIELDS, GUARD, 77), 1);
    free(lent);
    free(text);
}

/* The fields of case_twice's case; none, with an answer other than 0; those of two Rivalutazioni. */
static const char own[] = "\1\3\1\2\3\2" "01010", none[SIAD_FIELDS] = "";
static const char first_kept[] = "\1\2\3\0\1\2" "250\0", last_kept[] = "\0\0\0\3\0\0" "a b\t";

/* Refused: each text a byte short, a day that is longer, missing, none or too early, a register of too few bytes. */
static void evaluates_not(const uint8_t *reg, size_t len) {
    static const char *const days[] = {"2018-04-30", "2018-06-31", "2018-6-001", "2100-01-01", "1899-12-31",
                                       "2018/06/30", "0000000000"};
    size_t cut[TEXTS];
    memcpy(cut, whole, sizeof cut);
    for (size_t i = 0; i < sizeof days / sizeof *days; i++) in_force(reg, len, whole, days[i], SIAD_NOT_FOUND, none);
    for (int i = 0; i < TEXTS; i++) {
        cut[i]--;
        in_force(reg, len, cut, "2018-06-30", SIAD_NOT_FOUND, none);
        cut[i]++;
    }
    cut[DAY]++;
    in_force(reg, len, cut, "2018-06-30Z", SIAD_NOT_FOUND, none);
    cut[DAY] = 0;
    in_force(reg, len, cut, "", SIAD_NOT_FOUND, none);
    in_force(reg, SIAD_HEADER_BYTES - 1, whole, "2018-06-30", SIAD_UNSOUND, none);
    in_force(reg, SIAD_HEADER_BYTES - 1, cut, "", SIAD_UNSOUND, none);
}

/* Three Rivalutazioni, the second of which confirms: what is kept of them, and what holds on the days around. */
static void evaluated(const char *folder) {
    static const uint8_t rows[][REST] = {
        {0x04, 0x54, 0x6E, 0x01, 0xFF, 0xFF, 0x80, 0x9B, 0x19, 0x93, 0x56}, /* 05-10, conferma 2: 1 2 3 0 1 2, 250 */
        {0x04, 0x54, 0x73, 0x01, 0xFF, 0xFF, 0x80, 0x40},                   /* 05-20, conferma 1 */
        /* 05-31, conferma 2: 0 0 0 3 0 0, "a b" and a tab */
        {0x04, 0x54, 0x78, 0x81, 0xFF, 0xFF, 0x80, 0x80, 0xC3, 0x0A, 0x0C, 0x42, 0x40},
    };
    static const char scales[] = REPLACES("05-10", "250",
        "<Autonomia>1</Autonomia><GradoMobilita>2</GradoMobilita><Disturbi><Cognitivi>3</Cognitivi></Disturbi>"
        "<SupportoSociale>1</SupportoSociale><RischioInfettivo>2</RischioInfettivo>");
    size_t n, len = SIAD_REGISTER_BYTES(4);
    uint8_t *sub = submission(folder, "case_twice", &n), *reg = filled(len, 0);
    in_force(reg, len, whole, "2018-05-01", SIAD_NOT_FOUND, none);
    submits(sub, n, 1, reg, 4, 2, SIAD_ACCEPTED, SIAD_STANDS);
    in_force(reg, len, whole, "2018-05-01", 0, own);
    sends(reg, 'I', scales, SIAD_ACCEPTED);
    sends(reg, 'I', CONFIRMS("05-20"), SIAD_ACCEPTED);
    sends(reg, 'I', REPLACES("05-31", "a b\t", "<Disturbi><Comportamentali>3</Comportamentali></Disturbi>"),
          SIAD_ACCEPTED);
    rows_are(reg, rows, 3);
    in_force(reg, len, whole, "2018-05-01", 0, own);
    in_force(reg, len, whole, "2018-05-09", 0, own);
    in_force(reg, len, whole, "2018-05-10", 0, first_kept);
    in_force(reg, len, whole, "2018-05-30", 0, first_kept);
    in_force(reg, len, whole, "2018-05-31", 0, last_kept);
    in_force(reg, len, whole, "2099-12-31", 0, last_kept);
    evaluates_not(reg, len);
    sends(reg, 'V', CONFIRMS("05-31"), SIAD_ACCEPTED); /* it confirms now, and keeps nothing */
    IS(all(reg + len - SIAD_ROW_BYTES + KEY + 8, REST - 8, 0), 1);
    in_force(reg, len, whole, "2099-12-31", 0, first_kept);
    free(sub);
    free(reg);
}

/* The rows of a register, which keep no evaluation, as they were before: an old register for so many. */
static uint8_t *narrowed(const uint8_t *reg, size_t rows) {
    uint8_t *old = filled(SIAD_OLD_REGISTER_BYTES(rows), 0);
    memcpy(old, reg, SIAD_HEADER_BYTES);
    for (size_t i = 0; i < rows; i++)
        memcpy(old + SIAD_OLD_REGISTER_BYTES(i), reg + SIAD_REGISTER_BYTES(i), SIAD_OLD_ROW_BYTES);
    return old;
}

/* Not converted: no byte of either changes. */
static void converts_not(const uint8_t *old, size_t old_len, size_t len, uint64_t answer) {
    uint8_t *fresh = filled(len, 9), *was = filled(old_len, 0);
    memcpy(was, old, old_len);
    IS(siad_convert(old, old_len, fresh, len), answer);
    IS(all(fresh, len, 9), 1);
    IS(memcmp(old, was, old_len) == 0, 1);
    free(fresh);
    free(was);
}

/* Converted into a register of some length: this one, and zeros behind it. */
static void converts(const uint8_t *old, size_t old_len, const uint8_t *reg, size_t reg_len, size_t len) {
    uint8_t *fresh = filled(len, 9), *was = filled(old_len, 0);
    size_t same = len < reg_len ? len : reg_len;
    memcpy(was, old, old_len);
    IS(siad_convert(old, old_len, fresh, len), 0);
    IS(memcmp(fresh, reg, same) == 0, 1);
    IS(all(fresh + same, len - same, 0), 1);
    IS(memcmp(old, was, old_len) == 0, 1);
    IS(siad_sound(fresh, len), 0);
    free(fresh);
    free(was);
}

/* A case and three events as they were before, into registers of each length that matters. */
static void converted(const char *folder) {
    static const char events[] = CONFIRMS("05-10") VISIT("05-02", "13", " numAccessi=\"3\"") VISIT("05-02", "99", "");
    enum { OLD_CONFERMA = SIAD_OLD_REGISTER_BYTES(1) + 89, CONFERMA = SIAD_REGISTER_BYTES(1) + 89 };
    size_t n, len = SIAD_REGISTER_BYTES(4), old_len = SIAD_OLD_REGISTER_BYTES(4);
    uint8_t *sub = submission(folder, "case_twice", &n), *reg = filled(len, 0), *zeros = filled(len, 0);
    submits(sub, n, 1, reg, 4, 2, SIAD_ACCEPTED, SIAD_STANDS);
    sends(reg, 'I', events, SIAD_ACCEPTED);
    uint8_t *old = narrowed(reg, 4);
    old[OLD_CONFERMA] = reg[CONFERMA] = 0x80; /* confermaPrecedente 2, its Valutazione not kept */
    IS(siad_sound(old, old_len), SIAD_UNSOUND);
    converts(old, old_len, reg, len, len);
    converts(old, old_len, reg, len, len + 1);
    converts(old, old_len, reg, len, SIAD_REGISTER_BYTES(SIAD_MOST_ROWS) + 1);
    converts_not(old, old_len, len - 1, SIAD_SHORT_OUTPUT);
    converts_not(old, old_len, SIAD_HEADER_BYTES - 1, SIAD_SHORT_OUTPUT);
    converts_not(old, old_len, 0, SIAD_SHORT_OUTPUT);
    converts_not(old, old_len - 1, len, SIAD_UNSOUND);
    converts_not(old, old_len - 1, 0, SIAD_UNSOUND);
    converts_not(reg, len, len, SIAD_UNSOUND); /* it is none of before */
    old[OLD_CONFERMA] |= 0x20; /* in the old row a zero bit, now a field's */
    converts_not(old, old_len, len, SIAD_UNSOUND);
    converts(zeros, SIAD_HEADER_BYTES, zeros, len, SIAD_HEADER_BYTES);
    converts(zeros, len, zeros, len, len);
    converts_not(zeros, len, SIAD_HEADER_BYTES - 1, SIAD_SHORT_OUTPUT);
    converts_not(zeros, SIAD_HEADER_BYTES - 1, len, SIAD_UNSOUND);
    in_force(reg, len, whole, "2018-06-30", 0, own); /* passed over, until it is varied */
    sends(reg, 'V', REPLACES("05-10", "a b\t", "<Disturbi><Comportamentali>3</Comportamentali></Disturbi>"),
          SIAD_ACCEPTED);
    in_force(reg, len, whole, "2018-06-30", 0, last_kept);
    free(sub);
    free(reg);
    free(old);
    free(zeros);
}

/* A record's text is replaced, and then the element that begins so is at fault; a root's fault is outside every
   record. */
struct fault {
    uint64_t track;
    const char *good, *bad, *at;
};

static const struct fault faults[] = {
    /* texts, codes and what else stands in a leaf: its own element */
    {1, "<AnnoNascita>1951", "<AnnoNascita>195", "<AnnoNascita>"},
    {1, "<Genere>1", "<Genere>3", "<Genere>"},
    {1, "<CUNI>ABC", "<CUNI>A<!-- B -->", "<CUNI>"},
    {1, "<CUNI>ABC", "<CUNI><Altro/>", "<CUNI>"},
    {2, "<Trasmissione tipo=\"I\"/>", "<Trasmissione tipo=\"I\"> </Trasmissione>", "<Trasmissione"},
    {2, "<CodiceRegione>010", "<CodiceRegione>999", "<CodiceRegione>"},
    {2, "<TipoOperatore>1", "<TipoOperatore>14", "<TipoOperatore>"},
    {2, "<Motivazione>9<", "<Motivazione>9\n<", "<Motivazione>"},
    /* attributes: their element */
    {1, "2018-05-02", "2018-02-30", "<Valutazione"},
    {1, " soggettoRichiedente=\"1\"", "", "<PresaInCarico"},
    {1, "<Conviventi>", "<Conviventi a=\"b\">", "<Conviventi"},
    {2, "<Assistenza>", "<Assistenza a=\"b\">", "<Assistenza"},
    {2, "tipo=\"I\"", "tipo=\"X\"", "<Trasmissione"},
    {2, "dataFine=\"2018-05-05\"", "dataFine=\"2018-5-5\"", "<Sospensione"},
    {2, "<Id_Rec>", "<Id_Rec a=\"b\">", "<Id_Rec"},
    /* missing, extra and misordered children, and text between them: the parent */
    {1, "<CodiceASL>101</CodiceASL>", "", "<Erogatore>"},
    {1, "</Residenza>", "<Altro/></Residenza>", "<Residenza>"},
    {1, "<NucleoFamiliare>2</NucleoFamiliare>", "", "<Conviventi>"},
    {1, "<Assistito>", "<Assistito>text", "<Assistito>"},
    {2, "<TipoOperatore>1</TipoOperatore>", "", "<Erogazione"},
    {2, "</Sospensione>", "</Sospensione><Erogazione/>", "<Eventi>"},
    {2, "</Erogazione>", "</Erogazione>text", "<Eventi>"},
    {2, "<Erogatore><CodiceRegione>010</CodiceRegione><CodiceASL>101</CodiceASL></Erogatore>", "", "<Assistenza"},
    /* two faults: the one that is met first */
    {2, "<CodiceRegione>010</CodiceRegione><CodiceASL>101</CodiceASL>", "<CodiceRegione>0</CodiceRegione>",
     "<CodiceRegione>"},
    {2, "<CodiceASL>101</CodiceASL></Erogatore><Eventi>", "</Erogatore><Eventi a=\"b\">", "<Erogatore>"},
    /* outside every record: the root, whatever the records are */
    {1, "<FlsAssDom_1>", "<FlsAssDom_1 a=\"b\">", "<FlsAssDom_1"},
    {1, "</Assistenza></FlsAssDom_1>", "</Assistenza>text</FlsAssDom_1>", "<FlsAssDom_1"},
    {2, "</Assistenza></FlsAssDom_2>", "<Altro/></Assistenza><Altro/></FlsAssDom_2>", "<FlsAssDom_2"},
};

/* Where a text has a part for the nth time. */
static const char *nth(const char *text, const char *part, unsigned n) {
    const char *p = strstr(text, part);
    while (p != NULL && --n > 0) p = strstr(p + 1, part);
    if (p == NULL) {
        printf("no %s\n", part);
        exit(2);
    }
    return p;
}

/* A file with the nth good text made bad. */
static char *made_bad(const char *file, const struct fault *f, unsigned n) {
    const char *good = nth(file, f->good, n);
    size_t room = strlen(file) + strlen(f->bad) + 1;
    char *p = (char *)filled(room, 0);
    snprintf(p, room, "%.*s%s%s", (int)(good - file), file, f->bad, good + strlen(f->good));
    return p;
}

/* The same file with a line for each tag, and with other quotes. */
static char *written(const char *file, int lines, int single) {
    char *to = (char *)filled(3 * strlen(file) + 1, 0), *p = to;
    for (; *file != '\0'; file++) {
        if (lines && *file == '<' && p > to && p[-1] == '>') p += sprintf(p, "\r\n");
        *p++ = single && *file == '"' ? '\'' : *file;
    }
    return to;
}

/* A fault in the nth record, in a file that begins with `front`. */
static void placed(const char *front, const char *file, const struct fault *f, unsigned n) {
    unsigned number = strncmp(f->at, "<Fls", 4) == 0 ? 0 : n;
    size_t before = strlen(front), len = before + strlen(file);
    uint8_t *sub = filled(len, 0);
    memcpy(sub, front, before);
    memcpy(sub + before, file, len - before);
    IS(refused(sub, len, f->track, 2018, 2, SIAD_REGISTER_BYTES(1), 2), SIAD_NOT_SHAPE);
    IS(told[SIAD_NUMBER], number);
    if (told[SIAD_PLACE] != before + (size_t)(nth(file, f->at, n) - file)) {
        printf("%s for %s in record %u: place %llu\n", f->bad, f->good, n, (unsigned long long)told[SIAD_PLACE]);
        bad = 1;
    }
    free(sub);
}

/* A fault in a file of two records, written in each way. */
static void placed_in(const char *good, const struct fault *f, unsigned n) {
    static const char *const fronts[] = {"", "\n", "<?xml version='1.0'?>\r\n<!-- <Assistenza> -->\r\n\t"};
    char *file = made_bad(good, f, n);
    for (int how = 0; how < 12; how++) {
        char *text = written(file, how & 1, how & 2);
        placed(fronts[how / 4], text, f, n);
        free(text);
    }
    free(file);
}

#define EVENTS \
    "<Assistenza><Trasmissione tipo=\"I\"/>" \
    "<Erogatore><CodiceRegione>010</CodiceRegione><CodiceASL>101</CodiceASL></Erogatore>" \
    "<Eventi><PresaInCarico data=\"2018-05-01\"><Id_Rec>" ID "</Id_Rec></PresaInCarico>" \
    VISIT("05-02", "1", "") "<Sospensione dataInizio=\"2018-05-03\" dataFine=\"2018-05-05\">" \
    "<Motivazione>9</Motivazione></Sospensione></Eventi></Assistenza>"

/* Each fault in the first and in the second record; those of the root are in the file once. */
static void places(const char *folder) {
    static const char events[] = "<FlsAssDom_2>" EVENTS EVENTS "</FlsAssDom_2>";
    size_t n;
    uint8_t *sub = submission(folder, "case_twice", &n);
    char *cases = (char *)filled(n + 1, 0);
    memcpy(cases, sub, n);
    for (size_t i = 0; i < sizeof faults / sizeof *faults; i++) {
        const struct fault *f = &faults[i];
        const char *good = f->track == 1 ? cases : events;
        placed_in(good, f, 1);
        if (strncmp(f->at, "<Fls", 4) != 0) placed_in(good, f, 2);
    }
    free(sub);
    free(cases);
}

/* Line and column of each place of a file, and of none that is outside it or in a line's end (where.c). */
static void lines(void) {
    static const unsigned line[] = {1, 1, 0, 0, 2, 2, 0}, column[] = {1, 2, 0, 0, 1, 2, 0};
    size_t n = 6;
    uint8_t *file = filled(n, 0), *none = filled(0, 0);
    struct where w;
    memcpy(file, "ab\r\ncd", n);
    for (size_t place = 0; place <= n; place++) {
        int has = where_is(file, n, place, &w);
        IS(has ? w.line : 0, line[place]);
        IS(has ? w.column : 0, column[place]);
    }
    IS(where_is(file, n, UINT64_MAX, &w), 0);
    IS(where_is(none, 0, 0, &w), 0);
    free(file);
    free(none);
}

/* NULL with length 0, as siad.h tells: answered as an empty buffer is. */
static void nulls(const char *folder) {
    size_t n, len = SIAD_REGISTER_BYTES(1);
    uint8_t *sub = submission(folder, "case_twice", &n), *reg = filled(len, 0), fields[SIAD_FIELDS] = {77};
    uint64_t place = 77, length = 77;
    IS(siad_empty(NULL, 0), SIAD_UNSOUND);
    IS(siad_sound(NULL, 0), SIAD_UNSOUND);
    IS(siad_find(NULL, 0, NULL, 0, NULL, 0, NULL, 0, NULL, 0, &place), SIAD_UNSOUND);
    IS(siad_find(reg, len, NULL, 0, NULL, 0, NULL, 0, NULL, 0, &place), SIAD_NOT_FOUND);
    IS(place, 0);
    IS(siad_cancel_file(NULL, 0, NULL, 0, NULL, 0, NULL, 0, NULL, 0, 2018, 2, NULL, 0, &length), SIAD_UNSOUND);
    IS(siad_cancel_file(reg, len, NULL, 0, NULL, 0, NULL, 0, NULL, 0, 2018, 2, NULL, 0, &length), SIAD_NOT_FOUND);
    IS(length, 0);
    IS(siad_evaluation(NULL, 0, NULL, 0, NULL, 0, NULL, 0, NULL, 0, NULL, 0, fields), SIAD_UNSOUND);
    IS(siad_evaluation(reg, len, NULL, 0, NULL, 0, NULL, 0, NULL, 0, NULL, 0, fields), SIAD_NOT_FOUND);
    IS(all(fields, SIAD_FIELDS, 0), 1);
    IS(siad_convert(NULL, 0, NULL, 0), SIAD_UNSOUND);
    IS(siad_convert(NULL, 0, reg, len), SIAD_UNSOUND);
    IS(siad_convert(reg, len, NULL, 0), SIAD_SHORT_OUTPUT);
    IS(siad_submit(NULL, 0, 1, 2018, 2, NULL, 0, NULL, 0, NULL, 0), SIAD_UNSOUND);
    IS(siad_submit(NULL, 0, 1, 2018, 2, reg, len, NULL, 0, NULL, 0), SIAD_NOT_MARKUP);
    IS(siad_submit(sub, n, 2, 2018, 2, reg, len, NULL, 0, NULL, 0), SIAD_NOT_SHAPE);
    IS(siad_submit(sub, n, 1, 2018, 2, reg, len, NULL, 0, NULL, 0), SIAD_SHORT_LIST);
    IS(all(reg, len, 0), 1);
    free(sub);
    free(reg);
}

/* Each answer has its words, and no other number has any. */
static void words(void) {
    for (uint64_t n = 1; n < 300; n++) {
        int of_file = n >= SIAD_BAD_PERIOD && n <= SIAD_SHORT_LIST;
        int of_record = (n >= SIAD_OUTSIDE_QUARTER && n <= SIAD_STANDS_NOT) || n == SIAD_NO_ROOM ||
                        (n >= SIAD_NO_EVENT && n <= SIAD_AFTER_CONCLUSION);
        int answer = of_file || of_record || (n >= SIAD_NOT_FOUND && n <= SIAD_SHORT_OUTPUT);
        IS(words_of(n, NULL) != NULL, answer);
    }
    IS(SIAD_REGISTER_BYTES(151), 14500);
    IS(SIAD_REGISTER_BYTES(SIAD_MOST_ROWS), 393220);
    IS(SIAD_OLD_REGISTER_BYTES(SIAD_MOST_ROWS), 372740);
}

int main(int argc, char **argv) {
    if (argc != 2) {
        fputs("usage: test FOLDER\n", stderr);
        return 2;
    }
    refusals(argv[1]);
    report_lengths(argv[1]);
    places(argv[1]);
    taken(argv[1], SIAD_REGISTER_BYTES(1) - 1, SIAD_NO_ROOM, SIAD_NO_ROOM);
    taken(argv[1], SIAD_REGISTER_BYTES(1), SIAD_ACCEPTED, SIAD_STANDS);
    taken(argv[1], 14564, SIAD_ACCEPTED, SIAD_STANDS); /* the program's: 151 rows, and 64 bytes */
    carried_away(argv[1]);
    two_operators(argv[1]);
    undone(argv[1]);
    evaluated(argv[1]);
    converted(argv[1]);
    nulls(argv[1]);
    lines();
    words();
    puts(bad ? "FAILED" : "ok");
    return bad;
}
