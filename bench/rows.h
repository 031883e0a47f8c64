/* What a program that stores rows gives to rows.c, which has the main function. PROGRAM KIND REPEATS makes 3,570 events
   as records of one case each. The kind is STANDING-ORDER-EACH: how many events of cases behind all of these stand
   before; whether the cases come `up`, in ascending order, or `down`, each in front of all that stands; the events of a
   record. The standing rows are prepared and the records stored REPEATS times; a line tells how many rows stand then,
   and a sum of their bytes. With `bare` behind REPEATS they are only prepared: the difference is the storing. */
#ifndef ROWS_H
#define ROWS_H
#include <stddef.h>
#include <stdint.h>

enum { ROW = 96, KEY = 86, EVENTS = 3570 }; /* an Erogazione's key is its row's first 688 bits */

struct record {
    uint8_t probe[ROW]; /* the case's key, then zeros */
    uint64_t *events;
    uint8_t (*rows)[ROW]; /* the same events as rows */
    size_t n;
};

void prepare(const struct record *standing, size_t n); /* an empty table, then these in it */
void store(const struct record *r);
void finish(void);
/* Calls `see` with each row that stands, in order. */
void each_row(void (*see)(const uint8_t row[ROW]));

#endif
