/* A place in a file of plain text, for those who read it: its line, its column, and the line with a mark below it. */
#ifndef WHERE_H
#define WHERE_H
#include <stddef.h>
#include <stdint.h>

/* Bytes of a line, at most: a terminal of 80 columns doesn't break it, so the mark stays under its place. */
enum { SHOWN = 78 };

struct where {
    size_t line, column;  /* from 1; a tab is one column */
    char text[SHOWN + 1]; /* the line; of a longer one what is around the place, with ... where it is cut */
    char mark[SHOWN + 1]; /* for the line below that: ^ under the place */
};

/* 1, or 0 where no line has such a place: it is outside the file, or in a line's end. A line ends with a line feed, and
   a carriage return before that belongs to its end. */
int where_is(const uint8_t *file, size_t len, uint64_t place, struct where *w);

#endif
