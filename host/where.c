#include "where.h"

/* A line's bytes: from `begin` up to `end`, without its end. */
struct line {
    size_t number, begin, end;
};

/* A last line without a line feed ends with the file. */
static size_t end_from(const uint8_t *file, size_t len, size_t begin) {
    size_t end = begin;
    while (end < len && file[end] != '\n') end++;
    return end < len && end > begin && file[end - 1] == '\r' ? end - 1 : end;
}

static struct line line_with(const uint8_t *file, size_t len, size_t place) {
    struct line l = {1, 0, 0};
    for (size_t i = 0; i < place; i++)
        if (file[i] == '\n') {
            l.number++;
            l.begin = i + 1;
        }
    l.end = end_from(file, len, l.begin);
    return l;
}

/* Of a line that is too long, the part that is shown. It has a third before the place, or more near the line's end, so
   that the dots, which take three bytes of it where it is cut, are never at the place. */
static struct line shown_of(const struct line *l, size_t place) {
    struct line s = *l;
    if (l->end - l->begin <= SHOWN) return s;
    if (place - l->begin > SHOWN / 3) s.begin = place - SHOWN / 3;
    if (l->end - s.begin < SHOWN) s.begin = l->end - SHOWN;
    s.end = s.begin + SHOWN;
    return s;
}

/* A terminal would obey a carriage return: it is shown as a blank, and so is a byte that no file in the markup has. */
static char visible(uint8_t b) {
    return b == '\t' || (b >= ' ' && b <= '~') ? (char)b : ' ';
}

/* Below a tab stands a tab: so the mark is under the place, whatever width a terminal gives to tabs. */
static void show(const uint8_t *file, const struct line *l, const struct line *s, size_t place, struct where *w) {
    size_t n = s->end - s->begin, at = place - s->begin;
    for (size_t i = 0; i < n; i++) {
        int cut = (i < 3 && s->begin > l->begin) || (i + 3 >= n && s->end < l->end);
        w->text[i] = cut ? '.' : visible(file[s->begin + i]);
        w->mark[i] = w->text[i] == '\t' ? '\t' : ' ';
    }
    w->text[n] = '\0';
    w->mark[at] = '^';
    w->mark[at + 1] = '\0';
}

int where_is(const uint8_t *file, size_t len, uint64_t place, struct where *w) {
    if (place >= len) return 0;
    struct line l = line_with(file, len, (size_t)place);
    if (place >= l.end) return 0;
    struct line s = shown_of(&l, (size_t)place);
    w->line = l.number;
    w->column = (size_t)place - l.begin + 1;
    show(file, &l, &s, (size_t)place, w);
    return 1;
}
