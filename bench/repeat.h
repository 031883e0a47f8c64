/* What a measuring program gives to repeat.c, which has the main function. PROGRAM KIND REPEATS [WORD] makes the kind's
   file, measures it REPEATS times and prints one line: half the difference of what 1 and 3 repeats take is the cost of
   one. With `time` for REPEATS it also prints the best time of 20. */
#ifndef REPEAT_H
#define REPEAT_H
#include "files.h"

extern submitter *const preparing; /* as in files.h */
void ready(const char *word);      /* what is done once; the word is NULL where it is missing */
void once(const struct file *f);   /* what is measured */
void tell(void);                   /* prints what the last one came to */

#endif
