/* Files as the gateway needs them: read whole, replaced as a whole, one writer at a time. Functions that can fail give
   -1, with errno set. */
#ifndef FILES_H
#define FILES_H
#include <stddef.h>
#include <stdint.h>

struct bytes {
    uint8_t *at;
    size_t len;
};

/* Standard input, output and error stay those: one that is closed would be the next file that is opened, the lock or
   the register's new bytes. It is opened to be read, so that what is written to it still fails. */
void hold_streams(void);

/* n zero bytes, never NULL; the process ends with status 2 where there is no memory. */
uint8_t *room(size_t n);

/* "NAMEENDING", from room. */
char *beside(const char *name, const char *ending);

/* The first `most` bytes of a file, all of a shorter one. */
int read_file(const char *name, size_t most, struct bytes *b);

/* What has a name; UNKNOWN, with errno set, where that can't be told. */
enum kind { NOTHING, REGULAR, OTHER, UNKNOWN };
enum kind kind_of(const char *name);

/* Whether something has a name, be it a link to nothing. */
int taken(const char *name);

/* Whether two names are one file's, or would be where it is not there. */
int same_file(const char *a, const char *b);

/* Waits until this process is the one writer of the file; `waiting` is called if another is. Gives the lock, which is
   open until unlock or the process's end, however it ends. */
int lock_file(const char *name, void (*waiting)(void));
void unlock_file(int lock);

/* The same for all files of a name's folder, and leaves no file there. */
int lock_folder(const char *name, void (*waiting)(void));

/* The file holds these bytes, or what it held before: never a part. It is used by those who use the file `like`, where
   that stands. 0 with the bytes safe on the disk; 1 where they stand but the disk could not be told to keep the name,
   with errno set; -1 with the old file as it was. One writer at a time: lock_file or lock_folder. */
int replace_file(const char *name, const char *like, const struct bytes *b);

#endif
