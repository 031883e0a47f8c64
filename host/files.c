#define _GNU_SOURCE
#include "files.h"
#include <errno.h>
#include <fcntl.h>
#include <stdio.h>
#include <stdlib.h>
#include <string.h>
#include <sys/file.h>
#include <sys/stat.h>
#include <unistd.h>

void hold_streams(void) {
    int fd;
    do fd = open("/dev/null", O_RDONLY);
    while (fd >= 0 && fd <= STDERR_FILENO);
    if (fd >= 0) close(fd);
}

uint8_t *room(size_t n) {
    uint8_t *p = calloc(n ? n : 1, 1);
    if (p == NULL) {
        fprintf(stderr, "gateway: no memory for %zu bytes\n", n);
        exit(2);
    }
    return p;
}

char *beside(const char *name, const char *ending) {
    size_t n = strlen(name), m = strlen(ending);
    char *p = (char *)room(n + m + 1);
    memcpy(p, name, n);
    memcpy(p + n, ending, m);
    return p;
}

/* Closes, and keeps errno. */
static void shut(int fd) {
    int why = errno;
    close(fd);
    errno = why;
}

/* Twice the room, with the same bytes. */
static void widen(struct bytes *b, size_t held) {
    uint8_t *wider = room(2 * held);
    memcpy(wider, b->at, b->len);
    free(b->at);
    b->at = wider;
}

int read_file(const char *name, size_t most, struct bytes *b) {
    size_t held = 65536;
    ssize_t got = 1;
    int fd = open(name, O_RDONLY | O_CLOEXEC);
    if (fd < 0) return -1;
    b->at = room(held);
    b->len = 0;
    while (got > 0 && b->len < most) {
        if (b->len == held) {
            widen(b, held);
            held *= 2;
        }
        size_t want = (held < most ? held : most) - b->len;
        do got = read(fd, b->at + b->len, want);
        while (got < 0 && errno == EINTR);
        if (got > 0) b->len += (size_t)got;
    }
    shut(fd);
    return got < 0 ? -1 : 0;
}

enum kind kind_of(const char *name) {
    struct stat st;
    if (stat(name, &st) == 0) return S_ISREG(st.st_mode) ? REGULAR : OTHER;
    return errno == ENOENT ? NOTHING : UNKNOWN;
}

int taken(const char *name) {
    struct stat st;
    return lstat(name, &st) == 0;
}

/* A name's last part. */
static const char *last_of(const char *name) {
    const char *slash = strrchr(name, '/');
    return slash == NULL ? name : slash + 1;
}

/* The name of the folder that a name stands in, from room. */
static char *folder_of(const char *name) {
    char *folder = beside(name, "/."); /* room for "." where the name is empty */
    size_t n = (size_t)(last_of(name) - name);
    if (n == 0) folder[n++] = '.';
    folder[n] = '\0';
    return folder;
}

static int open_folder(const char *name) {
    char *folder = folder_of(name);
    int fd = open(folder, O_RDONLY | O_DIRECTORY | O_CLOEXEC);
    free(folder);
    return fd;
}

static int one_inode(const char *a, const char *b) {
    struct stat s, t;
    return stat(a, &s) == 0 && stat(b, &t) == 0 && s.st_dev == t.st_dev && s.st_ino == t.st_ino;
}

/* A file is told by its inode, whatever links and spellings lead to it; one that is not there by its folder's. */
int same_file(const char *a, const char *b) {
    char *folder_a = folder_of(a), *folder_b = folder_of(b);
    int same = one_inode(a, b) || (strcmp(last_of(a), last_of(b)) == 0 && one_inode(folder_a, folder_b));
    free(folder_a);
    free(folder_b);
    return same;
}

/* An open file once it is locked, else it is closed. */
static int locked(int fd, void (*waiting)(void)) {
    int got = -1;
    if (fd < 0) return -1;
    if (flock(fd, LOCK_EX | LOCK_NB) == 0) return fd;
    if (errno == EWOULDBLOCK) {
        waiting();
        do got = flock(fd, LOCK_EX);
        while (got != 0 && errno == EINTR);
    }
    if (got == 0) return fd;
    shut(fd);
    return -1;
}

/* The lock is on a file of its own beside the register, NAME.lock. A lock on the register would go with the old file
   when a new one takes its name: who waited for it would then own a file without a name, beside who locks the new one.
   For the same reason the lock's file is never removed. Readers need no lock: a file once named is not written to. */
int lock_file(const char *name, void (*waiting)(void)) {
    char *lock = beside(name, ".lock");
    int fd = open(lock, O_RDWR | O_CREAT | O_CLOEXEC | O_NOFOLLOW, 0666);
    /* another user made it, or nothing can be written there */
    if (fd < 0 && (errno == EACCES || errno == EROFS)) fd = open(lock, O_RDONLY | O_CLOEXEC | O_NOFOLLOW);
    free(lock);
    return locked(fd, waiting);
}

int lock_folder(const char *name, void (*waiting)(void)) {
    return locked(open_folder(name), waiting);
}

void unlock_file(int lock) {
    close(lock);
}

static int write_all(int fd, const struct bytes *b) {
    size_t done = 0;
    while (done < b->len) {
        ssize_t put = write(fd, b->at + done, b->len - done);
        if (put < 0 && errno != EINTR) return -1;
        if (put > 0) done += (size_t)put;
    }
    return 0;
}

/* The file is used as the other one is: by its owner where this process may give files away, by its group, with its
   mode. Without another it is its owner's alone. */
static int same_users(int fd, const char *like) {
    struct stat st;
    if (stat(like, &st) != 0) return errno == ENOENT ? 0 : -1;
    if (fchown(fd, st.st_uid, st.st_gid) != 0 && fchown(fd, (uid_t)-1, st.st_gid) != 0) return -1;
    return fchmod(fd, st.st_mode & 0777);
}

/* The bytes on the disk under a name that nobody reads. */
static int write_new(const char *name, const char *like, const struct bytes *b) {
    if (unlink(name) != 0 && errno != ENOENT) return -1; /* what a killed gateway left */
    int fd = open(name, O_WRONLY | O_CREAT | O_EXCL | O_CLOEXEC, 0600);
    if (fd < 0) return -1;
    int bad = write_all(fd, b) != 0 || same_users(fd, like) != 0 || fsync(fd) != 0;
    if (bad) {
        shut(fd);
        return -1;
    }
    return close(fd);
}

/* A new name is on the disk once its folder is; some file systems know no sync of a folder, and say EINVAL. */
static int sync_folder(const char *name) {
    int fd = open_folder(name);
    if (fd < 0) return -1;
    int bad = fsync(fd) != 0 && errno != EINVAL;
    shut(fd);
    return bad ? -1 : 0;
}

int replace_file(const char *name, const char *like, const struct bytes *b) {
    char *fresh = beside(name, ".new");
    int result = write_new(fresh, like, b) == 0 && rename(fresh, name) == 0 ? 0 : -1;
    if (result != 0) {
        int why = errno;
        unlink(fresh);
        errno = why;
    } else if (sync_folder(name) != 0) {
        result = 1;
    }
    free(fresh);
    return result;
}
