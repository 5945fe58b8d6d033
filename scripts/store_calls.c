/* Preloaded before a program that keeps a store, this refuses its calls on the store's files, or records them.

   STORE: the path of the store's file. Its files are that one (d), the log beside it (l), a journal beside it, and the
   folder (f) that they lie in, each told by the path that was opened. Calls on others are left alone.
   REFUSE_STORE="WHICH N ERROR": the N-th of these calls, from 1, fails with the error of this number.
     calls   opens, reads, writes, syncs, changes of length, questions about a file, and locks
     from    the same, and each call after the N-th fails too
     writes  writes alone
   TOLD: the number of a file that gets one byte when the first call was refused.
   RECORD: the number of a file that gets what each call did that didn't fail: a struct record, and the bytes of a write.
   A write to standard output is recorded too, without its bytes. */
#define _GNU_SOURCE
#include <dlfcn.h>
#include <errno.h>
#include <fcntl.h>
#include <stdarg.h>
#include <stdatomic.h>
#include <stdint.h>
#include <stdio.h>
#include <stdlib.h>
#include <string.h>
#include <sys/stat.h>
#include <sys/syscall.h>
#include <unistd.h>

enum { MOST_FILES = 64 };

/* The kind is o for a file that was made, w for a write, c for a change of length, s for a sync, a for standard output. */
struct record {
    char kind, file;
    char none[6];
    int64_t at, size;
};

static char store[4096], folder[4096], which[16], files[MOST_FILES];
static long at;
static int error, told = -1, record = -1;
static atomic_long seen;

__attribute__((constructor)) static void start(void) {
    const char *path = getenv("STORE"), *refuse = getenv("REFUSE_STORE"), *tell = getenv("TOLD"), *to = getenv("RECORD");
    if (path) {
        snprintf(store, sizeof store, "%s", path);
        snprintf(folder, sizeof folder, "%s", path);
        if (strrchr(folder, '/'))
            *strrchr(folder, '/') = 0;
    }
    if (refuse && sscanf(refuse, "%15s %ld %d", which, &at, &error) != 3)
        abort();
    told = tell ? atoi(tell) : -1;
    record = to ? atoi(to) : -1;
}

/* Which of the store's files a path names, or 0. A path without a slash is one in the store's folder. */
static char file_of(const char *path) {
    const char *name = strrchr(store, '/') + (strchr(path, '/') ? 0 : 1);
    const char *whole = strchr(path, '/') ? store : name;
    size_t length = strlen(whole);
    if (!store[0])
        return 0;
    if (!strcmp(path, folder))
        return 'f';
    if (strncmp(path, whole, length))
        return 0;
    return !path[length] ? 'd' : !strcmp(path + length, "-wal") ? 'l' : !strcmp(path + length, "-journal") ? 'j' : 0;
}

static char open_file(int number) { return number >= 0 && number < MOST_FILES ? files[number] : 0; }

/* Whether a call on one of the store's files is to fail; errno is set then. */
static int is_refused(char file, int is_write) {
    if (!file || !at || (!strcmp(which, "writes") && !is_write))
        return 0;
    long count = atomic_fetch_add(&seen, 1) + 1;
    if (count < at || (count > at && strcmp(which, "from")))
        return 0;
    if (told >= 0 && count == at)
        syscall(SYS_write, told, "!", 1);
    errno = error;
    return 1;
}

static void put(const void *from, size_t size) {
    while (size) {
        long done = syscall(SYS_write, record, from, size);
        if (done <= 0)
            abort();
        from = (const char *)from + done;
        size -= done;
    }
}

static void note(char kind, char file, int64_t place, int64_t size, const void *bytes) {
    struct record it = {kind, file, {0}, place, size};
    if (record < 0)
        return;
    put(&it, sizeof it);
    if (bytes)
        put(bytes, size);
}

int open(const char *path, int flags, ...) {
    va_list more;
    va_start(more, flags);
    int mode = flags & O_CREAT ? va_arg(more, int) : 0;
    va_end(more);
    char file = file_of(path);
    if (is_refused(file, 0))
        return -1;
    int number = syscall(SYS_openat, AT_FDCWD, path, flags, mode);
    if (number >= 0 && number < MOST_FILES)
        files[number] = file;
    if (number >= 0 && file && flags & O_EXCL)
        note('o', file, 0, 0, NULL);
    return number;
}

int close(int number) {
    if (number >= 0 && number < MOST_FILES)
        files[number] = 0;
    return syscall(SYS_close, number);
}

ssize_t read(int number, void *to, size_t size) {
    return is_refused(open_file(number), 0) ? -1 : syscall(SYS_read, number, to, size);
}

ssize_t pread(int number, void *to, size_t size, off_t place) {
    return is_refused(open_file(number), 0) ? -1 : syscall(SYS_pread64, number, to, size, place);
}

ssize_t write(int number, const void *from, size_t size) {
    if (open_file(number))
        abort();
    ssize_t done = syscall(SYS_write, number, from, size);
    if (number == 1 && done > 0)
        note('a', 0, 0, done, NULL);
    return done;
}

ssize_t pwrite(int number, const void *from, size_t size, off_t place) {
    char file = open_file(number);
    if (is_refused(file, 1))
        return -1;
    ssize_t done = syscall(SYS_pwrite64, number, from, size, place);
    if (file && done > 0)
        note('w', file, place, done, from);
    return done;
}

int ftruncate(int number, off_t size) {
    char file = open_file(number);
    if (is_refused(file, 0))
        return -1;
    int done = syscall(SYS_ftruncate, number, size);
    if (file && !done)
        note('c', file, size, 0, NULL);
    return done;
}

static int sync_by(long call, int number) {
    char file = open_file(number);
    if (is_refused(file, 0))
        return -1;
    int done = syscall(call, number);
    if (file && !done)
        note('s', file, 0, 0, NULL);
    return done;
}

int fsync(int number) { return sync_by(SYS_fsync, number); }
int fdatasync(int number) { return sync_by(SYS_fdatasync, number); }

int statx(int number, const char *restrict path, int flags, unsigned mask, struct statx *restrict to) {
    if (is_refused(path[0] ? file_of(path) : open_file(number), 0))
        return -1;
    return syscall(SYS_statx, number, path, flags, mask, to);
}

int fcntl(int number, int what, ...) {
    va_list more;
    va_start(more, what);
    void *given = va_arg(more, void *);
    va_end(more);
    return is_refused(open_file(number), 0) ? -1 : syscall(SYS_fcntl, number, what, given);
}
