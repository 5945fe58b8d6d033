/* Preloaded before a program, this refuses one of its calls, or makes its reads and writes short.

   REFUSE="KIND N": the N-th call of that kind, from 1, is refused.
     alloc   malloc, calloc, realloc and their like give no memory
     read    a read fails
     write   a write to standard output fails
     none    a write to standard output takes nothing
     thread  no thread is started
     chance  no random bytes are given
   SHORT="KIND N": each read, or each write to standard output, moves at most N bytes.
   TOLD: the number of a file that gets one byte when a call was refused. */
#define _GNU_SOURCE
#include <dlfcn.h>
#include <errno.h>
#include <pthread.h>
#include <stdatomic.h>
#include <stdlib.h>
#include <string.h>
#include <sys/syscall.h>
#include <sys/uio.h>
#include <unistd.h>

extern void *__libc_malloc(size_t);
extern void *__libc_calloc(size_t, size_t);
extern void *__libc_realloc(void *, size_t);
extern void *__libc_memalign(size_t, size_t);

enum kind { NOTHING, ALLOC, READ, WRITE, NONE, THREAD, CHANCE };

static enum kind refused, shortened;
static long at, most;
static int told = -1, is_ready;
static atomic_long seen;

static enum kind kind_of(const char *word) {
    static const char *names[] = {"", "alloc", "read", "write", "none", "thread", "chance"};
    for (int i = ALLOC; i <= CHANCE; i++) {
        size_t length = strlen(names[i]);
        if (!strncmp(word, names[i], length) && word[length] == ' ')
            return i;
    }
    return NOTHING;
}

__attribute__((constructor)) static void start(void) {
    const char *refuse = getenv("REFUSE"), *cut = getenv("SHORT"), *file = getenv("TOLD");
    if (refuse) {
        refused = kind_of(refuse);
        at = atol(strchr(refuse, ' ') ? strchr(refuse, ' ') : "0");
    }
    if (cut) {
        shortened = kind_of(cut);
        most = atol(strchr(cut, ' ') ? strchr(cut, ' ') : "1");
    }
    if (file)
        told = atoi(file);
    is_ready = 1;
}

/* Whether this call is the one to refuse. */
static int is_it(enum kind kind) {
    if (!is_ready || kind != refused || atomic_fetch_add(&seen, 1) + 1 != at)
        return 0;
    if (told >= 0)
        syscall(SYS_write, told, "!", 1);
    return 1;
}

static void *no_memory(void) {
    errno = ENOMEM;
    return NULL;
}

void *malloc(size_t size) { return is_it(ALLOC) ? no_memory() : __libc_malloc(size); }
void *calloc(size_t count, size_t size) { return is_it(ALLOC) ? no_memory() : __libc_calloc(count, size); }
void *realloc(void *old, size_t size) { return is_it(ALLOC) ? no_memory() : __libc_realloc(old, size); }
void *aligned_alloc(size_t align, size_t size) { return is_it(ALLOC) ? no_memory() : __libc_memalign(align, size); }

int posix_memalign(void **out, size_t align, size_t size) {
    void *made = is_it(ALLOC) ? NULL : __libc_memalign(align, size);
    if (!made)
        return ENOMEM;
    *out = made;
    return 0;
}

static long refusal(int number) {
    errno = number;
    return -1;
}

ssize_t read(int file, void *to, size_t size) {
    if (is_it(READ))
        return refusal(EIO);
    if (shortened == READ && size > (size_t)most)
        size = most;
    return syscall(SYS_read, file, to, size);
}

ssize_t write(int file, const void *from, size_t size) {
    if (file == 1) {
        if (is_it(WRITE))
            return refusal(EIO);
        if (is_it(NONE))
            return 0;
        if (shortened == WRITE && size > (size_t)most)
            size = most;
    }
    return syscall(SYS_write, file, from, size);
}

int getentropy(void *to, size_t size) {
    if (is_it(CHANCE))
        return (int)refusal(ENOSYS);
    return syscall(SYS_getrandom, to, size, 0) == (long)size ? 0 : -1;
}

int pthread_create(pthread_t *thread, const pthread_attr_t *how, void *(*call)(void *), void *given) {
    static int (*real)(pthread_t *, const pthread_attr_t *, void *(*)(void *), void *);
    if (is_it(THREAD))
        return EAGAIN;
    if (!real)
        real = dlsym(RTLD_NEXT, "pthread_create");
    return real(thread, how, call, given);
}
