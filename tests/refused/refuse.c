// Preloaded into the built program by tests/refused.py: the Nth request of one kind is refused, or each from the Nth on,
// or each is cut to so many bytes. At the end the numbers of requests are written to a file.
//
//   REFUSE_KIND   memory, read, write or thread
//   REFUSE_AT     N, counted from 1; 0 refuses none
//   REFUSE_ON     1: each from the Nth on
//   REFUSE_PIECE  the most bytes of a read or a write
//   REFUSE_SEED   other than 0: each read and each write has a random size of at most REFUSE_PIECE bytes
//   REFUSE_TOLD   the file of the numbers
#define _GNU_SOURCE
#include <dlfcn.h>
#include <errno.h>
#include <fcntl.h>
#include <pthread.h>
#include <stdatomic.h>
#include <stddef.h>
#include <stdio.h>
#include <stdlib.h>
#include <string.h>
#include <sys/syscall.h>
#include <unistd.h>

enum kind { MEMORY, READ, WRITE, THREAD, KINDS };

static const char *const names[KINDS] = {"memory", "read", "write", "thread"};
static atomic_long counts[KINDS];
static int refused_kind = -1;
static long refused_at;
static int refused_on;
static size_t piece = (size_t)-1;
static unsigned long seed;
static int begun;  // requests before `main` are the loader's and the C library's, and do not count

extern void *__libc_malloc(size_t);
extern void *__libc_calloc(size_t, size_t);
extern void *__libc_realloc(void *, size_t);
extern void *__libc_memalign(size_t, size_t);

static int refuses(enum kind kind) {
    if (!begun) return 0;
    long number = atomic_fetch_add(&counts[kind], 1) + 1;
    return refused_kind == (int)kind && refused_at != 0 && (refused_on ? number >= refused_at : number == refused_at);
}

static void *none(void) {
    errno = ENOMEM;
    return NULL;
}

void *malloc(size_t size) { return refuses(MEMORY) ? none() : __libc_malloc(size); }
void *calloc(size_t count, size_t size) { return refuses(MEMORY) ? none() : __libc_calloc(count, size); }
void *realloc(void *old, size_t size) { return refuses(MEMORY) ? none() : __libc_realloc(old, size); }
void *memalign(size_t align, size_t size) { return refuses(MEMORY) ? none() : __libc_memalign(align, size); }
void *aligned_alloc(size_t align, size_t size) { return refuses(MEMORY) ? none() : __libc_memalign(align, size); }

int posix_memalign(void **into, size_t align, size_t size) {
    void *found = refuses(MEMORY) ? NULL : __libc_memalign(align, size);
    if (found == NULL) return ENOMEM;
    *into = found;
    return 0;
}

// How many bytes a call of this size moves. Reads and writes come from one thread.
static size_t cut(size_t size) {
    size_t most = piece;
    if (seed != 0) {
        seed = seed * 6364136223846793005u + 1442695040888963407u;
        most = 1 + (seed >> 33) % piece;
    }
    return size < most ? size : most;
}

ssize_t read(int file, void *into, size_t size) {
    if (refuses(READ)) {
        errno = EIO;
        return -1;
    }
    return syscall(SYS_read, file, into, cut(size));
}

ssize_t write(int file, const void *from, size_t size) {
    if (file != 1) return syscall(SYS_write, file, from, size);
    if (refuses(WRITE)) {
        errno = EIO;
        return -1;
    }
    return syscall(SYS_write, file, from, cut(size));
}

int pthread_create(pthread_t *thread, const pthread_attr_t *how, void *(*body)(void *), void *given) {
    static int (*real)(pthread_t *, const pthread_attr_t *, void *(*)(void *), void *);
    if (refuses(THREAD)) return EAGAIN;
    if (real == NULL) real = (int (*)(pthread_t *, const pthread_attr_t *, void *(*)(void *), void *))dlsym(RTLD_NEXT, "pthread_create");
    return real(thread, how, body, given);
}

static long number_of(const char *name) {
    const char *text = getenv(name);
    return text == NULL ? 0 : atol(text);
}

__attribute__((constructor)) static void begin(void) {
    const char *kind = getenv("REFUSE_KIND");
    for (int i = 0; kind != NULL && i < KINDS; i++)
        if (strcmp(kind, names[i]) == 0) refused_kind = i;
    refused_at = number_of("REFUSE_AT");
    refused_on = number_of("REFUSE_ON") == 1;
    if (number_of("REFUSE_PIECE") > 0) piece = (size_t)number_of("REFUSE_PIECE");
    seed = (unsigned long)number_of("REFUSE_SEED");
    begun = 1;
}

// The program ends by this call.
void _exit(int status) {
    const char *path = getenv("REFUSE_TOLD");
    char text[128];
    int file = path == NULL ? -1 : open(path, O_WRONLY | O_CREAT | O_TRUNC, 0600);
    if (file >= 0) {
        int size = snprintf(text, sizeof text, "%ld %ld %ld %ld\n", counts[MEMORY], counts[READ], counts[WRITE], counts[THREAD]);
        syscall(SYS_write, file, text, (size_t)size);
        close(file);
    }
    for (;;) syscall(SYS_exit_group, status);
}
