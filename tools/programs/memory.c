/* Counts a program's requests for memory, and makes one of them fail on demand: a library for LD_PRELOAD.
 *
 * Each environment variable has its own effect, if it is set:
 *
 * - REFUSED is the number of the request that fails, counted from 1; 0 means none.
 * - TOLD names a file. The number of requests, and the sum of their bytes, are written to it at the end.
 * - ASKED names a file. The program reads the clock before and after the code that it measures. From an odd call of clock_gettime to the
 *   next one, the library finds the most bytes that are allocated at one time, beyond those at the end. A realloc counts only its new
 *   size. Each write to standard output then adds a line to the file, with the most of all measurements since the last line. */
#define _GNU_SOURCE
#include <errno.h>
#include <fcntl.h>
#include <stdio.h>
#include <stdlib.h>
#include <string.h>
#include <sys/syscall.h>
#include <time.h>
#include <unistd.h>

extern void *__libc_memalign(size_t, size_t);
extern void __libc_free(void *);

/* is stored before the block that the program gets */
struct header {
    size_t size;
    void *block;
};

static unsigned long requests, bytes;
static size_t now, most, reading;
static unsigned calls;

static struct header *header_of(void *p) {
    return (struct header *)p - 1;
}

static int is_refused(size_t size) {
    const char *number = getenv("REFUSED");
    requests++;
    bytes += size;
    return number && requests == strtoul(number, NULL, 10);
}

static void *ask(size_t alignment, size_t size) {
    size_t front = alignment < sizeof(struct header) ? sizeof(struct header) : alignment;
    char *block = is_refused(size) || size + front < size ? NULL : __libc_memalign(front, size + front);
    if (!block)
        return NULL;
    struct header *header = header_of(block + front);
    header->size = size;
    header->block = block;
    now += size;
    if (now > most)
        most = now;
    return block + front;
}

void *malloc(size_t size) {
    return ask(16, size);
}

void *memalign(size_t alignment, size_t size) {
    return ask(alignment, size);
}

void *aligned_alloc(size_t alignment, size_t size) {
    return ask(alignment, size);
}

int posix_memalign(void **p, size_t alignment, size_t size) {
    *p = ask(alignment, size);
    return *p ? 0 : ENOMEM;
}

void *calloc(size_t count, size_t size) {
    size_t all;
    void *p = __builtin_mul_overflow(count, size, &all) ? NULL : ask(16, all);
    return p ? memset(p, 0, all) : NULL;
}

void free(void *p) {
    if (p) {
        now -= header_of(p)->size;
        __libc_free(header_of(p)->block);
    }
}

void *realloc(void *p, size_t size) {
    size_t old = p ? header_of(p)->size : 0;
    now -= old;
    void *q = ask(16, size);
    now += old;
    if (q && p) {
        memcpy(q, p, old < size ? old : size);
        free(p);
    }
    return q;
}

/* Writes a line to the file that a variable names: appends it, or replaces the content. */
static void tell(const char *variable, int mode, const char *line) {
    const char *name = getenv(variable);
    int file = name ? open(name, O_WRONLY | O_CREAT | mode, 0644) : -1;
    if (file >= 0) {
        syscall(SYS_write, file, line, strlen(line));
        close(file);
    }
}

int clock_gettime(clockid_t clock, struct timespec *time) {
    if (calls++ % 2 && most - now > reading)
        reading = most - now;
    most = now;
    return syscall(SYS_clock_gettime, clock, time);
}

ssize_t write(int file, const void *text, size_t count) {
    if (file == 1 && reading) {
        char line[32];
        snprintf(line, sizeof line, "%zu\n", reading);
        tell("ASKED", O_APPEND, line);
        reading = 0;
    }
    return syscall(SYS_write, file, text, count);
}

__attribute__((destructor)) static void tell_requests(void) {
    char line[64];
    snprintf(line, sizeof line, "%lu %lu\n", requests, bytes);
    tell("TOLD", O_TRUNC, line);
}
