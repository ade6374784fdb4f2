/* Loaded before the C library by acceptance/failing-calls: counts the program's calls of one kind,
   and has some of them fail or move a single byte. FAILING_KIND names the kind, FAILING_CALL the
   number of the call from 1 (0: none), and FAILING_COUNT a file for their count. With FAILING_HOW
   `stays` all calls from that one on fail, and with `random` some that the number picks. With
   CLOCK_STEP each reading of the clock is so many milliseconds later than the one before. */
#define _GNU_SOURCE
#include <dlfcn.h>
#include <errno.h>
#include <fcntl.h>
#include <pthread.h>
#include <stdarg.h>
#include <stdio.h>
#include <stdlib.h>
#include <string.h>
#include <sys/syscall.h>
#include <time.h>
#include <unistd.h>

extern void *__libc_malloc(size_t);
extern void *__libc_calloc(size_t, size_t);
extern void *__libc_realloc(void *, size_t);

enum kind { NONE, MEMORY, STREAM, INTERRUPTED, INTERRUPTED_FILES, NOT_READY, SHORT, OPENING, OPENING_INTERRUPTED, THREAD, CLOCK };

static const char *const names[] = {"none", "memory", "stream", "interrupted", "interrupted-files", "not-ready", "short", "opening", "opening-interrupted", "thread", "clock"};

static enum kind kind;
static long failing;
static int stays, random_calls;
static long calls;
static long clock_step, clock_readings;

/* Whether a call of this number is one of those that the number `failing` picks: one in four. */
static int is_picked(unsigned long call) {
    unsigned long mixed = (call * 0x9E3779B97F4A7C15UL) ^ ((unsigned long)failing * 0xD1B54A32D192ED03UL);
    mixed = (mixed ^ (mixed >> 29)) * 0xBF58476D1CE4E5B9UL;
    return (mixed >> 40) % 4 == 0;
}

/* Whether this call of a kind is one that fails. */
static int is_it(enum kind of) {
    if (kind != of)
        return 0;
    long call = __atomic_add_fetch(&calls, 1, __ATOMIC_SEQ_CST);
    if (!failing)
        return 0;
    return random_calls ? is_picked(call) : stays ? call >= failing : call == failing;
}

__attribute__((constructor)) static void begin(void) {
    const char *name = getenv("FAILING_KIND"), *call = getenv("FAILING_CALL"), *how = getenv("FAILING_HOW"), *step = getenv("CLOCK_STEP");
    if (name && call) {
        failing = atol(call);
        for (int at = MEMORY; at <= CLOCK; at++)
            if (!strcmp(name, names[at]))
                kind = at;
    }
    stays = how && !strcmp(how, "stays");
    random_calls = how && !strcmp(how, "random");
    clock_step = step ? atol(step) : 0;
}

/* Tells the count of calls, where that is wanted: also of a program that ends by `exit` or by its main's return. */
__attribute__((destructor)) static void tell(void) {
    const char *name = getenv("FAILING_COUNT");
    char text[24];
    int file = name ? syscall(SYS_openat, AT_FDCWD, name, O_WRONLY | O_CREAT | O_TRUNC, 0600) : -1;
    if (file >= 0) {
        long length = snprintf(text, sizeof text, "%ld\n", calls);
        syscall(SYS_write, file, text, length);
        close(file);
    }
}

/* The program ends by this call, at which the C library runs nothing. */
void _exit(int status) {
    tell();
    syscall(SYS_exit_group, status);
    __builtin_unreachable();
}

/* Whether this call for memory fails. */
static int is_refused(void) {
    int refused = is_it(MEMORY);
    if (refused)
        errno = ENOMEM;
    return refused;
}

void *malloc(size_t size) { return is_refused() ? NULL : __libc_malloc(size); }

void *calloc(size_t count, size_t size) { return is_refused() ? NULL : __libc_calloc(count, size); }

void *realloc(void *block, size_t size) { return is_refused() ? NULL : __libc_realloc(block, size); }

/* The fault of a read or a write, 0 for none. Standard error is no file: what is told there can be read. */
static int fault_of_stream(int file) {
    if (file != STDERR_FILENO && is_it(INTERRUPTED_FILES))
        return EINTR;
    return is_it(STREAM) ? EIO : is_it(INTERRUPTED) ? EINTR : is_it(NOT_READY) ? EAGAIN : 0;
}

/* A read or a write of a stream, in full, in part or not at all. */
static ssize_t move(long number, int file, void *bytes, size_t size) {
    int fault = fault_of_stream(file);
    if (fault) {
        errno = fault;
        return -1;
    }
    if (size > 1 && is_it(SHORT))
        size = 1;
    return syscall(number, file, bytes, size);
}

ssize_t read(int file, void *bytes, size_t size) { return move(SYS_read, file, bytes, size); }

ssize_t write(int file, const void *bytes, size_t size) { return move(SYS_write, file, (void *)bytes, size); }

/* The opening of a file, which fails for want of a descriptor or is interrupted. */
static int open_at(int folder, const char *name, int flags, mode_t mode) {
    int fault = is_it(OPENING) ? EMFILE : is_it(OPENING_INTERRUPTED) ? EINTR : 0;
    if (fault) {
        errno = fault;
        return -1;
    }
    return syscall(SYS_openat, folder, name, flags, mode);
}

#define MODE(flags) ({ va_list more; va_start(more, flags); mode_t mode = va_arg(more, int); va_end(more); mode; })

int open(const char *name, int flags, ...) { return open_at(AT_FDCWD, name, flags, MODE(flags)); }

int open64(const char *name, int flags, ...) { return open_at(AT_FDCWD, name, flags, MODE(flags)); }

int openat(int folder, const char *name, int flags, ...) { return open_at(folder, name, flags, MODE(flags)); }

int openat64(int folder, const char *name, int flags, ...) { return open_at(folder, name, flags, MODE(flags)); }

typedef int create(pthread_t *, const pthread_attr_t *, void *(*)(void *), void *);

int pthread_create(pthread_t *thread, const pthread_attr_t *how, void *(*work)(void *), void *with) {
    static create *made;
    if (!made)
        made = (create *)dlsym(RTLD_NEXT, "pthread_create");
    return is_it(THREAD) ? EAGAIN : made(thread, how, work, with);
}

/* A reading of the clock that only goes on. One that fails takes its time, too. */
int clock_gettime(clockid_t which, struct timespec *time) {
    if (which != CLOCK_MONOTONIC)
        return syscall(SYS_clock_gettime, which, time);
    long long now = __atomic_add_fetch(&clock_readings, 1, __ATOMIC_SEQ_CST) * (long long)clock_step;
    if (is_it(CLOCK)) {
        errno = EINVAL;
        return -1;
    }
    if (!clock_step)
        return syscall(SYS_clock_gettime, which, time);
    time->tv_sec = now / 1000;
    time->tv_nsec = now % 1000 * 1000000;
    return 0;
}
