/* A library to be loaded before the C library: calls of a server begin later by drawn times, a few of them by far, and some are refused.
 *
 *     cc -O2 -shared -fPIC -o delay-calls.so tools/preloaded/delay-calls.c -ldl
 *     LD_PRELOAD=$PWD/delay-calls.so DELAY_SEED=7 DELAY_OF=4 DELAY_US=2000 liftd serve ..
 *
 * Delayed are calls that take connections in, read, write, sync, shut down, close, start threads, park and wake them (futex). Of each thread's
 * calls one of DELAY_OF, by chance, begins up to DELAY_US microseconds later; DELAY_LONG of all threads' calls, which are one of
 * DELAY_RARELY by chance, DELAY_LONG_MS milliseconds later. The DELAY_SYNC-th sync begins DELAY_SYNC_MS milliseconds later. Chances are drawn
 * from DELAY_SEED, the thread's place among those that have called, and its own calls: threads decide for themselves when they call.
 *
 * REFUSE_OWN is the number of the start of a thread by the program's first thread, from 1, that is refused (EAGAIN), after REFUSE_LATE_MS;
 * REFUSE_OTHER the same of all other threads; REFUSE_ACCEPT the number of the call for a connection that fails (EMFILE).
 * DELAY_COUNT names a file of four numbers of 64 bits: calls, delays, refusals, and when the last one was, in ns of CLOCK_MONOTONIC.
 */
#define _GNU_SOURCE
#include <dlfcn.h>
#include <errno.h>
#include <fcntl.h>
#include <pthread.h>
#include <stdarg.h>
#include <stdlib.h>
#include <sys/mman.h>
#include <sys/socket.h>
#include <sys/syscall.h>
#include <sys/types.h>
#include <time.h>
#include <unistd.h>

static unsigned long long seed, of, most_us, rarely, long_ms, late_ms, refuse_own, refuse_other, refuse_accept, sync_at, sync_ms;
static long left; /* long delays */
static unsigned long long owns, others, accepts, syncs, threads, none[4], *counts = none;
static pthread_t first;
static int is_begun;
static __thread unsigned long long chances;

static unsigned long long number(const char *name) {
    const char *told = getenv(name);
    return told ? strtoull(told, NULL, 10) : 0;
}

__attribute__((constructor)) static void begin(void) {
    const char *path = getenv("DELAY_COUNT");
    int fd = path ? open(path, O_RDWR | O_CREAT, 0600) : -1;
    seed = number("DELAY_SEED"), of = number("DELAY_OF"), most_us = number("DELAY_US"), rarely = number("DELAY_RARELY");
    left = (long)number("DELAY_LONG"), long_ms = number("DELAY_LONG_MS"), late_ms = number("REFUSE_LATE_MS");
    refuse_own = number("REFUSE_OWN"), refuse_other = number("REFUSE_OTHER"), refuse_accept = number("REFUSE_ACCEPT");
    sync_at = number("DELAY_SYNC"), sync_ms = number("DELAY_SYNC_MS");
    first = pthread_self();
    if (fd >= 0 && !ftruncate(fd, sizeof none)) {
        void *page = mmap(NULL, sizeof none, PROT_READ | PROT_WRITE, MAP_SHARED, fd, 0);
        if (page != MAP_FAILED) counts = page;
    }
    is_begun = 1;
}

static unsigned long long add(unsigned long long *what) { return __atomic_add_fetch(what, 1, __ATOMIC_SEQ_CST); }

static unsigned long long chance(unsigned long long below) {
    if (!chances) chances = (seed * 2654435761u + add(&threads)) * 2 + 1;
    chances = chances * 6364136223846793005ull + 1442695040888963407ull;
    return below ? (chances >> 33) % below : 0;
}

static void rest(unsigned long long us) {
    struct timespec time = {(time_t)(us / 1000000), (long)(us % 1000000) * 1000};
    add(&counts[1]);
    while (clock_nanosleep(CLOCK_MONOTONIC, 0, &time, &time) == EINTR) {
    }
}

static void delay(void) {
    int fault = errno;
    if (!is_begun) return;
    add(&counts[0]);
    if (rarely && !chance(rarely) && __atomic_sub_fetch(&left, 1, __ATOMIC_SEQ_CST) >= 0) rest(long_ms * 1000);
    else if (of && !chance(of)) rest(chance(most_us) + 1);
    errno = fault;
}

static int refuse(int fault) {
    struct timespec now;
    clock_gettime(CLOCK_MONOTONIC, &now);
    counts[3] = (unsigned long long)now.tv_sec * 1000000000ull + (unsigned long long)now.tv_nsec;
    add(&counts[2]);
    errno = fault;
    return fault;
}

#define REAL(answer, name, ...) ((answer(*)(__VA_ARGS__))dlsym(RTLD_NEXT, #name))

int pthread_create(pthread_t *thread, const pthread_attr_t *how, void *(*work)(void *), void *with) {
    int is_own = pthread_equal(pthread_self(), first);
    delay();
    if (is_begun && (is_own ? add(&owns) == refuse_own : add(&others) == refuse_other)) {
        if (late_ms) rest(late_ms * 1000);
        return refuse(EAGAIN);
    }
    return REAL(int, pthread_create, pthread_t *, const pthread_attr_t *, void *(*)(void *), void *)(thread, how, work, with);
}

static int synced(int fd, int (*real)(int)) {
    delay();
    if (is_begun && add(&syncs) == sync_at) rest(sync_ms * 1000);
    return real(fd);
}

int fdatasync(int fd) { return synced(fd, REAL(int, fdatasync, int)); }

int fsync(int fd) { return synced(fd, REAL(int, fsync, int)); }

int accept4(int fd, struct sockaddr *address, socklen_t *length, int flags) {
    delay();
    if (is_begun && add(&accepts) == refuse_accept) {
        refuse(EMFILE);
        return -1;
    }
    return REAL(int, accept4, int, struct sockaddr *, socklen_t *, int)(fd, address, length, flags);
}

int accept(int fd, struct sockaddr *address, socklen_t *length) { return accept4(fd, address, length, 0); }

ssize_t read(int fd, void *bytes, size_t size) {
    delay();
    return REAL(ssize_t, read, int, void *, size_t)(fd, bytes, size);
}

ssize_t recv(int fd, void *bytes, size_t size, int flags) {
    delay();
    return REAL(ssize_t, recv, int, void *, size_t, int)(fd, bytes, size, flags);
}

ssize_t write(int fd, const void *bytes, size_t size) {
    delay();
    return REAL(ssize_t, write, int, const void *, size_t)(fd, bytes, size);
}

ssize_t send(int fd, const void *bytes, size_t size, int flags) {
    delay();
    return REAL(ssize_t, send, int, const void *, size_t, int)(fd, bytes, size, flags);
}

ssize_t pread(int fd, void *bytes, size_t size, off_t at) {
    delay();
    return REAL(ssize_t, pread, int, void *, size_t, off_t)(fd, bytes, size, at);
}

ssize_t pread64(int fd, void *bytes, size_t size, off_t at) { return pread(fd, bytes, size, at); }

ssize_t pwrite(int fd, const void *bytes, size_t size, off_t at) {
    delay();
    return REAL(ssize_t, pwrite, int, const void *, size_t, off_t)(fd, bytes, size, at);
}

ssize_t pwrite64(int fd, const void *bytes, size_t size, off_t at) { return pwrite(fd, bytes, size, at); }

int shutdown(int fd, int how) {
    delay();
    return REAL(int, shutdown, int, int)(fd, how);
}

int close(int fd) {
    delay();
    return REAL(int, close, int)(fd);
}

/* (threads park and wake one another by this) */
long syscall(long which, ...) {
    va_list rest_of;
    va_start(rest_of, which);
    long a = va_arg(rest_of, long), b = va_arg(rest_of, long), c = va_arg(rest_of, long), d = va_arg(rest_of, long), e = va_arg(rest_of, long),
         f = va_arg(rest_of, long);
    va_end(rest_of);
    if (which == SYS_futex) delay();
    return REAL(long, syscall, long, ...)(which, a, b, c, d, e, f);
}
