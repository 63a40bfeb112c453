/* A library to be loaded before the C library: it refuses memory at one request of a program, or from one on, or a thread.
 *
 *     cc -O2 -shared -fPIC -o refuse-growth.so tools/preloaded/refuse-growth.c -ldl
 *     LD_PRELOAD=$PWD/refuse-growth.so REFUSE_AT=7 liftd replay <a.script
 *
 * REFUSE_AT is the number of the request that is refused, counted from 1; with REFUSE_ON set each later one is too. With
 * REFUSE_ABOVE, a number of bytes, each request of more is refused. With REFUSE_THREAD, a number, that thread is refused of those for
 * which the first thread asks. With REFUSE_LATE_MS a request waits so long before it is refused. With REFUSE_COUNT, a path, the
 * number of requests for memory is written there at the end.
 */
#define _GNU_SOURCE
#include <dlfcn.h>
#include <errno.h>
#include <fcntl.h>
#include <pthread.h>
#include <stddef.h>
#include <stdio.h>
#include <stdlib.h>
#include <sys/syscall.h>
#include <time.h>
#include <unistd.h>

void *__libc_malloc(size_t);
void *__libc_calloc(size_t, size_t);
void *__libc_realloc(void *, size_t);
void *__libc_memalign(size_t, size_t);

static unsigned long requests, refused, most, late, threads, refused_thread;
static int is_begun, goes_on;

__attribute__((constructor)) static void begin(void) {
    const char *at = getenv("REFUSE_AT");
    refused = at ? strtoul(at, NULL, 10) : 0;
    goes_on = getenv("REFUSE_ON") != NULL;
    const char *above = getenv("REFUSE_ABOVE");
    most = above ? strtoul(above, NULL, 10) : 0;
    const char *waits = getenv("REFUSE_LATE_MS");
    late = waits ? strtoul(waits, NULL, 10) : 0;
    const char *thread = getenv("REFUSE_THREAD");
    refused_thread = thread ? strtoul(thread, NULL, 10) : 0;
    is_begun = 1;
}

/* The program ends by this call, without the C library's own end. */
void _exit(int status) {
    const char *path = getenv("REFUSE_COUNT");
    char told[32];
    int file = path ? open(path, O_WRONLY | O_CREAT | O_TRUNC, 0666) : -1;
    int count = snprintf(told, sizeof told, "%lu\n", __atomic_load_n(&requests, __ATOMIC_RELAXED));
    is_begun = 0;
    if (file >= 0 && write(file, told, (size_t)count) == count) close(file);
    for (;;) syscall(SYS_exit_group, status);
}

static void wait_a_while(void) {
    struct timespec left = {late / 1000, late % 1000 * 1000000};
    while (late && nanosleep(&left, &left)) {
    }
}

static int is_refused(size_t size) {
    if (!is_begun) return 0;
    unsigned long request = __atomic_add_fetch(&requests, 1, __ATOMIC_RELAXED);
    int is_large = most && size > most;
    if (!is_large && (!refused || request < refused || (request > refused && !goes_on))) return 0;
    wait_a_while();
    errno = ENOMEM;
    return 1;
}

void *malloc(size_t size) { return is_refused(size) ? NULL : __libc_malloc(size); }

void *calloc(size_t count, size_t size) { return is_refused(count * size) ? NULL : __libc_calloc(count, size); }

void *realloc(void *old, size_t size) { return is_refused(size) ? NULL : __libc_realloc(old, size); }

void *memalign(size_t align, size_t size) { return is_refused(size) ? NULL : __libc_memalign(align, size); }

void *aligned_alloc(size_t align, size_t size) { return is_refused(size) ? NULL : __libc_memalign(align, size); }

int posix_memalign(void **told, size_t align, size_t size) {
    if (is_refused(size)) return ENOMEM;
    *told = __libc_memalign(align, size);
    return *told ? 0 : ENOMEM;
}

int pthread_create(pthread_t *thread, const pthread_attr_t *how, void *(*work)(void *), void *given) {
    int (*real)(pthread_t *, const pthread_attr_t *, void *(*)(void *), void *) = dlsym(RTLD_NEXT, "pthread_create");
    if (refused_thread && syscall(SYS_gettid) == getpid() && ++threads == refused_thread) {
        wait_a_while();
        return EAGAIN;
    }
    return real(thread, how, work, given);
}
