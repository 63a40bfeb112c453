/* A library to be loaded before the C library: one call of the system fails, or one and all later ones, or moves less than it
 * was asked to.
 *
 *     cc -O2 -shared -fPIC -o fail-calls.so tools/preloaded/fail-calls.c
 *     LD_PRELOAD=$PWD/fail-calls.so REFUSE_AT=7 REFUSE_HOW=fail liftd replay <a.script
 *
 * REFUSE_AT is the number of the call, counted from 1; with REFUSE_ON set each later one is meant too. REFUSE_HOW: `fail`, it
 * fails and does nothing; `interrupt`, it says that a signal came; `short`, it moves a single byte; `nothing`, it moves none;
 * `pretend`, it writes nothing and says that it wrote all. `short` and `nothing` leave calls alone that move no bytes, `pretend`
 * those that write none. With REFUSE_COUNT, a path, the number of calls is written there at the end.
 * Counted are the calls that read, write and synchronize files and connections, lock files and drop what is cached of them, open
 * files, and take connections in.
 */
#include <errno.h>
#include <fcntl.h>
#include <stdarg.h>
#include <stdio.h>
#include <stdlib.h>
#include <string.h>
#include <sys/socket.h>
#include <sys/syscall.h>
#include <unistd.h>

static unsigned long calls, meant;
static int goes_on, is_begun;
static char how;
static __thread int is_meant; /* whether this thread's last call is */

__attribute__((constructor)) static void begin(void) {
    const char *at = getenv("REFUSE_AT"), *named = getenv("REFUSE_HOW");
    meant = at ? strtoul(at, NULL, 10) : 0;
    goes_on = getenv("REFUSE_ON") != NULL;
    how = named ? named[0] : 'f';
    is_begun = 1;
}

/* The program ends by this call, without the C library's own end. */
void _exit(int status) {
    const char *path = getenv("REFUSE_COUNT");
    char told[32];
    int file = path ? (int)syscall(SYS_openat, AT_FDCWD, path, O_WRONLY | O_CREAT | O_TRUNC, 0666) : -1;
    int count = snprintf(told, sizeof told, "%lu\n", __atomic_load_n(&calls, __ATOMIC_RELAXED));
    if (file >= 0) syscall(SYS_write, file, told, (size_t)count);
    for (;;) syscall(SYS_exit_group, status);
}

/* Whether this call fails. What it moves may become less. */
static int fails(size_t *moved) {
    unsigned long call = is_begun ? __atomic_add_fetch(&calls, 1, __ATOMIC_RELAXED) : 0;
    is_meant = meant && call >= meant && (call == meant || goes_on);
    if (!is_meant || how == 'p') return 0;
    if (how == 's' || how == 'n') {
        if (moved && *moved > 1) *moved = how == 's';
        return 0;
    }
    errno = how == 'i' ? EINTR : EIO;
    return 1;
}

/* Whether this call only says that it wrote. */
static int pretends(void) { return is_meant && how == 'p'; }

ssize_t read(int fd, void *bytes, size_t count) {
    return fails(&count) ? -1 : syscall(SYS_read, fd, bytes, count);
}

ssize_t write(int fd, const void *bytes, size_t count) {
    return fails(&count) ? -1 : pretends() ? (ssize_t)count : syscall(SYS_write, fd, bytes, count);
}

ssize_t pread(int fd, void *bytes, size_t count, off_t offset) {
    return fails(&count) ? -1 : syscall(SYS_pread64, fd, bytes, count, offset);
}

ssize_t pwrite(int fd, const void *bytes, size_t count, off_t offset) {
    return fails(&count) ? -1 : pretends() ? (ssize_t)count : syscall(SYS_pwrite64, fd, bytes, count, offset);
}

ssize_t recv(int fd, void *bytes, size_t count, int flags) {
    return fails(&count) ? -1 : syscall(SYS_recvfrom, fd, bytes, count, flags, NULL, NULL);
}

ssize_t send(int fd, const void *bytes, size_t count, int flags) {
    return fails(&count) ? -1 : pretends() ? (ssize_t)count : syscall(SYS_sendto, fd, bytes, count, flags, NULL, 0);
}

int fsync(int fd) { return fails(NULL) ? -1 : (int)syscall(SYS_fsync, fd); }

int flock(int fd, int operation) { return fails(NULL) ? -1 : (int)syscall(SYS_flock, fd, operation); }

/* (it tells its error, and not by errno) */
int posix_fadvise(int fd, off_t offset, off_t size, int advice) {
    return fails(NULL) || syscall(SYS_fadvise64, fd, offset, size, advice) ? errno : 0;
}

int fdatasync(int fd) { return fails(NULL) ? -1 : (int)syscall(SYS_fdatasync, fd); }

int ftruncate(int fd, off_t length) { return fails(NULL) ? -1 : (int)syscall(SYS_ftruncate, fd, length); }

int open(const char *path, int flags, ...) {
    va_list rest;
    va_start(rest, flags);
    int mode = flags & O_CREAT ? va_arg(rest, int) : 0;
    va_end(rest);
    return fails(NULL) ? -1 : (int)syscall(SYS_openat, AT_FDCWD, path, flags, mode);
}

/* (where no connection is taken in from some call on, the program waits for one without end, as it has to) */
int accept4(int fd, struct sockaddr *address, socklen_t *length, int flags) {
    return !goes_on && fails(NULL) ? -1 : (int)syscall(SYS_accept4, fd, address, length, flags);
}
