/* A library to be loaded before the C library, which counts the calls that read and write a file at
 * an offset, and those that synchronize one.
 *
 *     cc -O2 -shared -fPIC -o count-calls.so tools/preloaded/count-calls.c
 *     LD_PRELOAD=$PWD/count-calls.so COUNT_CALLS=counts liftd show ..
 *
 * At the program's end the file that COUNT_CALLS names holds one line: the reads, the writes and
 * the syncs, and how many of these were of the folder that COUNT_FOLDER names, if it names one.
 * Calls on connections and streams, which have no offset, are not counted. COUNT_FAIL is the number
 * of a sync that fails, counted from 1. To the file that COUNT_OPENED names a line is added for each
 * file that is opened: the flags in octal, a space, the path.
 */
#include <errno.h>
#include <fcntl.h>
#include <stdarg.h>
#include <stdio.h>
#include <stdlib.h>
#include <sys/stat.h>
#include <sys/syscall.h>
#include <unistd.h>

static unsigned long reads, writes, syncs, of_folder;

static unsigned long count(unsigned long *calls) { return __atomic_add_fetch(calls, 1, __ATOMIC_RELAXED); }

/* Whether this sync is the one that fails. */
static int does_fail(void) {
    const char *failing = getenv("COUNT_FAIL");
    unsigned long at = count(&syncs);
    if (!failing || strtoul(failing, NULL, 10) != at) return 0;
    errno = EIO;
    return 1;
}

__attribute__((destructor)) static void tell(void) {
    const char *path = getenv("COUNT_CALLS");
    char told[96];
    if (!path) return;
    int flags = O_WRONLY | O_CREAT | O_TRUNC;
    int file = (int)syscall(SYS_openat, AT_FDCWD, path, flags, 0666);
    int length = snprintf(told, sizeof told, getenv("COUNT_FOLDER") ? "%lu %lu %lu %lu\n" : "%lu %lu %lu\n", reads, writes, syncs, of_folder);
    if (file >= 0) syscall(SYS_write, file, told, (size_t)length);
}

/* Some programs end by this call, without the C library's own end. */
void _exit(int status) {
    tell();
    for (;;) syscall(SYS_exit_group, status);
}

ssize_t pread(int fd, void *bytes, size_t length, off_t offset) {
    count(&reads);
    return syscall(SYS_pread64, fd, bytes, length, offset);
}

ssize_t pread64(int fd, void *bytes, size_t length, off_t offset) {
    return pread(fd, bytes, length, offset);
}

ssize_t pwrite(int fd, const void *bytes, size_t length, off_t offset) {
    count(&writes);
    return syscall(SYS_pwrite64, fd, bytes, length, offset);
}

ssize_t pwrite64(int fd, const void *bytes, size_t length, off_t offset) {
    return pwrite(fd, bytes, length, offset);
}

int fsync(int fd) {
    const char *folder = getenv("COUNT_FOLDER");
    struct stat named, synced;
    if (does_fail()) return -1;
    if (folder && !stat(folder, &named) && !fstat(fd, &synced) && named.st_dev == synced.st_dev && named.st_ino == synced.st_ino)
        count(&of_folder);
    return (int)syscall(SYS_fsync, fd);
}

int fdatasync(int fd) {
    return does_fail() ? -1 : (int)syscall(SYS_fdatasync, fd);
}

int open(const char *path, int flags, ...) {
    const char *listed = getenv("COUNT_OPENED");
    char told[4200];
    va_list rest;
    va_start(rest, flags);
    int mode = flags & O_CREAT ? va_arg(rest, int) : 0;
    va_end(rest);
    int file = listed ? (int)syscall(SYS_openat, AT_FDCWD, listed, O_WRONLY | O_CREAT | O_APPEND, 0666) : -1;
    if (file >= 0) {
        int length = snprintf(told, sizeof told, "%o %s\n", (unsigned)flags, path);
        syscall(SYS_write, file, told, (size_t)length);
        syscall(SYS_close, file);
    }
    return (int)syscall(SYS_openat, AT_FDCWD, path, flags, mode);
}

int open64(const char *path, int flags, ...) {
    va_list rest;
    va_start(rest, flags);
    int mode = flags & O_CREAT ? va_arg(rest, int) : 0;
    va_end(rest);
    return open(path, flags, mode);
}
