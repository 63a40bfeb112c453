/* A library to be loaded before the C library, which puts another thing at a path just before that is opened.
 *
 *     cc -O2 -shared -fPIC -o swap-at-open.so tools/preloaded/swap-at-open.c
 *     LD_PRELOAD=$PWD/swap-at-open.so SWAP_AT=demo.toml liftd show ..
 *
 * What lies at the path that SWAP_AT names, with `.other` behind it, is moved there when the program opens that path for the
 * first time: so what the program was told about the path is true no more.
 */
#include <fcntl.h>
#include <stdarg.h>
#include <stdio.h>
#include <stdlib.h>
#include <string.h>
#include <sys/syscall.h>
#include <unistd.h>

int open(const char *path, int flags, ...) {
    const char *swapped = getenv("SWAP_AT");
    char other[4200];
    va_list rest;
    va_start(rest, flags);
    int mode = flags & O_CREAT ? va_arg(rest, int) : 0;
    va_end(rest);
    if (swapped && !strcmp(path, swapped)) {
        snprintf(other, sizeof other, "%s.other", path);
        rename(other, path);
    }
    return (int)syscall(SYS_openat, AT_FDCWD, path, flags, mode);
}

int open64(const char *path, int flags, ...) {
    va_list rest;
    va_start(rest, flags);
    int mode = flags & O_CREAT ? va_arg(rest, int) : 0;
    va_end(rest);
    return open(path, flags, mode);
}
