/* A library to be loaded before the C library: each sync of a file takes some milliseconds more, as on a slow disk.
 *
 *     cc -O2 -shared -fPIC -o slow-sync.so tools/preloaded/slow-sync.c -ldl
 *     LD_PRELOAD=$PWD/slow-sync.so SYNC_MS=5 liftd serve ..
 *
 * SYNC_MS may have a fraction; without it nothing is slower. The sync itself is done first, and its answer is given.
 */
#define _GNU_SOURCE
#include <dlfcn.h>
#include <errno.h>
#include <stdlib.h>
#include <time.h>
#include <unistd.h>

static int slowly(const char *name, int fd) {
    int (*real)(int) = (int (*)(int))dlsym(RTLD_NEXT, name);
    const char *told = getenv("SYNC_MS");
    long long more = told ? (long long)(strtod(told, NULL) * 1e6) : 0;
    int answer = real(fd), fault = errno;
    struct timespec left = {more / 1000000000, more % 1000000000};
    while (more > 0 && nanosleep(&left, &left) && errno == EINTR) {
    }
    errno = fault;
    return answer;
}

int fdatasync(int fd) { return slowly("fdatasync", fd); }

int fsync(int fd) { return slowly("fsync", fd); }
