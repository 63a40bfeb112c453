/* What drop-unsynced.c and keep-cached.c share: the calls that they stand before, a lock around each, and whether a descriptor is
 * of the file that the variable FILE_NAMED_BY names. Each defines `begin`, which is called first, and `synced`, what a sync does. */
#include <dlfcn.h>
#include <pthread.h>
#include <stdlib.h>
#include <sys/stat.h>
#include <sys/types.h>
#include <unistd.h>

static void begin(void);
static int synced(int fd, int (*real)(int));

static pthread_mutex_t lock = PTHREAD_MUTEX_INITIALIZER;
static unsigned long long chances;
static int is_begun;

static ssize_t (*real_pwrite)(int, const void *, size_t, off_t);
static ssize_t (*real_pread)(int, void *, size_t, off_t);
static int (*real_fdatasync)(int);
static int (*real_fsync)(int);

/* The C library's own calls, and chances that begin with this number; 0 where it was called before. */
static int is_first(const char *seed) {
    if (is_begun) return 0;
    is_begun = 1;
    real_pwrite = dlsym(RTLD_NEXT, "pwrite");
    real_pread = dlsym(RTLD_NEXT, "pread");
    real_fdatasync = dlsym(RTLD_NEXT, "fdatasync");
    real_fsync = dlsym(RTLD_NEXT, "fsync");
    chances = seed ? strtoull(seed, NULL, 10) * 2 + 1 : 1;
    return 1;
}

static unsigned chance(unsigned below) {
    chances = chances * 6364136223846793005ull + 1442695040888963407ull;
    return (unsigned)(chances >> 33) % below;
}

/* Whether this descriptor is of the file that is named. */
static int is_ours(int fd) {
    const char *path = getenv(FILE_NAMED_BY);
    struct stat named, opened;
    return path && !stat(path, &named) && !fstat(fd, &opened) && named.st_dev == opened.st_dev &&
           named.st_ino == opened.st_ino;
}

int fdatasync(int fd) {
    pthread_mutex_lock(&lock);
    begin();
    int told = synced(fd, real_fdatasync);
    pthread_mutex_unlock(&lock);
    return told;
}

int fsync(int fd) {
    pthread_mutex_lock(&lock);
    begin();
    int told = synced(fd, real_fsync);
    pthread_mutex_unlock(&lock);
    return told;
}

ssize_t pwrite64(int fd, const void *bytes, size_t size, off_t offset) { return pwrite(fd, bytes, size, offset); }

ssize_t pread64(int fd, void *bytes, size_t size, off_t offset) { return pread(fd, bytes, size, offset); }
