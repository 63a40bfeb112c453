/* A library to be loaded before the C library: for one file it behaves as Linux does after a sync that failed.
 *
 *     cc -O2 -shared -fPIC -o keep-cached.so tools/preloaded/keep-cached.c -ldl
 *     LD_PRELOAD=$PWD/keep-cached.so CACHE_FILE=/tmp/group.image CACHE_FAIL=sync:3 liftd serve ..
 *
 * CACHE_FILE is the file's path. What is written to it stays in pages of 4,096 bytes, in a second file beside it with the
 * ending .cached, and a sync writes them to the file, which so is what the disk holds. Reads give the pages, in this process and
 * in the next one. A kill leaves both files. A power cut is what the caller makes by removing the second one.
 *
 * A sync that fails tells EIO, and takes its pages for written, though none of them was, or, with CACHE_PART=N, though some
 * were not, by chances that begin with the number N. A later sync writes none of them, until something is written to the same
 * page again. posix_fadvise with POSIX_FADV_DONTNEED drops the pages that no sync has to write, of those that lie wholly in its
 * range, so that reads give what the disk holds; with CACHE_ADVICE=ignore it does nothing, and with CACHE_ADVICE=refuse it fails.
 *
 * CACHE_FAIL tells which calls of this process fail, counted from 1: sync:N or write:N, several joined by commas, N a number
 * or two joined by a dash. A write that fails changes nothing. CACHE_COUNT names a file into which, after each call,
 * the numbers of syncs, writes and pages that were dropped are written.
 */
#define _GNU_SOURCE
#define FILE_NAMED_BY "CACHE_FILE"
#include "one_file.h"
#include <errno.h>
#include <fcntl.h>
#include <stdio.h>
#include <string.h>
#include <sys/mman.h>

enum { PAGE = 4096, MOST = 4096 };
enum { AS_ON_DISK, TO_BE_WRITTEN, TAKEN_FOR_WRITTEN };

struct cache {
    unsigned char state[MOST];
    unsigned char pages[MOST][PAGE];
};

static struct cache *cache;
static unsigned long syncs, writes, dropped;
static int has_chances;

static int (*real_ftruncate)(int, off_t);
static int (*real_posix_fadvise)(int, off_t, off_t, int);

static void begin(void) {
    char path[4096];
    const char *part = getenv("CACHE_PART"), *named = getenv("CACHE_FILE");
    if (!is_first(part)) return;
    real_ftruncate = dlsym(RTLD_NEXT, "ftruncate");
    real_posix_fadvise = dlsym(RTLD_NEXT, "posix_fadvise");
    has_chances = part != NULL;
    if (!named) return;
    snprintf(path, sizeof path, "%s.cached", named);
    int fd = open(path, O_RDWR | O_CREAT, 0600);
    if (fd < 0 || real_ftruncate(fd, sizeof *cache)) abort();
    cache = mmap(NULL, sizeof *cache, PROT_READ | PROT_WRITE, MAP_SHARED, fd, 0);
    if (cache == MAP_FAILED) abort();
    close(fd);
}

/* Whether the n-th call of this kind fails. */
static int fails(const char *kind, unsigned long at) {
    const char *told = getenv("CACHE_FAIL");
    size_t long_ = strlen(kind);
    while (told && *told) {
        if (!strncmp(told, kind, long_) && told[long_] == ':') {
            char *end;
            unsigned long first = strtoul(told + long_ + 1, &end, 10), last = first;
            if (*end == '-') last = strtoul(end + 1, NULL, 10);
            if (first <= at && at <= last) return 1;
        }
        told = strchr(told, ',');
        if (told) told++;
    }
    return 0;
}

static void count(void) {
    const char *path = getenv("CACHE_COUNT");
    char text[80];
    if (!path) return;
    int fd = open(path, O_WRONLY | O_CREAT, 0600);
    if (fd < 0) return;
    int bytes = snprintf(text, sizeof text, "%12lu %12lu %12lu\n", syncs, writes, dropped);
    real_pwrite(fd, text, (size_t)bytes, 0);
    close(fd);
}

/* A page as it is read, taken from the disk where it isn't cached. */
static unsigned char *page_of(int fd, size_t page) {
    if (page >= MOST) abort();
    if (cache->state[page] == AS_ON_DISK) {
        memset(cache->pages[page], 0, PAGE);
        real_pread(fd, cache->pages[page], PAGE, (off_t)(page * PAGE));
    }
    return cache->pages[page];
}

ssize_t pwrite(int fd, const void *bytes, size_t size, off_t offset) {
    pthread_mutex_lock(&lock);
    begin();
    ssize_t told = (ssize_t)size;
    if (!is_ours(fd)) {
        told = real_pwrite(fd, bytes, size, offset);
    } else if (fails("write", ++writes)) {
        errno = EIO;
        told = -1;
    } else {
        for (size_t at = 0; at < size; at++) {
            size_t place = (size_t)offset + at, page = place / PAGE;
            unsigned char *cached = page_of(fd, page);
            cache->state[page] = TO_BE_WRITTEN;
            cached[place % PAGE] = ((const unsigned char *)bytes)[at];
        }
    }
    count();
    pthread_mutex_unlock(&lock);
    return told;
}

ssize_t pread(int fd, void *bytes, size_t size, off_t offset) {
    pthread_mutex_lock(&lock);
    begin();
    ssize_t told = real_pread(fd, bytes, size, offset);
    int ours = is_ours(fd);
    for (ssize_t at = 0; ours && at < told; at++) {
        size_t place = (size_t)offset + (size_t)at, page = place / PAGE;
        if (page < MOST && cache->state[page] != AS_ON_DISK)
            ((unsigned char *)bytes)[at] = cache->pages[page][place % PAGE];
    }
    pthread_mutex_unlock(&lock);
    return told;
}

/* Writes the pages that are to be written; in a sync that fails none, or some. */
static int synced(int fd, int (*real)(int)) {
    if (!is_ours(fd)) return real(fd);
    int does_fail = fails("sync", ++syncs);
    struct stat now;
    if (fstat(fd, &now)) return -1;
    for (size_t page = 0; page < MOST; page++) {
        size_t from = page * PAGE, most = (size_t)now.st_size;
        if (cache->state[page] != TO_BE_WRITTEN) continue;
        if (does_fail && !(has_chances && chance(2))) {
            cache->state[page] = TAKEN_FOR_WRITTEN;
        } else {
            if (from < most) real_pwrite(fd, cache->pages[page], most - from < PAGE ? most - from : PAGE, (off_t)from);
            cache->state[page] = AS_ON_DISK;
        }
    }
    count();
    if (does_fail) errno = EIO;
    return does_fail ? -1 : 0;
}

int ftruncate(int fd, off_t size) {
    pthread_mutex_lock(&lock);
    begin();
    if (is_ours(fd))
        for (size_t page = 0; page < MOST; page++)
            if (page * PAGE >= (size_t)size) cache->state[page] = AS_ON_DISK;
    int told = real_ftruncate(fd, size);
    pthread_mutex_unlock(&lock);
    return told;
}

int posix_fadvise(int fd, off_t offset, off_t size, int advice) {
    pthread_mutex_lock(&lock);
    begin();
    int told = 0;
    const char *how = getenv("CACHE_ADVICE");
    if (!is_ours(fd) || advice != POSIX_FADV_DONTNEED) {
        told = real_posix_fadvise(fd, offset, size, advice);
    } else if (how && !strcmp(how, "refuse")) {
        told = ENOSYS;
    } else if (!how || strcmp(how, "ignore")) {
        struct stat now;
        size_t page = ((size_t)offset + PAGE - 1) / PAGE, end = MOST;
        if (size && !fstat(fd, &now) && offset + size < now.st_size) end = (size_t)(offset + size) / PAGE;
        for (; page < end && page < MOST; page++) {
            if (cache->state[page] != TAKEN_FOR_WRITTEN) continue;
            cache->state[page] = AS_ON_DISK;
            dropped++;
        }
    }
    count();
    pthread_mutex_unlock(&lock);
    return told;
}

int ftruncate64(int fd, off_t size) { return ftruncate(fd, size); }

int posix_fadvise64(int fd, off_t offset, off_t size, int advice) { return posix_fadvise(fd, offset, size, advice); }
