/* A library to be loaded before the C library: it holds back what a program writes to one file until the program syncs it.
 *
 *     cc -O2 -shared -fPIC -o drop-unsynced.so tools/preloaded/drop-unsynced.c -ldl
 *     LD_PRELOAD=$PWD/drop-unsynced.so DROP_FILE=/tmp/group.image DROP_MODE=part liftd serve ..
 *
 * Reads give what was written last, so the program sees no difference; a kill loses what it had not synced, as a power cut
 * may. DROP_FILE is the file's path. DROP_MODE tells what becomes of a write before its sync:
 *
 *     lose    nothing of it reaches the file
 *     part    by chance: all of it, none, its first bytes, or bytes that were never written
 *     ignore  as lose, and a sync does nothing either: a program that trusts it has to lose what it said was safe
 *
 * DROP_SEED, a number, begins the chances. Writes of other than whole sectors of 512 bytes go through.
 *
 * With DROP_ASK, the number of a stream's descriptor, each sync and each sector that is written is told there before it comes:
 * the line `sync`, or `write SECTOR` and the sector's bytes. Then one byte is awaited. `g`: it goes on. `c`: the power is cut in
 * its midst: of each sector that is not synced, this one with them, by chance all, nothing, its first bytes or others reach
 * the file, and the process is killed. `f`: it fails (EIO), a sector is not written, and in a sync as much reaches the file as in
 * a cut. Behind it `done` is told, or `failed`.
 */
#define _GNU_SOURCE
#define FILE_NAMED_BY "DROP_FILE"
#include "one_file.h"
#include <errno.h>
#include <signal.h>
#include <stdio.h>
#include <string.h>
#include <sys/socket.h>

enum { SECTOR = 512 };

static unsigned char **held; /* by sector, NULL where nothing is held */
static size_t sectors;
static enum { LOSE, PART, IGNORE } mode;

static void begin(void) {
    const char *named = getenv("DROP_MODE");
    if (is_first(getenv("DROP_SEED"))) mode = !named || !strcmp(named, "lose") ? LOSE : !strcmp(named, "part") ? PART : IGNORE;
}

static int hold(size_t sector, const unsigned char *bytes) {
    if (sector >= sectors) {
        unsigned char **more = realloc(held, (sector + 1) * sizeof *held);
        if (!more) return 0;
        memset(more + sectors, 0, (sector + 1 - sectors) * sizeof *held);
        held = more;
        sectors = sector + 1;
    }
    if (!held[sector] && !(held[sector] = malloc(SECTOR))) return 0;
    memcpy(held[sector], bytes, SECTOR);
    return 1;
}

/* What may have reached the file before the sync, by chance. */
static void leak(int fd, size_t sector) {
    unsigned char bytes[SECTOR];
    size_t front = SECTOR;
    unsigned kind = chance(8);
    if (kind < 3) return;
    memcpy(bytes, held[sector], SECTOR);
    if (kind == 6) front = 1 + chance(SECTOR - 1);
    if (kind == 7)
        for (size_t at = 0; at < SECTOR; at++) bytes[at] = chance(4) ? (unsigned char)chance(256) : 0xA5;
    real_pwrite(fd, bytes, front, (off_t)sector * SECTOR);
}

/* Who is asked before each call; -1 for nobody. */
static int asked(void) {
    const char *named = getenv("DROP_ASK");
    return named ? atoi(named) : -1;
}

static void tell(const void *bytes, size_t count) {
    for (ssize_t told = 0; count && told >= 0; count -= (size_t)told, bytes = (const char *)bytes + told)
        told = send(asked(), bytes, count, MSG_NOSIGNAL);
}

/* What a sync, or the write of this sector, is to do. It goes on where nobody answers. */
static char answer(const char *line, const unsigned char *sector) {
    char said = 'g';
    if (asked() < 0) return said;
    tell(line, strlen(line));
    if (sector) tell(sector, SECTOR);
    return recv(asked(), &said, 1, MSG_WAITALL) == 1 ? said : 'g';
}

static int ended(int is_done) {
    const char *line = is_done ? "done\n" : "failed\n";
    if (asked() >= 0) tell(line, strlen(line));
    if (!is_done) errno = EIO;
    return is_done;
}

static void leak_all(int fd) {
    for (size_t sector = 0; sector < sectors; sector++)
        if (held[sector]) leak(fd, sector);
}

static void cut_power(int fd) {
    leak_all(fd);
    raise(SIGKILL);
}

static int wrote(int fd, size_t sector, const unsigned char *bytes) {
    char line[32];
    snprintf(line, sizeof line, "write %zu\n", sector);
    char said = answer(line, bytes);
    int is_held = said != 'f' && hold(sector, bytes);
    if (said == 'c') cut_power(fd);
    if (is_held && mode == PART) leak(fd, sector);
    return ended(is_held);
}

ssize_t pwrite(int fd, const void *bytes, size_t count, off_t offset) {
    pthread_mutex_lock(&lock);
    begin();
    ssize_t told = (ssize_t)count;
    if (!is_ours(fd) || count % SECTOR || offset % SECTOR) {
        told = real_pwrite(fd, bytes, count, offset);
    } else {
        for (size_t at = 0; at < count && told >= 0; at += SECTOR)
            if (!wrote(fd, ((size_t)offset + at) / SECTOR, (const unsigned char *)bytes + at)) told = -1;
    }
    pthread_mutex_unlock(&lock);
    return told;
}

ssize_t pread(int fd, void *bytes, size_t count, off_t offset) {
    pthread_mutex_lock(&lock);
    begin();
    ssize_t told = real_pread(fd, bytes, count, offset);
    int ours = is_ours(fd);
    for (ssize_t at = 0; ours && at < told; at++) {
        size_t place = (size_t)offset + (size_t)at, sector = place / SECTOR;
        if (sector < sectors && held[sector]) ((unsigned char *)bytes)[at] = held[sector][place % SECTOR];
    }
    pthread_mutex_unlock(&lock);
    return told;
}

/* Writes what is held, in any order, and forgets it. */
static void release(int fd) {
    size_t from = sectors ? chance((unsigned)sectors) : 0;
    for (size_t step = 0; step < sectors; step++) {
        size_t sector = (from + step) % sectors;
        if (!held[sector]) continue;
        real_pwrite(fd, held[sector], SECTOR, (off_t)sector * SECTOR);
        free(held[sector]);
        held[sector] = NULL;
    }
}

static int synced(int fd, int (*real)(int)) {
    if (!is_ours(fd)) return real(fd);
    char said = answer("sync\n", NULL);
    if (said == 'c') cut_power(fd);
    if (said == 'f') leak_all(fd);
    if (said != 'f' && mode != IGNORE) release(fd);
    return ended(said != 'f' && (mode == IGNORE || !real(fd))) ? 0 : -1;
}
