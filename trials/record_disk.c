/* For LD_PRELOAD. Writes, cuts and syncs of files whose names begin as "tolls.db" are recorded in the file RECORD, in the
   order in which they end, beside what is about to be written to pipes and sockets: a letter, the name, a place, a length, bytes.
   Behind the first STOP of these calls the disk stops, and each fails; where HALF is set half of the next write comes. If ONLY names
   one of the files, the calls of that alone are counted and stop. */
#define _GNU_SOURCE
#include <dlfcn.h>
#include <errno.h>
#include <fcntl.h>
#include <pthread.h>
#include <stdint.h>
#include <stdio.h>
#include <stdlib.h>
#include <string.h>
#include <sys/socket.h>
#include <sys/stat.h>
#include <sys/uio.h>
#include <unistd.h>

#define REAL(name) ((__typeof__(&name))dlsym(RTLD_NEXT, #name))

static pthread_mutex_t lock = PTHREAD_MUTEX_INITIALIZER;

/* The name of a kept file; "-" of a pipe or socket; none of any other. */
static int name_of(int fd, char *name) {
    char link[64], path[4096];
    snprintf(link, sizeof link, "/proc/self/fd/%d", fd);
    ssize_t length = readlink(link, path, sizeof path - 1);
    if (length < 0)
        return 0;
    path[length] = 0;
    const char *base = strrchr(path, '/');
    base = base ? base + 1 : path;
    if (!strncmp(base, "tolls.db", 8) && strlen(base) < 32) {
        strcpy(name, base);
        return 1;
    }
    struct stat found;
    if (fstat(fd, &found) == 0 && (S_ISFIFO(found.st_mode) || S_ISSOCK(found.st_mode))) {
        strcpy(name, "-");
        return 1;
    }
    return 0;
}

static void record(char what, const char *name, int64_t place, const void *bytes, uint32_t length) {
    const char *path = getenv("RECORD");
    if (!path)
        return;
    pthread_mutex_lock(&lock);
    int fd = open(path, O_WRONLY | O_CREAT | O_APPEND, 0600);
    char head[1 + 32 + 8 + 4] = {0};
    head[0] = what;
    strcpy(head + 1, name);
    memcpy(head + 33, &place, 8);
    memcpy(head + 41, &length, 4);
    if (REAL(write)(fd, head, sizeof head) != sizeof head || (length && REAL(write)(fd, bytes, length) != (ssize_t)length))
        abort();
    close(fd);
    pthread_mutex_unlock(&lock);
}

/* How many calls behind the last that goes well a call of a kept file is; 0 where the disk has not stopped. */
static long stopped(int fd) {
    static long calls;
    char name[40];
    const char *most = getenv("STOP");
    const char *only = getenv("ONLY");
    if (!most || !name_of(fd, name) || name[0] == '-' || (only && strcmp(only, name)))
        return 0;
    pthread_mutex_lock(&lock);
    long late = ++calls - atol(most);
    pthread_mutex_unlock(&lock);
    return late > 0 ? late : 0;
}

static int failed(void) {
    errno = EIO;
    return -1;
}

static ssize_t wrote(int fd, const void *bytes, ssize_t done, int64_t place) {
    char name[40];
    if (done > 0 && name_of(fd, name) && name[0] != '-')
        record('W', name, place, bytes, done);
    return done;
}

/* An answer is recorded before it is given: behind it the client may end the program at once. */
static void answers(int fd, const void *bytes, size_t length) {
    char name[40];
    if (name_of(fd, name) && name[0] == '-')
        record('A', name, 0, bytes, length);
}

ssize_t write(int fd, const void *bytes, size_t length) {
    int64_t place = lseek(fd, 0, SEEK_CUR);
    answers(fd, bytes, length);
    return wrote(fd, bytes, REAL(write)(fd, bytes, length), place);
}

ssize_t send(int fd, const void *bytes, size_t length, int flags) {
    answers(fd, bytes, length);
    return REAL(send)(fd, bytes, length, flags);
}

ssize_t pwrite(int fd, const void *bytes, size_t length, off_t place) {
    long late = stopped(fd);
    if (late) {
        if (late == 1 && getenv("HALF") && wrote(fd, bytes, REAL(pwrite)(fd, bytes, length / 2, place), place) < 0)
            abort();
        return failed();
    }
    return wrote(fd, bytes, REAL(pwrite)(fd, bytes, length, place), place);
}

ssize_t pwrite64(int fd, const void *bytes, size_t length, off64_t place) { return pwrite(fd, bytes, length, place); }

static int changed(int fd, int done, int64_t place, char what) {
    char name[40];
    if (done == 0 && name_of(fd, name) && name[0] != '-')
        record(what, name, place, 0, 0);
    return done;
}

int ftruncate(int fd, off_t length) { return stopped(fd) ? failed() : changed(fd, REAL(ftruncate)(fd, length), length, 'T'); }

int ftruncate64(int fd, off64_t length) { return ftruncate(fd, length); }

int fsync(int fd) { return stopped(fd) ? failed() : changed(fd, REAL(fsync)(fd), 0, 'S'); }

int fdatasync(int fd) { return stopped(fd) ? failed() : changed(fd, REAL(fdatasync)(fd), 0, 'S'); }
