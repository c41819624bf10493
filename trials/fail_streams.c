/* For LD_PRELOAD. Behind the first READS reads of standard input each fails; behind the first ROOM bytes to standard output each
   write does, as on a disk that is full. Where UNDRAWN is set the system gives no random number. */
#define _GNU_SOURCE
#include <dlfcn.h>
#include <errno.h>
#include <stdlib.h>
#include <sys/uio.h>
#include <unistd.h>

#define REAL(name) ((__typeof__(&name))dlsym(RTLD_NEXT, #name))

static int failed(int why) {
    errno = why;
    return -1;
}

ssize_t read(int fd, void *bytes, size_t length) {
    static long reads;
    const char *most = getenv("READS");
    if (fd == 0 && most && ++reads > atol(most))
        return failed(EIO);
    return REAL(read)(fd, bytes, length);
}

int getentropy(void *bytes, size_t length) { return getenv("UNDRAWN") ? failed(ENOSYS) : REAL(getentropy)(bytes, length); }

ssize_t write(int fd, const void *bytes, size_t length) {
    static size_t taken;
    const char *room = getenv("ROOM");
    if (fd != 1 || !room)
        return REAL(write)(fd, bytes, length);
    size_t left = atol(room) - taken;
    if (length && !left)
        return failed(ENOSPC);
    ssize_t done = REAL(write)(fd, bytes, length < left ? length : left);
    taken += done > 0 ? done : 0;
    return done;
}
