/* For LD_PRELOAD. The first FAIL_ACCEPTS calls of accept4 fail, each with the next of the errors after which Linux has
   programs try again; of the threads that are asked for, those from the number NO_THREAD_FROM on cannot be had. */
#define _GNU_SOURCE
#include <dlfcn.h>
#include <errno.h>
#include <pthread.h>
#include <stdatomic.h>
#include <stdlib.h>
#include <sys/socket.h>

static const int passing[] = {EMFILE, ENFILE, ENOBUFS, ENOMEM, ECONNABORTED, EPROTO, EPERM, ENETDOWN, ENOPROTOOPT, EHOSTDOWN,
                              ENONET, EHOSTUNREACH, EOPNOTSUPP, ENETUNREACH};
static _Atomic long accepts, threads;

static long number(const char *name, long none) {
    const char *text = getenv(name);
    return text ? atol(text) : none;
}

int accept4(int fd, struct sockaddr *address, socklen_t *length, int flags) {
    int (*real)(int, struct sockaddr *, socklen_t *, int) = dlsym(RTLD_NEXT, "accept4");
    long at = accepts++;
    if (at < number("FAIL_ACCEPTS", 0)) {
        errno = passing[at % (sizeof passing / sizeof *passing)];
        return -1;
    }
    return real(fd, address, length, flags);
}

int pthread_create(pthread_t *thread, const pthread_attr_t *how, void *(*run)(void *), void *with) {
    int (*real)(pthread_t *, const pthread_attr_t *, void *(*)(void *), void *) = dlsym(RTLD_NEXT, "pthread_create");
    return threads++ >= number("NO_THREAD_FROM", 1000000) ? EAGAIN : real(thread, how, run, with);
}
