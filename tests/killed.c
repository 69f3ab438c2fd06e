/* Ends a program before its KILL_AT-th call (from 0) that changes a file, as a kill at that moment does. Preloaded (LD_PRELOAD), for tests of what
 * sqlite3 leaves behind. Nothing is synced: what a program has written is there after it is killed. */
#define _GNU_SOURCE
#include <dlfcn.h>
#include <fcntl.h>
#include <signal.h>
#include <stdarg.h>
#include <stdlib.h>
#include <sys/stat.h>
#include <unistd.h>

static void change(void) {
    static long left = -1;
    if (left < 0) {
        const char *at = getenv("KILL_AT");
        left = at ? atol(at) : __LONG_MAX__;
    }
    if (left-- == 0)
        kill(getpid(), SIGKILL);
}

#define NEXT(name) __typeof__(name) *next = (__typeof__(name) *)dlsym(RTLD_NEXT, #name)

/* Standard output and standard error are no files of a database. */
static int is_file(int fd) { return fd > 2; }

#define OPEN(name)                                   \
    int name(const char *path, int flags, ...) {     \
        NEXT(name);                                  \
        va_list more;                                \
        va_start(more, flags);                       \
        mode_t mode = flags & O_CREAT ? va_arg(more, mode_t) : 0; \
        va_end(more);                                \
        if (flags & O_CREAT)                         \
            change();                                \
        return next(path, flags, mode);              \
    }
OPEN(open)
OPEN(open64)

ssize_t write(int fd, const void *bytes, size_t length) {
    NEXT(write);
    if (is_file(fd))
        change();
    return next(fd, bytes, length);
}
ssize_t pwrite(int fd, const void *bytes, size_t length, off_t at) {
    NEXT(pwrite);
    change();
    return next(fd, bytes, length, at);
}
ssize_t pwrite64(int fd, const void *bytes, size_t length, off64_t at) {
    NEXT(pwrite64);
    change();
    return next(fd, bytes, length, at);
}
int ftruncate(int fd, off_t length) {
    NEXT(ftruncate);
    change();
    return next(fd, length);
}
int ftruncate64(int fd, off64_t length) {
    NEXT(ftruncate64);
    change();
    return next(fd, length);
}
int unlink(const char *path) {
    NEXT(unlink);
    change();
    return next(path);
}
int fsync(int fd) { return fd < 0; }
int fdatasync(int fd) { return fd < 0; }
