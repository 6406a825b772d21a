// Makes calls of the line program fail, for tests/failures: preloaded into it, this lets FAULT_CALL (open, or read or write on the
// descriptor FAULT_FD) fail with the errno FAULT_ERRNO, or answer 0 where that is 0, at every call whose number FAULT_EVERY divides,
// and lets no other read or write move more than FAULT_MOST bytes.
#define _GNU_SOURCE
#include <dlfcn.h>
#include <errno.h>
#include <fcntl.h>
#include <stdarg.h>
#include <stdlib.h>
#include <string.h>
#include <unistd.h>

typedef ssize_t (*moves)(int, void *, size_t);
typedef int (*opens)(const char *, int, ...);

static long number(const char *name) { return atol(getenv(name)); }

// Whether faults are asked of this call, and whether this one fails.
static int chosen(const char *call) { return !strcmp(call, getenv("FAULT_CALL")) && !strcmp(program_invocation_short_name, "tuner"); }

static int fails(void) {
    static long calls;
    if (++calls % number("FAULT_EVERY")) return 0;
    errno = number("FAULT_ERRNO");
    return 1;
}

static ssize_t moved(const char *call, int fd, void *buf, size_t n) {
    moves real = (moves)dlsym(RTLD_NEXT, call);
    if (!chosen(call) || fd != number("FAULT_FD")) return real(fd, buf, n);
    if (fails()) return errno ? -1 : 0;
    size_t most = number("FAULT_MOST");
    return real(fd, buf, n < most ? n : most);
}

ssize_t read(int fd, void *buf, size_t n) { return moved("read", fd, buf, n); }

ssize_t write(int fd, const void *buf, size_t n) { return moved("write", fd, (void *)buf, n); }

int open(const char *path, int flags, ...) {
    va_list more;
    va_start(more, flags);
    int mode = flags & O_CREAT ? va_arg(more, int) : 0;
    va_end(more);
    if (chosen("open") && fails()) return -1;
    return ((opens)dlsym(RTLD_NEXT, "open"))(path, flags, mode);
}
