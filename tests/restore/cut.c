/* A power cut: kills a Python process before its n-th call that changes a file, where KNOT_CUT is n; with KNOT_CUT_FAILS that call fails instead,
 * as on a disk that does not answer. Programs other than Python, and writes to standard streams, are not counted. */
#define _GNU_SOURCE
#include <dlfcn.h>
#include <errno.h>
#include <fcntl.h>
#include <signal.h>
#include <stdarg.h>
#include <stdlib.h>
#include <string.h>
#include <sys/types.h>
#include <unistd.h>

static int is_python(void) { return strncmp(program_invocation_short_name, "python", 6) == 0; }

/* Whether this call is to fail. */
static int step(void) {
    static long done;
    const char *cut = getenv("KNOT_CUT");
    if (cut == NULL || !is_python())
        return 0;
    done += 1;
    if (atol(cut) != done)
        return 0;
    if (getenv("KNOT_CUT_FAILS") == NULL)
        kill(getpid(), SIGKILL);
    errno = EIO;
    return 1;
}

#define REAL(name) ((__typeof__(&name))dlsym(RTLD_NEXT, #name))

ssize_t write(int file, const void *data, size_t size) {
    if (file > 2 && step())
        return -1;
    return REAL(write)(file, data, size);
}

int link(const char *from, const char *to) {
    if (step())
        return -1;
    return REAL(link)(from, to);
}

int linkat(int from_folder, const char *from, int to_folder, const char *to, int flags) {
    if (step())
        return -1;
    return REAL(linkat)(from_folder, from, to_folder, to, flags);
}

int rename(const char *from, const char *to) {
    if (step())
        return -1;
    return REAL(rename)(from, to);
}

int renameat(int from_folder, const char *from, int to_folder, const char *to) {
    if (step())
        return -1;
    return REAL(renameat)(from_folder, from, to_folder, to);
}

int renameat2(int from_folder, const char *from, int to_folder, const char *to, unsigned flags) {
    if (step())
        return -1;
    return REAL(renameat2)(from_folder, from, to_folder, to, flags);
}

int unlink(const char *path) {
    if (step())
        return -1;
    return REAL(unlink)(path);
}

int unlinkat(int folder, const char *path, int flags) {
    if (step())
        return -1;
    return REAL(unlinkat)(folder, path, flags);
}

int fsync(int file) {
    if (step())
        return -1;
    return REAL(fsync)(file);
}

int chmod(const char *path, mode_t mode) {
    if (step())
        return -1;
    return REAL(chmod)(path, mode);
}

static int opened(const char *name, const char *path, int flags, mode_t mode) {
    int (*real)(const char *, int, ...) = (int (*)(const char *, int, ...))dlsym(RTLD_NEXT, name);
    if (flags & O_CREAT && step())
        return -1;
    return real(path, flags, mode);
}

int open(const char *path, int flags, ...) {
    va_list rest;
    va_start(rest, flags);
    mode_t mode = flags & O_CREAT ? va_arg(rest, mode_t) : 0;
    va_end(rest);
    return opened("open", path, flags, mode);
}

int open64(const char *path, int flags, ...) {
    va_list rest;
    va_start(rest, flags);
    mode_t mode = flags & O_CREAT ? va_arg(rest, mode_t) : 0;
    va_end(rest);
    return opened("open64", path, flags, mode);
}
