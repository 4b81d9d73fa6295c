/* Stands before the C library of a program and lets calls of the system fail, for fail_calls.py.
 *
 * Each call below that the program makes on a file, or on its standard ends, has a number, from 1 on. FAULTS names those that fail, as
 * "7:5,9:short": the number, and the error's number, or `short` for a read or write of half of the bytes. "7+:28" lets all writes,
 * syncs and other changes from the 7th call on fail. FAULTS_LOG is the path of a file that gets a line for each call: its number, its
 * name, what it was asked for in bytes, and whether it failed.
 *
 *   cc -shared -fPIC -o faults.so faults.c; LD_PRELOAD=./faults.so FAULTS=7:5 FAULTS_LOG=log tsdb run --dir D
 */
#define _GNU_SOURCE
#include <errno.h>
#include <fcntl.h>
#include <stdarg.h>
#include <stdatomic.h>
#include <stdio.h>
#include <stdlib.h>
#include <string.h>
#include <sys/stat.h>
#include <sys/syscall.h>
#include <sys/types.h>
#include <unistd.h>

#define MOST 64
enum { SHORT = -1, WHOLE = 0 };

static struct { long number, error; int goes_on; } faults[MOST];
static int count, logged = -1;
static atomic_long calls;

__attribute__((constructor)) static void begin(void) {
    const char *path = getenv("FAULTS_LOG"), *at = getenv("FAULTS");
    if (path) {
        int low = (int)syscall(SYS_openat, AT_FDCWD, path, O_WRONLY | O_CREAT | O_TRUNC | O_CLOEXEC, 0644);
        logged = fcntl(low, F_DUPFD_CLOEXEC, 500);
        syscall(SYS_close, low);
    }
    for (; at && *at && count < MOST; count++) {
        char *end;
        faults[count].number = strtol(at, &end, 10);
        faults[count].goes_on = *end == '+';
        end += *end == '+';
        at = end + 1;
        faults[count].error = strncmp(at, "short", 5) == 0 ? SHORT : strtol(at, &end, 10);
        at = strchr(at, ',');
        at = at ? at + 1 : NULL;
    }
}

/* What becomes of the next call: WHOLE, SHORT, or the number of an error. */
static long next(const char *name, long size, int changes) {
    long number = atomic_fetch_add(&calls, 1) + 1, fate = WHOLE;
    for (int i = 0; i < count; i++)
        if (faults[i].number == number || (faults[i].goes_on && changes && faults[i].number <= number))
            fate = faults[i].error;
    if (fate == SHORT && size < 2)
        fate = WHOLE;
    if (logged >= 0) {
        char line[80];
        int length = snprintf(line, sizeof line, "%ld %s %ld %ld\n", number, name, size, fate);
        syscall(SYS_write, logged, line, (size_t)length);
    }
    return fate;
}

static int fails(long fate) {
    if (fate <= 0)
        return 0;
    errno = (int)fate;
    return 1;
}

#define CALL(name, size, changes, real) \
    long fate = next(name, (long)(size), changes); \
    if (fails(fate)) return -1; \
    return real
#define HALF(n) (fate == SHORT ? (n) / 2 : (n))

ssize_t pread(int fd, void *to, size_t n, off_t at) { CALL("pread", n, 0, syscall(SYS_pread64, fd, to, HALF(n), at)); }
ssize_t pwrite(int fd, const void *from, size_t n, off_t at) { CALL("pwrite", n, 1, syscall(SYS_pwrite64, fd, from, HALF(n), at)); }
ssize_t read(int fd, void *to, size_t n) { CALL("read", n, 0, syscall(SYS_read, fd, to, HALF(n))); }
ssize_t write(int fd, const void *from, size_t n) { CALL("write", n, 0, syscall(SYS_write, fd, from, HALF(n))); }
int fdatasync(int fd) { CALL("fdatasync", 0, 1, (int)syscall(SYS_fdatasync, fd)); }
int fsync(int fd) { CALL("fsync", 0, 1, (int)syscall(SYS_fsync, fd)); }
int ftruncate(int fd, off_t length) { CALL("ftruncate", 0, 1, (int)syscall(SYS_ftruncate, fd, length)); }
int unlink(const char *path) { CALL("unlink", 0, 1, (int)syscall(SYS_unlink, path)); }
int mkdir(const char *path, mode_t mode) { CALL("mkdir", 0, 1, (int)syscall(SYS_mkdir, path, mode)); }
int flock(int fd, int how) { CALL("flock", 0, 0, (int)syscall(SYS_flock, fd, how)); }
int fchmod(int fd, mode_t mode) { CALL("fchmod", 0, 1, (int)syscall(SYS_fchmod, fd, mode)); }
ssize_t getdents64(int fd, void *to, size_t n) { CALL("getdents64", 0, 0, syscall(SYS_getdents64, fd, to, n)); }
int statx(int fd, const char *path, int flags, unsigned mask, struct statx *to) { CALL("statx", 0, 0, (int)syscall(SYS_statx, fd, path, flags, mask, to)); }

int openat(int fd, const char *path, int flags, ...) {
    va_list more;
    va_start(more, flags);
    mode_t mode = va_arg(more, mode_t);
    va_end(more);
    CALL("openat", 0, flags & O_CREAT, (int)syscall(SYS_openat, fd, path, flags, mode));
}

int open(const char *path, int flags, ...) {
    va_list more;
    va_start(more, flags);
    mode_t mode = va_arg(more, mode_t);
    va_end(more);
    CALL("open", 0, flags & O_CREAT, (int)syscall(SYS_openat, AT_FDCWD, path, flags, mode));
}

/* a descriptor that is closed with an error is closed */
int close(int fd) {
    long fate = next("close", 0, 0), done = syscall(SYS_close, fd);
    return fails(fate) ? -1 : (int)done;
}
