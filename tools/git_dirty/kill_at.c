/* Kills the program that it is preloaded into before one of the calls by which it changes files. test_refresh_kills.py
 * compiles and uses it.
 *
 *     KILL_AT         the call before which the process is killed, counted from 1 over all threads; none if it is 0
 *     KILL_MOST       how many bytes a call of `write` writes at most
 *     KILL_REPORT     the descriptor that gets a line for each call, also for the one that isn't made any more: its name,
 *                     and at `open` the mode of a new file, with `new` in front if there mustn't be one before
 *
 * An opening counts if it is for writing. It has the functions of the C library, and the system's calls by their numbers.
 * What the C library does by itself, as for `fopen`, doesn't count. It needs Linux with glibc. */
#define _GNU_SOURCE
#include <dlfcn.h>
#include <fcntl.h>
#include <signal.h>
#include <stdarg.h>
#include <stdatomic.h>
#include <stdio.h>
#include <stdlib.h>
#include <sys/stat.h>
#include <sys/syscall.h>
#include <sys/time.h>
#include <sys/uio.h>
#include <unistd.h>

#define NEXT(name) ((__typeof__(&name))dlsym(RTLD_NEXT, #name))

static unsigned long kill_at, most;
static int report = -1;
static atomic_ulong calls;

static unsigned long number_of(const char *name, unsigned long missing) {
    const char *text = getenv(name);
    return text ? strtoul(text, NULL, 10) : missing;
}

__attribute__((constructor)) static void prepare(void) {
    kill_at = number_of("KILL_AT", 0);
    most = number_of("KILL_MOST", -1);
    report = (int)number_of("KILL_REPORT", -1);
}

static void step(const char *line) {
    if (report >= 0 && dprintf(report, "%s\n", line) < 0)
        _exit(99);
    if (atomic_fetch_add(&calls, 1) + 1 == kill_at)
        kill(getpid(), SIGKILL);
}

static void step_of_opening(int flags, mode_t mode) {
    char line[32];
    snprintf(line, sizeof line, "open%s %o", flags & O_EXCL ? " new" : "", mode);
    if ((flags & O_ACCMODE) != O_RDONLY || flags & (O_CREAT | O_TRUNC))
        step(flags & O_CREAT ? line : "open");
}

#define WITH_MODE(call)                                                             \
    va_list more;                                                                   \
    va_start(more, flags);                                                          \
    mode_t mode = flags & (O_CREAT | __O_TMPFILE) ? va_arg(more, mode_t) : 0;       \
    va_end(more);                                                                   \
    step_of_opening(flags, mode);                                                   \
    return call

int open(const char *path, int flags, ...) {
    WITH_MODE(NEXT(open)(path, flags, mode));
}

int open64(const char *path, int flags, ...) {
    WITH_MODE(NEXT(open64)(path, flags, mode));
}

int openat(int folder, const char *path, int flags, ...) {
    WITH_MODE(NEXT(openat)(folder, path, flags, mode));
}

int openat64(int folder, const char *path, int flags, ...) {
    WITH_MODE(NEXT(openat64)(folder, path, flags, mode));
}

ssize_t __write(int file, const void *bytes, size_t count);

ssize_t write(int file, const void *bytes, size_t count) {
    step("write");
    return NEXT(write)(file, bytes, count < most ? count : most);
}

#define STEP(type, name, parameters, ...)   \
    type name parameters {                  \
        step(#name);                        \
        return NEXT(name)(__VA_ARGS__);     \
    }

STEP(ssize_t, __write, (int file, const void *bytes, size_t count), file, bytes, count)
STEP(ssize_t, writev, (int file, const struct iovec *parts, int count), file, parts, count)
STEP(ssize_t, pwrite, (int file, const void *bytes, size_t count, off_t at), file, bytes, count, at)
STEP(ssize_t, pwrite64, (int file, const void *bytes, size_t count, off64_t at), file, bytes, count, at)
STEP(int, creat, (const char *path, mode_t mode), path, mode)
STEP(int, creat64, (const char *path, mode_t mode), path, mode)
STEP(int, ftruncate, (int file, off_t size), file, size)
STEP(int, ftruncate64, (int file, off64_t size), file, size)
STEP(int, chmod, (const char *path, mode_t mode), path, mode)
STEP(int, fchmod, (int file, mode_t mode), file, mode)
STEP(int, fchmodat, (int folder, const char *path, mode_t mode, int flags), folder, path, mode, flags)
STEP(int, fsync, (int file), file)
STEP(int, fdatasync, (int file), file)
STEP(int, futimens, (int file, const struct timespec times[2]), file, times)
STEP(int, utimensat, (int folder, const char *path, const struct timespec times[2], int flags), folder, path, times, flags)
STEP(int, futimes, (int file, const struct timeval times[2]), file, times)
STEP(int, utimes, (const char *path, const struct timeval times[2]), path, times)
STEP(int, chown, (const char *path, uid_t user, gid_t group), path, user, group)
STEP(int, lchown, (const char *path, uid_t user, gid_t group), path, user, group)
STEP(int, fchown, (int file, uid_t user, gid_t group), file, user, group)
STEP(int, fchownat, (int folder, const char *path, uid_t user, gid_t group, int flags), folder, path, user, group, flags)
STEP(int, rename, (const char *from, const char *to), from, to)
STEP(int, renameat, (int one, const char *from, int two, const char *to), one, from, two, to)
STEP(int, renameat2, (int one, const char *from, int two, const char *to, unsigned flags), one, from, two, to, flags)
STEP(int, link, (const char *from, const char *to), from, to)
STEP(int, linkat, (int one, const char *from, int two, const char *to, int flags), one, from, two, to, flags)
STEP(int, unlink, (const char *path), path)
STEP(int, unlinkat, (int folder, const char *path, int flags), folder, path, flags)
STEP(int, remove, (const char *path), path)

#define IS(name) {SYS_##name, #name}

/* Newer systems have some of the calls only in the form with a folder. */
static const struct {
    long number;
    const char *name;
} numbers[] = {
    IS(write), IS(writev), IS(pwrite64), IS(ftruncate), IS(fchmod), IS(fchmodat), IS(fsync), IS(fdatasync), IS(utimensat),
    IS(fchown), IS(fchownat), IS(renameat2), IS(linkat), IS(unlinkat),
#ifdef SYS_renameat
    IS(renameat),
#endif
#ifdef SYS_rename
    IS(chmod), IS(chown), IS(lchown), IS(rename), IS(link), IS(unlink),
#endif
};

/* The system takes up to six numbers. */
long syscall(long number, ...) {
    long all[6];
    va_list more;
    va_start(more, number);
    for (int at = 0; at < 6; at++)
        all[at] = va_arg(more, long);
    va_end(more);
    if (number == SYS_openat)
        step_of_opening((int)all[2], (mode_t)all[3]);
#ifdef SYS_open
    if (number == SYS_open)
        step_of_opening((int)all[1], (mode_t)all[2]);
#endif
#ifdef SYS_openat2
    /* Its flags and mode are two numbers of 64 bits. */
    if (number == SYS_openat2)
        step_of_opening((int)((unsigned long long *)all[2])[0], (mode_t)((unsigned long long *)all[2])[1]);
#endif
    for (size_t at = 0; at < sizeof numbers / sizeof *numbers; at++)
        if (number == numbers[at].number)
            step(numbers[at].name);
    return NEXT(syscall)(number, all[0], all[1], all[2], all[3], all[4], all[5]);
}
