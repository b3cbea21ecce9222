/* Notes the files that a program opens which this library is preloaded into. test_refresh.py compiles and uses it.
 *
 *     OPENS_LOG       the file to which a line is added for each path that is opened, as it was passed
 *
 * It has the functions of the C library that open a file by its path, and the system's calls by their numbers. Files that
 * the C library opens by itself aren't noted. It needs Linux with glibc. */
#define _GNU_SOURCE
#include <dlfcn.h>
#include <fcntl.h>
#include <stdarg.h>
#include <stdio.h>
#include <stdlib.h>
#include <string.h>
#include <sys/syscall.h>
#include <unistd.h>

#define NEXT(name) ((__typeof__(&name))dlsym(RTLD_NEXT, #name))

int __open_2(const char *path, int flags);
int __open64_2(const char *path, int flags);
int __openat_2(int folder, const char *path, int flags);
int __openat64_2(int folder, const char *path, int flags);

/* The log is opened for each line, so that no number of a descriptor is another than usual. */
static void note(const char *path) {
    const char *name = getenv("OPENS_LOG");
    char line[4200];
    int length = snprintf(line, sizeof line, "%s\n", path);
    int file = name ? NEXT(open)(name, O_WRONLY | O_APPEND | O_CLOEXEC) : -1;
    if (name && (file < 0 || length >= (int)sizeof line || write(file, line, length) != length))
        _exit(99);
    if (file >= 0)
        close(file);
}

#define WITH_MODE(flags, call)                                                      \
    va_list more;                                                                   \
    va_start(more, flags);                                                          \
    mode_t mode = (flags) & (O_CREAT | __O_TMPFILE) ? va_arg(more, mode_t) : 0;     \
    va_end(more);                                                                   \
    note(path);                                                                     \
    return call

int open(const char *path, int flags, ...) {
    WITH_MODE(flags, NEXT(open)(path, flags, mode));
}

int open64(const char *path, int flags, ...) {
    WITH_MODE(flags, NEXT(open64)(path, flags, mode));
}

int openat(int folder, const char *path, int flags, ...) {
    WITH_MODE(flags, NEXT(openat)(folder, path, flags, mode));
}

int openat64(int folder, const char *path, int flags, ...) {
    WITH_MODE(flags, NEXT(openat64)(folder, path, flags, mode));
}

#define NOTED(call) return note(path), call

int __open_2(const char *path, int flags) {
    NOTED(NEXT(__open_2)(path, flags));
}

int __open64_2(const char *path, int flags) {
    NOTED(NEXT(__open64_2)(path, flags));
}

int __openat_2(int folder, const char *path, int flags) {
    NOTED(NEXT(__openat_2)(folder, path, flags));
}

int __openat64_2(int folder, const char *path, int flags) {
    NOTED(NEXT(__openat64_2)(folder, path, flags));
}

FILE *fopen(const char *path, const char *mode) {
    NOTED(NEXT(fopen)(path, mode));
}

FILE *fopen64(const char *path, const char *mode) {
    NOTED(NEXT(fopen64)(path, mode));
}

/* The system takes up to six numbers. Which of them is a path depends on the call. */
long syscall(long number, ...) {
    long all[6];
    va_list more;
    va_start(more, number);
    for (int at = 0; at < 6; at++)
        all[at] = va_arg(more, long);
    va_end(more);
#ifdef SYS_open
    if (number == SYS_open)
        note((const char *)all[0]);
#endif
#ifdef SYS_openat2
    if (number == SYS_openat2)
        note((const char *)all[1]);
#endif
    if (number == SYS_openat)
        note((const char *)all[1]);
    return NEXT(syscall)(number, all[0], all[1], all[2], all[3], all[4], all[5]);
}
