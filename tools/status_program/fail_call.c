/* Lets one call for a file fail in the program that it is preloaded into. test_refresh.py compiles and uses it.
 *
 *     FAIL_BELOW      the folder whose files count: calls that have a path below it, and calls on a file opened there
 *     FAIL_AT         the call that fails, counted from 1; none if it is 0
 *     FAIL_ERROR      the number of the error
 *     FAIL_MOST       how many bytes a call writes at most
 *     FAIL_REPORT     the descriptor that gets a line for each call: its name, and at `fchmod` the mode that the file had
 *
 * Of the files below the folder one is open at a time. */
#define _GNU_SOURCE
#include <dlfcn.h>
#include <errno.h>
#include <fcntl.h>
#include <stdarg.h>
#include <stdio.h>
#include <stdlib.h>
#include <string.h>
#include <sys/stat.h>
#include <unistd.h>

static const char *below;
static unsigned long fail_at, most, calls;
static int error, report = -1, opened = -1;

static unsigned long number_of(const char *name) {
    const char *text = getenv(name);
    return text ? strtoul(text, NULL, 10) : 0;
}

__attribute__((constructor)) static void prepare(void) {
    below = getenv("FAIL_BELOW");
    fail_at = number_of("FAIL_AT");
    most = number_of("FAIL_MOST");
    error = (int)number_of("FAIL_ERROR");
    report = getenv("FAIL_REPORT") ? (int)number_of("FAIL_REPORT") : -1;
}

static int counts(const char *path) {
    return below && strncmp(path, below, strlen(below)) == 0;
}

/* Whether this call fails. */
static int fails(const char *line) {
    if (report >= 0)
        dprintf(report, "%s\n", line);
    if (++calls != fail_at)
        return 0;
    errno = error;
    return 1;
}

#define NEXT(name) ((__typeof__(&name))dlsym(RTLD_NEXT, #name))

int statx(int folder, const char *path, int flags, unsigned mask, struct statx *found) {
    if (counts(path) && fails(flags & AT_SYMLINK_NOFOLLOW ? "lstat" : "stat"))
        return -1;
    return NEXT(statx)(folder, path, flags, mask, found);
}

char *realpath(const char *path, char *resolved) {
    return counts(path) && fails("realpath") ? NULL : NEXT(realpath)(path, resolved);
}

int open(const char *path, int flags, ...) {
    va_list more;
    va_start(more, flags);
    mode_t mode = flags & O_CREAT ? va_arg(more, mode_t) : 0;
    va_end(more);
    if (!counts(path))
        return NEXT(open)(path, flags, mode);
    return opened = fails("open") ? -1 : NEXT(open)(path, flags, mode);
}

ssize_t write(int file, const void *bytes, size_t count) {
    if (file < 0 || file != opened)
        return NEXT(write)(file, bytes, count);
    return fails("write") ? -1 : NEXT(write)(file, bytes, count < most ? count : most);
}

int fchmod(int file, mode_t mode) {
    struct stat found;
    char line[32];
    if (file < 0 || file != opened || fstat(file, &found))
        return NEXT(fchmod)(file, mode);
    snprintf(line, sizeof line, "fchmod %o", found.st_mode & 07777);
    return fails(line) ? -1 : NEXT(fchmod)(file, mode);
}

int fsync(int file) {
    return file >= 0 && file == opened && fails("fsync") ? -1 : NEXT(fsync)(file);
}

int rename(const char *from, const char *to) {
    return counts(from) && fails("rename") ? -1 : NEXT(rename)(from, to);
}

int unlink(const char *path) {
    return counts(path) && fails("unlink") ? -1 : NEXT(unlink)(path);
}
