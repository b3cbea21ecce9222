/* Refuses memory to the program that it is preloaded into. programs.py compiles and uses it.
 *
 *     REFUSE_AT       the call that is refused, counted from 1 over all threads; none if it is 0
 *     REFUSE_ON       if it is 1, each call after that one is refused too
 *     REFUSE_REPORT   the descriptor that gets a letter for each refused call, or for each call if none is refused:
 *                     m  the program asked for memory
 *                     t  the program asked for a thread, whose stack the system maps
 *                     c  the C library asked for memory, as it does when a thread starts
 *
 * Calls count from the first on that comes from the program's own code: what the C library takes before that, to start
 * the program, is neither counted nor refused. It needs glibc, whose functions it names. */
#define _GNU_SOURCE
#include <dlfcn.h>
#include <errno.h>
#include <link.h>
#include <pthread.h>
#include <stdatomic.h>
#include <stdlib.h>
#include <unistd.h>

void *__libc_malloc(size_t size);
void *__libc_calloc(size_t count, size_t size);
void *__libc_realloc(void *old, size_t size);
void *__libc_memalign(size_t align, size_t size);

typedef int start_function(pthread_t *, const pthread_attr_t *, void *(*)(void *), void *);

static start_function *start_thread;
static ElfW(Addr) code_start, code_end;
static unsigned long refuse_at;
static int refuse_on, report = -1;
static atomic_ulong calls;
static atomic_int counting;

static unsigned long number_of(const char *name) {
    const char *text = getenv(name);
    return text ? strtoul(text, NULL, 10) : 0;
}

/* The first object is the program itself. */
static int find_code(struct dl_phdr_info *info, size_t size, void *unused) {
    (void)size, (void)unused;
    for (int i = 0; i < info->dlpi_phnum; i++) {
        const ElfW(Phdr) *part = &info->dlpi_phdr[i];
        if (part->p_type == PT_LOAD && (part->p_flags & PF_X)) {
            ElfW(Addr) start = info->dlpi_addr + part->p_vaddr, end = start + part->p_memsz;
            code_start = code_start && code_start < start ? code_start : start;
            code_end = end > code_end ? end : code_end;
        }
    }
    return 1;
}

__attribute__((constructor)) static void prepare(void) {
    refuse_at = number_of("REFUSE_AT");
    refuse_on = number_of("REFUSE_ON") == 1;
    report = getenv("REFUSE_REPORT") ? (int)number_of("REFUSE_REPORT") : -1;
    start_thread = (start_function *)dlsym(RTLD_NEXT, "pthread_create");
    dl_iterate_phdr(find_code, NULL);
}

/* Whether the call that comes from this place is refused. */
static int refused(const void *from, char letter) {
    ElfW(Addr) place = (ElfW(Addr))from;
    int own = code_start <= place && place < code_end;
    if (own)
        atomic_store(&counting, 1);
    else if (!atomic_load(&counting))
        return 0;
    unsigned long call = atomic_fetch_add(&calls, 1) + 1;
    int now = refuse_at > 0 && (call == refuse_at || (call > refuse_at && refuse_on));
    if (!own)
        letter = 'c';
    if ((now || refuse_at == 0) && report >= 0 && write(report, &letter, 1) != 1)
        _exit(99);
    if (now)
        errno = ENOMEM;
    return now;
}

#define REFUSED(letter) refused(__builtin_return_address(0), letter)

void *malloc(size_t size) {
    return REFUSED('m') ? NULL : __libc_malloc(size);
}

void *calloc(size_t count, size_t size) {
    return REFUSED('m') ? NULL : __libc_calloc(count, size);
}

void *realloc(void *old, size_t size) {
    return REFUSED('m') ? NULL : __libc_realloc(old, size);
}

void *aligned_alloc(size_t align, size_t size) {
    return REFUSED('m') ? NULL : __libc_memalign(align, size);
}

void *memalign(size_t align, size_t size) {
    return REFUSED('m') ? NULL : __libc_memalign(align, size);
}

int posix_memalign(void **place, size_t align, size_t size) {
    void *got = REFUSED('m') ? NULL : __libc_memalign(align, size);
    if (got == NULL)
        return ENOMEM;
    *place = got;
    return 0;
}

int pthread_create(pthread_t *thread, const pthread_attr_t *attributes, void *(*run)(void *), void *argument) {
    return REFUSED('t') ? EAGAIN : start_thread(thread, attributes, run, argument);
}
