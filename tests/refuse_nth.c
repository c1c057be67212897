/* A library to preload, which refuses one call that asks for memory, or all from one on. Nothing of the program is made
   of it: tests/each_allocation.py builds it and runs the program over it.

   REFUSE_TALLY  a file of 16 bytes, to which are written, as two numbers of 64 bits: how many calls were counted, and
                 how many of them were refused. It is mapped, so it gives both however the program ends.
   REFUSE_AT     the number of the call to refuse, counted from 1; 0 or nothing: none.
   REFUSE_ON     where it is set, all later calls are refused too.

   Counted are malloc, calloc, realloc, posix_memalign, aligned_alloc and memalign, of all threads in the order in which
   they came, from the first call behind the beginning of C's `main`. What the loader and the C library ask for before it
   isn't counted and never refused, since no program can answer that; what the C library asks for behind it, as for a
   thread's beginning, is. A call of size 0 and one of `free` are never refused. */

#define _GNU_SOURCE
#include <dlfcn.h>
#include <errno.h>
#include <fcntl.h>
#include <stdatomic.h>
#include <stddef.h>
#include <stdint.h>
#include <stdlib.h>
#include <sys/mman.h>
#include <unistd.h>

extern void *__libc_malloc(size_t size);
extern void *__libc_calloc(size_t count, size_t size);
extern void *__libc_realloc(void *old, size_t size);
extern void *__libc_memalign(size_t alignment, size_t size);

struct tally {
    _Atomic uint64_t calls;
    _Atomic uint64_t refused;
};

static struct tally unshared;
static struct tally *tally = &unshared;
static uint64_t refuse_at;
static int refuse_on;
static atomic_int begun;
static int (*main_of_program)(int, char **, char **);

/* Counts a call, and says whether it is to be refused. */
static int is_refused(void) {
    if (!atomic_load(&begun))
        return 0;
    uint64_t number = atomic_fetch_add(&tally->calls, 1) + 1;
    if (refuse_at == 0 || number < refuse_at || (number > refuse_at && !refuse_on))
        return 0;
    atomic_fetch_add(&tally->refused, 1);
    return 1;
}

static void *no_memory(void) {
    errno = ENOMEM;
    return NULL;
}

void *malloc(size_t size) {
    return size && is_refused() ? no_memory() : __libc_malloc(size);
}

void *calloc(size_t count, size_t size) {
    return count && size && is_refused() ? no_memory() : __libc_calloc(count, size);
}

void *realloc(void *old, size_t size) {
    return size && is_refused() ? no_memory() : __libc_realloc(old, size);
}

void *memalign(size_t alignment, size_t size) {
    return size && is_refused() ? no_memory() : __libc_memalign(alignment, size);
}

void *aligned_alloc(size_t alignment, size_t size) {
    return memalign(alignment, size);
}

int posix_memalign(void **to, size_t alignment, size_t size) {
    if (size && is_refused())
        return ENOMEM;
    void *got = __libc_memalign(alignment, size);
    if (!got && size)
        return ENOMEM;
    *to = got;
    return 0;
}

/* Reads what is asked for, and maps the tally. */
__attribute__((constructor)) static void prepare(void) {
    const char *at = getenv("REFUSE_AT");
    const char *path = getenv("REFUSE_TALLY");
    refuse_at = at ? strtoull(at, NULL, 10) : 0;
    refuse_on = getenv("REFUSE_ON") != NULL;
    int file = path ? open(path, O_RDWR | O_CLOEXEC) : -1;
    if (file < 0)
        return;
    void *mapped = mmap(NULL, sizeof(struct tally), PROT_READ | PROT_WRITE, MAP_SHARED, file, 0);
    close(file);
    if (mapped != MAP_FAILED)
        tally = mapped;
}

static int counted_main(int count, char **words, char **environment) {
    atomic_store(&begun, 1);
    return main_of_program(count, words, environment);
}

/* The C library's start of a program, which calls its `main`: counting begins there. */
int __libc_start_main(int (*program)(int, char **, char **), int count, char **words, void (*init)(void),
                      void (*fini)(void), void (*loader_fini)(void), void *stack_end) {
    int (*start)(int (*)(int, char **, char **), int, char **, void (*)(void), void (*)(void), void (*)(void), void *);
    *(void **)&start = dlsym(RTLD_NEXT, "__libc_start_main");
    main_of_program = program;
    return start(counted_main, count, words, init, fini, loader_fini, stack_end);
}
