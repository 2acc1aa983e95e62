/* An allocator that fails at the allocation whose number is in the variable REFUSE, and then writes a byte into the
   file that REFUSED names. A process that still runs after 20 seconds is ended by a signal. */
#define _GNU_SOURCE
#include <dlfcn.h>
#include <stdlib.h>
#include <errno.h>
#include <fcntl.h>
#include <unistd.h>

static long left;

__attribute__((constructor)) static void begin(void) {
    const char *number = getenv("REFUSE");
    left = number ? atol(number) : 0;
    alarm(20);
}

static int refused(void) {
    /* threads grow memory side by side: one of them alone meets the number */
    if (__atomic_load_n(&left, __ATOMIC_SEQ_CST) <= 0 || __atomic_sub_fetch(&left, 1, __ATOMIC_SEQ_CST) != 0) return 0;
    const char *name = getenv("REFUSED");
    int file = name ? open(name, O_CREAT | O_WRONLY, 0600) : -1;
    if (file >= 0) {
        if (write(file, "1", 1) != 1) abort();
        close(file);
    }
    return 1;
}

/* finds the next function of this name after this one, once */
#define FIND(real, name) do { if (!real) real = dlsym(RTLD_NEXT, name); } while (0)

void *malloc(size_t size) {
    static void *(*real)(size_t);
    FIND(real, "malloc");
    if (refused()) {
        errno = ENOMEM;
        return 0;
    }
    return real(size);
}

void *calloc(size_t count, size_t size) {
    static void *(*real)(size_t, size_t);
    FIND(real, "calloc");
    if (refused()) {
        errno = ENOMEM;
        return 0;
    }
    return real(count, size);
}

void *realloc(void *old, size_t size) {
    static void *(*real)(void *, size_t);
    FIND(real, "realloc");
    if (refused()) {
        errno = ENOMEM;
        return 0;
    }
    return real(old, size);
}

void *aligned_alloc(size_t alignment, size_t size) {
    static void *(*real)(size_t, size_t);
    FIND(real, "aligned_alloc");
    if (refused()) {
        errno = ENOMEM;
        return 0;
    }
    return real(alignment, size);
}

int posix_memalign(void **made, size_t alignment, size_t size) {
    static int (*real)(void **, size_t, size_t);
    FIND(real, "posix_memalign");
    if (refused()) return ENOMEM;
    return real(made, alignment, size);
}
