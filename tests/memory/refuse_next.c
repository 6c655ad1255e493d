/* Refuses one request for memory of a program that it is loaded into, as the program asks it to.

   A request of FIRST + n bytes is refused, and so is the nth request after it; none is for n = 0. A request of LAST bytes is granted where
   one was refused since, and else it is refused; after it all are granted again. No program makes such requests otherwise. */
#include <errno.h>
#include <stddef.h>
#include <stdlib.h>

void *__libc_malloc(size_t size);
void *__libc_calloc(size_t count, size_t size);
void *__libc_realloc(void *old, size_t size);
void *__libc_memalign(size_t align, size_t size);

static const size_t FIRST = 0x5EED00000000;
static const size_t LAST = 0x5EEDFFFFFFFF;

/* How many requests there are up to the one that is refused, which counts too; 0 where none is to be refused. */
static size_t left = 0;
static int is_met = 0;

static int is_refused(void) {
    if (left > 0 && --left == 0) {
        is_met = 1;
        errno = ENOMEM;
        return 1;
    }
    return 0;
}

/* Whether one was refused since the program asked for it. */
static int ends_met(void) {
    int was_met = is_met;
    left = 0;
    is_met = 0;
    return was_met;
}

void *malloc(size_t size) {
    if (size == LAST) {
        return ends_met() ? __libc_malloc(1) : NULL;
    }
    if (size >= FIRST && size < LAST) {
        left = size - FIRST;
        is_met = 0;
        return NULL;
    }
    return is_refused() ? NULL : __libc_malloc(size);
}

void *calloc(size_t count, size_t size) {
    return is_refused() ? NULL : __libc_calloc(count, size);
}

void *realloc(void *old, size_t size) {
    return is_refused() ? NULL : __libc_realloc(old, size);
}

int posix_memalign(void **out, size_t align, size_t size) {
    if (is_refused()) {
        return ENOMEM;
    }
    *out = __libc_memalign(align, size);
    return *out ? 0 : ENOMEM;
}

void *aligned_alloc(size_t align, size_t size) {
    return is_refused() ? NULL : __libc_memalign(align, size);
}

void *memalign(size_t align, size_t size) {
    return aligned_alloc(align, size);
}
