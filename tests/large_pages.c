/* Asks the system to back a process's memory by large pages.

   A check reads its memory, gigabytes of it, in no order. With pages of 4 KiB the processor spends a
   part of its time on finding them. So each map of memory that is large, and of no file, is named to
   the system as one for pages of 2 MiB. Where the system gives none, nothing changes. A check takes
   about half a GB more so. */
#define _GNU_SOURCE
#include <dlfcn.h>
#include <stddef.h>
#include <sys/mman.h>
#include <sys/types.h>

/* The least size of a map that is named. */
#define LARGE (4 << 20)

typedef void *map_function(void *, size_t, int, int, int, off_t);

void *mmap(void *at, size_t size, int access, int kind, int file, off_t from) {
    static map_function *map;
    if (map == NULL) {
        map = (map_function *)dlsym(RTLD_NEXT, "mmap");
    }
    void *made = map(at, size, access, kind, file, from);
    if (made != MAP_FAILED && (kind & MAP_ANONYMOUS) && size >= LARGE) {
        madvise(made, size, MADV_HUGEPAGE);
    }
    return made;
}
