/* Runs a program that it is loaded into once for each of its requests for memory, with just that
   one refused.

   Before the program begins, a copy of the process is made: copy 0, which has ample memory. At its
   Nth request it makes a copy of itself, copy N, in which this request is refused, and waits for
   its end. So copy N has done all that copy 0 has done by then, and none of it is done again. A
   file that the program has opened or made would be one file of both. So where there is one, copy N
   is made later, of the process as it was before the program began, and counts its requests up to
   the Nth.

   Each copy runs in a folder of its own, N below the folder that REFUSE names, which is new. Its
   outputs go to the files N.out and N.err beside that folder, and its status to N.status. */
#define _GNU_SOURCE
#include <errno.h>
#include <fcntl.h>
#include <stddef.h>
#include <stdio.h>
#include <stdlib.h>
#include <sys/mman.h>
#include <sys/stat.h>
#include <sys/syscall.h>
#include <sys/wait.h>
#include <unistd.h>

void *__libc_malloc(size_t size);
void *__libc_calloc(size_t count, size_t size);
void *__libc_realloc(void *old, size_t size);
void *__libc_memalign(size_t align, size_t size);

/* At most so many requests are counted. */
#define MOST 1000000
/* A file that is opened gets the least number that is free. None gets so great a one here. */
#define FILES 32

/* What all copies see. */
struct seen {
    /* How many requests copy 0 has made, and which of them it has left for later. */
    long requests;
    char is_left[MOST + 1];
    /* Whether something went wrong here. */
    char is_wrong;
};

static struct seen *seen = MAP_FAILED;
/* How many requests this copy has made. */
static long made;
/* The number of the request that is refused; 0 in copy 0, and -1 before the program begins. */
static long refused = -1;

static void fail(const char *why) {
    perror(why);
    if (seen != MAP_FAILED) {
        seen->is_wrong = 1;
    }
    _exit(99);
}

/* Writes what copy 0 has written by now into a file of this copy. */
static void write_what_stands(const char *ending, int file) {
    char path[64], buffer[4096];
    ssize_t length;
    snprintf(path, sizeof path, "../0.%s", ending);
    int before = open(path, O_RDONLY);
    while ((length = read(before, buffer, sizeof buffer)) != 0) {
        if (length < 0 || write(file, buffer, length) != length) {
            fail(path);
        }
    }
    close(before);
}

/* Makes a file of this copy, and leads a stream to it. */
static void lead(long number, const char *ending, int stream) {
    char path[64];
    snprintf(path, sizeof path, "../%ld.%s", number, ending);
    int file = open(path, O_WRONLY | O_CREAT | O_EXCL, 0644);
    if (file < 0) {
        fail(path);
    }
    if (refused == 0) {
        write_what_stands(ending, file);
    }
    if (dup2(file, stream) < 0 || close(file) < 0) {
        fail(path);
    }
}

/* Goes to the folder of this copy, which is new. */
static void enter(long number, const char *path) {
    if (mkdir(path, 0755) != 0 || chdir(path) != 0) {
        fail(path);
    }
    lead(number, "out", 1);
    lead(number, "err", 2);
}

/* Writes down how a copy ended. */
static void note(const char *at, long number, int status) {
    char path[64], text[32];
    snprintf(path, sizeof path, "%s/%ld.status", at, number);
    int length = snprintf(text, sizeof text, "%d\n", WIFEXITED(status) ? WEXITSTATUS(status) : 128 + WTERMSIG(status));
    int file = open(path, O_WRONLY | O_CREAT | O_EXCL, 0644);
    if (file < 0 || write(file, text, length) != length || close(file) < 0) {
        fail(path);
    }
}

/* Makes a copy with this request refused. Returns 1 in the copy; and 0 when it has ended, which is
   written down. `at` is the way to the folder in which the copies have theirs. */
static int copy(const char *at, long number) {
    int status;
    char path[64];
    pid_t made_copy = fork();
    if (made_copy == 0) {
        snprintf(path, sizeof path, "%s/%ld", at, number);
        enter(number, path);
        refused = number;
        return 1;
    }
    if (made_copy < 0 || waitpid(made_copy, &status, 0) != made_copy) {
        fail("a copy");
    }
    note(at, number, status);
    return 0;
}

__attribute__((constructor)) static void begin(void) {
    const char *folder = getenv("REFUSE");
    seen = mmap(NULL, sizeof *seen, PROT_READ | PROT_WRITE, MAP_SHARED | MAP_ANONYMOUS | MAP_NORESERVE, -1, 0);
    if (!folder || chdir(folder) != 0 || seen == MAP_FAILED) {
        fail("REFUSE");
    }
    if (copy(".", 0)) {
        return;
    }
    for (long number = 1; number <= seen->requests; number++) {
        if (seen->is_left[number] && copy(".", number)) {
            return;
        }
    }
    _exit(seen->is_wrong ? 99 : 0);
}

/* Whether copy 0 has opened no file by now, and has made none in its folder. */
static int is_without_files(void) {
    char names[512];
    for (int file = 3; file < FILES; file++) {
        if (fcntl(file, F_GETFD) != -1) {
            return 0;
        }
    }
    int folder = open(".", O_RDONLY | O_DIRECTORY);
    long length = syscall(SYS_getdents64, folder, names, sizeof names);
    if (folder < 0 || length < 0 || close(folder) != 0) {
        fail("the folder of copy 0");
    }
    /* (`.` and `..` take 24 bytes each) */
    return length == 48;
}

/* Whether the request that copy 0 makes is refused, which it is in a copy that is made here. */
static int is_refused_in_copy(void) {
    if (made > MOST) {
        fail("more requests than are counted");
    }
    seen->requests = made;
    if (is_without_files()) {
        return copy("..", made);
    }
    seen->is_left[made] = 1;
    return 0;
}

/* Whether the request that is made now is refused. */
static int is_refused(void) {
    if (refused < 0) {
        return 0;
    }
    made++;
    return refused == 0 ? is_refused_in_copy() : made == refused;
}

void *malloc(size_t size) {
    if (is_refused()) {
        errno = ENOMEM;
        return NULL;
    }
    return __libc_malloc(size);
}

void *calloc(size_t count, size_t size) {
    if (is_refused()) {
        errno = ENOMEM;
        return NULL;
    }
    return __libc_calloc(count, size);
}

void *realloc(void *old, size_t size) {
    if (is_refused()) {
        errno = ENOMEM;
        return NULL;
    }
    return __libc_realloc(old, size);
}

int posix_memalign(void **out, size_t align, size_t size) {
    if (is_refused()) {
        return ENOMEM;
    }
    *out = __libc_memalign(align, size);
    return *out ? 0 : ENOMEM;
}

void *aligned_alloc(size_t align, size_t size) {
    if (is_refused()) {
        errno = ENOMEM;
        return NULL;
    }
    return __libc_memalign(align, size);
}

void *memalign(size_t align, size_t size) {
    return aligned_alloc(align, size);
}
