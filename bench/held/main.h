/* Reading a text, and reporting how long a scanner took for it. */
#include <stdio.h>
#include <stdlib.h>
#include <time.h>

/* The tokens, the bytes that no rule matches, the sum of the ends of both, and that of the rules. */
static unsigned long tokens, errors, ends, leaves;
/* Where the last match ended. */
static unsigned long at;

#define TAKE(leaf, length) (tokens++, at += (length), ends += at, leaves += (leaf))

static double now(void)
{
    struct timespec time;
    clock_gettime(CLOCK_MONOTONIC, &time);
    return (double)time.tv_sec + (double)time.tv_nsec / 1e9;
}

/* Scans a text once in pieces that end with lines and have at least so many bytes, or as a whole
 * where that is 0. Two zeros are behind a piece while it is scanned. */
static void scan_pieces(char *text, size_t size, size_t least, void (*scan)(char *, size_t))
{
    size_t from = 0;
    tokens = errors = ends = leaves = 0;
    while (from < size) {
        size_t to = least != 0 && from + least - 1 < size ? from + least - 1 : size;
        while (to < size && text[to] != '\n') {
            to++;
        }
        to = to < size ? to + 1 : size;
        char first = text[to], second = text[to + 1];
        text[to] = text[to + 1] = 0;
        at = 0;
        scan(text + from, to - from);
        text[to] = first;
        text[to + 1] = second;
        from = to;
    }
}

/* Scans the file that the first argument names in pieces of the second one, three times and until
 * that took a tenth of a second. Prints the least seconds, and what was found. */
static int measure(int argc, char **argv, void (*scan)(char *, size_t))
{
    FILE *file = argc > 2 ? fopen(argv[1], "rb") : NULL;
    if (file == NULL || fseek(file, 0, SEEK_END) != 0) {
        exit(2);
    }
    size_t size = (size_t)ftell(file);
    rewind(file);
    char *text = calloc(size + 3, 1);
    if (text == NULL || fread(text, 1, size, file) != size) {
        exit(2);
    }
    double spent = 0, least = 1e9;
    for (int round = 0; round < 3 || spent < 0.1; round++) {
        double start = now();
        scan_pieces(text, size, strtoul(argv[2], NULL, 10), scan);
        double seconds = now() - start;
        spent += seconds;
        least = seconds < least ? seconds : least;
    }
    printf("%.9f %lu %lu %lu %lu\n", least, tokens, errors, ends, leaves);
    return 0;
}
