/* Reading a text, and reporting how long a scanner took for it. */
#include <stdio.h>
#include <stdlib.h>
#include <time.h>

/* The tokens without blanks, and the bytes that no rule matches. */
static unsigned long tokens;
static unsigned long errors;

/* The text of the file that the first argument names, with two zeros behind it. */
static char *read_text(int argc, char **argv, size_t *size)
{
    FILE *file = argc > 1 ? fopen(argv[1], "rb") : NULL;
    if (file == NULL || fseek(file, 0, SEEK_END) != 0) {
        exit(2);
    }
    *size = (size_t)ftell(file);
    rewind(file);
    char *text = malloc(*size + 2);
    if (text == NULL || fread(text, 1, *size, file) != *size) {
        exit(2);
    }
    text[*size] = 0;
    text[*size + 1] = 0;
    return text;
}

static double now(void)
{
    struct timespec time;
    clock_gettime(CLOCK_MONOTONIC, &time);
    return (double)time.tv_sec + (double)time.tv_nsec / 1e9;
}

/* Scans a text as often as the second argument says. Without it, scans three times and until that
 * took a quarter of a second. Prints the seconds, without the argument the least of one scan, and
 * the tokens and the errors that one scan finds. */
static int measure(int argc, char **argv, void (*scan)(char *, size_t))
{
    size_t size;
    char *text = read_text(argc, argv, &size);
    unsigned long times = argc > 2 ? strtoul(argv[2], NULL, 10) : 1;
    unsigned long most = argc > 2 ? 1 : 1000;
    unsigned long rounds = 0;
    double spent = 0;
    double least = 1e9;
    while (rounds < most && (rounds < 3 || spent < 0.25)) {
        double start = now();
        for (unsigned long time = 0; time < times; time++) {
            scan(text, size);
        }
        double seconds = now() - start;
        rounds++;
        spent += seconds;
        least = seconds < least ? seconds : least;
    }
    printf("%.6f %lu %lu\n", least, tokens / (times * rounds), errors / (times * rounds));
    return 0;
}

/* Counts a match of a rule with a callback, which refuses matches of more than 127 bytes. */
#define COUNT_SHORT(length) ((length) > 127 ? errors++ : tokens++)
