/* Times introspection_columns and introspection_rows beside memcpy of the same words: processor time, the best of many rounds, the three in
 * turn (docs/BENCHMARKS.md, Columns). */
#include "introspection.h"

#include <stdio.h>
#include <stdlib.h>
#include <string.h>
#include <time.h>

static double now(void)
{
    struct timespec t;
    clock_gettime(CLOCK_PROCESS_CPUTIME_ID, &t);
    return (double)t.tv_sec + 1e-9 * (double)t.tv_nsec;
}

/* Through a pointer, so that the call is not left out. */
static void *(*volatile copy)(void *, const void *, size_t) = memcpy;

static void keep_less(double *best, double began)
{
    double t = now() - began;
    if (t < *best)
        *best = t;
}

static void measure(size_t count, unsigned rounds)
{
    const size_t words = count * INTROSPECTION_ROW_WORDS;
    uint32_t *rows = malloc(words * 4), *columns = malloc(words * 4), *back = malloc(words * 4);
    double copied = 1e9, put = 1e9, restored = 1e9, began;
    uint64_t a[2], b[2];
    size_t i;
    if (rows == NULL || columns == NULL || back == NULL)
        exit(2);
    for (i = 0; i < words; i++)
        rows[i] = (uint32_t)i * 2654435761u;
    while (rounds-- > 0) {
        began = now();
        copy(back, rows, words * 4);
        keep_less(&copied, began);
        began = now();
        introspection_columns(rows, words, count, columns, words, a);
        keep_less(&put, began);
        began = now();
        introspection_rows(columns, words, count, back, words, b);
        keep_less(&restored, began);
        if (a[0] != 0 || b[0] != 0 || memcmp(rows, back, words * 4) != 0)
            exit(1);
    }
    printf("%7zu rows: copy %.3f ns for each word, columns %.3f (%.2f times), rows %.3f (%.2f times)\n", count,
           copied / (double)words * 1e9, put / (double)words * 1e9, put / copied, restored / (double)words * 1e9,
           restored / copied);
    free(rows);
    free(columns);
    free(back);
}

int main(void)
{
    measure(1000, 4000);
    measure(16384, 400);
    measure(100000, 80);
    measure(INTROSPECTION_MAX_ROWS, 80);
    return 0;
}
