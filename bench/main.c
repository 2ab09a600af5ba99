// Times the readers in turn over the same documents and prints the figures.
// bench FILE...                 all figures
// bench -n READER FILE...       reads the files that all accept once with one reader, for a count of instructions
#include "bench.h"
#include <stdio.h>
#include <stdlib.h>
#include <string.h>
#include <time.h>

struct reader {
    const char *name, *made, *utf8, *values, *more;
    reading *read;
};

static const struct reader readers[] = {
    {"this library", "tables", "all", "attributes", "names, signatures, element rules; n/48 rows lent, n/4 if refused", ours_usual},
    {"this, room for any", "tables", "all", "attributes", "the same; n/4 rows lent, which are cleared", ours_any},
    {"quick-xml", "events", "attributes", "attributes", "values as str; texts as bytes", quick_values},
    {"quick-xml, texts", "events", "attributes, text", "attributes, text", "values and texts as str", quick_texts},
    {"quick-xml, checked", "events", "all", "attributes", "as the first, after a check of the whole document", quick_checked},
    {"expat", "events", "all", "attributes, text", "entities; parser reused", expat_read},
    {"libxml2", "tree", "all", "attributes, text", "entities, namespaces; tree freed", libxml2_read},
    {"pugixml", "tree", "none", "attributes, text", "no check of duplicate attributes; copy and tree freed", pugixml_read},
    {"rapidxml", "tree", "none", "attributes, text", "no check of duplicate attributes or closing names; tree freed", rapidxml_read},
    {"GDBus", "tree", "all but comments", "attributes, text", "tree freed", gdbus_read},
};
enum { READERS = sizeof readers / sizeof *readers, MOST_ROUNDS = 1001 };
static int rounds = 21;

static double now(void) {
    struct timespec t;
    clock_gettime(CLOCK_PROCESS_CPUTIME_ID, &t);
    return (double)t.tv_sec + (double)t.tv_nsec * 1e-9;
}

__attribute__((noinline)) static long measured(const struct set *s, reading *read) {
    long sum = 0;
    for (size_t i = 0; i < s->count; i++)
        sum += read(s->docs[i].bytes, s->docs[i].len);
    return sum;
}

static int by_size(const void *a, const void *b) {
    double x = *(const double *)a, y = *(const double *)b;
    return (x > y) - (x < y);
}

static double median(const double *of, int n) {
    double sorted[MOST_ROUNDS];
    memcpy(sorted, of, sizeof *of * (size_t)n);
    qsort(sorted, (size_t)n, sizeof *sorted, by_size);
    return sorted[n / 2];
}

static double least(const double *of, int n) {
    double m = of[0];
    for (int i = 1; i < n; i++)
        m = of[i] < m ? of[i] : m;
    return m;
}

// Seconds for one pass over a set, of passes that take 20 ms together.
static double timed(const struct set *s, reading *read, int passes) {
    double from = now();
    for (int i = 0; i < passes; i++)
        measured(s, read);
    return (now() - from) / passes;
}

static int passes_of(const struct set *s, reading *read) {
    double one = timed(s, read, 2);
    one = timed(s, read, 2);
    return one > 0.02 ? 1 : (int)(0.02 / one) + 1;
}

// All readers over one set, in turn.
static void compare(const struct set *s) {
    static double seconds[READERS][MOST_ROUNDS], ratios[MOST_ROUNDS];
    int passes[READERS];
    for (int r = 0; r < READERS; r++)
        passes[r] = passes_of(s, readers[r].read);
    for (int round = 0; round < rounds; round++)
        for (int r = 0; r < READERS; r++)
            seconds[r][round] = timed(s, readers[r].read, passes[r]);
    printf("\n%s: %zu documents, %zu bytes\n", s->name, s->count, s->bytes);
    printf("  %-20s %10s %10s %14s %10s\n", "", "MB/s best", "median", "ratio, best", "median");
    for (int r = 0; r < READERS; r++) {
        for (int round = 0; round < rounds; round++)
            ratios[round] = seconds[r][round] / seconds[0][round];
        double best = least(seconds[r], rounds), mid = median(seconds[r], rounds);
        printf("  %-20s %10.0f %10.0f %14.2f %10.2f\n", readers[r].name, (double)s->bytes / best / 1e6,
               (double)s->bytes / mid / 1e6, best / least(seconds[0], rounds), median(ratios, rounds));
    }
    fflush(stdout);
}

enum { SIZES = 3 };

// Nanoseconds for each byte of a set, with the room that each document needs or, without any, with the usual tables.
static double spent(const struct set *s, size_t (*room)[3]) {
    double from = now();
    for (int pass = 0; pass < 5; pass++)
        for (size_t i = 0; i < s->count; i++)
            if (room)
                ours_fitted(s->docs[i].bytes, s->docs[i].len, room[i]);
            else
                ours_usual(s->docs[i].bytes, s->docs[i].len);
    return (now() - from) / 5 / (double)s->bytes * 1e9;
}

// The time for each byte as documents grow; the sizes in turn.
static void growing(const struct set *sets) {
    static double usual[SIZES][4 * MOST_ROUNDS], fitted[SIZES][4 * MOST_ROUNDS];
    size_t(*room[SIZES])[3];
    for (int k = 0; k < SIZES; k++) {
        room[k] = malloc(sets[k].count * sizeof *room[k]);
        for (size_t i = 0; i < sets[k].count; i++)
            ours_needed(sets[k].docs[i].bytes, sets[k].docs[i].len, room[k][i]);
    }
    for (int round = 0; round < rounds * 4; round++)
        for (int k = 0; k < SIZES; k++) {
            usual[k][round] = spent(&sets[k], NULL);
            fitted[k][round] = spent(&sets[k], room[k]);
        }
    printf("\ntime for each byte, this library, roots of 10 kB taken as 1 (best)\n");
    printf("  %-30s %8s %8s %8s %12s\n", "tables lent", "10 kB", "100 kB", "1 MB", "10 kB in ns");
    for (int fit = 0; fit < 2; fit++) {
        double each[SIZES];
        for (int k = 0; k < SIZES; k++)
            each[k] = least(fit ? fitted[k] : usual[k], rounds * 4);
        printf("  %-30s %8.2f %8.3f %8.3f %12.2f\n", fit ? "as many as the document has" : "n/48 rows", 1.0,
               each[1] / each[0], each[2] / each[0], each[0]);
    }
}

// The files that every reader accepts; those that one refuses are named.
static struct set common(const struct set *files, char **paths) {
    struct set s = {.name = "real files, one by one"};
    for (size_t i = 0; i < files->count; i++) {
        const struct document *d = &files->docs[i];
        int bad = 0;
        for (int r = 0; r < READERS; r++)
            if (readers[r].read(d->bytes, d->len) < 0)
                printf("%s%s", bad++ ? ", " : "left out, as refused by ", readers[r].name);
        if (bad)
            printf(": %s\n", strrchr(paths[i], '/') + 1);
        if (!bad)
            add(&s, d->bytes, d->len);
    }
    return s;
}

// A made document that some reader refuses would be timed as a short one.
static void all_accept(const struct set *s) {
    for (size_t i = 0; i < s->count; i++)
        for (int r = 0; r < READERS; r++)
            if (readers[r].read(s->docs[i].bytes, s->docs[i].len) < 0) {
                fprintf(stderr, "bench: %s, document %zu: refused by %s\n", s->name, i, readers[r].name);
                exit(2);
            }
}

static double write_time(size_t row, int times) {
    double from = now();
    for (int i = 0; i < times; i++)
        if (write_once(row) < 0) {
            fprintf(stderr, "bench: writing was refused (%ld)\n", write_once(row));
            exit(2);
        }
    return (now() - from) / times;
}

static void writing(void) {
    static double first[MOST_ROUNDS], last[MOST_ROUNDS];
    static const size_t sizes[] = {100, 1000, 10000};
    printf("\nwriting one method with two args, microseconds: best, median, nanoseconds for each row of the tables\n");
    printf("  %10s %30s %30s\n", "rows", "the first method", "the last method");
    for (size_t i = 0; i < 3; i++) {
        size_t row = rows_made(sizes[i]), count = row + 3;
        int times = (int)(0.01 / write_time(row, 20)) + 1;
        for (int round = 0; round < rounds; round++) {
            first[round] = write_time(2, times);
            last[round] = write_time(row, times);
        }
        printf("  %10zu %12.2f %8.2f %8.1f %12.2f %8.2f %8.1f\n", count, least(first, rounds) * 1e6,
               median(first, rounds) * 1e6, least(first, rounds) * 1e9 / (double)count, least(last, rounds) * 1e6,
               median(last, rounds) * 1e6, least(last, rounds) * 1e9 / (double)count);
    }
}

static void works(void) {
    printf("  %-20s %-8s %-18s %-18s %s\n", "", "makes", "UTF-8 checked of", "unescapes", "also");
    for (int r = 0; r < READERS; r++)
        printf("  %-20s %-8s %-18s %-18s %s\n", readers[r].name, readers[r].made, readers[r].utf8, readers[r].values,
               readers[r].more);
}

int main(int argc, char **argv) {
    if (argc > 3 && !strcmp(argv[1], "-n")) {
        struct set files = read_files(argv + 3, (size_t)argc - 3), all = common(&files, argv + 3);
        for (int r = 0; r < READERS; r++)
            if (!strcmp(readers[r].name, argv[2]))
                printf("%zu %ld\n", all.bytes, measured(&all, readers[r].read));
        return 0;
    }
    if (getenv("ROUNDS") && atoi(getenv("ROUNDS")) > 0 && atoi(getenv("ROUNDS")) < MOST_ROUNDS)
        rounds = atoi(getenv("ROUNDS"));
    struct set files = read_files(argv + 1, (size_t)argc - 1);
    works();
    printf("\n");
    struct set all = common(&files, argv + 1);
    enum { TOTAL = 980000 };
    struct set sets[] = {
        wrapped(&all, 10000, TOTAL, 1, "their interfaces in roots of at most 10 kB"),
        wrapped(&all, 100000, TOTAL, 1, "the same in roots of at most 100 kB"),
        wrapped(&all, 1000000, TOTAL, 1, "the same in one root of 1 MB"),
        wrapped(&all, 10000, TOTAL, 0, "without comments, in roots of at most 10 kB"),
    };
    compare(&all);
    for (int i = 0; i < 4; i++) {
        all_accept(&sets[i]);
        compare(&sets[i]);
    }
    growing(sets);
    writing();
    return 0;
}
