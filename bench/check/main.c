/* Times the check of sound rows, which is a call of introspection_write that is refused with 20: processor time, that which one in twenty
 * rounds beats (docs/BENCHMARKS.md, The check alone). Ordinary tables are in document order and show short texts, each its own part of a document
 * of 1 MB. Hostile ones are in other orders, or each of their rows shows a long text. The program fails where a hostile table takes more than
 * 4 times an ordinary one of as many rows. */
#include "introspection.h"

#include <stdio.h>
#include <stdlib.h>
#include <string.h>
#include <time.h>

#define MOST ((size_t)INTROSPECTION_MAX_ROWS)
#define BYTES ((size_t)INTROSPECTION_MAX_BYTES)

static uint32_t rows[MOST * INTROSPECTION_ROW_WORDS], turned[MOST * INTROSPECTION_ROW_WORDS];
static uint32_t order[MOST], place[MOST];
static uint8_t small[] = "a.b s Name", large[BYTES];
static size_t count;
static double ordinary, worst;

static double now(void)
{
    struct timespec t;
    clock_gettime(CLOCK_PROCESS_CPUTIME_ID, &t);
    return (double)t.tv_sec + 1e-9 * (double)t.tv_nsec;
}

static void triple(uint32_t *row, size_t word, uint32_t source, size_t start, size_t length)
{
    row[word] = source;
    row[word + 1] = (uint32_t)start;
    row[word + 2] = (uint32_t)length;
}

/* A row of a kind in a parent, which is told by its row plus one; answers the same of the row. */
static uint32_t add(uint32_t kind, uint32_t parent)
{
    uint32_t *row = rows + count * INTROSPECTION_ROW_WORDS;
    if (count == MOST)
        exit(2);
    memset(row, 0, 4 * INTROSPECTION_ROW_WORDS);
    row[INTROSPECTION_WORD_KIND] = kind;
    row[INTROSPECTION_WORD_PARENT] = parent;
    if (kind == INTROSPECTION_KIND_INTERFACE)
        triple(row, INTROSPECTION_WORD_NAME, 1, 0, 3);
    else if (kind != INTROSPECTION_KIND_NODE && kind != INTROSPECTION_KIND_ARG)
        triple(row, INTROSPECTION_WORD_NAME, 1, 6, 4);
    if (kind == INTROSPECTION_KIND_ARG || kind == INTROSPECTION_KIND_MEMBER || kind == INTROSPECTION_KIND_ANNOTATION)
        triple(row, INTROSPECTION_WORD_VALUE, 1, 4, 1);
    return (uint32_t)++count;
}

/* A node of mappings with two members each. */
static void mappings(size_t n)
{
    uint32_t root, mapping;
    count = 0;
    root = add(INTROSPECTION_KIND_NODE, 0);
    while (count + 3 <= n) {
        mapping = add(INTROSPECTION_KIND_MAPPING, root);
        add(INTROSPECTION_KIND_MEMBER, mapping);
        add(INTROSPECTION_KIND_MEMBER, mapping);
    }
    while (count < n)
        add(INTROSPECTION_KIND_NODE, root);
}

/* The same rows, all mappings first. */
static void mappings_first(size_t n)
{
    const size_t many = (n - 1) / 3;
    uint32_t root;
    size_t i;
    count = 0;
    root = add(INTROSPECTION_KIND_NODE, 0);
    for (i = 0; i < many; i++)
        add(INTROSPECTION_KIND_MAPPING, root);
    for (i = 0; i < 2 * many; i++)
        add(INTROSPECTION_KIND_MEMBER, (uint32_t)(2 + i % many));
    while (count < n)
        add(INTROSPECTION_KIND_NODE, root);
}

/* A method of args, and then the annotations of its args, in the order of the args or in reverse. */
static void annotations_last(size_t n, int reverse)
{
    const size_t many = (n - 3) / 2;
    uint32_t method;
    size_t i;
    count = 0;
    method = add(INTROSPECTION_KIND_METHOD, add(INTROSPECTION_KIND_INTERFACE, add(INTROSPECTION_KIND_NODE, 0)));
    for (i = 0; i < many; i++)
        add(INTROSPECTION_KIND_ARG, method);
    for (i = 0; i < many; i++)
        add(INTROSPECTION_KIND_ANNOTATION, method + 1 + (uint32_t)(reverse ? many - 1 - i : i));
    while (count < n)
        add(INTROSPECTION_KIND_ARG, method);
}

static uint32_t random_below(uint32_t n)
{
    static uint64_t state = 88172645463325252u;
    state ^= state << 13;
    state ^= state >> 7;
    state ^= state << 17;
    return (uint32_t)(state >> 11) % n;
}

/* The same rows in a random order in which parents come first. */
static void shuffled(void)
{
    size_t i;
    for (i = 0; i < count; i++)
        order[i] = (uint32_t)i;
    for (i = count - 1; i > 1; i--) {
        uint32_t k = 1 + random_below((uint32_t)i), other = order[i];
        order[i] = order[k];
        order[k] = other;
    }
    memset(place, 0, sizeof place);
    {
        size_t to = 0;
        for (i = 0; i < count; i++) {
            uint32_t chain[1026];
            size_t deep = 0;
            uint32_t r = order[i];
            while (place[r] == 0) {
                chain[deep++] = r;
                if (rows[(size_t)r * INTROSPECTION_ROW_WORDS + INTROSPECTION_WORD_PARENT] == 0)
                    break;
                r = rows[(size_t)r * INTROSPECTION_ROW_WORDS + INTROSPECTION_WORD_PARENT] - 1;
            }
            while (deep > 0) {
                uint32_t *row = turned + to * INTROSPECTION_ROW_WORDS;
                r = chain[--deep];
                memcpy(row, rows + (size_t)r * INTROSPECTION_ROW_WORDS, 4 * INTROSPECTION_ROW_WORDS);
                if (row[INTROSPECTION_WORD_PARENT] != 0)
                    row[INTROSPECTION_WORD_PARENT] = place[row[INTROSPECTION_WORD_PARENT] - 1];
                place[r] = (uint32_t)++to;
            }
        }
    }
    memcpy(rows, turned, count * 4 * INTROSPECTION_ROW_WORDS);
}

/* A large buffer that begins as the small one does: ASCII, or characters of two to four bytes. */
static void fill_large(int ascii)
{
    static const char *const characters = "\xc3\xa9\xe2\x82\xac\xf0\x9f\x98\x80";
    size_t at = sizeof small - 1;
    memset(large, 'x', BYTES);
    memcpy(large, small, at);
    while (!ascii && at + 9 <= BYTES) {
        memcpy(large + at, characters, 9);
        at += 9;
    }
}

/* Names of three bytes and signatures of one, row after row in a large document of one letter. */
static void spread(void)
{
    size_t i;
    memset(large, 's', BYTES);
    for (i = 0; i < count; i++) {
        uint32_t *row = rows + i * INTROSPECTION_ROW_WORDS;
        if (row[INTROSPECTION_WORD_NAME] != 0)
            triple(row, INTROSPECTION_WORD_NAME, 1, i * 4 % (BYTES - 4), 3);
        if (row[INTROSPECTION_WORD_VALUE] != 0)
            triple(row, INTROSPECTION_WORD_VALUE, 1, i * 4 % (BYTES - 4) + 3, 1);
    }
}

/* Every triple that may be any text becomes the whole large buffer, or the part of it from place `skip` on. */
static void show_all(uint32_t source, size_t skip)
{
    size_t i;
    for (i = 0; i < count; i++) {
        uint32_t *row = rows + i * INTROSPECTION_ROW_WORDS, kind = row[INTROSPECTION_WORD_KIND];
        if (kind != INTROSPECTION_KIND_INTERFACE && kind != INTROSPECTION_KIND_METHOD)
            triple(row, INTROSPECTION_WORD_NAME, source, skip, BYTES - skip);
        if (kind == INTROSPECTION_KIND_ANNOTATION)
            triple(row, INTROSPECTION_WORD_VALUE, source, skip, BYTES - skip);
        if (kind == INTROSPECTION_KIND_ARG || kind == INTROSPECTION_KIND_MEMBER)
            triple(row, INTROSPECTION_WORD_TP_TYPE, source, skip, BYTES - skip);
        if (kind != INTROSPECTION_KIND_ANNOTATION && source == 1)
            triple(row, INTROSPECTION_WORD_DOCSTRING, source, skip, BYTES - skip);
    }
}

static int by_size(const void *a, const void *b)
{
    const double x = *(const double *)a, y = *(const double *)b;
    return x < y ? -1 : x > y;
}

/* The time that one in twenty rounds beats: a clock of a virtual machine now and then says too little. */
static double timed(const uint8_t *document, size_t document_length, const uint8_t *text, size_t text_length)
{
    static double times[2000];
    double whole = 0;
    size_t rounds = 0;
    uint64_t a[3];
    while (rounds < 2000 && (rounds < 8 || whole < 0.5)) {
        double began = now();
        introspection_write(document, document_length, text, text_length, rows, count * INTROSPECTION_ROW_WORDS, count, count, NULL, 0, a);
        times[rounds] = now() - began;
        whole += times[rounds++];
        if (a[0] != INTROSPECTION_NOT_WRITABLE) {
            fprintf(stderr, "answer %u at %u\n", (unsigned)a[0], (unsigned)a[1]);
            exit(1);
        }
    }
    qsort(times, rounds, sizeof *times, by_size);
    return times[rounds / 20];
}

static double measured(const char *what, double time)
{
    printf("%7zu rows, %s: %.3f ms, %.1f ns for each row\n", count, what, time * 1e3, time / (double)count * 1e9);
    fflush(stdout);
    return time;
}

static void hostile(const char *what, const uint8_t *document, size_t document_length, const uint8_t *text, size_t text_length)
{
    double time = measured(what, timed(document, document_length, text, text_length));
    printf("        %.2f times the ordinary table\n", time / ordinary);
    if (time / ordinary > worst)
        worst = time / ordinary;
}

static void orders(size_t n)
{
    const size_t length = sizeof small - 1;
    mappings_first(n);
    hostile("all mappings first", small, length, NULL, 0);
    annotations_last(n, 0);
    hostile("args, then their annotations", small, length, NULL, 0);
    annotations_last(n, 1);
    hostile("args, then their annotations in reverse", small, length, NULL, 0);
    mappings(n);
    shuffled();
    hostile("mappings and members shuffled", small, length, NULL, 0);
}

static void texts(size_t n)
{
    int ascii;
    for (ascii = 1; ascii >= 0; ascii--) {
        const char *const letters = ascii ? "ASCII" : "not ASCII";
        fill_large(ascii);
        printf("%s:\n", letters);
        mappings(n);
        show_all(1, 0);
        hostile("all show the whole document", large, BYTES, NULL, 0);
        shuffled();
        hostile("the same shuffled", large, BYTES, NULL, 0);
        annotations_last(n, 1);
        show_all(1, sizeof small - 1);
        hostile("args, annotations in reverse, all show nearly the whole", large, BYTES, NULL, 0);
        mappings(n);
        show_all(2, 0);
        hostile("all show the whole text buffer", small, sizeof small - 1, large, BYTES);
    }
}

int main(int argc, char **argv)
{
    static const size_t sizes[] = {1000, 4096, 16000, 65536, 262144};
    const int few = argc > 1 && strcmp(argv[1], "ordinary") == 0;
    size_t i;
    for (i = 0; i < 5; i++) {
        mappings(sizes[i]);
        measured("ordinary, over a document of a few bytes", timed(small, sizeof small - 1, NULL, 0));
        spread();
        ordinary = measured("ordinary", timed(large, BYTES, NULL, 0));
        if (!few)
            orders(sizes[i]);
    }
    if (!few) {
        texts(MOST);
        printf("at most %.2f times\n", worst);
    }
    return worst > 4;
}
