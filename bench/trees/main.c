/* Times introspection_write_tree from row 0 on tables of several shapes and orders: processor time, the best of some rounds (docs/BENCHMARKS.md,
 * Trees). Beside it the check of the rows alone, which is a call that is refused with 20. */
#include "introspection.h"

#include <stdio.h>
#include <stdlib.h>
#include <string.h>
#include <time.h>

static const uint8_t document[] = "a.b s Name";
#define MOST ((size_t)INTROSPECTION_MAX_ROWS)

static uint32_t rows[MOST * INTROSPECTION_ROW_WORDS], turned[MOST * INTROSPECTION_ROW_WORDS];
static size_t count;

static double now(void)
{
    struct timespec t;
    clock_gettime(CLOCK_PROCESS_CPUTIME_ID, &t);
    return (double)t.tv_sec + 1e-9 * (double)t.tv_nsec;
}

static void triple(uint32_t *row, size_t word, uint32_t start, uint32_t length)
{
    row[word] = INTROSPECTION_SOURCE_DOCUMENT;
    row[word + 1] = start;
    row[word + 2] = length;
}

/* A row of a kind in a parent, which is told by its row plus one; answers the same of the row. */
static uint32_t add(uint32_t kind, uint32_t parent)
{
    uint32_t *row = rows + count * INTROSPECTION_ROW_WORDS;
    if (count == MOST)
        exit(2);
    memset(row, 0, 4 * INTROSPECTION_ROW_WORDS);
    row[INTROSPECTION_WORD_KIND] = kind;
    row[INTROSPECTION_WORD_PARENT] = parent;
    if (kind == INTROSPECTION_KIND_INTERFACE)
        triple(row, INTROSPECTION_WORD_NAME, 0, 3);
    else if (kind != INTROSPECTION_KIND_NODE && kind != INTROSPECTION_KIND_ARG)
        triple(row, INTROSPECTION_WORD_NAME, 6, 4);
    if (kind == INTROSPECTION_KIND_ARG || kind == INTROSPECTION_KIND_PROPERTY || kind == INTROSPECTION_KIND_ANNOTATION)
        triple(row, INTROSPECTION_WORD_VALUE, 4, 1);
    if (kind == INTROSPECTION_KIND_ARG || kind == INTROSPECTION_KIND_PROPERTY)
        row[INTROSPECTION_WORD_ACCESS] = 1;
    return (uint32_t)++count;
}

/* Interfaces of 8 methods with 3 args each and 8 properties with an annotation each. */
static void services(size_t n)
{
    uint32_t root, interface, item;
    int i, k;
    count = 0;
    root = add(INTROSPECTION_KIND_NODE, 0);
    while (count < n) {
        interface = add(INTROSPECTION_KIND_INTERFACE, root);
        for (i = 0; i < 8; i++) {
            item = add(INTROSPECTION_KIND_METHOD, interface);
            for (k = 0; k < 3; k++)
                add(INTROSPECTION_KIND_ARG, item);
            item = add(INTROSPECTION_KIND_PROPERTY, interface);
            add(INTROSPECTION_KIND_ANNOTATION, item);
        }
    }
    count = n;
}

/* One interface of methods with 3 args each. */
static void one_interface(size_t n)
{
    uint32_t interface, method;
    int k;
    count = 0;
    interface = add(INTROSPECTION_KIND_INTERFACE, add(INTROSPECTION_KIND_NODE, 0));
    while (count < n) {
        method = add(INTROSPECTION_KIND_METHOD, interface);
        for (k = 0; k < 3; k++)
            add(INTROSPECTION_KIND_ARG, method);
    }
    count = n;
}

/* Nodes in the root, each with an interface, a method and an arg. */
static void flat_nodes(size_t n)
{
    uint32_t root;
    count = 0;
    root = add(INTROSPECTION_KIND_NODE, 0);
    while (count < n)
        add(INTROSPECTION_KIND_ARG,
            add(INTROSPECTION_KIND_METHOD, add(INTROSPECTION_KIND_INTERFACE, add(INTROSPECTION_KIND_NODE, root))));
    count = n;
}

/* So many fours of rows in a node. */
static void fours(uint32_t node, size_t many)
{
    while (many-- > 0) {
        uint32_t interface = add(INTROSPECTION_KIND_INTERFACE, node);
        add(INTROSPECTION_KIND_ARG, add(INTROSPECTION_KIND_METHOD, interface));
        add(INTROSPECTION_KIND_ANNOTATION, interface);
    }
}

/* Levels of nodes, at each so many fours of rows, before the next node or after it. */
static void levels(size_t deep, size_t many, int nodes_last)
{
    uint32_t node = 0;
    size_t i;
    count = 0;
    for (i = 0; i < deep; i++) {
        node = add(INTROSPECTION_KIND_NODE, node);
        if (nodes_last)
            fours(node, many);
    }
    for (i = deep; i > 0 && !nodes_last; i--)
        fours((uint32_t)i, many);
}

/* The same rows level by level: a row's place comes after that of all rows with fewer around them. */
static void by_levels(void)
{
    static uint32_t depth[MOST], place[MOST];
    uint32_t level, most = 0, to = 0;
    size_t i;
    for (i = 0; i < count; i++) {
        uint32_t parent = rows[i * INTROSPECTION_ROW_WORDS + INTROSPECTION_WORD_PARENT];
        depth[i] = parent == 0 ? 0 : depth[parent - 1] + 1;
        if (depth[i] > most)
            most = depth[i];
    }
    for (level = 0; level <= most; level++)
        for (i = 0; i < count; i++)
            if (depth[i] == level) {
                uint32_t *row = turned + (size_t)to * INTROSPECTION_ROW_WORDS;
                memcpy(row, rows + i * INTROSPECTION_ROW_WORDS, 4 * INTROSPECTION_ROW_WORDS);
                if (level != 0)
                    row[INTROSPECTION_WORD_PARENT] = place[row[INTROSPECTION_WORD_PARENT] - 1] + 1;
                place[i] = to++;
            }
    memcpy(rows, turned, count * 4 * INTROSPECTION_ROW_WORDS);
}

static double best_of(uint64_t row, uint64_t number, uint8_t *out, size_t room)
{
    double best = 1e9, whole = 0;
    unsigned rounds = 0;
    uint64_t a[3];
    while (rounds < 200 && (rounds < 3 || whole < 1.0)) {
        double began = now(), t;
        introspection_write_tree(document, sizeof document - 1, NULL, 0, rows, count * INTROSPECTION_ROW_WORDS, count, row, out,
                                 room, a);
        t = now() - began;
        whole += t;
        rounds++;
        if (t < best)
            best = t;
        if (a[0] != number)
            exit(1);
    }
    return best;
}

static void measure(const char *what)
{
    const size_t room = 64 * count;
    uint8_t *out = malloc(room);
    double tree, check;
    if (out == NULL)
        exit(2);
    tree = best_of(0, INTROSPECTION_ACCEPTED, out, room);
    check = best_of(count, INTROSPECTION_NOT_WRITABLE, out, 0);
    printf("%7zu rows, %s: %.0f ns for each row, the check %.0f\n", count, what, tree / (double)count * 1e9,
           check / (double)count * 1e9);
    fflush(stdout);
    free(out);
}

int main(void)
{
    static const size_t sizes[] = {1000, 16000, 200000};
    size_t i;
    for (i = 0; i < 3; i++) {
        services(sizes[i]);
        measure("interfaces");
    }
    for (i = 0; i < 3; i++) {
        one_interface(sizes[i]);
        measure("one interface");
    }
    for (i = 0; i < 3; i++) {
        flat_nodes(sizes[i]);
        measure("nodes in the root");
    }
    levels(1000, 4, 1);
    measure("1,000 levels, nodes last");
    levels(1000, 50, 1);
    measure("1,000 levels, nodes last");
    levels(1000, 4, 0);
    measure("1,000 levels, nodes first");
    levels(1000, 50, 0);
    measure("1,000 levels, nodes first");
    for (i = 0; i < 2; i++) {
        services(sizes[i]);
        by_levels();
        measure("interfaces, level by level");
    }
    flat_nodes(16000);
    by_levels();
    measure("nodes in the root, level by level");
    return 0;
}
