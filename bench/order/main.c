/* Times introspection_order with three words for work for each row, on tables of 2,600 and of 262,144 rows in several orders: processor time,
 * the best of some rounds (docs/BENCHMARKS.md, The order of type definitions). Fails where a row of the large table takes more than four times
 * as long as one of the small. */
#include "introspection.h"

#include <stdio.h>
#include <stdlib.h>
#include <string.h>
#include <time.h>

#define MOST ((size_t)INTROSPECTION_MAX_ROWS)
#define MEMBERS 3
#define BYTES (1 << 20)

static uint32_t rows[MOST * INTROSPECTION_ROW_WORDS], work[3 * MOST], order[MOST];
static uint8_t document[BYTES], text[BYTES];
static uint32_t start[MOST], length[MOST], place[MOST];
static size_t count, types, bytes, used;

static double now(void)
{
    struct timespec t;
    clock_gettime(CLOCK_PROCESS_CPUTIME_ID, &t);
    return (double)t.tv_sec + 1e-9 * (double)t.tv_nsec;
}

static uint32_t some(uint32_t below)
{
    static uint64_t state = 88172645463325252u;
    state ^= state << 13;
    state ^= state >> 7;
    state ^= state << 17;
    return (uint32_t)(state >> 20) % below;
}

static void triple(uint32_t *row, size_t word, uint32_t source, uint32_t from, uint32_t len)
{
    row[word] = source;
    row[word + 1] = from;
    row[word + 2] = len;
}

static uint32_t *add(uint32_t kind, uint32_t parent)
{
    uint32_t *row = rows + count++ * INTROSPECTION_ROW_WORDS;
    memset(row, 0, 4 * INTROSPECTION_ROW_WORDS);
    row[INTROSPECTION_WORD_KIND] = kind;
    row[INTROSPECTION_WORD_PARENT] = parent;
    return row;
}

/* Names of so many types, in the document. */
static void names(size_t n)
{
    size_t i;
    types = n;
    bytes = 2;
    used = 0;
    memcpy(document, "sm", 2);
    for (i = 0; i < n; i++) {
        start[i] = (uint32_t)bytes;
        length[i] = (uint32_t)sprintf((char *)document + bytes, "Some_Type_%zu", i);
        bytes += length[i];
    }
}

/* The k-th type's struct, whose members use the types listed: their tp types stand in the text, in the order of the rows. */
static void structure(uint32_t k, const uint32_t *uses)
{
    uint32_t *row = add(INTROSPECTION_KIND_STRUCT, 1);
    uint32_t parent = (uint32_t)count;
    int i;
    triple(row, INTROSPECTION_WORD_NAME, INTROSPECTION_SOURCE_DOCUMENT, start[k], length[k]);
    for (i = 0; i < MEMBERS; i++) {
        row = add(INTROSPECTION_KIND_MEMBER, parent);
        triple(row, INTROSPECTION_WORD_NAME, INTROSPECTION_SOURCE_DOCUMENT, 1, 1);
        triple(row, INTROSPECTION_WORD_VALUE, INTROSPECTION_SOURCE_DOCUMENT, 0, 1);
        if (uses[i] < types) {
            triple(row, INTROSPECTION_WORD_TP_TYPE, INTROSPECTION_SOURCE_TEXT, (uint32_t)used, length[uses[i]]);
            memcpy(text + used, document + start[uses[i]], length[uses[i]]);
            used += length[uses[i]];
        }
    }
}

enum shape { AFTER, BEFORE, SHUFFLED, CIRCLE, BETWEEN };

/* Types of which each uses one with a smaller number: defined after it, before it, anywhere; or before it, where the last one
 * uses itself; or so that also the last but one uses itself and the first. */
static void table(size_t n, enum shape shape)
{
    uint32_t i, uses[MEMBERS];
    int k;
    names((n - 1) / (MEMBERS + 1));
    count = 0;
    add(INTROSPECTION_KIND_NODE, 0);
    for (i = 0; i < types; i++)
        place[i] = shape == AFTER || shape == SHUFFLED ? i : (uint32_t)types - 1 - i;
    for (i = (uint32_t)types - 1; shape == SHUFFLED && i > 0; i--) {
        uint32_t j = some(i + 1), t = place[i];
        place[i] = place[j];
        place[j] = t;
    }
    for (i = 0; i < types; i++) {
        for (k = 0; k < MEMBERS; k++)
            uses[k] = (uint32_t)types;
        if (place[i] != 0)
            uses[0] = shape >= CIRCLE ? place[i] - 1 : some(place[i]);
        if (shape >= CIRCLE && i == types - 1)
            uses[1] = place[i];
        if (shape == BETWEEN && i == types - 2) {
            uses[1] = place[i];
            uses[2] = place[0];
        }
        structure(place[i], uses);
    }
}

static double measure(enum shape shape, size_t n)
{
    double best = 1e9, whole = 0;
    unsigned rounds = 0;
    uint64_t a[4];
    table(n, shape);
    while (rounds < 200 && (rounds < 3 || whole < 1.0)) {
        double began = now(), t;
        introspection_order(document, bytes, text, used, rows, count * INTROSPECTION_ROW_WORDS, count, work, 3 * count, order, count, a);
        t = now() - began;
        whole += t;
        rounds++;
        if (t < best)
            best = t;
        if (a[0] != (shape < CIRCLE ? INTROSPECTION_ACCEPTED : 28) || (shape < CIRCLE && a[2] != types))
            exit(1);
    }
    return best / (double)count * 1e9;
}

int main(void)
{
    static const char *const what[] = {"each type after the one that it uses", "each before it", "in any order",
                                       "each before it, the last uses itself", "the same, and the last but one itself and the first"};
    int shape, bad = 0;
    for (shape = AFTER; shape <= BETWEEN; shape++) {
        double few = measure(shape, 2600), many = measure(shape, MOST);
        printf("%s: %.0f ns for each of 2,600 rows, %.0f for each of 262,144: %.1f times\n", what[shape], few, many, many / few);
        fflush(stdout);
        bad |= many > 4 * few;
    }
    return bad;
}
