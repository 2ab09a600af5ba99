/* Times introspection_write_items of all 13,000 methods of a document of 0.9 MB beside introspection_read of that document: processor time,
 * the best of many rounds, the two in turn (docs/BENCHMARKS.md, Many items). Fails if writing takes more than 5 times as long. */
#include "introspection.h"

#include <stdio.h>
#include <stdlib.h>
#include <string.h>
#include <time.h>

enum { METHODS = 13000, ROWS = 2 * METHODS + 2, ROOM = 1048576, ROUNDS = 15 };

static char document[ROOM];
static uint32_t rows[ROWS * INTROSPECTION_ROW_WORDS], items[METHODS], ends[METHODS];
static uint8_t out[ROOM];

static double now(void)
{
    struct timespec t;
    clock_gettime(CLOCK_PROCESS_CPUTIME_ID, &t);
    return (double)t.tv_sec + 1e-9 * (double)t.tv_nsec;
}

int main(void)
{
    uint64_t a[INTROSPECTION_ANSWER_WORDS], b[3], c[3];
    double reading = 1e9, writing = 1e9, began, took;
    size_t length = (size_t)sprintf(document, "<node><interface name=\"org.example.Antenna\">\n"), k;
    int round;
    for (k = 0; k < METHODS; k++) {
        length += (size_t)sprintf(document + length,
                                  "<method name=\"Set%05zu\"><arg name=\"a\" type=\"d\" direction=\"in\"/></method>\n", k);
        items[k] = (uint32_t)(2 * k + 2);
    }
    length += (size_t)sprintf(document + length, "</interface></node>\n");
    for (round = 0; round < ROUNDS; round++) {
        began = now();
        introspection_read((uint8_t *)document, length, rows, ROWS * INTROSPECTION_ROW_WORDS, NULL, 0, NULL, 0, NULL, 0, a);
        took = now() - began;
        reading = took < reading ? took : reading;
        began = now();
        introspection_write_items((uint8_t *)document, length, NULL, 0, rows, ROWS * INTROSPECTION_ROW_WORDS,
                                  a[INTROSPECTION_ANSWER_ROWS], items, METHODS, out, sizeof out, ends, METHODS, b);
        took = now() - began;
        writing = took < writing ? took : writing;
    }
    if (a[0] != 0 || a[INTROSPECTION_ANSWER_ROWS] != ROWS || b[0] != 0 || ends[METHODS - 1] != b[2])
        return 2;
    for (k = 0; k < METHODS; k += 999) {
        static uint8_t one[1024];
        size_t from = k == 0 ? 0 : ends[k - 1];
        introspection_write((uint8_t *)document, length, NULL, 0, rows, ROWS * INTROSPECTION_ROW_WORDS,
                            a[INTROSPECTION_ANSWER_ROWS], items[k], one, sizeof one, c);
        if (c[0] != 0 || c[2] != ends[k] - from || memcmp(one, out + from, c[2]) != 0)
            return 2;
    }
    printf("%d methods, %zu bytes: read in %.2f ms, written in %.2f ms (%lu bytes), %.2f times\n", METHODS, length,
           reading * 1e3, writing * 1e3, (unsigned long)b[2], writing / reading);
    return writing > 5 * reading;
}
