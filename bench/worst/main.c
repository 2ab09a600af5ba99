// Documents of 1 MB that are made to be slow: nanoseconds for each byte of reading them with room for any document, best of some rounds.
#include "introspection.h"
#include <stdio.h>
#include <stdlib.h>
#include <string.h>
#include <time.h>

enum { MOST = 1048576, ROUNDS = 9 };
static char document[MOST];
static size_t length;

static void put(const char *s) {
    size_t n = strlen(s);
    if (length + n <= MOST) {
        memcpy(document + length, s, n);
        length += n;
    }
}

static void repeat(const char *s, int times) {
    for (int i = 0; i < times; i++)
        put(s);
}

static double now(void) {
    struct timespec t;
    clock_gettime(CLOCK_PROCESS_CPUTIME_ID, &t);
    return (double)t.tv_sec + (double)t.tv_nsec * 1e-9;
}

// Elements until the document is nearly full, in one root.
static void filled(void (*element)(int), int number) {
    put("<node>");
    size_t each = length;
    element(number);
    each = length - each;
    while (length + each + 16 < MOST)
        element(number);
    put("</node>");
}

static void ordinary(int number) {
    (void)number;
    put("\n  <interface name=\"org.example.Antenna1\">\n    <method name=\"Deploy\">\n      <arg name=\"angle\" type=\"d\" direction=\"in\"/>\n"
        "      <arg name=\"done\" type=\"b\" direction=\"out\"/>\n    </method>\n    <signal name=\"Stowed\"/>\n"
        "    <property name=\"State\" type=\"u\" access=\"read\"/>\n  </interface>");
}

// A tag of so many attributes with values of one byte, whose names mean nothing.
static void attributes(int number) {
    char name[32];
    put("<x");
    for (int i = 0; i < number; i++) {
        sprintf(name, " a%d=\"v\"", i);
        put(name);
    }
    put("/>");
}

// The same with names that begin alike, so many bytes of them, and differ at their end.
static void alike(int number) {
    char name[8];
    put("<x");
    for (int i = 0; i < 255; i++) {
        put(" ");
        repeat("n", number);
        sprintf(name, "%03d", i);
        put(name);
        put("=\"\"");
    }
    put("/>");
}

// A tag with the seven attributes that mean something.
static void known(int number) {
    static const char *const all[] = {" name=\"v\"", " type=\"s\"", " value=\"v\"", " access=\"v\"", " direction=\"v\"", " suffix=\"v\"", " tp:type=\"v\""};
    put("<x");
    for (int i = 0; i < number; i++)
        put(all[i]);
    put("/>");
}

static void deep_signature(int number) {
    put("<interface name=\"a.b\"><property name=\"p\" access=\"read\" type=\"");
    repeat("a", number);
    repeat("(", number);
    put("y");
    repeat(")", number);
    put("\"/></interface>");
}

static void unknown(int number) {
    (void)number;
    put("<x/>");
}

static void references(int number) {
    put("<interface name=\"a.b\"><annotation name=\"n\" value=\"");
    repeat("&#65;", number);
    put("\"/></interface>");
}

// So many nodes, each in the one before it.
static void nodes(int number) {
    repeat("<node>", number);
    repeat("</node>", number);
}

// So many elements that are skipped, each in the one before it.
static void skipped(int number) {
    repeat("<x>", number);
    repeat("</x>", number);
}

static void less_than(int number) {
    (void)number;
    put("<");
}

static void comment(int number) {
    (void)number;
    put("<!---->");
}

static void hyphens(int number) {
    put("<!--");
    repeat(" -", number);
    put("-->");
}

static const struct {
    const char *name;
    void (*element)(int);
    int number;
} kinds[] = {
    {"ordinary interfaces", ordinary, 0},
    {"tags of 1 attribute that means nothing", attributes, 1},
    {"of 3", attributes, 3},
    {"of 5", attributes, 5},
    {"of 6", attributes, 6},
    {"of 7", attributes, 7},
    {"of 16", attributes, 16},
    {"of 17", attributes, 17},
    {"of 64", attributes, 64},
    {"of 128", attributes, 128},
    {"of 256", attributes, 256},
    {"tags of 6 attributes that mean something", known, 6},
    {"of 7", known, 7},
    {"255 attributes, names alike in their first 12 bytes", alike, 12},
    {"in their first 100", alike, 100},
    {"in their first 1,000", alike, 1000},
    {"in their first 4,080", alike, 4080},
    {"signatures 32 deep", deep_signature, 32},
    {"empty elements of no known name, a warning each", unknown, 0},
    {"values of 255 references", references, 255},
    {"nodes 1,023 deep", nodes, 1023},
    {"skipped elements 1,022 deep", skipped, 1022},
    {"nothing but `<`", less_than, 0},
    {"empty comments", comment, 0},
    {"comments of hyphens", hyphens, 1000},
};

int main(void) {
    uint32_t *rows = malloc(16 * 4 * (MOST / 4)), *warnings = malloc(4 * 4 * (MOST / 4));
    uint8_t *text = malloc(MOST);
    uint64_t answer[INTROSPECTION_ANSWER_WORDS];
    double first = 0;
    for (size_t k = 0; k < sizeof kinds / sizeof *kinds; k++) {
        double best = 1;
        length = 0;
        filled(kinds[k].element, kinds[k].number);
        for (int round = 0; round < ROUNDS; round++) {
            double from = now();
            introspection_read((const uint8_t *)document, length, rows, 16 * (length / 4), warnings, 4 * (length / 4), text, length, NULL, 0, answer);
            double t = now() - from;
            best = t < best ? t : best;
        }
        best = best * 1e9 / (double)length;
        first = k ? first : best;
        printf("%-56s %8zu bytes %8.2f ns a byte %6.1f times the first; answer %llu at %llu\n", kinds[k].name, length, best, best / first,
               (unsigned long long)answer[0], (unsigned long long)answer[1]);
    }
    return 0;
}
