// This library, through its C functions, with tables that are lent again for each document.
#include "bench.h"
#include "introspection.h"
#include <stdio.h>
#include <stdlib.h>
#include <string.h>

enum { LIMIT = 1 << 20 };
static uint32_t rows[LIMIT * 4], warnings[LIMIT];
static uint8_t text[LIMIT];

// Lends so many rows, warnings and bytes of text; answers the rows that were read or minus the number of the refusal.
static long lend(const unsigned char *bytes, size_t len, size_t row_count, size_t warning_count, size_t text_len) {
    uint64_t answer[INTROSPECTION_ANSWER_WORDS];
    introspection_read(bytes, len, rows, row_count * INTROSPECTION_ROW_WORDS, warnings,
                       warning_count * INTROSPECTION_WARNING_WORDS, text, text_len, NULL, 0, answer);
    return answer[0] == INTROSPECTION_ACCEPTED ? (long)answer[2] : -(long)answer[0];
}

// Tables that have room for any document of that length.
long ours_any(const unsigned char *bytes, size_t len) {
    return lend(bytes, len, len / 4, len / 4, len);
}

// Tables for an ordinary document first, and those for any where they do not suffice.
long ours_usual(const unsigned char *bytes, size_t len) {
    long n = lend(bytes, len, len / 48, len / 128, len / 8);
    return n == -INTROSPECTION_NO_ROOM ? ours_any(bytes, len) : n;
}

void ours_needed(const unsigned char *bytes, size_t len, size_t room[3]) {
    uint64_t answer[INTROSPECTION_ANSWER_WORDS];
    introspection_read(bytes, len, rows, len * 4, warnings, len, text, len, NULL, 0, answer);
    room[0] = answer[2];
    room[1] = answer[4];
    room[2] = answer[3];
}

void ours_fitted(const unsigned char *bytes, size_t len, const size_t room[3]) {
    lend(bytes, len, room[0], room[1], room[2]);
}

static char made[LIMIT];
static size_t made_len, made_rows, made_text;

// Reads a document of methods with two args each, so many rows in all; answers the row of the last method, or 0.
size_t rows_made(size_t wanted) {
    uint64_t answer[INTROSPECTION_ANSWER_WORDS];
    made_len = (size_t)sprintf(made, "<node><interface name=\"org.example.Antenna\">\n");
    for (size_t row = 2; row + 3 <= wanted; row += 3)
        made_len += (size_t)sprintf(made + made_len,
                                    "<method name=\"Set%zu\"><arg name=\"angle\" type=\"d\" direction=\"in\"/>"
                                    "<arg type=\"a{sv}\" direction=\"out\"/></method>\n", row);
    made_len += (size_t)sprintf(made + made_len, "</interface></node>\n");
    introspection_read((const uint8_t *)made, made_len, rows, wanted * 16, warnings, 4, text, 0, NULL, 0, answer);
    made_rows = answer[2];
    made_text = answer[3];
    return answer[0] == 0 ? made_rows - 3 : 0;
}

// Writes that row, and answers its bytes or minus the number of the refusal.
long write_once(size_t row) {
    static uint8_t out[1024];
    uint64_t answer[3];
    introspection_write((const uint8_t *)made, made_len, text, made_text, rows, made_rows * 16, made_rows, row, out,
                        sizeof out, answer);
    return answer[0] == 0 ? (long)answer[2] : -(long)answer[0];
}
