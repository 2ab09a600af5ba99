/*
 * A fuzz target for libFuzzer: hands any bytes to each function of include/introspection.h, and compares what comes
 * back with what the Rust crate sees of the same bytes (view/src/lib.rs).
 *
 * Every buffer ends where a page that may not be touched begins, and another such page stands before its pages; the
 * bytes in front of it in its pages are looked at after the call. Buffers that are only read may not be written.
 */
#define _DEFAULT_SOURCE
#include <introspection.h>
#include <stdarg.h>
#include <stdio.h>
#include <stdlib.h>
#include <string.h>
#include <sys/mman.h>

uint8_t *view_document(const uint8_t *input, size_t length, size_t *view_length);
uint8_t *view_value(const uint8_t *input, size_t length, size_t *view_length);
void view_free(uint8_t *view, size_t length);
int LLVMFuzzerTestOneInput(const uint8_t *data, size_t size);

/* The archive is not made for libFuzzer, which learns what is new from these: numbers, kinds and reasons that came. */
__attribute__((section("__libfuzzer_extra_counters"))) static uint8_t seen[512];

static void see(size_t sort, uint64_t which)
{
    uint8_t *counter = &seen[sort * 64 + which % 64];
    if (*counter < 255)
        ++*counter;
}

#define REQUIRE(what)                                                                                                  \
    do {                                                                                                               \
        if (!(what)) {                                                                                                 \
            fprintf(stderr, "tests/fuzz/fuzz.c:%d: not so: %s\n", __LINE__, #what);                                    \
            abort();                                                                                                   \
        }                                                                                                              \
    } while (0)

/* ---- buffers with guards */

#define PAGE ((size_t)4096)
#define MARK 0xa5

struct guarded {
    uint8_t *pages;  /* between two pages that may not be touched */
    size_t length;   /* of the pages */
    uint8_t *buffer; /* its last bytes */
    size_t used;
};

static struct guarded guarded(size_t bytes)
{
    struct guarded g;
    uint8_t *all;
    g.length = (bytes + PAGE - 1) / PAGE * PAGE;
    if (g.length == 0)
        g.length = PAGE;
    all = (uint8_t *)mmap(NULL, g.length + 2 * PAGE, PROT_NONE, MAP_PRIVATE | MAP_ANONYMOUS, -1, 0);
    REQUIRE(all != MAP_FAILED);
    g.pages = all + PAGE;
    REQUIRE(mprotect(g.pages, g.length, PROT_READ | PROT_WRITE) == 0);
    memset(g.pages, MARK, g.length);
    g.buffer = g.pages + g.length - bytes;
    g.used = bytes;
    return g;
}

static struct guarded copied(const void *bytes, size_t length)
{
    struct guarded g = guarded(length);
    if (length != 0)
        memcpy(g.buffer, bytes, length);
    REQUIRE(mprotect(g.pages, g.length, PROT_READ) == 0);
    return g;
}

/* That nothing was written in front of the buffer: less than a page is there. */
static void check_front(const struct guarded *g)
{
    static uint8_t marks[PAGE];
    if (marks[0] == 0)
        memset(marks, MARK, sizeof marks);
    REQUIRE(memcmp(g->pages, marks, (size_t)(g->buffer - g->pages)) == 0);
}

static void let_go(struct guarded *g)
{
    check_front(g);
    REQUIRE(munmap(g->pages - PAGE, g->length + 2 * PAGE) == 0);
}

/* An answer of 2 to 4 words. It is made once, and is good until the next is asked for. */
static uint64_t *small_answer(size_t words)
{
    static struct guarded answers[5];
    struct guarded *g = &answers[words];
    if (g->pages == NULL)
        *g = guarded(words * 8);
    check_front(g);
    memset(g->buffer, MARK, g->used);
    return (uint64_t *)g->buffer;
}

static int all_zero(const void *bytes, size_t from, size_t to)
{
    const uint8_t *b = (const uint8_t *)bytes;
    for (; from < to; from++)
        if (b[from] != 0)
            return 0;
    return 1;
}

/* ---- the view from C, as view/src/lib.rs has it */

struct view {
    uint8_t *bytes;
    size_t length, room;
};

static void put_bytes(struct view *view, const void *bytes, size_t length)
{
    if (view->length + length > view->room) {
        view->room = 2 * (view->length + length);
        view->bytes = (uint8_t *)realloc(view->bytes, view->room);
        REQUIRE(view->bytes != NULL);
    }
    if (length != 0)
        memcpy(view->bytes + view->length, bytes, length);
    view->length += length;
}

static void put(struct view *view, const char *format, ...)
{
    char text[128];
    va_list arguments;
    int length;
    va_start(arguments, format);
    length = vsnprintf(text, sizeof text, format, arguments);
    va_end(arguments);
    REQUIRE(length >= 0 && (size_t)length < sizeof text);
    put_bytes(view, text, (size_t)length);
}

static void put_part(struct view *view, const void *bytes, size_t length)
{
    put(view, " %zu:", length);
    put_bytes(view, bytes, length);
}

/* Compares with what Rust sees, and frees both. */
static void compare(struct view *view, uint8_t *other, size_t other_length)
{
    if (view->length != other_length || memcmp(view->bytes, other, other_length) != 0) {
        fprintf(stderr, "from C:\n%.*s\nfrom Rust:\n%.*s\n", (int)view->length, (char *)view->bytes, (int)other_length,
                (char *)other);
        REQUIRE(!"the two views differ");
    }
    free(view->bytes);
    view_free(other, other_length);
}

/* ---- a document and its tables */

struct tables {
    struct guarded file, rows, warnings, text, decoded, answer;
    struct guarded document; /* the file, or what was decoded from UTF-16 */
    uint64_t *a;             /* the words of the answer */
};

static struct tables read_document(const uint8_t *data, size_t size, size_t rows, size_t warnings, size_t text,
                                   size_t decoded)
{
    struct tables t;
    t.file = copied(data, size);
    t.decoded = guarded(decoded);
    t.rows = guarded(rows * 4 * INTROSPECTION_ROW_WORDS);
    t.warnings = guarded(warnings * 4 * INTROSPECTION_WARNING_WORDS);
    t.text = guarded(text);
    t.answer = guarded(8 * INTROSPECTION_ANSWER_WORDS);
    t.a = (uint64_t *)t.answer.buffer;
    introspection_read(t.file.buffer, size, (uint32_t *)t.rows.buffer, t.rows.used / 4, (uint32_t *)t.warnings.buffer,
                       t.warnings.used / 4, t.text.buffer, text, t.decoded.buffer, decoded, t.a);
    REQUIRE(t.a[INTROSPECTION_ANSWER_DECODED] <= decoded);
    if (t.a[INTROSPECTION_ANSWER_DECODED] != 0)
        t.document = copied(t.decoded.buffer, (size_t)t.a[INTROSPECTION_ANSWER_DECODED]);
    else
        t.document = copied(data, size);
    return t;
}

/* With room that is always enough: what is decoded has at most 3/2 of the bytes. */
static struct tables read_whole(const uint8_t *data, size_t size)
{
    size_t most = size + size / 2;
    return read_document(data, size, most / 4, most / 4, most, most);
}

static void let_tables_go(struct tables *t)
{
    let_go(&t->file);
    let_go(&t->document);
    let_go(&t->rows);
    let_go(&t->warnings);
    let_go(&t->text);
    let_go(&t->decoded);
    let_go(&t->answer);
}

/* What holds of every answer: the used parts, and zeros past them. */
static void check_tables(const struct tables *t)
{
    uint64_t rows = t->a[INTROSPECTION_ANSWER_ROWS], warnings = t->a[INTROSPECTION_ANSWER_WARNINGS];
    uint64_t text = t->a[INTROSPECTION_ANSWER_TEXT_BYTES];
    REQUIRE(rows * 64 <= t->rows.used && warnings * 16 <= t->warnings.used && text <= t->text.used);
    REQUIRE(all_zero(t->rows.buffer, rows * 64, t->rows.used));
    REQUIRE(all_zero(t->warnings.buffer, warnings * 16, t->warnings.used));
    REQUIRE(all_zero(t->text.buffer, text, t->text.used));
    REQUIRE(all_zero(t->decoded.buffer, t->a[INTROSPECTION_ANSWER_DECODED], t->decoded.used));
    REQUIRE(4 * (rows + warnings) <= t->document.used && text <= t->document.used);
    if (t->a[0] != INTROSPECTION_ACCEPTED)
        REQUIRE(rows == 0 && warnings == 0 && text == 0);
    else
        REQUIRE(rows > 0 && all_zero(t->a, 5 * 8, 12 * 8) && all_zero(t->a, 13 * 8, 16 * 8));
}

/* ---- messages */

/* A message, first with no room at all, then with just enough. */
static void put_message(struct view *view, const struct tables *t, const uint64_t *refusal, const uint32_t *warning)
{
    struct guarded told = refusal ? copied(refusal, 16 * 8) : copied(warning, 4 * 4);
    struct guarded output = guarded(0);
    uint64_t *a = small_answer(3), needed = 0;
    int round;
    for (round = 0; round < 2; round++) {
        let_go(&output);
        output = guarded(needed);
        if (refusal)
            introspection_message(t->document.buffer, t->document.used, (const uint64_t *)told.buffer, output.buffer,
                                  output.used, a);
        else
            introspection_warning_message(t->document.buffer, t->document.used, (const uint32_t *)told.buffer,
                                          output.buffer, output.used, a);
        REQUIRE(a[0] == (round == 0 ? (uint64_t)INTROSPECTION_OUTPUT_SHORT : 0));
        needed = a[1];
    }
    REQUIRE(a[2] == output.used);
    put_part(view, output.buffer, output.used);
    let_go(&output);
    let_go(&told);
}

/* ---- rows */

static void put_triple(struct view *view, const struct tables *t, const uint32_t *triple)
{
    uint64_t *a = small_answer(4);
    size_t text = (size_t)t->a[INTROSPECTION_ANSWER_TEXT_BYTES];
    introspection_lookup(t->document.buffer, t->document.used, t->text.buffer, text, triple[0], triple[1], triple[2],
                         a);
    REQUIRE(a[0] == (triple[0] != 0));
    REQUIRE(a[1] == 1 || a[1] == 2);
    REQUIRE(a[2] + a[3] <= (a[1] == 2 ? text : t->document.used));
    if (a[0])
        put_part(view, (a[1] == 2 ? t->text.buffer : t->document.buffer) + a[2], (size_t)a[3]);
    else
        put(view, " -");
}

/* An item, first with no room at all, then with just enough; or that it cannot be written. */
static void put_item(struct view *view, const struct tables *t, uint64_t row, uint32_t kind)
{
    struct guarded output = guarded(0);
    uint64_t *a = small_answer(3), rows = t->a[INTROSPECTION_ANSWER_ROWS];
    int round, written = kind == 3 || kind == 5 || kind == 6 || kind == 7;
    for (round = 0; round < 2; round++) {
        introspection_write(t->document.buffer, t->document.used, t->text.buffer,
                            (size_t)t->a[INTROSPECTION_ANSWER_TEXT_BYTES], (uint32_t *)t->rows.buffer,
                            (size_t)rows * 16, rows, row, output.buffer, output.used, a);
        if (!written) {
            REQUIRE(a[0] == INTROSPECTION_NOT_WRITABLE && a[1] == row);
            break;
        }
        REQUIRE(a[0] == (round == 0 ? (uint64_t)INTROSPECTION_OUTPUT_SHORT : 0));
        if (round == 0) {
            let_go(&output);
            output = guarded((size_t)a[1]);
        }
    }
    if (written)
        put_part(view, output.buffer, output.used);
    else
        put(view, " -");
    let_go(&output);
}

static void put_rows(struct view *view, const struct tables *t)
{
    uint64_t i;
    for (i = 0; i < t->a[INTROSPECTION_ANSWER_ROWS]; i++) {
        const uint32_t *row = (const uint32_t *)t->rows.buffer + i * INTROSPECTION_ROW_WORDS;
        see(1, row[INTROSPECTION_WORD_KIND]);
        see(4, row[INTROSPECTION_WORD_TP_TYPE] * 4 + row[INTROSPECTION_WORD_DIRECTION]);
        see(5, row[INTROSPECTION_WORD_NAME] * 4 + row[INTROSPECTION_WORD_VALUE]);
        put(view, "%zu %u %u %u %u", (size_t)i, row[INTROSPECTION_WORD_KIND], row[INTROSPECTION_WORD_PARENT],
            row[INTROSPECTION_WORD_DIRECTION], row[INTROSPECTION_WORD_POSITION]);
        put_triple(view, t, row + INTROSPECTION_WORD_NAME);
        put_triple(view, t, row + INTROSPECTION_WORD_VALUE);
        put_triple(view, t, row + INTROSPECTION_WORD_TP_TYPE);
        put_triple(view, t, row + INTROSPECTION_WORD_DOCSTRING);
        put_item(view, t, i, row[INTROSPECTION_WORD_KIND]);
        put(view, "\n");
    }
}

static void put_warnings(struct view *view, const struct tables *t)
{
    uint64_t i;
    for (i = 0; i < t->a[INTROSPECTION_ANSWER_WARNINGS]; i++) {
        const uint32_t *warning = (const uint32_t *)t->warnings.buffer + i * INTROSPECTION_WARNING_WORDS;
        see(2, warning[0]);
        REQUIRE((size_t)warning[2] + warning[3] <= t->document.used);
        put(view, "warning %u %u", warning[0], warning[1]);
        put_part(view, t->document.buffer + warning[2], warning[3]);
        put_message(view, t, NULL, warning);
        put(view, "\n");
    }
}

/* ---- columns: there and back */

static void check_columns(const struct tables *t)
{
    uint64_t count = t->a[INTROSPECTION_ANSWER_ROWS];
    struct guarded columns = guarded((size_t)count * 64), back = guarded((size_t)count * 64);
    uint64_t *a = small_answer(2);
    introspection_columns((uint32_t *)t->rows.buffer, t->rows.used / 4, count, (uint32_t *)columns.buffer,
                          columns.used / 4, a);
    REQUIRE(a[0] == 0);
    introspection_rows((uint32_t *)columns.buffer, columns.used / 4, count, (uint32_t *)back.buffer, back.used / 4, a);
    REQUIRE(a[0] == 0 && memcmp(back.buffer, t->rows.buffer, back.used) == 0);
    introspection_rows((uint32_t *)columns.buffer, columns.used / 4, count + 1, (uint32_t *)back.buffer, back.used / 4,
                       a);
    REQUIRE(a[0] == INTROSPECTION_NO_ROOM && a[1] == count + 1 && all_zero(back.buffer, 0, back.used));
    let_go(&columns);
    let_go(&back);
}

/* ---- trees */

/* The whole tree, first with no room at all, then with just enough. */
static struct guarded written_tree(const struct tables *t)
{
    struct guarded output = guarded(0);
    uint64_t *a = small_answer(3), rows = t->a[INTROSPECTION_ANSWER_ROWS];
    int round;
    for (round = 0; round < 2; round++) {
        introspection_write_tree(t->document.buffer, t->document.used, t->text.buffer,
                                 (size_t)t->a[INTROSPECTION_ANSWER_TEXT_BYTES], (uint32_t *)t->rows.buffer,
                                 (size_t)rows * 16, rows, 0, output.buffer, output.used, a);
        REQUIRE(a[0] == (round == 0 ? (uint64_t)INTROSPECTION_OUTPUT_SHORT : 0));
        if (round == 0) {
            let_go(&output);
            output = guarded((size_t)a[1]);
        }
    }
    REQUIRE(a[2] == output.used);
    return output;
}

/* The tree of what was read is read back, without a warning, and is written as the same bytes again. */
static void check_tree(const struct tables *t)
{
    struct guarded tree = written_tree(t);
    if (tree.used <= INTROSPECTION_MAX_BYTES) {
        struct tables back = read_whole(tree.buffer, tree.used);
        struct guarded again;
        REQUIRE(back.a[0] == INTROSPECTION_ACCEPTED && back.a[INTROSPECTION_ANSWER_WARNINGS] == 0);
        REQUIRE(back.a[INTROSPECTION_ANSWER_ROWS] == t->a[INTROSPECTION_ANSWER_ROWS]);
        again = written_tree(&back);
        REQUIRE(again.used == tree.used && memcmp(again.buffer, tree.buffer, tree.used) == 0);
        let_go(&again);
        let_tables_go(&back);
    }
    let_go(&tree);
}

/* ---- the parts of a run */

static void try_document(const uint8_t *data, size_t size)
{
    struct tables t = read_whole(data, size);
    struct view view = {NULL, 0, 0};
    size_t other_length;
    uint8_t *other = view_document(data, size, &other_length);
    check_tables(&t);
    see(0, t.a[0]);
    if (t.a[0] != INTROSPECTION_ACCEPTED) {
        put(&view, "refused %zu %zu", (size_t)t.a[0], (size_t)t.a[1]);
        put_message(&view, &t, t.a, NULL);
        put(&view, "\n");
    } else {
        put_rows(&view, &t);
        put_warnings(&view, &t);
        check_columns(&t);
        check_tree(&t);
    }
    compare(&view, other, other_length);
    let_tables_go(&t);
}

/* With less room the answer is the same, or that there is no room. */
static void try_less_room(const uint8_t *data, size_t size)
{
    struct tables whole = read_whole(data, size);
    size_t k;
    for (k = 0; k < 4; k++) {
        size_t rows = (size_t)whole.a[INTROSPECTION_ANSWER_ROWS];
        size_t warnings = (size_t)whole.a[INTROSPECTION_ANSWER_WARNINGS];
        size_t text = (size_t)whole.a[INTROSPECTION_ANSWER_TEXT_BYTES];
        size_t decoded = (size_t)whole.a[INTROSPECTION_ANSWER_DECODED];
        size_t *one = k == 0 ? &rows : k == 1 ? &warnings : k == 2 ? &text : &decoded;
        int less = *one > 0;
        struct tables t;
        if (less)
            --*one;
        t = read_document(data, size, rows, warnings, text, decoded);
        check_tables(&t);
        if (less)
            REQUIRE(t.a[0] == INTROSPECTION_NO_ROOM && t.a[1] == (k == 3 ? size : whole.document.used));
        else
            REQUIRE(memcmp(t.a, whole.a, 16 * 8) == 0);
        let_tables_go(&t);
    }
    let_tables_go(&whole);
}

typedef void turning(const uint8_t *, size_t, uint8_t *, size_t, uint64_t *);

static void put_value(struct view *view, turning *turn, const uint8_t *data, size_t size, size_t most)
{
    struct guarded value = copied(data, size), output = guarded(most);
    uint64_t *a = small_answer(3);
    turn(value.buffer, size, output.buffer, output.used, a);
    see(3, a[0]);
    if (a[0] == 0) {
        REQUIRE(a[2] <= output.used && all_zero(output.buffer, a[2], output.used));
        put(view, "accepted");
        put_part(view, output.buffer, (size_t)a[2]);
        put(view, "\n");
    } else {
        REQUIRE(a[2] == 0 && all_zero(output.buffer, 0, output.used));
        put(view, "refused %zu %zu -\n", (size_t)a[0], (size_t)a[1]);
    }
    let_go(&value);
    let_go(&output);
}

static void try_value(const uint8_t *data, size_t size)
{
    struct view view = {NULL, 0, 0};
    size_t other_length;
    uint8_t *other = view_value(data, size, &other_length);
    put_value(&view, introspection_escape, data, size, 6 * size);
    put_value(&view, introspection_unescape, data, size, size);
    compare(&view, other, other_length);
}

/* The bytes as rows, as a refusal and as a warning, over the bytes themselves: any answer will do that is one. */
static void try_words(const uint8_t *data, size_t size)
{
    struct guarded document = copied(data, size), rows = copied(data, size / 64 * 64);
    struct guarded output = guarded(size);
    uint64_t *a = small_answer(3), refusal[16] = {0};
    uint32_t warning[4] = {0};
    uint64_t claimed = size / 64, row = size % 7;
    introspection_write(document.buffer, size, document.buffer, size, (uint32_t *)rows.buffer, rows.used / 4, claimed,
                        row, output.buffer, output.used, a);
    REQUIRE(a[0] == 0 || (a[0] >= 19 && a[0] <= 21));
    REQUIRE(a[0] != 19 || a[1] < claimed);
    REQUIRE(all_zero(output.buffer, a[2], output.used));
    see(6, a[0]);
    introspection_write_tree(document.buffer, size, document.buffer, size, (uint32_t *)rows.buffer, rows.used / 4, claimed,
                             row, output.buffer, output.used, a);
    REQUIRE(a[0] == 0 || a[0] == 7 || (a[0] >= 19 && a[0] <= 21));
    REQUIRE(a[0] != 19 || a[1] < claimed);
    REQUIRE(all_zero(output.buffer, a[2], output.used));
    memcpy(refusal, data, size < sizeof refusal ? size : sizeof refusal);
    introspection_message(document.buffer, size, refusal, output.buffer, output.used, a);
    REQUIRE(a[0] == 0 || a[0] == 19 || a[0] == 21);
    REQUIRE(all_zero(output.buffer, a[2], output.used));
    see(7, a[0]);
    memcpy(warning, data, size < sizeof warning ? size : sizeof warning);
    introspection_warning_message(document.buffer, size, warning, output.buffer, output.used, a);
    REQUIRE(a[0] == 0 || a[0] == 19 || a[0] == 21);
    REQUIRE(all_zero(output.buffer, a[2], output.used));
    let_go(&document);
    let_go(&rows);
    let_go(&output);
}

int LLVMFuzzerTestOneInput(const uint8_t *data, size_t size)
{
    static const uint8_t none[1];
    if (size == 0)
        data = none;
    try_document(data, size);
    try_less_room(data, size);
    try_value(data, size);
    try_words(data, size);
    return 0;
}
