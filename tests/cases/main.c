/* Runs the cases of a group over the functions of include/introspection.h: cases on standard input, one to a line, a line of
 * standard output for each. The first lines of a file of cases say how they are written. Every buffer that is lent has just the
 * length that is told and ends where a page begins that cannot be touched; one that is written holds other bytes before. */
#define _DEFAULT_SOURCE
#include "introspection.h"

#include <inttypes.h>
#include <stdio.h>
#include <stdlib.h>
#include <string.h>
#include <sys/mman.h>

/* The longest text of a case: one byte too long for the library. */
#define MOST_BYTES (INTROSPECTION_MAX_BYTES + 1)

/* Room for what is written, and for reading that back. */
#define MOST_WRITTEN 65536
#define MOST_WORDS 20480
#define MOST_WARNING_WORDS 4096

struct bytes {
    uint8_t *at;
    size_t length;
};

struct words {
    uint32_t *at;
    size_t length;
};

/* ---- buffers */

#define PAGE ((size_t)4096)
#define SLACK 0x55

/* A lent buffer: its pages, of which the first and the last cannot be touched, where it begins in them, and their bytes. */
static struct lent {
    uint8_t *pages, *at;
    size_t length;
} lent[16384];
static size_t lent_count;

static void *checked(void *p)
{
    if (p != MAP_FAILED && lent_count < sizeof lent / sizeof *lent)
        return p;
    fputs("no memory\n", stderr);
    exit(2);
}

/* Lends bytes that are no zeros; none: a null pointer. */
static void *lend(size_t length)
{
    size_t held = (length + PAGE - 1) / PAGE * PAGE;
    struct lent l = {NULL, NULL, held + 2 * PAGE};
    if (length == 0)
        return NULL;
    l.pages = checked(mmap(NULL, l.length, PROT_NONE, MAP_PRIVATE | MAP_ANONYMOUS, -1, 0));
    l.at = l.pages + PAGE + held - length;
    checked(mprotect(l.pages + PAGE, held, PROT_READ | PROT_WRITE) == 0 ? l.pages : MAP_FAILED);
    memset(l.pages + PAGE, SLACK, held - length);
    memset(l.at, 0xaa, length);
    lent[lent_count++] = l;
    return l.at;
}

/* Whether nothing was written before a buffer; it is gone then. */
static int is_intact(struct lent l)
{
    const uint8_t *p = l.pages + PAGE;
    int intact;
    while (p < l.at && *p == SLACK)
        p++;
    intact = p == l.at;
    munmap(l.pages, l.length);
    return intact;
}

/* The same of all, when a case has been answered. */
static int give_back(void)
{
    int intact = 1;
    while (lent_count != 0)
        intact &= is_intact(lent[--lent_count]);
    return intact;
}

static struct bytes lent_bytes(uint64_t room, size_t most)
{
    struct bytes b = {NULL, room < most ? (size_t)room : most};
    b.at = lend(b.length);
    return b;
}

static struct words lent_words(uint64_t room, size_t most)
{
    struct words w = {NULL, room < most ? (size_t)room : most};
    w.at = lend(w.length * sizeof *w.at);
    return w;
}

/* An answer of so many words. */
static uint64_t *lent_answer(size_t count)
{
    return lend(count * sizeof(uint64_t));
}

static struct bytes copy_of(const void *from, size_t length)
{
    struct bytes b = lent_bytes(length, length);
    if (length != 0)
        memcpy(b.at, from, length);
    return b;
}

static int zero_bytes(struct bytes b, uint64_t from)
{
    for (; from < b.length; from++)
        if (b.at[from] != 0)
            return 0;
    return 1;
}

static int zero_words(struct words w, uint64_t from)
{
    for (; from < w.length; from++)
        if (w.at[from] != 0)
            return 0;
    return 1;
}

/* Whether the words of an answer from one on up to another are zeros. */
static int zero_answer(const uint64_t *answer, size_t from, size_t to)
{
    for (; from < to; from++)
        if (answer[from] != 0)
            return 0;
    return 1;
}

/* ---- the parts of a case */

/* The first n bytes, or all where there are fewer. */
static struct bytes front(struct bytes s, uint64_t n)
{
    if (n < s.length)
        s.length = (size_t)n;
    return s;
}

static int begins(struct bytes s, const char *with)
{
    size_t n = strlen(with);
    return n <= s.length && memcmp(s.at, with, n) == 0;
}

static int is_same(struct bytes s, const uint8_t *at, uint64_t length)
{
    return s.length == length && (length == 0 || memcmp(s.at, at, s.length) == 0);
}

static void drop(struct bytes *s, size_t n)
{
    if (s->length < n)
        n = s->length;
    if (n != 0)
        s->at += n;
    s->length -= n;
}

/* Takes what stands before a byte, and the byte; all, where there is none. */
static struct bytes take_until(struct bytes *s, char end)
{
    struct bytes taken = *s;
    const uint8_t *found = s->length == 0 ? NULL : memchr(s->at, end, s->length);
    if (found != NULL)
        taken.length = (size_t)(found - s->at);
    drop(s, taken.length);
    drop(s, 1);
    return taken;
}

/* Takes a number, cut off past 32 bits, and the byte that ends it. */
static uint64_t take_number(struct bytes *s)
{
    uint64_t value = 0;
    while (s->length != 0) {
        uint8_t b = *s->at;
        drop(s, 1);
        if (b < '0' || '9' < b || UINT32_MAX < value)
            return value;
        value = value * 10 + (b - '0');
    }
    return value;
}

/* Takes a number or `max`, the largest word of 64 bits. */
static uint64_t take_wide(struct bytes *s)
{
    if (!begins(*s, "max "))
        return take_number(s);
    drop(s, 4);
    return UINT64_MAX;
}

/* A number as a word; the largest word where it is larger. */
static uint32_t low(uint64_t x)
{
    return x < UINT32_MAX ? (uint32_t)x : UINT32_MAX;
}

/* ---- texts: `\xx` is a byte, `\(N:piece)` a piece N times */

static uint8_t expanded[MOST_BYTES];
static size_t expanded_length;

static void store(uint8_t b)
{
    if (expanded_length < MOST_BYTES)
        expanded[expanded_length++] = b;
}

static uint8_t nibble(uint8_t b)
{
    if ('0' <= b && b <= '9')
        return (uint8_t)(b - '0');
    return 'a' <= b && b <= 'f' ? (uint8_t)(b - 'a' + 10) : 0;
}

/* Takes a byte: itself, or `\xx`. */
static uint8_t take_byte(struct bytes *s)
{
    uint8_t b = *s->at;
    if (b == '\\' && 2 < s->length) {
        b = (uint8_t)(nibble(s->at[1]) * 16 + nibble(s->at[2]));
        drop(s, 2);
    }
    drop(s, 1);
    return b;
}

/* Puts a text that has no repeats. */
static void put_plain(struct bytes s)
{
    while (s.length != 0)
        store(take_byte(&s));
}

static void put_times(struct bytes s, uint64_t times)
{
    for (; times != 0; times--)
        put_plain(s);
}

static void put_repeat(struct bytes body)
{
    uint64_t times;
    drop(&body, 2);
    times = take_number(&body);
    put_times(body, times);
}

/* The bytes of a text. */
static struct bytes expand(struct bytes s)
{
    expanded_length = 0;
    while (s.length != 0)
        if (begins(s, "\\(") && memchr(s.at, ')', s.length) != NULL)
            put_repeat(take_until(&s, ')'));
        else
            store(take_byte(&s));
    return copy_of(expanded, expanded_length);
}

/* ---- rows in a text: `/` begins a row, a number is its next word */

static size_t next_row(size_t i)
{
    return (i + INTROSPECTION_ROW_WORDS - 1) / INTROSPECTION_ROW_WORDS * INTROSPECTION_ROW_WORDS;
}

/* The words of a text, with zeros behind them. */
static uint32_t given[MOST_WORDS];

/* Puts a part of a text behind i words, and answers how many there are then. */
static size_t put_part(size_t i, struct bytes part)
{
    if (part.length == 0)
        return i;
    if (part.length == 1 && *part.at == '/')
        return next_row(i);
    if (i < MOST_WORDS)
        given[i++] = low(take_number(&part));
    return i;
}

/* How many words the rows of a text take. */
static size_t put_given(struct bytes s)
{
    size_t i = 0;
    memset(given, 0, sizeof given);
    while (s.length != 0)
        i = put_part(i, take_until(&s, ' '));
    return next_row(i);
}

/* The first of these words. */
static struct words given_words(uint64_t count, size_t most)
{
    struct words w = lent_words(count, most);
    if (w.length != 0)
        memcpy(w.at, given, w.length * sizeof *w.at);
    return w;
}

/* ---- what is written of an answer */

/* Printable ASCII but `\` as it is, any other byte as `\xx`. */
static void put_byte(uint8_t b)
{
    if (b < 32 || 126 < b || b == '\\')
        printf("\\%02x", b);
    else
        putchar(b);
}

/* Eight or more equal bytes as `\(N:byte)`. */
static void put_run(uint8_t b, size_t count)
{
    if (8 <= count) {
        printf("\\(%zu:", count);
        put_byte(b);
        putchar(')');
        return;
    }
    for (; count != 0; count--)
        put_byte(b);
}

static size_t run_length(struct bytes s)
{
    size_t n = 1;
    while (n < s.length && s.at[n] == *s.at)
        n++;
    return n;
}

static void put_text(struct bytes s)
{
    while (s.length != 0) {
        size_t n = run_length(s);
        put_run(*s.at, n);
        drop(&s, n);
    }
}

static void put_word(uint64_t x)
{
    printf(" %" PRIu64, x);
}

/* The words of a record, without the zeros that it ends in. */
static void put_record(const uint32_t *words, size_t count)
{
    size_t i;
    while (count != 0 && words[count - 1] == 0)
        count--;
    for (i = 0; i < count; i++)
        put_word(words[i]);
}

/* Records of so many words, each after a mark. */
static void put_records(struct words w, uint64_t width, char mark)
{
    size_t i, n;
    for (i = 0; i < w.length; i += n) {
        n = width < w.length - i ? (size_t)width : w.length - i;
        printf(" %c", mark);
        put_record(w.at + i, n);
    }
}

static void put_refused(const uint64_t *answer)
{
    printf("refused %" PRIu64 " %" PRIu64, answer[0], answer[1]);
}

static void say_unless(int good, const char *what)
{
    if (!good)
        printf(" %s", what);
}

/* The answer of a function that writes bytes: number, place, count. */
static void put_outcome(const uint64_t answer[3])
{
    if (answer[0] != 0)
        put_refused(answer);
    else
        printf("done %" PRIu64, answer[2]);
}

/* The word that such an answer does not use is zero. */
static int outcome_is_clean(const uint64_t answer[3])
{
    return answer[answer[0] != 0 ? 2 : 1] == 0;
}

/* ---- reading */

typedef void reads(const uint8_t *, size_t, uint32_t *, size_t, uint32_t *, size_t, uint8_t *, size_t, uint8_t *, size_t,
                   uint64_t *);

/* A file, the buffers lent for it, and the answer. */
struct reading {
    struct bytes document, text, decoded;
    struct words rows, warnings;
    uint64_t *answer;
};

static void read_by(reads *f, struct reading *r)
{
    r->answer = lent_answer(INTROSPECTION_ANSWER_WORDS);
    f(r->document.at, r->document.length, r->rows.at, r->rows.length, r->warnings.at, r->warnings.length, r->text.at,
      r->text.length, r->decoded.at, r->decoded.length, r->answer);
}

/* Reads a document into tables of a fixed room. */
static struct reading read_whole(struct bytes document)
{
    struct reading r;
    r.document = document;
    r.rows = lent_words(MOST_WORDS, MOST_WORDS);
    r.warnings = lent_words(MOST_WARNING_WORDS, MOST_WARNING_WORDS);
    r.text = lent_bytes(MOST_WRITTEN, MOST_WRITTEN);
    r.decoded = lent_bytes(0, 0);
    read_by(introspection_read, &r);
    return r;
}

static void put_counts(const uint64_t *answer)
{
    printf("ok %" PRIu64 " %" PRIu64 " %" PRIu64, answer[INTROSPECTION_ANSWER_ROWS],
           answer[INTROSPECTION_ANSWER_TEXT_BYTES], answer[INTROSPECTION_ANSWER_WARNINGS]);
}

/* Bytes after a quote, if there are any. */
static void put_quoted(struct bytes b)
{
    if (b.length == 0)
        return;
    printf(" \" ");
    put_text(b);
}

/* The key, then the two triples. */
static void put_shown(const uint64_t *answer)
{
    size_t i;
    put_word(answer[INTROSPECTION_ANSWER_KEY]);
    for (i = INTROSPECTION_ANSWER_FIRST; i < INTROSPECTION_ANSWER_KEY; i++)
        put_word(answer[i]);
}

/* Says so if the tables past their used parts, or the words of the answer that say nothing, are not zeros. */
static void put_tails(const struct reading *r, uint64_t row_words, uint64_t warning_words, uint64_t text)
{
    const uint64_t *a = r->answer;
    int clean = a[0] != 0 ? zero_answer(a, 2, 5) : a[1] == 0 && zero_answer(a, 5, 12);
    say_unless(clean && zero_answer(a, 13, 16) && zero_words(r->rows, row_words) && zero_words(r->warnings, warning_words)
                   && zero_bytes(r->text, text),
               "tail bad");
}

static struct words front_words(struct words w, uint64_t n)
{
    if (n < w.length)
        w.length = (size_t)n;
    return w;
}

/* What was refused or read; of a refusal what its message shows, if that is asked for. */
static void put_reading(const struct reading *r, int asked)
{
    const uint64_t *a = r->answer;
    uint64_t rows = a[INTROSPECTION_ANSWER_ROWS] * INTROSPECTION_ROW_WORDS;
    uint64_t warnings = a[INTROSPECTION_ANSWER_WARNINGS] * INTROSPECTION_WARNING_WORDS;
    uint64_t text = a[INTROSPECTION_ANSWER_TEXT_BYTES];
    if (a[0] != 0) {
        put_refused(a);
        if (asked)
            put_shown(a);
        put_tails(r, 0, 0, 0);
        return;
    }
    put_counts(a);
    put_records(front_words(r->rows, rows), INTROSPECTION_ROW_WORDS, '/');
    put_records(front_words(r->warnings, warnings), INTROSPECTION_WARNING_WORDS, '!');
    put_quoted(front(r->text, text));
    put_tails(r, rows, warnings, text);
}

/* The rooms for rows, warnings and text. */
static void take_rooms(struct reading *r, struct bytes *s)
{
    r->rows = lent_words(take_number(s), MOST_BYTES);
    r->warnings = lent_words(take_number(s), MOST_BYTES);
    r->text = lent_bytes(take_number(s), MOST_BYTES);
}

/* A case of a whole document: the rooms, the document. */
static void document_case(struct bytes s, int asked)
{
    struct reading r;
    take_rooms(&r, &s);
    r.decoded = lent_bytes(0, 0);
    r.document = expand(s);
    read_by(introspection_read, &r);
    put_reading(&r, asked);
    say_unless(r.answer[INTROSPECTION_ANSWER_DECODED] == 0, "decoded");
}

static void read_case(struct bytes s)
{
    document_case(s, 0);
}

static void answer_case(struct bytes s)
{
    document_case(s, 1);
}

/* A case of a whole file: the rooms, bytes for what is decoded, the file. */
static void file_by(reads *f, struct bytes s)
{
    struct reading r;
    uint64_t count;
    take_rooms(&r, &s);
    r.decoded = lent_bytes(take_number(&s), MOST_BYTES);
    r.document = expand(s);
    read_by(f, &r);
    put_reading(&r, 1);
    count = r.answer[INTROSPECTION_ANSWER_DECODED];
    printf(" = %" PRIu64, count);
    put_quoted(front(r.decoded, count));
    say_unless(zero_bytes(r.decoded, count), "tail bad");
}

static void file_case(struct bytes s)
{
    file_by(introspection_read, s);
}

static void strict_case(struct bytes s)
{
    file_by(introspection_read_strict, s);
}

/* ---- escaping, unescaping, looking up */

typedef void changes(const uint8_t *, size_t, uint8_t *, size_t, uint64_t *);

/* A room, then the text. */
static void change_by(changes *f, struct bytes s)
{
    struct bytes output = lent_bytes(take_number(&s), MOST_BYTES), value = expand(s);
    uint64_t *answer = lent_answer(3);
    f(value.at, value.length, output.at, output.length, answer);
    put_outcome(answer);
    putchar(' ');
    put_text(output);
    say_unless(outcome_is_clean(answer), "answer bad");
}

static void escape_case(struct bytes s)
{
    change_by(introspection_escape, s);
}

static void unescape_case(struct bytes s)
{
    change_by(introspection_unescape, s);
}

/* Whether a triple leads to a part, and the part. */
static void put_looked_up(struct bytes document, struct bytes text, const uint64_t answer[4])
{
    struct bytes in = answer[1] == INTROSPECTION_SOURCE_TEXT ? text : document;
    fputs(answer[0] == 1 ? "yes " : "no ", stdout);
    if (1 < answer[0] || answer[1] < 1 || 2 < answer[1] || in.length < answer[2] || in.length - answer[2] < answer[3]) {
        printf("answer bad");
        return;
    }
    drop(&in, (size_t)answer[2]);
    put_text(front(in, answer[3]));
}

/* Source, start, length, the document, `|`, the text buffer. */
static void lookup_case(struct bytes s)
{
    uint32_t source = low(take_number(&s)), start = low(take_number(&s)), length = low(take_number(&s));
    struct bytes document = expand(take_until(&s, '|')), text = expand(s);
    uint64_t *answer = lent_answer(4);
    introspection_lookup(document.at, document.length, text.at, text.length, source, start, length, answer);
    put_looked_up(document, text, answer);
}

/* ---- writing */

typedef void writes(const uint8_t *, size_t, const uint8_t *, size_t, const uint32_t *, size_t, uint64_t, uint64_t,
                    uint8_t *, size_t, uint64_t *);

/* Rows with the document and the text that they lead into. */
struct table {
    struct bytes document, text;
    struct words rows;
    uint64_t claimed;
};

/* One of the writers, and how what it has written is read back. */
struct writer {
    writes *write;
    void (*put_back)(struct bytes written);
};

static struct bytes write_by(writes *f, const struct table *t, uint64_t row, uint64_t room, uint64_t answer[3])
{
    struct bytes output = lent_bytes(room, MOST_WRITTEN);
    f(t->document.at, t->document.length, t->text.at, t->text.length, t->rows.at, t->rows.length, t->claimed, row,
      output.at, output.length, answer);
    return output;
}

/* What was read, for writing: the text has just the bytes that are used. */
static struct table table_of(const struct reading *r)
{
    struct table t;
    t.document = r->document;
    t.text = copy_of(r->text.at, (size_t)r->answer[INTROSPECTION_ANSWER_TEXT_BYTES]);
    t.rows = r->rows;
    t.claimed = r->answer[INTROSPECTION_ANSWER_ROWS];
    return t;
}

/* Reads a document that holds what was written, writes a row of it, and says whether that is the same. */
static void put_again(writes *f, struct bytes document, uint64_t row, struct bytes written)
{
    struct reading r = read_whole(document);
    struct table t;
    struct bytes again;
    uint64_t *answer = lent_answer(3);
    putchar(' ');
    if (r.answer[0] != 0) {
        put_refused(r.answer);
        return;
    }
    put_counts(r.answer);
    t = table_of(&r);
    again = write_by(f, &t, row, MOST_WRITTEN, answer);
    printf(answer[0] == 0 && is_same(written, again.at, answer[2]) ? " same" : " differs");
}

static struct bytes around(const char *before, struct bytes item, const char *after)
{
    size_t a = strlen(before), b = strlen(after);
    struct bytes d = lent_bytes(a + item.length + b, SIZE_MAX);
    memcpy(d.at, before, a);
    if (item.length != 0)
        memcpy(d.at + a, item.at, item.length);
    memcpy(d.at + a + item.length, after, b);
    return d;
}

/* An item is read back in an interface, an arg in a method of it. */
static void put_item_back(struct bytes item)
{
    int is_arg = begins(item, "<arg");
    struct bytes document =
        is_arg ? around("<node><interface name=\"a.b\"><method name=\"M\">", item, "</method></interface></node>")
               : around("<node><interface name=\"a.b\">", item, "</interface></node>");
    put_again(introspection_write, document, is_arg ? 3 : 2, item);
}

/* The tree of a node is read back as a document; no other is. */
static void put_tree_back(struct bytes tree)
{
    if (begins(tree, "<node"))
        put_again(introspection_write_tree, tree, 0, tree);
}

static const struct writer items = {introspection_write, put_item_back};
static const struct writer trees = {introspection_write_tree, put_tree_back};

/* Writes a row, and tells the answer, the bytes, and what they are read back as. */
static void put_written(const struct writer *by, const struct table *t, uint64_t row, uint64_t room)
{
    uint64_t *answer = lent_answer(3);
    struct bytes output = write_by(by->write, t, row, room, answer), written = front(output, answer[2]);
    put_outcome(answer);
    say_unless(outcome_is_clean(answer), "answer bad");
    if (answer[0] != 0) {
        say_unless(zero_bytes(output, 0), "tail bad");
        return;
    }
    putchar(' ');
    put_text(written);
    say_unless(zero_bytes(output, answer[2]), "tail bad");
    by->put_back(copy_of(written.at, written.length));
}

/* A row of a document: the row, the room, the document. */
static void row_by(const struct writer *by, struct bytes s)
{
    uint64_t row = take_number(&s), room = take_number(&s);
    struct reading r = read_whole(expand(s));
    struct table t;
    if (r.answer[0] != 0) {
        printf("not read: ");
        put_refused(r.answer);
        return;
    }
    t = table_of(&r);
    put_written(by, &t, row, room);
}

/* Takes the document and the text buffer, each ended by `|`, and the rows, of which at most so many words are lent. */
static struct table take_table(struct bytes s, uint64_t claimed, uint64_t lent)
{
    struct table t;
    t.document = expand(take_until(&s, '|'));
    t.text = expand(take_until(&s, '|'));
    t.rows = given_words(lent, put_given(s));
    t.claimed = claimed;
    return t;
}

/* A row of a table that is given by its words: rows claimed, the row, the room, the table. */
static void table_by(const struct writer *by, struct bytes s, uint64_t lent)
{
    uint64_t claimed = take_number(&s), row = take_number(&s), room = take_number(&s);
    struct table t = take_table(s, claimed, lent);
    put_written(by, &t, row, room);
}

/* The same after the number of words lent. */
static void part_by(const struct writer *by, struct bytes s)
{
    uint64_t lent = take_number(&s);
    table_by(by, s, lent);
}

static void item_row_case(struct bytes s)
{
    row_by(&items, s);
}

static void item_table_case(struct bytes s)
{
    table_by(&items, s, MOST_WORDS);
}

static void item_part_case(struct bytes s)
{
    part_by(&items, s);
}

/* Row i, if it is one that is written: of kind 3, 5, 6 or 7. */
static void put_if_item(const struct table *t, size_t i)
{
    uint32_t kind = t->rows.at[i * INTROSPECTION_ROW_WORDS];
    if (kind < INTROSPECTION_KIND_METHOD || INTROSPECTION_KIND_ARG < kind || kind == INTROSPECTION_KIND_PROPERTY)
        return;
    printf(" / %zu ", i);
    put_written(&items, t, i, MOST_WRITTEN);
}

/* All rows of a document that are written. */
static void item_rows_case(struct bytes s)
{
    struct reading r = read_whole(expand(s));
    struct table t;
    size_t i;
    if (r.answer[0] != 0) {
        printf("not read: ");
        put_refused(r.answer);
        return;
    }
    put_counts(r.answer);
    t = table_of(&r);
    for (i = 0; i < t.claimed; i++)
        put_if_item(&t, i);
}

static void tree_row_case(struct bytes s)
{
    row_by(&trees, s);
}

static void tree_table_case(struct bytes s)
{
    table_by(&trees, s, MOST_WORDS);
}

static void tree_part_case(struct bytes s)
{
    part_by(&trees, s);
}

/* The kind and the parent's number of row i, which stands in the row before it. */
static void put_chained(struct words rows, size_t i, uint32_t kind)
{
    rows.at[i * INTROSPECTION_ROW_WORDS + INTROSPECTION_WORD_KIND] = kind;
    rows.at[i * INTROSPECTION_ROW_WORDS + INTROSPECTION_WORD_PARENT] = (uint32_t)i;
}

/* So many nodes, each in the one before it, and a row of a kind in the last, with the document's first three bytes as its name
 * and so many of its first bytes as a docstring. */
static struct words chain_of(size_t nodes, uint32_t kind, uint32_t docstring)
{
    struct words rows = lent_words(MOST_WORDS, MOST_WORDS);
    uint32_t *last = rows.at + nodes * INTROSPECTION_ROW_WORDS;
    size_t i;
    memset(rows.at, 0, MOST_WORDS * sizeof *rows.at);
    for (i = 0; i < nodes; i++)
        put_chained(rows, i, INTROSPECTION_KIND_NODE);
    put_chained(rows, nodes, kind);
    last[INTROSPECTION_WORD_NAME] = INTROSPECTION_SOURCE_DOCUMENT;
    last[INTROSPECTION_WORD_NAME + 2] = 3;
    last[INTROSPECTION_WORD_DOCSTRING] = docstring == 0 ? INTROSPECTION_SOURCE_ABSENT : INTROSPECTION_SOURCE_DOCUMENT;
    last[INTROSPECTION_WORD_DOCSTRING + 2] = docstring;
    return rows;
}

/* A chain of nodes: how many, the kind of the row in the last, the length of its docstring, the row, the room. */
static void tree_chain_case(struct bytes s)
{
    uint64_t nodes = take_number(&s);
    uint32_t kind = low(take_number(&s)), docstring = low(take_number(&s));
    uint64_t row = take_number(&s), room = take_number(&s);
    struct table t;
    if (1200 < nodes)
        nodes = 1200;
    t.document = copy_of("a.b", 3);
    t.text = lent_bytes(0, 0);
    t.rows = chain_of((size_t)nodes, kind, docstring);
    t.claimed = nodes + 1;
    put_written(&trees, &t, row, room);
}

/* ---- messages */

/* The answer and the message. */
static void put_message(const uint64_t answer[3], struct bytes output)
{
    if (answer[0] != 0) {
        put_refused(answer);
    } else {
        printf("done ");
        put_text(front(output, answer[2]));
    }
    say_unless(zero_bytes(output, answer[2]), "left");
    say_unless(outcome_is_clean(answer), "answer bad");
}

/* A refusal: number, key, two triples, room, document. The words that are not looked at are no zeros. */
static void refusal_case(struct bytes s)
{
    uint64_t *refusal = lent_answer(INTROSPECTION_ANSWER_WORDS), *answer = lent_answer(3);
    struct bytes output, document;
    size_t i;
    refusal[INTROSPECTION_ANSWER_NUMBER] = take_wide(&s);
    refusal[INTROSPECTION_ANSWER_KEY] = take_wide(&s);
    for (i = INTROSPECTION_ANSWER_FIRST; i < INTROSPECTION_ANSWER_KEY; i++)
        refusal[i] = take_wide(&s);
    output = lent_bytes(take_number(&s), MOST_BYTES);
    document = expand(s);
    introspection_message(document.at, document.length, refusal, output.at, output.length, answer);
    put_message(answer, output);
}

/* A warning: reason, place, the name's place and length, room, document. */
static void warning_case(struct bytes s)
{
    uint32_t *warning = lend(INTROSPECTION_WARNING_WORDS * sizeof *warning);
    uint64_t *answer = lent_answer(3);
    struct bytes output, document;
    size_t i;
    for (i = 0; i < INTROSPECTION_WARNING_WORDS; i++)
        warning[i] = low(take_wide(&s));
    output = lent_bytes(take_number(&s), MOST_BYTES);
    document = expand(s);
    introspection_warning_message(document.at, document.length, warning, output.at, output.length, answer);
    put_message(answer, output);
}

/* ---- columns */

typedef void turns(const uint32_t *, size_t, uint64_t, uint32_t *, size_t, uint64_t *);

/* The most words of either buffer. */
#define MOST_TURNED 128

static struct words turn_by(turns *f, struct words source, uint64_t count, uint64_t room, uint64_t answer[2])
{
    struct words output = lent_words(room, MOST_TURNED);
    f(source.at, source.length, count, output.at, output.length, answer);
    return output;
}

/* Says whether the other function restores the source's words from those made. */
static void put_restored(turns *back, struct words source, struct words made, uint64_t count)
{
    uint64_t *answer = lent_answer(2);
    struct words output = turn_by(back, made, count, MOST_TURNED, answer);
    size_t n = (size_t)count * INTROSPECTION_ROW_WORDS;
    if (answer[0] != 0)
        printf(" refused");
    else if (n <= source.length && n <= output.length && (n == 0 || memcmp(source.at, output.at, n * 4) == 0))
        printf(" restored");
    else
        printf(" differs");
}

/* Rows, words of the source, words of the output, the source; so many words of the output stand together: a column, or a row. */
static void turned_case(turns *f, turns *back, struct bytes s)
{
    uint64_t count = take_wide(&s), held = take_number(&s), room = take_number(&s), *answer = lent_answer(2);
    uint64_t width = f == introspection_columns && count != 0 ? count : INTROSPECTION_ROW_WORDS;
    struct words source, made;
    put_given(s);
    source = given_words(held, MOST_TURNED);
    made = turn_by(f, source, count, room, answer);
    if (answer[0] != 0)
        put_refused(answer);
    else
        printf("done");
    put_records(made, width, '/');
    if (answer[0] == 0)
        put_restored(back, source, made, count);
}

static void columns_case(struct bytes s)
{
    turned_case(introspection_columns, introspection_rows, s);
}

static void rows_case(struct bytes s)
{
    turned_case(introspection_rows, introspection_columns, s);
}

/* ---- the order of type definitions */

/* The most words of the table, for work and for the order. */
#define MOST_TABLE 1024
#define MOST_WORK 256
#define MOST_ORDER 64

/* Takes the table of a case: rows past those given are zeros. */
static struct table take_held(struct bytes s, uint64_t claimed, uint64_t held)
{
    struct table t;
    t.document = expand(take_until(&s, '|'));
    t.text = expand(take_until(&s, '|'));
    put_given(s);
    t.rows = given_words(held, MOST_TABLE);
    t.claimed = claimed;
    return t;
}

/* Rows claimed, words of the table, words for work, words for the order, the table. */
static void order_case(struct bytes s)
{
    uint64_t claimed = take_number(&s), held = take_number(&s), *answer = lent_answer(4);
    struct words work = lent_words(take_number(&s), MOST_WORK), order = lent_words(take_number(&s), MOST_ORDER);
    struct table t = take_held(s, claimed, held);
    introspection_order(t.document.at, t.document.length, t.text.at, t.text.length, t.rows.at, t.rows.length, t.claimed,
                        work.at, work.length, order.at, order.length, answer);
    if (answer[0] != 0)
        put_refused(answer);
    else
        printf("ordered %" PRIu64 " %" PRIu64, answer[2], answer[3]);
    put_records(order, MOST_ORDER, ':');
    say_unless(zero_words(work, 0), "work is not zeros");
    say_unless(answer[0] != 0 ? zero_answer(answer, 2, 4) : answer[1] == 0, "answer bad");
}

/* ---- all cases */

/* The operations of the groups. Without a word, a case is its numbers alone. */
static const struct operation {
    const char *group, *word;
    void (*run)(struct bytes);
} operations[] = {
    {"reading", "escape", escape_case},
    {"reading", "unescape", unescape_case},
    {"reading", "lookup", lookup_case},
    {"reading", "read", read_case},
    {"reading", "answer", answer_case},
    {"reading", "file", file_case},
    {"reading", "strict", strict_case},
    {"writing", "row", item_row_case},
    {"writing", "rows", item_rows_case},
    {"writing", "table", item_table_case},
    {"writing", "part", item_part_case},
    {"tree", "row", tree_row_case},
    {"tree", "table", tree_table_case},
    {"tree", "part", tree_part_case},
    {"tree", "chain", tree_chain_case},
    {"message", "refusal", refusal_case},
    {"message", "warning", warning_case},
    {"columns", "columns", columns_case},
    {"columns", "rows", rows_case},
    {"order", NULL, order_case},
};

static int is_asked(const struct operation *o, const char *group, struct bytes s)
{
    struct bytes word;
    if (strcmp(o->group, group) != 0)
        return 0;
    if (o->word == NULL)
        return 1;
    word = take_until(&s, ' ');
    return is_same(word, (const uint8_t *)o->word, strlen(o->word));
}

/* A case: the operation, a space, what it is given. */
static void put_case(const char *group, struct bytes s)
{
    size_t i;
    for (i = 0; i < sizeof operations / sizeof *operations; i++)
        if (is_asked(&operations[i], group, s)) {
            if (operations[i].word != NULL)
                take_until(&s, ' ');
            operations[i].run(s);
            return;
        }
    printf("no such operation");
}

/* A line: one that is empty or begins with a number sign is copied, a case is answered. */
static void put_line(const char *group, struct bytes s)
{
    if (s.length == 0 || *s.at == '#')
        fwrite(s.at, 1, s.length, stdout);
    else
        put_case(group, s);
    say_unless(give_back(), "written before a buffer");
    putchar('\n');
    fflush(stdout);
}

int main(int count, char **words)
{
    static uint8_t input[1 << 20];
    struct bytes s = {input, 0};
    if (count != 2) {
        fputs("usage: main GROUP < CASES\n", stderr);
        return 2;
    }
    s.length = fread(input, 1, sizeof input, stdin);
    while (s.length != 0)
        put_line(words[1], take_until(&s, '\n'));
    return ferror(stdin) || ferror(stdout) ? 2 : 0;
}
