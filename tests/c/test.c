/* Calls each function of include/introspection.h as a C program does. Buffers are made by malloc with just the length
 * that is told, so that valgrind sees a byte too many. */
#include "introspection.h"

#include <stdio.h>
#include <stdlib.h>
#include <string.h>

static unsigned passed, failed;

static void check(int good, const char *what, int line)
{
    if (good) {
        passed++;
    } else {
        failed++;
        printf("tests/c/test.c:%d: failed: %s\n", line, what);
    }
}

#define CHECK(what) check((what), #what, __LINE__)

/* ---- lent buffers */

/* No bytes: a null pointer. Otherwise the bytes are no zeros. */
static void *lend(size_t length)
{
    void *p;
    if (length == 0)
        return NULL;
    p = malloc(length);
    if (p == NULL)
        exit(2);
    memset(p, 0xa5, length);
    return p;
}

static uint8_t *copy_of(const char *bytes, size_t length)
{
    uint8_t *p = lend(length);
    if (length != 0)
        memcpy(p, bytes, length);
    return p;
}

static int all_zero(const void *p, size_t from, size_t to)
{
    const uint8_t *b = p;
    size_t i;
    for (i = from; i < to; i++)
        if (b[i] != 0)
            return 0;
    return 1;
}

static int same(const uint8_t *bytes, size_t length, const char *expected)
{
    return length == strlen(expected) && (length == 0 || memcmp(bytes, expected, length) == 0);
}

/* ---- reading */

/* A document, the buffers lent for it, and the answer. */
struct reading {
    uint8_t *document, *text, *decoded;
    uint32_t *rows, *warnings;
    size_t document_length, text_length, rows_length, warnings_length, decoded_length;
    uint64_t answer[INTROSPECTION_ANSWER_WORDS];
};

/* introspection_read or introspection_read_strict. */
typedef void reads(const uint8_t *, size_t, uint32_t *, size_t, uint32_t *, size_t, uint8_t *, size_t, uint8_t *, size_t,
                   uint64_t *);

static struct reading read_by(reads *f, const char *bytes, size_t length, size_t rows, size_t warnings, size_t text,
                              size_t decoded)
{
    struct reading r;
    r.document = copy_of(bytes, length);
    r.document_length = length;
    r.rows = lend(rows * sizeof(uint32_t));
    r.rows_length = rows;
    r.warnings = lend(warnings * sizeof(uint32_t));
    r.warnings_length = warnings;
    r.text = lend(text);
    r.text_length = text;
    r.decoded = lend(decoded);
    r.decoded_length = decoded;
    memset(r.answer, 0xa5, sizeof r.answer);
    f(r.document, length, r.rows, rows, r.warnings, warnings, r.text, text, r.decoded, decoded, r.answer);
    return r;
}

static struct reading read_file(const char *bytes, size_t length, size_t rows, size_t warnings, size_t text,
                                size_t decoded)
{
    return read_by(introspection_read, bytes, length, rows, warnings, text, decoded);
}

/* Bytes to decode into are lent, too. */
static struct reading read_with(const char *bytes, size_t length, size_t rows, size_t warnings, size_t text)
{
    return read_file(bytes, length, rows, warnings, text, 5);
}

/* With the room that is always enough. */
static struct reading read_all(const char *document)
{
    size_t n = strlen(document);
    return read_with(document, n, n / 4 * INTROSPECTION_ROW_WORDS, n / 4 * INTROSPECTION_WARNING_WORDS, n);
}

static void end_reading(struct reading *r)
{
    free(r->document);
    free(r->rows);
    free(r->warnings);
    free(r->text);
    free(r->decoded);
}

static int answers(const struct reading *r, uint64_t number, uint64_t place)
{
    return r->answer[0] == number && r->answer[1] == place;
}

static int refused_clean(const struct reading *r)
{
    return all_zero(r->answer + 2, 0, 3 * sizeof(uint64_t)) && all_zero(r->rows, 0, r->rows_length * 4)
           && all_zero(r->warnings, 0, r->warnings_length * 4) && all_zero(r->text, 0, r->text_length)
           && all_zero(r->answer, 13 * sizeof(uint64_t), sizeof r->answer)
           && all_zero(r->decoded, r->answer[12], r->decoded_length);
}

static int rest_clean(const struct reading *r)
{
    return all_zero(r->rows, r->answer[2] * 64, r->rows_length * 4)
           && all_zero(r->warnings, r->answer[4] * 16, r->warnings_length * 4)
           && all_zero(r->text, r->answer[3], r->text_length)
           && all_zero(r->answer, 13 * sizeof(uint64_t), sizeof r->answer)
           && all_zero(r->decoded, r->answer[12], r->decoded_length);
}

/* Word k of row i. */
static uint32_t word(const struct reading *r, size_t i, size_t k)
{
    return r->rows[i * INTROSPECTION_ROW_WORDS + k];
}

/* Whether the triple from word k on of row i leads to just these bytes. */
static int shows(const struct reading *r, size_t i, size_t k, const char *expected)
{
    uint64_t a[4] = {9, 9, 9, 9};
    const uint8_t *from;
    introspection_lookup(r->document, r->document_length, r->text, r->text_length, word(r, i, k), word(r, i, k + 1),
                         word(r, i, k + 2), a);
    from = a[1] == INTROSPECTION_SOURCE_DOCUMENT ? r->document : r->text;
    return a[0] == 1 && same(from + a[2], (size_t)a[3], expected);
}

static int is_absent(const struct reading *r, size_t i, size_t k)
{
    return word(r, i, k) == 0 && word(r, i, k + 1) == 0 && word(r, i, k + 2) == 0;
}

static size_t place_of(const char *document, const char *part)
{
    const char *p = strstr(document, part);
    if (p == NULL)
        exit(2);
    return (size_t)(p - document);
}

/* The hinge's file: the second value of its enum lacks a value. */
static const char hinge[] =
    "<!DOCTYPE node>\n"
    "<node name=\"/hinge\" xmlns:tp=\"urn:tp\">\n"
    "  <tp:enum name=\"Latch\" type=\"u\">\n"
    "    <tp:enumvalue suffix=\"Open\" value=\"0\"/>\n"
    "    <tp:enumvalue suffix=\"Shut\"/>\n"
    "  </tp:enum>\n"
    "  <tp:struct name=\"Range\"><tp:member name=\"Low\" type=\"d\"/></tp:struct>\n"
    "  <interface name=\"org.example.Hinge\">\n"
    "    <method name=\"SetAngle\">\n"
    "      <tp:docstring> Turns the hinge. </tp:docstring>\n"
    "      <arg name=\"degrees\" type=\"d\" direction=\"in\" tp:type=\"Angle\"/>\n"
    "      <annotation name=\"org.example.Label\" value=\"turn &lt;now&gt;\"/>\n"
    "      <arg type=\"a{sv}\" direction=\"out\">\n"
    "        <annotation name=\"org.example.Note\" value=\"\"/>\n"
    "      </arg>\n"
    "    </method>\n"
    "    <property name=\"State\" type=\"u\" access=\"read\"/>\n"
    "    <signal name=\"Moved\"><arg type=\"(dd)\"/></signal>\n"
    "  </interface>\n"
    "</node>\n";

/* Whether row i is of a kind, in the row of its parent. */
static int stands(const struct reading *r, size_t i, uint32_t kind, uint32_t parent)
{
    return word(r, i, INTROSPECTION_WORD_KIND) == kind && word(r, i, INTROSPECTION_WORD_PARENT) == parent + 1;
}

static void the_hinge(void)
{
    struct reading r = read_all(hinge);
    CHECK(answers(&r, INTROSPECTION_ACCEPTED, 0));
    CHECK(r.answer[2] == 12);
    CHECK(r.answer[3] == strlen("turn <now>"));
    CHECK(r.answer[4] == 1);
    CHECK(rest_clean(&r));
    /* the enum is left out whole, with its warning */
    CHECK(r.warnings[0] == INTROSPECTION_REASON_INCOMPLETE_ENUMVALUE);
    CHECK(r.warnings[1] == place_of(hinge, "<tp:enum "));
    CHECK(r.warnings[2] == place_of(hinge, "tp:enum "));
    CHECK(r.warnings[3] == strlen("tp:enum"));
    /* the rest is there */
    CHECK(word(&r, 0, INTROSPECTION_WORD_KIND) == INTROSPECTION_KIND_NODE);
    CHECK(word(&r, 0, INTROSPECTION_WORD_PARENT) == 0);
    CHECK(shows(&r, 0, INTROSPECTION_WORD_NAME, "/hinge"));
    CHECK(stands(&r, 1, INTROSPECTION_KIND_STRUCT, 0));
    CHECK(shows(&r, 1, INTROSPECTION_WORD_NAME, "Range"));
    CHECK(stands(&r, 2, INTROSPECTION_KIND_MEMBER, 1));
    CHECK(shows(&r, 2, INTROSPECTION_WORD_VALUE, "d"));
    CHECK(stands(&r, 3, INTROSPECTION_KIND_INTERFACE, 0));
    CHECK(shows(&r, 3, INTROSPECTION_WORD_NAME, "org.example.Hinge"));
    CHECK(stands(&r, 4, INTROSPECTION_KIND_METHOD, 3));
    CHECK(shows(&r, 4, INTROSPECTION_WORD_NAME, "SetAngle"));
    CHECK(shows(&r, 4, INTROSPECTION_WORD_DOCSTRING, "Turns the hinge."));
    CHECK(stands(&r, 5, INTROSPECTION_KIND_ARG, 4));
    CHECK(shows(&r, 5, INTROSPECTION_WORD_VALUE, "d"));
    CHECK(shows(&r, 5, INTROSPECTION_WORD_TP_TYPE, "Angle"));
    CHECK(word(&r, 5, INTROSPECTION_WORD_DIRECTION) == INTROSPECTION_DIRECTION_IN);
    CHECK(stands(&r, 6, INTROSPECTION_KIND_ANNOTATION, 4));
    CHECK(word(&r, 6, INTROSPECTION_WORD_VALUE) == INTROSPECTION_SOURCE_TEXT);
    CHECK(shows(&r, 6, INTROSPECTION_WORD_VALUE, "turn <now>"));
    CHECK(stands(&r, 7, INTROSPECTION_KIND_ARG, 4));
    CHECK(is_absent(&r, 7, INTROSPECTION_WORD_NAME));
    CHECK(word(&r, 7, INTROSPECTION_WORD_DIRECTION) == INTROSPECTION_DIRECTION_OUT);
    CHECK(stands(&r, 8, INTROSPECTION_KIND_ANNOTATION, 7));
    CHECK(shows(&r, 8, INTROSPECTION_WORD_VALUE, ""));
    CHECK(stands(&r, 9, INTROSPECTION_KIND_PROPERTY, 3));
    CHECK(word(&r, 9, INTROSPECTION_WORD_ACCESS) == INTROSPECTION_ACCESS_READ);
    CHECK(stands(&r, 10, INTROSPECTION_KIND_SIGNAL, 3));
    CHECK(shows(&r, 10, INTROSPECTION_WORD_NAME, "Moved"));
    CHECK(stands(&r, 11, INTROSPECTION_KIND_ARG, 10));
    CHECK(word(&r, 11, INTROSPECTION_WORD_DIRECTION) == INTROSPECTION_DIRECTION_NONE);
    /* each row says where its element began */
    CHECK(word(&r, 0, INTROSPECTION_WORD_POSITION) == place_of(hinge, "<node "));
    CHECK(word(&r, 1, INTROSPECTION_WORD_POSITION) == place_of(hinge, "<tp:struct "));
    CHECK(word(&r, 2, INTROSPECTION_WORD_POSITION) == place_of(hinge, "<tp:member "));
    CHECK(word(&r, 3, INTROSPECTION_WORD_POSITION) == place_of(hinge, "<interface "));
    CHECK(word(&r, 4, INTROSPECTION_WORD_POSITION) == place_of(hinge, "<method "));
    CHECK(word(&r, 5, INTROSPECTION_WORD_POSITION) == place_of(hinge, "<arg name=\"degrees\""));
    CHECK(word(&r, 6, INTROSPECTION_WORD_POSITION) == place_of(hinge, "<annotation name=\"org.example.Label\""));
    CHECK(word(&r, 9, INTROSPECTION_WORD_POSITION) == place_of(hinge, "<property "));
    CHECK(word(&r, 10, INTROSPECTION_WORD_POSITION) == place_of(hinge, "<signal "));
    end_reading(&r);
}

/* A document that is refused, with number and place, and zeros in every buffer. */
static void refuses(const char *document, uint64_t number, uint64_t place, int line)
{
    struct reading r = read_all(document);
    check(answers(&r, number, place), document, line);
    check(refused_clean(&r), document, line);
    end_reading(&r);
}

#define REFUSES(document, number, place) refuses((document), (number), (place), __LINE__)

#define IN_INTERFACE "<node><interface name=\"a.b\">"

static void refused_documents(void)
{
    REFUSES("<node>\xff</node>", INTROSPECTION_NOT_UTF8, 6);
    REFUSES("no element", INTROSPECTION_NO_ROOT, 10);
    REFUSES("<node><", INTROSPECTION_MALFORMED_MARKUP, 7);
    REFUSES("<node><!-- open</node>", INTROSPECTION_UNCLOSED_COMMENT, 10);
    REFUSES("<node><![CDATA[ open</node>", INTROSPECTION_UNCLOSED_CDATA, 15);
    REFUSES("<node><? open</node>", INTROSPECTION_UNCLOSED_INSTRUCTION, 8);
    REFUSES("<node><!open", INTROSPECTION_UNCLOSED_DECLARATION, 12);
    REFUSES("<node><!open \"></node>", INTROSPECTION_UNCLOSED_DECLARATION, 14);
    REFUSES("<node><node>", INTROSPECTION_UNCLOSED_ELEMENT, 12);
    REFUSES("<node><node></x></node>", INTROSPECTION_CROSSED_CLOSE, 16);
    REFUSES("<node a=\"1\" a=\"2\"/>", INTROSPECTION_DUPLICATE_ATTRIBUTE, 12);
    REFUSES("<node name=\"a&amp\"/>", INTROSPECTION_UNTERMINATED_REFERENCE, 13);
    REFUSES("<node name=\"&what;\"/>", INTROSPECTION_UNKNOWN_ENTITY, 12);
    REFUSES("<node name=\"&#0;\"/>", INTROSPECTION_BAD_CHARACTER_REFERENCE, 12);
    REFUSES("<node><interface/></node>", INTROSPECTION_ATTRIBUTE_MISSING, 7);
    REFUSES("<node><interface name=\"a\"/></node>", INTROSPECTION_BAD_NAME, 7);
    REFUSES(IN_INTERFACE "<property name=\"P\" type=\"z\" access=\"read\"/>", INTROSPECTION_BAD_SIGNATURE,
            strlen(IN_INTERFACE) + 1);
    REFUSES(IN_INTERFACE "<property name=\"P\" type=\"u\" access=\"r\"/>", INTROSPECTION_BAD_ACCESS,
            strlen(IN_INTERFACE "<property name=\"P\" type=\"u\" access=\"r\"/>"));
    REFUSES(IN_INTERFACE "<method name=\"M\"><arg type=\"u\" direction=\"up\"/>", INTROSPECTION_BAD_DIRECTION,
            strlen(IN_INTERFACE "<method name=\"M\"><arg type=\"u\" direction=\"up\"/>"));
}

/* count times piece, ended by a zero byte. */
static char *repeated(const char *piece, size_t count)
{
    size_t n = strlen(piece), i;
    char *p = malloc(n * count + 1);
    if (p == NULL)
        exit(2);
    for (i = 0; i < count; i++)
        memcpy(p + i * n, piece, n);
    p[n * count] = 0;
    return p;
}

static void at_the_limits(void)
{
    struct reading r;
    char *deep = repeated("<node>", 1025), *spaces = repeated(" ", INTROSPECTION_MAX_BYTES + 1), *tag;
    size_t i, n = 0;
    REFUSES(deep, INTROSPECTION_TOO_DEEP, 6 * 1025);
    r = read_with(spaces, INTROSPECTION_MAX_BYTES + 1, 16, 4, 1);
    CHECK(answers(&r, INTROSPECTION_TOO_LONG, INTROSPECTION_MAX_BYTES));
    CHECK(refused_clean(&r));
    end_reading(&r);
    r = read_with(spaces, INTROSPECTION_MAX_BYTES, 16, 4, 1);
    CHECK(answers(&r, INTROSPECTION_NO_ROOT, INTROSPECTION_MAX_BYTES));
    end_reading(&r);
    tag = malloc(8192);
    if (tag == NULL)
        exit(2);
    n = (size_t)sprintf(tag, "<node");
    for (i = 0; i < 257; i++)
        n += (size_t)sprintf(tag + n, " a%u=\"\"", (unsigned)i);
    sprintf(tag + n, "/>");
    REFUSES(tag, INTROSPECTION_TOO_MANY_ATTRIBUTES, place_of(tag, "a256"));
    free(deep);
    free(spaces);
    free(tag);
}

/* Each table one short of what the document takes; then just enough. */
static void room(void)
{
    const char *d = "<node name=\"&lt;&gt;\"><x/><node/></node>";
    size_t n = strlen(d);
    struct reading r = read_with(d, n, 31, 4, 2);
    CHECK(answers(&r, INTROSPECTION_NO_ROOM, n) && refused_clean(&r));
    end_reading(&r);
    r = read_with(d, n, 32, 3, 2);
    CHECK(answers(&r, INTROSPECTION_NO_ROOM, n) && refused_clean(&r));
    end_reading(&r);
    r = read_with(d, n, 32, 4, 1);
    CHECK(answers(&r, INTROSPECTION_NO_ROOM, n) && refused_clean(&r));
    end_reading(&r);
    r = read_with(d, n, 32, 4, 2);
    CHECK(answers(&r, INTROSPECTION_ACCEPTED, 0));
    CHECK(r.answer[2] == 2 && r.answer[3] == 2 && r.answer[4] == 1);
    CHECK(same(r.text, 2, "<>") && r.warnings[0] == INTROSPECTION_REASON_UNSUPPORTED_ELEMENT);
    end_reading(&r);
    r = read_with(d, n, 32 + 15, 4 + 3, 9);
    CHECK(answers(&r, INTROSPECTION_ACCEPTED, 0) && rest_clean(&r));
    end_reading(&r);
}

/* ---- what the message of a refusal shows */

/* Whether the document is refused with this number and just these words from 5 on; the last four words are zero. */
static void refused_showing(const char *document, uint64_t number, const uint64_t shown[7], int line)
{
    struct reading r = read_all(document);
    check(r.answer[INTROSPECTION_ANSWER_NUMBER] == number && refused_clean(&r)
              && memcmp(r.answer + INTROSPECTION_ANSWER_FIRST, shown, 7 * sizeof(uint64_t)) == 0
              && all_zero(r.answer, 12 * sizeof(uint64_t), sizeof r.answer),
          document, line);
    end_reading(&r);
}

#define SHOWS(document, number, a, b, c, d, e, f, key)                                       \
    do {                                                                                     \
        const uint64_t shown[7] = {a, b, c, d, e, f, key};                                   \
        refused_showing(document, number, shown, __LINE__);                                  \
    } while (0)

static void refusals_shown(void)
{
    struct reading r = read_all("<node><x/></node>");
    CHECK(answers(&r, INTROSPECTION_ACCEPTED, 0) && all_zero(r.answer, 5 * sizeof(uint64_t), sizeof r.answer));
    end_reading(&r);
    SHOWS("<node", 4, 0, 0, 0, 0, 0, 0, 0);
    SHOWS("<a><node><node></node>", 5, 1, 4, 4, 0, 0, 0, 0);
    SHOWS("<a><node><node></node></x>", 6, 1, 24, 1, 1, 4, 4, 0);
    SHOWS("<a></b >", 6, 1, 5, 1, 1, 1, 1, 0);
    SHOWS("<a x='' y='' x=''/>", 8, 1, 13, 1, 0, 0, 0, 0);
    SHOWS("<a x='&q;'/>", 10, 1, 6, 3, 0, 0, 0, 0);
    SHOWS("<a x='&#0;'/>", 11, 1, 6, 4, 0, 0, 0, 0);
    SHOWS("<node><interface/></node>", 12, 1, 7, 9, 0, 0, 0, INTROSPECTION_KEY_NAME);
    SHOWS("<a><interface name='a.b'><property name='P' type='s' access=''", 4, 0, 0, 0, 0, 0, 0, 0);
    SHOWS("<a><interface name='a.b'><property name='P' type='s' access=''/>", 15, 1, 61, 0, 0, 0, 0, 0);
    SHOWS("<a><interface name='a.b'><property name='P' type='s'/>", 12, 1, 26, 8, 0, 0, 0, INTROSPECTION_KEY_ACCESS);
}

/* The message of a refusal, with room enough. */
static int says(const struct reading *r, const char *expected)
{
    uint8_t *out = lend(200);
    uint64_t a[3];
    introspection_message(r->document, r->document_length, r->answer, out, 200, a);
    int good = a[0] == 0 && a[1] == 0 && a[2] == strlen(expected) && same(out, a[2], expected) && all_zero(out, a[2], 200);
    free(out);
    return good;
}

/* ---- files in UTF-16 */

/* ASCII text in UTF-16, with a byte order mark: 2 bytes for each, and 2. */
static char *in_utf16(const char *ascii, int big)
{
    size_t n = strlen(ascii), i;
    char *p = malloc(2 * n + 2);
    if (p == NULL)
        exit(2);
    memcpy(p, big ? "\xfe\xff" : "\xff\xfe", 2);
    for (i = 0; i < n; i++) {
        p[2 + 2 * i + !!big] = ascii[i];
        p[2 + 2 * i + !big] = 0;
    }
    return p;
}

/* What was decoded is the document of everything that follows. */
static void hand_on(struct reading *r)
{
    uint8_t *file = r->document;
    r->document = r->decoded;
    r->document_length = r->answer[INTROSPECTION_ANSWER_DECODED];
    r->decoded = file;
    r->decoded_length = 0;
}

/* The hinge's file in both byte orders: the same words and text, places in what was decoded. */
static void the_hinge_in_utf16(void)
{
    size_t n = strlen(hinge);
    struct reading r = read_all(hinge), s;
    uint64_t a[3];
    uint8_t out[400];
    int big;
    for (big = 0; big < 2; big++) {
        char *file = in_utf16(hinge, big);
        s = read_file(file, 2 * n + 2, r.rows_length, r.warnings_length, r.text_length, n + 3);
        CHECK(memcmp(s.answer, r.answer, 12 * sizeof(uint64_t)) == 0);
        CHECK(s.answer[INTROSPECTION_ANSWER_DECODED] == n && rest_clean(&s));
        CHECK(memcmp(s.decoded, hinge, n) == 0);
        CHECK(memcmp(s.rows, r.rows, r.rows_length * 4) == 0);
        CHECK(memcmp(s.warnings, r.warnings, r.warnings_length * 4) == 0);
        CHECK(memcmp(s.text, r.text, r.text_length) == 0);
        hand_on(&s);
        CHECK(shows(&s, 0, INTROSPECTION_WORD_NAME, "/hinge"));
        CHECK(shows(&s, 4, INTROSPECTION_WORD_DOCSTRING, "Turns the hinge."));
        CHECK(shows(&s, 6, INTROSPECTION_WORD_VALUE, "turn <now>"));
        introspection_write(s.document, s.document_length, s.text, s.text_length, s.rows, s.rows_length, s.answer[2], 10, out,
                            sizeof out, a);
        CHECK(a[0] == 0 && same(out, (size_t)a[2], "<signal name=\"Moved\"><arg type=\"(dd)\"/></signal>"));
        introspection_warning_message(s.document, s.document_length, s.warnings, out, sizeof out, a);
        CHECK(a[0] == 0 && a[2] > 0 && strstr((const char *)out, "`<tp:enum>`") != NULL);
        end_reading(&s);
        free(file);
    }
    end_reading(&r);
}

/* A file that is refused, with so much room for what is decoded: number and place, how many bytes stand decoded, zeros. */
static void refuses_file(const char *file, size_t length, size_t decoded, uint64_t number, uint64_t place, uint64_t stands,
                         int line)
{
    struct reading r = read_file(file, length, 16, 4, 8, decoded);
    check(answers(&r, number, place), "number and place of a file", line);
    check(r.answer[INTROSPECTION_ANSWER_DECODED] == stands && refused_clean(&r), "what stands of a file", line);
    end_reading(&r);
}

#define REFUSES_FILE(file, decoded, number, place, stands) \
    refuses_file((file), sizeof(file) - 1, (decoded), (number), (place), (stands), __LINE__)

/* Each refusal in its order, with zeros; later ones leave what was decoded. */
static void files_refused(void)
{
    char *units;
    size_t i, most = 349525; /* so many units of three bytes, and one of one, are 1,048,576 bytes */
    REFUSES_FILE("\xfe", 9, INTROSPECTION_NOT_UTF8, 0, 0);
    REFUSES_FILE("\xff", 9, INTROSPECTION_NOT_UTF8, 0, 0);
    REFUSES_FILE("\xfe\xff", 0, INTROSPECTION_NO_ROOT, 0, 0);
    REFUSES_FILE("\xff\xfe\0\0", 9, INTROSPECTION_NO_ROOT, 1, 1);
    REFUSES_FILE("\xfe\xff\xfe\xff", 9, INTROSPECTION_NO_ROOT, 3, 3);
    REFUSES_FILE("\xfe\xff\xd8\0<", 9, INTROSPECTION_ODD_BYTES, 5, 0);
    REFUSES_FILE("\xfe\xff\0<\xd8\0", 9, INTROSPECTION_LONE_SURROGATE, 4, 0);
    REFUSES_FILE("\xff\xfe\0\xdc", 9, INTROSPECTION_LONE_SURROGATE, 2, 0);
    REFUSES_FILE("\xfe\xff\xd8\0\xd8\0\xdc\0", 0, INTROSPECTION_LONE_SURROGATE, 2, 0);
    REFUSES_FILE("\xff\xfe<\0x\0/\0>\0", 3, INTROSPECTION_NO_ROOM, 10, 0);
    REFUSES_FILE("\xff\xfe<\0x\0>\0", 9, INTROSPECTION_UNCLOSED_ELEMENT, 3, 3);
    REFUSES_FILE("\xfe\xff\0<\0x\0>\0<\0x\0/\0>", 7, INTROSPECTION_UNCLOSED_ELEMENT, 7, 7);
    REFUSES_FILE("\xfe\xff\0<\0a\0>\0<\0n\0o\0d\0e\0/\0>\0<\0/\0a\0>", 14, INTROSPECTION_NO_ROOM, 14, 14);
    /* the raw bytes over the limit, then the decoded bytes: 2 before 18 */
    units = malloc(INTROSPECTION_MAX_BYTES + 2);
    if (units == NULL)
        exit(2);
    for (i = 0; i < INTROSPECTION_MAX_BYTES + 2; i += 2)
        memcpy(units + i, "\x08\0", 2);
    memcpy(units, "\xfe\xff", 2);
    refuses_file(units, INTROSPECTION_MAX_BYTES + 1, 9, INTROSPECTION_TOO_LONG, INTROSPECTION_MAX_BYTES, 0, __LINE__);
    refuses_file(units, 2 + 2 * (most + 1), 0, INTROSPECTION_TOO_LONG, INTROSPECTION_MAX_BYTES, 0, __LINE__);
    memcpy(units + 2, "\0 ", 2);
    refuses_file(units, 2 + 2 * (most + 1), 9, INTROSPECTION_NO_ROOM, 2 + 2 * (most + 1), 0, __LINE__);
    refuses_file(units, 2 + 2 * (most + 1), INTROSPECTION_MAX_BYTES, INTROSPECTION_NO_ROOT, INTROSPECTION_MAX_BYTES,
                 INTROSPECTION_MAX_BYTES, __LINE__);
    free(units);
}

/* The message of a refusal shows what was decoded. */
static void files_told(void)
{
    struct reading r = read_file("\xff\xfe<\0a\0>\0<\0/\0\xe9\0>\0", 16, 16, 4, 8, 8);
    CHECK(answers(&r, INTROSPECTION_CROSSED_CLOSE, 8) && r.answer[INTROSPECTION_ANSWER_DECODED] == 8 && refused_clean(&r));
    hand_on(&r);
    CHECK(says(&r, "unexpected `</\xc3\xa9>` while parsing `<a>`"));
    end_reading(&r);
    r = read_file("\xff\xfe<", 3, 16, 4, 8, 8);
    CHECK(says(&r, "odd number of bytes"));
    end_reading(&r);
    r = read_file("\xff\xfe\0\xdc", 4, 16, 4, 8, 8);
    CHECK(says(&r, "lone surrogate"));
    end_reading(&r);
}

/* ---- the strict profile */

/* A document by the strict entry; 0 for accepted, and then with the words, warnings and text of the ordinary one. */
static void strictly(const char *document, size_t length, uint64_t number, uint64_t place, int line)
{
    struct reading r = read_by(introspection_read_strict, document, length, 160, 40, 64, 64);
    struct reading s = read_file(document, length, 160, 40, 64, 64);
    check(answers(&r, number, place), "number and place by the strict entry", line);
    if (number != 0 && number != INTROSPECTION_PROFILE_BREACH) {
        check(memcmp(r.answer, s.answer, sizeof r.answer) == 0 && refused_clean(&r), "refused alike", line);
    } else if (number != 0) {
        check(s.answer[0] == 0 && refused_clean(&r) && says(&r, "profile breach"), "a breach", line);
        check(r.answer[12] == s.answer[12] && memcmp(r.decoded, s.decoded, 64) == 0, "what was decoded stands", line);
    } else {
        check(memcmp(r.answer, s.answer, sizeof r.answer) == 0 && memcmp(r.rows, s.rows, 640) == 0
                  && memcmp(r.warnings, s.warnings, 160) == 0 && memcmp(r.text, s.text, 64) == 0
                  && memcmp(r.decoded, s.decoded, 64) == 0,
              "accepted alike", line);
    }
    end_reading(&r);
    end_reading(&s);
}

#define STRICTLY(document, number, place) strictly((document), sizeof(document) - 1, (number), (place), __LINE__)

/* Each rule, and the order. */
static void the_strict_profile(void)
{
    struct reading r;
    STRICTLY("<node/>", 0, 0);
    STRICTLY("<node name='&lt;&#x41;'><interface name='a.b'/><x/></node> <!--a--><?b?>\n", 0, 0);
    STRICTLY("junk<!x [<!-- -- -->]><node>&#X41; & ]]></node>", 0, 0);
    STRICTLY("<node a='1<2'/>", INTROSPECTION_PROFILE_BREACH, 10);
    STRICTLY("<node><docstring><b c='&#X41;'/></docstring></node>", INTROSPECTION_PROFILE_BREACH, 23);
    STRICTLY("<!--a---><node/>", INTROSPECTION_PROFILE_BREACH, 5);
    STRICTLY("<node><x><!-- -- --></x></node>", INTROSPECTION_PROFILE_BREACH, 14);
    STRICTLY("<node/><!-- -- -->", INTROSPECTION_PROFILE_BREACH, 12);
    STRICTLY("<node><a\"b/></node>", INTROSPECTION_PROFILE_BREACH, 8);
    STRICTLY("<node \xc2\xb7='1'/>", INTROSPECTION_PROFILE_BREACH, 6);
    STRICTLY("<node>\xef\xbf\xbe</node>", INTROSPECTION_PROFILE_BREACH, 6);
    STRICTLY("<node\fa='1'/>", INTROSPECTION_PROFILE_BREACH, 5);
    STRICTLY("<x/>", INTROSPECTION_PROFILE_BREACH, 1);
    STRICTLY("<node/><!-->", INTROSPECTION_PROFILE_BREACH, 7);
    STRICTLY("<node><!--\1--></node>x", INTROSPECTION_PROFILE_BREACH, 10);
    STRICTLY("<x></y>", INTROSPECTION_CROSSED_CLOSE, 7);
    STRICTLY("\xff\xfe<\0x\0/\0>\0", INTROSPECTION_PROFILE_BREACH, 1);
    STRICTLY("\xfe\xff\0<\0n\0o\0d\0e\0/\0>", 0, 0);
    STRICTLY("\xfe\xff\xd8\0", INTROSPECTION_LONE_SURROGATE, 2);
    r = read_by(introspection_read_strict, "<x/>", 4, 15, 0, 0, 0); /* 18 comes first */
    CHECK(answers(&r, INTROSPECTION_NO_ROOM, 4) && refused_clean(&r));
    end_reading(&r);
}

/* ---- null pointers with length 0, in every place that has a buffer */

static void nothing_lent(void)
{
    uint64_t a[INTROSPECTION_ANSWER_WORDS], b[3] = {9, 9, 9}, c[4] = {9, 9, 9, 9};
    const uint8_t *document = (const uint8_t *)"<node/>";
    uint8_t out[2] = {7, 7};
    memset(a, 9, sizeof a);
    introspection_read(NULL, 0, NULL, 0, NULL, 0, NULL, 0, NULL, 0, a);
    CHECK(a[0] == INTROSPECTION_NO_ROOT && all_zero(a, 8, sizeof a));
    introspection_read(document, 7, NULL, 0, NULL, 0, NULL, 0, NULL, 0, a);
    CHECK(a[0] == INTROSPECTION_NO_ROOM && a[1] == 7);
    introspection_read((const uint8_t *)"\xfe\xff", 2, NULL, 0, NULL, 0, NULL, 0, NULL, 0, a);
    CHECK(a[0] == INTROSPECTION_NO_ROOT && all_zero(a, 8, sizeof a));
    introspection_read_strict(NULL, 0, NULL, 0, NULL, 0, NULL, 0, NULL, 0, a);
    CHECK(a[0] == INTROSPECTION_NO_ROOT && all_zero(a, 8, sizeof a));
    introspection_escape(NULL, 0, NULL, 0, b);
    CHECK(b[0] == 0 && b[1] == 0 && b[2] == 0);
    introspection_escape(NULL, 0, out, 2, b);
    CHECK(b[0] == 0 && b[2] == 0 && all_zero(out, 0, 2));
    introspection_escape(document, 7, NULL, 0, b);
    CHECK(b[0] == INTROSPECTION_OUTPUT_SHORT && b[1] == 13 && b[2] == 0);
    introspection_unescape(NULL, 0, NULL, 0, b);
    CHECK(b[0] == 0 && b[1] == 0 && b[2] == 0);
    introspection_unescape(document, 7, NULL, 0, b);
    CHECK(b[0] == INTROSPECTION_NO_ROOM && b[1] == 7);
    introspection_lookup(NULL, 0, NULL, 0, 1, 0, 0, c);
    CHECK(c[0] == 1 && c[1] == 1 && c[2] == 0 && c[3] == 0);
    introspection_lookup(NULL, 0, NULL, 0, 2, 0, 1, c);
    CHECK(c[0] == 0 && c[1] == 1 && c[2] == 0 && c[3] == 0);
    introspection_write(NULL, 0, NULL, 0, NULL, 0, 0, 0, NULL, 0, b);
    CHECK(b[0] == INTROSPECTION_NOT_WRITABLE && b[1] == 0 && b[2] == 0);
    introspection_write(NULL, 0, NULL, 0, NULL, 0, 1, 0, NULL, 0, b);
    CHECK(b[0] == INTROSPECTION_UNSOUND_ROWS && b[1] == 0 && b[2] == 0);
    introspection_write_tree(NULL, 0, NULL, 0, NULL, 0, 0, 0, NULL, 0, b);
    CHECK(b[0] == INTROSPECTION_NOT_WRITABLE && b[1] == 0 && b[2] == 0);
    introspection_write_tree(NULL, 0, NULL, 0, NULL, 0, 1, 0, NULL, 0, b);
    CHECK(b[0] == INTROSPECTION_UNSOUND_ROWS && b[1] == 0 && b[2] == 0);
}

/* ---- escaping */

typedef void (*converts)(const uint8_t *, size_t, uint8_t *, size_t, uint64_t *);

/* The answer, and in the output the expected bytes and zeros; zeros alone after a refusal. */
static void convert(converts f, const char *value, size_t room, uint64_t number, uint64_t place, const char *expected,
                    int line)
{
    size_t n = strlen(value), m = strlen(expected);
    uint8_t *v = copy_of(value, n), *out = lend(room);
    uint64_t a[3] = {9, 9, 9};
    f(v, n, out, room, a);
    check(a[0] == number && a[1] == place && a[2] == m, value, line);
    check(m <= room && same(out, m, expected) && all_zero(out, m, room), value, line);
    free(v);
    free(out);
}

#define ESCAPES(value, room, number, place, expected) \
    convert(introspection_escape, (value), (room), (number), (place), (expected), __LINE__)
#define UNESCAPES(value, room, number, place, expected) \
    convert(introspection_unescape, (value), (room), (number), (place), (expected), __LINE__)

static void values(void)
{
    char *spaces = repeated(" ", INTROSPECTION_MAX_BYTES + 1);
    ESCAPES("plain", 8, 0, 0, "plain");
    ESCAPES("a<b & \"c'>\t\n\r", 64, 0, 0, "a&lt;b &amp; &quot;c&apos;&gt;&#9;&#10;&#13;");
    ESCAPES("<<", 8, 0, 0, "&lt;&lt;");
    ESCAPES("<<", 7, INTROSPECTION_OUTPUT_SHORT, 8, "");
    ESCAPES("ab\xc3(", 9, INTROSPECTION_NOT_UTF8, 2, "");
    ESCAPES(spaces, 4, INTROSPECTION_TOO_LONG, INTROSPECTION_MAX_BYTES, "");
    UNESCAPES("a&lt;b &amp; &quot;c&apos;&gt;&#9;&#x0A;", 64, 0, 0, "a<b & \"c'>\t\n");
    UNESCAPES("a\r\nb\tc\xe2\x82\xac", 10, 0, 0, "a b c\xe2\x82\xac");
    UNESCAPES("a&b", 9, INTROSPECTION_UNTERMINATED_REFERENCE, 1, "");
    UNESCAPES("ab&b;", 9, INTROSPECTION_UNKNOWN_ENTITY, 2, "");
    UNESCAPES("&#xd800;", 9, INTROSPECTION_BAD_CHARACTER_REFERENCE, 0, "");
    UNESCAPES("abc", 2, INTROSPECTION_NO_ROOM, 3, "");
    UNESCAPES("\x80", 2, INTROSPECTION_NOT_UTF8, 0, "");
    UNESCAPES(spaces, 4, INTROSPECTION_TOO_LONG, INTROSPECTION_MAX_BYTES, "");
    free(spaces);
}

/* ---- looking up */

static void look(uint32_t source, uint32_t start, uint32_t length, int yes, int line)
{
    uint8_t *document = copy_of("0123456789", 10), *text = copy_of("abc", 3);
    uint64_t a[4] = {9, 9, 9, 9};
    introspection_lookup(document, 10, text, 3, source, start, length, a);
    if (yes)
        check(a[0] == 1 && a[1] == source && a[2] == start && a[3] == length, "part", line);
    else
        check(a[0] == 0 && a[1] == 1 && a[2] == 0 && a[3] == 0, "no part", line);
    free(document);
    free(text);
}

static void parts(void)
{
    look(1, 2, 8, 1, __LINE__);
    look(1, 2, 9, 0, __LINE__);
    look(1, 10, 0, 1, __LINE__);
    look(1, 11, 0, 0, __LINE__);
    look(2, 0, 3, 1, __LINE__);
    look(2, 1, 3, 0, __LINE__);
    look(0, 0, 0, 0, __LINE__);
    look(3, 0, 0, 0, __LINE__);
    look(1, 0xffffffff, 0xffffffff, 0, __LINE__);
    look(2, 0xffffffff, 1, 0, __LINE__);
}

/* ---- writing */

typedef void writes(const uint8_t *, size_t, const uint8_t *, size_t, const uint32_t *, size_t, uint64_t, uint64_t, uint8_t *,
                    size_t, uint64_t *);

static void write_row(writes *f, const struct reading *r, uint64_t claimed, uint64_t row, size_t room, uint64_t number,
                      uint64_t place, const char *expected, int line)
{
    size_t m = strlen(expected);
    uint8_t *out = lend(room);
    uint64_t a[3] = {9, 9, 9};
    f(r->document, r->document_length, r->text, r->text_length, r->rows, r->rows_length, claimed, row, out, room, a);
    check(a[0] == number && a[1] == place && a[2] == m, "number, place and bytes written", line);
    check(m <= room && same(out, m, expected) && all_zero(out, m, room), "output", line);
    free(out);
}

#define WRITES(claimed, row, room, number, place, expected) \
    write_row(introspection_write, &r, (claimed), (row), (room), (number), (place), (expected), __LINE__)

#define WRITTEN_METHOD \
    "<method name=\"SetAngle\"><arg name=\"degrees\" type=\"d\" direction=\"in\"/>" \
    "<arg type=\"a{sv}\" direction=\"out\"><annotation name=\"org.example.Note\" value=\"\"/></arg>" \
    "<annotation name=\"org.example.Label\" value=\"turn &lt;now&gt;\"/></method>"

static void writing(void)
{
    struct reading r = read_all(hinge);
    const size_t whole = strlen(WRITTEN_METHOD);
    WRITES(12, 4, whole, 0, 0, WRITTEN_METHOD);
    WRITES(12, 4, whole + 9, 0, 0, WRITTEN_METHOD);
    WRITES(12, 4, whole - 1, INTROSPECTION_OUTPUT_SHORT, whole, "");
    WRITES(12, 4, 0, INTROSPECTION_OUTPUT_SHORT, whole, "");
    WRITES(12, 5, 99, 0, 0, "<arg name=\"degrees\" type=\"d\" direction=\"in\"/>");
    WRITES(12, 6, 99, 0, 0, "<annotation name=\"org.example.Label\" value=\"turn &lt;now&gt;\"/>");
    WRITES(12, 10, 99, 0, 0, "<signal name=\"Moved\"><arg type=\"(dd)\"/></signal>");
    WRITES(12, 3, 99, INTROSPECTION_NOT_WRITABLE, 3, "");
    WRITES(12, 12, 99, INTROSPECTION_NOT_WRITABLE, 12, "");
    WRITES(12, UINT64_MAX, 99, INTROSPECTION_NOT_WRITABLE, UINT64_MAX, "");
    WRITES(INTROSPECTION_MAX_ROWS + 1, 4, 99, INTROSPECTION_UNSOUND_ROWS, INTROSPECTION_MAX_ROWS, "");
    WRITES(UINT64_MAX, 4, 99, INTROSPECTION_UNSOUND_ROWS, INTROSPECTION_MAX_ROWS, "");
    WRITES(r.rows_length / 16 + 1, 4, 99, INTROSPECTION_UNSOUND_ROWS, r.rows_length / 16, "");
    WRITES(13, 4, 99, INTROSPECTION_UNSOUND_ROWS, 12, "");
    r.rows[6 * INTROSPECTION_ROW_WORDS + INTROSPECTION_WORD_POSITION] = (uint32_t)r.document_length - 1;
    WRITES(12, 4, whole, 0, 0, WRITTEN_METHOD);
    r.rows[6 * INTROSPECTION_ROW_WORDS + INTROSPECTION_WORD_POSITION] = (uint32_t)r.document_length;
    WRITES(12, 4, whole, INTROSPECTION_UNSOUND_ROWS, 6, "");
    r.rows[5 * INTROSPECTION_ROW_WORDS + INTROSPECTION_WORD_PARENT] = 6;
    WRITES(12, 4, 99, INTROSPECTION_UNSOUND_ROWS, 5, "");
    end_reading(&r);
}

static void writing_too_long(writes *f)
{
    char *spaces = repeated(" ", INTROSPECTION_MAX_BYTES + 1);
    uint64_t a[3] = {9, 9, 9};
    uint8_t out[3] = {7, 7, 7};
    f((uint8_t *)spaces, INTROSPECTION_MAX_BYTES + 1, NULL, 0, NULL, 0, 0, 0, out, 3, a);
    CHECK(a[0] == INTROSPECTION_TOO_LONG && a[1] == INTROSPECTION_MAX_BYTES && a[2] == 0 && all_zero(out, 0, 3));
    a[0] = 9;
    out[0] = 7;
    f(NULL, 0, (uint8_t *)spaces, INTROSPECTION_MAX_BYTES + 1, NULL, 0, 0, 0, out, 3, a);
    CHECK(a[0] == INTROSPECTION_TOO_LONG && a[1] == INTROSPECTION_MAX_BYTES && a[2] == 0 && all_zero(out, 0, 3));
    free(spaces);
}

/* ---- trees */

#define SIMPLE(name) "<tp:simple-type name=\"" name "\" type=\"u\"/>"
#define STRUCT(name, tp) "<tp:struct name=\"" name "\"><tp:member name=\"m\" type=\"u\" tp:type=\"" tp "\"/></tp:struct>"

#define WRITES_TREE(claimed, row, room, number, place, expected) \
    write_row(introspection_write_tree, &r, (claimed), (row), (room), (number), (place), (expected), __LINE__)

#define TREE_OF_METHOD \
    "<method name=\"SetAngle\"><tp:docstring>Turns the hinge.</tp:docstring>" \
    "<arg name=\"degrees\" type=\"d\" tp:type=\"Angle\" direction=\"in\"/>" \
    "<arg type=\"a{sv}\" direction=\"out\"><annotation name=\"org.example.Note\" value=\"\"/></arg>" \
    "<annotation name=\"org.example.Label\" value=\"turn &lt;now&gt;\"/></method>"
#define TREE_OF_STRUCT "<tp:struct name=\"Range\"><tp:member name=\"Low\" type=\"d\"/></tp:struct>"
#define TREE_OF_INTERFACE \
    "<interface name=\"org.example.Hinge\">" TREE_OF_METHOD "<property name=\"State\" type=\"u\" access=\"read\"/>" \
    "<signal name=\"Moved\"><arg type=\"(dd)\"/></signal></interface>"
#define TREE_OF_HINGE "<node name=\"/hinge\">" TREE_OF_STRUCT TREE_OF_INTERFACE "</node>"

static void writing_trees(void)
{
    struct reading r = read_all(hinge);
    const size_t whole = strlen(TREE_OF_HINGE);
    uint32_t *docstring = r.rows + INTROSPECTION_WORD_DOCSTRING;
    WRITES_TREE(12, 0, whole, 0, 0, TREE_OF_HINGE);
    WRITES_TREE(12, 0, whole + 9, 0, 0, TREE_OF_HINGE);
    WRITES_TREE(12, 0, whole - 1, INTROSPECTION_OUTPUT_SHORT, whole, "");
    WRITES_TREE(12, 0, 0, INTROSPECTION_OUTPUT_SHORT, whole, "");
    WRITES_TREE(12, 1, 99, 0, 0, TREE_OF_STRUCT);
    WRITES_TREE(12, 2, 99, INTROSPECTION_NOT_WRITABLE, 2, "");
    WRITES_TREE(12, 3, whole, 0, 0, TREE_OF_INTERFACE);
    WRITES_TREE(12, 4, whole, 0, 0, TREE_OF_METHOD);
    WRITES_TREE(12, 5, 99, 0, 0, "<arg name=\"degrees\" type=\"d\" tp:type=\"Angle\" direction=\"in\"/>");
    WRITES_TREE(12, 6, 99, 0, 0, "<annotation name=\"org.example.Label\" value=\"turn &lt;now&gt;\"/>");
    WRITES_TREE(12, 9, 99, 0, 0, "<property name=\"State\" type=\"u\" access=\"read\"/>");
    WRITES_TREE(12, 12, 99, INTROSPECTION_NOT_WRITABLE, 12, "");
    WRITES_TREE(12, UINT64_MAX, 99, INTROSPECTION_NOT_WRITABLE, UINT64_MAX, "");
    WRITES_TREE(13, 0, 99, INTROSPECTION_UNSOUND_ROWS, 12, "");
    WRITES_TREE(UINT64_MAX, 0, 99, INTROSPECTION_UNSOUND_ROWS, INTROSPECTION_MAX_ROWS, "");
    /* a docstring that the caller puts in is written as it is: this one is empty, and then the whole struct */
    docstring[0] = INTROSPECTION_SOURCE_DOCUMENT;
    WRITES_TREE(1, 0, 99, 0, 0, "<node name=\"/hinge\"/>");
    docstring[1] = (uint32_t)place_of(hinge, "<tp:struct ");
    docstring[2] = (uint32_t)strlen(TREE_OF_STRUCT);
    WRITES_TREE(1, 0, 200, 0, 0, "<node name=\"/hinge\"><tp:docstring>" TREE_OF_STRUCT "</tp:docstring></node>");
    end_reading(&r);
    /* annotations after members, types before, nodes last */
    r = read_all("<a>" "<node/>" "<interface name=\"a.b\"><annotation name=\"n\" value=\"\"/><signal name=\"S\"/><method name=\"M\"/>"
                 SIMPLE("T") "</interface>" STRUCT("A", "T") "</a>");
    CHECK(answers(&r, INTROSPECTION_ACCEPTED, 0) && r.answer[INTROSPECTION_ANSWER_ROWS] == 9);
    WRITES_TREE(9, 0, 400, 0, 0, "<node>" STRUCT("A", "T") "<interface name=\"a.b\">" SIMPLE("T")
                "<signal name=\"S\"/><method name=\"M\"/><annotation name=\"n\" value=\"\"/></interface><node/></node>");
    end_reading(&r);
}

/* What is written of row 0 is read back, and written again as the same bytes. */
static void reads_back(const char *document, int line)
{
    struct reading r = read_all(document), s;
    uint64_t a[3];
    uint8_t *out, *again;
    size_t n;
    introspection_write_tree(r.document, r.document_length, r.text, r.text_length, r.rows, r.rows_length, r.answer[2], 0, NULL, 0, a);
    check(a[0] == INTROSPECTION_OUTPUT_SHORT, "bytes needed", line);
    n = (size_t)a[1];
    out = lend(n);
    introspection_write_tree(r.document, r.document_length, r.text, r.text_length, r.rows, r.rows_length, r.answer[2], 0, out, n, a);
    check(a[0] == 0 && a[2] == n, "written", line);
    s = read_with((const char *)out, n, n / 4 * INTROSPECTION_ROW_WORDS, n / 4 * INTROSPECTION_WARNING_WORDS, n);
    check(answers(&s, INTROSPECTION_ACCEPTED, 0) && s.answer[2] == r.answer[2] && s.answer[4] == 0, "read back", line);
    again = lend(n);
    introspection_write_tree(s.document, s.document_length, s.text, s.text_length, s.rows, s.rows_length, s.answer[2], 0, again, n, a);
    check(a[0] == 0 && a[2] == n && memcmp(out, again, n) == 0, "the same bytes again", line);
    free(out);
    free(again);
    end_reading(&r);
    end_reading(&s);
}

static void trees_read_back(void)
{
    reads_back(hinge, __LINE__);
    reads_back("<x/>", __LINE__);
    reads_back("<node name='&#9;&amp;\"'><tp:docstring>a<!-- </tp:docstring> --><b/></tp:docstring></node>", __LINE__);
}

/* So many nodes one in the other, and one more row in the innermost. */
static uint32_t *chain_of(size_t nodes, uint32_t kind)
{
    uint32_t *rows = calloc((nodes + 1) * INTROSPECTION_ROW_WORDS, 4);
    size_t i;
    if (rows == NULL)
        exit(2);
    for (i = 0; i <= nodes; i++) {
        uint32_t *row = rows + i * INTROSPECTION_ROW_WORDS;
        row[INTROSPECTION_WORD_KIND] = i < nodes ? INTROSPECTION_KIND_NODE : kind;
        row[INTROSPECTION_WORD_PARENT] = (uint32_t)i;
    }
    rows[nodes * INTROSPECTION_ROW_WORDS + INTROSPECTION_WORD_NAME] = INTROSPECTION_SOURCE_DOCUMENT;
    rows[nodes * INTROSPECTION_ROW_WORDS + INTROSPECTION_WORD_NAME + 2] = 3;
    return rows;
}

/* The tree of a row of a chain, in which the innermost nodes are row nodes - 1 and, of kind 1, row nodes. */
static void deep_tree(size_t nodes, uint32_t kind, uint64_t row, uint64_t number, uint64_t place, int line)
{
    uint32_t *rows = chain_of(nodes, kind);
    uint64_t a[3];
    introspection_write_tree((const uint8_t *)"a.b", 3, NULL, 0, rows, (nodes + 1) * INTROSPECTION_ROW_WORDS, nodes + 1, row, NULL, 0, a);
    check(a[0] == number && a[1] == place, "number and place of a deep tree", line);
    free(rows);
}

static void deep_trees(void)
{
    const size_t open = strlen("<node></node>"), last = strlen("<node name=\"a.b\"/>"), interface = strlen("<interface name=\"a.b\"/>");
    /* 1,024 are open, and a node in them is closed at once; an interface is no node */
    deep_tree(1024, INTROSPECTION_KIND_NODE, 0, INTROSPECTION_OUTPUT_SHORT, 1024 * open + last, __LINE__);
    deep_tree(1024, INTROSPECTION_KIND_INTERFACE, 0, INTROSPECTION_OUTPUT_SHORT, 1024 * open + interface, __LINE__);
    /* 1,025 would be, the last in row 1,024; from row 1 on they are 1,024; from row 1,025 on there is one */
    deep_tree(1025, INTROSPECTION_KIND_NODE, 0, INTROSPECTION_TOO_DEEP, 1024, __LINE__);
    deep_tree(1025, INTROSPECTION_KIND_INTERFACE, 0, INTROSPECTION_TOO_DEEP, 1024, __LINE__);
    deep_tree(1025, INTROSPECTION_KIND_NODE, 1, INTROSPECTION_OUTPUT_SHORT, 1024 * open + last, __LINE__);
    deep_tree(1026, INTROSPECTION_KIND_NODE, 1, INTROSPECTION_TOO_DEEP, 1025, __LINE__);
    deep_tree(1025, INTROSPECTION_KIND_NODE, 1025, INTROSPECTION_OUTPUT_SHORT, last, __LINE__);
}

/* ---- several items */

static void write_rows(const struct reading *r, uint64_t claimed, const uint32_t *items, size_t count, size_t room,
                       size_t slots, uint64_t number, uint64_t place, const char *expected, const uint32_t *expected_ends,
                       int line)
{
    size_t m = strlen(expected), k;
    uint8_t *out = lend(room);
    uint32_t *ends = lend(slots * sizeof(uint32_t));
    uint64_t a[3] = {9, 9, 9};
    introspection_write_items(r->document, r->document_length, r->text, r->text_length, r->rows, r->rows_length, claimed,
                              items, count, out, room, ends, slots, a);
    check(a[0] == number && a[1] == place && a[2] == m, "number, place and bytes written", line);
    check(m <= room && same(out, m, expected) && all_zero(out, m, room), "output", line);
    for (k = 0; k < slots; k++)
        check(ends[k] == (number == 0 && k < count ? expected_ends[k] : 0), "ends", line);
    free(out);
    free(ends);
}

#define WRITES_ALL(claimed, count, room, slots, number, place, expected) \
    write_rows(&r, (claimed), items, (count), (room), (slots), (number), (place), (expected), ends, __LINE__)

#define WRITTEN_SIGNAL "<signal name=\"Moved\"><arg type=\"(dd)\"/></signal>"
#define WRITTEN_ARG "<arg name=\"degrees\" type=\"d\" direction=\"in\"/>"

static void writing_several(void)
{
    struct reading r = read_all(hinge);
    const size_t method = strlen(WRITTEN_METHOD), signal = strlen(WRITTEN_SIGNAL), arg = strlen(WRITTEN_ARG);
    const size_t whole = 2 * method + signal + arg;
    uint32_t items[4] = {10, 4, 5, 4};
    uint32_t ends[4];
    ends[0] = (uint32_t)signal;
    ends[1] = (uint32_t)(signal + method);
    ends[2] = (uint32_t)(signal + method + arg);
    ends[3] = (uint32_t)whole;
    WRITES_ALL(12, 4, whole, 4, 0, 0, WRITTEN_SIGNAL WRITTEN_METHOD WRITTEN_ARG WRITTEN_METHOD);
    WRITES_ALL(12, 4, whole + 7, 6, 0, 0, WRITTEN_SIGNAL WRITTEN_METHOD WRITTEN_ARG WRITTEN_METHOD);
    WRITES_ALL(12, 0, 3, 2, 0, 0, "");
    WRITES_ALL(12, 4, whole - 1, 4, INTROSPECTION_OUTPUT_SHORT, whole, "");
    WRITES_ALL(12, 4, 0, 4, INTROSPECTION_OUTPUT_SHORT, whole, "");
    WRITES_ALL(12, 4, 0, 3, INTROSPECTION_NO_ROOM, 4, "");
    items[2] = 3;
    WRITES_ALL(12, 4, 0, 3, INTROSPECTION_NOT_WRITABLE, 3, "");
    items[0] = 0xffffffff;
    WRITES_ALL(12, 4, whole, 4, INTROSPECTION_NOT_WRITABLE, 0xffffffff, "");
    WRITES_ALL(13, 4, 99, 4, INTROSPECTION_UNSOUND_ROWS, 12, "");
    WRITES_ALL(UINT64_MAX, 4, 99, 4, INTROSPECTION_UNSOUND_ROWS, INTROSPECTION_MAX_ROWS, "");
    end_reading(&r);
}

/* Rows in another order: an arg of the method after the signal. */
static void writing_several_in_any_order(void)
{
    struct reading r = read_all("<node><interface name=\"a.b\"><method name=\"M\"><arg type=\"s\"/></method>"
                                "<signal name=\"S\"/></interface></node>");
    uint32_t items[2] = {2, 3}, ends[2] = {41, 59}, arg[16];
    memcpy(arg, r.rows + 3 * 16, sizeof arg);
    memcpy(r.rows + 3 * 16, r.rows + 4 * 16, sizeof arg);
    memcpy(r.rows + 4 * 16, arg, sizeof arg);
    WRITES_ALL(5, 2, 80, 2, 0, 0, "<method name=\"M\"><arg type=\"s\"/></method><signal name=\"S\"/>");
    end_reading(&r);
}

/* ---- columns */

typedef void turn(const uint32_t *, size_t, uint64_t, uint32_t *, size_t, uint64_t *);

/* So many words of a source, lent with so much room. */
struct turning {
    uint32_t *source, *made;
    size_t source_length, made_length;
    uint64_t answer[2];
};

static struct turning turn_with(turn *f, const uint32_t *words, size_t length, uint64_t count, size_t room)
{
    struct turning t;
    t.source = lend(length * 4);
    if (length != 0)
        memcpy(t.source, words, length * 4);
    t.source_length = length;
    t.made = lend(room * 4);
    t.made_length = room;
    memset(t.answer, 0xa5, sizeof t.answer);
    f(t.source, length, count, t.made, room, t.answer);
    return t;
}

static void end_turning(struct turning *t)
{
    free(t->source);
    free(t->made);
}

/* Three rows: words 0 and 1 go up, down and past the ends of a word. */
static const uint32_t three_rows[48] = {10, 20, 7, [16] = 12, 19, 7, [32] = 15, 0xffffffff, 7};
static const uint32_t three_columns[48] = {10, 2, 3, 20, 0xffffffff, 0xffffffec, 7};

static void columns_and_back(void)
{
    struct turning t = turn_with(introspection_columns, three_rows, 48, 3, 50), u;
    CHECK(t.answer[0] == INTROSPECTION_ACCEPTED && t.answer[1] == 0);
    CHECK(memcmp(t.made, three_columns, sizeof three_columns) == 0 && t.made[48] == 0 && t.made[49] == 0);
    u = turn_with(introspection_rows, t.made, 50, 3, 49);
    CHECK(u.answer[0] == INTROSPECTION_ACCEPTED && u.answer[1] == 0);
    CHECK(memcmp(u.made, three_rows, sizeof three_rows) == 0 && u.made[48] == 0);
    end_turning(&t);
    end_turning(&u);
    /* and the other way round */
    t = turn_with(introspection_rows, three_rows, 48, 3, 48);
    u = turn_with(introspection_columns, t.made, 48, 3, 48);
    CHECK(t.answer[0] == INTROSPECTION_ACCEPTED && u.answer[0] == INTROSPECTION_ACCEPTED);
    CHECK(memcmp(u.made, three_rows, sizeof three_rows) == 0);
    end_turning(&t);
    end_turning(&u);
}

/* Refused, with a source and a room of so many words, which are zeros then. */
static void not_turned(turn *f, size_t length, uint64_t count, size_t room, uint64_t number, uint64_t place, int line)
{
    struct turning t = turn_with(f, three_rows, length, count, room);
    check(t.answer[0] == number && t.answer[1] == place, "number and place", line);
    check(all_zero(t.made, 0, room * 4), "zeros after a refusal", line);
    end_turning(&t);
}

static void columns_refused(turn *f)
{
    struct turning t;
    not_turned(f, 47, 3, 48, INTROSPECTION_NO_ROOM, 3, __LINE__);
    not_turned(f, 48, 3, 47, INTROSPECTION_NO_ROOM, 3, __LINE__);
    not_turned(f, 0, 1, 0, INTROSPECTION_NO_ROOM, 1, __LINE__);
    not_turned(f, 48, INTROSPECTION_MAX_ROWS, 48, INTROSPECTION_NO_ROOM, INTROSPECTION_MAX_ROWS, __LINE__);
    not_turned(f, 48, INTROSPECTION_MAX_ROWS + 1, 48, INTROSPECTION_TOO_MANY_ROWS, INTROSPECTION_MAX_ROWS, __LINE__);
    not_turned(f, 0, UINT64_MAX, 0, INTROSPECTION_TOO_MANY_ROWS, INTROSPECTION_MAX_ROWS, __LINE__);
    /* 16 times this is 0 in 64 bits */
    not_turned(f, 48, (uint64_t)1 << 60, 48, INTROSPECTION_TOO_MANY_ROWS, INTROSPECTION_MAX_ROWS, __LINE__);
    t = turn_with(f, NULL, 0, 0, 0);
    CHECK(t.answer[0] == INTROSPECTION_ACCEPTED && t.answer[1] == 0);
    end_turning(&t);
    t = turn_with(f, three_rows, 48, 0, 5);
    CHECK(t.answer[0] == INTROSPECTION_ACCEPTED && t.answer[1] == 0 && all_zero(t.made, 0, 20));
    end_turning(&t);
}

static void columns_at_the_limit(void)
{
    const size_t words = (size_t)INTROSPECTION_MAX_ROWS * INTROSPECTION_ROW_WORDS;
    uint32_t *rows = lend(words * 4);
    struct turning t, u;
    size_t i;
    for (i = 0; i < words; i++)
        rows[i] = (uint32_t)i * 2654435761u;
    t = turn_with(introspection_columns, rows, words, INTROSPECTION_MAX_ROWS, words);
    CHECK(t.answer[0] == INTROSPECTION_ACCEPTED && t.answer[1] == 0);
    CHECK(t.made[0] == rows[0] && t.made[1] == rows[16] - rows[0]);
    CHECK(t.made[INTROSPECTION_MAX_ROWS] == rows[1] && t.made[words - 1] == rows[words - 1] - rows[words - 17]);
    u = turn_with(introspection_rows, t.made, words, INTROSPECTION_MAX_ROWS, words);
    CHECK(u.answer[0] == INTROSPECTION_ACCEPTED && u.answer[1] == 0);
    CHECK(memcmp(u.made, rows, words * 4) == 0);
    end_turning(&t);
    end_turning(&u);
    free(rows);
}

/* ---- the order of type definitions */

/* The order of what was read, with so many words for work and so much room; all words lent held others before. */
struct ordering {
    uint32_t *work, *order;
    uint64_t answer[4];
};

static struct ordering order_with(const struct reading *r, uint64_t claimed, size_t work, size_t room)
{
    struct ordering o;
    o.work = lend(work * 4);
    o.order = lend(room * 4);
    memset(o.answer, 0xa5, sizeof o.answer);
    introspection_order(r->document, r->document_length, r->text, r->text_length, r->rows, r->rows_length, claimed, o.work, work,
                        o.order, room, o.answer);
    return o;
}

/* A refusal leaves zeros; work holds zeros in any case. */
static void not_ordered(const struct reading *r, uint64_t claimed, size_t work, size_t room, uint64_t number, uint64_t place, int line)
{
    struct ordering o = order_with(r, claimed, work, room);
    check(o.answer[0] == number && o.answer[1] == place && o.answer[2] == 0 && o.answer[3] == 0, "number and place", line);
    check(all_zero(o.order, 0, room * 4) && all_zero(o.work, 0, work * 4), "zeros after a refusal", line);
    free(o.work);
    free(o.order);
}

static void ordered(void)
{
    /* rows 1, 3 and 4 are the definitions; the tp type of one member is defined by no row */
    struct reading r = read_all("<node>" STRUCT("A", "B[]") SIMPLE("B") STRUCT("C", "X") "</node>");
    size_t work;
    CHECK(answers(&r, INTROSPECTION_ACCEPTED, 0) && r.answer[INTROSPECTION_ANSWER_ROWS] == 6);
    for (work = 0; work <= 18; work += 9) {
        struct ordering o = order_with(&r, 6, work, 5);
        CHECK(o.answer[0] == INTROSPECTION_ACCEPTED && o.answer[1] == 0 && o.answer[2] == 3 && o.answer[3] == 1);
        CHECK(o.order[0] == 3 && o.order[1] == 1 && o.order[2] == 4 && o.order[3] == 0 && o.order[4] == 0);
        CHECK(all_zero(o.work, 0, work * 4));
        free(o.work);
        free(o.order);
        not_ordered(&r, 6, work, 2, INTROSPECTION_NO_ROOM, 3, __LINE__);
        not_ordered(&r, 7, work, 5, INTROSPECTION_UNSOUND_ROWS, 6, __LINE__);
        not_ordered(&r, UINT64_MAX, work, 5, INTROSPECTION_UNSOUND_ROWS, INTROSPECTION_MAX_ROWS, __LINE__);
    }
    end_reading(&r);
    /* the circle is B and C: A only leads to it */
    r = read_all("<node>" STRUCT("A", "B") STRUCT("B", "C") STRUCT("C", "B") "</node>");
    for (work = 0; work <= 21; work += 7)
        not_ordered(&r, 7, work, 0, INTROSPECTION_CIRCULAR_TYPES, 3, __LINE__);
    end_reading(&r);
}

static void messages(void)
{
    struct reading r = read_all("<a><node><node></node></x>");
    CHECK(answers(&r, INTROSPECTION_CROSSED_CLOSE, 26));
    CHECK(says(&r, "unexpected `</x>` while parsing `<node>`"));
    uint64_t a[3];
    uint8_t *out = lend(40);
    introspection_message(r.document, r.document_length, r.answer, out, 39, a);
    CHECK(a[0] == INTROSPECTION_OUTPUT_SHORT && a[1] == 40 && a[2] == 0 && all_zero(out, 0, 39));
    r.answer[INTROSPECTION_ANSWER_SECOND + 1] = UINT64_MAX; /* words of whatever content */
    r.answer[INTROSPECTION_ANSWER_SECOND + 2] = UINT64_MAX;
    introspection_message(r.document, r.document_length, r.answer, out, 40, a);
    CHECK(a[0] == INTROSPECTION_UNSOUND_ROWS && a[1] == 0 && a[2] == 0 && all_zero(out, 0, 40));
    end_reading(&r);
    r = read_all("<node>");
    CHECK(says(&r, "missing `</node>`"));
    r.answer[INTROSPECTION_ANSWER_NUMBER] = 99;
    introspection_message(r.document, r.document_length, r.answer, out, 40, a);
    CHECK(a[0] == INTROSPECTION_UNSOUND_ROWS && all_zero(out, 0, 40));
    end_reading(&r);
    r = read_all("<node><x/></node>");
    introspection_warning_message(r.document, r.document_length, r.warnings, out, 40, a);
    CHECK(a[0] == 0 && a[2] == 33 && same(out, 33, "unsupported element `<x>` ignored"));
    r.warnings[0] = 10;
    introspection_warning_message(r.document, r.document_length, r.warnings, out, 40, a);
    CHECK(a[0] == INTROSPECTION_UNSOUND_ROWS && a[1] == 0 && all_zero(out, 0, 40));
    end_reading(&r);
    free(out);
}

int main(void)
{
    the_hinge();
    refused_documents();
    at_the_limits();
    room();
    refusals_shown();
    the_hinge_in_utf16();
    files_refused();
    files_told();
    the_strict_profile();
    nothing_lent();
    values();
    messages();
    parts();
    writing();
    writing_too_long(introspection_write);
    writing_too_long(introspection_write_tree);
    writing_trees();
    trees_read_back();
    deep_trees();
    writing_several();
    writing_several_in_any_order();
    columns_and_back();
    columns_refused(introspection_columns);
    columns_refused(introspection_rows);
    columns_at_the_limit();
    ordered();
    printf("%u passed, %u failed\n", passed, failed);
    return failed != 0;
}
