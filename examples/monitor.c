/*
 * A monitor of services: reads interface files, and prints the table of states: each property that names an enum as its
 * type, with the values that the enum has.
 *
 *     cc -o monitor examples/monitor.c $(pkg-config --cflags --libs introspection)
 *     ./monitor examples/antenna.xml examples/hinge.xml
 *
 * An enum that is not whole was left out, and its warning is told; so is a file that is refused. It is C99, and C++
 * too; bindings/rust/examples/monitor.rs is the same program in Rust.
 */
#include <errno.h>
#include <introspection.h>
#include <stdio.h>
#include <stdlib.h>
#include <string.h>

/* A document, and the tables that it was read into. */
struct document {
    const char *name;
    uint8_t *bytes;
    size_t length;
    uint32_t *rows;
    uint32_t *warnings;
    uint8_t *text;
    uint64_t answer[INTROSPECTION_ANSWER_WORDS];
};

/* A part of the document or of its text. */
struct part {
    const uint8_t *bytes;
    size_t length;
};

/* Memory that is never null, filled with zeros. */
static void *room(size_t count, size_t size)
{
    void *memory = calloc(count + 1, size);
    if (memory == NULL) {
        fprintf(stderr, "monitor: there is not enough memory\n");
        exit(2);
    }
    return memory;
}

/* ---- reading */

/* Reads a file, but no more than one byte past the limit: such a document is refused. Gives 0 if that fails. */
static int read_file(struct document *document, const char *path)
{
    FILE *file = fopen(path, "rb");
    int good;
    if (file == NULL)
        return 0;
    document->bytes = (uint8_t *)room(INTROSPECTION_MAX_BYTES + 1, 1);
    document->length = fread(document->bytes, 1, INTROSPECTION_MAX_BYTES + 1, file);
    good = !ferror(file);
    fclose(file);
    return good;
}

/* Reads the document into tables of the size that is always enough: a file in UTF-16 is decoded to at most 3/2 of its
 * bytes. What was decoded is the document of everything that follows. */
static void read_document(struct document *document)
{
    size_t length = document->length, n = length + length / 2;
    uint8_t *decoded = (uint8_t *)room(n, 1);
    document->rows = (uint32_t *)room(n / 4 * INTROSPECTION_ROW_WORDS, sizeof(uint32_t));
    document->warnings = (uint32_t *)room(n / 4 * INTROSPECTION_WARNING_WORDS, sizeof(uint32_t));
    document->text = (uint8_t *)room(n, 1);
    introspection_read(document->bytes, length, document->rows, n / 4 * INTROSPECTION_ROW_WORDS, document->warnings,
                       n / 4 * INTROSPECTION_WARNING_WORDS, document->text, n, decoded, n, document->answer);
    if (document->answer[INTROSPECTION_ANSWER_DECODED] == 0) {
        free(decoded);
    } else {
        free(document->bytes);
        document->bytes = decoded;
        document->length = (size_t)document->answer[INTROSPECTION_ANSWER_DECODED];
    }
}

static void let_go(struct document *document)
{
    free(document->bytes);
    free(document->rows);
    free(document->warnings);
    free(document->text);
}

/* ---- telling: what the reader answers always has a message, so that only its length is looked at */

/* The line and the column of a place, both from 1. A line ends with LF, CR LF or CR; a column is counted in characters.
 * It looks at all that is before the place: whoever tells very many keeps a table of the lines. */
static void tell_place(const struct document *document, size_t place)
{
    size_t i, line = 1, column = 1;
    for (i = 0; i < place && i < document->length; i++) {
        uint8_t byte = document->bytes[i];
        int split = byte == '\r' && i + 1 < document->length && document->bytes[i + 1] == '\n';
        if (byte == '\n' || (byte == '\r' && !split)) {
            line++;
            column = 1;
        } else if ((byte & 0xc0) != 0x80) {
            column++;
        }
    }
    fprintf(stderr, "%s:%lu:%lu: ", document->name, (unsigned long)line, (unsigned long)column);
}

static void tell_refusal(const struct document *document)
{
    const uint64_t *refusal = document->answer;
    /* 64 bytes and what is shown: the lengths of the two triples */
    size_t first = (size_t)refusal[INTROSPECTION_ANSWER_FIRST + 2];
    size_t second = (size_t)refusal[INTROSPECTION_ANSWER_SECOND + 2];
    size_t length = 64 + first + second;
    uint8_t *message = (uint8_t *)room(length, 1);
    uint64_t answer[3];
    introspection_message(document->bytes, document->length, refusal, message, length, answer);
    if (refusal[INTROSPECTION_ANSWER_NUMBER] == INTROSPECTION_ODD_BYTES ||
        refusal[INTROSPECTION_ANSWER_NUMBER] == INTROSPECTION_LONE_SURROGATE)
        fprintf(stderr, "%s: byte %lu: ", document->name, (unsigned long)refusal[INTROSPECTION_ANSWER_PLACE]);
    else
        tell_place(document, (size_t)refusal[INTROSPECTION_ANSWER_PLACE]);
    fprintf(stderr, "error: %.*s\n", (int)answer[2], (const char *)message);
    free(message);
}

static void tell_warnings(const struct document *document)
{
    size_t i;
    for (i = 0; i < document->answer[INTROSPECTION_ANSWER_WARNINGS]; i++) {
        const uint32_t *warning = document->warnings + i * INTROSPECTION_WARNING_WORDS;
        size_t length = 128 + (size_t)warning[3];
        uint8_t *message = (uint8_t *)room(length, 1);
        uint64_t answer[3];
        introspection_warning_message(document->bytes, document->length, warning, message, length, answer);
        tell_place(document, warning[1]);
        fprintf(stderr, "warning: %.*s\n", (int)answer[2], (const char *)message);
        free(message);
    }
}

/* ---- the table */

static const uint32_t *row(const struct document *document, size_t index)
{
    return document->rows + index * INTROSPECTION_ROW_WORDS;
}

/* What the triple from a word on leads to; nothing if it is absent. */
static struct part shown(const struct document *document, const uint32_t *row, int word)
{
    size_t text = (size_t)document->answer[INTROSPECTION_ANSWER_TEXT_BYTES];
    uint64_t answer[4];
    struct part part;
    introspection_lookup(document->bytes, document->length, document->text, text, row[word], row[word + 1],
                         row[word + 2], answer);
    part.bytes = (answer[1] == INTROSPECTION_SOURCE_TEXT ? document->text : document->bytes) + answer[2];
    part.length = (size_t)answer[3];
    return part;
}

static void print(const char *before, struct part part)
{
    printf("%s%.*s", before, (int)part.length, (const char *)part.bytes);
}

/* The enum of a name that stands in a row, or a null pointer. */
static const uint32_t *find_enum(const struct document *document, uint32_t parent, struct part name)
{
    size_t i;
    for (i = 0; i < document->answer[INTROSPECTION_ANSWER_ROWS]; i++) {
        const uint32_t *definition = row(document, i);
        struct part other;
        if (definition[INTROSPECTION_WORD_KIND] != INTROSPECTION_KIND_ENUM ||
            definition[INTROSPECTION_WORD_PARENT] != parent)
            continue;
        other = shown(document, definition, INTROSPECTION_WORD_NAME);
        if (other.length == name.length && memcmp(other.bytes, name.bytes, name.length) == 0)
            return definition;
    }
    return NULL;
}

static void print_values(const struct document *document, const uint32_t *definition)
{
    uint32_t number = (uint32_t)((definition - document->rows) / INTROSPECTION_ROW_WORDS) + 1;
    size_t i;
    for (i = number; i < document->answer[INTROSPECTION_ANSWER_ROWS]; i++) {
        const uint32_t *value = row(document, i);
        if (value[INTROSPECTION_WORD_KIND] == INTROSPECTION_KIND_ENUMVALUE &&
            value[INTROSPECTION_WORD_PARENT] == number) {
            print(" ", shown(document, value, INTROSPECTION_WORD_VALUE));
            print("=", shown(document, value, INTROSPECTION_WORD_NAME));
        }
    }
}

/* The line of a property that names a type: its enum is in its interface, or in a node around it. */
static void print_state(const struct document *document, const uint32_t *property)
{
    struct part type = shown(document, property, INTROSPECTION_WORD_TP_TYPE);
    uint32_t parent = property[INTROSPECTION_WORD_PARENT];
    const uint32_t *definition = NULL;
    printf("%s", document->name);
    print(" ", shown(document, row(document, parent - 1), INTROSPECTION_WORD_NAME));
    print(".", shown(document, property, INTROSPECTION_WORD_NAME));
    while (parent != 0 && definition == NULL) {
        definition = find_enum(document, parent, type);
        parent = row(document, parent - 1)[INTROSPECTION_WORD_PARENT];
    }
    if (definition == NULL)
        print(" has no enum ", type);
    else
        print_values(document, definition);
    printf("\n");
}

static void print_table(const struct document *document)
{
    size_t i;
    for (i = 0; i < document->answer[INTROSPECTION_ANSWER_ROWS]; i++) {
        const uint32_t *property = row(document, i);
        if (property[INTROSPECTION_WORD_KIND] == INTROSPECTION_KIND_PROPERTY &&
            property[INTROSPECTION_WORD_TP_TYPE] != INTROSPECTION_SOURCE_ABSENT)
            print_state(document, property);
    }
}

/* Gives 0 if the file cannot be read. */
static int monitor(const char *path)
{
    struct document document;
    const char *slash = strrchr(path, '/');
    int good;
    memset(&document, 0, sizeof document);
    document.name = slash == NULL ? path : slash + 1;
    errno = 0;
    good = read_file(&document, path);
    if (!good) {
        fprintf(stderr, "monitor: cannot read %s: %s\n", path, strerror(errno));
    } else {
        read_document(&document);
        if (document.answer[INTROSPECTION_ANSWER_NUMBER] != INTROSPECTION_ACCEPTED) {
            tell_refusal(&document);
        } else {
            print_table(&document);
            tell_warnings(&document);
        }
    }
    let_go(&document);
    return good;
}

int main(int count, char **paths)
{
    int i, status = 0;
    for (i = 1; i < count; i++)
        if (!monitor(paths[i]))
            status = 2;
    if (fflush(stdout) != 0 || ferror(stdout)) {
        fprintf(stderr, "monitor: cannot write standard output: %s\n", strerror(errno));
        status = 2;
    }
    return status;
}
