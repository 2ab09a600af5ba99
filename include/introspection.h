/*
 * A proved reader and writers of D-Bus introspection XML.
 *
 * Link target/staticlib/libintrospection.a, which `./build library` makes (x86-64 Linux). It needs no library but C's. What
 * is read, and every number and place, is in docs/FORMAT.md; this is what a caller needs of it.
 *
 * Memory. Every buffer is the caller's. A function uses it during the call alone, keeps no pointer, allocates nothing
 * and calls nothing of the program. A buffer is a pointer and a length in elements: bytes for uint8_t, 32-bit words for
 * uint32_t. A null pointer is fine where the length is 0. A buffer that a function writes, the answer included, does
 * not overlap another buffer of the call, and nothing else writes any of them meanwhile. What a written buffer held
 * before does not matter. Places and lengths are in bytes; rows and warnings are counted whole, rows from 0.
 *
 * Answers. The answer is the last argument, never null, and every word of it is written. Word 0 is the number: 0 for
 * accepted, or why it was refused; word 1 is the place, a byte offset unless its number says other. After acceptance
 * a written buffer holds zeros past the used part; after a refusal it holds zeros alone, and the counts are 0; only
 * text that introspection_read decoded from UTF-16 stands, with its length, where it is refused afterwards.
 *
 * Threads. The library has no state: any threads may call at once, with buffers of their own for writing. Reading was
 * measured to use 30 kB of the stack, and 410 kB where 1,024 elements are open in what is skipped or in a docstring, so
 * 512 kB is enough. Each function that checks rows takes 262,144 bytes for that, used only where more than 4,096 rows stand
 * in another order than the reader's: writing was measured to take 264 kB. introspection_order takes as much again, and
 * as much once more in the plain form: 520 and 780 kB, so that 1 MB is enough.
 *
 * Cost. Reading, escaping and unescaping take time in proportion to the bytes read and to the buffers lent, which are
 * cleared; an attribute of a tag is compared with those before it, at most 255, only where its name is in doubt. Looking up
 * takes the same for every triple. Writing checks all rows claimed, at each call, in time in proportion to the rows and to the bytes of document
 * and text, in any order and whatever the rows show, where document and text are UTF-8: so writing every item of a table
 * of n rows costs n checks. In the order that the reader leaves, what comes on top is in proportion to the rows after the
 * item and to the bytes written; where rows stand in another order, it may be the item's args times the rows. What
 * writing a tree costs stands at introspection_write_tree. Not bounded by rows and buffers are: escaping one long value
 * for each row that shows it, which is in the bytes written; an item's args times the rows, and a tree, in a hostile
 * order; and the check where document or text is not UTF-8 and many rows show a long part after the first ill-formed
 * sequence.
 */
#ifndef INTROSPECTION_H
#define INTROSPECTION_H

#include <stddef.h>
#include <stdint.h>

#ifdef __cplusplus
extern "C" {
#endif

/* The version of this header and of the library that it is delivered with. */
#define INTROSPECTION_VERSION "0.1.0"

/* Limits. A longer document, text or value is refused with INTROSPECTION_TOO_LONG, more rows claimed for writing with
 * INTROSPECTION_UNSOUND_ROWS, more rows to put down as columns, or to make from them, with INTROSPECTION_TOO_MANY_ROWS. */
#define INTROSPECTION_MAX_BYTES 1048576
#define INTROSPECTION_MAX_ROWS 262144

/* Words of a row and of a warning. Only whole ones count as room. */
#define INTROSPECTION_ROW_WORDS 16
#define INTROSPECTION_WARNING_WORDS 4

/* Words of a row. A triple is three words, source, start and length (introspection_lookup); three zeros: absent. */
enum introspection_word {
    INTROSPECTION_WORD_KIND = 0,
    INTROSPECTION_WORD_PARENT = 1,     /* the parent's row plus one; 0 for the root, which is row 0 */
    INTROSPECTION_WORD_NAME = 2,       /* triple: name; of an enumvalue its suffix */
    INTROSPECTION_WORD_VALUE = 5,      /* triple: value of annotation and enumvalue; signature of property, arg,
                                          simple-type, enum, member */
    INTROSPECTION_WORD_TP_TYPE = 8,    /* triple: tp:type of property, arg, member */
    INTROSPECTION_WORD_DOCSTRING = 11, /* triple: docstring, of all kinds but annotation */
    INTROSPECTION_WORD_ACCESS = 14,    /* of a property */
    INTROSPECTION_WORD_DIRECTION = 14, /* of an arg */
    INTROSPECTION_WORD_POSITION = 15   /* of all kinds: the place of the element's `<` in the document */
};

/* Word 0 of a row. Rows stand in the order of the start tags. */
enum introspection_kind {
    INTROSPECTION_KIND_NODE = 1,
    INTROSPECTION_KIND_INTERFACE = 2,
    INTROSPECTION_KIND_METHOD = 3,
    INTROSPECTION_KIND_PROPERTY = 4,
    INTROSPECTION_KIND_SIGNAL = 5,
    INTROSPECTION_KIND_ANNOTATION = 6,
    INTROSPECTION_KIND_ARG = 7,
    INTROSPECTION_KIND_SIMPLE_TYPE = 8,
    INTROSPECTION_KIND_ENUM = 9,
    INTROSPECTION_KIND_ENUMVALUE = 10,
    INTROSPECTION_KIND_STRUCT = 11,
    INTROSPECTION_KIND_MEMBER = 12,
    INTROSPECTION_KIND_MAPPING = 13
};

/* Word 14 of a property. */
enum introspection_access {
    INTROSPECTION_ACCESS_READ = 1,
    INTROSPECTION_ACCESS_WRITE = 2,
    INTROSPECTION_ACCESS_READWRITE = 3
};

/* Word 14 of an arg. */
enum introspection_direction {
    INTROSPECTION_DIRECTION_NONE = 0,
    INTROSPECTION_DIRECTION_IN = 1,
    INTROSPECTION_DIRECTION_OUT = 2
};

/* The first word of a triple: which buffer the part is in. */
enum introspection_source {
    INTROSPECTION_SOURCE_ABSENT = 0,
    INTROSPECTION_SOURCE_DOCUMENT = 1,
    INTROSPECTION_SOURCE_TEXT = 2
};

/* Word 0 of an answer, and in brackets the place in word 1. */
enum introspection_number {
    INTROSPECTION_ACCEPTED = 0,
    INTROSPECTION_NOT_UTF8 = 1,                 /* [the first ill-formed sequence] */
    INTROSPECTION_TOO_LONG = 2,                 /* [1,048,576] */
    INTROSPECTION_NO_ROOT = 3,                  /* [the length] */
    INTROSPECTION_MALFORMED_MARKUP = 4,         /* a tag [docs/FORMAT.md, Answers] */
    INTROSPECTION_UNCLOSED_ELEMENT = 5,         /* [the length] */
    INTROSPECTION_CROSSED_CLOSE = 6,            /* [after the closing tag] */
    INTROSPECTION_TOO_DEEP = 7,                 /* more than 1,024 open [after the start tag; of
                                                   introspection_write_tree the row] */
    INTROSPECTION_DUPLICATE_ATTRIBUTE = 8,      /* [its name] */
    INTROSPECTION_UNTERMINATED_REFERENCE = 9,   /* [its &] */
    INTROSPECTION_UNKNOWN_ENTITY = 10,          /* [its &] */
    INTROSPECTION_BAD_CHARACTER_REFERENCE = 11, /* [its &] */
    INTROSPECTION_ATTRIBUTE_MISSING = 12,       /* [the element name] */
    INTROSPECTION_BAD_NAME = 13,                /* [the element name] */
    INTROSPECTION_BAD_SIGNATURE = 14,           /* [the element name] */
    INTROSPECTION_BAD_ACCESS = 15,              /* [after the start tag] */
    INTROSPECTION_BAD_DIRECTION = 16,           /* [after the start tag] */
    INTROSPECTION_TOO_MANY_ATTRIBUTES = 17,     /* more than 256 in a tag [the 257th name] */
    INTROSPECTION_NO_ROOM = 18,                 /* a lent table is short [the document's length; where decoded is too short
                                                   the file's; of introspection_columns and introspection_rows the count; of
                                                   introspection_order the definitions] */
    INTROSPECTION_UNSOUND_ROWS = 19,            /* [262,144 if more rows are claimed; else the rows lent if fewer than
                                                   claimed; else the first bad row] */
    INTROSPECTION_NOT_WRITABLE = 20,            /* no such row, or its kind is not 3, 5, 6 or 7; of
                                                   introspection_write_tree, or its kind is 10 or 12 [the row asked for] */
    INTROSPECTION_OUTPUT_SHORT = 21,            /* [the bytes needed] */
    INTROSPECTION_UNCLOSED_COMMENT = 22,        /* [past its <!--] */
    INTROSPECTION_UNCLOSED_CDATA = 23,          /* [past its <![CDATA[] */
    INTROSPECTION_UNCLOSED_INSTRUCTION = 24,    /* [past its <?] */
    INTROSPECTION_UNCLOSED_DECLARATION = 25,    /* [past the quote that never closes; else the length] */
    INTROSPECTION_ODD_BYTES = 26,               /* of a file in UTF-16 [its length] */
    INTROSPECTION_LONE_SURROGATE = 27,          /* in a file in UTF-16 [the first byte of its unit, in the file] */
    INTROSPECTION_CIRCULAR_TYPES = 28,          /* [the first row on a circle] */
    INTROSPECTION_PROFILE_BREACH = 29,          /* of introspection_read_strict [the least breach] */
    INTROSPECTION_TOO_MANY_ROWS = 30            /* [262,144] */
};

/* The words of introspection_read's answer. What a refusal's message shows: a triple for each name, reference or value that it
 * shows, three zeros for each that it does not, and a key; docs/FORMAT.md, Answers, has what each number shows. */
#define INTROSPECTION_ANSWER_WORDS 16

enum introspection_answer {
    INTROSPECTION_ANSWER_NUMBER = 0,
    INTROSPECTION_ANSWER_PLACE = 1,
    INTROSPECTION_ANSWER_ROWS = 2,
    INTROSPECTION_ANSWER_TEXT_BYTES = 3,
    INTROSPECTION_ANSWER_WARNINGS = 4,
    INTROSPECTION_ANSWER_FIRST = 5,  /* triple */
    INTROSPECTION_ANSWER_SECOND = 8, /* triple */
    INTROSPECTION_ANSWER_KEY = 11,   /* of 12: the attribute */
    INTROSPECTION_ANSWER_DECODED = 12 /* bytes decoded; 0 of a file that is not in UTF-16; words 13 to 15 are 0 */
};

/* The key of an attribute that is missing. */
enum introspection_key {
    INTROSPECTION_KEY_NAME = 1,
    INTROSPECTION_KEY_TYPE = 2,
    INTROSPECTION_KEY_ACCESS = 3,
    INTROSPECTION_KEY_VALUE = 4
};

/* Word 0 of a warning; words 1 to 3 are the place of `<` and the place and the length of the element name, in the
 * document. A warning says that one element was left out whole, with all in it. */
enum introspection_reason {
    INTROSPECTION_REASON_UNSUPPORTED_ELEMENT = 1,
    INTROSPECTION_REASON_NO_NAME = 2,
    INTROSPECTION_REASON_NO_TYPE = 3,
    INTROSPECTION_REASON_BAD_SIGNATURE = 4,        /* or an empty one */
    INTROSPECTION_REASON_INCOMPLETE_ENUMVALUE = 5, /* an enum: a value lacks its suffix or its value */
    INTROSPECTION_REASON_INCOMPLETE_MEMBER = 6,    /* a struct or a mapping: a member lacks its name or its type */
    INTROSPECTION_REASON_NO_MEMBERS = 7,           /* a struct */
    INTROSPECTION_REASON_NOT_TWO_MEMBERS = 8,      /* a mapping */
    INTROSPECTION_REASON_KEY_NOT_BASIC = 9         /* a mapping */
};

/*
 * Reads a document into rows, warnings and text.
 *
 * Room that is always enough for a document of n bytes: n / 4 rows and n / 4 warnings (4n and n words), n bytes of
 * text. 4 times the rows and warnings together never exceed n, nor do the text bytes. Text takes the values that hold a
 * reference, tab, LF or CR, as they are shown; all others are left in the document. So the rows are good for as long as
 * the document and the text are there, unchanged.
 *
 * A file that begins with FE FF or FF FE is UTF-16: it is decoded to UTF-8 in decoded, without the mark, and what was
 * decoded is read. Its length is word 12 of the answer. If that is not 0, the document of everything that follows is
 * the first so many bytes of decoded: source 1 of a triple, every place in rows, warnings and answer, and what is
 * handed to introspection_lookup, introspection_write, introspection_write_tree, introspection_write_items,
 * introspection_order and the two functions for messages. Decoded bytes are at most 3/2 of the file's; the room above
 * is in terms of them. Of any other file decoded is not used and may have no bytes; it is left zero.
 *
 * answer: enum introspection_answer. Refusals: 2, 1, the first of 3 to 17 and 22 to 25 met in reading, then 18. Of UTF-16:
 * 2 for the file, 26, 27, 2 for what is decoded, 18 at the file's length if decoded is short, all of which leave zeros in
 * decoded and the length 0; then the same of what was decoded, which stands whatever comes of it.
 */
void introspection_read(const uint8_t *document, size_t document_length, uint32_t *rows, size_t rows_length,
                        uint32_t *warnings, size_t warnings_length, uint8_t *text, size_t text_length,
                        uint8_t *decoded, size_t decoded_length, uint64_t answer[INTROSPECTION_ANSWER_WORDS]);

/*
 * Reads a file of the strict profile: as introspection_read, with the same buffers and the same answer. Then a document that
 * would be accepted is refused with 29 if it breaks one of these rules of XML 1.0: no raw `<` and no `&#X` in an attribute
 * value; no `--` inside a comment, and no hyphen at its end; tag and attribute names are Names of the fifth edition; every
 * character is a Char; the root's tag is `node`; after the root stand only white space, closed comments and closed
 * instructions. The place is that of the least breach (docs/FORMAT.md, The strict profile). What is accepted has the rows,
 * warnings and text of introspection_read.
 *
 * answer: enum introspection_answer. Refusals: those of introspection_read, 18 too, then 29; after it rows, warnings and text
 * are zeros, and what was decoded from UTF-16 stands. An accepted document is gone over a second time.
 */
void introspection_read_strict(const uint8_t *document, size_t document_length, uint32_t *rows, size_t rows_length,
                               uint32_t *warnings, size_t warnings_length, uint8_t *text, size_t text_length,
                               uint8_t *decoded, size_t decoded_length, uint64_t answer[INTROSPECTION_ANSWER_WORDS]);

/*
 * Writes the message of a refusal, with the document that was refused, of UTF-16 what was decoded: the sentence that zbus_xml's
 * XmlError has, such as missing `</node>`; where it has none, a few words (docs/FORMAT.md, Messages). refusal is the answer of introspection_read or
 * introspection_read_strict as it is, or 16 words of whatever content: of them number, key and the triples that the number shows are looked at. The
 * place is not: whoever shows it adds it. No message is longer than 64 bytes and the bytes that it shows.
 *
 * answer: number, place, bytes written. Refusals: 2, unless the number of refusal is 2; 19 at 0 for a number or key that is
 * not known, and for a triple that is shown and is not a part of the document, is not UTF-8 or (of 15 and 16) cannot be
 * unescaped; 21. What introspection_read answers, with its document, is never refused with 19.
 */
void introspection_message(const uint8_t *document, size_t document_length,
                           const uint64_t refusal[INTROSPECTION_ANSWER_WORDS], uint8_t *output, size_t output_length,
                           uint64_t answer[3]);

/*
 * The same for a warning, by its four words: the sentence that zbus_xml's Warning has, such as
 * unsupported element `<x>` ignored. No message is longer than 128 bytes and the element's name.
 *
 * answer: number, place, bytes written. Refusals: 2, 19 at 0, 21.
 */
void introspection_warning_message(const uint8_t *document, size_t document_length,
                                   const uint32_t warning[INTROSPECTION_WARNING_WORDS], uint8_t *output,
                                   size_t output_length, uint64_t answer[3]);

/*
 * Writes value with `&`, `<`, `>`, `"`, `'`, tab, LF and CR turned into references. Output of 6 bytes for each of the
 * value is always enough.
 *
 * answer: number, place, bytes written. Refusals: 2, 1, 21.
 */
void introspection_escape(const uint8_t *value, size_t value_length, uint8_t *output, size_t output_length,
                          uint64_t answer[3]);

/*
 * Writes what an attribute value shows: its references as characters; CR LF, CR, LF and tab as a space. Output as long
 * as the value is always enough.
 *
 * answer: number, place, bytes written. Refusals: 2, 1, 9 to 11, 18.
 */
void introspection_unescape(const uint8_t *value, size_t value_length, uint8_t *output, size_t output_length,
                            uint64_t answer[3]);

/*
 * Writes the method, signal, annotation or arg of a row as XML, with the args and annotations in it; docstrings and tp
 * types are not written. document, text and rows are as introspection_read left them, with the rows of its answer as
 * rows_claimed; or made by the caller: the rows are checked first, and refused if they are not sound. Word 15 of a sound
 * row is below document_length, so over an empty document no row is sound; it is not written. A struct without members is
 * not sound, nor a mapping that has not exactly two members, the first with a basic signature.
 *
 * Each call checks every row claimed, in any order in time in proportion to the rows and to the bytes of document and
 * text (Cost, above). So whoever writes many items of a large table uses introspection_write_items.
 *
 * answer: number, place, bytes written. Refusals: 2, 19, 20, 21. To learn the size, call with output_length 0: the
 * number is then 21 and the place the bytes needed.
 */
void introspection_write(const uint8_t *document, size_t document_length, const uint8_t *text, size_t text_length,
                         const uint32_t *rows, size_t rows_length, uint64_t rows_claimed, uint64_t row, uint8_t *output,
                         size_t output_length, uint64_t answer[3]);

/*
 * Writes the element of a row with all under it, docstrings and tp types too: a row of any kind but 10 and 12, the
 * parts of a definition. The whole document is row 0. document, text and rows are as for introspection_write.
 *
 * An element is its tag, which has `tp:` before it for kinds 8 to 13, with its attributes: name (of an enumvalue
 * suffix); type or value; tp:type; access or direction; each escaped, those that are absent left out. Then its
 * docstring, unless it is absent or empty, in <tp:docstring>; then what is in it, in groups: type definitions; args;
 * members, which are methods, properties, signals, interfaces, enumvalues and the members of a struct or mapping;
 * annotations; nodes. Each group is in the order of the rows. If nothing follows the attributes the tag ends with
 * `/>`. No white space, XML declaration or xmlns:tp is put in.
 *
 * Tables as introspection_read left them, with the rows of its answer: what is written of row 0 is read back, if it
 * is within the limit, without a warning and with the same content, docstrings included. The same is so of sound rows
 * made by the caller where words 11 to 13 of every row are zeros. A docstring of rows made by the caller is written
 * as it is, without escaping: of it only UTF-8 is checked. Markup in it is markup to whoever reads the bytes: a
 * docstring </tp:docstring><interface name="a.b"/><tp:docstring> makes an interface that no row has, and one that
 * holds a lone < makes a document that is refused. So whoever makes docstrings out of text that is not markup escapes
 * it first (introspection_escape).
 *
 * The rows are checked as for introspection_write. What comes on top is in proportion to the rows and the bytes
 * written where the rows stand in the order that introspection_read leaves and in no node another child follows a
 * node. If nodes stand before other children it may be the levels of nodes times the rows, and in a hostile order the
 * rows times the rows; docs/BENCHMARKS.md has measurements. Nothing is called for each level: 300 kB of the
 * stack are enough whatever the rows are, nearly all of them for the check.
 *
 * answer: number, place, bytes written. Refusals: 2, 19, 20, then 7 at the first row, in the order of writing, that
 * would be the 1,025th open node (a node that ends with `/>` is not open, and the row asked for is the first that
 * counts), then 21. To learn the size, call with output_length 0: the number is then 21 and the place the bytes
 * needed.
 */
void introspection_write_tree(const uint8_t *document, size_t document_length, const uint8_t *text, size_t text_length,
                              const uint32_t *rows, size_t rows_length, uint64_t rows_claimed, uint64_t row,
                              uint8_t *output, size_t output_length, uint64_t answer[3]);

/*
 * The part of the document or of the text that a triple leads to: length bytes from start on in the buffer of its
 * source, 1 the document, 2 the text.
 *
 * answer: 1 or 0, source, start, length. 0 is for a triple whose source is not 1 or 2 (an absent one) or that runs past
 * its buffer; it leads to the empty beginning of the document, source 1, start 0, length 0. So the part may be used
 * in any case.
 */
void introspection_lookup(const uint8_t *document, size_t document_length, const uint8_t *text, size_t text_length,
                          uint32_t source, uint32_t start, uint32_t length, uint64_t answer[4]);

/*
 * Puts rows down as columns: of count rows, word k of row r at k times count plus r, as that word less the same word of
 * the row before, modulo 2 to the 32nd; the words of row 0 as they are. Any words will do, sound rows or not. The 16
 * columns have 16 times count words; rows may hold more, which are not looked at.
 *
 * answer: number, place. Refusals: 30, then 18 at count if rows or columns have fewer than 16 times count words.
 */
void introspection_columns(const uint32_t *rows, size_t rows_length, uint64_t count, uint32_t *columns,
                           size_t columns_length, uint64_t answer[2]);

/*
 * Puts columns down as rows again. Either function after the other restores the 16 times count words, for any words.
 *
 * answer: number, place. Refusals: as of introspection_columns.
 */
void introspection_rows(const uint32_t *columns, size_t columns_length, uint64_t count, uint32_t *rows,
                        size_t rows_length, uint64_t answer[2]);

/*
 * Gives out the number of every type definition's row once, a word each, in an order where each comes after those that it
 * uses: of the definitions that are ready always the one with the smallest row. A struct or a mapping uses a type if the
 * tp type of one of its members is that name, or that name followed by `[]`; of several definitions with one name the first
 * row counts. document, text and rows are as for introspection_write. An order of one word for each row claimed is always
 * enough.
 *
 * work is lent for working: the answer does not depend on its length or on what it held, and it is zeros afterwards. With
 * three words for each row claimed the time is in proportion to the rows and to the bytes of names and tp types, in any order
 * of the rows, with a circle too. That holds for names that spread over an index of 4,096 words, or 65,536 where more than
 * 4,096 rows are claimed: for names that were made to fall together in it, each name looked up may be compared with all of
 * those. docs/BENCHMARKS.md has measurements of both forms. With fewer words the plain form answers the same: for each definition given
 * out a pass over the rows, and for each member looked at a comparison with the names of all definitions. Where each type is
 * defined before it is used a definition is looked at once, and the time is in proportion to the members times the rows;
 * else it may be looked at once for each definition that is given out before it. A circle costs up to a search of the same
 * kind for each definition.
 *
 * answer: number, place, definitions, members whose tp type no row defines. Refusals: 2, 19, 28 at the first row on a circle
 * of uses, a definition that uses itself included, then 18 at the number of definitions if order has fewer words. So a
 * circle is told with order_length 0 too.
 */
void introspection_order(const uint8_t *document, size_t document_length, const uint8_t *text, size_t text_length,
                         const uint32_t *rows, size_t rows_length, uint64_t rows_claimed, uint32_t *work,
                         size_t work_length, uint32_t *order, size_t order_length, uint64_t answer[4]);

/*
 * Writes the items of several rows, one after the other, after one check: the rows asked for are items_length words, in
 * any order, also more than once. Each item's bytes are those of introspection_write. ends[k] is where the k-th item ends in
 * output; it begins where the one before it ends, the first at 0. The words of ends past the items are zero, as are the
 * bytes of output past the last; after a refusal all of both are. document, text, rows and rows_claimed are as for
 * introspection_write.
 *
 * Where rows stand in the order that introspection_read leaves, an item costs what its own rows and bytes are; else a
 * pass over all rows for each item.
 *
 * answer: number, place, bytes written. Refusals: 2, 19, 20 at the first row that is asked for and is not writable, 18 at
 * items_length if ends has fewer words, 21 at the bytes needed; 4,294,967,296 stands for that and every larger number of
 * bytes, which no word of ends could hold.
 */
void introspection_write_items(const uint8_t *document, size_t document_length, const uint8_t *text, size_t text_length,
                               const uint32_t *rows, size_t rows_length, uint64_t rows_claimed, const uint32_t *items,
                               size_t items_length, uint8_t *output, size_t output_length, uint32_t *ends,
                               size_t ends_length, uint64_t answer[3]);

#ifdef __cplusplus
}
#endif

#endif
