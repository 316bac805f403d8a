/* Pelzurda's calls for programs in C and C++. `tools/archive` writes target/staticlib/libcapi.a: link that, and nothing else.
 *
 * A slice is a pointer and a number of elements. A pointer is never null, also where the number is 0; it is aligned for its elements, which
 * stay as they are during the call; and what a call writes overlaps with nothing else that it is given. The flags of lent clause records are
 * true or false before a call too: a zeroed array will do. That is all that a caller owes: every call answers every input, reads and writes
 * nothing but the slices, and keeps nothing.
 *
 * Every call writes every slot that it is lent: the answer at the front and zeros behind it, after a refusal zeros alone.
 *
 * An answer is one number. Below 2^63 it is what was asked for: a count, a length, or 0 where there is nothing to count. A refusal is
 * 2^63 + number * 2^32 + place, with the number of the table of refusals. (A place of 2^32 or more would read as 2^32 - 1.)
 */
#ifndef PELZURDA_H
#define PELZURDA_H

#include <stdbool.h>
#include <stddef.h>
#include <stdint.h>

#ifdef __cplusplus
extern "C" {
#endif

/* the longest line or text */
#define PELZURDA_MAX_LENGTH 16384

static inline int pelzurda_is_refused(uint64_t answer) { return (int)(answer >> 63); }
static inline uint32_t pelzurda_number(uint64_t answer) { return (uint32_t)(answer >> 32) & 0x7fffffff; }
static inline uint32_t pelzurda_place(uint64_t answer) { return (uint32_t)answer; }

/* the numbers of refusals that these calls give */
enum {
    PELZURDA_TOO_LONG = 1,
    PELZURDA_HIGH_BYTE = 2,
    PELZURDA_SHORT_BUFFER = 3,
    PELZURDA_WRONG_BOOK = 4,
    PELZURDA_WRONG_LANGUAGE = 5,
    PELZURDA_INVALID_LINE = 6,
    PELZURDA_NO_OPENING = 7,
    PELZURDA_UNCLOSED_COMMENT = 8,
    PELZURDA_NO_DIRECTIVE = 9,
    PELZURDA_NO_CLAUSE = 10,
    PELZURDA_NO_PARENTHESIS = 11,
    PELZURDA_UNMATCHED = 12,
    PELZURDA_TOO_DEEP = 13,
    PELZURDA_NO_SLOT = 14,
    PELZURDA_EMPTY_ITEM = 15,
    PELZURDA_UNCLOSED_QUOTE = 16,
    PELZURDA_WRONG_CLOSING = 17,
    PELZURDA_UNCLOSED_BRACKET = 18,
    PELZURDA_BAD_SPAN = 19
};

/* a language; any other number is C */
enum { PELZURDA_C = 0, PELZURDA_FORTRAN_FREE = 1, PELZURDA_FORTRAN_FIXED = 2 };

/* a prefix; any other number is omp */
enum { PELZURDA_OMP = 0, PELZURDA_ACC = 1 };

/* the entry of a clause that has none in the book */
#define PELZURDA_NO_ENTRY 65535

/* A clause: offsets of the text (of the joined text for a line), its entry in the book, and its commas. 14 bytes, one of them unused, behind
 * `parenthesized`. A zeroed record is bare with every number 0. */
struct pelzurda_record {
    uint16_t name_start;
    uint16_t name_end;
    uint16_t entry;
    bool parenthesized;
    uint16_t content_start; /* the trimmed content, 0 and 0 if bare */
    uint16_t content_end;
    bool preceded; /* a comma stands before the clause */
    bool trailing; /* a comma stands after the last clause */
};

/* The length of what trimming leaves of a text of any length, with its start and end in `range`. Refuses nothing. */
uint64_t pelzurda_trim(const uint8_t *text, size_t text_len, uint64_t range[2]);

/* The number of items of a text. Item k starts at items[2 * k] and ends before items[2 * k + 1]. They are separated by commas, or by colons
 * if `colon` is not 0; `<` and `>` are brackets if `angles` is not 0. `language` says whose literals the text has: in C a backslash hides the byte
 * after it, in Fortran it is a byte like others. Comments are block comments in every language. `items_len` counts numbers, two for an item. */
uint64_t pelzurda_split(const uint8_t *text, size_t text_len, uint32_t language, uint32_t colon, uint32_t angles, uint16_t *items,
                        size_t items_len);

/* The length of the text that the physical lines make. The line's byte for text[i] stands at map[i], and one more entry is for the text's end.
 * `text` needs as many slots as the line has bytes, `map` one more. */
uint64_t pelzurda_join(uint32_t language, uint32_t prefix, const uint8_t *line, size_t line_len, uint8_t *text, size_t text_len, uint16_t *map,
                       size_t map_len);

/* 0, with the physical start and end of the joined range from `start` to `end` in `span`. `text_len` is the length that joining gave. */
uint64_t pelzurda_map_back(const uint16_t *map, size_t map_len, size_t text_len, size_t start, size_t end, uint64_t span[2]);

/* The length of a clause's content without its continuations. `copy` needs as many slots as the content has bytes. */
uint64_t pelzurda_copy(const uint8_t *content, size_t content_len, uint8_t *copy, size_t copy_len);

/* 0 for a valid book. */
uint64_t pelzurda_check_book(const uint8_t *book, size_t book_len);

/* The number of clauses of a text under a book, whose records stand at the front of their slots, with the place of the unread rest in `rest`. */
uint64_t pelzurda_sequence(const uint8_t *book, size_t book_len, const uint8_t *text, size_t text_len, struct pelzurda_record *records,
                           size_t records_len, uint64_t rest[1]);

/* The directive's entry in the book, for a whole line. `reading` gets the start and the end of its name, the number of clauses and the place of the
 * unread rest, all but the number offsets of the joined text; text, map and records stand at the front of their slots. `text` needs as many slots
 * as the line has bytes, `map` one more. From refusal 7 on a place is an offset of the joined text. In C blanks, comments and breaks may stand between
 * `#` and `pragma`; where `pragma` is missing the line is refused by 7 at the `#`, for an unclosed comment before it by 8 at the comment. */
uint64_t pelzurda_line(uint32_t language, uint32_t prefix, const uint8_t *book, size_t book_len, const uint8_t *line, size_t line_len, uint8_t *text,
                       size_t text_len, uint16_t *map, size_t map_len, struct pelzurda_record *records, size_t records_len, uint64_t reading[4]);

/* The answers of many lines under one check of the book: how many lines were answered, as many as there are ends and slots. Line k ends before
 * byte ends[k] of `lines` and starts where line k - 1 has ended; an end before that start is an empty line, one behind the bytes is their end.
 * answers[k] is what pelzurda_line gives for line k with so many `slots` for records: the directive's entry or a refusal, and the four numbers of
 * the reading. Slots behind the last answer hold zeros. `text` and `map` are working space of the sizes that the longest line needs, zeroed at the
 * end. */
uint64_t pelzurda_lines(uint32_t language, uint32_t prefix, const uint8_t *book, size_t book_len, const uint8_t *lines, size_t lines_len,
                        const size_t *ends, size_t ends_len, uint8_t *text, size_t text_len, uint16_t *map, size_t map_len, size_t slots,
                        uint64_t (*answers)[5], size_t answers_len);

/* The answers of many texts of clauses under one check of the book: how many texts were answered, as many as there are ends and slots. Text k ends
 * before byte ends[k] of `texts` and starts where text k - 1 has ended, as lines do above. answers[k] is what pelzurda_sequence gives for text k with so
 * many `slots` for records: the number of clauses or a refusal, and the place of the unread rest. Slots behind the last answer hold zeros. */
uint64_t pelzurda_sequences(const uint8_t *book, size_t book_len, const uint8_t *texts, size_t texts_len, const size_t *ends, size_t ends_len,
                            size_t slots, uint64_t (*answers)[2], size_t answers_len);

#ifdef __cplusplus
}
#endif

#endif
