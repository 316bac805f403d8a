#include "texts.h"

#include "pelzurda.h"

#include <string.h>

#define COUNT(array) (sizeof(array) / sizeof *(array))

size_t random_length(struct random *random) {
    static const size_t edges[] = {15, 16, 17, 31, 32, 33, 63, 64, 65, 127, 128, 255, 256, 257, 511, 512, 513, 4095, 4096, 4097};
    switch (below(random, 64)) {
    case 0:
        return PELZURDA_MAX_LENGTH - 3 + below(random, 6);
    case 1:
        return below(random, MOST_TEXT);
    case 2:
    case 3:
        return below(random, 2000);
    case 4:
    case 5:
    case 6:
    case 7:
        return edges[below(random, COUNT(edges))];
    default:
        return below(random, once_in(random, 3) ? 250 : 60);
    }
}

static void put(struct text *text, size_t length, const void *bytes, size_t count) {
    size_t room = length - text->length;
    size_t taken = count < room ? count : room;
    memcpy(text->bytes + text->length, bytes, taken);
    text->length += taken;
}

static void put_word(struct text *text, size_t length, const char *word) { put(text, length, word, strlen(word)); }

/* One of some names of the book, in its case or with some letters in the other, and not always whole. */
static void put_one_of(struct random *random, const struct book *book, size_t first, size_t count, struct text *text, size_t length) {
    if (count == 0) {
        put_word(text, length, "parallel");
        return;
    }
    const uint8_t *entry = book->bytes + book->names[first + below(random, count)];
    uint8_t name[64];
    size_t bytes = entry[0];
    memcpy(name, entry + 1, bytes);
    if (once_in(random, 6)) {
        for (size_t i = 0; i < bytes; i++) {
            if ((name[i] | 32) >= 'a' && (name[i] | 32) <= 'z' && once_in(random, 2)) {
                name[i] ^= 32;
            }
        }
    }
    if (once_in(random, 20)) {
        name[below(random, bytes)] = (uint8_t) "p0y9_ aZ"[below(random, 8)];
    }
    put(text, length, name, once_in(random, 20) ? below(random, bytes) + 1 : bytes);
}

static void put_name(struct random *random, const struct book *book, struct text *text, size_t length) {
    size_t directives = book->named < book->directives ? book->named : book->directives;
    if (once_in(random, 12)) {
        put_one_of(random, book, 0, directives, text, length);
    } else {
        put_one_of(random, book, directives, book->named - directives, text, length);
    }
}

static const char *const pieces[] = {
    "(",      ")",      "[",      "]",      "{",       "}",       "<",      ">",       "()",     "(a)",    "(b, c)", "((((",  "))))", "a",
    "b",      "x1",     "if",     "nowait", "private", "omp",     "acc",    "#",       "pragma", "'",      "\"",     "''",    "\"\"", "'a'",
    "\"b\"",  "\\",     "\\\\",   "\\'",    "\\\"",    "/*",      "*/",     "/**/",    "/* c */", "//",    "// c\n", "/",     "*",    "!",
    "!$",     "!$omp",  "!$acc",  "!$omp&", "c$omp",   "C$acc",   "*$omp",  "*$",      "c$",     "! c\n",  "&",      "&\n",   "&\r\n", "&\r",
    "& !x\n", "&\t\n",  "&\v\n",  "&!",     "\\\n",    "\\\r\n",  "\\\r",   "\n",      "\r",     "\r\n",   "\t",     "\v",    "\f",   " ",
    "  ",     "        ", ",",    ", ",     ":",       "::",      "?",      "<=",      "<<",     ">>",     ">=",     ";",     "=",    "+",
    "-",      "0",      "9",      "_",      "@",       "`",       "~",      "\x7f",    "\x1f",   "\x0e",   "!$/*'*/", "//*/", "!$*/", "$"};

/* So many bytes of one kind after the other. */
static void put_pieces(struct random *random, const struct book *book, struct text *text, size_t length) {
    while (text->length < length) {
        if (once_in(random, 6)) {
            put_name(random, book, text, length);
        } else if (once_in(random, 60)) {
            uint8_t any = (uint8_t)draw(random);
            put(text, length, &any, 1);
        } else {
            put_word(text, length, pieces[below(random, COUNT(pieces))]);
        }
    }
}

/* What may stand between words: in any text, in a line of C, in one of Fortran. */
enum manner { ANY, OF_C, OF_FORTRAN };

static const char *any_gap(struct random *random, enum manner manner) {
    static const char *const any[] = {" ", "\t", " /* c */ ", "\\\n", " &\n", " &\n!$omp& ", "\n", "! c\n", "// c\n", "\r\n", "", "\v", "\f"};
    static const char *const of_c[] = {" ", "\t", "  ", " /* c */ ", "/**/", "\\\n", " \\\r\n", "\f"};
    static const char *const of_fortran[] = {" ", "\t", "  ", " &\n", " &\n!$omp& ", " & ! c\r\n !$omp ", "\f"};
    switch (once_in(random, 30) ? ANY : manner) {
    case OF_C:
        return of_c[below(random, COUNT(of_c))];
    case OF_FORTRAN:
        return of_fortran[below(random, COUNT(of_fortran))];
    default:
        return any[below(random, COUNT(any))];
    }
}

/* Clauses, mostly whole, with what may stand between them. */
static void put_clauses(struct random *random, const struct book *book, enum manner manner, struct text *text, size_t length) {
    static const char *const contents[] = {"",    "a",       "i, j",       "a[0:n], b", "'x'",      "\"a, b\"", "+ : total", "(a)",
                                           " a ", "/* c */", "f(x)[1]{2}", "\v",        "a\tb\\c", "'\\'",     "'it''s'",   "n > 1"};
    while (text->length < length) {
        struct text one = {.length = 0};
        put_name(random, book, &one, MOST_TEXT);
        if (!once_in(random, 3)) {
            put_word(&one, MOST_TEXT, once_in(random, 8) ? any_gap(random, manner) : "");
            put_word(&one, MOST_TEXT, "(");
            put_word(&one, MOST_TEXT, contents[below(random, COUNT(contents))]);
            put_word(&one, MOST_TEXT, ")");
        }
        put_word(&one, MOST_TEXT, once_in(random, 4) ? "," : " ");
        put_word(&one, MOST_TEXT, once_in(random, 3) ? any_gap(random, manner) : "");
        /* one that does not fit would be cut */
        if (text->length + one.length <= length || once_in(random, 8)) {
            put(text, length, one.bytes, one.length);
        } else {
            put_word(text, length, " ");
        }
    }
}

/* A unit over and over between a head and a tail: what hostile texts are made of. */
static void put_repeated(struct random *random, const struct book *book, struct text *text, size_t length) {
    struct text unit = {.length = 0}, tail = {.length = 0};
    put_pieces(random, book, &unit, 1 + below(random, 16));
    put_pieces(random, book, &tail, below(random, 12));
    if (once_in(random, 2)) {
        put_pieces(random, book, text, text->length + below(random, length - text->length + 1) % 12);
    }
    while (text->length + tail.length + unit.length <= length) {
        put(text, length, unit.bytes, unit.length);
    }
    put(text, length, tail.bytes, tail.length);
    while (text->length < length) {
        put_word(text, length, " ");
    }
}

static void put_bytes(struct random *random, struct text *text, size_t length, size_t values) {
    while (text->length < length) {
        text->bytes[text->length++] = (uint8_t)below(random, values);
    }
}

static void put_body(struct random *random, const struct book *book, enum manner manner, size_t length, struct text *text) {
    size_t start = text->length;
    switch (below(random, 12)) {
    case 0:
        put_bytes(random, text, length, once_in(random, 3) ? 256 : 128);
        break;
    case 1:
    case 2:
        put_repeated(random, book, text, length);
        break;
    case 3:
    case 4:
        put_pieces(random, book, text, length);
        break;
    default:
        put_clauses(random, book, manner, text, length);
    }
    if (start < length && once_in(random, 6)) {
        uint8_t meant = (uint8_t) "()'\"\\&!*/,\n\r\v "[below(random, 14)];
        text->bytes[start + below(random, length - start)] = once_in(random, 6) ? (uint8_t)draw(random) : meant;
    }
}

void random_text(struct random *random, const struct book *book, size_t length, struct text *text) {
    text->length = 0;
    put_body(random, book, (enum manner)below(random, 3), length, text);
}

void random_line(struct random *random, const struct book *book, uint32_t language, uint32_t prefix, size_t length, struct text *text) {
    int fortran = language == PELZURDA_FORTRAN_FREE || language == PELZURDA_FORTRAN_FIXED;
    enum manner manner = fortran ? OF_FORTRAN : OF_C;
    text->length = 0;
    if (once_in(random, 12)) {
        put_body(random, book, ANY, length, text);
        return;
    }
    if (fortran) {
        put_word(text, length, language == PELZURDA_FORTRAN_FREE ? "!$" : (const char *const[]){"!$", "c$", "C$", "*$"}[below(random, 4)]);
    } else {
        put_word(text, length, once_in(random, 6) ? " #" : "#");
        put_word(text, length, once_in(random, 6) ? any_gap(random, OF_C) : "");
        put_word(text, length, "pragma");
        put_word(text, length, any_gap(random, OF_C));
    }
    put_word(text, length, prefix == PELZURDA_ACC ? "acc" : "omp");
    put_word(text, length, any_gap(random, manner));
    put_one_of(random, book, 0, book->named < book->directives ? book->named : book->directives, text, length);
    put_word(text, length, any_gap(random, manner));
    put_body(random, book, manner, length, text);
}

void find_names(struct book *book) {
    book->named = book->directives = 0;
    if (book->length < 9) {
        return;
    }
    size_t at = 9, directives = book->directives = book->bytes[7], entries = directives + book->bytes[8];
    for (size_t i = 0; i < entries; i++) {
        at += i >= directives;
        if (at >= book->length || book->bytes[at] < 1 || book->bytes[at] > 64 || at + 1 + book->bytes[at] > book->length) {
            return;
        }
        book->names[book->named++] = (uint16_t)at;
        at += 1u + book->bytes[at];
    }
}

static void add(struct book *book, const void *bytes, size_t count) {
    if (book->length + count <= MOST_BOOK) {
        memcpy(book->bytes + book->length, bytes, count);
        book->length += count;
    }
}

/* Flexible for the most part, so that lists go on. */
static uint8_t any_rule(struct random *random) { return once_in(random, 3) ? (uint8_t)below(random, 4) : 2; }

static void add_entry(struct random *random, struct book *book, int is_clause, const char *name, size_t count) {
    uint8_t lead[2] = {any_rule(random), (uint8_t)count};
    add(book, is_clause ? lead : lead + 1, is_clause ? 2 : 1);
    add(book, name, count);
}

/* A name that is no other's: words, some with its number in the two letters that share a signature. */
static size_t make_name(struct random *random, size_t number, int is_clause, char name[64]) {
    static const char *const words[] = {"parallel", "for", "a", "if", "p", "private", "nowait", "x_9", "target", "data", "enter", "loop"};
    size_t count = 0;
    if (number < COUNT(words) && !once_in(random, 5)) {
        count = strlen(words[number]);
        memcpy(name, words[number], count);
        return count;
    }
    if (!is_clause && once_in(random, 2)) {
        const char *word = words[below(random, COUNT(words))];
        count = strlen(word);
        memcpy(name, word, count);
        name[count++] = once_in(random, 9) ? '_' : ' ';
    }
    size_t filled = once_in(random, 3) ? below(random, 40) : below(random, 6);
    for (size_t i = 0; i < filled; i++) {
        name[count++] = "pPxY_"[once_in(random, 2) ? 0 : below(random, 5)];
    }
    for (size_t i = 0; i < 9; i++) {
        name[count++] = number >> i & 1 ? '0' : 'p';
    }
    return count;
}

/* Flags by the language, with rarely another. */
static uint8_t flags_for(struct random *random, uint32_t language) {
    int fortran = language == PELZURDA_FORTRAN_FREE || language == PELZURDA_FORTRAN_FIXED;
    uint8_t flags = (uint8_t)((fortran ? 1 : 0) | (once_in(random, 3) ? 2 : 0));
    return once_in(random, 20) ? (uint8_t)(flags ^ 1) : flags;
}

static void mutate(struct random *random, struct book *book) {
    size_t at = below(random, once_in(random, 3) && book->length > 9 ? 9 : book->length);
    switch (below(random, 6)) {
    case 0:
        book->bytes[at] = (uint8_t)draw(random);
        break;
    case 1:
        book->bytes[at] ^= (uint8_t)(1u << below(random, 8));
        break;
    case 2:
        book->length = at;
        break;
    case 3:
        memmove(book->bytes + at, book->bytes + at + 1, book->length - at - 1);
        book->length--;
        break;
    case 4:
        if (book->length < MOST_BOOK) {
            memmove(book->bytes + at + 1, book->bytes + at, book->length - at);
            book->bytes[at] = (uint8_t) "p0 _\x01\x40\xff\0"[below(random, 8)];
            book->length++;
        }
        break;
    default:
        add(book, "ppp", 1 + below(random, 3));
    }
}

void random_book(struct random *random, const struct book *sample, uint32_t language, struct book *book) {
    if (once_in(random, 12)) {
        memcpy(book->bytes, sample->bytes, sample->length);
        book->length = sample->length;
        book->bytes[5] = flags_for(random, language);
        book->bytes[6] = any_rule(random);
    } else {
        size_t most = once_in(random, 30) ? 255 : once_in(random, 4) ? 40 : 8;
        size_t directives = 1 + below(random, most), clauses = below(random, most + 1);
        uint8_t head[9] = {'D', 'R', 'B', 0, 1, flags_for(random, language), any_rule(random), (uint8_t)directives, (uint8_t)clauses};
        book->length = 0;
        add(book, head, 9);
        for (size_t i = 0; i < directives + clauses; i++) {
            char name[64];
            size_t number = i < directives ? i : i - directives;
            size_t count = make_name(random, number, i >= directives, name);
            add_entry(random, book, i >= directives, name, count);
        }
    }
    while (book->length > 0 && once_in(random, 8)) {
        mutate(random, book);
    }
    if (once_in(random, 200)) {
        book->length = below(random, 200);
        for (size_t i = 0; i < book->length; i++) {
            book->bytes[i] = (uint8_t)draw(random);
        }
    }
    find_names(book);
}
