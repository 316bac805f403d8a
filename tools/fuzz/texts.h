/* Inputs: texts, lines and books, some right, some nearly right, some of any bytes. */
#ifndef TEXTS_H
#define TEXTS_H

#include "random.h"

#include <stddef.h>
#include <stdint.h>

enum { MOST_TEXT = 20000, MOST_BOOK = 40000 };

/* A text that grows up to a length that was asked for. */
struct text {
    uint8_t bytes[MOST_TEXT];
    size_t length;
};

struct book {
    uint8_t bytes[MOST_BOOK];
    size_t length;
    /* where names stand whose form is right, for texts to use, those of directives first */
    uint16_t names[512];
    size_t named;
    size_t directives;
};

/* A length: mostly short, sometimes about a limit. */
size_t random_length(struct random *random);

/* A text of just so many bytes, with the names of a book among its words. */
void random_text(struct random *random, const struct book *book, size_t length, struct text *text);

/* The same behind opening words of a language, so that most lines get as far as their clauses. */
void random_line(struct random *random, const struct book *book, uint32_t language, uint32_t prefix, size_t length, struct text *text);

/* A book, whose flags mostly suit a language. `sample` is a valid one. */
void random_book(struct random *random, const struct book *sample, uint32_t language, struct book *book);

/* The names of a book that was put there as bytes. */
void find_names(struct book *book);

#endif
