/* The exported calls in one form: so many numbers, inputs and lent slices each. */
#ifndef CALLS_H
#define CALLS_H

#include "guard.h"
#include "random.h"

#include <stddef.h>
#include <stdint.h>

enum call { TRIM, SPLIT, JOIN, MAP_BACK, COPY, CHECK_BOOK, SEQUENCE, LINE, LINES, SEQUENCES, CALLS };

enum { MOST_INPUTS = 3, MOST_LENT = 4, MOST_LENT_BYTES = 700000 };

/* What a call takes: the bytes of an element of each input and of each lent slice, and how many a slice has where that is fixed. */
struct form {
    const char *name;
    size_t inputs;
    size_t input_unit[MOST_INPUTS];
    size_t lent;
    size_t lent_unit[MOST_LENT];
    size_t fixed[MOST_LENT];
};

extern const struct form forms[CALLS];

/* A call with its inputs, and the number of elements in each slice. The numbers are language and prefix; for a split language, colon and angles; for
 * map-back the text's length, start and end; for many lines language, prefix and slots, for many sequences slots alone. */
struct request {
    enum call call;
    uint64_t number[3];
    const void *input[MOST_INPUTS];
    size_t count[MOST_INPUTS];
    size_t slots[MOST_LENT];
};

/* What a call has left: its answer and every byte that it was lent. */
struct outcome {
    uint64_t answer;
    uint8_t *left[MOST_LENT];
};

/* How memory is lent and filled before a call. */
struct setting {
    uint8_t fill;
    enum place place;
    struct random random;
};

void make_areas(void);
void make_outcome(struct outcome *outcome);

/* Makes a call; says what is wrong with what it did to the memory around its slices, or nothing. */
const char *perform(const struct request *request, struct setting setting, struct outcome *outcome);

#endif
