/* Joins a line of C, splits what it says, and prints each item with the bytes of the line that it comes from; then a text of Fortran, in which a
 * backslash is a byte like others. */
#include "pelzurda.h"

#include <stdio.h>
#include <string.h>

#define SLOTS (2 * 8)

static int refused(const char *call, uint64_t answer) {
    printf("%s: refusal %u at %u\n", call, (unsigned)pelzurda_number(answer), (unsigned)pelzurda_place(answer));
    return 1;
}

static uint64_t by_commas(const char *text, uint32_t language, uint16_t *items) {
    return pelzurda_split((const uint8_t *)text, strlen(text), language, 0, 0, items, SLOTS);
}

static int of_c(void) {
    const char line[] = "count, data[0:n], \\\n    f(x, y), \"a,b\"";
    const size_t line_len = strlen(line);
    uint8_t text[64];
    uint16_t map[65];
    uint16_t items[SLOTS];

    uint64_t length = pelzurda_join(PELZURDA_C, PELZURDA_OMP, (const uint8_t *)line, line_len, text, 64, map, 65);
    if (pelzurda_is_refused(length)) {
        return refused("join", length);
    }
    uint64_t count = pelzurda_split(text, length, PELZURDA_C, 0, 0, items, SLOTS);
    if (pelzurda_is_refused(count)) {
        return refused("split", count);
    }
    for (uint64_t k = 0; k < count; k++) {
        const size_t start = items[2 * k], end = items[2 * k + 1];
        uint64_t span[2];
        uint64_t back = pelzurda_map_back(map, 65, length, start, end, span);
        if (pelzurda_is_refused(back)) {
            return refused("map-back", back);
        }
        printf("%-12.*s bytes %2u to %2u of the line\n", (int)(end - start), (const char *)text + start, (unsigned)span[0], (unsigned)span[1]);
    }
    uint64_t wrong = by_commas("a, (b", PELZURDA_C, items);
    return refused("an open bracket", wrong) == 1 && pelzurda_number(wrong) == PELZURDA_UNCLOSED_BRACKET ? 0 : 1;
}

/* A path that ends in a backslash: the quote behind it closes the literal in Fortran, and does not in C. */
static int of_fortran(void) {
    const char text[] = "'c:\\data\\', n";
    uint16_t items[SLOTS];

    uint64_t count = by_commas(text, PELZURDA_FORTRAN_FREE, items);
    if (pelzurda_is_refused(count)) {
        return refused("split", count);
    }
    for (uint64_t k = 0; k < count; k++) {
        printf("%-12.*s item %u of Fortran\n", items[2 * k + 1] - items[2 * k], text + items[2 * k], (unsigned)k);
    }
    uint64_t wrong = by_commas(text, PELZURDA_C, items);
    return refused("the same in C", wrong) == 1 && count == 2 && pelzurda_number(wrong) == PELZURDA_UNCLOSED_QUOTE ? 0 : 1;
}

int main(void) { return of_c() + of_fortran(); }
