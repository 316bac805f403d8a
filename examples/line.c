/* Reads a directive line of C under a book, and prints its name, its clauses and the places of the line that they come from. */
#include "pelzurda.h"

#include <stdio.h>
#include <string.h>

/* the directive `parallel for` and the clauses nowait (bare) and private (with an argument), default Unsupported */
static const uint8_t book[] = "DRB\0\1\0\3\1\2\14parallel for\0\6nowait\1\7private";

static void print(const char *what, const uint8_t *text, size_t start, size_t end, const uint16_t *map, size_t map_len, size_t length) {
    uint64_t span[2];
    if (!pelzurda_is_refused(pelzurda_map_back(map, map_len, length, start, end, span))) {
        printf("%-9s %-14.*s bytes %2u to %2u of the line\n", what, (int)(end - start), (const char *)text + start, (unsigned)span[0], (unsigned)span[1]);
    }
}

int main(void) {
    const char line[] = "#pragma omp parallel \\\n    for private(a, b), nowait";
    uint8_t text[64];
    uint16_t map[65];
    struct pelzurda_record records[8] = {{0}};
    uint64_t reading[4];

    if (sizeof(struct pelzurda_record) != 14 || offsetof(struct pelzurda_record, content_start) != 8) {
        return 1;
    }
    uint64_t entry = pelzurda_line(PELZURDA_C, PELZURDA_OMP, book, sizeof book - 1, (const uint8_t *)line, strlen(line), text, 64, map, 65, records, 8, reading);
    if (pelzurda_is_refused(entry)) {
        printf("refusal %u at %u\n", (unsigned)pelzurda_number(entry), (unsigned)pelzurda_place(entry));
        return 1;
    }
    const size_t length = strlen(line) - 2; /* the text: the line without its one break */
    print("name", text, reading[0], reading[1], map, 65, length);
    for (uint64_t k = 0; k < reading[2]; k++) {
        print("clause", text, records[k].name_start, records[k].name_end, map, 65, length);
        if (records[k].parenthesized) {
            print(" content", text, records[k].content_start, records[k].content_end, map, 65, length);
        }
    }
    /* the clauses alone, from a text of their own */
    uint64_t rest[1];
    uint64_t count = pelzurda_sequence(book, sizeof book - 1, (const uint8_t *)"nowait, collapse", 16, records, 8, rest);
    printf("refusal %u at %u, rest %u\n", (unsigned)pelzurda_number(count), (unsigned)pelzurda_place(count), (unsigned)rest[0]);
    /* the answers of four lines under one check of the book; in the second a blank stands behind the hash, in the last a comment without an end */
    const char lines[] = "#pragma omp parallel for nowait\n# pragma omp parallel for nowait\n#pragma omp barrier\n# /* pragma\n";
    const size_t ends[4] = {32, 65, 85, sizeof lines - 1};
    uint64_t answers[4][5];
    uint64_t answered = pelzurda_lines(PELZURDA_C, PELZURDA_OMP, book, sizeof book - 1, (const uint8_t *)lines, sizeof lines - 1, ends, 4, text, 64, map, 65, 8, answers, 4);
    for (uint64_t k = 0; k < answered; k++) {
        if (pelzurda_is_refused(answers[k][0])) {
            printf("line %u: refusal %u at %u\n", (unsigned)k, (unsigned)pelzurda_number(answers[k][0]), (unsigned)pelzurda_place(answers[k][0]));
        } else {
            printf("line %u: entry %u, name %u to %u\n", (unsigned)k, (unsigned)answers[k][0], (unsigned)answers[k][1], (unsigned)answers[k][2]);
        }
    }
    if (answered != 4 || answers[0][1] != 12 || answers[0][2] != 24 || answers[1][1] != 13 || answers[1][2] != 25) {
        return 1;
    }
    if (pelzurda_number(answers[3][0]) != PELZURDA_UNCLOSED_COMMENT || pelzurda_place(answers[3][0]) != 2) {
        return 1;
    }
    /* and of two texts of clauses */
    const char texts[] = "nowaitprivate(i) nowait";
    const size_t text_ends[2] = {6, sizeof texts - 1};
    uint64_t counts[2][2];
    uint64_t counted = pelzurda_sequences(book, sizeof book - 1, (const uint8_t *)texts, sizeof texts - 1, text_ends, 2, 8, counts, 2);
    printf("%u texts: %u and %u clauses, rests %u and %u\n", (unsigned)counted, (unsigned)counts[0][0], (unsigned)counts[1][0], (unsigned)counts[0][1], (unsigned)counts[1][1]);
    if (counted != 2 || counts[0][0] != 1 || counts[0][1] != 6 || counts[1][0] != 2 || counts[1][1] != 17) {
        return 1;
    }
    return reading[2] == 2 && pelzurda_number(count) == PELZURDA_NO_CLAUSE && records[0].name_end == 0 && answers[0][0] == 0 && answers[0][3] == 1 && pelzurda_number(answers[2][0]) == PELZURDA_NO_DIRECTIVE ? 0 : 1;
}
