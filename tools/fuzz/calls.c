#include "calls.h"

#include "pelzurda.h"

#include <stdlib.h>
#include <string.h>

enum { RECORD = sizeof(struct pelzurda_record) };

const struct form forms[CALLS] = {
    [TRIM] = {"trim", 1, {1}, 1, {8}, {2}},
    [SPLIT] = {"split", 1, {1}, 1, {2}, {0}},
    [JOIN] = {"join", 1, {1}, 2, {1, 2}, {0}},
    [MAP_BACK] = {"map_back", 1, {2}, 1, {8}, {2}},
    [COPY] = {"copy", 1, {1}, 1, {1}, {0}},
    [CHECK_BOOK] = {"check_book", 1, {1}, 0, {0}, {0}},
    [SEQUENCE] = {"sequence", 2, {1, 1}, 2, {RECORD, 8}, {0, 1}},
    [LINE] = {"line", 2, {1, 1}, 4, {1, 2, RECORD, 8}, {0, 0, 0, 4}},
    [LINES] = {"lines", 3, {1, 1, 8}, 3, {1, 2, 40}, {0}},
    [SEQUENCES] = {"sequences", 3, {1, 1, 8}, 1, {16}, {0}},
};

static struct area inputs[MOST_INPUTS], outputs[MOST_LENT];

void make_areas(void) {
    for (size_t i = 0; i < MOST_INPUTS; i++) {
        inputs[i] = input_area(MOST_LENT_BYTES);
    }
    for (size_t i = 0; i < MOST_LENT; i++) {
        outputs[i] = output_area(MOST_LENT_BYTES);
    }
}

void make_outcome(struct outcome *outcome) {
    for (size_t i = 0; i < MOST_LENT; i++) {
        outcome->left[i] = malloc(MOST_LENT_BYTES);
        if (outcome->left[i] == NULL) {
            exit(3);
        }
    }
}

/* Flags are true or false before a call too; every other byte of a record may be anything. */
static void fill(uint8_t *bytes, size_t count, size_t unit, uint8_t pattern) {
    memset(bytes, pattern, count);
    if (unit != RECORD) {
        return;
    }
    for (struct pelzurda_record *record = (void *)bytes; count > 0; count -= RECORD, record++) {
        record->parenthesized = record->preceded = record->trailing = pattern & 1;
    }
}

/* Leaves other bytes on the stack, below which a call works: a slot that is made of what the call never wrote would show them. */
static __attribute__((noinline)) void soil_stack(uint8_t pattern) {
    uint8_t bytes[32768];
    memset(bytes, pattern, sizeof bytes);
    __asm__ volatile("" : : "r"(bytes) : "memory");
}

static uint64_t ask(const struct request *r, const struct lent *in, const struct lent *out) {
    const uint64_t *n = r->number;
    const size_t *c = r->count, *s = r->slots;
    const uint8_t *a = in[0].seen, *b = in[1].seen;
    const size_t *ends = (const void *)in[2].seen;
    void *o[MOST_LENT];
    for (size_t i = 0; i < MOST_LENT; i++) {
        o[i] = out[i].seen;
    }
    switch (r->call) {
    case TRIM:
        return pelzurda_trim(a, c[0], o[0]);
    case SPLIT:
        return pelzurda_split(a, c[0], (uint32_t)n[0], (uint32_t)n[1], (uint32_t)n[2], o[0], s[0]);
    case JOIN:
        return pelzurda_join((uint32_t)n[0], (uint32_t)n[1], a, c[0], o[0], s[0], o[1], s[1]);
    case MAP_BACK:
        return pelzurda_map_back((const void *)a, c[0], n[0], n[1], n[2], o[0]);
    case COPY:
        return pelzurda_copy(a, c[0], o[0], s[0]);
    case CHECK_BOOK:
        return pelzurda_check_book(a, c[0]);
    case SEQUENCE:
        return pelzurda_sequence(a, c[0], b, c[1], o[0], s[0], o[1]);
    case LINE:
        return pelzurda_line((uint32_t)n[0], (uint32_t)n[1], a, c[0], b, c[1], o[0], s[0], o[1], s[1], o[2], s[2], o[3]);
    case LINES:
        return pelzurda_lines((uint32_t)n[0], (uint32_t)n[1], a, c[0], b, c[1], ends, c[2], o[0], s[0], o[1], s[1], n[2], o[2], s[2]);
    case SEQUENCES:
        return pelzurda_sequences(a, c[0], b, c[1], ends, c[2], n[0], o[0], s[0]);
    default:
        abort();
    }
}

const char *perform(const struct request *request, struct setting setting, struct outcome *outcome) {
    const struct form *form = &forms[request->call];
    struct lent in[MOST_INPUTS] = {{0}}, out[MOST_LENT] = {{0}};
    struct random *random = &setting.random;
    for (size_t i = 0; i < form->inputs; i++) {
        size_t unit = form->input_unit[i];
        in[i] = lend(&inputs[i], request->count[i] * unit, setting.place, unit * below(random, 70));
        memcpy(in[i].own, request->input[i], in[i].bytes);
    }
    for (size_t i = 0; i < form->lent; i++) {
        size_t unit = form->lent_unit[i];
        /* records are aligned for their numbers of 16 bits */
        size_t step = unit == RECORD ? 2 : unit == 40 || unit == 16 ? 8 : unit;
        out[i] = lend(&outputs[i], request->slots[i] * unit, setting.place, step * below(random, 70));
        fill(out[i].own, out[i].bytes, unit, setting.fill);
    }
    soil_stack(setting.fill);
    outcome->answer = ask(request, in, out);
    for (size_t i = 0; i < form->inputs; i++) {
        if (!is_whole(&in[i]) || memcmp(in[i].own, request->input[i], in[i].bytes) != 0) {
            return "an input has changed";
        }
    }
    for (size_t i = 0; i < form->lent; i++) {
        if (!is_whole(&out[i])) {
            return "written beside a lent slice";
        }
        memcpy(outcome->left[i], out[i].own, out[i].bytes);
    }
    return NULL;
}
