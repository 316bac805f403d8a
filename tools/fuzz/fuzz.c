/* Calls every exported function with generated inputs and slots, and holds what it leaves to include/pelzurda.h.
 *
 *   fuzz BOOK --small            every length up to 80 with every combination of slots, and some thousand random calls: for the gate
 *   fuzz BOOK [SEED] [CALLS]     so many random calls (default: seed 1, 1,000,000)
 *
 * Each call is made three times, with slices that end at a page that nobody may touch, that begin behind one, and that stand anywhere between, filled with other
 * bytes each time. Answer and every lent byte must be the same, so that all of them are determined, and whatever the alignment. Inputs can't be written. */
#define _GNU_SOURCE
#include "calls.h"
#include "pelzurda.h"
#include "texts.h"

#include <inttypes.h>
#include <signal.h>
#include <stdbool.h>
#include <stdio.h>
#include <stdlib.h>
#include <string.h>
#include <unistd.h>

#define COUNT(array) (sizeof(array) / sizeof *(array))

/* The byte of a record that no call promises to write, behind `parenthesized`. It goes with P8, and this exception with it. */
enum { UNUSED_BYTE = 7 };
_Static_assert(offsetof(struct pelzurda_record, parenthesized) + 1 == UNUSED_BYTE && offsetof(struct pelzurda_record, content_start) == UNUSED_BYTE + 1,
               "every byte of a record is used: the exception can go");

enum { LONGEST_WAIT = 120 };

static uint64_t seed, performed;
static uint64_t met[20];
static const struct request *current;
static struct outcome first, other, reference;
static struct book sample;

/* The input as a C string, cut where it is long. */
static void print_bytes(const uint8_t *bytes, size_t count) {
    putchar('"');
    for (size_t i = 0; i < count && i < 3000; i++) {
        if (bytes[i] == '"' || bytes[i] == '\\') {
            printf("\\%c", bytes[i]);
        } else if (bytes[i] >= 32 && bytes[i] < 127) {
            putchar(bytes[i]);
        } else {
            printf("\\%03o", bytes[i]);
        }
    }
    puts(count > 3000 ? "\" .." : "\"");
}

static void describe(const struct request *r) {
    const struct form *form = &forms[r->call];
    printf("pelzurda_%s, numbers %" PRIu64 " %" PRIu64 " %" PRIu64 "\n", form->name, r->number[0], r->number[1], r->number[2]);
    for (size_t i = 0; i < form->inputs; i++) {
        printf("input of %zu elements of %zu bytes: ", r->count[i], form->input_unit[i]);
        print_bytes(r->input[i], r->count[i] * form->input_unit[i]);
    }
    for (size_t i = 0; i < form->lent; i++) {
        printf("lent: %zu slots of %zu bytes\n", r->slots[i], form->lent_unit[i]);
    }
}

static _Noreturn void fault(const struct request *r, const char *what) {
    printf("fuzz: %s (seed %" PRIu64 ", call %" PRIu64 ")\n", what, seed, performed);
    describe(r);
    fflush(stdout);
    _exit(1);
}

/* Printing is no more than a hope here, but the process ends anyway. */
static void on_signal(int number) {
    if (current == NULL) {
        _exit(3);
    }
    fault(current, number == SIGALRM ? "a call does not end" : "a call touched what it was not lent");
}

static void catch_signals(void) {
    static uint8_t stack[1 << 16];
    stack_t other_stack = {.ss_sp = stack, .ss_size = sizeof stack};
    struct sigaction action = {.sa_handler = on_signal, .sa_flags = SA_ONSTACK};
    sigaltstack(&other_stack, NULL);
    sigaction(SIGSEGV, &action, NULL);
    sigaction(SIGBUS, &action, NULL);
    sigaction(SIGILL, &action, NULL);
    sigaction(SIGFPE, &action, NULL);
    sigaction(SIGALRM, &action, NULL);
}

static void must(const struct request *r, bool holds, const char *what) {
    if (!holds) {
        fault(r, what);
    }
}

static bool is_zero(const void *bytes, size_t count) {
    const uint8_t *b = bytes;
    return count == 0 || (b[0] == 0 && memcmp(b, b + 1, count - 1) == 0);
}

static bool is_fortran(uint64_t language) { return (uint32_t)language == PELZURDA_FORTRAN_FREE || (uint32_t)language == PELZURDA_FORTRAN_FIXED; }

static uint64_t refusal(uint64_t number, uint64_t place) { return ((uint64_t)1 << 63) + (number << 32) + place; }

static bool is_one_of(uint32_t number, const char *numbers) { return number != 0 && number < 20 && strchr(numbers, (int)number) != NULL; }

static size_t records_of(enum call call) { return call == SEQUENCE ? 0 : call == LINE ? 2 : MOST_LENT; }

static void forget_unused(const struct request *r, struct outcome *outcome) {
    size_t i = records_of(r->call);
    if (i < MOST_LENT) {
        for (size_t k = 0; k < r->slots[i]; k++) {
            outcome->left[i][k * sizeof(struct pelzurda_record) + UNUSED_BYTE] = 0;
        }
    }
}

static void run(const struct request *r, uint8_t fill, enum place place, struct outcome *outcome) {
    current = r;
    const char *wrong = perform(r, (struct setting){fill, place, {performed ^ fill}}, outcome);
    must(r, wrong == NULL, wrong);
    forget_unused(r, outcome);
}

static void must_agree(const struct request *r, const struct outcome *a, const struct outcome *b, const char *what) {
    must(r, a->answer == b->answer, what);
    for (size_t i = 0; i < forms[r->call].lent; i++) {
        must(r, memcmp(a->left[i], b->left[i], r->slots[i] * forms[r->call].lent_unit[i]) == 0, what);
    }
}

/* Refusals 1 and 2 of a text; 0 for none. */
static uint64_t text_refusal(const uint8_t *text, size_t length) {
    if (length > PELZURDA_MAX_LENGTH) {
        return refusal(PELZURDA_TOO_LONG, PELZURDA_MAX_LENGTH);
    }
    for (size_t i = 0; i < length; i++) {
        if (text[i] > 127) {
            return refusal(PELZURDA_HIGH_BYTE, i);
        }
    }
    return 0;
}

/* The refusals that are known before anything is read; 0 for none. */
static uint64_t early_refusal(const struct request *r) {
    bool has_book = r->call == SEQUENCE || r->call == LINE;
    const uint8_t *book = r->input[0];
    size_t length = r->count[has_book];
    bool is_joined = r->call == JOIN || r->call == LINE;
    uint64_t found = has_book || is_joined || r->call == SPLIT || r->call == COPY ? text_refusal(r->input[has_book], length) : 0;
    if (found == 0 && ((is_joined && (r->slots[0] < length || r->slots[1] < length + 1)) || (r->call == COPY && r->slots[0] < length))) {
        found = refusal(PELZURDA_SHORT_BUFFER, 0);
    }
    if (found == 0 && has_book) {
        found = pelzurda_check_book(book, r->count[0]);
    }
    if (found == 0 && r->call == LINE && is_fortran(r->number[0]) != (book[5] & 1)) {
        found = refusal(PELZURDA_WRONG_LANGUAGE, 0);
    }
    return found;
}

/* The numbers of refusals of a call that are not known early. */
static const char *const later_refusals[CALLS] = {
    [TRIM] = "",
    [SPLIT] = "\x08\x0d\x0e\x0f\x10\x11\x12",
    [JOIN] = "\x06",
    [MAP_BACK] = "\x01\x03\x13",
    [COPY] = "",
    [CHECK_BOOK] = "\x04",
    [SEQUENCE] = "\x08\x0a\x0b\x0c\x0d\x0e",
    [LINE] = "\x06\x07\x08\x09\x0a\x0b\x0c\x0d\x0e",
    [LINES] = "",
    [SEQUENCES] = "",
};

static void check_refusal(const struct request *r, uint64_t early) {
    uint32_t number = pelzurda_number(first.answer);
    size_t length = r->count[r->call == SEQUENCE || r->call == LINE];
    if (early == 0) {
        must(r, is_one_of(number, later_refusals[r->call]), "a refusal with a number that is not its call's");
        must(r, r->call == MAP_BACK || pelzurda_place(first.answer) <= length, "a refusal behind the text");
    }
    for (size_t i = 0; i < forms[r->call].lent; i++) {
        must(r, is_zero(first.left[i], r->slots[i] * forms[r->call].lent_unit[i]), "a slot is not zero after a refusal");
    }
    met[number]++;
}

static bool is_trimmed_byte(uint8_t b) { return (b >= 9 && b <= 13) || b == 32; }

static void check_trim(const struct request *r) {
    const uint8_t *text = r->input[0];
    const uint64_t *range = (const void *)first.left[0];
    size_t start = 0, end = r->count[0];
    while (start < end && is_trimmed_byte(text[start])) {
        start++;
    }
    while (start < end && is_trimmed_byte(text[end - 1])) {
        end--;
    }
    if (start == r->count[0]) {
        start = end = 0;
    }
    must(r, range[0] == start && range[1] == end && first.answer == end - start, "another range than trimming leaves");
}

static void check_split(const struct request *r) {
    const uint16_t *items = (const void *)first.left[0];
    const uint8_t *text = r->input[0];
    size_t count = first.answer, at = 0;
    must(r, count >= 1 && 2 * count <= r->slots[0], "more items than slots");
    for (size_t k = 0; k < count; k++) {
        size_t start = items[2 * k], end = items[2 * k + 1];
        must(r, at <= start && start < end && end <= r->count[0], "an item out of place");
        must(r, !is_trimmed_byte(text[start]) && !is_trimmed_byte(text[end - 1]), "an item that is not trimmed");
        at = end + 1;
    }
    must(r, is_zero(items + 2 * count, (r->slots[0] - 2 * count) * 2), "a number behind the items is not zero");
}

/* Text and map of a line that was joined to a length. */
static void check_joined(const struct request *r, const uint8_t *line, size_t line_length, size_t length) {
    const uint8_t *text = first.left[0];
    const uint16_t *map = (const void *)first.left[1];
    must(r, length <= line_length && map[length] == line_length, "a joined text that is too long, or its end elsewhere");
    for (size_t i = 0; i < length; i++) {
        must(r, map[i] < map[i + 1] && text[i] == line[map[i]], "a byte of the text that is not the line's");
    }
    must(r, is_zero(text + length, r->slots[0] - length), "a slot behind the text is not zero");
    must(r, is_zero(map + length + 1, (r->slots[1] - length - 1) * 2), "a slot behind the map is not zero");
}

static void check_map_back(const struct request *r) {
    const uint16_t *map = r->input[0];
    const uint64_t *span = (const void *)first.left[0];
    uint64_t length = r->number[0], start = r->number[1], end = r->number[2];
    uint64_t due = length > PELZURDA_MAX_LENGTH   ? refusal(PELZURDA_TOO_LONG, PELZURDA_MAX_LENGTH)
                   : r->count[0] < length + 1     ? refusal(PELZURDA_SHORT_BUFFER, 0)
                   : start > end || end > length  ? refusal(PELZURDA_BAD_SPAN, 0)
                                                  : 0;
    must(r, first.answer == due, "another answer than map-back's");
    must(r, due != 0 || (span[0] == map[start] && span[1] == map[end]), "another span than the map's");
}

static void check_copy(const struct request *r) {
    must(r, first.answer <= r->count[0], "a copy that is longer than its content");
    must(r, is_zero(first.left[0] + first.answer, r->slots[0] - first.answer), "a slot behind the copy is not zero");
}

/* So many records of a text of so many bytes, from a place of it on up to its unread rest. */
static void check_records(const struct request *r, const struct pelzurda_record *records, size_t slots, size_t count, size_t at, size_t rest, size_t length) {
    const uint8_t *book = r->input[0];
    must(r, count <= slots && rest <= length, "more records than slots, or a rest behind the text");
    for (size_t k = 0; k < count; k++) {
        const struct pelzurda_record *one = &records[k];
        must(r, at <= one->name_start && one->name_start < one->name_end && one->name_end <= rest, "a name out of place");
        must(r, one->entry < book[8] || one->entry == PELZURDA_NO_ENTRY, "an entry that the book has not");
        at = one->name_end;
        if (one->parenthesized) {
            must(r, at < one->content_start && one->content_start <= one->content_end && one->content_end < rest, "a content out of place");
            at = one->content_end + 1u;
        } else {
            must(r, one->content_start == 0 && one->content_end == 0, "a bare clause with a content");
        }
        must(r, k + 1 == count || !one->trailing, "a trailing comma behind a clause that is not the last");
    }
    must(r, is_zero(records + count, (slots - count) * sizeof *records), "a record behind the last is not zero");
}

static void check_line(const struct request *r) {
    const uint64_t *reading = (const void *)first.left[3];
    const uint8_t *book = r->input[0];
    struct request joined = {.call = JOIN, .number = {r->number[0], r->number[1]}, .input = {r->input[1]}, .count = {r->count[1]}, .slots = {r->slots[0], r->slots[1]}};
    perform(&joined, (struct setting){0, AT_END, {0}}, &reference);
    size_t length = reference.answer;
    must(r, !pelzurda_is_refused(reference.answer), "a line is read that is not joined");
    check_joined(r, r->input[1], r->count[1], length);
    must(r, memcmp(first.left[0], reference.left[0], r->slots[0]) == 0 && memcmp(first.left[1], reference.left[1], r->slots[1] * 2) == 0, "a line that is joined otherwise");
    must(r, first.answer < book[7], "a directive that the book has not");
    must(r, reading[0] < reading[1] && reading[1] <= reading[3], "a directive's name out of place");
    check_records(r, (const void *)first.left[2], r->slots[2], reading[2], reading[1], reading[3], length);
}

/* Each answer of many is the single call's. */
static void check_many(const struct request *r) {
    bool lines = r->call == LINES;
    const uint64_t *answers = (const void *)first.left[lines ? 2 : 0];
    const size_t *ends = r->input[2];
    const uint8_t *bytes = r->input[1];
    size_t width = lines ? 5 : 2, lent = r->slots[lines ? 2 : 0], slots = r->number[lines ? 2 : 0], at = 0;
    size_t count = lent < r->count[2] ? lent : r->count[2];
    must(r, first.answer == count, "another number of answers");
    must(r, !lines || (is_zero(first.left[0], r->slots[0]) && is_zero(first.left[1], r->slots[1] * 2)), "working space is not zero");
    must(r, is_zero(answers + count * width, (lent - count) * width * 8), "an answer behind the last is not zero");
    for (size_t k = 0; k < count; k++) {
        size_t end = ends[k] < at ? at : ends[k] > r->count[1] ? r->count[1] : ends[k];
        size_t length = end - at, most = length < MOST_TEXT ? length + 1 : MOST_TEXT;
        struct request one = {.call = lines ? LINE : SEQUENCE, .input = {r->input[0], bytes + at}, .count = {r->count[0], length}};
        if (lines) {
            memcpy(one.number, r->number, 2 * sizeof *one.number);
            memcpy(one.slots, r->slots, 2 * sizeof *one.slots);
        }
        one.slots[lines ? 2 : 0] = slots < most ? slots : most;
        one.slots[lines ? 3 : 1] = lines ? 4 : 1;
        perform(&one, (struct setting){0, AT_END, {0}}, &reference);
        must(r, answers[k * width] == reference.answer, "an answer of many that is not the single call's");
        must(r, memcmp(answers + k * width + 1, reference.left[lines ? 3 : 1], (width - 1) * 8) == 0, "a number of many that is not the single call's");
        at = end;
    }
}

static void check_given(const struct request *r) {
    switch (r->call) {
    case TRIM:
        check_trim(r);
        break;
    case SPLIT:
        check_split(r);
        break;
    case JOIN:
        check_joined(r, r->input[0], r->count[0], first.answer);
        break;
    case COPY:
        check_copy(r);
        break;
    case CHECK_BOOK:
        must(r, first.answer == 0, "another answer than 0 for a book");
        break;
    case SEQUENCE:
        check_records(r, (const void *)first.left[0], r->slots[0], first.answer, 0, ((const uint64_t *)first.left[1])[0], r->count[1]);
        break;
    case LINE:
        check_line(r);
        break;
    case LINES:
    case SEQUENCES:
        check_many(r);
        break;
    default:
        break;
    }
    met[0]++;
}

/* A number that stands for no language or no prefix means the first of them; one that is not 0 means yes. */
static void check_unknown(const struct request *r) {
    struct request known = *r;
    if (r->call == MAP_BACK || r->call == SEQUENCES) {
        return;
    }
    known.number[0] = is_fortran(r->number[0]) ? r->number[0] : PELZURDA_C;
    if (r->call == SPLIT) {
        known.number[1] = r->number[1] != 0;
        known.number[2] = r->number[2] != 0;
    } else {
        known.number[1] = r->number[1] == PELZURDA_ACC ? PELZURDA_ACC : PELZURDA_OMP;
    }
    if (memcmp(known.number, r->number, sizeof known.number) != 0) {
        run(&known, 0x3c, WITHIN, &other);
        must_agree(r, &first, &other, "an unknown number is read otherwise");
    }
}

static void check(const struct request *r) {
    performed++;
    if (performed % 1024 == 0) {
        alarm(LONGEST_WAIT);
    }
    enum place places[2] = {performed % 2 ? AT_END : AT_FRONT, performed % 2 ? AT_FRONT : AT_END};
    run(r, 0x55, places[0], &first);
    run(r, 0xaa, places[1], &other);
    must_agree(r, &first, &other, "the bytes before a call, or where they stand, show in its answer");
    run(r, (uint8_t)(performed * 37), WITHIN, &other);
    must_agree(r, &first, &other, "the alignment of a slice shows in an answer");
    check_unknown(r);
    if (r->call == MAP_BACK) {
        check_map_back(r);
    }
    uint64_t early = early_refusal(r);
    must(r, early == 0 || first.answer == early, "another answer than a refusal that is due");
    if (pelzurda_is_refused(first.answer)) {
        check_refusal(r, early);
    } else {
        check_given(r);
    }
}

static uint64_t any_language(struct random *random) {
    static const uint32_t others[] = {3, 4, 255, 256, 0x80000000, 0xffffffff};
    return once_in(random, 8) ? others[below(random, COUNT(others))] : below(random, 3);
}

static uint64_t any_flag(struct random *random) { return once_in(random, 8) ? (uint32_t)draw(random) : below(random, 2); }

static size_t any_number(struct random *random, size_t near) {
    switch (below(random, 8)) {
    case 0:
        return SIZE_MAX - below(random, 3);
    case 1:
        return (size_t)draw(random);
    default:
        return near + below(random, 3) - 1;
    }
}

/* Slots about the number that a call needs, mostly enough of them. */
static size_t any_slots(struct random *random, size_t exact) {
    switch (below(random, 24)) {
    case 0:
        return 0;
    case 1:
        return 1 + below(random, 9);
    case 2:
    case 3:
        return exact > 0 ? exact - 1 : 0;
    case 4:
        return 511 + below(random, 3);
    case 5:
        return exact + below(random, 64);
    case 6:
    case 7:
        return once_in(random, 8) ? 45000 - below(random, 3) : exact + 1;
    default:
        return exact;
    }
}

/* How many items or clauses there are, if there is room for any number. */
static size_t needed(const struct request *r) {
    struct request roomy = *r;
    size_t i = r->call == LINE ? 2 : 0;
    roomy.slots[i] = MOST_TEXT;
    current = r;
    perform(&roomy, (struct setting){0, AT_END, {0}}, &reference);
    if (pelzurda_is_refused(reference.answer)) {
        return 1;
    }
    return r->call == LINE ? ((const uint64_t *)reference.left[3])[2] : reference.answer;
}

/* The exact slots of a call, in the order of its lent slices. */
static void exact_slots(struct request *r) {
    const struct form *form = &forms[r->call];
    memcpy(r->slots, form->fixed, sizeof r->slots);
    switch (r->call) {
    case SPLIT:
        r->slots[0] = 2 * needed(r);
        break;
    case JOIN:
        r->slots[0] = r->count[0];
        r->slots[1] = r->count[0] + 1;
        break;
    case COPY:
        r->slots[0] = r->count[0];
        break;
    case SEQUENCE:
        r->slots[0] = needed(r);
        break;
    case LINE:
        r->slots[0] = r->count[1];
        r->slots[1] = r->count[1] + 1;
        r->slots[2] = needed(r);
        break;
    case LINES:
        r->slots[0] = MOST_TEXT;
        r->slots[1] = MOST_TEXT + 1;
        r->slots[2] = r->count[2];
        break;
    case SEQUENCES:
        r->slots[0] = r->count[2];
        break;
    default:
        break;
    }
}

enum { MOST_ENDS = 64 };

/* The inputs that a request points to. */
struct inputs {
    struct book book;
    struct text text;
    uint8_t many[4 * MOST_TEXT];
    uint16_t map[MOST_TEXT];
    size_t ends[MOST_ENDS];
};

static void make_many(struct random *random, struct request *r, struct inputs *in) {
    size_t count = below(random, once_in(random, 6) ? MOST_ENDS : 6), total = 0;
    for (size_t k = 0; k < count; k++) {
        size_t length = random_length(random);
        if (r->call == LINES) {
            random_line(random, &in->book, (uint32_t)r->number[0], (uint32_t)r->number[1], length, &in->text);
        } else {
            random_text(random, &in->book, length, &in->text);
        }
        if (total + in->text.length <= sizeof in->many) {
            memcpy(in->many + total, in->text.bytes, in->text.length);
            total += in->text.length;
        }
        in->ends[k] = once_in(random, 12) ? any_number(random, below(random, total + 2)) : total;
    }
    r->input[1] = in->many;
    r->count[1] = total;
    r->input[2] = in->ends;
    r->count[2] = count;
    r->number[r->call == LINES ? 2 : 0] = once_in(random, 3) ? below(random, 4) : any_number(random, 512);
}

/* A request for a text of so many bytes, with the slots that it needs. */
static void make_request(struct random *random, enum call call, size_t length, struct request *r, struct inputs *in) {
    *r = (struct request){.call = call};
    r->number[0] = any_language(random);
    r->number[1] = call == SPLIT ? any_flag(random) : once_in(random, 8) ? any_language(random) : below(random, 2);
    r->number[2] = any_flag(random);
    random_book(random, &sample, (uint32_t)r->number[0], &in->book);
    switch (call) {
    case JOIN:
    case LINE:
        random_line(random, &in->book, (uint32_t)r->number[0], (uint32_t)r->number[1], length, &in->text);
        break;
    case MAP_BACK:
        for (size_t i = 0; i < length; i++) {
            in->map[i] = (uint16_t)draw(random);
        }
        break;
    default:
        random_text(random, &in->book, length, &in->text);
    }
    r->input[0] = in->text.bytes;
    r->count[0] = length;
    if (call == MAP_BACK) {
        r->input[0] = in->map;
        r->number[0] = any_number(random, length);
        r->number[1] = any_number(random, below(random, length + 2));
        r->number[2] = any_number(random, below(random, length + 2));
    } else if (forms[call].inputs > 1 || call == CHECK_BOOK) {
        r->input[0] = in->book.bytes;
        r->count[0] = in->book.length;
        r->input[1] = in->text.bytes;
        r->count[1] = length;
    }
    if (call == LINES || call == SEQUENCES) {
        make_many(random, r, in);
    }
    exact_slots(r);
}

static void random_call(struct random *random, struct inputs *in) {
    struct request r;
    enum call call = (enum call)below(random, CALLS);
    /* the opening words alone take some bytes */
    size_t more = (call == LINE || call == JOIN) && !once_in(random, 4) ? 40 : 0, length = random_length(random) + more;
    make_request(random, call, length < MOST_TEXT ? length : MOST_TEXT, &r, in);
    for (size_t i = 0; i < forms[r.call].lent; i++) {
        if (forms[r.call].fixed[i] == 0) {
            size_t most = MOST_LENT_BYTES / forms[r.call].lent_unit[i], slots = any_slots(random, r.slots[i]);
            r.slots[i] = slots < most ? slots : most;
        }
    }
    check(&r);
}

/* Every combination of slots from a slice on. */
static void each_slots(struct request *r, size_t from) {
    const struct form *form = &forms[r->call];
    if (from == form->lent) {
        check(r);
        return;
    }
    size_t exact = r->slots[from];
    size_t tried[] = {0, 1, exact - 1, exact, exact + 1, 511, 512, 513};
    for (size_t i = 0; i < (form->fixed[from] ? 1 : COUNT(tried)); i++) {
        r->slots[from] = form->fixed[from] ? form->fixed[from] : tried[i] > MOST_TEXT ? 5000 : tried[i];
        each_slots(r, from + 1);
    }
    r->slots[from] = exact;
}

static void sweep(struct random *random, struct inputs *in) {
    for (int call = 0; call < CALLS; call++) {
        for (size_t length = 0; length <= 80; length++) {
            struct request r;
            make_request(random, (enum call)call, length, &r, in);
            each_slots(&r, 0);
        }
        for (size_t length = PELZURDA_MAX_LENGTH - 1; length <= PELZURDA_MAX_LENGTH + 1; length++) {
            struct request r;
            make_request(random, (enum call)call, length, &r, in);
            check(&r);
        }
    }
}

static void read_sample(const char *path) {
    FILE *file = fopen(path, "rb");
    if (file == NULL || (sample.length = fread(sample.bytes, 1, sizeof sample.bytes, file)) < 9) {
        fprintf(stderr, "fuzz: no book at %s\n", path);
        exit(3);
    }
    fclose(file);
    find_names(&sample);
}

int main(int count, char **words) {
    static struct inputs in;
    if (count < 2) {
        fputs("usage: fuzz BOOK --small | fuzz BOOK [SEED] [CALLS]\n", stderr);
        return 3;
    }
    bool small = count > 2 && strcmp(words[2], "--small") == 0;
    seed = !small && count > 2 ? strtoull(words[2], NULL, 0) : 1;
    uint64_t calls = small ? 60000 : count > 3 ? strtoull(words[3], NULL, 0) : 1000000;
    struct random random = {seed};
    read_sample(words[1]);
    make_areas();
    make_outcome(&first);
    make_outcome(&other);
    make_outcome(&reference);
    catch_signals();
    alarm(LONGEST_WAIT);
    if (small) {
        sweep(&random, &in);
    }
    for (uint64_t i = 0; i < calls; i++) {
        random_call(&random, &in);
    }
    unsigned kinds = 0;
    uint64_t refused = 0;
    for (size_t i = 1; i < COUNT(met); i++) {
        kinds += met[i] > 0;
        refused += met[i];
    }
    printf("fuzz: %" PRIu64 " calls, each in three settings, %" PRIu64 " refused by %u of 19 numbers; seed %" PRIu64 ", no fault\n", performed, refused, kinds, seed);
    return 0;
}
