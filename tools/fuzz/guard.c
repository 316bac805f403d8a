#define _GNU_SOURCE
#include "guard.h"

#include <stdio.h>
#include <stdlib.h>
#include <string.h>
#include <sys/mman.h>
#include <unistd.h>

enum { CANARY = 0xc5 };

static void *must(void *address) {
    if (address == MAP_FAILED) {
        perror("fuzz: mmap");
        exit(3);
    }
    return address;
}

/* Addresses for so many bytes with a page before and behind them, none of which may be touched yet. */
static uint8_t *reserved(size_t size) {
    return (uint8_t *)must(mmap(NULL, size + 2 * PAGE, PROT_NONE, MAP_PRIVATE | MAP_ANONYMOUS, -1, 0)) + PAGE;
}

static size_t whole_pages(size_t bytes) { return (bytes + PAGE - 1) / PAGE * PAGE + PAGE; }

struct area output_area(size_t bytes) {
    struct area area = {.size = whole_pages(bytes)};
    area.own = area.seen = reserved(area.size);
    must(mmap(area.own, area.size, PROT_READ | PROT_WRITE, MAP_PRIVATE | MAP_ANONYMOUS | MAP_FIXED, -1, 0));
    return area;
}

/* The same memory twice, so that an input can be changed between calls and not in one. */
struct area input_area(size_t bytes) {
    struct area area = {.size = whole_pages(bytes)};
    int file = memfd_create("fuzz", 0);
    if (file < 0 || ftruncate(file, (off_t)area.size) != 0) {
        perror("fuzz: memfd_create");
        exit(3);
    }
    area.own = must(mmap(NULL, area.size, PROT_READ | PROT_WRITE, MAP_SHARED, file, 0));
    area.seen = reserved(area.size);
    must(mmap(area.seen, area.size, PROT_READ, MAP_SHARED | MAP_FIXED, file, 0));
    close(file);
    return area;
}

static size_t lesser(size_t a, size_t b) { return a < b ? a : b; }

struct lent lend(const struct area *area, size_t bytes, enum place place, size_t offset) {
    if (bytes > area->size) {
        fprintf(stderr, "fuzz: %zu bytes do not fit an area of %zu\n", bytes, area->size);
        exit(3);
    }
    size_t room = area->size - bytes;
    size_t start = place == AT_END ? room : place == AT_FRONT ? 0 : lesser(offset, room);
    struct lent lent = {area->own + start, area->seen + start, bytes, lesser(start, PAGE), lesser(room - start, PAGE)};
    memset(lent.own - lent.before, CANARY, lent.before);
    memset(lent.own + bytes, CANARY, lent.behind);
    return lent;
}

static int is_filled(const uint8_t *bytes, size_t count) {
    return count == 0 || (bytes[0] == CANARY && memcmp(bytes, bytes + 1, count - 1) == 0);
}

int is_whole(const struct lent *lent) {
    return is_filled(lent->own - lent->before, lent->before) && is_filled(lent->own + lent->bytes, lent->behind);
}
