/* Memory that a call is lent: it ends where nothing may be touched, or begins right behind such a page, with canaries on the other side. */
#ifndef GUARD_H
#define GUARD_H

#include <stddef.h>
#include <stdint.h>

enum { PAGE = 4096 };

/* Where a slice stands in its area. */
enum place { AT_END, AT_FRONT, WITHIN };

/* Pages between two that nobody may touch. `seen` is what a call gets: for inputs it can't be written, though `own` can. */
struct area {
    uint8_t *own;
    uint8_t *seen;
    size_t size;
};

/* A slice of an area, with so many bytes before and behind it that hold canaries. */
struct lent {
    uint8_t *own;
    uint8_t *seen;
    size_t bytes;
    size_t before;
    size_t behind;
};

/* An area of at least so many bytes, and a page for the canaries of the longest slice. */
struct area output_area(size_t bytes);
struct area input_area(size_t bytes);

/* So many bytes of an area, `offset` from its front where they stand within it. */
struct lent lend(const struct area *area, size_t bytes, enum place place, size_t offset);

/* Whether the canaries around a slice are whole. */
int is_whole(const struct lent *lent);

#endif
