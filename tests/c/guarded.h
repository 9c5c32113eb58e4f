/*
 * Slices lent to the library, with what stood in them before.
 *
 * A slice stands flush against an unreadable page behind it, flush against one in front of it, or in heap memory of just
 * its size. In the first two places a read or a write outside the slice faults, though the archive is not built for an
 * address checker; the third is where an address checker sees what the program around it does.
 */
#ifndef GUARDED_H
#define GUARDED_H

#include <stddef.h>
#include <stdint.h>

enum { MOST_LENT = 1 << 18, MARK = 0xA5 };
enum role { INPUT, TWIN_INPUT, OUTPUT, TWIN_OUTPUT, LINKS, OFFSETS, TABLE, ROLES };
enum placement { BEFORE_A_GUARD, AFTER_A_GUARD, ON_THE_HEAP, PLACEMENTS };

typedef struct lent {
    uint8_t *bytes;
    size_t length;
    const uint8_t *before;
} lent;

/* Where every slice stands from now on. */
void place_slices(enum placement wanted);

/* A role has one slice at a time: lending the next one takes the one before back. */
lent lend_copy(enum role role, const void *content, size_t length);

/* Filled with marks, so that a changed byte shows. */
lent lend_marked(enum role role, size_t length);

/* A NULL pointer and the count 0. */
lent no_bytes(void);

void take_slices_back(void);

int same_bytes(const void *a, const void *b, size_t length);
int is_unchanged_from(lent slice, size_t from);
int is_unchanged(lent slice);

/* A slice of 64-bit numbers. */
const uint64_t *numbers_of(lent slice);
size_t count_of(lent slice);

#endif
