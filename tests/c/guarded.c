#define _DEFAULT_SOURCE
#include "guarded.h"

#include <stdio.h>
#include <stdlib.h>
#include <string.h>
#include <sys/mman.h>

/* Wider than a page, so that a read some way off faults too. */
enum { GUARD = 1 << 16 };

static uint8_t *arenas[ROLES], *on_heap[ROLES];
static uint8_t kept[ROLES][MOST_LENT];
static enum placement placement;

static void *checked(void *memory)
{
    if (memory == NULL || memory == MAP_FAILED) {
        fputs("guarded slices: no memory\n", stderr);
        exit(2);
    }
    return memory;
}

static void make_arenas(void)
{
    int role;
    for (role = 0; role < ROLES; role++) {
        uint8_t *whole = checked(mmap(NULL, MOST_LENT + 2 * GUARD, PROT_NONE, MAP_PRIVATE | MAP_ANONYMOUS, -1, 0));
        arenas[role] = whole + GUARD;
        if (mprotect(arenas[role], MOST_LENT, PROT_READ | PROT_WRITE) != 0)
            checked(NULL);
    }
}

void place_slices(enum placement wanted)
{
    if (arenas[0] == NULL)
        make_arenas();
    placement = wanted;
}

static void take_back(enum role role)
{
    free(on_heap[role]);
    on_heap[role] = NULL;
}

void take_slices_back(void)
{
    int role;
    for (role = 0; role < ROLES; role++)
        take_back((enum role)role);
}

static uint8_t *room_for(enum role role, size_t length)
{
    take_back(role);
    if (placement == ON_THE_HEAP)
        return on_heap[role] = checked(malloc(length > 0 ? length : 1));
    return placement == BEFORE_A_GUARD ? arenas[role] + MOST_LENT - length : arenas[role];
}

/* Where a role keeps what it lends. */
static uint8_t *keeper(enum role role, size_t length) { return length <= MOST_LENT ? kept[role] : checked(NULL); }

static lent lend_kept(enum role role, size_t length)
{
    lent made;
    made.bytes = room_for(role, length);
    made.length = length;
    made.before = kept[role];
    memcpy(made.bytes, kept[role], length);
    return made;
}

lent lend_copy(enum role role, const void *content, size_t length)
{
    uint8_t *copy = keeper(role, length);
    if (length > 0)
        memcpy(copy, content, length);
    return lend_kept(role, length);
}

lent lend_marked(enum role role, size_t length)
{
    memset(keeper(role, length), MARK, length);
    return lend_kept(role, length);
}

lent no_bytes(void)
{
    static const lent none;
    return none;
}

int same_bytes(const void *a, const void *b, size_t length) { return length == 0 || memcmp(a, b, length) == 0; }

int is_unchanged_from(lent slice, size_t from)
{
    if (from >= slice.length)
        return from == slice.length;
    return same_bytes(slice.bytes + from, slice.before + from, slice.length - from);
}

int is_unchanged(lent slice) { return is_unchanged_from(slice, 0); }

const uint64_t *numbers_of(lent slice) { return (const uint64_t *)(const void *)slice.bytes; }
size_t count_of(lent slice) { return slice.length / sizeof(uint64_t); }
