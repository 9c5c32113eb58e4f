/* A chain walked by the rules, block by block, and for each byte of its joined data anew. */
#ifndef SLOW_CHAINS_H
#define SLOW_CHAINS_H

#include "fuzz.h"

/* Where the data of each fragment stands, and the length of all; or why the chain is refused. */
typedef struct slow_chain {
    uint32_t reply;
    uint64_t told;
    uint64_t length;
    size_t count;
    struct { uint64_t at, size; } fragments[MF4_MAX_FRAGMENTS];
} slow_chain;

void walk_slowly(lent file, uint64_t start, uint32_t data_id, slow_chain *chain);

/* Whether a data block of that id stands there, or why none does. */
uint32_t block_due(lent file, uint64_t address, uint32_t data_id);

/* Bytes of the joined data, which holds them. */
void copy_slowly(lent file, const slow_chain *chain, uint64_t position, uint8_t *out, size_t count);

#endif
