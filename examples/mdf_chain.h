/*
 * A single data block made a chain, since the library reads payloads and makes reports through chains alone, that of the
 * payloads and that of the records: a list of that one block is written into the copy of the file, over the block that links
 * it, which was read already. Nothing is put behind the file's end, so a data block that is cut off there is still refused.
 */
#ifndef MDF_CHAIN_H
#define MDF_CHAIN_H

#include "mdf_file.h"

enum {
    MDF_LIST_SIZE = 56,   /* of a list of one block; a ##DG block has 64 bytes, a ##CN block 160 */
    MDF_MOST_LISTS = 4097 /* for a group's records, and for the payloads of each of its channels */
};

/* The lists that were written, each with the bytes that stood there. */
typedef struct mdf_lists {
    size_t count;
    struct {
        uint64_t at;
        uint8_t kept[MDF_LIST_SIZE];
    } list[MDF_MOST_LISTS];
} mdf_lists;

/* Where the chain starts that the library is to read, for a link in the block at `linked_by` to an address. */
uint64_t mdf_chain_start(mdf_file *file, mdf_lists *lists, uint64_t address, uint64_t linked_by);

/* Puts back what stood in the place of the lists. */
void mdf_remove_lists(mdf_file *file, mdf_lists *lists);

#endif
