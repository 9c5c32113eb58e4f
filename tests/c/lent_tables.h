/* Tables lent to the library, and the calls that take one, with the file that stands built. */
#ifndef LENT_TABLES_H
#define LENT_TABLES_H

#include "files.h"

/* Without a fragment, and that of the cut file. */
extern const mf4_table empty_table, cut_table;

/* Fragments of one size, each a step behind the one before, and after every eighth at the first address again. */
mf4_table evenly_cut(size_t count, uint64_t size, uint64_t first_addr, uint64_t step);

lent lend_table(const mf4_table *table);
mf4_table *table_in(lent slice);

/* The table of a chain, opened over marks. It is refused where the joined data's length is, or for its 513th fragment, and
 * then nothing is lent. */
lent lend_opened(lent file, uint64_t start);

/* A record through a lent table, and a value. Neither the file nor the table changes. */
mf4_done_reply fetch_by(lent file, lent table, uint64_t number, uint64_t record_size, lent buffer);
mf4_valid_value_reply value_by(lent file, lent table, uint64_t number, uint64_t record_size, mf4_group group,
                               mf4_channel channel, lent buffer);

/* Each lends a copy of the table before, and then compares all of it: a call that is refused leaves it as it was. */
int opens(const mf4_table *after);
int opening_refused(uint32_t reply);
int extends(const mf4_table *before, uint64_t block_addr, const mf4_table *after);
int extension_refused(const mf4_table *before, uint64_t block_addr, uint32_t reply);
int shortens(const mf4_table *before, const mf4_table *after);
int shortening_refused(const mf4_table *before, uint32_t reply);

/* A record, and as a value all of its bytes. Or neither: the value's field would be refused too, but behind. */
int table_fetches(const mf4_table *table, uint64_t number, const uint8_t *record, size_t size);
int table_refuses(const mf4_table *table, uint64_t number, uint64_t record_size, uint32_t reply);
int table_refuses_into(size_t room, const mf4_table *table, uint64_t number, uint64_t record_size, uint32_t reply);

#endif
