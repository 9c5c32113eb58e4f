/* Tables by the rules, fragment by fragment, and for each byte of their joined data anew. */
#ifndef SLOW_TABLES_H
#define SLOW_TABLES_H

#include "fuzz.h"

/* What each call answers, and what it makes of the table. Of a file that is too long nothing but the length is looked at. */
mf4_done_reply open_slowly(lent file, uint64_t start, mf4_table *table);
mf4_done_reply extend_slowly(lent file, uint64_t block_addr, mf4_table *table);
mf4_done_reply shorten_slowly(mf4_table *table);

/* The record is left in `out`, which has room for any. */
mf4_done_reply fetch_slowly(lent file, const mf4_table *table, uint64_t number, uint64_t record_size, size_t room,
                            uint8_t *out);

#endif
