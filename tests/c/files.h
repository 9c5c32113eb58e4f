/* Files with chains, laid out by hand, and what the calls answer of the one that stands built. */
#ifndef FILES_H
#define FILES_H

#include "limits.h"

/* Every chain of these files starts here. */
enum { START = 8 };

/* Zeros, to be filled. */
void start_file(size_t length);

/* The file made shorter, or longer with zeros. */
void cut_file(size_t length);
size_t file_length(void);

void put(size_t at, uint64_t number, int size);
void put_block(size_t at, const char *id, uint64_t block_len, uint64_t link_count);

/* A data block whose bytes count on from `first`, and one of that id with those bytes. They give the address behind it. */
size_t put_data(size_t at, unsigned first, size_t size);
size_t put_data_of(size_t at, const char *id, const uint8_t *data, size_t size);

/* 01 to 06, cut 3, 0, 3 by a list with offsets:
 *   list at 8: length 16, links 24, next 32, data links 40 48 56, flags 64, count 68, offsets 72 80 88, end 96
 *   blocks at 96, 123 and 147 (id, then length at +8, links at +16, data at +24), end 174 */
void make_cut_file(void);

/* 01 to 08, cut 3, 3, 2 by a list with one length:
 *   list at 8: length 16, links 24, next 32, data links 40 48 56, flags 64, count 68, the length 72, end 80
 *   blocks at 80, 107 and 134, end 160 */
void make_equal_file(void);

/* 01 to 06, cut 3, 3 by two lists with offsets:
 *   list at 8:  length 16, links 24, next 32, data link 40, flags 48, count 52, offset 56, end 64
 *   list at 64: length 72, links 80, next 88, data link 96, flags 104, count 108, offset 112, end 120
 *   blocks at 120 and 147, end 174 */
void make_pair_file(void);

/* 01 to 06 in one block at 64 of a list with one length, which may be too long, since the block is the chain's last. */
void make_uncut_file(void);

/* One list with one length and `count` links to one block of `size` bytes behind it. Gives the block's address. */
size_t make_wide_list(size_t count, size_t size);

/* Behind the wide list's file: a list with one more link to its block, named by the wide list's next. Gives its address. */
size_t add_narrow_list(size_t block);

/* The file lent as it stands. */
lent lend_file(void);

/* Each fetch is also a check that mf4_data_length and mf4_report answer, or refuse alike, and that a table of the chain, if there
 * is one, gives the same. */
mf4_done_reply fetch(uint64_t start, uint64_t number, uint64_t record_size, lent buffer);

int fetches(uint64_t number, uint64_t record_size, const char *record);
int refuses(uint64_t number, uint64_t record_size, uint32_t reply);
int refuses_from(uint64_t start, uint64_t number, uint64_t record_size, uint32_t reply, uint64_t told);

int length_is(mf4_length_reply a, uint32_t reply, uint64_t told, uint64_t length);

/* The chain is accepted, and its joined data has that length. */
int joins(uint64_t length);

#endif
