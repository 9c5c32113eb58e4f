/*
 * The blocks of a small MDF4 file, one behind the other in memory. make_log.c writes its log with it.
 */
#ifndef NEW_FILE_H
#define NEW_FILE_H

#include "mf4.h"

enum { MOST_FILE = 4096 };

typedef struct new_file {
    uint8_t bytes[MOST_FILE];
    size_t length;
} new_file;

void put_little(uint8_t *place, uint64_t number, int size);

/* A call of the library that refused to write ends the program: the sizes and the numbers are ours, so it would be our
 * mistake. */
void must_write(mf4_written_reply written);
void must_store(mf4_done_reply stored);

/* Keeps room for a block at the next multiple of 8, where MDF 4.1 wants it; gives its address. */
uint64_t keep_room(new_file *file, size_t size);

/* A block whose links and fields are all 0 yet; gives its address. */
uint64_t add_block(new_file *file, uint32_t id, uint64_t links, size_t fields);

void set_link(new_file *file, uint64_t block, int link, uint64_t address);
void set_field(new_file *file, uint64_t block, int links, int field, uint64_t number, int size);

/* A ##TX or ##MD block: UTF-8, a NUL, and zeros up to a multiple of 8. */
uint64_t add_text(new_file *file, uint32_t id, const char *text);

/* A ##DT or ##SD block. */
uint64_t add_data(new_file *file, uint32_t id, const uint8_t *data, size_t size);

int save_file(const new_file *file, const char *path);

#endif
