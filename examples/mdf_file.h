/*
 * An MDF4 file in memory, and its blocks, each looked for before it is read: nothing outside the file is read, whatever a
 * link or a length says. A function that gives 0 has said in `trouble` why; `what` names for people what it looked for.
 */
#ifndef MDF_FILE_H
#define MDF_FILE_H

#include "mf4.h"

typedef struct mdf_file {
    const char *path;
    uint8_t *bytes; /* to be freed */
    size_t length;
    char trouble[512];
} mdf_file;

/* A block that stands whole in the file. */
typedef struct mdf_block {
    const uint8_t *bytes;
    size_t length;
    const uint8_t *fields; /* behind its links */
} mdf_block;

/* Sets `trouble` as printf would, and gives 0. */
int mdf_trouble(mdf_file *file, const char *format, ...);

/* Prints `trouble` behind the file's name, where messages go, and gives 0. */
int mdf_complain(const mdf_file *file);

/* The file is copied: what the library reads must not change meanwhile. */
int mdf_copy(mdf_file *file, const char *path);

/* The header of what stands at an address, or a refusal where the file ends before. */
mf4_header_reply mdf_header_at(const mdf_file *file, uint64_t address);

int mdf_read_header(mdf_file *file, const char *what, uint64_t address, mf4_header *header);

/* The block at an address, if it is of that kind, stands whole in the file and has so many links and bytes of fields. */
int mdf_find_block(mdf_file *file, const char *what, uint64_t address, uint32_t id, uint64_t links, uint64_t fields,
                   mdf_block *block);

/* The number of so many bytes, the lowest first. */
uint64_t mdf_little(const uint8_t *bytes, int size);

uint64_t mdf_link(const mdf_block *block, int link);

/* An id as its four characters; a byte that is none as '.'. */
void mdf_spell(uint32_t id, char text[5]);

#endif
