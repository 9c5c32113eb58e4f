/* Chains laid out from a plan: one list behind the other, each with its blocks behind it. */
#ifndef LAID_CHAINS_H
#define LAID_CHAINS_H

#include "files.h"

enum { MOST_LAID = 3 };

/* A list to be laid out, with its blocks behind it. */
typedef struct laid_list {
    uint8_t flags;
    uint64_t length;   /* declared with flag bit 0; without it, the true offset of each block is        */
    const char *sizes; /* a digit for each block: how many bytes of data it has. NULL: there is no list */
} laid_list;

typedef laid_list laid_chain[MOST_LAID + 1];

/* A list that declares the length 3, and one with offsets. */
#define THREE(sizes) { MF4_LIST_EQUAL_LENGTH, 3, sizes }
#define FREE(sizes) { 0, 0, sizes }

/* Places in a list, and their sizes: the count where it has two blocks. */
#define ID 0, 4
#define BLOCK_LENGTH 8, 8
#define LINK_COUNT 16, 8
#define NEXT 24, 8
#define FIRST_LINK 32, 8
#define SECOND_LINK 40, 8
#define COUNT_OF_TWO 52, 4

/* Where the lists of a chain stand that was laid out, and the address behind it. */
typedef struct laid {
    size_t places[MOST_LAID];
    size_t end;
} laid;

/* The blocks have that id, and take their data from the bytes in turn. */
laid lay_chain(size_t at, const char *id, const uint8_t *data, const laid_list *lists);

#endif
