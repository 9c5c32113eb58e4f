/*
 * The way through an MDF4 file from its first byte to its groups. A function that gives 0 has said in the file's `trouble`
 * why.
 */
#ifndef MDF_GROUP_H
#define MDF_GROUP_H

#include "mdf_chain.h"
#include "mdf_text.h"

enum { MDF_MOST_GROUPS = 4096 };

/* What the file says of itself. */
typedef struct mdf_start {
    unsigned version;     /* 410 for 4.10                                        */
    uint64_t nanoseconds; /* since 1970: when it was begun                       */
    int is_local_time;    /* and not UTC                                         */
    int has_zone;         /* whether it says by how much local time was ahead    */
    int zone_minutes;
    uint64_t first_group;
} mdf_start;

/* A data group with its one channel group. */
typedef struct mdf_group {
    uint64_t address;       /* of its data group block                                                  */
    uint64_t first_channel; /* the first channel's address, or 0                                        */
    uint64_t data;          /* the address of the first data list or of the one data block; 0: no data  */
    uint64_t start;         /* the same, until a list of the one data block is written                  */
    mf4_table table;        /* where the data blocks stand: a fetch need not walk along the chain       */
    int is_walked;          /* but it does, where there are too many blocks for a table                 */
    mf4_group layout;
    uint64_t record_size;   /* the sum of the layout's three numbers, 1 to 16,384                       */
    uint64_t counted;       /* how many records the channel group counts                                */
    char name[MDF_TEXT_ROOM];
} mdf_group;

/* Whether the file is MDF 4.x at all, and what its header block says. */
int mdf_read_start(mdf_file *file, mdf_start *start);

/* The addresses of the data groups; where it gives 0, of those in front of the trouble. */
int mdf_list_groups(mdf_file *file, uint64_t first, uint64_t groups[MDF_MOST_GROUPS], size_t *count);

/* The group is all 0 to begin with. */
int mdf_read_group(mdf_file *file, uint64_t address, mdf_group *group);

/* Makes the group's table, and gives how many bytes of records there are; of a group without data, 0. Where the chain is
 * refused, `trouble` names the first bad block. */
int mdf_open_data(mdf_file *file, mdf_group *group, uint64_t *length);

/* Makes a chain of a single data block, if it is none yet: a list of it is written in the place of the group's own block, and is
 * to be removed when the group has been read. Payloads and reports are read through chains alone. */
void mdf_make_chain(mdf_file *file, mdf_lists *lists, mdf_group *group);

#endif
