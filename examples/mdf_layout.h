/*
 * Where things stand in those parts of an MDF4 file that the library has no call for, by ASAM MDF 4.1: the identification
 * at its start, the blocks on the way to the channels, and conversions. A link is named by its place among its block's links,
 * a field by its place behind all of them. All numbers are little-endian.
 */
#ifndef MDF_LAYOUT_H
#define MDF_LAYOUT_H

#include "mf4.h"

#define ID_FH 0x48462323u /* ##FH, who changed the file and when; mf4.h has the other ids */

enum {
    IDENTIFICATION_SIZE = 64,
    IDENTIFICATION_TEXT = 8,     /* "4.10    "              */
    IDENTIFICATION_PROGRAM = 16, /* 8 bytes: who wrote it   */
    IDENTIFICATION_VERSION = 28, /* 2 bytes: 410            */

    HD_AT = 64, /* the header block's address in every file */
    HD_LINKS = 6,
    HD_FIRST_DG = 0,
    HD_FIRST_FH = 1,
    HD_FIELDS = 32,
    HD_TIME = 0,        /* 8 bytes: nanoseconds since 1970               */
    HD_ZONE = 8,        /* 2 bytes: minutes that local time is ahead     */
    HD_SUMMER = 10,     /* 2 bytes: minutes more in summer               */
    HD_TIME_FLAGS = 12, /* 1 byte                                        */
    HD_LOCAL_TIME = 1,  /* the flag of a local time, in place of UTC     */
    HD_ZONE_KNOWN = 2,  /* the flag of valid minutes                     */

    FH_LINKS = 2,
    FH_COMMENT = 1,
    FH_FIELDS = 16,
    FH_TIME = 0, /* as HD_TIME */

    DG_LINKS = 4,
    DG_NEXT = 0,
    DG_FIRST_CG = 1,
    DG_DATA = 2,
    DG_FIELDS = 8,
    DG_RECORD_ID_SIZE = 0, /* 1 byte */

    CG_LINKS = 6,
    CG_NEXT = 0,
    CG_FIRST_CN = 1,
    CG_NAME = 2,
    CG_FIELDS = 32,
    CG_CYCLES = 8,              /* 8 bytes: how many records                     */
    CG_FLAGS = 16,              /* 2 bytes                                       */
    CG_VARIABLE_LENGTH = 1,     /* the flag of records that tell their own length */
    CG_DATA_BYTES = 24,         /* 4 bytes                                       */
    CG_INVALIDATION_BYTES = 28, /* 4 bytes                                       */

    CN_SYNC_TIME = 1, /* the sync type of a master that is the time */

    CC_LINKS = 4,
    CC_UNIT = 1,
    CC_FIELDS = 24,
    CC_TYPE = 0,        /* 1 byte: one of the two below, or another          */
    CC_ONE_TO_ONE = 0,  /* the value is the raw value                        */
    CC_LINEAR = 1,      /* the value is value 0 + value 1 * the raw value    */
    CC_VALUE_COUNT = 6, /* 2 bytes                                           */
    CC_VALUES = 24      /* 8 bytes each: doubles                             */
};

#endif
