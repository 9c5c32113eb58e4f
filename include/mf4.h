/*
 * mf4.h: the C interface of a formally verified reader of MDF4 files. It reads block headers, data lists, channel
 * descriptions, records and the variable-length values that they refer to (payloads); it decodes and writes values, reports
 * on a channel over all records, and detects overlapping channels.
 *
 * Three words: `reply` is the status of a call, MF4_ANSWER (0) or the number of a refusal. `told` is the detail of a refusal,
 * such as the size that would be enough, or 0. A buffer is `lent`: it is the caller's, and the library uses it during the
 * call only.
 *
 * Every call returns, whatever the input. A call that can refuse returns a struct by value whose name ends in _reply: first
 * reply and told, then the answer's fields, which are all zero on a refusal. "Refuses with" lists the replies in the order of
 * the tests; the first test that fails decides. A refused call changes no buffer, except that mf4_record_value,
 * mf4_table_value and mf4_record_payload leave a record, or a payload, that they have fetched in its buffer if a later test
 * fails.
 *
 * A buffer is a pointer and a count of elements. NAME with NAME_len is input (mf4_write_value changes its record in place);
 * NAME with NAME_room is output, and its room is how much fits. The pointer may be NULL if the count is 0. An output must
 * overlap no other buffer of the call. Beware: `sizeof buffer` is a room, not a length. A record_len is the length of one
 * record, so pass record_size: with more, mf4_decode_value reads a field outside the record from stale bytes and does not
 * refuse it. mf4_decode_valid_value refuses every length but the group's.
 *
 * The calls are thread-safe and reentrant: they allocate nothing and keep no state. Lent bytes must not change during a call.
 * A fetch tests the whole chain, or the table, first and copies the record afterwards: if the file changes in between, the
 * record may be wrong (though no call ever accesses memory outside the buffers). So copy a log that is still being written,
 * and read the copy; a MAP_PRIVATE mapping is not enough, as its pages may still follow the file.
 *
 * Link with libmf4.a or libmf4.so, for x86-64 Linux (System V calling convention). C99, C++98 or later.
 */
#ifndef MF4_H
#define MF4_H

#include <stddef.h>
#include <stdint.h>
#include <string.h>

#define MF4_VERSION_MAJOR 0
#define MF4_VERSION_MINOR 6
#define MF4_VERSION_PATCH 1
#define MF4_VERSION "0.6.1"
#define MF4_VERSION_NUMBER (MF4_VERSION_MAJOR * 10000 + MF4_VERSION_MINOR * 100 + MF4_VERSION_PATCH)

#ifdef __cplusplus
extern "C" {
#endif

/* The MF4_VERSION_NUMBER of the library that is linked. */
uint32_t mf4_version(void);

/* 1 if the linked library has this header's version, else 0: structs and calls may then differ. */
static inline int mf4_version_matches(void)
{
    return mf4_version() == MF4_VERSION_NUMBER;
}

/* ---- limits ----------------------------------------------------------------------------------------------------- */

#define MF4_MAX_FILE_SIZE ((uint64_t)1 << 40) /* bytes of a file, else MF4_FILE_TOO_LONG (7)                         */
#define MF4_MAX_LISTS 256                     /* data lists of a chain, else MF4_TOO_MANY_LISTS (8)                  */
#define MF4_MAX_FRAGMENTS 4096                /* data blocks of a chain, else MF4_TOO_MANY_FRAGMENTS (9); data links
                                                 of a list that is written, else MF4_UNWRITABLE_LIST (5)             */
#define MF4_MAX_RECORD_SIZE 16384             /* bytes of a record, else MF4_BAD_RECORD_SIZE (15)                    */
#define MF4_MAX_CHANNELS 256                  /* channels given to mf4_first_overlap, else MF4_TOO_MANY_CHANNELS (26) */
#define MF4_MAX_TABLE_FRAGMENTS 512           /* data blocks of a table, else MF4_TABLE_FULL (30)                    */

/* ---- replies ---------------------------------------------------------------------------------------------------- */

enum mf4_reply {
    MF4_ANSWER = 0,              /* success: the answer's fields are set                                           */
    /* 1 is not used any more: 18 to 22 say why a field cannot be decoded. */
    MF4_TOO_FEW_BYTES = 2,       /* the block is cut short; told: the bytes it needs, saturating at UINT64_MAX     */
    MF4_OTHER_ID = 3,            /* a block of another kind than the call reads                                    */
    MF4_NO_LINKS = 4,            /* a data list with a link count of 0                                             */
    MF4_UNWRITABLE_LIST = 5,     /* more than 4096 links to write, or not one offset for each link                 */
    MF4_NO_ROOM = 6,             /* an output buffer is too small; told: the room that is needed                   */
    MF4_FILE_TOO_LONG = 7,       /* a file of more than 2^40 bytes                                                 */
    MF4_TOO_MANY_LISTS = 8,      /* a chain of more than 256 lists                                                 */
    MF4_TOO_MANY_FRAGMENTS = 9,  /* a chain of more than 4096 data blocks                                          */
    MF4_LIST_DISAGREES = 10,     /* a list whose count or block length does not match its links                    */
    MF4_NO_BLOCK_THERE = 11,     /* an address of 0, or with fewer than 24 bytes of the file from there on         */
    MF4_BAD_DATA_BLOCK = 12,     /* something else than a whole ##DT (or, of payloads, ##SD) block is linked       */
    MF4_UNTRUE_DECLARATION = 13, /* a data block is not as its list declares, or a list not as the first one does  */
    /* 14 is not used any more: the limits of 7 and 9 keep joined data below 2^52 bytes. */
    MF4_BAD_RECORD_SIZE = 15,    /* a record size of 0, over 16384 or over the room of the record's buffer         */
    MF4_NO_SUCH_RECORD = 16,     /* a record number behind the last whole record                                   */
    MF4_TOO_FEW_LINKS = 17,      /* a channel block with fewer than 8 links                                        */
    MF4_NO_BITS = 18,            /* a number with a bit count of 0                                                 */
    MF4_BAD_BIT_OFFSET = 19,     /* a number with a bit offset over 7                                              */
    MF4_INTEGER_TOO_WIDE = 20,   /* an integer with a bit count over 64                                            */
    MF4_FIELD_OUTSIDE = 21,      /* the field ends behind the record; told: the bytes that the record would need   */
    MF4_BAD_FLOAT_WIDTH = 22,    /* a float with a bit count other than 32 and 64                                  */
    MF4_PAYLOAD_OUTSIDE = 23,    /* a payload, or its length, ends behind the joined data of its chain             */
    MF4_DOES_NOT_FIT = 24,       /* a number to write that the field cannot hold                                   */
    MF4_OTHER_KIND = 25,         /* a number to write of another kind than the channel, or a channel of no number  */
    MF4_TOO_MANY_CHANNELS = 26,  /* more than 256 channels                                                         */
    MF4_NO_FIXED_NUMBER = 27,    /* a channel that is not a number in the record; told: its index in the list      */
    MF4_OTHER_LENGTH = 28,       /* a record that is not as long as the group's id, data and invalidation bytes    */
    MF4_BIT_OUTSIDE = 29,        /* the channel's invalidation bit is behind the group's invalidation bytes        */
    MF4_TABLE_FULL = 30,         /* a table of more than 512 data blocks                                           */
    MF4_TABLE_EMPTY = 31,        /* a table without a data block to give up                                        */
    MF4_BAD_TABLE = 32,          /* a table that cannot be right, or not of this file                              */
    MF4_NO_NUMBER_CHANNEL = 33,  /* a channel to report on that is not a number in the record                      */
    MF4_NO_POSITION = 35,        /* a channel whose field in the record is not the position of a payload           */

    /* From 256 on: the replies of this header's inline functions, never the library's. */
    MF4_NO_TEXT_TYPE = 256       /* mf4_text_by_type: the data type is not a text                                  */
};

/* A reply in words, for people. */
static inline const char *mf4_reply_text(uint32_t reply)
{
    switch (reply) {
    case MF4_ANSWER: return "an answer";
    case MF4_TOO_FEW_BYTES: return "the block has too few bytes";
    case MF4_OTHER_ID: return "the block has another id";
    case MF4_NO_LINKS: return "the data list has no links";
    case MF4_UNWRITABLE_LIST: return "links and offsets differ in number, or there are over 4096 links";
    case MF4_NO_ROOM: return "the output buffer is too small";
    case MF4_FILE_TOO_LONG: return "the file is longer than 2^40 bytes";
    case MF4_TOO_MANY_LISTS: return "the chain has over 256 lists";
    case MF4_TOO_MANY_FRAGMENTS: return "the chain has over 4096 data blocks";
    case MF4_LIST_DISAGREES: return "a list's count or block length disagrees with its links";
    case MF4_NO_BLOCK_THERE: return "a link leads to no block";
    case MF4_BAD_DATA_BLOCK: return "a link leads to something else than a whole data block of its kind";
    case MF4_UNTRUE_DECLARATION: return "a data block is not as its list declares, or a list declares otherwise than the first";
    case MF4_BAD_RECORD_SIZE: return "the record size is 0 or over 16384, or the buffer is too short";
    case MF4_NO_SUCH_RECORD: return "the record is not inside the data";
    case MF4_TOO_FEW_LINKS: return "the channel block has fewer than 8 links";
    case MF4_NO_BITS: return "the description gives the number no bits";
    case MF4_BAD_BIT_OFFSET: return "the description's bit offset is over 7";
    case MF4_INTEGER_TOO_WIDE: return "the description gives the integer over 64 bits";
    case MF4_FIELD_OUTSIDE: return "the field ends outside the record or payload, which has too few bytes";
    case MF4_BAD_FLOAT_WIDTH: return "the description gives the float neither 32 nor 64 bits";
    case MF4_PAYLOAD_OUTSIDE: return "the payload or its length ends behind the joined data";
    case MF4_DOES_NOT_FIT: return "the number does not fit the field";
    case MF4_OTHER_KIND: return "the number is of another kind than the channel's, or the channel is no fixed number";
    case MF4_TOO_MANY_CHANNELS: return "the list has over 256 descriptions";
    case MF4_NO_FIXED_NUMBER: return "a description in the list is that of no fixed number";
    case MF4_OTHER_LENGTH: return "the record is not as long as its group says";
    case MF4_BIT_OUTSIDE: return "the invalidation bit lies outside the group's invalidation bytes";
    case MF4_TABLE_FULL: return "the table would have over 512 data blocks";
    case MF4_TABLE_EMPTY: return "the table has no data block to give up";
    case MF4_BAD_TABLE: return "the table is damaged, or a data block of it ends behind the file";
    case MF4_NO_NUMBER_CHANNEL: return "the channel is no fixed number";
    case MF4_NO_POSITION: return "the channel holds no position of a payload";
    case MF4_NO_TEXT_TYPE: return "the data type is no text";
    default: return "no reply of this library";
    }
}

/* ---- block headers ---------------------------------------------------------------------------------------------- */

#define MF4_HEADER_SIZE 24

/* The ids of the blocks that a loader meets: the four bytes as a little-endian number. */
enum mf4_block_id {
    MF4_ID_HD = 0x44482323, /* ##HD, the file's header block                                       */
    MF4_ID_DG = 0x47442323, /* ##DG, a data group                                                  */
    MF4_ID_CG = 0x47432323, /* ##CG, a channel group                                               */
    MF4_ID_CN = 0x4E432323, /* ##CN, a channel                                                     */
    MF4_ID_CC = 0x43432323, /* ##CC, a conversion from the raw value to the physical one           */
    MF4_ID_CA = 0x41432323, /* ##CA, an array of channels                                          */
    MF4_ID_TX = 0x58542323, /* ##TX, a text                                                        */
    MF4_ID_MD = 0x444D2323, /* ##MD, a text that is XML                                            */
    MF4_ID_DL = 0x4C442323, /* ##DL, a data list                                                   */
    MF4_ID_DT = 0x54442323, /* ##DT, records                                                       */
    MF4_ID_SD = 0x44532323, /* ##SD, payloads (variable-length values)                             */
    MF4_ID_DZ = 0x5A442323, /* ##DZ, compressed data: not read here, so inflate the log first      */
    MF4_ID_HL = 0x4C482323  /* ##HL, the list of compressed blocks: likewise                       */
};

/* The first 24 bytes of every block. block_len is the length of the block with these 24. */
typedef struct mf4_header {
    uint32_t id;
    uint32_t reserved0;
    uint64_t block_len;
    uint64_t link_count;
} mf4_header;

typedef struct mf4_header_reply {
    uint32_t reply;
    uint64_t told;
    mf4_header header;
} mf4_header_reply;

/* count: the bytes written at the front of the output buffer; those behind are unchanged. */
typedef struct mf4_written_reply {
    uint32_t reply;
    uint64_t told;
    uint64_t count;
} mf4_written_reply;

/* The reply of a call that has no other answer than that it was done. */
typedef struct mf4_done_reply {
    uint32_t reply;
    uint64_t told;
} mf4_done_reply;

/* Refuses with MF4_TOO_FEW_BYTES (2). block_len is compared with nothing. */
mf4_header_reply mf4_read_header(const uint8_t *bytes, size_t bytes_len);

/* Writes 24 bytes. Refuses with MF4_NO_ROOM (6). */
mf4_written_reply mf4_write_header(mf4_header header, uint8_t *out, size_t out_room);

/* ---- data types ------------------------------------------------------------------------------------------------- */

/* A code above 16 is an unknown type: it is kept as it is, and its values are of MF4_KIND_UNKNOWN. */
enum mf4_data_type {
    MF4_TYPE_UNSIGNED_LE = 0, MF4_TYPE_UNSIGNED_BE = 1, MF4_TYPE_SIGNED_LE = 2, MF4_TYPE_SIGNED_BE = 3,
    MF4_TYPE_FLOAT_LE = 4, MF4_TYPE_FLOAT_BE = 5,
    MF4_TYPE_LATIN1 = 6, MF4_TYPE_UTF8 = 7, MF4_TYPE_UTF16_LE = 8, MF4_TYPE_UTF16_BE = 9,
    MF4_TYPE_BYTE_ARRAY = 10, MF4_TYPE_MIME_SAMPLE = 11, MF4_TYPE_MIME_STREAM = 12,
    MF4_TYPE_CANOPEN_DATE = 13, MF4_TYPE_CANOPEN_TIME = 14,
    MF4_TYPE_COMPLEX_LE = 15, MF4_TYPE_COMPLEX_BE = 16
};

/* Returns the code unchanged, for all 256: no code is lost by reading and writing. */
uint8_t mf4_type_code(uint8_t code);

/* The default bit count of a data type. */
uint32_t mf4_default_bits(uint8_t code);

/* ---- data lists ------------------------------------------------------------------------------------------------- */

enum mf4_list_flag {
    MF4_LIST_EQUAL_LENGTH = 1 /* the list has one length for all its data blocks, not an offset for each */
};

/* data_links_at, data_link_count: where the data links begin in the bytes given, and how many there are; rest_at, rest_count:
 * the same of the one length (with MF4_LIST_EQUAL_LENGTH in flags) or of the offsets. Each takes 8 bytes, little-endian.
 * data_block_count and header.block_len are compared with nothing here. */
typedef struct mf4_list_reply {
    uint32_t reply;
    uint64_t told;
    mf4_header header;
    uint64_t next_addr;
    uint64_t data_links_at;
    uint64_t data_link_count;
    uint8_t flags;
    uint32_t reserved1;
    uint32_t data_block_count;
    uint64_t rest_at;
    uint64_t rest_count;
} mf4_list_reply;

/* Refuses with MF4_TOO_FEW_BYTES (2) for the header, MF4_OTHER_ID (3), MF4_NO_LINKS (4), MF4_TOO_FEW_BYTES (2) again. */
mf4_list_reply mf4_read_list(const uint8_t *bytes, size_t bytes_len);

/* Writes a list of data blocks that all hold `length` bytes of data; only the last block of a chain may hold fewer.
 * next_addr: the address of the next list, or 0. Refuses with MF4_UNWRITABLE_LIST (5), MF4_NO_ROOM (6). */
mf4_written_reply mf4_write_list_equal(uint64_t next_addr, const uint64_t *links, size_t links_len, uint64_t length,
                                       uint8_t *out, size_t out_room);

/* Writes a list with an offset for each data block: the length of all data before it. Refuses alike. */
mf4_written_reply mf4_write_list_variable(uint64_t next_addr, const uint64_t *links, size_t links_len,
                                          const uint64_t *offsets, size_t offsets_len, uint8_t *out, size_t out_room);

/* ---- channels --------------------------------------------------------------------------------------------------- */

/* The channel types of MDF 4.1. The calls tell 1 from the others and read all others as fields of the record, so a loader
 * must look at 3, 5 and 6 itself. */
enum mf4_channel_type {
    MF4_CHANNEL_FIXED_LENGTH = 0,    /* a field of the record                                                           */
    MF4_CHANNEL_VARIABLE_LENGTH = 1, /* payloads outside the record, for mf4_record_payload; if data_addr is 0, a field */
    MF4_CHANNEL_MASTER = 2,          /* a field: the time, angle or distance that the other values belong to            */
    MF4_CHANNEL_VIRTUAL_MASTER = 3,  /* no field in the record: the raw value is the record's number, from 0            */
    MF4_CHANNEL_SYNC = 4,            /* a field: a position in a stream outside the records                             */
    MF4_CHANNEL_MAX_LENGTH = 5,      /* not supported: another channel has the length of the value, and the bytes behind
                                        it are stale, so never decode this one as text of its full width                */
    MF4_CHANNEL_VIRTUAL = 6          /* no field in the record: the raw value is the record's number, from 0            */
};

enum mf4_channel_flag {
    MF4_CHANNEL_ALL_INVALID = 1,     /* every value is invalid                                    */
    MF4_CHANNEL_INVALIDATION_BIT = 2 /* a bit of each record says whether its value is invalid    */
};

/* A channel's description. mf4_read_channel gives it from a ##CN block. If you fill it in yourself, name the fields (in C99
 * { .bit_offset = 4, .. }): the others are then 0. */
typedef struct mf4_channel {
    uint8_t data_type;             /* of enum mf4_data_type                                                             */
    uint8_t channel_type;          /* of enum mf4_channel_type                                                          */
    uint8_t bit_offset;            /* 0 to 7: the number is shifted right by so many bits after its bytes are read      */
    uint32_t byte_offset;          /* where the field begins, counted from the first byte behind the record id          */
    uint32_t bit_count;            /* how wide the field is                                                             */
    uint32_t flags;                /* of enum mf4_channel_flag                                                          */
    uint32_t pos_invalidation_bit; /* the number of its bit behind the data bytes, with MF4_CHANNEL_INVALIDATION_BIT    */
    uint64_t data_addr;            /* of channel type 1: where the chain of its payloads starts                         */
} mf4_channel;

/* How the records of a channel group are laid out: an id, data bytes, invalidation bytes. A record_size is their sum; add them
 * up as uint64_t. */
typedef struct mf4_group {
    uint64_t record_id_size;     /* bytes of the record id, from the ##DG block; often 0                            */
    uint32_t data_bytes;         /* bytes of channel data behind the id, from the ##CG block                        */
    uint32_t invalidation_bytes; /* bytes of invalidation bits at the record's end, from the ##CG block; often 0    */
} mf4_group;

#define MF4_CHANNEL_BLOCK_SIZE 160 /* bytes that mf4_write_channel writes */

/* A ##CN block: its eight links, of which the sixth is channel.data_addr, and its fields. more_links_at, more_link_count:
 * where the links behind the eighth stand, or would stand, in the bytes given, and how many there are; 8 bytes each,
 * little-endian. The last six fields are bit patterns of doubles: mf4_bits_as_double gives the value. */
typedef struct mf4_channel_block {
    mf4_header header;
    uint64_t next_ch_addr;
    uint64_t component_addr;
    uint64_t name_addr;
    uint64_t source_addr;
    uint64_t conversion_addr;
    uint64_t unit_addr;
    uint64_t comment_addr;
    uint64_t more_links_at;
    uint64_t more_link_count;
    mf4_channel channel;
    uint8_t sync_type;
    uint8_t precision;
    uint8_t reserved1;
    uint16_t attachment_count;
    uint64_t min_raw_value;
    uint64_t max_raw_value;
    uint64_t lower_limit;
    uint64_t upper_limit;
    uint64_t lower_ext_limit;
    uint64_t upper_ext_limit;
} mf4_channel_block;

typedef struct mf4_channel_reply {
    uint32_t reply;
    uint64_t told;
    mf4_channel_block block;
} mf4_channel_reply;

/* The fields are read behind all the links that header.link_count counts; attachment_count and header.block_len are compared
 * with nothing. Refuses with MF4_TOO_FEW_BYTES (2) for the header, MF4_OTHER_ID (3), MF4_TOO_FEW_LINKS (17),
 * MF4_TOO_FEW_BYTES (2) for the rest. */
mf4_channel_reply mf4_read_channel(const uint8_t *bytes, size_t bytes_len);

/* Writes 160 bytes: a new header (link_count 8, block_len 160), the eight links and the fields, with 0 for reserved1 and
 * attachment_count. The block's own header and its links behind the eighth are ignored; any data type is written as given.
 * Refuses with MF4_NO_ROOM (6). */
mf4_written_reply mf4_write_channel(mf4_channel_block block, uint8_t *out, size_t out_room);

/* ---- values ----------------------------------------------------------------------------------------------------- */

enum mf4_kind {
    MF4_KIND_NOTHING = 0,  /* on a refusal                                                                 */
    MF4_KIND_UNSIGNED = 1, /* number is the value                                                          */
    MF4_KIND_SIGNED = 2,   /* mf4_bits_as_signed(number) is the value                                      */
    MF4_KIND_DOUBLE = 3,   /* mf4_bits_as_double(number) is the value                                      */
    MF4_KIND_TEXT = 4,     /* at, length: the text in the bytes given, up to its NUL; for mf4_text_by_type */
    MF4_KIND_BYTES = 5,    /* at, length                                                                   */
    MF4_KIND_SAMPLE = 6,   /* at, length                                                                   */
    MF4_KIND_STREAM = 7,   /* at, length                                                                   */
    MF4_KIND_UNKNOWN = 8   /* a data type that is not decoded here                                         */
};

/* number, at and length are 0 if the kind does not use them. */
typedef struct mf4_value_reply {
    uint32_t reply;
    uint64_t told;
    uint32_t kind;
    uint64_t number;
    uint64_t at;
    uint64_t length;
} mf4_value_reply;

/* is_valid: 0 if the channel's flags or the record's invalidation bit mark the value as invalid, else 1. */
typedef struct mf4_validity_reply {
    uint32_t reply;
    uint64_t told;
    uint8_t is_valid;
} mf4_validity_reply;

/* A value, and is_valid as above. */
typedef struct mf4_valid_value_reply {
    uint32_t reply;
    uint64_t told;
    uint32_t kind;
    uint8_t is_valid;
    uint64_t number;
    uint64_t at;
    uint64_t length;
} mf4_valid_value_reply;

/* The signed integer with this bit pattern. */
static inline int64_t mf4_bits_as_signed(uint64_t bits)
{
    int64_t value;
    memcpy(&value, &bits, sizeof value);
    return value;
}

/* The double with this bit pattern. */
static inline double mf4_bits_as_double(uint64_t bits)
{
    double value;
    memcpy(&value, &bits, sizeof value);
    return value;
}

/* The value of a channel in a record; or in a payload, if channel_type is 1 and data_addr is not 0: then the payload's bytes
 * are given in place of the record. Validity plays no part.
 *
 * Refuses with MF4_NO_BITS (18), MF4_BAD_BIT_OFFSET (19), MF4_INTEGER_TOO_WIDE (20), MF4_FIELD_OUTSIDE (21) and
 * MF4_BAD_FLOAT_WIDTH (22); all but 21 are for numbers only. 21 tells the bytes that the record (with its id) or the payload
 * would need, saturating at UINT64_MAX. Only the description and the length matter: a channel that is refused in one record
 * is refused in every record of that length. */
mf4_value_reply mf4_decode_value(const uint8_t *record, size_t record_len, uint64_t record_id_size, mf4_channel channel);

/* Whether the value is valid. The bytes given must be one whole record of the group, and the invalidation bit must be inside its
 * invalidation bytes: a description that points outside is refused, and does not read the bit of another record.
 *
 * Refuses with MF4_OTHER_LENGTH (28) if record_len is not record_id_size + data_bytes + invalidation_bytes, whatever the
 * flags; then with MF4_BIT_OUTSIDE (29) if the flags have MF4_CHANNEL_INVALIDATION_BIT but not MF4_CHANNEL_ALL_INVALID, and
 * pos_invalidation_bit is 8 * invalidation_bytes or more. Only the descriptions and the length matter: what is refused in one
 * record is refused in every record of that length. */
mf4_validity_reply mf4_check_validity(const uint8_t *record, size_t record_len, mf4_group group, mf4_channel channel);

/* Both in one call. Refuses as mf4_decode_value does (18 to 22), then as mf4_check_validity does (28, 29); is_valid is then 0.
 * A payload is decoded as mf4_decode_value does it, and 28 and 29 then ask about its length all the same, as if it were a
 * record: so use mf4_record_payload for payloads. */
mf4_valid_value_reply mf4_decode_valid_value(const uint8_t *record, size_t record_len, mf4_group group,
                                             mf4_channel channel);

/* The same two with the reading of mf4-rs, for those who depend on it or compare with it. To read logs, use the two above. Here
 * the invalidation bytes have no end: invalidation_bytes plays no part, and the bit is read wherever in the bytes given it
 * stands; behind them it counts as valid. The first returns 1 or 0; the second refuses as mf4_decode_value does. */
uint8_t mf4_check_validity_unbounded(const uint8_t *record, size_t record_len, mf4_group group, mf4_channel channel);
mf4_valid_value_reply mf4_decode_valid_value_unbounded(const uint8_t *record, size_t record_len, mf4_group group,
                                                       mf4_channel channel);

/* Validity plays no part: an invalid value is decoded like any other. The bit pattern of the value as a double; integers are
 * rounded to nearest, ties to even. It is NaN, 0x7FF8000000000000, if mf4_decode_value refuses, if the value is not a
 * number, and for payloads. */
uint64_t mf4_decode_double_bits(const uint8_t *record, size_t record_len, uint64_t record_id_size, mf4_channel channel);

/* Validity plays no part, as above. The same as a double. */
static inline double mf4_decode_double(const uint8_t *record, size_t record_len, uint64_t record_id_size,
                                       mf4_channel channel)
{
    return mf4_bits_as_double(mf4_decode_double_bits(record, record_len, record_id_size, channel));
}

/* The same, but NaN if the value is invalid, or mf4_check_validity refuses. */
static inline double mf4_decode_valid_double(const uint8_t *record, size_t record_len, mf4_group group,
                                             mf4_channel channel)
{
    if (!mf4_check_validity(record, record_len, group, channel).is_valid)
        return mf4_bits_as_double((uint64_t)0x7FF8 << 48);
    return mf4_decode_double(record, record_len, group.record_id_size, channel);
}

/* ---- writing a value -------------------------------------------------------------------------------------------- */

/* A number to write: kind is MF4_KIND_UNSIGNED, MF4_KIND_SIGNED or MF4_KIND_DOUBLE, and number as enum mf4_kind says. */
typedef struct mf4_number {
    uint32_t kind;
    uint64_t number;
} mf4_number;

static inline mf4_number mf4_unsigned(uint64_t value)
{
    mf4_number number = { MF4_KIND_UNSIGNED, 0 };
    number.number = value;
    return number;
}

static inline mf4_number mf4_signed(int64_t value)
{
    mf4_number number = { MF4_KIND_SIGNED, 0 };
    number.number = (uint64_t)value;
    return number;
}

static inline mf4_number mf4_double(double value)
{
    mf4_number number = { MF4_KIND_DOUBLE, 0 };
    memcpy(&number.number, &value, sizeof value);
    return number;
}

/* Writes a number into a channel's field of a record, which is changed in place: mf4_decode_value then gives the number back,
 * and no bit outside the field changes. Invalidation bits are left to the caller.
 *
 * Refuses as mf4_decode_value does for this record and channel (18 to 22); then with MF4_OTHER_KIND (25) if the number is of
 * another kind than the data type (an integer is not converted to a float), the type is not a number, or the channel has
 * payloads; then with MF4_DOES_NOT_FIT (24): an unsigned number of 2^bit_count or more, a signed one outside two's
 * complement of bit_count bits, or a double that a 32-bit float cannot represent exactly. So round it first, as (float)value.
 * -0, the infinities and subnormal floats are exact; the only NaN that a 32-bit float takes is 0x7FF8000000000000, stored as
 * 0x7FC00000. A 64-bit float takes every bit pattern. */
mf4_done_reply mf4_write_value(uint64_t record_id_size, mf4_channel channel, mf4_number value, uint8_t *record,
                               size_t record_len);

/* ---- overlapping channels --------------------------------------------------------------------------------------- */

/* found: 1 if two channels overlap, and first and second are then their indexes in the list; else 0. */
typedef struct mf4_overlap_reply {
    uint32_t reply;
    uint64_t told;
    uint8_t found;
    uint64_t first;
    uint64_t second;
} mf4_overlap_reply;

/* Finds two channels whose numbers have a bit of the record in common. If there are several pairs, it is the one whose first
 * index is lowest, and among these the one whose second index is. Only the bits of the number count: not the other bits of
 * its bytes, nor invalidation bits.
 *
 * Refuses with MF4_TOO_MANY_CHANNELS (26), MF4_NO_FIXED_NUMBER (27): a text, a channel with payloads, or what mf4_decode_value
 * refuses in every record. To leave such channels out, ask about each alone:
 *
 *     for (i = 0; i < channel_count; i++)
 *         if (mf4_first_overlap(&channels[i], 1).reply == MF4_ANSWER)
 *             numbers[number_count++] = channels[i];
 */
mf4_overlap_reply mf4_first_overlap(const mf4_channel *list, size_t list_len);

/* ---- texts ------------------------------------------------------------------------------------------------------ */

/* damaged: 1 if the bytes are malformed, and a placeholder such as <Invalid UTF8> was written instead. */
typedef struct mf4_text_reply {
    uint32_t reply;
    uint64_t told;
    uint64_t count;
    uint8_t damaged;
} mf4_text_reply;

/* Convert a text to UTF-8, up to its first NUL (in UTF-16, the first zero unit), and write no NUL. count: the bytes written.
 * Refuse with MF4_NO_ROOM (6). */
mf4_text_reply mf4_text_latin1(const uint8_t *bytes, size_t bytes_len, uint8_t *out, size_t out_room);
mf4_text_reply mf4_text_utf8(const uint8_t *bytes, size_t bytes_len, uint8_t *out, size_t out_room);
mf4_text_reply mf4_text_utf16_le(const uint8_t *bytes, size_t bytes_len, uint8_t *out, size_t out_room);
mf4_text_reply mf4_text_utf16_be(const uint8_t *bytes, size_t bytes_len, uint8_t *out, size_t out_room);

/* The one of the four for a channel's data type. Refuses with MF4_NO_TEXT_TYPE (256), MF4_NO_ROOM (6). */
static inline mf4_text_reply mf4_text_by_type(uint8_t data_type, const uint8_t *bytes, size_t bytes_len, uint8_t *out,
                                              size_t out_room)
{
    const mf4_text_reply no_text = { MF4_NO_TEXT_TYPE, 0, 0, 0 };
    switch (data_type) {
    case MF4_TYPE_LATIN1: return mf4_text_latin1(bytes, bytes_len, out, out_room);
    case MF4_TYPE_UTF8: return mf4_text_utf8(bytes, bytes_len, out, out_room);
    case MF4_TYPE_UTF16_LE: return mf4_text_utf16_le(bytes, bytes_len, out, out_room);
    case MF4_TYPE_UTF16_BE: return mf4_text_utf16_be(bytes, bytes_len, out, out_room);
    default: return no_text;
    }
}

/* Room that is enough for any text of so many bytes, in every encoding, malformed or not: twice the bytes, at least the 17 of
 * the longest placeholder. Saturates at SIZE_MAX. */
static inline size_t mf4_text_room(size_t bytes_len)
{
    const size_t largest = (size_t)-1, placeholder = 17;
    if (bytes_len > largest / 2)
        return largest;
    return 2 * bytes_len > placeholder ? 2 * bytes_len : placeholder;
}

/* ---- records through a chain of data lists ---------------------------------------------------------------------- */

/* `start` is the address of a chain's first ##DL block: the data link of a ##DG block. The chain's joined data is what its
 * ##DT blocks hold behind their headers, end to end.
 *
 * Either all lists of a chain have MF4_LIST_EQUAL_LENGTH or none does. With it, they have one length and one count between
 * them, and every block has that length; only the last list may count fewer, and its last block may be shorter. Without it,
 * each offset is the length of all data before its block. Anything else is MF4_UNTRUE_DECLARATION (13).
 *
 * If the data link is the address of a single ##DT block, the calls refuse with MF4_OTHER_ID (3). Then write a list of that
 * one block into a copy of the file, over the ##DG block that links it: that was read already, and has the room of 56 bytes.
 * The chain starts there. (Behind the file's end a list would be read as the missing bytes of a block that is cut short.)
 *
 *     mf4_header_reply h = mf4_read_header(file + address, file_len - address);
 *     if (h.header.id == id) {
 *         mf4_write_list_equal(0, &address, 1, h.header.block_len - 24, file + linked_by, file_len - linked_by);
 *         start = linked_by;
 *     }
 *
 * Here id is MF4_ID_DT, address is the data link and linked_by the ##DG block's address, both inside the file. For a single
 * block of payloads id is MF4_ID_SD, linked_by is the ##CN block's address, and the list is the channel's new data_addr.
 */

typedef struct mf4_length_reply {
    uint32_t reply;
    uint64_t told;
    uint64_t length;
} mf4_length_reply;

/* The length of the joined data: length / record_size records; length % record_size trailing bytes are ignored. It is below 2^52,
 * and may be more than the file's length, since a block that is linked twice counts twice.
 *
 * Refuses with MF4_FILE_TOO_LONG (7); then, list by list, with MF4_TOO_MANY_LISTS (8), MF4_NO_BLOCK_THERE (11),
 * MF4_TOO_FEW_BYTES (2), MF4_OTHER_ID (3), MF4_NO_LINKS (4), MF4_TOO_FEW_BYTES (2), MF4_LIST_DISAGREES (10),
 * MF4_TOO_MANY_FRAGMENTS (9), MF4_UNTRUE_DECLARATION (13), and for each of its blocks with MF4_NO_BLOCK_THERE (11),
 * MF4_BAD_DATA_BLOCK (12), MF4_UNTRUE_DECLARATION (13). */
mf4_length_reply mf4_data_length(const uint8_t *file, size_t file_len, uint64_t start);

/* Copies record `number`, counted from 0, into the first record_size bytes of the buffer. Each call walks the chain, so fetch
 * a record once and decode every channel from it, with record_size as its length. Refuses with MF4_BAD_RECORD_SIZE (15), then
 * as mf4_data_length does, then with MF4_NO_SUCH_RECORD (16), which so marks the end. */
mf4_done_reply mf4_read_record(const uint8_t *file, size_t file_len, uint64_t start, uint64_t number, uint64_t record_size,
                               uint8_t *buffer, size_t buffer_room);

/* mf4_read_record and mf4_decode_valid_value in one call. Refuses as the first, then as the second; in the latter case the
 * record is left in the buffer. So a record_size that is not the group's is MF4_OTHER_LENGTH (28). */
mf4_valid_value_reply mf4_record_value(const uint8_t *file, size_t file_len, uint64_t start, uint64_t number,
                                       uint64_t record_size, mf4_group group, mf4_channel channel, uint8_t *buffer,
                                       size_t buffer_room);

/* ---- one line per channel --------------------------------------------------------------------------------------- */

/* A double, and the number of its record: records are counted from 0, and all of them are. */
typedef struct mf4_point {
    uint64_t number;
    double value;
} mf4_point;

/* One channel over all records of a chain.
 *
 * records: the whole records of the joined data; trailing bytes are none. valid, invalid: those whose value
 * mf4_decode_valid_value calls valid or not. without_value: those whose field it refuses (18 to 22), which are all records or
 * none. So records is the sum of these three. nan: the valid ones whose value as a double is NaN.
 *
 * has_doubles: 1 if a valid value is a double other than NaN. Then first, last, smallest and largest are the outermost of
 * these; else 0, and all four are zeros. Integers are compared as the doubles that mf4_decode_double gives, so 2^53 and
 * 2^53 + 1 are equal. Of equal ones, as 0 and -0 are, the smallest and the largest are the earliest.
 *
 * sum_high, sum_low: the exact sum of the valid values of an integer channel, sum_high * 2^64 + sum_low; of floats 0. If it fits
 * into an int64_t, sum_high is 0 or -1, and the sum is mf4_bits_as_signed(sum_low). */
typedef struct mf4_report_reply {
    uint32_t reply;
    uint64_t told;
    uint64_t records;
    uint64_t valid;
    uint64_t invalid;
    uint64_t without_value;
    uint64_t nan;
    uint8_t has_doubles;
    mf4_point first;
    mf4_point last;
    mf4_point smallest;
    mf4_point largest;
    int64_t sum_high;
    uint64_t sum_low;
} mf4_report_reply;

/* Reports on a number in the record, with one walk over the records. The last record, if there is one, is afterwards in the first
 * record_size bytes of the buffer; the bytes behind are unchanged.
 *
 *     line = mf4_report(file, file_len, start, record_size, group, channel, buffer, sizeof buffer);
 *     if (line.reply == MF4_ANSWER && line.has_doubles)
 *         range = line.largest.value - line.smallest.value;
 *
 * Refuses with MF4_BAD_RECORD_SIZE (15); as mf4_data_length does; with MF4_NO_NUMBER_CHANNEL (33) if the data type is not a
 * number, or the channel has payloads; as mf4_check_validity does of a record of record_size bytes, with MF4_OTHER_LENGTH (28),
 * MF4_BIT_OUTSIDE (29): also if there is no record. */
mf4_report_reply mf4_report(const uint8_t *file, size_t file_len, uint64_t start, uint64_t record_size, mf4_group group,
                            mf4_channel channel, uint8_t *buffer, size_t buffer_room);

/* ---- records through a table ------------------------------------------------------------------------------------ */

/* A fetch through a chain walks along it for every record. A table is that walk, kept: where each data block stands in the file,
 * and where its data begins in the joined data. It is the caller's, and lent by pointer, never NULL; its bytes are all that a
 * call knows of it. A table of zeros is the empty one:
 *
 *     static mf4_table table;
 *     if (mf4_open_table(file, file_len, start, &table).reply == MF4_ANSWER)
 *         while (mf4_table_record(file, file_len, &table, number, record_size, buffer, sizeof buffer).reply == MF4_ANSWER)
 *             number++;
 *
 * A log without a list, whose data link is the address of a single ##DT block, is read by an empty table with that block:
 *
 *     memset(&table, 0, sizeof table);
 *     done = mf4_extend_table(file, file_len, address, &table);
 *
 * A table belongs to the file that it was made from. With another file a fetch may give other bytes, but none outside it.
 */

/* One data block of a table: the address of the ##DT block in the file, and the position of its data in the joined data. */
typedef struct mf4_fragment {
    uint64_t block_addr;
    uint64_t data_position;
} mf4_fragment;

/* 8208 bytes. fragments[0] to fragments[fragment_count - 1] are in use, and data_length is the length of their joined data; the
 * others are zero if no one else wrote there.
 *
 * A table cannot be right, MF4_BAD_TABLE (32), if it has more than 512 fragments, or none and a data_length; if the first
 * data_position is not 0, or one is less than the one before it or more than data_length; and, in a call that is given a file,
 * if a fragment ends behind it, header and data (up to the next data_position, or data_length) counted from block_addr.
 * Nothing else is tested: the blocks are not read again. */
typedef struct mf4_table {
    uint64_t fragment_count;
    uint64_t data_length;
    mf4_fragment fragments[MF4_MAX_TABLE_FRAGMENTS];
} mf4_table;

/* Makes the table of a chain, whatever stood in it; its unused fragments are then 0. Refuses as mf4_data_length does, then with
 * MF4_TABLE_FULL (30) if the chain has more than 512 data blocks: fetch such records with mf4_read_record. */
mf4_done_reply mf4_open_table(const uint8_t *file, size_t file_len, uint64_t start, mf4_table *table);

/* Adds one more ##DT block at the end, by its address. Refuses with MF4_FILE_TOO_LONG (7), MF4_BAD_TABLE (32),
 * MF4_NO_BLOCK_THERE (11), MF4_BAD_DATA_BLOCK (12), MF4_TABLE_FULL (30). Its length may be any: no list declares it. */
mf4_done_reply mf4_extend_table(const uint8_t *file, size_t file_len, uint64_t block_addr, mf4_table *table);

/* Takes the last data block off again, and sets its fragment to 0. Refuses with MF4_BAD_TABLE (32), MF4_TABLE_EMPTY (31). */
mf4_done_reply mf4_shorten_table(mf4_table *table);

/* As mf4_read_record, of the data that the table's blocks join to. Refuses with MF4_BAD_RECORD_SIZE (15), MF4_FILE_TOO_LONG (7),
 * MF4_BAD_TABLE (32), MF4_NO_SUCH_RECORD (16), which so marks the end. */
mf4_done_reply mf4_table_record(const uint8_t *file, size_t file_len, const mf4_table *table, uint64_t number,
                                uint64_t record_size, uint8_t *buffer, size_t buffer_room);

/* mf4_table_record and mf4_decode_valid_value in one call. Refuses as the first, then as the second; in the latter case the
 * record is left in the buffer. */
mf4_valid_value_reply mf4_table_value(const uint8_t *file, size_t file_len, const mf4_table *table, uint64_t number,
                                      uint64_t record_size, mf4_group group, mf4_channel channel, uint8_t *buffer,
                                      size_t buffer_room);

/* ---- payloads through a second chain ---------------------------------------------------------------------------- */

/* A channel of variable length (channel_type 1 and a data_addr other than 0) has its values outside the record: the 8 bytes
 * at byte_offset are a position, little-endian whatever the data type, in what the ##SD blocks of a second chain join to, which
 * starts at data_addr. There stand 4 bytes of length, little-endian, and then the payload.
 *
 * kind, number, at and length are as mf4_decode_value gives them for the payload's bytes, so `at` counts from the front of the
 * payload's buffer. is_valid is the record's, and read as mf4_check_validity_unbounded does it: if the group's invalidation
 * bytes matter, ask mf4_check_validity about the record as well. payload_length: the bytes written to the payload's buffer. */
typedef struct mf4_payload_reply {
    uint32_t reply;
    uint64_t told;
    uint32_t kind;
    uint8_t is_valid;
    uint64_t number;
    uint64_t at;
    uint64_t length;
    uint64_t payload_length;
} mf4_payload_reply;

/* Copies record `number` to the front of `record`, and the payload that it refers to to the front of `payload`. Only the call
 * knows how long a payload is: on MF4_NO_ROOM (6) retry with `told` bytes.
 *
 * Refuses with MF4_NO_POSITION (35) if the channel is not as above, or its bit_offset is not 0 or its bit_count not 64; as
 * mf4_read_record does; with MF4_FIELD_OUTSIDE (21), telling more than record_size, if the record ends before the position
 * does; as mf4_data_length does for the chain of ##SD blocks; with MF4_PAYLOAD_OUTSIDE (23); with MF4_NO_ROOM (6); with
 * MF4_FIELD_OUTSIDE (21), telling 8, if a number's payload has fewer than 8 bytes. From the first 21 on the record is left in
 * its buffer, and with the last 21 the payload is, too. */
mf4_payload_reply mf4_record_payload(const uint8_t *file, size_t file_len, uint64_t start, uint64_t number,
                                     uint64_t record_size, mf4_group group, mf4_channel channel, uint8_t *record,
                                     size_t record_room, uint8_t *payload, size_t payload_room);

#ifdef __cplusplus
}
#endif

#endif
