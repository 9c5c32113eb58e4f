/* Channels and the values expected of them, as rows of tables. */
#ifndef VALUES_H
#define VALUES_H

#include "limits.h"

#define FIELD(type, bit_offset, byte_offset, bit_count) { (type), 0, (bit_offset), (byte_offset), (bit_count), 0, 0, 0 }
#define PAYLOAD(type, bit_offset, bit_count) { (type), MF4_CHANNEL_VARIABLE_LENGTH, (bit_offset), 99, (bit_count), 0, 0, 7 }

mf4_group group_of(uint64_t record_id_size, uint32_t data_bytes, uint32_t invalidation_bytes);

/* With the invalidation bytes that make its records so long, or with none if they are as long already, or longer. */
mf4_group group_filling(uint64_t record_length, uint64_t record_id_size, uint32_t data_bytes);

typedef mf4_value_reply expected;

#define REFUSED_WITH(reply) { (reply), 0, MF4_KIND_NOTHING, 0, 0, 0 }
#define OUTSIDE(needed) { 21, (needed), MF4_KIND_NOTHING, 0, 0, 0 }
#define UNSIGNED_IS(value) { MF4_ANSWER, 0, MF4_KIND_UNSIGNED, (value), 0, 0 }
#define SIGNED_IS(value) { MF4_ANSWER, 0, MF4_KIND_SIGNED, (uint64_t)(value), 0, 0 }
#define DOUBLE_IS(bits) { MF4_ANSWER, 0, MF4_KIND_DOUBLE, (bits), 0, 0 }
#define STANDS(kind, at, length) { MF4_ANSWER, 0, (kind), 0, (at), (length) }
#define TEXT_STANDS(at, length) STANDS(MF4_KIND_TEXT, (at), (length))
#define UNKNOWN_IS { MF4_ANSWER, 0, MF4_KIND_UNKNOWN, 0, 0, 0 }

int value_is(mf4_value_reply a, expected value);
int valid_value_is(mf4_valid_value_reply a, expected value, uint8_t is_valid);
int same_valid_value(mf4_valid_value_reply a, mf4_valid_value_reply b);

int payload_is(mf4_payload_reply a, expected value, uint64_t payload_length, uint8_t is_valid);

int validity_is(mf4_validity_reply a, uint32_t reply, uint8_t is_valid);
int valid_value_refused(mf4_valid_value_reply a, uint32_t reply, uint64_t told);
int payload_refused(mf4_payload_reply a, uint32_t reply, uint64_t told);

/* The value alone and with its validity, which is asked of a group whose records are as long as this one, if there is any;
 * where it is refused, the double and the validity alone too. */
void check_value(lent record, uint64_t id_size, mf4_channel channel, expected value);

typedef struct value_case {
    const char *record;
    uint64_t id_size;
    mf4_channel channel;
    expected value;
} value_case;

void check_value_cases(const char *table, const value_case *cases, size_t count);
#define CHECK_ALL(cases) check_value_cases(#cases, cases, COUNT(cases))

#endif
