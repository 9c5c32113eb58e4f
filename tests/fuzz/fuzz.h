/* What the parts of the fuzz target share: claims, answers counted as coverage, choices, and the parts themselves. */
#ifndef FUZZ_H
#define FUZZ_H

#include "guarded.h"
#include "mf4.h"

#define NAN_BITS UINT64_C(0x7FF8000000000000)

void fail(const char *claim, const char *file, int line);
#define MUST(claim) ((claim) ? (void)0 : fail(#claim, __FILE__, __LINE__))

enum call {
    READ_HEADER, WRITE_HEADER, READ_LIST, WRITE_EQUAL, WRITE_VARIABLE, READ_CHANNEL, WRITE_CHANNEL, DECODE, VALIDITY,
    DECODE_VALID, VALIDITY_UNBOUNDED, DECODE_VALID_UNBOUNDED, DECODE_DOUBLE, WRITE_VALUE, FIRST_OVERLAP, TEXT_LATIN1,
    TEXT_UTF8, TEXT_UTF16_LE, TEXT_UTF16_BE, DATA_LENGTH, READ_RECORD, RECORD_VALUE, REPORT, OPEN_TABLE, EXTEND_TABLE,
    SHORTEN_TABLE, TABLE_RECORD, TABLE_VALUE, RECORD_PAYLOAD, CALLS
};

/* Counts what a call answered, so that an input with a new answer is kept. */
void note(enum call call, unsigned what);

#define REPLY(number) ((uint64_t)1 << (number))
#define FIELD_REFUSALS (REPLY(18) | REPLY(19) | REPLY(20) | REPLY(21) | REPLY(22))
#define AREA_REFUSALS (REPLY(28) | REPLY(29))

/* The reply is one of those allowed, and tells something only where it may. */
void check_reply(enum call call, uint32_t reply, uint64_t told, uint64_t allowed);

/* The buffer begins with these bytes, and nothing behind them has changed. */
int holds_only(lent buffer, const uint8_t *written, size_t count);

/* A number of so many bytes as it stands in a file. */
uint64_t little(const uint8_t *place, int size);

/* At most 2^64-1, which is more bytes than a slice has. */
uint64_t sum_of(uint64_t a, uint64_t b);

/* Choices. An input that has run out goes on with zeros. */
void start_choices(const uint8_t *data, size_t size);
uint8_t choose_byte(void);
uint64_t choose_raw(int size);

/* Mostly small, at times a limit, at times anything. */
uint64_t choose_number(void);

/* Where it is small, below the limit. */
uint64_t choose_below(uint64_t limit);
size_t choose_size(size_t most);

/* Mostly as many bytes as are needed, or one or two more. */
size_t choose_room(uint64_t needed);

/* How a channel is read in a record. */
typedef struct reading {
    mf4_group group;
    mf4_channel channel;
} reading;

reading choose_reading(void);

/* The same in a group whose numbers make that length, if they can with this id, or a sum that would wrap to it; and with a bit
 * inside its invalidation bytes or right behind them. */
reading fitted(reading how, uint64_t record_length);

int same_valid_value(mf4_valid_value_reply a, mf4_valid_value_reply b);
int same_written(mf4_written_reply a, mf4_written_reply b);

/* The reply is one of those allowed, and nothing behind the count has changed. */
void check_written(enum call call, mf4_written_reply answer, lent out, uint64_t allowed);

void exercise_types(uint8_t code);
void exercise_header(lent input);
void exercise_list(lent input);
void exercise_writer(int equal);
void exercise_channel(lent input, reading how);
void exercise_channel_writer(mf4_channel channel);
lent choose_channel_block(void);
void exercise_value(lent record, reading how);
void exercise_written(lent record, reading how);
void exercise_overlap(reading how);
void exercise_texts(lent input);
lent choose_text(void);

#endif
