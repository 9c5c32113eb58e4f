/* A file with records in one chain and their payloads in another, and what the call says of the file that stands built. */
#ifndef PAYLOAD_FILE_H
#define PAYLOAD_FILE_H

#include "laid_chains.h"
#include "values.h"

/* Three records: an id of one byte, two bytes of data, a position, a byte of invalidation bits. The second is asked for. */
enum { RECORD_SIZE = 12, ID_SIZE = 1, BYTE_OFFSET = 2, DATA_BYTES = 10, INVALIDATION_BYTES = 1 };
enum { ASKED = 1, RECORDS = 3, STREAM_SIZE = 32 };

/* What the file is laid out from. stream: the joined data of the payloads. */
typedef struct payload_plan {
    uint64_t position;
    uint8_t invalidation;
    uint8_t stream[STREAM_SIZE];
    const char *record_id, *payload_id;
    const laid_list *record_cut, *payload_cut;
} payload_plan;

/* PX1 at 0, a payload without bytes at 7, one of eight bytes at 11 and one of five at 23. */
#define STREAM "03 00 00 00 50 58 31 00 00 00 00 08 00 00 00 34 12 00 00 00 00 00 80 05 00 00 00 41 00 42 00 43"

/* Asks for the payload at 0. Both chains have three lists with offsets, and cut the position, lengths and payloads. */
payload_plan whole_plan(void);

/* Puts a length into the stream. */
void put_length(payload_plan *plan, uint64_t position, uint32_t length);

/* The arguments of the call. */
typedef struct question {
    size_t file_length;
    uint64_t start, number, record_size;
    mf4_group group;
    mf4_channel channel;
    size_t record_room, payload_room;
} question;

/* Builds the file. The question is for the payload as bytes, with room to spare in both buffers. */
question lay_payload_file(const payload_plan *plan);

/* Where the lists of the chain of payloads stand that was laid out last. */
laid payload_chain(void);

/* From a whole plan's first list of payloads to the block behind it. */
enum { FIRST_PAYLOAD_BLOCK = 104 };

/* Puts another chain of payloads in the place of the one: a list that links one block so many times, whose data counts on
 * from 0. Gives the address of that data. */
size_t put_wide_payloads(question *asked, size_t count, size_t size);

/* A buffer of no bytes is lent as NULL. */
lent lend_room(enum role role, size_t room);

mf4_payload_reply ask(question asked, lent record, lent payload);

/* Answered in buffers of just the size and in longer ones, with no byte changed behind what was fetched, and alike by the
 * calls that are given the payload and the record. */
void check_answered(const payload_plan *plan, question asked, expected value, uint8_t is_valid);

/* The same for the payload as bytes of a valid record. */
void check_bytes(const payload_plan *plan, question asked);

/* What a refused call leaves in its buffers. */
enum left { NOTHING, THE_RECORD, RECORD_AND_PAYLOAD };

void check_refused(const payload_plan *plan, question asked, uint32_t reply, uint64_t told, enum left left);

/* Refused so, or where the reply is none, answered as bytes. */
void check_outcome(const payload_plan *plan, question asked, uint32_t reply, uint64_t told, enum left left);

#endif
