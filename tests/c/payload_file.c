#include "payload_file.h"

static const laid_chain records_cut = { FREE("9"), FREE("0956"), FREE("7") };
static const laid_chain payloads_cut = { FREE("5012"), FREE("0543"), FREE("0255") };

static laid payloads;

laid payload_chain(void) { return payloads; }

payload_plan whole_plan(void)
{
    payload_plan plan = { 0, 0, { 0 }, "##DT", "##SD", records_cut, payloads_cut };
    from_hex(STREAM, plan.stream);
    return plan;
}

static void put_little(uint8_t *at, uint64_t number, int size)
{
    for (; size > 0; size--, number >>= 8)
        *at++ = (uint8_t)number;
}

void put_length(payload_plan *plan, uint64_t position, uint32_t length) { put_little(plan->stream + position, length, 4); }

/* The other records hold other positions, and all their bits are set. */
static void fill_records(const payload_plan *plan, uint8_t *records)
{
    static const uint64_t others[RECORDS] = { 23, 0, 7 };
    size_t i;
    for (i = 0; i < RECORDS; i++) {
        uint8_t *record = records + i * RECORD_SIZE;
        record[0] = (uint8_t)(0x81 + i), record[1] = 0x71, record[2] = 0x72;
        put_little(record + ID_SIZE + BYTE_OFFSET, i == ASKED ? plan->position : others[i], 8);
        record[RECORD_SIZE - 1] = i == ASKED ? plan->invalidation : 0xFF;
    }
}

question lay_payload_file(const payload_plan *plan)
{
    const mf4_channel channel = { MF4_TYPE_BYTE_ARRAY, MF4_CHANNEL_VARIABLE_LENGTH, 0, BYTE_OFFSET, 64, 0, 0, 0 };
    question asked = { 0, START, ASKED, RECORD_SIZE, { ID_SIZE, DATA_BYTES, INVALIDATION_BYTES }, channel,
                       RECORD_SIZE + 7, STREAM_SIZE + 5 };
    uint8_t records[RECORDS * RECORD_SIZE];
    start_file(0);
    fill_records(plan, records);
    payloads = lay_chain(lay_chain(START, plan->record_id, records, plan->record_cut).end, plan->payload_id, plan->stream,
                         plan->payload_cut);
    cut_file(payloads.end);
    asked.file_length = payloads.end;
    asked.channel.data_addr = payloads.places[0];
    return asked;
}

size_t put_wide_payloads(question *asked, size_t count, size_t size)
{
    const size_t list = (size_t)asked->channel.data_addr, fields = list + 32 + 8 * count, block = fields + 16;
    size_t i;
    put_block(list, "##DL", block - list, 1 + count);
    put(list + 24, 0, 8);
    for (i = 0; i < count; i++)
        put(list + 32 + 8 * i, block, 8);
    put(fields, MF4_LIST_EQUAL_LENGTH, 4), put(fields + 4, count, 4), put(fields + 8, size, 8);
    cut_file(put_data(block, 0, size));
    put(block, MF4_ID_SD, 4);
    asked->file_length = file_length();
    return block + 24;
}

lent lend_room(enum role role, size_t room) { return room == 0 ? no_bytes() : lend_marked(role, room); }

mf4_payload_reply ask(question asked, lent record, lent payload)
{
    lent file = lend_file();
    mf4_payload_reply answer = mf4_record_payload(file.bytes, asked.file_length, asked.start, asked.number,
                                                  asked.record_size, asked.group, asked.channel, record.bytes,
                                                  record.length, payload.bytes, payload.length);
    CHECK(is_unchanged(file));
    return answer;
}

static size_t length_of(const payload_plan *plan)
{
    const uint8_t *at = plan->stream + plan->position;
    return at[0] | (size_t)at[1] << 8 | (size_t)at[2] << 16 | (size_t)at[3] << 24;
}

static int holds_record(lent record, const payload_plan *plan)
{
    uint8_t records[RECORDS * RECORD_SIZE];
    fill_records(plan, records);
    return holds_only(record, records + ASKED * RECORD_SIZE, RECORD_SIZE);
}

static int holds_payload(lent payload, const payload_plan *plan)
{
    return holds_only(payload, plan->stream + plan->position + 4, length_of(plan));
}

void check_answered(const payload_plan *plan, question asked, expected value, uint8_t is_valid)
{
    static const size_t surplus[] = { 0, 5 };
    const size_t length = length_of(plan);
    size_t i;
    for (i = 0; i < COUNT(surplus); i++) {
        lent record = lend_room(OUTPUT, RECORD_SIZE + surplus[i]), payload = lend_room(TWIN_OUTPUT, length + surplus[i]);
        CHECK(payload_is(ask(asked, record, payload), value, length, is_valid));
        CHECK(holds_record(record, plan) && holds_payload(payload, plan));
        CHECK(value_is(mf4_decode_value(payload.bytes, length, asked.group.record_id_size, asked.channel), value));
        CHECK(mf4_check_validity_unbounded(record.bytes, RECORD_SIZE, asked.group, asked.channel) == is_valid);
    }
}

void check_bytes(const payload_plan *plan, question asked)
{
    const expected value = STANDS(MF4_KIND_BYTES, 0, length_of(plan));
    check_answered(plan, asked, value, 1);
}

void check_refused(const payload_plan *plan, question asked, uint32_t reply, uint64_t told, enum left left)
{
    lent record = lend_room(OUTPUT, asked.record_room), payload = lend_room(TWIN_OUTPUT, asked.payload_room);
    CHECK(payload_refused(ask(asked, record, payload), reply, told));
    CHECK(left == NOTHING ? is_unchanged(record) : holds_record(record, plan));
    CHECK(left == RECORD_AND_PAYLOAD ? holds_payload(payload, plan) : is_unchanged(payload));
}

void check_outcome(const payload_plan *plan, question asked, uint32_t reply, uint64_t told, enum left left)
{
    if (reply == MF4_ANSWER)
        check_bytes(plan, asked);
    else
        check_refused(plan, asked, reply, told, left);
}
