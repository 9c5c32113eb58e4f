/* Payloads that are fetched: where they stand and how they are cut, their values, their validity and their room. */
#include "payload_file.h"

#include <string.h>

/* ---- places ----------------------------------------------------------------------------------------------------- */

/* The length is put at the position where the 32 bytes hold it, and is 0 where they do not. */
static const struct { uint64_t position; uint32_t length, reply; } places[] = {
    /* no bytes, some, all up to the end, and one more */
    { 0, 0, 0 }, { 0, 1, 0 }, { 0, 28, 0 }, { 0, 29, 23 }, { 1, 27, 0 }, { 1, 28, 23 }, { 23, 5, 0 }, { 23, 6, 23 },
    /* the last place for a length, and those behind it */
    { 27, 1, 0 }, { 27, 2, 23 }, { 28, 0, 0 }, { 28, 1, 23 }, { 29, 0, 23 }, { 31, 0, 23 }, { 32, 0, 23 }, { 33, 0, 23 },
    /* all four bytes of a length count, and a sum is not one of 32 bits */
    { 0, 0x100, 23 }, { 0, 0x10000, 23 }, { 0, 0x1000000, 23 }, { 0, 0x80000000, 23 }, { 0, UINT32_MAX, 23 },
    { 0, UINT32_MAX - 3, 23 }, { 4, UINT32_MAX - 7, 23 }, { 8, UINT32_MAX - 7, 23 },
    /* all eight bytes of a position count, and a sum is not one of 64 bits */
    { UINT64_C(0x100000000), 0, 23 }, { UINT64_C(0x8000000000000000), 0, 23 }, { INT64_MAX, 0, 23 }, { MOST, 0, 23 },
    { MOST - 3, 0, 23 }, { MOST - 4, 0, 23 }, { MOST - 7, 0, 23 }, { MOST - 31, 0, 23 },
};

static void check_places(void)
{
    size_t i;
    for (i = 0; i < COUNT(places); i++) {
        payload_plan plan = whole_plan();
        name_row("positions and lengths", i);
        plan.position = places[i].position;
        if (plan.position <= STREAM_SIZE - 4)
            put_length(&plan, plan.position, places[i].length);
        check_outcome(&plan, lay_payload_file(&plan), places[i].reply, 0, THE_RECORD);
    }
}

/* Less joined data than a length takes. */
static void check_short_streams(void)
{
    static const laid_chain cuts[] = {
        { FREE("") }, { FREE("0") }, { FREE("3") }, { FREE("1"), FREE("02") }, { THREE("2") },
    };
    size_t i;
    for (i = 0; i < COUNT(cuts); i++) {
        payload_plan plan = whole_plan();
        name_row("fewer than four bytes of joined data", i);
        plan.payload_cut = cuts[i];
        check_refused(&plan, lay_payload_file(&plan), 23, 0, THE_RECORD);
    }
}

/* ---- cuts ------------------------------------------------------------------------------------------------------- */

#define ONE(sizes) { MF4_LIST_EQUAL_LENGTH, 1, sizes }
#define TWO(sizes) { MF4_LIST_EQUAL_LENGTH, 2, sizes }
#define FOUR(sizes) { MF4_LIST_EQUAL_LENGTH, 4, sizes }
#define FIVE(sizes) { MF4_LIST_EQUAL_LENGTH, 5, sizes }

/* The 32 bytes of payloads, and the 36 of records. */
static const laid_chain payload_cuts[] = {
    { FREE("9995") }, { FREE("0990905"), FREE("") }, { FREE(""), FREE("8888"), FREE("") },
    { FREE("5"), FREE("55555"), FREE("2") }, { FREE("01020304"), FREE("0554"), FREE("35") },
    { FREE("1111"), FREE("0301023"), FREE("005455") }, { FREE("40340808"), FREE("40"), FREE("01") },
    { { 0xFE, 0, "4444" }, { 2, 0, "4444" } },
    { ONE("11111111111111111111111111111111") }, { ONE("11111111111"), ONE("11111111111"), ONE("1111111111") },
    { TWO("2222222222222222") }, { TWO("222222"), TWO("222222"), TWO("2222") },
    { THREE("33333333332") }, { THREE("3333"), THREE("3333"), THREE("332") },
    { FOUR("44444444") }, { FOUR("4444"), FOUR("4444"), FOUR("") },
    { FIVE("5555552") }, { FIVE("555"), { 3, 5, "555" }, FIVE("2") },
};
static const laid_chain record_cuts[] = { { FREE("9990045") }, { ONE("111111111111111111111111111111111111") },
                                          { FIVE("5555"), FIVE("5551") }, { FREE("0"), FREE("8888"), FREE("0004") } };

/* Each payload of the stream, from its first byte to its last. */
static void check_every_payload(payload_plan plan)
{
    static const uint64_t positions[] = { 0, 7, 11, 23 };
    size_t i;
    for (i = 0; i < COUNT(positions); i++) {
        plan.position = positions[i];
        check_bytes(&plan, lay_payload_file(&plan));
    }
}

static void check_cuts(void)
{
    payload_plan plan = whole_plan();
    size_t i, j;
    for (i = 0; i < COUNT(payload_cuts); i++)
        for (j = 0; j < COUNT(record_cuts); j++) {
            name_row("cuts of the same payloads", i);
            plan.payload_cut = payload_cuts[i];
            plan.record_cut = record_cuts[j];
            check_every_payload(plan);
        }
}

/* ---- values ----------------------------------------------------------------------------------------------------- */

#define NUMBER_BYTES "34 12 00 00 00 00 00 80"

static const struct { uint8_t data_type; const char *payload; expected value; } payload_values[] = {
    { MF4_TYPE_UNSIGNED_LE, NUMBER_BYTES, UNSIGNED_IS(UINT64_C(0x8000000000001234)) },
    { MF4_TYPE_UNSIGNED_BE, NUMBER_BYTES, UNSIGNED_IS(UINT64_C(0x3412000000000080)) },
    { MF4_TYPE_SIGNED_LE, NUMBER_BYTES, SIGNED_IS(-INT64_C(0x7FFFFFFFFFFFEDCC)) },
    { MF4_TYPE_SIGNED_BE, NUMBER_BYTES, SIGNED_IS(INT64_C(0x3412000000000080)) },
    { MF4_TYPE_FLOAT_LE, "00 00 00 00 00 00 F0 3F", DOUBLE_IS(UINT64_C(0x3FF0000000000000)) },
    { MF4_TYPE_FLOAT_BE, "FF F0 00 00 00 00 00 01", DOUBLE_IS(UINT64_C(0xFFF0000000000001)) },
    /* the first eight bytes of more, and fewer */
    { MF4_TYPE_UNSIGNED_LE, NUMBER_BYTES " 99", UNSIGNED_IS(UINT64_C(0x8000000000001234)) },
    { MF4_TYPE_UNSIGNED_BE, NUMBER_BYTES " 99 99", UNSIGNED_IS(UINT64_C(0x3412000000000080)) },
    { MF4_TYPE_UNSIGNED_LE, "34 12 00 00 00 00 00", OUTSIDE(8) }, { MF4_TYPE_UNSIGNED_BE, "", OUTSIDE(8) },
    { MF4_TYPE_SIGNED_LE, "34", OUTSIDE(8) }, { MF4_TYPE_SIGNED_BE, "34 12 00 00 00 00 00", OUTSIDE(8) },
    { MF4_TYPE_FLOAT_LE, "00 00 80 3F", OUTSIDE(8) }, { MF4_TYPE_FLOAT_BE, "", OUTSIDE(8) },
    /* a text up to its stop, or to the payload's end */
    { MF4_TYPE_LATIN1, "50 58 31 00 39", TEXT_STANDS(0, 3) }, { MF4_TYPE_LATIN1, "50 58 31", TEXT_STANDS(0, 3) },
    { MF4_TYPE_UTF8, "C3 A9 41", TEXT_STANDS(0, 3) }, { MF4_TYPE_UTF8, "00 58", TEXT_STANDS(0, 0) },
    { MF4_TYPE_UTF8, "", TEXT_STANDS(0, 0) },
    { MF4_TYPE_UTF16_LE, "41 00 42 00 00 00 43 00", TEXT_STANDS(0, 4) },
    { MF4_TYPE_UTF16_LE, "41 00 00 42 43", TEXT_STANDS(0, 4) },
    { MF4_TYPE_UTF16_BE, "00 41 00 42 00", TEXT_STANDS(0, 4) }, { MF4_TYPE_UTF16_BE, "00", TEXT_STANDS(0, 0) },
    /* all bytes */
    { MF4_TYPE_BYTE_ARRAY, "01 00 02 00", STANDS(MF4_KIND_BYTES, 0, 4) },
    { MF4_TYPE_BYTE_ARRAY, "", STANDS(MF4_KIND_BYTES, 0, 0) },
    { MF4_TYPE_MIME_SAMPLE, "00 00 00 00 00 00 00 00 00 00", STANDS(MF4_KIND_SAMPLE, 0, 10) },
    { MF4_TYPE_MIME_STREAM, "01", STANDS(MF4_KIND_STREAM, 0, 1) },
    /* no decoding, of however many bytes */
    { MF4_TYPE_CANOPEN_DATE, "01 02 03 04 05 06 07", UNKNOWN_IS }, { MF4_TYPE_CANOPEN_TIME, "01", UNKNOWN_IS },
    { MF4_TYPE_COMPLEX_LE, "", UNKNOWN_IS }, { MF4_TYPE_COMPLEX_BE, NUMBER_BYTES, UNKNOWN_IS }, { 17, "", UNKNOWN_IS },
    { 255, NUMBER_BYTES, UNKNOWN_IS },
};

/* The payload stands between other bytes of the stream. */
static payload_plan plan_with(const char *payload)
{
    payload_plan plan = whole_plan();
    plan.position = 3;
    put_length(&plan, 3, (uint32_t)from_hex(payload, plan.stream + 7));
    return plan;
}

static void check_payload_values(void)
{
    size_t i;
    for (i = 0; i < COUNT(payload_values); i++) {
        const expected value = payload_values[i].value;
        payload_plan plan = plan_with(payload_values[i].payload);
        question asked = lay_payload_file(&plan);
        name_row("values of payloads", i);
        asked.channel.data_type = payload_values[i].data_type;
        if (value.reply == MF4_ANSWER)
            check_answered(&plan, asked, value, 1);
        else
            check_refused(&plan, asked, value.reply, value.told, RECORD_AND_PAYLOAD);
    }
}

/* The value is that of the call which is given a payload, whatever the type; only numbers ask for eight bytes. */
static void check_every_type(void)
{
    static const uint32_t lengths[] = { 0, 1, 7, 8, 9, 20 };
    unsigned type;
    size_t i;
    for (i = 0; i < COUNT(lengths); i++) {
        payload_plan plan = whole_plan();
        question asked;
        put_length(&plan, 0, lengths[i]);
        asked = lay_payload_file(&plan);
        for (type = 0; type <= 255; type++) {
            lent payload = lend_copy(TWIN_INPUT, plan.stream + 4, lengths[i]);
            name_number("payloads of the data type", type);
            asked.channel.data_type = (uint8_t)type;
            if (type <= MF4_TYPE_FLOAT_BE && lengths[i] < 8)
                check_refused(&plan, asked, 21, 8, RECORD_AND_PAYLOAD);
            else
                check_answered(&plan, asked, mf4_decode_value(payload.bytes, payload.length, ID_SIZE, asked.channel), 1);
        }
    }
}

/* ---- validity --------------------------------------------------------------------------------------------------- */

/* With 10 data bytes the invalidation bits are the record's last byte; with none they begin with 71, behind the id. */
static const struct { uint32_t flags, bit; uint8_t invalidation; uint32_t data_bytes; uint8_t is_valid; } validities[] = {
    { 0, 0, 0xFF, 10, 1 }, { 4, 0, 0xFF, 10, 1 }, { 1, 0, 0, 10, 0 }, { 3, 0, 0, 10, 0 }, { UINT32_MAX - 1, 3, 0x08, 10, 0 },
    { 2, 0, 0x01, 10, 0 }, { 2, 0, 0xFE, 10, 1 }, { 2, 7, 0x80, 10, 0 }, { 2, 7, 0x7F, 10, 1 }, { 2, 0, 0, 0, 0 },
    { 2, 1, 0xFF, 0, 1 },
    /* behind the record, where its buffer or the payload may have a set bit */
    { 2, 8, 0xFF, 10, 1 }, { 2, 15, 0xFF, 10, 1 }, { 2, 21, 0xFF, 10, 1 }, { 2, UINT32_MAX, 0xFF, 10, 1 },
    { 2, 0, 0xFF, 11, 1 }, { 2, 0, 0xFF, UINT32_MAX, 1 },
};

/* However many invalidation bytes the group has. */
static void check_validity(const payload_plan *plan, question asked, uint8_t is_valid)
{
    static const uint32_t invalidation_bytes[] = { 0, 1, 2, UINT32_MAX };
    static const expected value = STANDS(MF4_KIND_BYTES, 0, 24);
    size_t i;
    for (i = 0; i < COUNT(invalidation_bytes); i++) {
        asked.group.invalidation_bytes = invalidation_bytes[i];
        check_answered(plan, asked, value, is_valid);
    }
}

/* The payload's bits, all set or all clear, play no part. */
static void check_validities(void)
{
    static const uint8_t fills[] = { 0x00, 0xFF };
    size_t i, j;
    for (i = 0; i < COUNT(validities); i++)
        for (j = 0; j < COUNT(fills); j++) {
            payload_plan plan = whole_plan();
            question asked;
            name_row("validity of a payload", i);
            memset(plan.stream, fills[j], sizeof plan.stream);
            put_length(&plan, 0, 24);
            plan.invalidation = validities[i].invalidation;
            asked = lay_payload_file(&plan);
            asked.channel.flags = validities[i].flags;
            asked.channel.pos_invalidation_bit = validities[i].bit;
            asked.group.data_bytes = validities[i].data_bytes;
            check_validity(&plan, asked, validities[i].is_valid);
        }
}

/* ---- room ------------------------------------------------------------------------------------------------------- */

/* Each room that is too short tells what suffices, with which the call is answered. */
static void check_rooms(void)
{
    payload_plan plan = whole_plan();
    question asked;
    size_t room;
    plan.position = 23;
    asked = lay_payload_file(&plan);
    for (room = 0; room < 5; room++) {
        lent record, payload;
        mf4_payload_reply refused;
        name_number("a payload of five bytes in", room);
        asked.payload_room = room;
        check_refused(&plan, asked, 6, 5, THE_RECORD);
        record = lend_room(OUTPUT, RECORD_SIZE), payload = lend_room(TWIN_OUTPUT, room);
        refused = ask(asked, record, payload);
        payload = lend_room(TWIN_OUTPUT, (size_t)refused.told);
        CHECK(ask(asked, record, payload).reply == MF4_ANSWER && holds_only_hex(payload, "41 00 42 00 43"));
    }
}

static void check_empty_payload(void)
{
    static const expected nothing = TEXT_STANDS(0, 0);
    payload_plan plan = whole_plan();
    question asked;
    name_case("an empty payload needs no room");
    plan.position = 7;
    asked = lay_payload_file(&plan);
    asked.channel.data_type = MF4_TYPE_UTF8;
    CHECK(payload_is(ask(asked, lend_room(OUTPUT, RECORD_SIZE), no_bytes()), nothing, 0, 1));
    asked.channel.data_type = MF4_TYPE_SIGNED_LE;
    CHECK(payload_refused(ask(asked, lend_room(OUTPUT, RECORD_SIZE), no_bytes()), 21, 8));
}

static void check_long_payload(void)
{
    enum { LONG = 70000 };
    static const expected value = STANDS(MF4_KIND_BYTES, 0, LONG);
    payload_plan plan = whole_plan();
    question asked = lay_payload_file(&plan);
    lent record, payload;
    size_t i;
    int is_right = 1;
    name_case("a payload longer than a record may be");
    put(put_wide_payloads(&asked, 1, 4 + LONG), LONG, 4);
    asked.payload_room = LONG - 1;
    check_refused(&plan, asked, 6, LONG, THE_RECORD);
    record = lend_room(OUTPUT, RECORD_SIZE), payload = lend_room(TWIN_OUTPUT, LONG);
    CHECK(payload_is(ask(asked, record, payload), value, LONG, 1));
    for (i = 0; i < LONG; i++)
        is_right &= payload.bytes[i] == (uint8_t)(4 + i);
    CHECK(is_right);
}

/* Each block is one length of 0, so a payload without bytes stands at the first position and at the last. */
static void check_many_fragments(void)
{
    static const struct { size_t blocks; uint64_t position; uint32_t reply; } rows[] = {
        { 4096, 0, 0 }, { 4096, 16380, 0 }, { 4096, 16381, 23 }, { 4097, 0, 9 },
    };
    size_t i;
    for (i = 0; i < COUNT(rows); i++) {
        payload_plan plan = whole_plan();
        question asked;
        mf4_payload_reply answer;
        name_row("4,096 and 4,097 fragments of payloads", i);
        plan.position = rows[i].position;
        asked = lay_payload_file(&plan);
        put(put_wide_payloads(&asked, rows[i].blocks, 4), 0, 4);
        answer = ask(asked, lend_room(OUTPUT, RECORD_SIZE), no_bytes());
        CHECK(answer.reply == rows[i].reply && answer.told == 0 && answer.length == 0 && answer.payload_length == 0);
    }
}

void check_payloads(void)
{
    check_places();
    check_short_streams();
    check_cuts();
    check_payload_values();
    check_every_type();
    check_validities();
    check_rooms();
    check_empty_payload();
    check_long_payload();
    check_many_fragments();
}
