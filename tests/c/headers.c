/* Block headers, data types, and replies in words. */
#include "limits.h"

#include <string.h>

#define SAMPLE_HEADER "23 23 44 54 04 03 02 01 88 77 66 55 44 33 22 11 FF FF FF FF FF FF FF FF"

int is_header(mf4_header a, uint32_t id, uint32_t reserved0, uint64_t block_len, uint64_t link_count)
{
    return a.id == id && a.reserved0 == reserved0 && a.block_len == block_len && a.link_count == link_count;
}

int written_is(mf4_written_reply a, uint64_t count) { return a.reply == 0 && a.told == 0 && a.count == count; }

int write_refused(mf4_written_reply a, uint32_t reply, uint64_t told)
{
    return a.reply == reply && a.told == told && a.count == 0;
}

int done_is(mf4_done_reply a, uint32_t reply, uint64_t told) { return a.reply == reply && a.told == told; }

static int header_refused(mf4_header_reply a, uint32_t reply, uint64_t told)
{
    return a.reply == reply && a.told == told && is_header(a.header, 0, 0, 0, 0);
}

static void check_read_header(void)
{
    mf4_header_reply answer;
    lent input;
    name_case("read a header");
    input = hex(SAMPLE_HEADER);
    answer = mf4_read_header(input.bytes, input.length);
    CHECK(answer.reply == 0 && answer.told == 0);
    CHECK(is_header(answer.header, MF4_ID_DT, 0x01020304, UINT64_C(0x1122334455667788), MOST));
    input = first_of(SAMPLE_HEADER, 23);
    CHECK(header_refused(mf4_read_header(input.bytes, input.length), 2, 24));
    input = first_of(SAMPLE_HEADER, 0);
    CHECK(header_refused(mf4_read_header(input.bytes, input.length), 2, 24));
    CHECK(header_refused(mf4_read_header(NULL, 0), 2, 24));
    input = hex("FF FE 00 80 00 00 00 00 00 00 00 00 00 00 00 00 00 00 00 00 00 00 00 00 99");
    answer = mf4_read_header(input.bytes, input.length);
    CHECK(answer.reply == 0 && is_header(answer.header, 0x8000FEFF, 0, 0, 0));
}

static void check_write_header(void)
{
    const mf4_header header = { MF4_ID_DT, 0x01020304, UINT64_C(0x1122334455667788), UINT64_MAX };
    lent out;
    name_case("write a header");
    out = lend_marked(OUTPUT, 24);
    CHECK(written_is(mf4_write_header(header, out.bytes, out.length), 24) && holds_only_hex(out, SAMPLE_HEADER));
    out = lend_marked(OUTPUT, 31);
    CHECK(written_is(mf4_write_header(header, out.bytes, out.length), 24) && holds_only_hex(out, SAMPLE_HEADER));
    out = lend_marked(OUTPUT, 23);
    CHECK(write_refused(mf4_write_header(header, out.bytes, out.length), 6, 24) && is_unchanged(out));
    CHECK(write_refused(mf4_write_header(header, NULL, 0), 6, 24));
}

static void check_types(void)
{
    static const uint32_t bits[] = { 32, 32, 32, 32, 32, 32, 8, 8, 8, 8, 8, 8, 8, 64, 64, 64, 64 };
    unsigned code;
    name_case("data types");
    for (code = 0; code <= 255; code++) {
        CHECK(mf4_type_code((uint8_t)code) == code);
        CHECK(mf4_default_bits((uint8_t)code) == (code <= 16 ? bits[code] : 8));
    }
}

/* 1 is given no more, and has no more words than a number behind the last, or one that is not given yet. */
static void check_reply_texts(void)
{
    const char *no_reply = mf4_reply_text(UINT32_MAX);
    uint32_t reply;
    name_case("replies in words");
    for (reply = 0; reply <= 40; reply++)
        CHECK((strcmp(mf4_reply_text(reply), no_reply) != 0) == ((reply <= 33 && reply != 1 && reply != 14) || reply == 35));
}

void check_headers(void)
{
    check_read_header();
    check_write_header();
    check_types();
    check_reply_texts();
}
