/* Data lists, read. */
#include "limits.h"

#include "list_bytes.h"

static int list_refused(mf4_list_reply a, uint32_t reply, uint64_t told)
{
    return a.reply == reply && a.told == told && is_header(a.header, 0, 0, 0, 0) && a.next_addr == 0 && a.data_links_at == 0
        && a.data_link_count == 0 && a.flags == 0 && a.reserved1 == 0 && a.data_block_count == 0 && a.rest_at == 0
        && a.rest_count == 0;
}

static int list_is(mf4_list_reply a, uint64_t links, uint8_t flags, uint32_t count, uint64_t rest_at, uint64_t rest)
{
    return a.reply == 0 && a.told == 0 && a.data_links_at == 32 && a.data_link_count == links && a.flags == flags
        && a.data_block_count == count && a.rest_at == rest_at && a.rest_count == rest;
}

static mf4_list_reply read_list(const char *text)
{
    lent input = hex(text);
    return mf4_read_list(input.bytes, input.length);
}

static mf4_list_reply read_first(const char *text, size_t count)
{
    lent input = first_of(text, count);
    return mf4_read_list(input.bytes, input.length);
}

static void check_list_of_one_link(void)
{
    mf4_list_reply answer;
    name_case("read a list of one link");
    answer = read_list(DL LEN("28") LINK_COUNT("01") "88 77 66 55 44 33 22 11 " ZERO8);
    CHECK(list_is(answer, 0, 0, 0, 40, 0));
    CHECK(is_header(answer.header, MF4_ID_DL, 0, 40, 1) && answer.next_addr == UINT64_C(0x1122334455667788));
    CHECK(list_refused(read_list(DL LEN("28") LINK_COUNT("01") ZERO8 "01 00 00 00 00 00 00 00"), 2, 48));
    CHECK(list_refused(read_list(DL LEN("28") LINK_COUNT("01") ZERO8 LEN("01") "00 00 00 00 00 00 00"), 2, 48));
    CHECK(list_is(read_list(DL LEN("28") LINK_COUNT("01") ZERO8 "01 00 00 00 00 00 00 00 " ZERO8), 0, 1, 0, 40, 1));
    CHECK(list_refused(read_list(DL LEN("28") LINK_COUNT("01") ZERO8 "00 00 00 00 00 00 00"), 2, 40));
    CHECK(list_refused(read_list(DL LEN("28") LINK_COUNT("01")), 2, 40));
    answer = read_list("23 23 44 4C DD CC BB AA " ZERO8 LINK_COUNT("01") ZERO8 "FE 01 02 03 00 00 00 00 99");
    CHECK(list_is(answer, 0, 0xFE, 0, 40, 0) && answer.reserved1 == 0x030201);
    CHECK(is_header(answer.header, MF4_ID_DL, 0xAABBCCDD, 0, 1));
    CHECK(list_is(read_list(DL ZERO8 LINK_COUNT("01") ZERO8 "FF 00 00 00 07 00 00 00 " ZERO8), 0, 0xFF, 7, 40, 1));
}

static void check_list_order(void)
{
    name_case("read a list: the order of refusals");
    CHECK(list_refused(mf4_read_list(NULL, 0), 2, 24));
    CHECK(list_refused(read_list("23 23 44 4D 00 00 00 00 " ZERO8 "00 00 00 00 00 00 00"), 2, 24));
    CHECK(list_refused(read_list("23 23 44 54 00 00 00 00 " ZERO8 ZERO8), 3, 0));
    CHECK(list_refused(read_list("23 23 64 6C 00 00 00 00 " ZERO8 LINK_COUNT("01") ZERO8 ZERO8), 3, 0));
    CHECK(list_refused(read_list("24 23 44 4C 00 00 00 00 " ZERO8 LINK_COUNT("01") ZERO8 ZERO8), 3, 0));
    CHECK(list_refused(read_list(DL ZERO8 ZERO8), 4, 0));
}

/* The largest needed size that fits is 32 + 8 * (2^61 - 5) = 2^64 - 8; one link more needs 2^64, told as 2^64 - 1. */
static void check_list_needs(void)
{
    name_case("read a list: told sizes");
    CHECK(list_refused(read_list(DL ZERO8 "FF FF FF FF FF FF FF FF " ZERO8 ZERO8), 2, MOST));
    CHECK(list_refused(read_list(DL ZERO8 "FB FF FF FF FF FF FF 1F " ZERO8 ZERO8), 2, UINT64_C(18446744073709551608)));
    CHECK(list_refused(read_list(DL ZERO8 "FC FF FF FF FF FF FF 1F " ZERO8 ZERO8), 2, MOST));
    CHECK(list_refused(read_list(DL ZERO8 "01 00 00 00 00 00 00 20 " ZERO8 ZERO8), 2, MOST));
    CHECK(list_refused(read_list(DL ZERO8 LINK_COUNT("01") ZERO8 "00 00 00 00 FF FF FF FF"), 2, UINT64_C(34359738400)));
    CHECK(list_refused(read_list(DL ZERO8 LINK_COUNT("02") ZERO8 ZERO8 "00 00 00 00 01 00 00"), 2, 48));
    CHECK(list_refused(read_first(DL ZERO8 LINK_COUNT("02") ZERO8 ZERO8 "00 00 00 00 01 00 00 00 " ZERO8, 55), 2, 56));
}

static void check_lists_of_two_data_links(void)
{
    name_case("read a list of two data links");
    CHECK(list_is(read_first(TWO_EQUAL, 64), 2, 1, 2, 56, 1));
    CHECK(list_refused(read_first(TWO_EQUAL, 63), 2, 64));
    CHECK(list_refused(read_first(TWO_EQUAL, 56), 2, 64));
    CHECK(list_refused(read_first(TWO_EQUAL, 55), 2, 56));
    CHECK(list_is(read_first(TWO_VARIABLE, 72), 2, 0, 2, 56, 2));
    CHECK(list_refused(read_first(TWO_VARIABLE, 71), 2, 72));
    CHECK(list_is(read_list(TWO_VARIABLE "99 99"), 2, 0, 2, 56, 2));
    /* count 1 beside two data links: reading compares nothing */
    CHECK(list_is(read_list(DL ZERO8 LINK_COUNT("03") ZERO8 ZERO8 ZERO8 "00 00 00 00 01 00 00 00 " ZERO8), 2, 0, 1, 56, 1));
}

void check_lists(void)
{
    check_list_of_one_link();
    check_list_order();
    check_list_needs();
    check_lists_of_two_data_links();
}
