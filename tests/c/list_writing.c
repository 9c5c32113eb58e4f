/* Data lists, written. */
#include "limits.h"

#include "list_bytes.h"

static lent lend_numbers(enum role role, const uint64_t *numbers, size_t count)
{
    return count == 0 ? no_bytes() : lend_copy(role, numbers, 8 * count);
}

static mf4_written_reply write_equal(lent out, const uint64_t *links, size_t count)
{
    lent lent_links = lend_numbers(LINKS, links, count);
    return mf4_write_list_equal(9, numbers_of(lent_links), count, 10, out.bytes, out.length);
}

static mf4_written_reply write_variable(lent out, const uint64_t *links, size_t count, const uint64_t *offsets,
                                  size_t offset_count)
{
    lent lent_links = lend_numbers(LINKS, links, count), lent_offsets = lend_numbers(OFFSETS, offsets, offset_count);
    return mf4_write_list_variable(9, numbers_of(lent_links), count, numbers_of(lent_offsets), offset_count, out.bytes,
                                   out.length);
}

static void check_write_two_links(void)
{
    static const uint64_t links[] = { 0x50, 0x60 }, offsets[] = { 0, 10, 20 };
    lent out;
    name_case("write a list of two data links");
    out = lend_marked(OUTPUT, 64);
    CHECK(written_is(write_equal(out, links, 2), 64) && holds_only_hex(out, TWO_EQUAL));
    out = lend_marked(OUTPUT, 71);
    CHECK(written_is(write_equal(out, links, 2), 64) && holds_only_hex(out, TWO_EQUAL));
    out = lend_marked(OUTPUT, 63);
    CHECK(write_refused(write_equal(out, links, 2), 6, 64) && is_unchanged(out));
    CHECK(write_refused(write_equal(no_bytes(), links, 2), 6, 64));
    out = lend_marked(OUTPUT, 72);
    CHECK(written_is(write_variable(out, links, 2, offsets, 2), 72) && holds_only_hex(out, TWO_VARIABLE));
    out = lend_marked(OUTPUT, 100);
    CHECK(written_is(write_variable(out, links, 2, offsets, 2), 72) && holds_only_hex(out, TWO_VARIABLE));
    out = lend_marked(OUTPUT, 71);
    CHECK(write_refused(write_variable(out, links, 2, offsets, 2), 6, 72) && is_unchanged(out));
    out = lend_marked(OUTPUT, 100);
    CHECK(write_refused(write_variable(out, links, 2, offsets, 1), 5, 0) && is_unchanged(out));
    CHECK(write_refused(write_variable(out, links, 2, offsets, 3), 5, 0) && is_unchanged(out));
    CHECK(write_refused(write_variable(out, links, 0, offsets, 1), 5, 0) && is_unchanged(out));
    CHECK(write_refused(write_variable(out, links, 1, offsets, 0), 5, 0) && is_unchanged(out));
    CHECK(write_refused(write_variable(no_bytes(), links, 2, offsets, 3), 5, 0));
}

static void check_write_no_links(void)
{
    lent out;
    name_case("write a list of no data links");
    out = lend_marked(OUTPUT, 48);
    CHECK(written_is(write_equal(out, NULL, 0), 48));
    CHECK(holds_only_hex(out, DL LEN("30") LINK_COUNT("01") LEN("09") "01 00 00 00 00 00 00 00 " LEN("0A")));
    out = lend_marked(OUTPUT, 47);
    CHECK(write_refused(write_equal(out, NULL, 0), 6, 48) && is_unchanged(out));
    out = lend_marked(OUTPUT, 41);
    CHECK(written_is(write_variable(out, NULL, 0, NULL, 0), 40));
    CHECK(holds_only_hex(out, DL LEN("28") LINK_COUNT("01") LEN("09") ZERO8));
    out = lend_marked(OUTPUT, 39);
    CHECK(write_refused(write_variable(out, NULL, 0, NULL, 0), 6, 40) && is_unchanged(out));
}

static uint64_t little_at(const uint8_t *place)
{
    uint64_t number = 0;
    int i;
    for (i = 7; i >= 0; i--)
        number = number << 8 | place[i];
    return number;
}

static void check_write_most_links(void)
{
    static uint64_t numbers[4097];
    lent out;
    size_t i;
    name_case("write lists of 4,096 and 4,097 data links");
    for (i = 0; i < 4097; i++)
        numbers[i] = 1000 + i;
    out = lend_marked(OUTPUT, 32820);
    CHECK(written_is(write_equal(out, numbers, 4096), 32816) && is_unchanged_from(out, 32816));
    CHECK(little_at(out.bytes + 8) == 32816 && little_at(out.bytes + 16) == 4097 && little_at(out.bytes + 24) == 9);
    CHECK(little_at(out.bytes + 32) == 1000 && little_at(out.bytes + 32792) == 5095 && little_at(out.bytes + 32808) == 10);
    out = lend_marked(OUTPUT, 32815);
    CHECK(write_refused(write_equal(out, numbers, 4096), 6, 32816) && is_unchanged(out));
    out = lend_marked(OUTPUT, 32900);
    CHECK(write_refused(write_equal(out, numbers, 4097), 5, 0) && is_unchanged(out));
    out = lend_marked(OUTPUT, 65576);
    CHECK(written_is(write_variable(out, numbers, 4096, numbers, 4096), 65576));
    CHECK(little_at(out.bytes + 8) == 65576 && little_at(out.bytes + 65568) == 5095);
    out = lend_marked(OUTPUT, 65575);
    CHECK(write_refused(write_variable(out, numbers, 4096, numbers, 4096), 6, 65576) && is_unchanged(out));
    out = lend_marked(OUTPUT, 66000);
    CHECK(write_refused(write_variable(out, numbers, 4097, numbers, 4097), 5, 0) && is_unchanged(out));
    CHECK(write_refused(write_variable(out, numbers, 4097, numbers, 4096), 5, 0) && is_unchanged(out));
    CHECK(write_refused(write_variable(no_bytes(), numbers, 4097, numbers, 4097), 5, 0));
}

void check_list_writing(void)
{
    check_write_two_links();
    check_write_no_links();
    check_write_most_links();
}
