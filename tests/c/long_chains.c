/* Chains of 256 lists and of 4,096 fragments, and of one more. */
#include "files.h"

/* Lists of 40 bytes without data links, one behind the other. */
static void make_row_of_lists(size_t count)
{
    size_t i;
    start_file(START + 40 * count);
    for (i = 0; i < count; i++) {
        put_block(START + 40 * i, "##DL", 40, 1);
        put(START + 40 * i + 24, i + 1 < count ? START + 40 * (i + 1) : 0, 8);
    }
}

static void check_many_lists(void)
{
    name_case("256 and 257 lists");
    make_row_of_lists(MF4_MAX_LISTS);
    CHECK(joins(0) && refuses(0, 1, 16));
    make_row_of_lists(MF4_MAX_LISTS + 1);
    CHECK(refuses(0, 1, 8));
    make_row_of_lists(MF4_MAX_LISTS);
    put(START + 40 * 255 + 24, MOST, 8);
    CHECK(refuses(0, 1, 8));   /* the 257th list leads nowhere: 8 comes before 11 */
    put(START + 40 * 254 + 24, MOST, 8);
    CHECK(refuses(0, 1, 11));  /* the 256th does */
    make_row_of_lists(1);
    put(32, START, 8);
    CHECK(refuses(0, 1, 8));   /* a list that names itself */
    make_row_of_lists(2);
    put(72, START, 8);
    CHECK(refuses(0, 1, 8));   /* two that name each other */
}

static void check_many_fragments(void)
{
    name_case("4,096 and 4,097 fragments");
    make_wide_list(MF4_MAX_FRAGMENTS, 2);
    CHECK(joins(8192) && fetches(4095, 2, "01 02") && refuses(4096, 2, 16));
    CHECK(fetches(2047, 4, "01 02 01 02") && refuses(0, 8193, 16));
    make_wide_list(MF4_MAX_FRAGMENTS + 1, 2);
    CHECK(refuses(0, 2, 9));
    put(40, 0, 8);
    CHECK(refuses(0, 2, 9));   /* before the list's first fragment is looked at */
    put(16, 0, 8);
    CHECK(refuses(0, 2, 10));  /* and after the list's own block length */
}

static void check_many_fragments_of_two_lists(void)
{
    size_t block;
    name_case("4,096 and 4,097 fragments of two lists");
    block = make_wide_list(MF4_MAX_FRAGMENTS - 1, 2);
    add_narrow_list(block);
    CHECK(joins(8192) && fetches(4095, 2, "01 02") && refuses(4096, 2, 16));
    block = make_wide_list(MF4_MAX_FRAGMENTS, 2);
    add_narrow_list(block);
    CHECK(refuses(0, 2, 9));
    put(40, 0, 8);
    CHECK(refuses(0, 2, 11));  /* the first list's fragments come before the second list's count */
}

/* 9 comes before 13 where the narrow list has a true offset, another length, or stands first and so counts fewer. */
static void check_many_fragments_of_unlike_lists(void)
{
    static const struct { size_t wide; uint32_t reply; } unlike[] = { { MF4_MAX_FRAGMENTS - 1, 13 }, { MF4_MAX_FRAGMENTS, 9 } };
    size_t i, narrow;
    for (i = 0; i < COUNT(unlike); i++) {
        name_row("4,096 and 4,097 fragments of lists that differ", i);
        narrow = add_narrow_list(make_wide_list(unlike[i].wide, 2));
        put(narrow + 40, 0, 1), put(narrow + 48, 2 * unlike[i].wide, 8);
        CHECK(refuses(0, 2, unlike[i].reply));
        put(narrow + 40, MF4_LIST_EQUAL_LENGTH, 1), put(narrow + 48, 3, 8);
        CHECK(refuses(0, 2, unlike[i].reply));
        put(narrow + 48, 2, 8), put(narrow + 24, START, 8), put(32, 0, 8);
        CHECK(refuses_from(narrow, 0, 2, unlike[i].reply, 0));
    }
}

static void check_loops(void)
{
    name_case("loops of lists");
    make_wide_list(17, 0);
    put(32, START, 8);
    CHECK(refuses(0, 1, 9));   /* the 241st time round passes 4,096 */
    make_wide_list(16, 0);
    put(32, START, 8);
    CHECK(refuses(0, 1, 8));   /* 256 times 16 is just 4,096 */
}

void check_long_chains(void)
{
    check_many_lists();
    check_many_fragments();
    check_many_fragments_of_two_lists();
    check_many_fragments_of_unlike_lists();
    check_loops();
}
