/* Chains with a damage or two: what is refused, what is not looked at, and which refusal comes first. */
#include "files.h"

typedef struct damage {
    size_t at;
    int size;
    uint64_t number;
    uint32_t reply;
    uint64_t length;
} damage;

#define REFUSED(reply) (reply), 0
#define JOINED(length) MF4_ANSWER, (length)

static const damage cut_damages[] = {
    /* the list's id, its link count, what is reserved and not looked at */
    { 8, 4, MF4_ID_DT, REFUSED(3) }, { 8, 4, 0, REFUSED(3) }, { 11, 1, 'l', REFUSED(3) }, { 24, 8, 0, REFUSED(4) },
    { 12, 4, UINT32_MAX, JOINED(6) }, { 65, 3, 0xFFFFFF, JOINED(6) },
    /* its block length */
    { 16, 8, 87, REFUSED(10) }, { 16, 8, 0, REFUSED(10) }, { 16, 8, 89, JOINED(6) }, { 16, 8, MOST, JOINED(6) },
    /* its count; with another number of links, other bytes are taken for the count, and it is 0 */
    { 68, 4, 2, REFUSED(10) }, { 68, 4, 0, REFUSED(10) }, { 68, 4, 4, REFUSED(10) }, { 24, 8, 3, REFUSED(10) },
    { 24, 8, 5, REFUSED(10) },
    /* next */
    { 32, 8, 151, REFUSED(11) }, { 32, 8, 174, REFUSED(11) }, { 32, 8, MOST, REFUSED(11) }, { 32, 8, 150, REFUSED(3) },
    /* a data link */
    { 40, 8, 0, REFUSED(11) }, { 40, 8, 151, REFUSED(11) }, { 40, 8, MOST, REFUSED(11) },
    { 40, 8, MOST - 22, REFUSED(11) }, { 56, 8, 0, REFUSED(11) }, { 40, 8, 150, REFUSED(12) }, { 40, 8, 8, REFUSED(12) },
    /* a data block's id, link count and length, the last an end that wraps to 0 */
    { 96, 4, 0x5A442323, REFUSED(12) }, { 99, 1, 't', REFUSED(12) }, { 100, 4, UINT32_MAX, JOINED(6) },
    { 112, 8, 1, REFUSED(12) }, { 112, 8, MOST, REFUSED(12) }, { 104, 8, 23, REFUSED(12) }, { 104, 8, 0, REFUSED(12) },
    { 155, 8, 28, REFUSED(12) }, { 155, 8, MOST, REFUSED(12) }, { 104, 8, MOST - 95, REFUSED(12) },
    /* an offset, or the data in front of it */
    { 72, 8, 1, REFUSED(13) }, { 80, 8, 2, REFUSED(13) }, { 80, 8, 4, REFUSED(13) }, { 88, 8, 0, REFUSED(13) },
    { 88, 8, MOST, REFUSED(13) }, { 104, 8, 26, REFUSED(13) }, { 104, 8, 28, REFUSED(13) }, { 155, 8, 26, JOINED(5) },
};

static const damage equal_damages[] = {
    { 16, 8, 71, REFUSED(10) }, { 16, 8, 73, JOINED(8) }, { 68, 4, 2, REFUSED(10) }, { 68, 4, UINT32_MAX, REFUSED(10) },
    { 64, 1, 0xFF, JOINED(8) },
    { 72, 8, 2, REFUSED(13) }, { 72, 8, 4, REFUSED(13) }, { 72, 8, 0, REFUSED(13) }, { 72, 8, MOST, REFUSED(13) },
    { 88, 8, 26, REFUSED(13) }, { 115, 8, 26, REFUSED(13) },
    { 142, 8, 25, JOINED(7) }, { 142, 8, 24, JOINED(6) }, { 142, 8, 27, REFUSED(12) }, { 56, 8, 80, JOINED(9) },
};

static const damage pair_damages[] = {
    { 112, 8, 0, REFUSED(13) }, { 112, 8, 6, REFUSED(13) }, { 56, 8, 3, REFUSED(13) },
    { 64, 4, 0, REFUSED(3) }, { 80, 8, 0, REFUSED(4) }, { 108, 4, 0, REFUSED(10) }, { 72, 8, 55, REFUSED(10) },
    { 96, 8, 0, REFUSED(11) }, { 32, 8, 120, REFUSED(3) }, { 32, 8, 8, REFUSED(13) }, { 88, 8, 8, REFUSED(13) },
    { 88, 8, 64, REFUSED(13) }, { 147, 4, 0, REFUSED(12) }, { 32, 8, 0, JOINED(3) },
};

/* Record 0 of one byte is there in every whole file, so it is fetched unless the chain is refused. */
static void check_rows(const char *table, void (*make)(void), const damage *damages, size_t count)
{
    size_t i;
    for (i = 0; i < count; i++) {
        damage a = damages[i];
        name_row(table, i);
        make();
        put(a.at, a.number, a.size);
        if (a.reply == MF4_ANSWER)
            CHECK(fetches(0, 1, "01") && joins(a.length));
        else
            CHECK(refuses(0, 1, a.reply));
    }
}

/* A list at the end of a short file: what it needs is counted from its own address. */
static void check_short_files(void)
{
    static const struct { size_t length; uint32_t reply; uint64_t told; } cuts[] = {
        { 173, 12, 0 }, { 171, 12, 0 }, { 170, 11, 0 }, { 96, 11, 0 }, { 95, 2, 88 }, { 71, 2, 64 }, { 32, 2, 64 },
        { 31, 11, 0 },
    };
    size_t i;
    make_cut_file();
    for (i = 0; i < COUNT(cuts); i++) {
        name_row("a file that ends early", i);
        cut_file(cuts[i].length);
        CHECK(refuses_from(START, 0, 1, cuts[i].reply, cuts[i].told));
    }
}

static void check_told_sizes(void)
{
    name_case("a list that needs more than the file");
    make_cut_file();
    put(24, MOST, 8);
    CHECK(refuses_from(START, 0, 1, 2, MOST));
    put(24, 3, 8), put(56, 0, 8), put(60, 15, 4);  /* 3 links, 0 flags, 15 offsets: 24 + 24 + 8 + 120, the file has 166 */
    CHECK(refuses_from(START, 0, 1, 2, 176));
}

static void check_starts(void)
{
    static const struct { uint64_t start; uint32_t reply; } starts[] = {
        { 0, 11 }, { 151, 11 }, { 174, 11 }, { MOST, 11 }, { MOST - 22, 11 }, { MOST - 23, 11 }, { 150, 3 }, { 96, 3 },
        { 7, 3 },
    };
    size_t i;
    make_cut_file();
    for (i = 0; i < COUNT(starts); i++) {
        name_row("starts", i);
        CHECK(refuses_from(starts[i].start, 0, 1, starts[i].reply, 0));
    }
}

/* Two damages at once: the one that comes first in the order is told. */
static void check_order(void)
{
    name_case("the order of refusals");
    make_cut_file();
    put(72, 1, 8), put(48, 0, 8);
    CHECK(refuses(0, 1, 13));  /* fragment 0 is untrue; fragment 1 leads nowhere */
    make_cut_file();
    put(40, 0, 8), put(72, 1, 8);
    CHECK(refuses(0, 1, 11));
    make_cut_file();
    put(96, 0, 4), put(72, 1, 8);
    CHECK(refuses(0, 1, 12));
    make_cut_file();
    put(16, 0, 8), put(40, 0, 8);
    CHECK(refuses(0, 1, 10));
    make_pair_file();
    put(56, 1, 8), put(64, 0, 4);
    CHECK(refuses(0, 1, 13));  /* the first list's fragments come before the second list */
    make_pair_file();
    put(64, 0, 4);
    CHECK(refuses(MOST, 1, 3));  /* 16 comes last */
    CHECK(refuses(0, 0, 15));
}

void check_damages(void)
{
    check_rows("a damaged cut file", make_cut_file, cut_damages, COUNT(cut_damages));
    check_rows("a damaged equal file", make_equal_file, equal_damages, COUNT(equal_damages));
    check_rows("a damaged pair file", make_pair_file, pair_damages, COUNT(pair_damages));
    check_short_files();
    check_told_sizes();
    check_starts();
    check_order();
}
