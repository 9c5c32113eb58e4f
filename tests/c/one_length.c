/* Chains of several lists. With flag bit 0 all of them have one length and one count; without it each is cut as it likes. */
#include "laid_chains.h"

/* Where the lists of the chain stand that was laid out last. */
static laid chain;

/* A file with the chain alone. Its data counts on from 1. */
static void lay_counting_chain(const laid_list *lists)
{
    uint8_t data[64];
    size_t i;
    for (i = 0; i < sizeof data; i++)
        data[i] = (uint8_t)(i + 1);
    start_file(0);
    chain = lay_chain(START, "##DT", data, lists);
    cut_file(chain.end);
}

/* ---- chains that keep the rule ---------------------------------------------------------------------------------- */

static const struct { laid_chain lists; uint64_t length; } whole_chains[] = {
    /* one list is the first and the last: its last block may be short */
    { { THREE("33") }, 6 }, { { THREE("332") }, 8 }, { { THREE("30") }, 3 }, { { THREE("0") }, 0 }, { { THREE("") }, 0 },
    { { { 1, MOST, "3" } }, 3 },
    /* the last list has as many blocks, fewer or none */
    { { THREE("33"), THREE("33"), THREE("33") }, 18 }, { { THREE("33"), THREE("33"), THREE("3") }, 15 },
    { { THREE("33"), THREE("33"), THREE("") }, 12 }, { { THREE("333"), THREE("3") }, 12 }, { { THREE("3"), THREE("") }, 3 },
    /* and its last block may be short */
    { { THREE("33"), THREE("33"), THREE("32") }, 17 }, { { THREE("33"), THREE("33"), THREE("1") }, 13 },
    { { THREE("33"), THREE("0") }, 6 },
    /* no blocks at all, and blocks without data */
    { { { 1, MOST, "" }, { 1, MOST, "" }, { 1, MOST, "" } }, 0 }, { { { 1, 0, "00" }, { 1, 0, "0" } }, 0 },
    /* flag bit 0 alone tells the form */
    { { THREE("33"), { 3, 3, "33" } }, 12 }, { { { 0xFF, 3, "33" }, THREE("32") }, 11 }, { { FREE("3"), { 2, 0, "21" } }, 6 },
    { { { 0xFE, 0, "12" }, FREE("3") }, 6 },
    /* with offsets every cut will do */
    { { FREE("31"), FREE("2"), FREE("041") }, 11 }, { { FREE(""), FREE("32") }, 5 }, { { FREE("2"), FREE(""), FREE("33") }, 8 },
};

/* The data counts on from 1, wherever the record is cut. */
static int counts_on(uint64_t number, uint64_t size)
{
    lent buffer = lend_marked(OUTPUT, (size_t)size);
    int is_right = done_is(fetch(START, number, size, buffer), MF4_ANSWER, 0);
    size_t i;
    for (i = 0; i < size; i++)
        is_right &= buffer.bytes[i] == (uint8_t)(number * size + i + 1);
    return is_right;
}

/* Every record of every size, and the one behind the last. */
static void check_every_record(uint64_t length)
{
    uint64_t size, number;
    for (size = 1; size <= length + 1; size++) {
        for (number = 0; number < length / size; number++)
            CHECK(counts_on(number, size));
        CHECK(refuses(number, size, 16));
    }
}

static void check_whole_chains(void)
{
    size_t i;
    for (i = 0; i < COUNT(whole_chains); i++) {
        name_row("chains that keep the rule", i);
        lay_counting_chain(whole_chains[i].lists);
        CHECK(joins(whole_chains[i].length));
        check_every_record(whole_chains[i].length);
    }
}

/* ---- chains that break it --------------------------------------------------------------------------------------- */

/* All are refused with 13. */
static const laid_chain broken_chains[] = {
    /* another form, though the offsets are true and the blocks have the length */
    { THREE("33"), FREE("33") }, { FREE("33"), THREE("33") }, { THREE("33"), { 2, 0, "33" } }, { { 2, 0, "33" }, THREE("33") },
    { { 3, 3, "33" }, { 2, 0, "3" } }, { THREE("33"), FREE("") }, { FREE("33"), THREE("") }, { FREE(""), THREE("") },
    { THREE("33"), THREE("33"), FREE("3") }, { FREE("33"), FREE("3"), THREE("3") },
    /* and the offset is the length */
    { THREE("3"), FREE("3") }, { { 1, 0, "0" }, FREE("0") }, { FREE("0"), { 1, 0, "0" } },
    /* another length, in a low byte or a high one, though no block contradicts it */
    { THREE("33"), { 1, 4, "44" } }, { THREE("33"), { 1, 2, "22" } }, { THREE("33"), { 1, 4, "3" } },
    { THREE("33"), { 1, 0x103, "3" } }, { THREE("33"), { 1, 0x300000003, "3" } }, { THREE("33"), { 1, MOST, "3" } },
    { THREE("33"), { 1, 4, "" } }, { THREE(""), { 1, 4, "" } }, { THREE("33"), THREE("33"), { 1, 4, "3" } },
    /* another count: fewer before the last list, or more */
    { THREE("33"), THREE("3"), THREE("") }, { THREE("33"), THREE("3"), THREE("33") }, { THREE("33"), THREE("3"), THREE("3") },
    { THREE("33"), THREE(""), THREE("") }, { THREE("3"), THREE("33") }, { THREE("33"), THREE("33"), THREE("333") },
    { THREE("3"), THREE("33"), THREE("3") }, { THREE(""), THREE("3") }, { THREE(""), THREE(""), THREE("3") },
    /* a short block in the middle, at the end of a list too, and before a list without blocks */
    { THREE("23") }, { THREE("303") }, { THREE("32"), THREE("33") }, { THREE("2"), THREE("3") }, { THREE("30"), THREE("3") },
    { THREE("33"), THREE("23") }, { THREE("33"), THREE("32"), THREE("33") }, { THREE("33"), THREE("32"), THREE("3") },
    { THREE("32"), THREE("") }, { THREE("33"), THREE("32"), THREE("") }, { { 1, MOST, "3" }, { 1, MOST, "" } },
    /* a block that is too long */
    { THREE("34") }, { THREE("43") }, { THREE("33"), THREE("4") }, { THREE("34"), THREE("33") }, { THREE("33"), THREE("34") },
    { { 1, 0, "1" } },
};

static void check_broken_chains(void)
{
    size_t i;
    for (i = 0; i < COUNT(broken_chains); i++) {
        name_row("chains that break the rule", i);
        lay_counting_chain(broken_chains[i]);
        CHECK(refuses(0, 1, 13));
    }
}

/* ---- which refusal comes first ---------------------------------------------------------------------------------- */

/* The first of the two blocks of a list that tells one length. */
#define FIRST_BLOCK_ID 64, 4

/* A chain with one number of one of its lists changed. */
static const struct {
    laid_chain lists;
    size_t list, at;
    int size;
    uint64_t number;
    uint32_t reply;
} changed_chains[] = {
    /* a list is compared with the first before its fragments are looked at */
    { { THREE("33"), FREE("33") }, 1, FIRST_LINK, 0, 13 }, { { FREE("33"), THREE("33") }, 1, FIRST_LINK, 0, 13 },
    { { THREE("33"), { 1, 4, "44" } }, 1, FIRST_LINK, 0, 13 }, { { THREE("3"), THREE("33") }, 1, FIRST_LINK, 0, 13 },
    { { THREE("33"), THREE("3"), THREE("") }, 1, FIRST_LINK, 0, 13 }, { { THREE("33"), THREE("33") }, 1, FIRST_LINK, 0, 11 },
    { { THREE("33"), THREE("3") }, 1, FIRST_LINK, 0, 11 }, { { FREE("33"), FREE("3") }, 1, FIRST_LINK, 0, 11 },
    /* but after it was read, and agrees with itself */
    { { THREE("33"), FREE("33") }, 1, ID, 0, 3 }, { { FREE("33"), THREE("33") }, 1, LINK_COUNT, 0, 4 },
    { { THREE("33"), FREE("33") }, 1, COUNT_OF_TWO, 1, 10 }, { { FREE("33"), THREE("33") }, 1, COUNT_OF_TWO, 1, 10 },
    { { THREE("33"), { 1, 4, "44" } }, 1, COUNT_OF_TWO, 3, 10 }, { { THREE("3"), THREE("33") }, 1, COUNT_OF_TWO, 1, 10 },
    { { THREE("33"), FREE("33") }, 1, BLOCK_LENGTH, 0, 10 }, { { THREE("33"), { 1, 4, "44" } }, 1, BLOCK_LENGTH, 63, 10 },
    /* and after the first list's own fragments */
    { { THREE("33"), FREE("33") }, 0, SECOND_LINK, 0, 11 }, { { THREE("33"), { 1, 4, "44" } }, 0, FIRST_BLOCK_ID, 0, 12 },
    /* a short block, or a smaller count, in front of a next link is told before that link is followed */
    { { THREE("32") }, 0, NEXT, MOST, 13 }, { { THREE("33") }, 0, NEXT, MOST, 11 },
    { { THREE("32"), THREE("3") }, 1, ID, 0, 13 }, { { THREE("33"), THREE("3") }, 1, ID, 0, 3 },
    { { THREE("33"), THREE("3") }, 1, NEXT, MOST, 13 }, { { THREE("33"), THREE("33") }, 1, NEXT, MOST, 11 },
    /* fragments in turn, each with 11 and 12 before 13 */
    { { THREE("23") }, 0, SECOND_LINK, 0, 13 }, { { THREE("23") }, 0, FIRST_LINK, 0, 11 },
    { { THREE("23") }, 0, FIRST_BLOCK_ID, 0, 12 }, { { THREE("43") }, 0, FIRST_BLOCK_ID, 0, 12 },
    /* a loop has no last list */
    { { THREE("33") }, 0, NEXT, START, 8 }, { { THREE("") }, 0, NEXT, START, 8 },
    { { THREE("33"), THREE("33") }, 1, NEXT, START, 8 }, { { THREE("33"), { 3, 3, "33" } }, 1, NEXT, START, 8 },
    { { THREE("32") }, 0, NEXT, START, 13 }, { { THREE("33"), THREE("3") }, 1, NEXT, START, 13 },
    { { THREE("33"), THREE("32") }, 1, NEXT, START, 13 },
};

static void check_changed_chains(void)
{
    size_t i;
    for (i = 0; i < COUNT(changed_chains); i++) {
        name_row("chains with a number changed", i);
        lay_counting_chain(changed_chains[i].lists);
        put(chain.places[changed_chains[i].list] + changed_chains[i].at, changed_chains[i].number, changed_chains[i].size);
        CHECK(refuses(0, 1, changed_chains[i].reply));
    }
}

void check_one_length(void)
{
    check_whole_chains();
    check_broken_chains();
    check_changed_chains();
}
