/* The first two descriptions of a list whose fields share a bit: which pair is told, what is refused, how long a list may be. */
#include "values.h"

enum { MOST_ENTRIES = MF4_MAX_CHANNELS + 44, MOST_IN_ROW = 5 };

static int overlap_is(mf4_overlap_reply a, uint32_t reply, uint64_t told, uint8_t found, uint64_t first, uint64_t second)
{
    return a.reply == reply && a.told == told && a.found == found && a.first == first && a.second == second;
}

static lent lend_list(const mf4_channel *list, size_t count) { return lend_copy(INPUT, list, count * sizeof *list); }

static mf4_overlap_reply asked(lent list)
{
    return mf4_first_overlap((const mf4_channel *)(const void *)list.bytes, list.length / sizeof(mf4_channel));
}

typedef struct overlap_case {
    mf4_channel list[MOST_IN_ROW];
    size_t count;
    uint32_t reply;
    uint64_t told;
    uint8_t found;
    uint64_t first, second;
} overlap_case;

#define NONE 0, 0, 0, 0, 0
#define PAIR(first, second) 0, 0, 1, (first), (second)
#define NO_NUMBER(place) 27, (place), 0, 0, 0
#define BYTE(at) FIELD(MF4_TYPE_UNSIGNED_LE, 0, (at), 8)
#define UPPER(at) FIELD(MF4_TYPE_UNSIGNED_LE, 4, (at), 4)
#define LOWER(at) FIELD(MF4_TYPE_UNSIGNED_LE, 0, (at), 4)

static const overlap_case pairs[] = {
    { { BYTE(0) }, 1, NONE },
    { { BYTE(0), BYTE(1) }, 2, NONE },
    { { BYTE(1), BYTE(1) }, 2, PAIR(0, 1) },
    { { UPPER(0), LOWER(0) }, 2, NONE },
    { { UPPER(0), FIELD(MF4_TYPE_UNSIGNED_BE, 0, 0, 5) }, 2, PAIR(0, 1) },
    /* 12 bits leave the upper half of their last byte free, which stands first in big-endian order */
    { { FIELD(MF4_TYPE_UNSIGNED_BE, 0, 0, 12), UPPER(0) }, 2, NONE },
    { { FIELD(MF4_TYPE_UNSIGNED_BE, 0, 0, 12), UPPER(1) }, 2, PAIR(0, 1) },
    { { FIELD(MF4_TYPE_SIGNED_LE, 0, 0, 12), UPPER(0) }, 2, PAIR(0, 1) },
    { { FIELD(MF4_TYPE_SIGNED_LE, 0, 0, 12), UPPER(1) }, 2, NONE },
    { { FIELD(MF4_TYPE_SIGNED_BE, 4, 0, 12), LOWER(0) }, 2, PAIR(0, 1) },
    { { FIELD(MF4_TYPE_SIGNED_BE, 4, 0, 12), LOWER(1) }, 2, NONE },
    { { FIELD(MF4_TYPE_UNSIGNED_LE, 4, 0, 12), LOWER(0) }, 2, NONE },
    /* nine bytes: the ends of 64 bits from bit 4 on */
    { { FIELD(MF4_TYPE_UNSIGNED_LE, 4, 0, 64), LOWER(0), UPPER(8) }, 3, NONE },
    { { FIELD(MF4_TYPE_UNSIGNED_LE, 4, 0, 64), LOWER(8) }, 2, PAIR(0, 1) },
    { { FIELD(MF4_TYPE_UNSIGNED_BE, 4, 0, 64), UPPER(0), LOWER(8) }, 3, NONE },
    { { FIELD(MF4_TYPE_UNSIGNED_BE, 4, 0, 64), LOWER(0) }, 2, PAIR(0, 1) },
    { { FIELD(MF4_TYPE_FLOAT_LE, 0, 2, 32), BYTE(1), BYTE(6), BYTE(5) }, 4, PAIR(0, 3) },
    { { FIELD(MF4_TYPE_FLOAT_BE, 1, 2, 64), FIELD(MF4_TYPE_UNSIGNED_LE, 0, 10, 1) }, 2, NONE },
    { { FIELD(MF4_TYPE_FLOAT_BE, 1, 2, 64), FIELD(MF4_TYPE_UNSIGNED_LE, 1, 10, 1) }, 2, PAIR(0, 1) },
    /* of several pairs the smallest first, and then the smallest second */
    { { BYTE(5), BYTE(1), BYTE(9), BYTE(1), BYTE(1) }, 5, PAIR(1, 3) },
    { { BYTE(2), BYTE(1), BYTE(1), BYTE(2), BYTE(3) }, 5, PAIR(0, 3) },
    { { BYTE(7), BYTE(6), BYTE(5), BYTE(4), BYTE(4) }, 5, PAIR(3, 4) },
    { { BYTE(0), BYTE(1), BYTE(2), BYTE(3), FIELD(MF4_TYPE_UNSIGNED_LE, 0, 0, 32) }, 5, PAIR(0, 4) },
    { { FIELD(MF4_TYPE_UNSIGNED_LE, 0, 0, 32), BYTE(3), BYTE(2), BYTE(1), BYTE(0) }, 5, PAIR(0, 1) },
    /* byte offsets up to the last one: nothing wraps */
    { { FIELD(MF4_TYPE_UNSIGNED_LE, 0, UINT32_MAX, 64), BYTE(0) }, 2, NONE },
    { { FIELD(MF4_TYPE_UNSIGNED_BE, 4, UINT32_MAX, 64), BYTE(7) }, 2, NONE },
    { { BYTE(UINT32_MAX), BYTE(UINT32_MAX) }, 2, PAIR(0, 1) },
    { { FIELD(MF4_TYPE_UNSIGNED_LE, 0, UINT32_MAX, 16), FIELD(MF4_TYPE_UNSIGNED_LE, 0, UINT32_MAX - 1, 16) }, 2, PAIR(0, 1) },
    { { FIELD(MF4_TYPE_UNSIGNED_LE, 4, UINT32_MAX - 7, 64), UPPER(UINT32_MAX) }, 2, PAIR(0, 1) },
    { { FIELD(MF4_TYPE_UNSIGNED_LE, 0, UINT32_MAX, 9), FIELD(MF4_TYPE_UNSIGNED_BE, 0, UINT32_MAX, 9) }, 2, PAIR(0, 1) },
    { { FIELD(MF4_TYPE_UNSIGNED_LE, 7, UINT32_MAX, 2), FIELD(MF4_TYPE_UNSIGNED_BE, 7, UINT32_MAX, 2) }, 2, NONE },
    /* what plays no part: flags, the invalidation bit, a data link without its channel type and the other way round */
    { { { 0, 1, 0, 0, 8, 3, 9, 0 }, { 0, 2, 0, 1, 8, 2, 0, 7 } }, 2, NONE },
    { { { 0, 1, 0, 0, 8, 3, 9, 0 }, { 0, 255, 0, 0, 8, 2, 9, MOST } }, 2, PAIR(0, 1) },
};

/* An entry that is no fixed number is told by its place, the first one, also behind a pair. */
static const overlap_case no_numbers[] = {
    { { FIELD(MF4_TYPE_UNSIGNED_LE, 0, 0, 0) }, 1, NO_NUMBER(0) },
    { { BYTE(0), FIELD(MF4_TYPE_FLOAT_LE, 0, 4, 0) }, 2, NO_NUMBER(1) },
    { { BYTE(0), FIELD(MF4_TYPE_SIGNED_BE, 8, 4, 8) }, 2, NO_NUMBER(1) },
    { { BYTE(0), FIELD(MF4_TYPE_FLOAT_BE, 255, 4, 32) }, 2, NO_NUMBER(1) },
    { { BYTE(0), FIELD(MF4_TYPE_UNSIGNED_LE, 0, 4, 65) }, 2, NO_NUMBER(1) },
    { { BYTE(0), FIELD(MF4_TYPE_SIGNED_LE, 7, 4, UINT32_MAX) }, 2, NO_NUMBER(1) },
    { { BYTE(0), FIELD(MF4_TYPE_FLOAT_LE, 0, 4, 16) }, 2, NO_NUMBER(1) },
    { { BYTE(0), FIELD(MF4_TYPE_FLOAT_LE, 0, 4, 31) }, 2, NO_NUMBER(1) },
    { { BYTE(0), FIELD(MF4_TYPE_FLOAT_BE, 0, 4, 33) }, 2, NO_NUMBER(1) },
    { { BYTE(0), FIELD(MF4_TYPE_FLOAT_BE, 0, 4, 65) }, 2, NO_NUMBER(1) },
    { { BYTE(0), PAYLOAD(MF4_TYPE_UNSIGNED_LE, 0, 64) }, 2, NO_NUMBER(1) },
    { { BYTE(0), PAYLOAD(MF4_TYPE_FLOAT_LE, 0, 32) }, 2, NO_NUMBER(1) },
    { { BYTE(0), FIELD(MF4_TYPE_LATIN1, 0, 4, 8) }, 2, NO_NUMBER(1) },
    { { BYTE(0), FIELD(MF4_TYPE_BYTE_ARRAY, 0, 4, 32) }, 2, NO_NUMBER(1) },
    { { BYTE(0), FIELD(MF4_TYPE_COMPLEX_LE, 0, 4, 64) }, 2, NO_NUMBER(1) },
    { { BYTE(0), FIELD(255, 0, 4, 8) }, 2, NO_NUMBER(1) },
    { { BYTE(0), BYTE(0), BYTE(0), FIELD(MF4_TYPE_UTF8, 0, 0, 8), FIELD(MF4_TYPE_UTF8, 0, 0, 8) }, 5, NO_NUMBER(3) },
    { { FIELD(MF4_TYPE_UTF8, 0, 0, 8), BYTE(0), BYTE(0), BYTE(1), FIELD(MF4_TYPE_FLOAT_LE, 0, 0, 1) }, 5, NO_NUMBER(0) },
    { { BYTE(0), BYTE(0), BYTE(1), BYTE(2), FIELD(MF4_TYPE_UNSIGNED_LE, 0, 0, 0) }, 5, NO_NUMBER(4) },
};

static void check_cases(const char *table, const overlap_case *cases, size_t count)
{
    size_t i;
    for (i = 0; i < count; i++) {
        const overlap_case *a = &cases[i];
        lent list = lend_list(a->list, a->count);
        name_row(table, i);
        CHECK(overlap_is(asked(list), a->reply, a->told, a->found, a->first, a->second));
        CHECK(is_unchanged(list));
    }
}

/* The lines of mf4.h. Gives how many of the channels are fixed numbers. */
static size_t take_numbers(const mf4_channel *channels, size_t channel_count, mf4_channel *numbers)
{
    size_t number_count = 0, i;
    for (i = 0; i < channel_count; i++)
        if (mf4_first_overlap(&channels[i], 1).reply == MF4_ANSWER)
            numbers[number_count++] = channels[i];
    return number_count;
}

/* With the others left out, the list is answered as one that never had them. */
static void check_left_out(void)
{
    mf4_channel numbers[MOST_IN_ROW];
    size_t i;
    for (i = 0; i < COUNT(no_numbers); i++) {
        const size_t count = take_numbers(no_numbers[i].list, no_numbers[i].count, numbers);
        name_row("entries that are no fixed numbers, left out", i);
        CHECK(count < no_numbers[i].count && asked(lend_list(numbers, count)).reply == MF4_ANSWER);
    }
    for (i = 0; i < COUNT(pairs); i++) {
        const overlap_case *a = &pairs[i];
        name_row("fixed numbers, none left out", i);
        CHECK(take_numbers(a->list, a->count, numbers) == a->count);
        CHECK(overlap_is(asked(lend_list(numbers, a->count)), a->reply, a->told, a->found, a->first, a->second));
    }
}

/* Single bits, one behind the other. */
static void fill_side_by_side(mf4_channel *list, size_t count)
{
    static const mf4_channel none = { 0 };
    size_t i;
    for (i = 0; i < count; i++) {
        list[i] = none;
        list[i].data_type = (uint8_t)(i % 4);
        list[i].bit_offset = (uint8_t)(i % 8);
        list[i].byte_offset = (uint32_t)(i / 8);
        list[i].bit_count = 1;
    }
}

static void check_empty_lists(void)
{
    name_case("a list of no entries");
    CHECK(overlap_is(mf4_first_overlap(NULL, 0), 0, 0, 0, 0, 0));
    CHECK(overlap_is(asked(lend_marked(INPUT, 0)), 0, 0, 0, 0, 0));
}

/* Up to 256 entries; of more none is looked at, and 26 comes before 27. */
static void check_lengths(void)
{
    static mf4_channel list[MOST_ENTRIES];
    static const size_t too_many[] = { MF4_MAX_CHANNELS + 1, MF4_MAX_CHANNELS + 2, MOST_ENTRIES };
    const lent nothing = lend_marked(INPUT, 0);
    size_t i;
    fill_side_by_side(list, MOST_ENTRIES);
    name_case("as many entries as a list may have");
    CHECK(overlap_is(asked(lend_list(list, MF4_MAX_CHANNELS - 1)), 0, 0, 0, 0, 0));
    CHECK(overlap_is(asked(lend_list(list, MF4_MAX_CHANNELS)), 0, 0, 0, 0, 0));
    for (i = 0; i < COUNT(too_many); i++) {
        name_number("entries", too_many[i]);
        list[0].bit_count = (uint32_t)(i % 2);
        CHECK(overlap_is(asked(lend_list(list, too_many[i])), 26, 0, 0, 0, 0));
    }
    name_case("too many entries, none of them readable");
    CHECK(overlap_is(mf4_first_overlap((const mf4_channel *)(const void *)nothing.bytes, 257), 26, 0, 0, 0, 0));
    CHECK(overlap_is(mf4_first_overlap((const mf4_channel *)(const void *)nothing.bytes, SIZE_MAX), 26, 0, 0, 0, 0));
}

/* In a list of 256 entries: a pair at its ends, and what is no fixed number at each place. */
static void check_full_list(void)
{
    static mf4_channel list[MF4_MAX_CHANNELS];
    static const size_t places[][2] = { { 0, 1 }, { 0, 255 }, { 1, 254 }, { 127, 128 }, { 254, 255 } };
    size_t i;
    for (i = 0; i < COUNT(places); i++) {
        name_row("pairs in a list of 256", i);
        fill_side_by_side(list, MF4_MAX_CHANNELS);
        list[places[i][1]] = list[places[i][0]];
        CHECK(overlap_is(asked(lend_list(list, MF4_MAX_CHANNELS)), 0, 0, 1, places[i][0], places[i][1]));
    }
    for (i = 0; i < MF4_MAX_CHANNELS; i++) {
        name_number("no fixed number at the place", i);
        fill_side_by_side(list, MF4_MAX_CHANNELS);
        list[i].bit_count = 65;
        list[MF4_MAX_CHANNELS - 1].bit_offset = (uint8_t)(8 + i % 2);
        CHECK(overlap_is(asked(lend_list(list, MF4_MAX_CHANNELS)), 27, i, 0, 0, 0));
    }
}

void check_overlaps(void)
{
    check_cases("fields that overlap", pairs, COUNT(pairs));
    check_cases("entries that are no fixed numbers", no_numbers, COUNT(no_numbers));
    check_left_out();
    check_empty_lists();
    check_lengths();
    check_full_list();
}
