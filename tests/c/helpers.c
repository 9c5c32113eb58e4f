/* What mf4.h itself says and does: the version, the names of numbers, and the inline functions. */
#include "limits.h"

#include <stdio.h>
#include <string.h>

static void check_version(void)
{
    char version[40];
    name_case("the version");
    snprintf(version, sizeof version, "%d.%d.%d", MF4_VERSION_MAJOR, MF4_VERSION_MINOR, MF4_VERSION_PATCH);
    CHECK(strcmp(version, MF4_VERSION) == 0);
    CHECK(mf4_version() == MF4_VERSION_NUMBER && mf4_version_matches() == 1);
}

typedef struct named_id {
    const char *bytes;
    uint32_t id;
} named_id;

static const named_id named_ids[] = {
    { "##HD", MF4_ID_HD }, { "##DG", MF4_ID_DG }, { "##CG", MF4_ID_CG }, { "##CN", MF4_ID_CN }, { "##TX", MF4_ID_TX },
    { "##MD", MF4_ID_MD }, { "##DL", MF4_ID_DL }, { "##DT", MF4_ID_DT }, { "##SD", MF4_ID_SD }, { "##CC", MF4_ID_CC },
    { "##CA", MF4_ID_CA }, { "##DZ", MF4_ID_DZ }, { "##HL", MF4_ID_HL },
};

/* An id's name is what reading a header with those four bytes gives. */
static void check_ids(void)
{
    uint8_t bytes[MF4_HEADER_SIZE] = { 0 };
    size_t i;
    for (i = 0; i < COUNT(named_ids); i++) {
        lent input;
        name_row("block ids", i);
        memcpy(bytes, named_ids[i].bytes, 4);
        input = lend_copy(INPUT, bytes, sizeof bytes);
        CHECK(mf4_read_header(input.bytes, input.length).header.id == named_ids[i].id);
    }
}

static void check_numbers(void)
{
    name_case("numbers of a value");
    CHECK(mf4_bits_as_signed(0) == 0 && mf4_bits_as_signed(MOST) == -1);
    CHECK(mf4_bits_as_signed(UINT64_C(0x7FFFFFFFFFFFFFFF)) == INT64_MAX);
    CHECK(mf4_bits_as_signed(UINT64_C(0x8000000000000000)) == INT64_MIN);
    CHECK(mf4_bits_as_double(UINT64_C(0x3FF0000000000000)) == 1.0);
    CHECK(mf4_bits_as_double(UINT64_C(0xC340000000000002)) == -9007199254740996.0);
    CHECK(mf4_bits_as_double(NAN_BITS) != mf4_bits_as_double(NAN_BITS));
}

/* A number to be written is what a value of its kind tells. */
static void check_numbers_given(void)
{
    name_case("numbers to be written");
    CHECK(mf4_unsigned(MOST).kind == MF4_KIND_UNSIGNED && mf4_unsigned(MOST).number == MOST);
    CHECK(mf4_signed(-1).kind == MF4_KIND_SIGNED && mf4_signed(-1).number == MOST);
    CHECK(mf4_signed(INT64_MIN).number == UINT64_C(0x8000000000000000) && mf4_signed(INT64_MAX).number == INT64_MAX);
    CHECK(mf4_double(1.0).kind == MF4_KIND_DOUBLE && mf4_double(1.0).number == UINT64_C(0x3FF0000000000000));
    CHECK(mf4_double(-0.0).number == UINT64_C(0x8000000000000000));
    CHECK(mf4_bits_as_signed(mf4_signed(-7).number) == -7 && mf4_bits_as_double(mf4_double(-2.5).number) == -2.5);
}

static void check_text_room(void)
{
    name_case("room for a text");
    CHECK(mf4_text_room(0) == 17 && mf4_text_room(8) == 17 && mf4_text_room(9) == 18 && mf4_text_room(1000) == 2000);
    CHECK(mf4_text_room(SIZE_MAX / 2) == SIZE_MAX - 1);
    CHECK(mf4_text_room(SIZE_MAX / 2 + 1) == SIZE_MAX && mf4_text_room(SIZE_MAX) == SIZE_MAX);
}

static void check_channel_names(void)
{
    name_case("names of a channel block");
    CHECK(MF4_TOO_FEW_LINKS == 17 && strcmp(mf4_reply_text(17), "the channel block has fewer than 8 links") == 0);
    CHECK(MF4_TYPE_COMPLEX_BE == 16 && MF4_CHANNEL_BLOCK_SIZE == 160);
    CHECK(MF4_CHANNEL_FIXED_LENGTH == 0 && MF4_CHANNEL_VARIABLE_LENGTH == 1 && MF4_CHANNEL_MASTER == 2);
    CHECK(MF4_CHANNEL_VIRTUAL_MASTER == 3 && MF4_CHANNEL_SYNC == 4 && MF4_CHANNEL_MAX_LENGTH == 5);
    CHECK(MF4_CHANNEL_VIRTUAL == 6);
}

static void check_names_of_refused_fields(void)
{
    name_case("names of a field's refusals");
    CHECK(MF4_NO_BITS == 18 && strcmp(mf4_reply_text(18), "the description gives the number no bits") == 0);
    CHECK(MF4_BAD_BIT_OFFSET == 19 && strcmp(mf4_reply_text(19), "the description's bit offset is over 7") == 0);
    CHECK(MF4_INTEGER_TOO_WIDE == 20 && strcmp(mf4_reply_text(20), "the description gives the integer over 64 bits") == 0);
    CHECK(MF4_FIELD_OUTSIDE == 21
          && strcmp(mf4_reply_text(21), "the field ends outside the record or payload, which has too few bytes") == 0);
    CHECK(MF4_BAD_FLOAT_WIDTH == 22
          && strcmp(mf4_reply_text(22), "the description gives the float neither 32 nor 64 bits") == 0);
}

static void check_names_of_refused_payloads(void)
{
    name_case("names of a payload's refusals");
    CHECK(MF4_PAYLOAD_OUTSIDE == 23
          && strcmp(mf4_reply_text(23), "the payload or its length ends behind the joined data") == 0);
    CHECK(MF4_NO_POSITION == 35 && strcmp(mf4_reply_text(35), "the channel holds no position of a payload") == 0);
}

static void check_names_of_refused_numbers(void)
{
    name_case("names of the refusals of a number and of a list of channels");
    CHECK(MF4_DOES_NOT_FIT == 24 && strcmp(mf4_reply_text(24), "the number does not fit the field") == 0);
    CHECK(MF4_OTHER_KIND == 25
          && strcmp(mf4_reply_text(25),
                    "the number is of another kind than the channel's, or the channel is no fixed number") == 0);
    CHECK(MF4_TOO_MANY_CHANNELS == 26 && strcmp(mf4_reply_text(26), "the list has over 256 descriptions") == 0);
    CHECK(MF4_NO_FIXED_NUMBER == 27
          && strcmp(mf4_reply_text(27), "a description in the list is that of no fixed number") == 0);
    CHECK(MF4_MAX_CHANNELS == 256);
}

static void check_names_of_refused_areas(void)
{
    name_case("names of the refusals of a record's validity");
    CHECK(MF4_OTHER_LENGTH == 28 && strcmp(mf4_reply_text(28), "the record is not as long as its group says") == 0);
    CHECK(MF4_BIT_OUTSIDE == 29
          && strcmp(mf4_reply_text(29), "the invalidation bit lies outside the group's invalidation bytes") == 0);
    CHECK(MF4_CHANNEL_ALL_INVALID == 1 && MF4_CHANNEL_INVALIDATION_BIT == 2);
}

static void check_names_of_refused_tables(void)
{
    name_case("names of a table's refusals");
    CHECK(MF4_TABLE_FULL == 30 && strcmp(mf4_reply_text(30), "the table would have over 512 data blocks") == 0);
    CHECK(MF4_TABLE_EMPTY == 31 && strcmp(mf4_reply_text(31), "the table has no data block to give up") == 0);
    CHECK(MF4_BAD_TABLE == 32
          && strcmp(mf4_reply_text(32), "the table is damaged, or a data block of it ends behind the file") == 0);
    CHECK(MF4_MAX_TABLE_FRAGMENTS == 512 && sizeof(mf4_table) == 8208);
}

static void check_names_of_a_report(void)
{
    name_case("names of a report's refusal");
    CHECK(MF4_NO_NUMBER_CHANNEL == 33 && strcmp(mf4_reply_text(33), "the channel is no fixed number") == 0);
}

static void check_reply_of_helpers(void)
{
    name_case("the helpers' own reply");
    CHECK(MF4_NO_TEXT_TYPE == 256 && strcmp(mf4_reply_text(MF4_NO_TEXT_TYPE), mf4_reply_text(UINT32_MAX)) != 0);
}

void check_helpers(void)
{
    check_version();
    check_ids();
    check_numbers();
    check_numbers_given();
    check_text_room();
    check_channel_names();
    check_names_of_refused_fields();
    check_names_of_refused_payloads();
    check_names_of_refused_numbers();
    check_names_of_refused_areas();
    check_names_of_refused_tables();
    check_names_of_a_report();
    check_reply_of_helpers();
}
