/* Texts as UTF-8. */
#include "limits.h"

#include <string.h>

typedef mf4_text_reply text_call(const uint8_t *, size_t, uint8_t *, size_t);

static text_call *call_of(uint8_t data_type)
{
    static text_call *const calls[] = { mf4_text_latin1, mf4_text_utf8, mf4_text_utf16_le, mf4_text_utf16_be };
    return calls[data_type - MF4_TYPE_LATIN1];
}

typedef struct text_case {
    uint8_t data_type;
    const char *bytes;
    const char *written;
    uint8_t damaged;
} text_case;

#define BAD_UTF8 "3C 49 6E 76 61 6C 69 64 20 55 54 46 38 3E"
#define BAD_UTF16_LE "3C 49 6E 76 61 6C 69 64 20 55 54 46 31 36 4C 45 3E"
#define BAD_UTF16_BE "3C 49 6E 76 61 6C 69 64 20 55 54 46 31 36 42 45 3E"

static const text_case text_cases[] = {
    { MF4_TYPE_LATIN1, "", "", 0 },
    { MF4_TYPE_LATIN1, "50 58 31 00 39", "50 58 31", 0 },
    { MF4_TYPE_LATIN1, "00 39", "", 0 },
    { MF4_TYPE_LATIN1, "E9", "C3 A9", 0 },
    { MF4_TYPE_LATIN1, "7F 80 FF", "7F C2 80 C3 BF", 0 },
    { MF4_TYPE_UTF8, "", "", 0 },
    { MF4_TYPE_UTF8, "41 00 FF", "41", 0 },
    { MF4_TYPE_UTF8, "C3 A9 E2 82 AC F4 8F BF BF", "C3 A9 E2 82 AC F4 8F BF BF", 0 },
    { MF4_TYPE_UTF8, "EF BF BF ED 9F BF EE 80 80", "EF BF BF ED 9F BF EE 80 80", 0 },
    { MF4_TYPE_UTF8, "F4 90 80 80", BAD_UTF8, 1 },
    { MF4_TYPE_UTF8, "ED A0 80", BAD_UTF8, 1 },
    { MF4_TYPE_UTF8, "C0 80", BAD_UTF8, 1 },
    { MF4_TYPE_UTF8, "E0 9F BF", BAD_UTF8, 1 },
    { MF4_TYPE_UTF8, "F0 8F BF BF", BAD_UTF8, 1 },
    { MF4_TYPE_UTF8, "41 E2 82", BAD_UTF8, 1 },
    { MF4_TYPE_UTF8, "E2 82 00 AC", BAD_UTF8, 1 },
    { MF4_TYPE_UTF8, "80", BAD_UTF8, 1 },
    { MF4_TYPE_UTF8, "F5", BAD_UTF8, 1 },
    { MF4_TYPE_UTF8, BAD_UTF8, BAD_UTF8, 0 },
    { MF4_TYPE_UTF16_LE, "", "", 0 },
    { MF4_TYPE_UTF16_LE, "41", "", 0 },
    { MF4_TYPE_UTF16_LE, "41 00 42", "41", 0 },
    { MF4_TYPE_UTF16_LE, "41 00 00 00 00 D8", "41", 0 },
    { MF4_TYPE_UTF16_LE, "00 41", "E4 84 80", 0 },
    { MF4_TYPE_UTF16_LE, "3D D8 00 DE", "F0 9F 98 80", 0 },
    { MF4_TYPE_UTF16_LE, "FF DB FF DF", "F4 8F BF BF", 0 },
    { MF4_TYPE_UTF16_LE, "7F 00 80 00 FF 07 00 08 FF FF", "7F C2 80 DF BF E0 A0 80 EF BF BF", 0 },
    { MF4_TYPE_UTF16_LE, "00 D8", BAD_UTF16_LE, 1 },
    { MF4_TYPE_UTF16_LE, "00 DC", BAD_UTF16_LE, 1 },
    { MF4_TYPE_UTF16_LE, "00 D8 00 D8 00 DC", BAD_UTF16_LE, 1 },
    { MF4_TYPE_UTF16_LE, "00 D8 00 00 00 DC", BAD_UTF16_LE, 1 },
    { MF4_TYPE_UTF16_LE, "00 D8 DC", BAD_UTF16_LE, 1 },
    { MF4_TYPE_UTF16_LE, "00 D8 41 00", BAD_UTF16_LE, 1 },
    { MF4_TYPE_UTF16_LE, "FF DB 00 E0", BAD_UTF16_LE, 1 },
    { MF4_TYPE_UTF16_LE, "FF D7 00 E0", "ED 9F BF EE 80 80", 0 },
    { MF4_TYPE_UTF16_BE, "", "", 0 },
    { MF4_TYPE_UTF16_BE, "00 41 00", "41", 0 },
    { MF4_TYPE_UTF16_BE, "41 00", "E4 84 80", 0 },
    { MF4_TYPE_UTF16_BE, "D8 3D DE 00", "F0 9F 98 80", 0 },
    { MF4_TYPE_UTF16_BE, "D8 00", BAD_UTF16_BE, 1 },
    { MF4_TYPE_UTF16_BE, "DC 00 D8 00", BAD_UTF16_BE, 1 },
    { MF4_TYPE_UTF16_BE, "DB FF DB FF", BAD_UTF16_BE, 1 },
    { MF4_TYPE_UTF16_BE, "DB FF E0 00", BAD_UTF16_BE, 1 },
};

static int text_is(mf4_text_reply a, size_t count, uint8_t damaged)
{
    return a.reply == 0 && a.told == 0 && a.count == count && a.damaged == damaged;
}

static int text_refused(mf4_text_reply a, uint32_t reply, uint64_t told)
{
    return a.reply == reply && a.told == told && a.count == 0 && a.damaged == 0;
}

/* Into a buffer of that room: an answer where the text fits, else the refusal that tells its size. */
static void check_in_room(text_case a, lent input, size_t room)
{
    uint8_t written[64];
    size_t count = from_hex(a.written, written);
    lent out = room == 0 ? no_bytes() : lend_marked(OUTPUT, room);
    mf4_text_reply answer = call_of(a.data_type)(input.bytes, input.length, out.bytes, out.length);
    if (room >= count)
        CHECK(text_is(answer, count, a.damaged) && holds_only(out, written, count));
    else
        CHECK(text_refused(answer, MF4_NO_ROOM, count) && is_unchanged(out));
}

/* The call by the type's code is the call of that encoding, and the room that always suffices does. */
static void check_by_type(text_case a, lent input)
{
    lent out = lend_marked(OUTPUT, mf4_text_room(input.length));
    uint8_t written[64];
    size_t count = from_hex(a.written, written);
    CHECK(text_is(mf4_text_by_type(a.data_type, input.bytes, input.length, out.bytes, out.length), count, a.damaged));
    CHECK(holds_only(out, written, count));
}

static void check_text_case(text_case a)
{
    lent input = hex_or_null(a.bytes);
    size_t count = (strlen(a.written) + 1) / 3;
    check_in_room(a, input, 0);
    check_in_room(a, input, count);
    check_in_room(a, input, count + 9);
    if (count > 0)
        check_in_room(a, input, count - 1);
    check_by_type(a, input);
}

static void check_other_types(void)
{
    lent input = hex("41"), out = lend_marked(OUTPUT, 17);
    unsigned code;
    name_case("a text of a type that is none");
    for (code = 0; code <= 255; code++)
        if (code < MF4_TYPE_LATIN1 || code > MF4_TYPE_UTF16_BE)
            CHECK(text_refused(mf4_text_by_type((uint8_t)code, input.bytes, 1, out.bytes, 17), MF4_NO_TEXT_TYPE, 0));
    CHECK(is_unchanged(out));
}

void check_texts(void)
{
    size_t i;
    for (i = 0; i < COUNT(text_cases); i++) {
        name_row("text", i);
        check_text_case(text_cases[i]);
    }
    check_other_types();
}
