/* Texts as UTF-8, against what a text must come out as: character by character, by the Unicode standard. */
#include "fuzz.h"

#include <string.h>

enum { DAMAGED = -1, MOST_TEXT = 1 << 14, MOST_WRITTEN = 2 * MOST_TEXT + 17 };

typedef mf4_text_reply text_call(const uint8_t *, size_t, uint8_t *, size_t);

static text_call *const text_calls[] = { mf4_text_latin1, mf4_text_utf8, mf4_text_utf16_le, mf4_text_utf16_be };

/* What stands in the way of a damaged text; Latin-1 cannot be damaged. */
static const char *const placeholders[] = { "", "<Invalid UTF8>", "<Invalid UTF16LE>", "<Invalid UTF16BE>" };

static int is_utf16(uint8_t type) { return type == MF4_TYPE_UTF16_LE || type == MF4_TYPE_UTF16_BE; }

static int32_t unit_at(uint8_t type, const uint8_t *bytes)
{
    return type == MF4_TYPE_UTF16_LE ? bytes[1] << 8 | bytes[0] : bytes[0] << 8 | bytes[1];
}

/* The length up to the stop: the first NUL byte, or the first zero unit, where an odd last byte is none. */
static size_t stop_of(uint8_t type, lent input)
{
    size_t width = is_utf16(type) ? 2 : 1, at = 0;
    while (input.length - at >= width && (is_utf16(type) ? unit_at(type, input.bytes + at) : input.bytes[at]) != 0)
        at += width;
    return at;
}

static int32_t next_of_utf8(const uint8_t *bytes, size_t left, size_t *taken)
{
    static const int32_t smallest[] = { 0, 0x80, 0x800, 0x10000 };
    uint8_t first = bytes[0];
    size_t behind = first < 0xC0 ? 0 : first < 0xE0 ? 1 : first < 0xF0 ? 2 : 3, i;
    int32_t scalar = behind == 0 ? first : first & (0x3F >> behind);
    if ((first >= 0x80 && first < 0xC0) || first >= 0xF8 || left <= behind)
        return DAMAGED;
    for (i = 1; i <= behind; i++) {
        if ((bytes[i] & 0xC0) != 0x80)
            return DAMAGED;
        scalar = scalar << 6 | (bytes[i] & 0x3F);
    }
    *taken = 1 + behind;
    if (scalar < smallest[behind] || scalar > 0x10FFFF || (scalar >= 0xD800 && scalar <= 0xDFFF))
        return DAMAGED;
    return scalar;
}

/* UTF-16 is damaged exactly where a low surrogate stands without a high one before it, or a high one without a low one
 * behind it. */
static int32_t next_of_utf16(uint8_t type, const uint8_t *bytes, size_t left, size_t *taken)
{
    int32_t unit = unit_at(type, bytes), low;
    *taken = 2;
    if (unit < 0xD800 || unit > 0xDFFF)
        return unit;
    if (unit >= 0xDC00 || left < 4)
        return DAMAGED;
    low = unit_at(type, bytes + 2);
    *taken = 4;
    return low < 0xDC00 || low > 0xDFFF ? DAMAGED : 0x10000 + (unit - 0xD800) * 0x400 + (low - 0xDC00);
}

static int32_t next_character(uint8_t type, const uint8_t *bytes, size_t left, size_t *taken)
{
    if (type == MF4_TYPE_UTF8)
        return next_of_utf8(bytes, left, taken);
    if (is_utf16(type))
        return next_of_utf16(type, bytes, left, taken);
    *taken = 1;
    return bytes[0];
}

static size_t put_utf8(int32_t scalar, uint8_t *out)
{
    static const uint8_t marks[] = { 0x00, 0xC0, 0xE0, 0xF0 };
    int behind = scalar < 0x80 ? 0 : scalar < 0x800 ? 1 : scalar < 0x10000 ? 2 : 3, i;
    out[0] = (uint8_t)(marks[behind] | scalar >> (6 * behind));
    for (i = 1; i <= behind; i++)
        out[i] = (uint8_t)(0x80 | (scalar >> (6 * (behind - i)) & 0x3F));
    return (size_t)behind + 1;
}

typedef struct expected_text {
    uint8_t type;
    uint8_t bytes[MOST_WRITTEN];
    size_t count;
    uint8_t damaged;
} expected_text;

static void expect_placeholder(expected_text *text)
{
    const char *placeholder = placeholders[text->type - MF4_TYPE_LATIN1];
    text->damaged = 1;
    text->count = strlen(placeholder);
    memcpy(text->bytes, placeholder, text->count);
}

static void expect_text(expected_text *text, uint8_t type, lent input)
{
    size_t stop = stop_of(type, input), at = 0, taken = 0;
    text->type = type;
    text->count = 0;
    text->damaged = 0;
    for (; at < stop; at += taken) {
        int32_t scalar = next_character(type, input.bytes + at, stop - at, &taken);
        if (scalar == DAMAGED) {
            expect_placeholder(text);
            return;
        }
        text->count += put_utf8(scalar, text->bytes + text->count);
    }
}

static int same_text(mf4_text_reply a, mf4_text_reply b)
{
    return a.reply == b.reply && a.told == b.told && a.count == b.count && a.damaged == b.damaged;
}

/* By the call of its encoding and by its type's code, into a buffer of that room. */
static void exercise_text(lent input, const expected_text *text, size_t room)
{
    text_call *call = text_calls[text->type - MF4_TYPE_LATIN1];
    enum call counted = (enum call)(TEXT_LATIN1 + (text->type - MF4_TYPE_LATIN1));
    lent out = lend_marked(OUTPUT, room);
    mf4_text_reply answer = call(input.bytes, input.length, out.bytes, out.length);
    check_reply(counted, answer.reply, answer.told, REPLY(0) | REPLY(6));
    note(counted, 20u + answer.damaged);
    MUST((answer.reply == MF4_ANSWER) == (room >= text->count));
    if (answer.reply == MF4_ANSWER)
        MUST(answer.count == text->count && answer.damaged == text->damaged);
    else
        MUST(answer.told == text->count && answer.count == 0 && answer.damaged == 0);
    MUST(same_bytes(out.bytes, text->bytes, (size_t)answer.count) && is_unchanged_from(out, (size_t)answer.count));
    MUST(same_text(answer, mf4_text_by_type(text->type, input.bytes, input.length, out.bytes, out.length)));
    MUST(is_unchanged(input));
}

static void exercise_no_text(lent input, uint8_t type)
{
    lent out = lend_marked(OUTPUT, 17);
    mf4_text_reply answer = mf4_text_by_type(type, input.bytes, input.length, out.bytes, out.length), expected;
    if (type >= MF4_TYPE_LATIN1 && type <= MF4_TYPE_UTF16_BE)
        return;
    memset(&expected, 0, sizeof expected);
    expected.reply = MF4_NO_TEXT_TYPE;
    MUST(same_text(answer, expected) && is_unchanged(out));
}

/* In each encoding: no room, the room that is needed and one byte less, the room that always suffices, and some room. */
void exercise_texts(lent input)
{
    static expected_text text;
    uint8_t type;
    for (type = MF4_TYPE_LATIN1; type <= MF4_TYPE_UTF16_BE; type++) {
        expect_text(&text, type, input);
        MUST(mf4_text_room(input.length) >= text.count);
        exercise_text(input, &text, 0);
        exercise_text(input, &text, text.count);
        exercise_text(input, &text, text.count > 0 ? text.count - 1 : 0);
        exercise_text(input, &text, mf4_text_room(input.length));
        exercise_text(input, &text, choose_byte());
    }
    exercise_no_text(input, choose_byte());
}

/* A few pieces at which the encodings part: characters at the ends of their ranges, and what lies just beyond them. */
lent choose_text(void)
{
    static const char *const pieces[] = {
        "A", "\x7F", "\x80", "\xC0\x80", "\xC1\xBF", "\xC2\x80", "\xDF\xBF", "\xE0\x9F\xBF", "\xE0\xA0\x80", "\xED\x9F\xBF",
        "\xED\xA0\x80", "\xED\xBF\xBF", "\xEE\x80\x80", "\xEF\xBF\xBF", "\xF0\x8F\xBF\xBF", "\xF0\x90\x80\x80",
        "\xF4\x8F\xBF\xBF", "\xF4\x90\x80\x80", "\xF5\x80\x80\x80", "\xF8", "\xFF\xD7", "\x01\xD8", "\xFF\xDB", "\x01\xDC",
        "\xFF\xDF", "\x01\xE0", "\xD7\xFF", "\xD8\x01", "\xDB\xFF", "\xDC\x01", "\xDF\xFF", "\xE0\x01"
    };
    enum { PIECES = sizeof pieces / sizeof *pieces };
    uint8_t bytes[32], count = choose_byte() % 8;
    size_t length = 0;
    for (; count > 0; count--) {
        uint8_t how = choose_byte();
        const char *piece = how < 0xE0 ? pieces[how % PIECES] : "";
        size_t size = piece[0] == '\0' ? 1 : strlen(piece); /* of an empty piece its NUL */
        memcpy(bytes + length, piece, size);
        length += size;
    }
    return lend_copy(TWIN_INPUT, bytes, length);
}
