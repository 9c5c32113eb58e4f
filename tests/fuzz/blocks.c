/* Headers, data types and data lists. Answers are compared by their fields, since structs have gaps. */
#include "fuzz.h"

#include <string.h>

static int same_block_header(mf4_header a, mf4_header b)
{
    return a.id == b.id && a.reserved0 == b.reserved0 && a.block_len == b.block_len && a.link_count == b.link_count;
}

static int same_list(mf4_list_reply a, mf4_list_reply b)
{
    return a.reply == b.reply && a.told == b.told && same_block_header(a.header, b.header) && a.next_addr == b.next_addr
        && a.data_links_at == b.data_links_at && a.data_link_count == b.data_link_count && a.flags == b.flags
        && a.reserved1 == b.reserved1 && a.data_block_count == b.data_block_count && a.rest_at == b.rest_at
        && a.rest_count == b.rest_count;
}

int same_written(mf4_written_reply a, mf4_written_reply b)
{
    return a.reply == b.reply && a.told == b.told && a.count == b.count;
}

void check_written(enum call call, mf4_written_reply answer, lent out, uint64_t allowed)
{
    check_reply(call, answer.reply, answer.told, allowed);
    MUST(answer.reply == MF4_ANSWER ? answer.count <= out.length : answer.count == 0);
    MUST(answer.reply != MF4_NO_ROOM || answer.told > out.length);
    MUST(is_unchanged_from(out, (size_t)answer.count));
}

static void exercise_write_header(mf4_header header, const uint8_t *expected)
{
    lent out = lend_marked(OUTPUT, choose_byte() % 32);
    mf4_written_reply answer = mf4_write_header(header, out.bytes, out.length);
    check_written(WRITE_HEADER, answer, out, REPLY(0) | REPLY(6));
    MUST((answer.reply == MF4_ANSWER) == (out.length >= 24));
    MUST(answer.reply == MF4_ANSWER ? answer.count == 24 && same_bytes(out.bytes, expected, 24) : answer.told == 24);
    MUST(same_written(answer, mf4_write_header(header, out.bytes, out.length)));
}

void exercise_header(lent input)
{
    static const mf4_header zero;
    mf4_header_reply answer = mf4_read_header(input.bytes, input.length);
    mf4_header_reply again = mf4_read_header(input.bytes, input.length);
    check_reply(READ_HEADER, answer.reply, answer.told, REPLY(0) | REPLY(2));
    MUST((answer.reply == MF4_ANSWER) == (input.length >= 24));
    MUST(answer.reply == again.reply && answer.told == again.told && same_block_header(answer.header, again.header));
    if (answer.reply == MF4_ANSWER)
        exercise_write_header(answer.header, input.bytes);
    else
        MUST(answer.told == 24 && same_block_header(answer.header, zero));
    MUST(is_unchanged(input));
}

void exercise_types(uint8_t code)
{
    MUST(mf4_type_code(code) == code);
    MUST(mf4_default_bits(code) == (code <= 5 ? 32u : code >= 13 && code <= 16 ? 64u : 8u));
}

/* What is written as a list: `length` for one of equal lengths, else `offsets`. */
typedef struct list_given {
    int equal;
    uint64_t next, length;
    lent links, offsets;
} list_given;

static mf4_written_reply write_list(list_given a, lent out)
{
    if (a.equal)
        return mf4_write_list_equal(a.next, numbers_of(a.links), count_of(a.links), a.length, out.bytes, out.length);
    return mf4_write_list_variable(a.next, numbers_of(a.links), count_of(a.links), numbers_of(a.offsets),
                                   count_of(a.offsets), out.bytes, out.length);
}

/* A list that the writer can make must come out of the writer as the bytes that it was read from. */
static void exercise_rewriting(lent input, mf4_list_reply list)
{
    size_t size = (size_t)(list.rest_at + 8 * list.rest_count);
    list_given given = { list.flags & MF4_LIST_EQUAL_LENGTH, list.next_addr, 0, no_bytes(), no_bytes() };
    lent out;
    mf4_written_reply answer;
    if (list.header.reserved0 != 0 || list.reserved1 != 0 || list.flags > 1 || list.data_link_count > MF4_MAX_FRAGMENTS
        || list.data_block_count != list.data_link_count || list.header.block_len != size)
        return;
    given.links = lend_copy(LINKS, input.bytes + list.data_links_at, (size_t)(8 * list.data_link_count));
    given.offsets = lend_copy(OFFSETS, input.bytes + list.rest_at, (size_t)(8 * list.rest_count));
    if (given.equal)
        memcpy(&given.length, given.offsets.bytes, 8);
    out = lend_marked(OUTPUT, size);
    answer = write_list(given, out);
    note(READ_LIST, 32);
    MUST(answer.reply == MF4_ANSWER && answer.count == size && same_bytes(out.bytes, input.bytes, size));
}

static void check_list_answer(lent input, mf4_list_reply answer)
{
    MUST(answer.data_links_at == 32 && answer.data_link_count == answer.header.link_count - 1);
    MUST(answer.data_link_count <= input.length / 8 && answer.rest_at == 40 + 8 * answer.data_link_count);
    MUST(answer.rest_count == ((answer.flags & MF4_LIST_EQUAL_LENGTH) ? 1 : answer.data_block_count));
    MUST(answer.rest_at <= input.length && answer.rest_count <= (input.length - answer.rest_at) / 8);
}

void exercise_list(lent input)
{
    mf4_list_reply answer = mf4_read_list(input.bytes, input.length), emptied;
    check_reply(READ_LIST, answer.reply, answer.told, REPLY(0) | REPLY(2) | REPLY(3) | REPLY(4));
    MUST(same_list(answer, mf4_read_list(input.bytes, input.length)));
    MUST(is_unchanged(input));
    if (answer.reply == MF4_ANSWER) {
        check_list_answer(input, answer);
        exercise_rewriting(input, answer);
        return;
    }
    memset(&emptied, 0, sizeof emptied);
    emptied.reply = answer.reply;
    emptied.told = answer.told;
    MUST(same_list(answer, emptied));
    MUST(answer.reply != MF4_TOO_FEW_BYTES || answer.told > input.length);
}

enum { MOST_LINKS = MF4_MAX_FRAGMENTS + 1 };

static lent choose_numbers(enum role role, size_t count)
{
    static uint64_t numbers[MOST_LINKS];
    size_t i;
    for (i = 0; i < count; i++)
        numbers[i] = choose_number();
    return lend_copy(role, numbers, 8 * count);
}

/* Mostly few, at times about as many as may be written. */
static size_t choose_link_count(void)
{
    uint8_t how = choose_byte();
    return how < 0xFC ? how % 9u : MOST_LINKS - how % 4u;
}

static void check_readback(list_given given, lent out, mf4_written_reply answer)
{
    mf4_list_reply list = mf4_read_list(out.bytes, (size_t)answer.count);
    MUST(list.reply == MF4_ANSWER && list.next_addr == given.next && list.data_link_count == count_of(given.links));
    MUST(list.flags == given.equal && list.header.block_len == answer.count);
    MUST(list.data_block_count == count_of(given.links));
    MUST(same_bytes(out.bytes + list.data_links_at, given.links.bytes, given.links.length));
    if (given.equal)
        MUST(list.rest_count == 1 && same_bytes(out.bytes + list.rest_at, &given.length, 8));
    else
        MUST(list.rest_count == count_of(given.offsets)
             && same_bytes(out.bytes + list.rest_at, given.offsets.bytes, given.offsets.length));
}

static list_given choose_list(int equal)
{
    size_t count = choose_link_count();
    list_given given;
    given.equal = equal;
    given.links = choose_numbers(LINKS, count);
    given.offsets = choose_numbers(OFFSETS, choose_byte() % 8 == 7 ? choose_link_count() : count);
    given.next = choose_number();
    given.length = choose_number();
    return given;
}

void exercise_writer(int equal)
{
    list_given given = choose_list(equal);
    size_t count = count_of(given.links);
    size_t needed = 24 + 8 + 8 * count + 8 + (equal ? 8 : 8 * count);
    lent out = lend_marked(OUTPUT, needed - 2 + choose_byte() % 8);
    int unwritable = count > MF4_MAX_FRAGMENTS || (!equal && count_of(given.offsets) != count);
    mf4_written_reply answer = write_list(given, out);
    check_written(equal ? WRITE_EQUAL : WRITE_VARIABLE, answer, out, REPLY(0) | REPLY(5) | REPLY(6));
    MUST((answer.reply == MF4_UNWRITABLE_LIST) == unwritable);
    MUST(unwritable || (answer.reply == MF4_NO_ROOM) == (out.length < needed));
    MUST(answer.reply != MF4_NO_ROOM || answer.told == needed);
    MUST(is_unchanged(given.links) && is_unchanged(given.offsets));
    if (answer.reply == MF4_ANSWER) {
        MUST(answer.count == needed);
        check_readback(given, out, answer);
    }
    MUST(same_written(answer, write_list(given, out)));
}
