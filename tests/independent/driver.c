/*
 * Answers cases with the library: one case per line of standard input, one result per line of standard output.
 * The words of a case and of a result are described in protocol.py. A line that cannot be read gives "malformed".
 *
 * Each input stands in memory of just its size, so that a memory checker sees a read past it, and is compared with a copy
 * after the call. Each output buffer has guards on both sides. A change where none is allowed is added to the result.
 *
 *     cc -std=c99 -O1 -I include -o driver driver.c libmf4.a
 */
#include <inttypes.h>
#include <stdio.h>
#include <stdlib.h>
#include <string.h>

#include "mf4.h"

enum { GUARD = 32, GUARD_BYTE = 0xC3, MOST_SLICES = 5 };

/* ---- memory ----------------------------------------------------------------------------------------------------- */

typedef struct slice {
    uint8_t *bytes;   /* what the call is given                                        */
    size_t length;    /* the count that the call is given                              */
    size_t held;      /* the bytes that are there, which are fewer if the slice is long */
    uint8_t *copy;    /* an input's bytes before the call                              */
    uint8_t *memory;  /* what is to be freed                                           */
    int is_output;
} slice;

static slice slices[MOST_SLICES];
static size_t slices_used;

static void *allocated(size_t size)
{
    void *memory = malloc(size > 0 ? size : 1);
    if (memory == NULL) {
        fputs("driver: out of memory\n", stderr);
        exit(2);
    }
    return memory;
}

static void forget_slices(void)
{
    size_t i;
    for (i = 0; i < slices_used; i++) {
        free(slices[i].copy);
        free(slices[i].memory);
    }
    slices_used = 0;
}

/* An input moves into memory of just its size; an output buffer between two guards. NULL stays NULL. */
static slice *new_slice(const uint8_t *content, size_t length, int is_output, int is_null)
{
    slice *made;
    if (slices_used == MOST_SLICES) {
        fputs("driver: too many slices in a case\n", stderr);
        exit(2);
    }
    made = &slices[slices_used++];
    made->length = length;
    made->held = length;
    made->is_output = is_output;
    made->copy = NULL;
    if (is_output) {
        made->memory = allocated(length + 2 * GUARD);
        memset(made->memory, GUARD_BYTE, length + 2 * GUARD);
        made->bytes = made->memory + GUARD;
    } else {
        made->memory = allocated(length);
        made->bytes = made->memory;
        made->copy = allocated(length);
        if (length > 0)
            memcpy(made->copy, content, length);
    }
    if (length > 0)
        memcpy(made->bytes, content, length);
    if (is_null)
        made->bytes = NULL;
    return made;
}

static int guards_are_whole(const slice *output)
{
    size_t i;
    for (i = 0; i < GUARD; i++)
        if (output->memory[i] != GUARD_BYTE || output->memory[GUARD + output->held + i] != GUARD_BYTE)
            return 0;
    return 1;
}

static void print_wrong_changes(void)
{
    size_t i;
    for (i = 0; i < slices_used; i++) {
        if (slices[i].is_output && !guards_are_whole(&slices[i]))
            fputs(" WROTE-OUTSIDE-THE-BUFFER", stdout);
        if (!slices[i].is_output && memcmp(slices[i].memory, slices[i].copy, slices[i].held) != 0)
            fputs(" CHANGED-AN-INPUT", stdout);
    }
}

/* ---- words of a case -------------------------------------------------------------------------------------------- */

static char *rest_of_line;
static int is_malformed;

static const char *next_word(void)
{
    char *word = rest_of_line;
    while (*word == ' ')
        word++;
    rest_of_line = word;
    while (*rest_of_line != ' ' && *rest_of_line != '\0')
        rest_of_line++;
    if (*rest_of_line == ' ')
        *rest_of_line++ = '\0';
    if (*word == '\0')
        is_malformed = 1;
    return word;
}

static uint64_t decimal(const char *digits, const char **end)
{
    uint64_t number = 0;
    if (*digits < '0' || *digits > '9')
        is_malformed = 1;
    for (; *digits >= '0' && *digits <= '9'; digits++)
        number = number * 10 + (uint64_t)(*digits - '0');
    *end = digits;
    return number;
}

static uint64_t next_number(uint64_t most)
{
    const char *end;
    uint64_t number = decimal(next_word(), &end);
    if (*end != '\0' || number > most)
        is_malformed = 1;
    return number;
}

static uint64_t next_u64(void) { return next_number(UINT64_MAX); }
static uint32_t next_u32(void) { return (uint32_t)next_number(UINT32_MAX); }
static uint16_t next_u16(void) { return (uint16_t)next_number(UINT16_MAX); }
static uint8_t next_u8(void) { return (uint8_t)next_number(UINT8_MAX); }

static int hex_digit(char digit)
{
    if (digit >= '0' && digit <= '9')
        return digit - '0';
    if (digit >= 'a' && digit <= 'f')
        return digit - 'a' + 10;
    return -1;
}

/* Growing memory in which a slice is put together before it moves to its own place. */
static uint8_t *scratch;
static size_t scratch_size;

static void make_room(size_t size)
{
    if (size <= scratch_size)
        return;
    scratch_size = 2 * size;
    scratch = realloc(scratch, scratch_size);
    if (scratch == NULL) {
        fputs("driver: out of memory\n", stderr);
        exit(2);
    }
}

/* One piece, HEX or HEX*COUNT, behind `length` bytes that are there already. Gives the new length. */
static size_t add_piece(const char **word, size_t length)
{
    size_t from = length;
    while (hex_digit((*word)[0]) >= 0 && hex_digit((*word)[1]) >= 0) {
        make_room(length + 1);
        scratch[length++] = (uint8_t)(16 * hex_digit((*word)[0]) + hex_digit((*word)[1]));
        *word += 2;
    }
    if (**word == '*') {
        size_t size = length - from;
        uint64_t count = decimal(*word + 1, word);
        length = from;
        for (; count > 0; count--, length += size) {
            make_room(length + size);
            if (length > from)
                memcpy(scratch + length, scratch + from, size);
        }
    }
    return length;
}

static slice *next_slice(int is_output)
{
    const char *word = next_word();
    size_t length = 0;
    if (strcmp(word, "-") == 0)
        return new_slice(NULL, 0, is_output, 1);
    if (*word == 'z') {
        slice *made = new_slice(NULL, 0, is_output, 0);
        made->length = (size_t)decimal(word + 1, &word);
        return made;
    }
    if (*word == 'x')
        word++;
    else
        is_malformed = 1;
    length = add_piece(&word, length);
    while (*word == '+') {
        word++;
        length = add_piece(&word, length);
    }
    if (*word != '\0')
        is_malformed = 1;
    return new_slice(scratch, length, is_output, 0);
}

static slice *next_input(void) { return next_slice(0); }
static slice *next_output(void) { return next_slice(1); }

/* The numbers of a word behind its letter, into the scratch memory. Gives their length in bytes. */
static size_t add_numbers(const char *word, char letter)
{
    size_t length = 0;
    if (*word == letter)
        word++;
    else
        is_malformed = 1;
    while (*word >= '0' && *word <= '9') {
        uint64_t number = decimal(word, &word);
        make_room(length + sizeof number);
        memcpy(scratch + length, &number, sizeof number);
        length += sizeof number;
        if (*word == ',')
            word++;
    }
    if (*word != '\0')
        is_malformed = 1;
    return length;
}

/* The slice's length stays in bytes; count_of_numbers tells how many numbers it holds. */
static slice *next_numbers(void)
{
    const char *word = next_word();
    size_t length;
    if (strcmp(word, "-") == 0)
        return new_slice(NULL, 0, 0, 1);
    length = add_numbers(word, 'u');
    return new_slice(scratch, length, 0, 0);
}

static const uint64_t *numbers_of(const slice *numbers) { return (const uint64_t *)(const void *)numbers->bytes; }
static size_t count_of_numbers(const slice *numbers) { return numbers->length / sizeof(uint64_t); }

/* Numbers that are left out are 0. */
static slice *next_table(int is_output)
{
    const size_t size = sizeof(mf4_table);
    size_t length = add_numbers(next_word(), 't');
    make_room(size);
    if (length > size)
        is_malformed = 1;
    else
        memset(scratch + length, 0, size - length);
    return new_slice(scratch, size, is_output, 0);
}

static mf4_table *table_of(const slice *table) { return (mf4_table *)(void *)table->bytes; }

static mf4_header next_header(void)
{
    mf4_header header;
    header.id = next_u32();
    header.reserved0 = next_u32();
    header.block_len = next_u64();
    header.link_count = next_u64();
    return header;
}

static mf4_channel next_channel(void)
{
    mf4_channel channel;
    channel.data_type = next_u8();
    channel.channel_type = next_u8();
    channel.bit_offset = next_u8();
    channel.byte_offset = next_u32();
    channel.bit_count = next_u32();
    channel.flags = next_u32();
    channel.pos_invalidation_bit = next_u32();
    channel.data_addr = next_u64();
    return channel;
}

static mf4_group next_group(void)
{
    mf4_group group;
    group.record_id_size = next_u64();
    group.data_bytes = next_u32();
    group.invalidation_bytes = next_u32();
    return group;
}

static mf4_number next_number_given(void)
{
    mf4_number number;
    number.kind = next_u32();
    number.number = next_u64();
    return number;
}

/* A number up to the most, and the comma behind it where there is one. */
static uint64_t next_of_row(const char **word, uint64_t most)
{
    uint64_t number = decimal(*word, word);
    if (number > most)
        is_malformed = 1;
    if (**word == ',')
        (*word)++;
    return number;
}

static mf4_channel channel_of_row(const char **word)
{
    mf4_channel channel;
    channel.data_type = (uint8_t)next_of_row(word, UINT8_MAX);
    channel.channel_type = (uint8_t)next_of_row(word, UINT8_MAX);
    channel.bit_offset = (uint8_t)next_of_row(word, UINT8_MAX);
    channel.byte_offset = (uint32_t)next_of_row(word, UINT32_MAX);
    channel.bit_count = (uint32_t)next_of_row(word, UINT32_MAX);
    channel.flags = (uint32_t)next_of_row(word, UINT32_MAX);
    channel.pos_invalidation_bit = (uint32_t)next_of_row(word, UINT32_MAX);
    channel.data_addr = next_of_row(word, UINT64_MAX);
    return channel;
}

/* The slice's length stays in bytes, as that of numbers. */
static slice *next_channels(void)
{
    const char *word = next_word();
    size_t length = 0;
    if (strcmp(word, "-") == 0)
        return new_slice(NULL, 0, 0, 1);
    if (*word == 'c')
        word++;
    else
        is_malformed = 1;
    while (*word >= '0' && *word <= '9') {
        mf4_channel channel = channel_of_row(&word);
        make_room(length + sizeof channel);
        memcpy(scratch + length, &channel, sizeof channel);
        length += sizeof channel;
        if (*word == '/')
            word++;
    }
    if (*word != '\0')
        is_malformed = 1;
    return new_slice(scratch, length, 0, 0);
}

static mf4_channel_block next_channel_block(void)
{
    mf4_channel_block block;
    block.header = next_header();
    block.next_ch_addr = next_u64();
    block.component_addr = next_u64();
    block.name_addr = next_u64();
    block.source_addr = next_u64();
    block.conversion_addr = next_u64();
    block.unit_addr = next_u64();
    block.comment_addr = next_u64();
    block.more_links_at = next_u64();
    block.more_link_count = next_u64();
    block.channel = next_channel();
    block.sync_type = next_u8();
    block.precision = next_u8();
    block.reserved1 = next_u8();
    block.attachment_count = next_u16();
    block.min_raw_value = next_u64();
    block.max_raw_value = next_u64();
    block.lower_limit = next_u64();
    block.upper_limit = next_u64();
    block.lower_ext_limit = next_u64();
    block.upper_ext_limit = next_u64();
    return block;
}

/* ---- words of a result ------------------------------------------------------------------------------------------ */

static const char *separator;

static void print_number(const char *name, uint64_t number)
{
    printf("%s%s=%" PRIu64, separator, name, number);
    separator = " ";
}

static void print_reply(uint32_t reply, uint64_t told)
{
    print_number("reply", reply);
    print_number("told", told);
}

static void print_done(mf4_done_reply answer)
{
    print_reply(answer.reply, answer.told);
}

static void print_header(mf4_header header)
{
    print_number("id", header.id);
    print_number("reserved0", header.reserved0);
    print_number("block_len", header.block_len);
    print_number("link_count", header.link_count);
}

static void print_channel(mf4_channel channel)
{
    print_number("data_type", channel.data_type);
    print_number("channel_type", channel.channel_type);
    print_number("bit_offset", channel.bit_offset);
    print_number("byte_offset", channel.byte_offset);
    print_number("bit_count", channel.bit_count);
    print_number("flags", channel.flags);
    print_number("pos_invalidation_bit", channel.pos_invalidation_bit);
    print_number("data_addr", channel.data_addr);
}

static void print_channel_block(mf4_channel_block block)
{
    print_header(block.header);
    print_number("next_ch_addr", block.next_ch_addr);
    print_number("component_addr", block.component_addr);
    print_number("name_addr", block.name_addr);
    print_number("source_addr", block.source_addr);
    print_number("conversion_addr", block.conversion_addr);
    print_number("unit_addr", block.unit_addr);
    print_number("comment_addr", block.comment_addr);
    print_number("more_links_at", block.more_links_at);
    print_number("more_link_count", block.more_link_count);
    print_channel(block.channel);
    print_number("sync_type", block.sync_type);
    print_number("precision", block.precision);
    print_number("reserved1", block.reserved1);
    print_number("attachment_count", block.attachment_count);
    print_number("min_raw_value", block.min_raw_value);
    print_number("max_raw_value", block.max_raw_value);
    print_number("lower_limit", block.lower_limit);
    print_number("upper_limit", block.upper_limit);
    print_number("lower_ext_limit", block.lower_ext_limit);
    print_number("upper_ext_limit", block.upper_ext_limit);
}

static void print_out(const slice *out)
{
    static const char digits[] = "0123456789abcdef";
    size_t i;
    fputs(" out=x", stdout);
    for (i = 0; i < out->held; i++) {
        putchar(digits[out->bytes[i] >> 4]);
        putchar(digits[out->bytes[i] & 15]);
    }
}

/* Up to its last number that is not 0. */
static void print_table(const slice *table)
{
    const uint64_t *numbers = numbers_of(table);
    size_t i, count = count_of_numbers(table);
    while (count > 0 && numbers[count - 1] == 0)
        count--;
    fputs(" table=t", stdout);
    for (i = 0; i < count; i++)
        printf("%s%" PRIu64, i > 0 ? "," : "", numbers[i]);
}

static void print_written(mf4_written_reply written, const slice *out)
{
    print_reply(written.reply, written.told);
    print_number("count", written.count);
    print_out(out);
}

static void print_content(uint64_t number, uint64_t at, uint64_t length)
{
    print_number("number", number);
    print_number("at", at);
    print_number("length", length);
}

static void print_value(mf4_value_reply answer)
{
    print_reply(answer.reply, answer.told);
    print_number("kind", answer.kind);
    print_content(answer.number, answer.at, answer.length);
}

static void print_valid_value(mf4_valid_value_reply answer)
{
    print_reply(answer.reply, answer.told);
    print_number("kind", answer.kind);
    print_number("is_valid", answer.is_valid);
    print_content(answer.number, answer.at, answer.length);
}

static void print_point(mf4_point point)
{
    uint64_t bits;
    memcpy(&bits, &point.value, sizeof bits);
    print_number("number", point.number);
    print_number("value", bits);
}

static void print_report(mf4_report_reply answer)
{
    print_reply(answer.reply, answer.told);
    print_number("records", answer.records);
    print_number("valid", answer.valid);
    print_number("invalid", answer.invalid);
    print_number("without_value", answer.without_value);
    print_number("nan", answer.nan);
    print_number("has_doubles", answer.has_doubles);
    print_point(answer.first);
    print_point(answer.last);
    print_point(answer.smallest);
    print_point(answer.largest);
    printf(" sum_high=%" PRId64, answer.sum_high);
    print_number("sum_low", answer.sum_low);
}

static void print_payload(mf4_payload_reply answer)
{
    print_reply(answer.reply, answer.told);
    print_number("kind", answer.kind);
    print_number("is_valid", answer.is_valid);
    print_content(answer.number, answer.at, answer.length);
    print_number("payload_length", answer.payload_length);
}

static void print_text(mf4_text_reply answer, const slice *out)
{
    print_reply(answer.reply, answer.told);
    print_number("count", answer.count);
    print_number("damaged", answer.damaged);
    print_out(out);
}

/* ---- the calls -------------------------------------------------------------------------------------------------- */

static void version(void)
{
    print_number("answer", mf4_version());
}

static void read_header(void)
{
    slice *bytes = next_input();
    mf4_header_reply answer;
    if (is_malformed)
        return;
    answer = mf4_read_header(bytes->bytes, bytes->length);
    print_reply(answer.reply, answer.told);
    print_header(answer.header);
}

static void write_header(void)
{
    mf4_header header = next_header();
    slice *out = next_output();
    if (is_malformed)
        return;
    print_written(mf4_write_header(header, out->bytes, out->length), out);
}

static void type_code(void)
{
    uint8_t code = next_u8();
    if (is_malformed)
        return;
    print_number("answer", mf4_type_code(code));
}

static void default_bits(void)
{
    uint8_t code = next_u8();
    if (is_malformed)
        return;
    print_number("answer", mf4_default_bits(code));
}

static void read_list(void)
{
    slice *bytes = next_input();
    mf4_list_reply answer;
    if (is_malformed)
        return;
    answer = mf4_read_list(bytes->bytes, bytes->length);
    print_reply(answer.reply, answer.told);
    print_header(answer.header);
    print_number("next_addr", answer.next_addr);
    print_number("data_links_at", answer.data_links_at);
    print_number("data_link_count", answer.data_link_count);
    print_number("flags", answer.flags);
    print_number("reserved1", answer.reserved1);
    print_number("data_block_count", answer.data_block_count);
    print_number("rest_at", answer.rest_at);
    print_number("rest_count", answer.rest_count);
}

static void write_list_equal(void)
{
    uint64_t next_addr = next_u64();
    slice *links = next_numbers();
    uint64_t length = next_u64();
    slice *out = next_output();
    if (is_malformed)
        return;
    print_written(mf4_write_list_equal(next_addr, numbers_of(links), count_of_numbers(links), length, out->bytes,
                                       out->length),
                  out);
}

static void write_list_variable(void)
{
    uint64_t next_addr = next_u64();
    slice *links = next_numbers();
    slice *offsets = next_numbers();
    slice *out = next_output();
    if (is_malformed)
        return;
    print_written(mf4_write_list_variable(next_addr, numbers_of(links), count_of_numbers(links), numbers_of(offsets),
                                          count_of_numbers(offsets), out->bytes, out->length),
                  out);
}

static void read_channel(void)
{
    slice *bytes = next_input();
    mf4_channel_reply answer;
    if (is_malformed)
        return;
    answer = mf4_read_channel(bytes->bytes, bytes->length);
    print_reply(answer.reply, answer.told);
    print_channel_block(answer.block);
}

static void write_channel(void)
{
    mf4_channel_block block = next_channel_block();
    slice *out = next_output();
    if (is_malformed)
        return;
    print_written(mf4_write_channel(block, out->bytes, out->length), out);
}

static void decode_value(void)
{
    slice *record = next_input();
    uint64_t record_id_size = next_u64();
    mf4_channel channel = next_channel();
    if (is_malformed)
        return;
    print_value(mf4_decode_value(record->bytes, record->length, record_id_size, channel));
}

/* A record of a group, and a channel of it. */
typedef struct asked {
    const slice *record;
    mf4_group group;
    mf4_channel channel;
} asked;

static asked next_asked(void)
{
    asked a;
    a.record = next_input();
    a.group = next_group();
    a.channel = next_channel();
    return a;
}

static void check_validity(void)
{
    asked a = next_asked();
    mf4_validity_reply answer;
    if (is_malformed)
        return;
    answer = mf4_check_validity(a.record->bytes, a.record->length, a.group, a.channel);
    print_reply(answer.reply, answer.told);
    print_number("is_valid", answer.is_valid);
}

static void check_validity_unbounded(void)
{
    asked a = next_asked();
    if (is_malformed)
        return;
    print_number("answer", mf4_check_validity_unbounded(a.record->bytes, a.record->length, a.group, a.channel));
}

static void valid_value(mf4_valid_value_reply (*call)(const uint8_t *, size_t, mf4_group, mf4_channel))
{
    asked a = next_asked();
    if (is_malformed)
        return;
    print_valid_value(call(a.record->bytes, a.record->length, a.group, a.channel));
}

static void decode_valid_value(void) { valid_value(mf4_decode_valid_value); }
static void decode_valid_value_unbounded(void) { valid_value(mf4_decode_valid_value_unbounded); }

static void decode_double_bits(void)
{
    slice *record = next_input();
    uint64_t record_id_size = next_u64();
    mf4_channel channel = next_channel();
    if (is_malformed)
        return;
    print_number("answer", mf4_decode_double_bits(record->bytes, record->length, record_id_size, channel));
}

static void decode_valid_double(void)
{
    asked a = next_asked();
    double answer;
    if (is_malformed)
        return;
    answer = mf4_decode_valid_double(a.record->bytes, a.record->length, a.group, a.channel);
    print_number("answer", mf4_double(answer).number);
}

static void write_value(void)
{
    uint64_t record_id_size = next_u64();
    mf4_channel channel = next_channel();
    mf4_number value = next_number_given();
    slice *record = next_output();
    if (is_malformed)
        return;
    print_done(mf4_write_value(record_id_size, channel, value, record->bytes, record->length));
    print_out(record);
}

static void first_overlap(void)
{
    slice *list = next_channels();
    const mf4_channel *channels = (const mf4_channel *)(const void *)list->bytes;
    mf4_overlap_reply answer;
    if (is_malformed)
        return;
    answer = mf4_first_overlap(channels, list->length / sizeof(mf4_channel));
    print_reply(answer.reply, answer.told);
    print_number("found", answer.found);
    print_number("first", answer.first);
    print_number("second", answer.second);
}

static void text(mf4_text_reply (*call)(const uint8_t *, size_t, uint8_t *, size_t))
{
    slice *bytes = next_input();
    slice *out = next_output();
    if (is_malformed)
        return;
    print_text(call(bytes->bytes, bytes->length, out->bytes, out->length), out);
}

static void text_latin1(void) { text(mf4_text_latin1); }
static void text_utf8(void) { text(mf4_text_utf8); }
static void text_utf16_le(void) { text(mf4_text_utf16_le); }
static void text_utf16_be(void) { text(mf4_text_utf16_be); }

static void text_by_type(void)
{
    uint8_t data_type = next_u8();
    slice *bytes = next_input();
    slice *out = next_output();
    if (is_malformed)
        return;
    print_text(mf4_text_by_type(data_type, bytes->bytes, bytes->length, out->bytes, out->length), out);
}

static void text_room(void)
{
    size_t length = (size_t)next_u64();
    if (is_malformed)
        return;
    print_number("answer", mf4_text_room(length));
}

static void data_length(void)
{
    slice *file = next_input();
    uint64_t start = next_u64();
    mf4_length_reply answer;
    if (is_malformed)
        return;
    answer = mf4_data_length(file->bytes, file->length, start);
    print_reply(answer.reply, answer.told);
    print_number("length", answer.length);
}

static void read_record(void)
{
    slice *file = next_input();
    uint64_t start = next_u64();
    uint64_t number = next_u64();
    uint64_t record_size = next_u64();
    slice *buffer = next_output();
    if (is_malformed)
        return;
    print_done(mf4_read_record(file->bytes, file->length, start, number, record_size, buffer->bytes, buffer->length));
    print_out(buffer);
}

static void record_value(void)
{
    slice *file = next_input();
    uint64_t start = next_u64();
    uint64_t number = next_u64();
    uint64_t record_size = next_u64();
    mf4_group group = next_group();
    mf4_channel channel = next_channel();
    slice *buffer = next_output();
    if (is_malformed)
        return;
    print_valid_value(mf4_record_value(file->bytes, file->length, start, number, record_size, group, channel, buffer->bytes,
                                       buffer->length));
    print_out(buffer);
}

static void report(void)
{
    slice *file = next_input();
    uint64_t start = next_u64();
    uint64_t record_size = next_u64();
    mf4_group group = next_group();
    mf4_channel channel = next_channel();
    slice *buffer = next_output();
    if (is_malformed)
        return;
    print_report(mf4_report(file->bytes, file->length, start, record_size, group, channel, buffer->bytes, buffer->length));
    print_out(buffer);
}

static void change_table(mf4_done_reply (*call)(const uint8_t *, size_t, uint64_t, mf4_table *))
{
    slice *file = next_input();
    uint64_t address = next_u64();
    slice *table = next_table(1);
    if (is_malformed)
        return;
    print_done(call(file->bytes, file->length, address, table_of(table)));
    print_table(table);
}

static void open_table(void) { change_table(mf4_open_table); }
static void extend_table(void) { change_table(mf4_extend_table); }

static void shorten_table(void)
{
    slice *table = next_table(1);
    if (is_malformed)
        return;
    print_done(mf4_shorten_table(table_of(table)));
    print_table(table);
}

/* A record that is wanted through a table. */
typedef struct wanted {
    const slice *file;
    const slice *table;
    uint64_t number;
    uint64_t record_size;
} wanted;

static wanted next_wanted(void)
{
    wanted w;
    w.file = next_input();
    w.table = next_table(0);
    w.number = next_u64();
    w.record_size = next_u64();
    return w;
}

static void table_record(void)
{
    wanted w = next_wanted();
    slice *buffer = next_output();
    if (is_malformed)
        return;
    print_done(mf4_table_record(w.file->bytes, w.file->length, table_of(w.table), w.number, w.record_size, buffer->bytes,
                                buffer->length));
    print_out(buffer);
}

static void table_value(void)
{
    wanted w = next_wanted();
    mf4_group group = next_group();
    mf4_channel channel = next_channel();
    slice *buffer = next_output();
    if (is_malformed)
        return;
    print_valid_value(mf4_table_value(w.file->bytes, w.file->length, table_of(w.table), w.number, w.record_size, group,
                                      channel, buffer->bytes, buffer->length));
    print_out(buffer);
}

/* What all steps of a history share. */
typedef struct setting {
    slice *files[2];
    mf4_group group;
    mf4_channel channel;
    slice *table;
    slice *buffer;
} setting;

typedef struct step {
    char what; /* as histories.py has it */
    uint64_t file;
    uint64_t first;
    uint64_t second;
} step;

static step next_step(const char **word)
{
    step taken;
    taken.what = **word;
    if (**word != '\0')
        (*word)++;
    taken.file = next_of_row(word, 1);
    taken.first = next_of_row(word, UINT64_MAX);
    taken.second = next_of_row(word, UINT64_MAX);
    if (**word == '/')
        (*word)++;
    return taken;
}

static void write_number(const slice *table, uint64_t place, uint64_t number)
{
    if (place < count_of_numbers(table))
        memcpy(table->bytes + place * sizeof number, &number, sizeof number);
    else
        is_malformed = 1;
}

static void take_step(const setting *given, step taken)
{
    const slice *file = given->files[taken.file], *buffer = given->buffer;
    const uint64_t first = taken.first, second = taken.second;
    mf4_table *table = table_of(given->table);
    if (taken.what == 'o')
        print_done(mf4_open_table(file->bytes, file->length, first, table));
    else if (taken.what == 'e')
        print_done(mf4_extend_table(file->bytes, file->length, first, table));
    else if (taken.what == 's')
        print_done(mf4_shorten_table(table));
    else if (taken.what == 'r')
        print_done(mf4_table_record(file->bytes, file->length, table, first, second, buffer->bytes, buffer->length));
    else if (taken.what == 'v')
        print_valid_value(mf4_table_value(file->bytes, file->length, table, first, second, given->group, given->channel,
                                          buffer->bytes, buffer->length));
    else if (taken.what == 'w')
        write_number(given->table, first, second);
    else
        is_malformed = 1;
}

static void take_steps(const setting *given, const char *steps)
{
    while (*steps != '\0') {
        step taken = next_step(&steps);
        if (is_malformed)
            return;
        take_step(given, taken);
        print_table(given->table);
        print_out(given->buffer);
    }
}

static void history(void)
{
    setting given;
    const char *steps;
    given.files[0] = next_input();
    given.files[1] = next_input();
    given.group = next_group();
    given.channel = next_channel();
    steps = next_word();
    given.table = next_table(1);
    given.buffer = next_output();
    if (*steps != 's')
        is_malformed = 1;
    if (is_malformed)
        return;
    fputs("history", stdout);
    separator = " ";
    take_steps(&given, steps + 1);
}

static void record_payload(void)
{
    slice *file = next_input();
    uint64_t start = next_u64();
    uint64_t number = next_u64();
    uint64_t record_size = next_u64();
    mf4_group group = next_group();
    mf4_channel channel = next_channel();
    slice *record = next_output();
    slice *payload = next_output();
    if (is_malformed)
        return;
    print_payload(mf4_record_payload(file->bytes, file->length, start, number, record_size, group, channel, record->bytes,
                                     record->length, payload->bytes, payload->length));
    print_out(record);
    print_out(payload);
}

static const struct {
    const char *name;
    void (*answer)(void);
} calls[] = {
    {"version", version},
    {"read_header", read_header},
    {"write_header", write_header},
    {"type_code", type_code},
    {"default_bits", default_bits},
    {"read_list", read_list},
    {"write_list_equal", write_list_equal},
    {"write_list_variable", write_list_variable},
    {"read_channel", read_channel},
    {"write_channel", write_channel},
    {"decode_value", decode_value},
    {"check_validity", check_validity},
    {"decode_valid_value", decode_valid_value},
    {"check_validity_unbounded", check_validity_unbounded},
    {"decode_valid_value_unbounded", decode_valid_value_unbounded},
    {"decode_double_bits", decode_double_bits},
    {"decode_valid_double", decode_valid_double},
    {"write_value", write_value},
    {"first_overlap", first_overlap},
    {"text_latin1", text_latin1},
    {"text_utf8", text_utf8},
    {"text_utf16_le", text_utf16_le},
    {"text_utf16_be", text_utf16_be},
    {"text_by_type", text_by_type},
    {"text_room", text_room},
    {"data_length", data_length},
    {"read_record", read_record},
    {"record_value", record_value},
    {"report", report},
    {"open_table", open_table},
    {"extend_table", extend_table},
    {"shorten_table", shorten_table},
    {"table_record", table_record},
    {"table_value", table_value},
    {"history", history},
    {"record_payload", record_payload},
};

static void answer_case(char *line)
{
    const char *name;
    size_t i;
    rest_of_line = line;
    is_malformed = 0;
    separator = "";
    name = next_word();
    for (i = 0; i < sizeof calls / sizeof calls[0]; i++)
        if (strcmp(name, calls[i].name) == 0)
            break;
    if (i < sizeof calls / sizeof calls[0])
        calls[i].answer();
    else
        is_malformed = 1;
    if (is_malformed)
        fputs("malformed", stdout);
    else
        print_wrong_changes();
    putchar('\n');
    fflush(stdout); /* if a case ends the driver, the results in front of it are out */
    forget_slices();
}

/* ---- lines ------------------------------------------------------------------------------------------------------ */

static char *line;
static size_t line_size;

/* The next line without its end, of any length. 0 at the end of the input. */
static int read_line(void)
{
    size_t length = 0;
    int character;
    while ((character = getchar()) != EOF && character != '\n') {
        if (length + 2 > line_size) {
            line_size = 2 * line_size + 4096;
            line = realloc(line, line_size);
            if (line == NULL) {
                fputs("driver: out of memory\n", stderr);
                exit(2);
            }
        }
        line[length++] = (char)character;
    }
    if (character == EOF && length == 0)
        return 0;
    if (line == NULL) {
        line_size = 4096;
        line = allocated(line_size);
    }
    line[length] = '\0';
    return 1;
}

int main(void)
{
    while (read_line())
        answer_case(line);
    free(line);
    free(scratch);
    return 0;
}
