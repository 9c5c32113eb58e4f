/*
 * A fuzz target: every call of mf4.h on one input, with what must hold of each answer whatever the input is.
 *
 * The archive has no coverage instrumentation, so bytes alone would hardly ever become a chain. Two things make up for it.
 * The input is a row of choices: they say whether the file is raw bytes or a chain of lists and blocks, or two of them,
 * which are built, each true or with one breach, and then damaged a little, and they give the sizes, addresses and
 * descriptions, with the limits among the likely numbers.
 * And each answer is counted in counters that the fuzzer reads as coverage, so that an input with a new answer is kept.
 *
 * The address checker does not see an archive that is not instrumented either: where slices stand is a choice, and two of
 * the three places that guarded.h names are beside an unreadable page.
 */
#include "log_file.h"

#include <stdio.h>
#include <stdlib.h>
#include <string.h>

void fail(const char *claim, const char *file, int line)
{
    fprintf(stderr, "%s:%d: this must hold and does not: %s\n", file, line, claim);
    abort();
}

__attribute__((section("__libfuzzer_extra_counters"))) static uint8_t seen[CALLS][64];

void note(enum call call, unsigned what) { seen[call][what % 64] = 1; }

int holds_only(lent buffer, const uint8_t *written, size_t count)
{
    return same_bytes(buffer.bytes, written, count) && is_unchanged_from(buffer, count);
}

uint64_t little(const uint8_t *place, int size)
{
    uint64_t number = 0;
    while (size-- > 0)
        number = number << 8 | place[size];
    return number;
}

uint64_t sum_of(uint64_t a, uint64_t b) { return a <= UINT64_MAX - b ? a + b : UINT64_MAX; }

void check_reply(enum call call, uint32_t reply, uint64_t told, uint64_t allowed)
{
    note(call, reply);
    MUST(reply <= MF4_NO_POSITION && (allowed >> reply & 1) == 1);
    MUST(told == 0 || reply == MF4_TOO_FEW_BYTES || reply == MF4_NO_ROOM || reply == MF4_FIELD_OUTSIDE
         || reply == MF4_NO_FIXED_NUMBER);
    MUST(strcmp(mf4_reply_text(reply), "no reply of this library") != 0);
}

/* The part of the file from an address on, as the list reader gets it, or the whole where there is no such part. */
static lent part_from(const log_file *log, uint64_t address)
{
    size_t from = address < log->length ? (size_t)address : 0;
    return lend_copy(TWIN_INPUT, log->bytes + from, log->length - from);
}

static void exercise_part(const log_file *log, reading how)
{
    lent part = part_from(log, choose_byte() % 4 == 3 ? choose_number() : log->records.start);
    exercise_header(part);
    exercise_list(part);
    exercise_channel(part, how);
    exercise_value(part, how);
    exercise_texts(part);
}

/* A record of a few bytes, and a field that mostly lies inside it. */
static void exercise_record(void)
{
    uint8_t bytes[24];
    const size_t length = choose_byte() % (sizeof bytes + 1);
    reading how = choose_reading();
    size_t i;
    for (i = 0; i < length; i++)
        bytes[i] = choose_byte();
    if (choose_byte() % 8 != 7) {
        how.group.record_id_size %= 3;
        how.channel.byte_offset %= 8;
    }
    exercise_written(lend_copy(INPUT, bytes, length), how);
}

int LLVMFuzzerTestOneInput(const uint8_t *data, size_t size);

int LLVMFuzzerTestOneInput(const uint8_t *data, size_t size)
{
    static log_file log;
    reading how;
    start_choices(data, size);
    place_slices((enum placement)(choose_byte() % PLACEMENTS));
    make_file(&log);
    how = choose_reading();
    MUST(mf4_version() == MF4_VERSION_NUMBER && mf4_version_matches());
    exercise_types(choose_byte());
    exercise_chain(&log, how);
    exercise_payload(&log, how);
    exercise_tables(&log, how);
    exercise_report(&log, how);
    exercise_record();
    exercise_overlap(how);
    exercise_part(&log, how);
    exercise_writer(0);
    exercise_writer(1);
    exercise_texts(choose_text());
    exercise_channel(choose_channel_block(), how);
    exercise_channel_writer(how.channel);
    return 0;
}
