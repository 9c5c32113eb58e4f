/*
 * The time of a report over two million records: the library's, one in plain C over the same bytes in one piece, the loop that a
 * program would have with mf4_decode_valid_value over them, and a copy of them. The sides take turns of some runs, and the least
 * time of each counts. Before a row is timed, all but the copy must have given the same line. The rows of random values come first;
 * then values that grow from record to record are put in their places.
 *
 *     report [RECORDS [ROUNDS]]    a multiple of 128 records
 */
#define _POSIX_C_SOURCE 199309L
#include "report.h"

#include <stdio.h>
#include <stdlib.h>
#include <time.h>

#include "same_line.h"

enum { FRAGMENTS = 3, SIDES = 4, IN_A_ROW = 4, RANDOM = 5, GROWING = 3 };

static const size_t fragments[FRAGMENTS] = { 1, 64, 4096 };
static const mf4_group group = { 0, BITS_AT, 1 };

/* Without by_bit, its values are only timed as always valid. */
typedef struct field {
    const char *name;
    mf4_channel channel;
    plain_report *plain, *by_bit;
} field;

static const field random_fields[RANDOM] = {
    { "u16", { MF4_TYPE_UNSIGNED_LE, 0, 0, U16_AT, 16, 0, BIT, 0 }, plain_u16, plain_u16_by_bit },
    { "12 bits from bit 4", { MF4_TYPE_UNSIGNED_LE, 0, 4, TWELVE_AT, 12, 0, BIT, 0 }, plain_twelve, plain_twelve_by_bit },
    { "i64", { MF4_TYPE_SIGNED_LE, 0, 0, I64_AT, 64, 0, BIT, 0 }, plain_i64, plain_i64_by_bit },
    { "f32", { MF4_TYPE_FLOAT_LE, 0, 0, F32_AT, 32, 0, BIT, 0 }, plain_f32, plain_f32_by_bit },
    { "f64", { MF4_TYPE_FLOAT_LE, 0, 0, F64_AT, 64, 0, BIT, 0 }, plain_f64, plain_f64_by_bit },
};

static const field growing_fields[GROWING] = {
    { "growing u32", { MF4_TYPE_UNSIGNED_LE, 0, 0, U32_AT, 32, 0, BIT, 0 }, plain_u32, NULL },
    { "growing u64 beyond 2^53", { MF4_TYPE_UNSIGNED_LE, 0, 0, U64_AT, 64, 0, BIT, 0 }, plain_u64, NULL },
    { "growing f64", { MF4_TYPE_FLOAT_LE, 0, 0, F64_AT, 64, 0, BIT, 0 }, plain_f64, NULL },
};

/* The records in one piece, room for their copy, and a file with a chain that joins to them. */
static struct {
    uint64_t records;
    size_t length;
    uint8_t *joined, *copy, *file;
    size_t file_length;
    uint64_t start;
} log_file;

static void fail(const char *why)
{
    fprintf(stderr, "report: %s\n", why);
    exit(2);
}

static uint8_t *bytes_for(size_t length)
{
    uint8_t *bytes = malloc(length);
    if (bytes == NULL)
        fail("out of memory");
    return bytes;
}

/* ---- the records ------------------------------------------------------------------------------------------------ */

static uint64_t dice = 1;

static uint64_t roll(void)
{
    dice ^= dice << 13, dice ^= dice >> 7, dice ^= dice << 17;
    return dice;
}

/* Random integers, ordinary floats, and one invalid value among sixteen, at random. */
static void make_record(uint8_t *record)
{
    const double wide_one = (double)(roll() % 2000000) / 1000.0 - 1000.0;
    const float narrow = (float)wide_one;
    size_t i;
    for (i = 0; i < RECORD; i += sizeof dice) {
        const uint64_t random = roll();
        memcpy(record + i, &random, sizeof random);
    }
    memcpy(record + F32_AT, &narrow, sizeof narrow);
    memcpy(record + F64_AT, &wide_one, sizeof wide_one);
    record[BITS_AT] = (uint8_t)((record[BITS_AT] & ~(1u << BIT)) | (uint8_t)(roll() % 16 == 0 ? 1u << BIT : 0));
}

static void make_records(uint64_t count)
{
    uint64_t number;
    log_file.records = count;
    log_file.length = (size_t)count * RECORD;
    log_file.joined = bytes_for(log_file.length);
    log_file.copy = bytes_for(log_file.length);
    log_file.file = bytes_for(log_file.length + 4096 * (MF4_HEADER_SIZE + 8) + 256);
    for (number = 0; number < count; number++)
        make_record(log_file.joined + number * RECORD);
    memcpy(log_file.copy, log_file.joined, log_file.length);
}

/* Hours, a clock that counts nanoseconds from far back, and a time: each record has a new largest value. */
static void grow_record(uint8_t *record, uint64_t number)
{
    const uint32_t hours = 1000000 + (uint32_t)number;
    const uint64_t clock_count = 1700000000000000000 + 1000 * number;
    const double time = (double)number * 0.25;
    memcpy(record + U32_AT, &hours, sizeof hours);
    memcpy(record + U64_AT, &clock_count, sizeof clock_count);
    memcpy(record + F64_AT, &time, sizeof time);
}

static void grow_records(void)
{
    uint64_t number;
    for (number = 0; number < log_file.records; number++)
        grow_record(log_file.joined + number * RECORD, number);
}

/* Blocks of one length behind each other, which cut the records where there are 4,096 of them, and the list behind. */
static void make_chain(size_t count)
{
    static uint64_t links[4096];
    const size_t length = log_file.length / count;
    const mf4_header header = { MF4_ID_DT, 0, MF4_HEADER_SIZE + length, 0 };
    size_t at = 64, i;
    for (i = 0; i < count; i++) {
        mf4_write_header(header, log_file.file + at, MF4_HEADER_SIZE);
        memcpy(log_file.file + at + MF4_HEADER_SIZE, log_file.joined + i * length, length);
        links[i] = at;
        at += MF4_HEADER_SIZE + length;
    }
    log_file.start = at;
    at += mf4_write_list_equal(0, links, count, length, log_file.file + at, 48 + 8 * count).count;
    log_file.file_length = at;
}

/* ---- the sides -------------------------------------------------------------------------------------------------- */

typedef struct question {
    mf4_channel channel;
    plain_report *plain;
} question;

typedef mf4_report_reply side(const question *asked);

static mf4_report_reply by_report(const question *asked)
{
    uint8_t buffer[RECORD];
    return mf4_report(log_file.file, log_file.file_length, log_file.start, RECORD, group, asked->channel, buffer, sizeof buffer);
}

static mf4_report_reply by_plain(const question *asked) { return asked->plain(log_file.joined, log_file.records); }

static mf4_report_reply by_values(const question *asked)
{
    mf4_report_reply line = { 0 };
    wide sum = 0;
    uint64_t number;
    for (number = 0; number < log_file.records; number++) {
        const uint8_t *record = log_file.joined + number * RECORD;
        const mf4_valid_value_reply value = mf4_decode_valid_value(record, RECORD, group, asked->channel);
        line.without_value += value.reply != MF4_ANSWER;
        line.invalid += value.reply == MF4_ANSWER && !value.is_valid;
        if (!value.is_valid)
            continue;
        if (value.kind == MF4_KIND_UNSIGNED)
            sum += value.number, take_double(&line, number, (double)value.number);
        else if (value.kind == MF4_KIND_SIGNED)
            sum += mf4_bits_as_signed(value.number), take_double(&line, number, (double)mf4_bits_as_signed(value.number));
        else
            take_double(&line, number, mf4_bits_as_double(value.number));
    }
    line.records = log_file.records;
    put_sum(&line, sum);
    return line;
}

static mf4_report_reply by_copy(const question *asked)
{
    const mf4_report_reply nothing = { 0 };
    (void)asked;
    memcpy(log_file.copy, log_file.joined, log_file.length);
    __asm__ volatile("" : : "r"(log_file.copy) : "memory"); /* the copy counts as used */
    return nothing;
}

static side *const sides[SIDES] = { by_report, by_plain, by_values, by_copy };

/* ---- times ------------------------------------------------------------------------------------------------------ */

static double nanoseconds(side *one, const question *asked)
{
    struct timespec begin, end;
    clock_gettime(CLOCK_MONOTONIC, &begin);
    one(asked);
    clock_gettime(CLOCK_MONOTONIC, &end);
    return (double)(end.tv_sec - begin.tv_sec) * 1e9 + (double)(end.tv_nsec - begin.tv_nsec);
}

/* Some runs in a row, so that each side finds its own bytes as near as they can be, whatever the others read before. */
static double least_in_a_row(side *one, const question *asked)
{
    double least = 1e30;
    int run;
    for (run = 0; run < IN_A_ROW; run++) {
        const double time = nanoseconds(one, asked);
        if (time < least)
            least = time;
    }
    return least;
}

static void time_sides(const question *asked, int rounds, double least[SIDES])
{
    int round, i;
    for (i = 0; i < SIDES; i++)
        least[i] = 1e30;
    for (round = 0; round < rounds; round++)
        for (i = 0; i < SIDES; i++) {
            const double time = least_in_a_row(sides[i], asked) / (double)log_file.records;
            if (time < least[i])
                least[i] = time;
        }
}

static void print_row(const char *name, int has_bit, size_t count, const question *asked, int rounds)
{
    const mf4_report_reply line = by_report(asked);
    double ns[SIDES];
    if (line.reply != MF4_ANSWER || !same_line(line, by_plain(asked)) || !same_line(line, by_values(asked)))
        fail("the sides differ");
    time_sides(asked, rounds, ns);
    printf("| report of %s%s, %zu fragment%s | %.2f | %.2f | %.2f | %.2f | %.2f | %.2f | %.2f |\n", name,
           has_bit ? ", valid by bit" : "", count, count == 1 ? "" : "s", ns[0], ns[1], ns[2], ns[3], ns[0] / ns[1], ns[0] / ns[2],
           ns[0] / ns[3]);
    fflush(stdout);
}

static void print_field(const field *one, size_t count, int rounds)
{
    int has_bit;
    for (has_bit = 0; has_bit <= (one->by_bit != NULL); has_bit++) {
        question asked = { one->channel, has_bit ? one->by_bit : one->plain };
        asked.channel.flags = has_bit ? MF4_CHANNEL_INVALIDATION_BIT : 0;
        print_row(one->name, has_bit, count, &asked, rounds);
    }
}

static void print_rows(const field *fields, size_t count, int rounds)
{
    size_t i, j;
    for (i = 0; i < FRAGMENTS; i++) {
        make_chain(fragments[i]);
        for (j = 0; j < count; j++)
            print_field(&fields[j], fragments[i], rounds);
    }
}

int main(int argc, char **argv)
{
    const int rounds = argc > 2 ? atoi(argv[2]) : 5;
    make_records(argc > 1 ? strtoull(argv[1], NULL, 10) : 2000000);
    puts("| What | report ns | plain C ns | loop ns | copy ns | report / plain C | report / loop | report / copy |\n"
         "|---|--:|--:|--:|--:|--:|--:|--:|");
    print_rows(random_fields, RANDOM, rounds);
    grow_records();
    print_rows(growing_fields, GROWING, rounds);
    return 0;
}
