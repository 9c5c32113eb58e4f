#include <inttypes.h>
#include <stdio.h>

#include "cells.h"
#include "summary.h"

/* Of a point: 16 digits with an exponent, and a record of one digit. */
enum { COUNT_WIDTH = 9, POINT_WIDTH = 25, SUM_ROOM = 42, WORDS = 4 };

typedef struct summary_widths {
    int name, unit;
} summary_widths;

static int is_number(const mdf_channel *channel)
{
    return mdf_place_of(&channel->described) == MDF_FIELD && channel->described.data_type <= MF4_TYPE_FLOAT_BE;
}

static const char *unit_of(const mdf_channel *channel)
{
    return mdf_is_applied(&channel->conversion) ? channel->unit : "raw";
}

/* ---- the sum ---------------------------------------------------------------------------------------------------- */

/* The number, which has its highest word first, divided by ten; gives what is left. */
static char last_digit(uint32_t number[WORDS])
{
    uint64_t left = 0;
    int i;
    for (i = 0; i < WORDS; i++) {
        left = left << 32 | number[i];
        number[i] = (uint32_t)(left / 10);
        left %= 10;
    }
    return (char)('0' + left);
}

/* The digits from the last on, and a sign, at the room's end; gives where they begin. */
static const char *spell_sum(const mf4_report_reply *line, char room[SUM_ROOM])
{
    const int is_negative = line->sum_high < 0;
    const uint64_t low = is_negative ? 0 - line->sum_low : line->sum_low;
    const uint64_t high = is_negative ? 0 - (uint64_t)line->sum_high - (line->sum_low != 0) : (uint64_t)line->sum_high;
    uint32_t number[WORDS] = { (uint32_t)(high >> 32), (uint32_t)high, (uint32_t)(low >> 32), (uint32_t)low };
    char *digit = room + SUM_ROOM - 1;
    *digit = '\0';
    do
        *--digit = last_digit(number);
    while ((number[0] | number[1] | number[2] | number[3]) != 0);
    if (is_negative)
        *--digit = '-';
    return digit;
}

/* ---- lines ------------------------------------------------------------------------------------------------------ */

static void print_point(const mdf_channel *channel, const mf4_report_reply *line, mf4_point point)
{
    const int is_single = channel->described.bit_count == 32 && !mdf_is_linear(&channel->conversion);
    char value[CELL_ROOM], cell[CELL_ROOM + 24] = "-";
    spell_double(mdf_convert(&channel->conversion, point.value), is_single, value);
    if (line->has_doubles)
        snprintf(cell, sizeof cell, "%s (%" PRIu64 ")", value, point.number);
    print_cell(cell, POINT_WIDTH, 1);
}

/* Of integers as they are in the record; the sum is theirs too, so that of converted ones is not told. */
static void print_sum(const mdf_channel *channel, const mf4_report_reply *line)
{
    char room[SUM_ROOM];
    const int has_sum = channel->described.data_type <= MF4_TYPE_SIGNED_BE && !mdf_is_linear(&channel->conversion);
    print_cell(has_sum ? spell_sum(line, room) : "-", 0, 0);
}

/* A conversion with a factor below 0 makes the smallest the largest. */
static void print_answer(const mdf_channel *channel, const mf4_report_reply *line)
{
    const int is_falling = mdf_is_linear(&channel->conversion) && channel->conversion.factor < 0;
    printf("  %*" PRIu64 "  %*" PRIu64 "  %*" PRIu64, COUNT_WIDTH, line->valid, COUNT_WIDTH, line->invalid, COUNT_WIDTH, line->nan);
    print_point(channel, line, line->first);
    print_point(channel, line, line->last);
    print_point(channel, line, is_falling ? line->largest : line->smallest);
    print_point(channel, line, is_falling ? line->smallest : line->largest);
    print_sum(channel, line);
    printf("\n");
}

/* A field that is refused in one record is refused in all, and so is its validity; why is told where the channels are listed. */
static void print_line(const mdf_channel *channel, const mf4_report_reply *line, summary_widths widths)
{
    print_cell(channel->name, widths.name, 0);
    print_cell(unit_of(channel), widths.unit, 0);
    if (line->reply != MF4_ANSWER)
        printf("  refused, as told above\n");
    else if (line->without_value > 0)
        printf("  no value in any record\n");
    else
        print_answer(channel, line);
}

static void print_heading(summary_widths widths)
{
    static const char *const counts[] = { "valid", "not valid", "NaN" };
    static const char *const points[] = { "first", "last", "smallest", "largest" };
    size_t i;
    print_cell("name", widths.name, 0);
    print_cell("unit", widths.unit, 0);
    for (i = 0; i < sizeof counts / sizeof counts[0]; i++)
        print_cell(counts[i], COUNT_WIDTH, 1);
    for (i = 0; i < sizeof points / sizeof points[0]; i++)
        print_cell(points[i], POINT_WIDTH, 1);
    printf("  sum\n");
}

static summary_widths widths_of(const mdf_channel *channels, size_t count)
{
    summary_widths widths = { columns_of("name"), columns_of("unit") };
    size_t i;
    for (i = 0; i < count; i++)
        if (is_number(&channels[i])) {
            widths.name = larger(widths.name, columns_of(channels[i].name));
            widths.unit = larger(widths.unit, columns_of(unit_of(&channels[i])));
        }
    return widths;
}

void print_summary(const mdf_file *file, const mdf_group *group, const mdf_channel *channels, size_t count)
{
    static uint8_t last_record[MF4_MAX_RECORD_SIZE];
    const summary_widths widths = widths_of(channels, count);
    size_t i;
    printf("\n  numbers over all records, and behind a value the record that has it:\n");
    print_heading(widths);
    for (i = 0; i < count; i++)
        if (is_number(&channels[i])) {
            const mf4_report_reply line = mf4_report(file->bytes, file->length, group->start, group->record_size, group->layout,
                                                     channels[i].described, last_record, sizeof last_record);
            print_line(&channels[i], &line, widths);
        }
}
