/* The records that a report is timed over, and the reports that do without the library. */
#ifndef REPORT_H
#define REPORT_H

#include "mf4.h"

/* A record of 32 bytes: u16 at 0, 12 bits from bit 4 of the two bytes at 2, f32 at 4, i64 at 8, f64 at 16, and in the last byte
 * the invalidation bits, of which bit 3 is the channels'. Where values grow, u32 is at 4 and u64 at 8 instead. */
enum { RECORD = 32, U16_AT = 0, TWELVE_AT = 2, F32_AT = 4, I64_AT = 8, F64_AT = 16, BITS_AT = 31, BIT = 3 };
enum { U32_AT = F32_AT, U64_AT = I64_AT };

/* A report of so many records that stand end to end. */
typedef mf4_report_reply plain_report(const uint8_t *records, uint64_t count);

/* As a program has it that knows its layout and tests nothing else: of all values, and of those whose bit is clear. They are
 * compiled apart, so that each is called, as the library is. */
plain_report plain_u16, plain_twelve, plain_u32, plain_f32, plain_i64, plain_u64, plain_f64;
plain_report plain_u16_by_bit, plain_twelve_by_bit, plain_f32_by_bit, plain_i64_by_bit, plain_f64_by_bit;

/* The exact sum of integers. */
__extension__ typedef __int128 wide;

/* Counts a valid value as a double. */
static inline void take_double(mf4_report_reply *line, uint64_t number, double value)
{
    const mf4_point found = { number, value };
    line->valid++;
    if (value != value) {
        line->nan++;
        return;
    }
    if (!line->has_doubles) {
        line->has_doubles = 1;
        line->first = line->smallest = line->largest = found;
    }
    line->last = found;
    if (value < line->smallest.value)
        line->smallest = found;
    if (value > line->largest.value)
        line->largest = found;
}

static inline void put_sum(mf4_report_reply *line, wide sum)
{
    line->sum_high = (int64_t)(sum >> 64);
    line->sum_low = (uint64_t)sum;
}

#endif
