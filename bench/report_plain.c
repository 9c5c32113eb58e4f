/*
 * Reports in plain C, each a loop over the records. The compiler makes two loops of each: in the one nothing is asked of the
 * invalidation bit, since has_bit is known there.
 */
#include "report.h"

static inline int is_invalid(const uint8_t *record) { return record[BITS_AT] >> BIT & 1; }

/* Integers that a double holds are compared as they are. */
typedef struct small {
    uint64_t first, first_at, last, last_at, smallest, smallest_at, largest, largest_at;
} small;

static mf4_point point_of(uint64_t number, uint64_t value)
{
    const mf4_point point = { number, (double)value };
    return point;
}

static void put_small(mf4_report_reply *line, const small *found)
{
    line->has_doubles = line->valid > 0;
    if (line->valid == 0)
        return;
    line->first = point_of(found->first_at, found->first);
    line->last = point_of(found->last_at, found->last);
    line->smallest = point_of(found->smallest_at, found->smallest);
    line->largest = point_of(found->largest_at, found->largest);
}

static inline void take_small(small *found, int is_first, uint64_t number, uint64_t value)
{
    if (is_first) {
        found->first = found->smallest = found->largest = value;
        found->first_at = found->smallest_at = found->largest_at = number;
    }
    found->last = value, found->last_at = number;
    if (value < found->smallest)
        found->smallest = value, found->smallest_at = number;
    if (value > found->largest)
        found->largest = value, found->largest_at = number;
}

static inline uint64_t one_small(const uint8_t *at, int bytes)
{
    uint32_t four;
    uint16_t two;
    if (bytes == 4) {
        memcpy(&four, at, sizeof four);
        return four;
    }
    memcpy(&two, at, sizeof two);
    return two;
}

/* Two bytes or four behind that many bits. Two million of them do not pass 64 bits as a sum. */
static inline mf4_report_reply of_small(const uint8_t *records, uint64_t count, int at, int bytes, int shift, int has_bit)
{
    mf4_report_reply line = { 0 };
    small found = { 0 };
    uint64_t sum = 0, number;
    for (number = 0; number < count; number++, records += RECORD) {
        const uint64_t value = one_small(records + at, bytes) >> shift;
        if (has_bit && is_invalid(records)) {
            line.invalid++;
            continue;
        }
        take_small(&found, line.valid == 0, number, value);
        line.valid++;
        sum += value;
    }
    line.records = count;
    line.sum_low = sum;
    put_small(&line, &found);
    return line;
}

static inline mf4_report_reply of_large(const uint8_t *records, uint64_t count, int is_signed, int has_bit)
{
    mf4_report_reply line = { 0 };
    uint64_t number;
    wide sum = 0;
    for (number = 0; number < count; number++, records += RECORD) {
        int64_t value;
        if (has_bit && is_invalid(records)) {
            line.invalid++;
            continue;
        }
        memcpy(&value, records + I64_AT, sizeof value);
        sum += is_signed ? value : (wide)(uint64_t)value;
        take_double(&line, number, is_signed ? (double)value : (double)(uint64_t)value);
    }
    line.records = count;
    put_sum(&line, sum);
    return line;
}

static inline double one_float(const uint8_t *record, int is_wide)
{
    double value;
    float narrow;
    if (is_wide) {
        memcpy(&value, record + F64_AT, sizeof value);
        return value;
    }
    memcpy(&narrow, record + F32_AT, sizeof narrow);
    return narrow;
}

static inline mf4_report_reply of_floats(const uint8_t *records, uint64_t count, int is_wide, int has_bit)
{
    mf4_report_reply line = { 0 };
    uint64_t number;
    for (number = 0; number < count; number++, records += RECORD) {
        if (has_bit && is_invalid(records)) {
            line.invalid++;
            continue;
        }
        take_double(&line, number, one_float(records, is_wide));
    }
    line.records = count;
    return line;
}

mf4_report_reply plain_u16(const uint8_t *records, uint64_t count) { return of_small(records, count, U16_AT, 2, 0, 0); }
mf4_report_reply plain_u16_by_bit(const uint8_t *records, uint64_t count) { return of_small(records, count, U16_AT, 2, 0, 1); }
mf4_report_reply plain_twelve(const uint8_t *records, uint64_t count) { return of_small(records, count, TWELVE_AT, 2, 4, 0); }
mf4_report_reply plain_twelve_by_bit(const uint8_t *records, uint64_t count)
{
    return of_small(records, count, TWELVE_AT, 2, 4, 1);
}
mf4_report_reply plain_i64(const uint8_t *records, uint64_t count) { return of_large(records, count, 1, 0); }
mf4_report_reply plain_i64_by_bit(const uint8_t *records, uint64_t count) { return of_large(records, count, 1, 1); }
mf4_report_reply plain_f32(const uint8_t *records, uint64_t count) { return of_floats(records, count, 0, 0); }
mf4_report_reply plain_f32_by_bit(const uint8_t *records, uint64_t count) { return of_floats(records, count, 0, 1); }
mf4_report_reply plain_f64(const uint8_t *records, uint64_t count) { return of_floats(records, count, 1, 0); }
mf4_report_reply plain_f64_by_bit(const uint8_t *records, uint64_t count) { return of_floats(records, count, 1, 1); }
mf4_report_reply plain_u32(const uint8_t *records, uint64_t count) { return of_small(records, count, U32_AT, 4, 0, 0); }
mf4_report_reply plain_u64(const uint8_t *records, uint64_t count) { return of_large(records, count, 0, 0); }
