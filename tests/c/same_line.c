#include "same_line.h"

static int same_point(mf4_point a, mf4_point b)
{
    return a.number == b.number && memcmp(&a.value, &b.value, sizeof a.value) == 0;
}

static int same_counts(mf4_report_reply a, mf4_report_reply b)
{
    return a.records == b.records && a.valid == b.valid && a.invalid == b.invalid && a.without_value == b.without_value
        && a.nan == b.nan && a.has_doubles == b.has_doubles;
}

int same_line(mf4_report_reply a, mf4_report_reply b)
{
    return a.reply == b.reply && a.told == b.told && same_counts(a, b) && same_point(a.first, b.first)
        && same_point(a.last, b.last) && same_point(a.smallest, b.smallest) && same_point(a.largest, b.largest)
        && a.sum_high == b.sum_high && a.sum_low == b.sum_low;
}

mf4_report_reply refused_line(uint32_t reply, uint64_t told)
{
    mf4_report_reply line;
    memset(&line, 0, sizeof line);
    line.reply = reply, line.told = told;
    return line;
}
