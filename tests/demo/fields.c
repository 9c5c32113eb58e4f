/* Changed fields of the identification, of headers, of the group and of channels. */
#include <stdio.h>
#include <string.h>

#include "damage.h"
#include "mf4.h"

static void change_identification(void)
{
    changed(28, 330, 2, 1, "version 3.30");
    changed(28, 399, 2, 1, "version 3.99");
    changed(28, 400, 2, 0, "MDF 4.00, ");
    changed(28, 499, 2, 0, "MDF 4.99, ");
    changed(28, 500, 2, 1, "version 5.00");
    changed(0, 'X', 1, 1, "does not begin with \"MDF     \"");
    bad = good;
    memcpy(bad.bytes, "UnFinMF ", 8);
    must_say(&bad, "unfinished", 1, "not finished");
}

/* Of the header block: nanoseconds, minutes, minutes in summer, and flags. */
static void change_time(void)
{
    const uint64_t time = 64 + 24 + 48;
    changed(time, 1, 8, 0, "MDF 4.10, started 1970-01-01 00:00:00.000000001 UTC\n");
    changed(time + 12, 1, 1, 0, " 06:00:00 local time\n");
    changed(time + 8, UINT64_C(0x02003C003C), 5, 0, " 06:00:00 UTC (local time was UTC+02:00)\n");
    changed(time + 8, UINT64_C(0x020000FEED), 5, 0, " 06:00:00 UTC (local time was UTC-04:35)\n");
}

static void change_headers(void)
{
    changed(64 + 8, UINT64_MAX, 8, 1, "header at 64: its 18446744073709551615 bytes pass the file's end");
    changed(64 + 8, 103, 8, 1, "header at 64: 103 bytes with 6 links are no ##HD block");
    changed(64 + 16, 5, 8, 1, "header at 64: 104 bytes with 5 links are no ##HD block");
    changed(64 + 16, (uint64_t)1 << 61, 8, 1, "are no ##HD block");
    changed(block("##CN", HOURS) + 16, 7, 8, 1, "refused (17): the channel block has fewer than 8 links");
    must_hold(times_said("data group at 432, \"pump controller\": 2 channels\n") == 1, "the channels before", 0);
    changed(block("##CN", HOURS) + 16, 9, 8, 1, "refused (2)");
    changed(block("##CN", HOURS) + 8, 159, 8, 1, "refused (2)");
    changed(block("##TX", 0) + 8, 23, 8, 1, "are no ##TX block");
}

/* Fields of the channel group stand from 72 on, a text and a record from 24 on. */
static void change_fields(void)
{
    const uint64_t group = block("##CG", 0) + 72, hours = fields_of(HOURS), record = block("##DT", 0) + 24;
    changed(group + 8, 7, 8, 0, "; the file counts 7 records\n");
    changed(group + 16, 1, 2, 1, "its records differ in length");
    changed(group + 24, 0, 8, 1, "records of 0 bytes");
    changed(group + 24, UINT64_MAX, 8, 1, "records of 8589934590 bytes");
    changed(hours + 2, 99, 1, 0, "\n  hours    unknown 99 ");
    changed(hours + 2, 3, 1, 0, "\n  hours    signed BE ");
    changed(name_of(HOURS), 0xFF, 1, 0, "<Invalid UTF8>");
    changed(name_of(HOURS), 0x1B, 1, 0, "?ours");
    changed(record + 8 + 2, 0x9B, 1, 0, "  PX??    ");
    changed(record + 8, 0, 1, 0, "     0          0.25  -  ");
    changed(unit_of(HOURS), UINT64_C(0x6868686868686868), 8, 0, "hours [hhhhhhhh] ");
    changed(block("##DG", 0) + 56, 1, 1, 0, "6 records of 49, 1 trailing byte ignored");
    changed(record, UINT64_C(0x7FF0000000000001), 8, 0, "     0           nan  PX1 ");
    changed(record, UINT64_C(0x3FD3333333333334), 8, 0, "     0  0.30000000000000004  PX1 ");
    changed(record + 23, 0x3DCCCCCD, 4, 0, "  180           0.1         86.75  ");
}

/* A channel whose field is refused then: below the channel stands once why, and in each of the six records the number. */
static void changed_field(uint64_t at, uint64_t value, int size, unsigned number, const char *why)
{
    char refused[32], because[32], words[256];
    snprintf(refused, sizeof refused, "refused (%u)", number);
    snprintf(because, sizeof because, "refused (%u): ", number);
    snprintf(words, sizeof words, "\n    %s%s\n", because, why);
    changed(at, value, size, 0, words);
    must_hold(times_said("\n    refused (") == 1 && times_said(refused) == 6 + times_said(because), words, number);
}

#define OUTSIDE(needed) \
    "the field ends outside the record or payload, which has too few bytes; it needs " needed " bytes, the record has 48"

static void refuse_fields(void)
{
    const uint64_t serial = fields_of(SERIAL), hours = fields_of(HOURS), oil = fields_of(OIL);
    changed_field(hours + 8, 0, 4, 18, "the description gives the number no bits");
    changed_field(hours + 3, 8, 1, 19, "the description's bit offset is over 7");
    changed_field(hours + 8, 65, 4, 20, "the description gives the integer over 64 bits");
    changed_field(hours + 4, 1000, 4, 21, OUTSIDE("1009"));
    must_hold(times_said("  unknown: no record has valid hours\n") == 4, "refused hours", 0);
    changed_field(serial + 4, 43, 4, 21, OUTSIDE("49"));
    must_hold(times_said("damaged or no text: 6\n") == 1, "refused serials", 0);
    changed_field(oil + 8, 16, 4, 22, "the description gives the float neither 32 nor 64 bits");
}

/* A channel's flags, and behind them the place of its invalidation bit. */
static uint64_t marked(uint32_t flags, uint32_t position)
{
    return flags | (uint64_t)position << 32;
}

#define BIT_OUTSIDE(position, bits) \
    "the invalidation bit lies outside the group's invalidation bytes; it is bit " position ", counted from 0, and the " \
    "group has " bits " bits: have the log written again with a right description"

/* One invalidation byte, so bits 0 to 7; the channel group tells it at 28 of its fields, a channel its flags at 12 and its bit
 * at 16. */
static void refuse_bits(void)
{
    const uint64_t bytes = block("##CG", 0) + 72 + 28, oil = fields_of(OIL) + 12;
    changed_field(oil + 4, 8, 4, 29, BIT_OUTSIDE("8", "8"));
    changed_field(oil + 4, UINT32_MAX, 4, 29, BIT_OUTSIDE("4294967295", "8"));
    changed_field(oil, marked(0xFFFFFFFE, 8), 8, 29, BIT_OUTSIDE("8", "8"));
    changed(bytes, 0, 4, 0, "\n    refused (29): " BIT_OUTSIDE("0", "0") "\n");
    must_hold(times_said("\n    refused (29): ") == 2, "both channels with a bit, and no invalidation bytes", 0);
    must_hold(times_said("6 records of 47, 13 trailing bytes ignored") == 1, "no invalidation bytes", 0);
    changed_field(fields_of(HOURS) + 12, marked(2, 8), 8, 29, BIT_OUTSIDE("8", "8"));
    must_hold(times_said("  unknown: no record has valid hours\n") == 4, "hours whose validity is refused", 0);
    changed_field(fields_of(SERIAL) + 12, marked(2, 8), 8, 29, BIT_OUTSIDE("8", "8"));
    must_hold(times_said("damaged or no text: 6\n") == 1, "serials whose validity is refused", 0);
}

/* Inside the invalidation bytes, or where no bit is asked, nothing is refused. */
static void accept_bits(void)
{
    const uint64_t bytes = block("##CG", 0) + 72 + 28, oil = fields_of(OIL) + 12;
    changed(oil + 4, 1, 4, 0, "byte 23; invalid where invalidation bit 1 is set\n");
    must_hold(times_said("  invalid  ") == 2, "another bit of the record", 0);
    changed(oil + 4, 7, 4, 0, "byte 23; invalid where invalidation bit 7 is set\n");
    must_hold(times_said("  invalid  ") == 1 && times_said("refused") == 0, "the last bit of the record", 0);
    changed(oil, marked(3, 8), 8, 0, "byte 23; all invalid\n");
    must_hold(times_said("  invalid  ") == 7 && times_said("refused") == 0, "all invalid, and a bit outside", 0);
    changed(oil, marked(0, 8), 8, 0, "byte 23\n");
    must_hold(times_said("  invalid  ") == 1 && times_said("refused") == 0, "a bit outside that is not asked", 0);
    changed(bytes, 2, 4, 0, "6 records of 49, 1 trailing byte ignored");
    must_hold(times_said("refused (29)") == 0, "two invalidation bytes", 0);
}

/* The hours without a field, and with an invalidation bit: what stands in place of a field is refused with it. */
static void refuse_number(void)
{
    bad = good;
    put(fields_of(HOURS), MF4_CHANNEL_VIRTUAL, 1);
    put(fields_of(HOURS) + 12, marked(2, 7), 8);
    must_say(&bad, "a virtual channel with a bit", 0, "  PX2                        1  ");
    put(fields_of(HOURS) + 16, 8, 4);
    must_say(&bad, "a virtual channel with a bit outside", 0, "\n    refused (29): " BIT_OUTSIDE("8", "8") "\n");
    must_hold(times_said("refused (29)") == 7, "a virtual channel with a bit outside", 0);
}

void damage_fields(void)
{
    change_identification();
    change_time();
    change_headers();
    change_fields();
    refuse_fields();
    refuse_bits();
    accept_bits();
    refuse_number();
}
