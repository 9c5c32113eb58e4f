/* What values mean: channel types, conversions, what all records say, and the service that is due by them. */
#include <string.h>

#include "damage.h"
#include "mf4.h"

/* What has no field of its own, or one that is not to be believed, is not decoded from the record. */
static void change_types(void)
{
    const uint64_t serial = fields_of(SERIAL), hours = fields_of(HOURS);
    changed(serial, MF4_CHANNEL_MAX_LENGTH, 1, 0, "byte 8; not read: of maximum length, and how much of it counts ");
    must_hold(times_said("  not read  ") == 6 && times_said("PX") == 0, "a text of maximum length", 0);
    changed(hours, MF4_CHANNEL_VIRTUAL, 1, 0, "no field: virtual, its raw value is the record's number\n");
    must_hold(times_said("  PX2                        1  ") == 1, "a virtual channel", 0);
    changed(hours, MF4_CHANNEL_VIRTUAL_MASTER, 1, 0,
            "no field: virtual, its raw value is the record's number; the master: of no kind\n");
    changed(fields_of(TIME) + 1, 2, 1, 0, "byte 0; the master: angle\n");
    changed(hours, MF4_CHANNEL_SYNC, 1, 0, "byte 14, bit 4\n");
    changed(hours, 7, 1, 0, "byte 14, bit 4; not read: channel type 7 is unknown here\n");
    changed(hours, MF4_CHANNEL_VARIABLE_LENGTH, 1, 0, "; not read: a position in payloads, but the link to them is 0\n");
}

/* The coolant's rule for the hours too: 512 of them are 32 then, and a pump is due by these. */
static void change_conversions(void)
{
    const uint64_t rule = block("##CC", 0), fields = rule + 24 + 32, hours = link_at("##CN", HOURS, 4);
    changed(hours, rule, 8, 0, "byte 14, bit 4; converted: 0 + 0.0625 * raw\n");
    must_hold(times_said("  PX1     not due  32 hours in record 2\n") == 1, "converted hours", 0);
    must_hold(times_said("  not due  ") == 3 && times_said("  DUE ") == 1, "converted hours", 1);
    put(fields + 24, UINT64_C(0x407E000000000000), 8);
    must_say(&bad, "480 hours more", 0, "  PX1     DUE      512 hours in record 2\n");
    changed(hours, rule, 8, 0, "hours [h] ");
    put(fields, 7, 1);
    must_say(&bad, "another rule", 0, "bit 4; raw: its conversion at ");
    must_hold(times_said(" (numbers to texts) is not applied\n") == 2 && times_said("hours [raw] ") == 1, "another rule", 0);
    must_hold(times_said("service: the conversion of hours is not applied here\n") == 1, "another rule", 1);
    changed(fields, 0, 1, 0, "          71.5          1388  ");
    changed(fields, 200, 1, 0, " (of an unknown type) is not applied\n");
    changed(fields + 6, 1, 2, 1, "a linear rule has two values, and this one fewer");
    changed(rule + 8, 24 + 32 + 24 + 8, 8, 1, "a linear rule has two values, and this one fewer");
    bad = good;
    put(link_at("##CN", COOLANT, 6), 0, 8);
    put(rule + 24 + 8, unit_of(HOURS) - 24, 8);
    must_say(&bad, "the conversion's unit", 0, "coolant [h] ");
}

/* PX1 in records 0 and 2, PX2 in 1 and 4. Record 0 stands from byte 24 of the first data block on, its serial from byte 8, its
 * hours in sixteenths from byte 14. */
static void change_service(void)
{
    const uint64_t serial = block("##DT", 0) + 24 + 8, hours = serial + 6;
    must_hold(strstr(good_out, "  PX2     not due  499 hours in record 4\n") != NULL, "PX2", 0);
    changed(name_of(HOURS), 'H', 1, 0, "\n  nothing is said of service: no channel is named hours\n");
    changed(name_of(SERIAL), 'S', 1, 0, "\n  nothing is said of service: no channel is named serial\n");
    changed(hours, 16 * 600, 8, 0, "  PX1     DUE      512 hours in record 2\n");
    changed(serial + 3, 0x393939, 3, 0, "  PX1999  not due  180 hours in record 0\n");
    changed(serial, 0, 1, 0, "damaged or no text: 1\n");
    changed(fields_of(HOURS) + 12, 1, 4, 0, "  byte 14, bit 4; all invalid\n");
    must_hold(times_said("  unknown: no record has valid hours\n") == 4, "invalid hours", 0);
    changed(fields_of(SERIAL) + 2, 7, 1, 0, "  <Invalid UTF8>  ");
    must_hold(times_said("damaged or no text: 1\n") == 1, "a damaged serial", 0);
}

/* The coolant's factor below 0 makes its smallest the largest. Of record 0 the hours, 64 bits in nine bytes, are made -2^63. */
static void change_summary(void)
{
    const uint64_t factor = block("##CC", 0) + 24 + 32 + 32, hours = block("##DT", 0) + 24 + 14;
    must_hold(strstr(good_out, "  1152921504606849178\n") != NULL, "the sum of hours", 0);
    changed(factor, UINT64_C(0xBFB0000000000000), 8, 0, "  -87.125 (2)                   7.25 (3)  -\n");
    changed(fields_of(HOURS) + 8, 0, 4, 0, "  hours    h     no value in any record\n");
    changed(fields_of(OIL) + 16, 8, 4, 0, "  oil      \xC2\xB0" "C    refused, as told above\n");
    changed(fields_of(OIL) + 12, 1, 4, 0, "  oil      \xC2\xB0" "C            0          6          0                          -  ");
    changed(fields_of(TIME) + 2, 7, 1, 0, "  name     unit      valid  not valid        NaN  ");
    must_hold(times_said("  time     ") == 1, "a text has no line", 0);
    bad = good;
    put(fields_of(HOURS) + 2, MF4_TYPE_SIGNED_LE, 1);
    put(hours, 0, 8), put(hours + 8, 8, 1);
    must_say(&bad, "a sum below 0", 0, "  -8070450532247926810\n");
}

void damage_meanings(void)
{
    change_types();
    change_conversions();
    change_summary();
    change_service();
}
