/* Payloads: their positions, the chains that they stand in, and what they hold. */
#include <stdio.h>
#include <string.h>

#include "damage.h"
#include "mf4.h"

/* The log with one number in it changed: in so many records the payload is refused so, and all else is printed. */
static void changed_payload(uint64_t at, uint64_t value, int size, unsigned number, unsigned records)
{
    char cell[32];
    snprintf(cell, sizeof cell, "  refused (%u): ", number);
    changed(at, value, size, 0, cell);
    must_hold(times_said(cell) == records, cell, at);
}

/* What is refused in all six records alike: once below the channel why, and in each record the number. */
static void changed_everywhere(uint64_t at, uint64_t value, int size, unsigned number, const char *why)
{
    char refused[32], because[32];
    snprintf(refused, sizeof refused, "refused (%u)", number);
    snprintf(because, sizeof because, "refused (%u): ", number);
    changed(at, value, size, 0, why);
    must_hold(times_said(because) == 1 && times_said(refused) == 7, why, number);
}

/* A position is a field of 64 bits from bit 0 on, inside the record; and hours, from bit 4 on, are none. */
static void change_positions(void)
{
    const uint64_t hours = fields_of(HOURS), remark = fields_of(REMARK), record = block("##DT", 0) + 24;
    changed_everywhere(remark + 3, 1, 1, 35, "refused (35): the channel holds no position of a payload\n");
    changed_everywhere(remark + 8, 63, 4, 35, "refused (35): ");
    changed_everywhere(remark + 8, 65, 4, 35, "refused (35): ");
    changed_everywhere(remark + 4, 41, 4, 21, "; it needs 49 bytes, the record has 48\n");
    changed_payload(record + 39, 114, 8, 23, 1);
    changed_payload(record + 39, UINT64_MAX, 8, 23, 1);
    changed_payload(record + 39, UINT64_MAX - 3, 8, 23, 1);
    bad = good;
    put(hours, MF4_CHANNEL_VARIABLE_LENGTH, 1);
    put(link_at("##CN", HOURS, 5), block("##DL", 3), 8);
    must_say(&bad, "hours of any length", 0, "  PX1             refused (35)  ");
}

/* Sites in blocks 0 to 2 of one length, 28 bytes; remarks in blocks 3 to 5 with offsets. */
static void change_chains(void)
{
    const uint64_t sites = link_at("##CN", SITE, 5), remarks = link_at("##CN", REMARK, 5);
    changed_everywhere(remarks, block("##DL", 0), 8, 12, "##DT stands at 640, and ##SD was expected\n");
    changed_everywhere(remarks, good.length, 8, 11, ": ##DL was expected at ");
    changed_everywhere(remarks, block("##CG", 0), 8, 3, "(unsorted data), which are not read here: sort the log first\n");
    changed_everywhere(block("##DL", 3) + 72, 20, 8, 13, " begins at byte 21, and ##DL at 1664 has 20 for it\n");
    changed_everywhere(block("##SD", 1) + 8, 24 + 27, 8, 13, " has 27 bytes of data, and ##DL at 1392 declares 28 for it\n");
    changed_everywhere(block("##SD", 4) + 8, 24 + 21, 8, 13, " begins at byte 42, and ##DL at 1664 has 43 for it\n");
    changed_everywhere(block("##SD", 4) + 3, 'Z', 1, 12, " stands at ");
    changed_payload(block("##SD", 2) + 8, 24 + 23, 8, 23, 1);
    changed_payload(block("##SD", 5) + 8, 24 + 73, 8, 23, 1);
    changed_payload(block("##SD", 0) + 24, 77, 4, 23, 1);
    changed(block("##SD", 0) + 24, 76, 4, 0, "dock 3  ");
    must_hold(strcmp(tried_out, good_out) == 0, "what stands behind a text's NUL", 0);
    changed(sites, block("##DL", 3), 8, 0, "          71.5         86.75  00 01   -  ");
}

/* The sites' invalidation bit behind the record, and the last one of the record. */
static void change_bit(void)
{
    const uint64_t bit = fields_of(SITE) + 16;
    changed(bit, 8, 4, 0, "\n    refused (29): the invalidation bit lies outside the group's invalidation bytes; it is bit 8, ");
    must_hold(times_said("refused (29)") == 7, "payloads with a bit outside", 0);
    changed(bit, 7, 4, 0, "  80 00   -                 sensor torn off");
    must_hold(times_said("refused") == 0, "payloads with the last bit of the record", 0);
}

/* What the bytes of a payload stand for: the remarks have 0, 33, 12, 27, 21 and 0. */
static void change_contents(void)
{
    const uint64_t remark = fields_of(REMARK), site = block("##SD", 0) + 24 + 4;
    changed(remark + 2, 10, 1, 0, "  73 65 61 6c 20 77 65 65 70 73 2c 20 4d fc 6c 6c ... (33 bytes)\n");
    must_hold(times_said("  6f 69 6c 20 63 68 61 6e 67 65 64 00\n") == 1, "twelve bytes", 0);
    changed(remark + 2, 0, 1, 0, "  Orl\xC3\xA9" "ans            7306376951619478899\n");
    changed_payload(remark + 2, 0, 1, 21, 2);
    changed(remark + 12, 1, 4, 0, "  Orl\xC3\xA9" "ans           invalid\n");
    changed(site + 4, 0x1B, 1, 0, "  \xC5\x81\xC3\xB3?\xC5\xBA, dock 3  ");
    changed(site, 0xFF, 1, 0, "  <Invalid UTF8>    -\n");
}

/* A remark behind the log's end that no line has room for: a block with its length, and 83 times the same 400 bytes. */
static void lengthen_payload(void)
{
    const uint64_t length = behind(), text = length + 32, list = text + 424, links = 84;
    uint64_t i;
    bad = good;
    bad.length = list + 40 + 16 * links;
    add_header(length, "##SD", 28, 0);
    put(length + 24, 83 * 400, 4);
    add_header(text, "##SD", 424, 0);
    memset(bad.bytes + text + 24, 'x', 400);
    add_header(list, "##DL", 40 + 16 * links, 1 + links);
    put(list + 36 + 8 * links, links, 4);
    for (i = 0; i < links; i++) {
        put(list + 32 + 8 * i, i == 0 ? length : text, 8);
        put(list + 40 + 8 * (links + i), i == 0 ? 0 : 4 + 400 * (i - 1), 8);
    }
    put(link_at("##CN", REMARK, 5), list, 8);
    must_say(&bad, "a long remark", 0, "xxx...\n");
}

void damage_payloads(void)
{
    change_positions();
    change_chains();
    change_contents();
    change_bit();
    lengthen_payload();
}
