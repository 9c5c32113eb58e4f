/* More blocks, behind the good log's end. */
#include <string.h>

#include "damage.h"

/* A name of 100 bytes, behind the log's end: two bytes a letter, so that a cut in the middle of one would show. */
static void lengthen_name(void)
{
    const uint64_t name = behind();
    int i;
    bad = good;
    bad.length = name + 24 + 104;
    put(link_at("##CN", HOURS, 2), name, 8);
    add_header(name, "##TX", 24 + 104, 0);
    put(name + 24, 'h', 1);
    for (i = 0; i < 49; i++)
        put(name + 25 + 2 * (uint64_t)i, 0xA9C3, 2);
    must_say(&bad, "a long name", 0, "\xC3\xA9\xC3\xA9...  unsigned ");
}

/* An array that the hours are composed of: a block that the loader does not read further. */
static void add_array(void)
{
    const uint64_t array = behind();
    bad = good;
    bad.length = array + 24;
    add_header(array, "##CA", 24, 0);
    put(link_at("##CN", HOURS, 1), array, 8);
    must_say(&bad, "an array", 0, "byte 14, bit 4; its array (##CA) at ");
}

/* A second data group behind the log's end, with a link more than it needs, over one data block with record 0. */
static void add_group(void)
{
    const uint64_t group = behind(), data = group + 72;
    bad = good;
    bad.length = data + 24 + 48;
    put(link_at("##DG", 0, 0), group, 8);
    add_header(group, "##DG", 72, 5);
    put(group + 24 + 8, block("##CG", 0), 8);
    put(group + 24 + 16, data, 8);
    add_header(data, "##DT", 24 + 48, 0);
    memcpy(bad.bytes + data + 24, good.bytes + block("##DT", 0) + 24, 48);
    must_say(&bad, "two groups", 0, "48 bytes, 1 record of 48; the file counts 6 records\n");
    must_hold(times_said("       0          0.25  PX1  ") == 2, "a single data block", 0);
    must_hold(times_said("dock 3      -\n") == 2, "payloads of a single data block", 0);
    must_hold(times_said("  180 (0)  180\n") == 1, "numbers of a single data block", 0);
    put(link_at("##CN", STATUS, 0), 0, 8);
    must_say(&bad, "numbers of a single data block, without payloads", 0, "  180 (0)  180\n");
    put(link_at("##CN", STATUS, 0), block("##CN", SITE), 8);
    put(data + 8, 24 + 49, 8);
    must_say(&bad, "a single block past the end", 1, " has a length of 73, and the file ends at ");
    must_hold(strncmp(tried_out, good_out, strlen(good_out)) == 0, "the group in front", 0);
    put(data + 8, 23, 8);
    must_say(&bad, "a single block without a header", 1, " has a length of 23, and the file ends at ");
}

/* The log's group made unsorted, by a link to a second channel group, does not hide one behind it. */
static void add_group_behind_unsorted(void)
{
    const uint64_t group = behind(), channels = group + 64, data = channels + 104;
    bad = good;
    bad.length = data + 24 + 48;
    put(link_at("##DG", 0, 0), group, 8);
    put(link_at("##CG", 0, 0), channels, 8);
    add_header(group, "##DG", 64, 4);
    put(group + 24 + 8, channels, 8);
    put(group + 24 + 16, data, 8);
    memcpy(bad.bytes + channels, good.bytes + block("##CG", 0), 104);
    add_header(data, "##DT", 24 + 48, 0);
    memcpy(bad.bytes + data + 24, good.bytes + block("##DT", 0) + 24, 48);
    must_say(&bad, "behind an unsorted group", 1, "another follows in its data group (unsorted data)");
    must_hold(times_said("       0          0.25  PX1  ") == 1, "behind an unsorted group", 0);
}

/* The sites in a single block, behind the log's end: four letters for the first record, and nothing for the others. A second
 * data group has the same channels, so each of them is read twice. */
static void add_single_payload(void)
{
    const uint64_t group = behind(), payloads = group + 64;
    bad = good;
    bad.length = payloads + 24 + 128;
    memcpy(bad.bytes + group, good.bytes + block("##DG", 0), 64);
    put(link_at("##DG", 0, 0), group, 8);
    memset(bad.bytes + payloads, 0, 24 + 128);
    add_header(payloads, "##SD", 24 + 128, 0);
    put(payloads + 24, 4, 4);
    memcpy(bad.bytes + payloads + 28, "here", 4);
    put(link_at("##CN", SITE, 5), payloads, 8);
    must_say(&bad, "a single block of payloads", 0, "          71.5         86.75  00 01   here  ");
    must_hold(times_said("  here  ") == 2 && times_said("  refused (") == 0, "a single block of payloads", 0);
    put(payloads + 8, 24 + 129, 8);
    must_say(&bad, "a single block of payloads past the end", 0, "payloads: refused (12)");
}

/* Two lists with offsets behind the log's end, over its first two blocks: such a chain has no one length to fall short of. */
static void add_lists_with_offsets(void)
{
    const uint64_t first = behind();
    int i;
    bad = good;
    bad.length = first + 2 * 56;
    put(link_at("##DG", 0, 2), first, 8);
    put(first + 24, first + 56, 8);
    for (i = 0; i < 2; i++) {
        const uint64_t list = first + 56 * (uint64_t)i;
        add_header(list, "##DL", 56, 2);
        put(list + 32, block("##DT", i), 8);
        put(list + 44, 1, 4);
        put(list + 48, 55 * (uint64_t)i, 8);
    }
    must_say(&bad, "lists with offsets", 0, "110 bytes, 2 records of 48, 14 trailing bytes ignored; the file counts 6");
    put(first + 56 + 48, 54, 8);
    must_say(&bad, "an untrue offset", 1, " begins at byte 55, and ##DL at ");
}

/* A list without blocks at the log's very end, so that its offsets would stand behind it; the next one declares a length. */
static void add_empty_list(void)
{
    const uint64_t list = behind();
    bad = good;
    bad.length = list + 40;
    put(link_at("##DG", 0, 2), list, 8);
    add_header(list, "##DL", 40, 1);
    put(list + 24, block("##DL", 0), 8);
    put(list + 32, 0, 8);
    must_say(&bad, "a list without blocks", 1, ": ##DL at 1088 has one length, and the first list, at ");
}

void add_blocks(void)
{
    lengthen_name();
    add_array();
    add_group();
    add_group_behind_unsorted();
    add_single_payload();
    add_lists_with_offsets();
    add_empty_list();
}
