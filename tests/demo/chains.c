/* The chain of the records: its lists and its blocks, of which the loader must name the first bad one. */
#include <inttypes.h>
#include <stdio.h>

#include "damage.h"

#define INFLATE "which is not read here: write the log uncompressed, or inflate it first\n"

/* Lists of 4 and 2 blocks of 55 bytes: only the very last block may be shorter, and only the last list may count fewer. */
static void change_lists(void)
{
    const uint64_t first = block("##DL", 0), second = block("##DL", 1);
    changed(block("##DT", 0) + 8, 24 + 54, 8, 1, ": ##DT at 640 has 54 bytes of data, and ##DL at 1088 declares 55 for it\n");
    changed(block("##DT", 3) + 8, 24 + 54, 8, 1, ": ##DT at 880 has 54 bytes of data, and ##DL at 1088 declares 55 for it\n");
    changed(block("##DT", 4) + 8, 24 + 54, 8, 1, ": ##DT at 960 has 54 bytes of data, and ##DL at 1168 declares 55 for it\n");
    changed(block("##DT", 5) + 8, 24 + 56, 8, 1, " has 56 bytes of data, and ##DL at 1168 declares 55 at most\n");
    changed(block("##DT", 5) + 8, 24 + 19, 8, 0, "294 bytes, 6 records of 48, 6 trailing bytes ignored\n");
    changed(second + 56, 56, 8, 1, " declares blocks of 56 bytes, and the first list, at 1088, of 55\n");
    changed(second + 48, 0, 1, 1, " has a length of 64, and its fields take 72\n");
    put(second + 8, 72, 8);
    must_say(&bad, "offsets behind one length", 1, " has offsets, and the first list, at 1088, has not\n");
    changed(first + 24, first, 8, 1, "refused (8): ");
    changed(second + 24, first, 8, 1,
            " counts 2 blocks, and the first list, at 1088, 4; only the last list may count fewer\n");
    changed(first + 24, 0, 8, 0, "220 bytes, 4 records of 48, 28 trailing bytes ignored; the file counts 6 records\n");
    changed(first + 68, 5, 4, 1, "refused (10): a list's count or block length disagrees with its links: "
            "##DL at 1088 counts 5 blocks and links 4\n");
    changed(first + 8, 79, 8, 1, "##DL at 1088 has a length of 79, and its fields take 80\n");
    changed(first + 16, 0, 8, 1, "refused (4): the data list has no links: ##DL at 1088 has none");
    changed(first + 16, 1000, 8, 1, "refused (2): the block has too few bytes: ##DL at 1088 needs ");
}

/* What a list links is a whole block of records. */
static void change_blocks(void)
{
    const uint64_t list = block("##DL", 0), data = block("##DT", 1);
    char words[160];
    snprintf(words, sizeof words, "kind: ##DZ at %" PRIu64 " is compressed data, " INFLATE, data);
    changed(data + 3, 'Z', 1, 1, words);
    snprintf(words, sizeof words, "kind: ##SD stands at %" PRIu64 ", and ##DT was expected\n", data);
    changed(data + 2, 'S' | 'D' << 8, 2, 1, words);
    changed(data + 8, 23, 8, 1, " has a length of 23, and the file ends at ");
    changed(data + 16, 1, 8, 1, " has 1 links, and none was expected\n");
    changed(list + 40, 0, 8, 1, ": data link 1 of ##DL at 1088 is 0, and ##DT was expected there; ");
    changed(list + 40, good.length, 8, 1, "refused (11): a link leads to no block: data link 1 of ##DL at 1088 is ");
    changed(list + 2, 'D' | 'Z' << 8, 2, 1, "refused (3): the block has another id: ##DZ at 1088 is compressed data, "
            INFLATE);
    changed(list + 2, 'H' | 'L' << 8, 2, 1, "id: ##HL at 1088 is the list of compressed blocks, " INFLATE);
    must_hold(times_said("8 channels\n") == 1 && times_said("  byte 31; ") == 1, "channels without data", 0);
}

/* The data link leads to a block without a list. Where the channels end in front of the payloads, no list is made of it. */
static void change_to_single_block(void)
{
    const uint64_t data = block("##DT", 0), link = link_at("##DG", 0, 2);
    changed(link, block("##SD", 0), 8, 1, ": ##SD stands at 1232, and ##DL or ##DT was expected\n");
    changed(link, data, 8, 0, "55 bytes, 1 record of 48, 7 trailing bytes ignored; the file counts 6 records\n");
    must_hold(times_said("  00 01   \xC5\x81\xC3\xB3" "d\xC5\xBA, dock 3      -\n") == 1, "a single block and payloads", 0);
    put(link_at("##CN", STATUS, 0), 0, 8);
    must_say(&bad, "a single block alone", 0, " PX1                      180          71.5         86.75  00 01\n");
    put(data + 16, 1, 8);
    must_say(&bad, "a single block with a link", 1, "kind: ##DT at 640 has 1 links, and none was expected\n");
    put(data + 16, 0, 8);
    put(data + 8, good.length - data + 1, 8);
    must_say(&bad, "a single block past the end", 1, ": ##DT at 640 has a length of 2873, and the file ends at 3512\n");
    put(data + 8, 23, 8);
    must_say(&bad, "a single block without a header", 1, ": ##DT at 640 has a length of 23, and the file ends at 3512\n");
    put(data + 8, 24, 8);
    must_say(&bad, "a single block without data", 0, ": 0 bytes, 0 records of 48; the file counts 6 records\n");
}

void damage_chains(void)
{
    change_lists();
    change_blocks();
    change_to_single_block();
}
