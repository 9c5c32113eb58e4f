/* Logs of which the loader must say something in order, whatever it is: cut, with any byte changed, with links led astray. */
#include <inttypes.h>
#include <stdio.h>
#include <string.h>

#include "damage.h"
#include "mf4.h"

/* A refusal of a chain must go on behind its words: with the block that it is for. */
static void must_blame(const char *what, uint64_t where)
{
    static const uint32_t replies[] = { MF4_TOO_FEW_BYTES, MF4_OTHER_ID, MF4_NO_LINKS, MF4_LIST_DISAGREES,
                                        MF4_NO_BLOCK_THERE, MF4_BAD_DATA_BLOCK, MF4_UNTRUE_DECLARATION };
    char bare[128];
    size_t i;
    for (i = 0; i < sizeof replies / sizeof replies[0]; i++) {
        snprintf(bare, sizeof bare, ": refused (%" PRIu32 "): %s\n", replies[i], mf4_reply_text(replies[i]));
        must_hold(strstr(tried_out, bare) == NULL && (strstr(tried_message, bare) == NULL
                                                      || strstr(tried_message, ": channel at ") != NULL), what, where);
    }
}

/* Every part of the log is needed, up to its last byte. */
static void cut(void)
{
    bad = good;
    for (bad.length = 0; bad.length < good.length; bad.length++) {
        must_hold(try_log(&bad, "cut at", bad.length) == 1, "cut at", bad.length);
        must_blame("cut at", bad.length);
    }
}

static void change_bytes(void)
{
    static const uint8_t changes[] = { 0x01, 0x80, 0xFF };
    size_t at, i;
    for (at = 0; at < good.length; at++)
        for (i = 0; i < sizeof changes; i++) {
            bad = good;
            bad.bytes[at] ^= changes[i];
            try_log(&bad, "byte changed at", at);
            must_blame("byte changed at", at);
        }
}

/* ---- links ------------------------------------------------------------------------------------------------------ */

/* A link that the loader follows: its message tells the address that leads nowhere, or what stands there instead. */
static void lead_nowhere(uint64_t at, const char *nowhere, const char *text, const char *header)
{
    const uint64_t targets[] = { good.length, good.length - 23, UINT64_MAX, (uint64_t)1 << 63 };
    char words[80];
    size_t i;
    for (i = 0; i < sizeof targets / sizeof targets[0]; i++) {
        snprintf(words, sizeof words, nowhere, targets[i]);
        changed(at, targets[i], 8, 1, words);
    }
    changed(at, 8, 8, 1, text);
    changed(at, 64, 8, 1, header);
}

/* Wherever a link leads, the loader ends in order; and it prints the same where it wants nothing of that link. */
static void lead_anywhere(uint64_t at, int is_followed)
{
    const uint64_t last = good.length + 8;
    uint64_t target;
    for (target = 0; target <= last; target += 8) {
        bad = good;
        put(at, target, 8);
        if (try_log(&bad, "link led to", target) == 1 || strcmp(tried_out, good_out) != 0)
            must_hold(is_followed, "link led to", target);
        must_blame("link led to", target);
    }
}

/* For each link of a block: f where it is followed, d where it leads to the data, c where it is looked at, else a dot. */
static void lead_astray(const char *id, int number, const char *links)
{
    int i;
    for (i = 0; links[i] != '\0'; i++) {
        const uint64_t at = link_at(id, number, i);
        if (links[i] == 'f')
            lead_nowhere(at, " at %" PRIu64 ": no block stands there", " at 8: 4.10 stands there",
                         " at 64: ##HD stands there");
        if (links[i] == 'd')
            lead_nowhere(at, ": ##DL was expected at %" PRIu64 ", and the file ends at ",
                         "refused (3): the block has another id: 4.10 stands at 8, and ##DL or ##DT was expected\n",
                         "refused (3): the block has another id: ##HD stands at 64, and ##DL or ##DT was expected\n");
        lead_anywhere(at, links[i] != '.');
    }
}

static void change_links(void)
{
    lead_astray("##HD", 0, "f.....");
    lead_astray("##DG", 0, "ffd.");
    lead_astray("##CG", 0, "cff...");
    lead_astray("##CN", TIME, "fcf.f.f.");
    lead_astray("##CN", OIL, "fcf.f.f.");
    lead_astray("##CN", REMARK, "fcf.fcf.");
    lead_astray("##CC", 0, ".f..");
    lead_astray("##DL", 2, "cccc");
    lead_astray("##DL", 3, "cccc");
    changed(link_at("##HD", 0, 0), 0, 8, 1, "no data group: the link to it is 0");
    changed(link_at("##DG", 0, 0), block("##DG", 0), 8, 1, "a list of groups that loops");
    must_hold(strcmp(tried_out, good_out) == 0, "the groups in front of a loop", 0);
    changed(link_at("##DG", 0, 1), 0, 8, 1, "no channel group: the link to it is 0");
    changed(link_at("##DG", 0, 2), 0, 8, 0, "\n  no data: the link to it is 0; the file counts 6 records\n");
    changed(link_at("##CG", 0, 0), block("##CG", 0), 8, 1, "another follows in its data group (unsorted data)");
    changed(link_at("##CG", 0, 2), 0, 8, 0, "data group at 432: 8 channels\n");
    changed(link_at("##CN", OIL, 0), block("##CN", TIME), 8, 1, "a list of channels that loops");
    must_hold(times_said("4 channels\n") == 1, "the channels in front of a loop", 0);
    changed(link_at("##CN", HOURS, 0), block("##CN", HOURS), 8, 1, "a list of channels that loops");
    changed(link_at("##CN", HOURS, 2), block("##MD", 0), 8, 0, "(XML)");
    changed(link_at("##CN", HOURS, 1), block("##CN", OIL), 8, 0, "byte 14, bit 4; its members at ");
}

void damage_anywhere(void)
{
    change_links();
    cut();
    change_bytes();
}
