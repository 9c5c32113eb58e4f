#include <string.h>

#include "damage.h"

log_bytes good, bad;
char good_out[1 << 13];

void put(uint64_t at, uint64_t number, int size)
{
    for (; size > 0; size--, number >>= 8)
        bad.bytes[at++] = (uint8_t)number;
}

void add_header(uint64_t at, const char *id, uint64_t length, uint64_t links)
{
    memcpy(bad.bytes + at, id, 4);
    put(at + 8, length, 8);
    put(at + 16, links, 8);
}

uint64_t block(const char *id, int number)
{
    size_t at;
    for (at = 64; at + 24 <= good.length; at += 8)
        if (memcmp(good.bytes + at, id, 4) == 0 && number-- == 0)
            return at;
    must_hold(0, id, 0);
    return 0;
}

uint64_t link_at(const char *id, int number, int link)
{
    return block(id, number) + 24 + 8 * (uint64_t)link;
}

/* Where the text begins that a channel links. */
static uint64_t text_of(int channel, int link)
{
    const uint8_t *bytes = good.bytes + link_at("##CN", channel, link);
    uint64_t address = 0;
    int i;
    for (i = 8; i > 0; i--)
        address = address << 8 | bytes[i - 1];
    return address + 24;
}

uint64_t fields_of(int channel)
{
    return block("##CN", channel) + 88;
}

uint64_t name_of(int channel)
{
    return text_of(channel, 2);
}

uint64_t unit_of(int channel)
{
    return text_of(channel, 6);
}

uint64_t behind(void)
{
    return (good.length + 7) / 8 * 8;
}

void changed(uint64_t at, uint64_t value, int size, int status, const char *words)
{
    bad = good;
    put(at, value, size);
    must_say(&bad, words, status, words);
}

unsigned times_said(const char *words)
{
    const char *at = tried_out;
    unsigned times = 0;
    for (; (at = strstr(at, words)) != NULL; at++)
        times++;
    return times;
}
