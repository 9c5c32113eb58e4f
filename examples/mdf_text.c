#include <inttypes.h>
#include <stdio.h>
#include <stdlib.h>
#include <string.h>

#include "mdf_text.h"

#define MARK "..." /* of a text that was cut */

void mdf_make_printable(char *text)
{
    unsigned char *at = (unsigned char *)text;
    for (; *at != '\0'; at++)
        if (*at < ' ' || *at == 0x7F)
            *at = '?';
        else if (at[0] == 0xC2 && at[1] >= 0x80 && at[1] < 0xA0)
            at[0] = at[1] = '?';
}

/* A cut falls in front of a character, never inside it. */
static void copy_or_cut(const uint8_t *whole, size_t length, char *text, size_t room)
{
    size_t kept = length;
    if (length >= room)
        for (kept = room - sizeof MARK; kept > 0 && (whole[kept] & 0xC0) == 0x80;)
            kept--;
    memcpy(text, whole, kept);
    strcpy(text + kept, kept < length ? MARK : "");
}

void mdf_spell_text(uint8_t data_type, const uint8_t *bytes, size_t length, char *text, size_t room)
{
    const size_t whole_room = mf4_text_room(length);
    uint8_t *whole = malloc(whole_room);
    const mf4_text_reply read = mf4_text_by_type(data_type, bytes, length, whole, whole != NULL ? whole_room : 0);
    if (read.reply == MF4_ANSWER)
        copy_or_cut(whole, (size_t)read.count, text, room);
    else
        snprintf(text, room, "(%" PRIu64 " bytes)", (uint64_t)length);
    mdf_make_printable(text);
    free(whole);
}

int mdf_read_text(mdf_file *file, const char *what, uint64_t address, char text[MDF_TEXT_ROOM])
{
    mf4_header header;
    mdf_block block;
    text[0] = '\0';
    if (address == 0)
        return 1;
    if (!mdf_read_header(file, what, address, &header))
        return 0;
    if (header.id == MF4_ID_MD) {
        strcpy(text, "(XML)");
        return 1;
    }
    if (!mdf_find_block(file, what, address, MF4_ID_TX, 0, 0, &block))
        return 0;
    mdf_spell_text(MF4_TYPE_UTF8, block.bytes + MF4_HEADER_SIZE, block.length - MF4_HEADER_SIZE, text, MDF_TEXT_ROOM);
    return 1;
}
