#include <errno.h>
#include <inttypes.h>
#include <stdarg.h>
#include <stdio.h>
#include <stdlib.h>
#include <string.h>

#include "mdf_file.h"

enum { FIRST_ROOM = 65536 };

int mdf_trouble(mdf_file *file, const char *format, ...)
{
    va_list words;
    va_start(words, format);
    vsnprintf(file->trouble, sizeof file->trouble, format, words);
    va_end(words);
    return 0;
}

int mdf_complain(const mdf_file *file)
{
    fflush(stdout);
    fprintf(stderr, "%s: %s\n", file->path, file->trouble);
    return 0;
}

static int make_room(mdf_file *file, size_t room)
{
    uint8_t *bytes = realloc(file->bytes, room);
    if (bytes != NULL)
        file->bytes = bytes;
    return bytes != NULL;
}

/* Reads to the end, so that a pipe is as good as a file. Then no room is left behind it, so that a checker sees who reads
 * there. */
static int read_all(mdf_file *file, FILE *in)
{
    size_t room = 0;
    do {
        room = 2 * room + FIRST_ROOM;
        if (!make_room(file, room))
            return 0;
        file->length += fread(file->bytes + file->length, 1, room - file->length, in);
    } while (file->length == room);
    return !ferror(in) && make_room(file, file->length > 0 ? file->length : 1);
}

int mdf_copy(mdf_file *file, const char *path)
{
    FILE *in = fopen(path, "rb");
    int is_read;
    file->path = path;
    is_read = in != NULL && read_all(file, in);
    if (!is_read)
        mdf_trouble(file, "cannot be read: %s", strerror(errno));
    if (in != NULL)
        fclose(in);
    return is_read;
}

uint64_t mdf_little(const uint8_t *bytes, int size)
{
    uint64_t number = 0;
    while (size > 0)
        number = number << 8 | bytes[--size];
    return number;
}

uint64_t mdf_link(const mdf_block *block, int link)
{
    return mdf_little(block->bytes + MF4_HEADER_SIZE + 8 * link, 8);
}

void mdf_spell(uint32_t id, char text[5])
{
    int i;
    for (i = 0; i < 4; i++, id >>= 8)
        text[i] = (id & 0xFF) > ' ' && (id & 0xFF) < 0x7F ? (char)(id & 0xFF) : '.';
    text[4] = '\0';
}

mf4_header_reply mdf_header_at(const mdf_file *file, uint64_t address)
{
    const size_t at = address < file->length ? (size_t)address : file->length;
    return mf4_read_header(file->bytes + at, file->length - at);
}

int mdf_read_header(mdf_file *file, const char *what, uint64_t address, mf4_header *header)
{
    const mf4_header_reply read = mdf_header_at(file, address);
    *header = read.header;
    if (address == 0)
        return mdf_trouble(file, "no %s: the link to it is 0", what);
    return read.reply == MF4_ANSWER
        || mdf_trouble(file, "%s at %" PRIu64 ": no block stands there, since the file ends at %" PRIu64, what, address,
                       (uint64_t)file->length);
}

int mdf_find_block(mdf_file *file, const char *what, uint64_t address, uint32_t id, uint64_t links, uint64_t fields,
                   mdf_block *block)
{
    mf4_header header;
    char wanted[5], found[5];
    if (!mdf_read_header(file, what, address, &header))
        return 0;
    mdf_spell(id, wanted);
    mdf_spell(header.id, found);
    if (header.id != id)
        return mdf_trouble(file, "%s at %" PRIu64 ": %s stands there, and not %s", what, address, found, wanted);
    if (header.block_len > file->length - address)
        return mdf_trouble(file, "%s at %" PRIu64 ": its %" PRIu64 " bytes pass the file's end at %" PRIu64, what, address,
                           header.block_len, (uint64_t)file->length);
    if (header.block_len < MF4_HEADER_SIZE + 8 * links + fields || header.link_count < links
        || header.link_count > (header.block_len - MF4_HEADER_SIZE - fields) / 8)
        return mdf_trouble(file, "%s at %" PRIu64 ": %" PRIu64 " bytes with %" PRIu64 " links are no %s block", what,
                           address, header.block_len, header.link_count, wanted);
    block->bytes = file->bytes + address;
    block->length = (size_t)header.block_len;
    block->fields = block->bytes + MF4_HEADER_SIZE + 8 * header.link_count;
    return 1;
}
