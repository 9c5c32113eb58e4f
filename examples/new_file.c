#include <stdio.h>
#include <stdlib.h>
#include <string.h>

#include "new_file.h"

void put_little(uint8_t *place, uint64_t number, int size)
{
    for (; size > 0; size--, number >>= 8)
        *place++ = (uint8_t)number;
}

static void must_answer(uint32_t reply)
{
    if (reply == MF4_ANSWER)
        return;
    fprintf(stderr, "make_log: %s\n", mf4_reply_text(reply));
    exit(1);
}

void must_write(mf4_written_reply written) { must_answer(written.reply); }

void must_store(mf4_done_reply stored) { must_answer(stored.reply); }

uint64_t keep_room(new_file *file, size_t size)
{
    const size_t address = (file->length + 7) / 8 * 8;
    if (address > MOST_FILE || size > MOST_FILE - address) {
        fputs("make_log: MOST_FILE is too small\n", stderr);
        exit(1);
    }
    file->length = address + size;
    return address;
}

uint64_t add_block(new_file *file, uint32_t id, uint64_t links, size_t fields)
{
    const size_t size = MF4_HEADER_SIZE + 8 * (size_t)links + fields;
    const mf4_header header = { .id = id, .block_len = size, .link_count = links };
    const uint64_t address = keep_room(file, size);
    must_write(mf4_write_header(header, file->bytes + address, size));
    return address;
}

void set_link(new_file *file, uint64_t block, int link, uint64_t address)
{
    put_little(file->bytes + block + MF4_HEADER_SIZE + 8 * link, address, 8);
}

void set_field(new_file *file, uint64_t block, int links, int field, uint64_t number, int size)
{
    put_little(file->bytes + block + MF4_HEADER_SIZE + 8 * links + field, number, size);
}

uint64_t add_text(new_file *file, uint32_t id, const char *text)
{
    const size_t with_nul = strlen(text) + 1;
    const uint64_t address = add_block(file, id, 0, (with_nul + 7) / 8 * 8);
    memcpy(file->bytes + address + MF4_HEADER_SIZE, text, with_nul);
    return address;
}

uint64_t add_data(new_file *file, uint32_t id, const uint8_t *data, size_t size)
{
    const uint64_t address = add_block(file, id, 0, size);
    memcpy(file->bytes + address + MF4_HEADER_SIZE, data, size);
    return address;
}

int save_file(const new_file *file, const char *path)
{
    FILE *out = fopen(path, "wb");
    int is_saved = out != NULL && fwrite(file->bytes, 1, file->length, out) == file->length;
    if (out != NULL && fclose(out) != 0)
        is_saved = 0;
    if (!is_saved)
        perror(path);
    return is_saved;
}
