/* Chains as the rules tell them, one block after the other. Of the library only the reader of a single list is called. */
#include "slow_chains.h"

/* A list of a chain, and what it declares for the whole of it. */
typedef struct slow_list {
    const uint8_t *bytes;
    mf4_list_reply read;
    int is_one_length;
    uint64_t one_length;
} slow_list;

static int refuse(slow_chain *chain, uint32_t reply, uint64_t told)
{
    chain->reply = reply;
    chain->told = told;
    return 0;
}

static int has_header(lent file, uint64_t address)
{
    return address != 0 && file.length >= MF4_HEADER_SIZE && address <= file.length - MF4_HEADER_SIZE;
}

static int agrees(mf4_list_reply read)
{
    return read.data_block_count == read.data_link_count && read.header.block_len >= read.rest_at + 8 * read.rest_count;
}

static int take_list(lent file, uint64_t address, slow_chain *chain, slow_list *list)
{
    if (!has_header(file, address))
        return refuse(chain, MF4_NO_BLOCK_THERE, 0);
    list->bytes = file.bytes + address;
    list->read = mf4_read_list(list->bytes, file.length - (size_t)address);
    if (list->read.reply != MF4_ANSWER)
        return refuse(chain, list->read.reply, list->read.told);
    if (!agrees(list->read))
        return refuse(chain, MF4_LIST_DISAGREES, 0);
    if (chain->count + list->read.data_link_count > MF4_MAX_FRAGMENTS)
        return refuse(chain, MF4_TOO_MANY_FRAGMENTS, 0);
    list->is_one_length = (list->read.flags & MF4_LIST_EQUAL_LENGTH) != 0;
    list->one_length = list->is_one_length ? little(list->bytes + list->read.rest_at, 8) : 0;
    return 1;
}

static int fits(const slow_list *list, const slow_list *first)
{
    if (list->is_one_length != first->is_one_length || list->one_length != first->one_length)
        return 0;
    if (!list->is_one_length || list->read.data_link_count == first->read.data_link_count)
        return 1;
    return list->read.next_addr == 0 && list->read.data_link_count < first->read.data_link_count;
}

static int is_data_block(lent file, uint64_t address, uint32_t data_id)
{
    const uint8_t *block = file.bytes + address;
    const uint64_t block_len = little(block + 8, 8);
    return little(block, 4) == data_id && little(block + 16, 8) == 0 && block_len >= MF4_HEADER_SIZE
        && block_len <= file.length - address;
}

uint32_t block_due(lent file, uint64_t address, uint32_t data_id)
{
    if (!has_header(file, address))
        return MF4_NO_BLOCK_THERE;
    return is_data_block(file, address, data_id) ? MF4_ANSWER : MF4_BAD_DATA_BLOCK;
}

static int is_true(const slow_list *list, uint64_t index, uint64_t before, uint64_t size)
{
    const int is_last = list->read.next_addr == 0 && index + 1 == list->read.data_link_count;
    if (!list->is_one_length)
        return little(list->bytes + list->read.rest_at + 8 * index, 8) == before;
    return size == list->one_length || (is_last && size < list->one_length);
}

static int take_fragment(lent file, const slow_list *list, uint64_t index, uint32_t data_id, slow_chain *chain)
{
    const uint64_t address = little(list->bytes + list->read.data_links_at + 8 * index, 8);
    const uint32_t due = block_due(file, address, data_id);
    uint64_t size;
    if (due != MF4_ANSWER)
        return refuse(chain, due, 0);
    size = little(file.bytes + address + 8, 8) - MF4_HEADER_SIZE;
    if (!is_true(list, index, chain->length, size))
        return refuse(chain, MF4_UNTRUE_DECLARATION, 0);
    chain->fragments[chain->count].at = address + MF4_HEADER_SIZE;
    chain->fragments[chain->count].size = size;
    chain->count++;
    chain->length += size;
    return 1;
}

static int take_fragments(lent file, const slow_list *list, uint32_t data_id, slow_chain *chain)
{
    uint64_t index;
    for (index = 0; index < list->read.data_link_count; index++)
        if (!take_fragment(file, list, index, data_id, chain))
            return 0;
    return 1;
}

void walk_slowly(lent file, uint64_t start, uint32_t data_id, slow_chain *chain)
{
    slow_list list, first;
    unsigned lists;
    chain->count = 0;
    chain->length = 0;
    refuse(chain, MF4_ANSWER, 0);
    for (lists = 0; lists < MF4_MAX_LISTS; lists++) {
        if (!take_list(file, lists == 0 ? start : list.read.next_addr, chain, &list))
            return;
        if (lists == 0)
            first = list;
        if (!fits(&list, &first))
            refuse(chain, MF4_UNTRUE_DECLARATION, 0);
        if (chain->reply != MF4_ANSWER || !take_fragments(file, &list, data_id, chain) || list.read.next_addr == 0)
            return;
    }
    refuse(chain, MF4_TOO_MANY_LISTS, 0);
}

static uint8_t byte_at(lent file, const slow_chain *chain, uint64_t position)
{
    size_t i = 0;
    for (; position >= chain->fragments[i].size; i++)
        position -= chain->fragments[i].size;
    return file.bytes[chain->fragments[i].at + position];
}

void copy_slowly(lent file, const slow_chain *chain, uint64_t position, uint8_t *out, size_t count)
{
    size_t i;
    for (i = 0; i < count; i++)
        out[i] = byte_at(file, chain, position + i);
}
