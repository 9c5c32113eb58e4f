#include <string.h>

#include "mdf_chain.h"

uint64_t mdf_chain_start(mdf_file *file, mdf_lists *lists, uint64_t address, uint64_t linked_by)
{
    const mf4_header_reply found = mdf_header_at(file, address);
    uint8_t *place = file->bytes + linked_by;
    if (found.reply != MF4_ANSWER || (found.header.id != MF4_ID_DT && found.header.id != MF4_ID_SD))
        return address;
    lists->list[lists->count].at = linked_by;
    memcpy(lists->list[lists->count++].kept, place, MDF_LIST_SIZE);
    mf4_write_list_equal(0, &address, 1, found.header.block_len - MF4_HEADER_SIZE, place, MDF_LIST_SIZE);
    return linked_by;
}

void mdf_remove_lists(mdf_file *file, mdf_lists *lists)
{
    for (; lists->count > 0; lists->count--)
        memcpy(file->bytes + lists->list[lists->count - 1].at, lists->list[lists->count - 1].kept, MDF_LIST_SIZE);
}
