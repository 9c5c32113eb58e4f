#include <inttypes.h>
#include <stdarg.h>
#include <stdio.h>

#include "mdf_blame.h"

/* A walk along the chain, by the rules that mf4.h tells and in their order, up to the first bad block. The library has judged
 * already: what is found here is told only if it has the same number. */
typedef struct chain_walk {
    const mdf_file *file;
    uint32_t id;           /* of the data blocks                              */
    uint64_t at, first_at; /* where the list stands, and the first one        */
    mf4_list_reply list, first;
    uint64_t before;       /* how many bytes of data stand in the blocks before */
    uint32_t reply;        /* to the first bad block                          */
    char why[320];
} chain_walk;

/* Says with which number the library refuses a block and why, as printf would, and gives 0: the walk ends there. */
static int bad(chain_walk *walk, uint32_t reply, const char *format, ...)
{
    va_list words;
    walk->reply = reply;
    va_start(words, format);
    vsnprintf(walk->why, sizeof walk->why, format, words);
    va_end(words);
    return 0;
}

#define NOT_INFLATED "which is not read here: write the log uncompressed, or inflate it first"

/* What stands in the place of a block that was expected, and what to do about it. */
static int bad_id(chain_walk *walk, uint32_t reply, uint64_t address, uint32_t found, const char *expected)
{
    char id[5];
    mdf_spell(found, id);
    if (found == MF4_ID_DZ)
        return bad(walk, reply, "%s at %" PRIu64 " is compressed data, " NOT_INFLATED, id, address);
    if (found == MF4_ID_HL)
        return bad(walk, reply, "%s at %" PRIu64 " is the list of compressed blocks, " NOT_INFLATED, id, address);
    if (found == MF4_ID_CG)
        return bad(walk, reply, "%s at %" PRIu64 " has its values among the records of another group (unsorted data), which "
                   "are not read here: sort the log first", id, address);
    return bad(walk, reply, "%s stands at %" PRIu64 ", and %s was expected", id, address, expected);
}

/* ---- lists ------------------------------------------------------------------------------------------------------ */

static uint64_t number_in_list(const chain_walk *walk, uint64_t list_at, uint64_t place)
{
    return mdf_little(walk->file->bytes + list_at + place, 8);
}

static int has_one_length(const mf4_list_reply *list)
{
    return (list->flags & MF4_LIST_EQUAL_LENGTH) != 0;
}

/* All lists of one length declare the same, and the same count, though the last may count fewer. */
static int has_the_length_of_the_first(chain_walk *walk)
{
    const uint64_t at = walk->at, first_at = walk->first_at;
    const uint64_t length = number_in_list(walk, at, walk->list.rest_at);
    const uint64_t first_length = number_in_list(walk, first_at, walk->first.rest_at);
    const uint32_t count = walk->list.data_block_count, first_count = walk->first.data_block_count;
    if (length != first_length)
        return bad(walk, MF4_UNTRUE_DECLARATION, "##DL at %" PRIu64 " declares blocks of %" PRIu64 " bytes, and the first "
                   "list, at %" PRIu64 ", of %" PRIu64, at, length, first_at, first_length);
    if (count > first_count || (count < first_count && walk->list.next_addr != 0))
        return bad(walk, MF4_UNTRUE_DECLARATION, "##DL at %" PRIu64 " counts %" PRIu32 " blocks, and the first list, at %"
                   PRIu64 ", %" PRIu32 "; only the last list may count fewer", at, count, first_at, first_count);
    return 1;
}

/* All lists of a chain have offsets, or all have one length. */
static int is_as_the_first(chain_walk *walk)
{
    if (has_one_length(&walk->list) != has_one_length(&walk->first))
        return bad(walk, MF4_UNTRUE_DECLARATION, "##DL at %" PRIu64 " has %s, and the first list, at %" PRIu64 ", has not",
                   walk->at, has_one_length(&walk->list) ? "one length" : "offsets", walk->first_at);
    return !has_one_length(&walk->list) || has_the_length_of_the_first(walk);
}

/* What a list says of itself. */
static int is_list_sound(chain_walk *walk)
{
    const mf4_list_reply *list = &walk->list;
    const uint64_t needed = list->reply == MF4_ANSWER ? list->rest_at + 8 * list->rest_count : list->told;
    if (list->reply == MF4_NO_LINKS)
        return bad(walk, list->reply, "##DL at %" PRIu64 " has none, and one to the next list was expected", walk->at);
    if (list->reply != MF4_ANSWER)
        return bad(walk, list->reply, "##DL at %" PRIu64 " needs %" PRIu64 " bytes, and the file ends at %" PRIu64, walk->at,
                   needed, (uint64_t)walk->file->length);
    if (list->data_block_count != list->data_link_count)
        return bad(walk, MF4_LIST_DISAGREES, "##DL at %" PRIu64 " counts %" PRIu32 " blocks and links %" PRIu64, walk->at,
                   list->data_block_count, list->data_link_count);
    if (needed > list->header.block_len)
        return bad(walk, MF4_LIST_DISAGREES, "##DL at %" PRIu64 " has a length of %" PRIu64 ", and its fields take %" PRIu64,
                   walk->at, list->header.block_len, needed);
    return 1;
}

static int is_list_good(chain_walk *walk)
{
    const mf4_header_reply found = mdf_header_at(walk->file, walk->at);
    if (found.reply != MF4_ANSWER)
        return bad(walk, MF4_NO_BLOCK_THERE, "##DL was expected at %" PRIu64 ", and the file ends at %" PRIu64, walk->at,
                   (uint64_t)walk->file->length);
    if (found.header.id != MF4_ID_DL)
        return bad_id(walk, MF4_OTHER_ID, walk->at, found.header.id,
                      walk->id == MF4_ID_DT ? "##DL or ##DT" : "##DL or ##SD");
    walk->list = mf4_read_list(walk->file->bytes + walk->at, walk->file->length - (size_t)walk->at);
    if (!is_list_sound(walk))
        return 0;
    if (walk->first_at == 0) {
        walk->first = walk->list;
        walk->first_at = walk->at;
    }
    return is_as_the_first(walk);
}

/* ---- data blocks ------------------------------------------------------------------------------------------------ */

/* Every block has the one length, but the chain's last may have less; or it begins at its offset. */
static int is_as_declared(chain_walk *walk, uint64_t number, const char *id, uint64_t address, uint64_t size)
{
    const mf4_list_reply *list = &walk->list;
    const uint64_t rest = number_in_list(walk, walk->at, list->rest_at + (has_one_length(list) ? 0 : 8 * number));
    const int is_last = list->next_addr == 0 && number + 1 == list->data_link_count;
    if (!has_one_length(list) && rest != walk->before)
        return bad(walk, MF4_UNTRUE_DECLARATION, "the data of %s at %" PRIu64 " begins at byte %" PRIu64 ", and ##DL at %"
                   PRIu64 " has %" PRIu64 " for it", id, address, walk->before, walk->at, rest);
    if (has_one_length(list) && (size > rest || (size < rest && !is_last)))
        return bad(walk, MF4_UNTRUE_DECLARATION, "%s at %" PRIu64 " has %" PRIu64 " bytes of data, and ##DL at %" PRIu64
                   " declares %" PRIu64 "%s", id, address, size, walk->at, rest, is_last ? " at most" : " for it");
    walk->before += size;
    return 1;
}

/* What a block must be without regard to a list: of its kind, without links, and whole. */
static int is_block_whole(chain_walk *walk, const char *id, uint64_t address, const mf4_header *header)
{
    const uint64_t size = header->block_len, end = walk->file->length;
    if (header->id != walk->id)
        return bad_id(walk, MF4_BAD_DATA_BLOCK, address, header->id, id);
    if (header->link_count != 0)
        return bad(walk, MF4_BAD_DATA_BLOCK, "%s at %" PRIu64 " has %" PRIu64 " links, and none was expected", id, address,
                   header->link_count);
    if (size < MF4_HEADER_SIZE || size > end - address)
        return bad(walk, MF4_BAD_DATA_BLOCK, "%s at %" PRIu64 " has a length of %" PRIu64 ", and the file ends at %" PRIu64,
                   id, address, size, end);
    return 1;
}

static int is_block_good(chain_walk *walk, const char *id, uint64_t number)
{
    const uint64_t address = number_in_list(walk, walk->at, walk->list.data_links_at + 8 * number);
    const mf4_header_reply found = mdf_header_at(walk->file, address);
    if (address == 0 || found.reply != MF4_ANSWER)
        return bad(walk, MF4_NO_BLOCK_THERE, "data link %" PRIu64 " of ##DL at %" PRIu64 " is %" PRIu64 ", and %s was "
                   "expected there; the file ends at %" PRIu64, number, walk->at, address, id, (uint64_t)walk->file->length);
    return is_block_whole(walk, id, address, &found.header)
        && is_as_declared(walk, number, id, address, found.header.block_len - MF4_HEADER_SIZE);
}

static int are_blocks_good(chain_walk *walk, const char *id)
{
    uint64_t number;
    for (number = 0; number < walk->list.data_link_count; number++)
        if (!is_block_good(walk, id, number))
            return 0;
    return 1;
}

/* ---- the chain -------------------------------------------------------------------------------------------------- */

int mdf_is_of_chain(uint32_t reply)
{
    return reply == MF4_TOO_FEW_BYTES || reply == MF4_OTHER_ID || reply == MF4_NO_LINKS
        || (reply >= MF4_FILE_TOO_LONG && reply <= MF4_UNTRUE_DECLARATION);
}

/* List by list; or the one data block that stands in the chain's place. */
static void find_bad_block(chain_walk *walk)
{
    const mf4_header header = mdf_header_at(walk->file, walk->at).header;
    int left = MF4_MAX_LISTS;
    char id[5];
    mdf_spell(walk->id, id);
    if (header.id == walk->id)
        is_block_whole(walk, id, walk->at, &header);
    else
        while (left-- > 0 && is_list_good(walk) && are_blocks_good(walk, id) && walk->list.next_addr != 0)
            walk->at = walk->list.next_addr;
}

int mdf_blame_chain(mdf_file *file, const char *what, uint64_t start, uint32_t id, uint32_t reply)
{
    chain_walk walk = { .file = file, .id = id, .at = start };
    find_bad_block(&walk);
    return mdf_trouble(file, "%s: refused (%" PRIu32 "): %s%s%s", what, reply, mf4_reply_text(reply),
                       walk.reply == reply ? ": " : "", walk.reply == reply ? walk.why : "");
}
