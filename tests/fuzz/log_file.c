/* Files with chains: built by the library's own writers, whole or with a breach, and then damaged. */
#include "log_file.h"

#include <string.h>

static uint64_t add_block(log_file *file, size_t size)
{
    uint64_t address = file->length + choose_byte() % 4;
    file->blocks[file->block_count++] = address;
    file->length = (size_t)address + size;
    return address;
}

static uint64_t add_data_block(log_file *file, log_chain *chain, uint32_t data_id, size_t size, uint8_t seed)
{
    uint64_t address = add_block(file, 24 + size);
    mf4_header header = { data_id, 0, 24 + size, 0 };
    size_t i;
    MUST(mf4_write_header(header, file->bytes + address, 24).reply == MF4_ANSWER);
    for (i = 0; i < size; i++) {
        uint8_t byte = (uint8_t)(seed + 37 * i);
        file->bytes[address + 24 + i] = byte;
        chain->places[chain->joined_length] = (size_t)address + 24 + i;
        chain->joined[chain->joined_length++] = byte;
    }
    return address;
}

void put_joined(log_file *file, log_chain *chain, uint64_t at, uint64_t number, int size)
{
    for (; size > 0 && at < chain->joined_length; size--, at++, number >>= 8) {
        chain->joined[at] = (uint8_t)number;
        if (chain->places[at] < file->length)
            file->bytes[chain->places[at]] = (uint8_t)number;
    }
}

/* A list to be written: with one length, or with an offset for each fragment. */
typedef struct list_plan {
    int equal;
    size_t length, count, sizes[MOST_FRAGMENTS];
} list_plan;

/* Mostly few. Over 16 of them let a loop of lists pass the limit on fragments before the limit on lists; the most are
 * left to a breach, which may add one. */
static size_t choose_fragment_count(void)
{
    uint8_t how = choose_byte();
    return how < 0xE0 ? how % 6u : how % MOST_FRAGMENTS;
}

/* Every fragment has the length, so that the list can declare it. */
static void fill(list_plan *plan, size_t length)
{
    size_t i;
    plan->length = length;
    for (i = 0; i < plan->count; i++)
        plan->sizes[i] = length;
}

static void choose_plan(int equal, list_plan *plan)
{
    size_t i;
    plan->equal = equal;
    plan->count = choose_fragment_count();
    fill(plan, choose_byte() % (MOST_DATA + 1));
    for (i = 0; !equal && i < plan->count; i++)
        plan->sizes[i] = choose_byte() % (MOST_DATA + 1);
}

/* The lists share one form. With one length they share it and their count too: only the last list may have fewer
 * fragments, and only its last fragment may be short. */
static void choose_plans(list_plan *plans, size_t lists)
{
    int equal = choose_byte() % 2;
    list_plan *last = &plans[lists - 1];
    size_t i;
    for (i = 0; i < lists; i++)
        if (equal && i > 0)
            plans[i] = plans[0];
        else
            choose_plan(equal, &plans[i]);
    if (equal) {
        last->count -= choose_byte() % (last->count + 1);
        if (last->count > 0)
            last->sizes[last->count - 1] -= choose_byte() % (last->length + 1);
    }
}

/* One list has another form, length or count than the first, or one before the last ends with a short fragment. By itself
 * that list stays true, so nothing else refuses it. */
static void breach(list_plan *plans, size_t lists)
{
    enum { FORM, LENGTH, COUNT, SHORT, BREACHES };
    list_plan *first = &plans[0], *list = &plans[1 + choose_byte() % (lists - 1)], *before = list - 1;
    int how = first->equal ? choose_byte() % BREACHES : FORM;
    if (how == SHORT && first->count > 0 && first->length > 0) {
        before->sizes[first->count - 1] = choose_byte() % first->length;
    } else if (how == COUNT) {
        int is_fewer = list + 1 < plans + lists && first->count > 0 && choose_byte() % 2;
        list->count = is_fewer ? first->count - 1 : first->count + 1;
        fill(list, first->length);
    } else if (how == LENGTH) {
        fill(list, (first->length + 1 + choose_byte() % MOST_DATA) % (MOST_DATA + 1));
    } else {
        list->equal = !list->equal;
        fill(list, list->length);
    }
}

/* The list's block stands in front of its data, so its room is kept and it is written once the addresses are known. */
static uint64_t add_list(log_file *file, log_chain *chain, uint32_t data_id, const list_plan *plan, uint64_t previous)
{
    size_t count = plan->count, i;
    uint64_t links[MOST_FRAGMENTS] = { 0 }, offsets[MOST_FRAGMENTS] = { 0 };
    size_t size = 24 + 8 + 8 * count + 8 + (plan->equal ? 8 : 8 * count);
    uint64_t address = add_block(file, size);
    mf4_written_reply written;
    for (i = 0; i < count; i++) {
        offsets[i] = chain->joined_length;
        links[i] = add_data_block(file, chain, data_id, plan->sizes[i], choose_byte());
    }
    if (plan->equal)
        written = mf4_write_list_equal(0, links, count, plan->length, file->bytes + address, size);
    else
        written = mf4_write_list_variable(0, links, count, offsets, count, file->bytes + address, size);
    MUST(written.reply == MF4_ANSWER && written.count == size);
    if (previous != 0)
        memcpy(file->bytes + previous + 24, &address, 8);
    return address;
}

/* Behind what the file has already. */
static void build_chain(log_file *file, log_chain *chain, uint32_t data_id)
{
    list_plan plans[MOST_LISTS];
    size_t lists = 1 + choose_byte() % MOST_LISTS, i;
    uint64_t list = 0;
    choose_plans(plans, lists);
    chain->state = lists > 1 && choose_byte() % 4 == 3 ? BREACHED : WHOLE;
    if (chain->state == BREACHED)
        breach(plans, lists);
    file->length += 1 + choose_byte() % 64;
    for (i = 0; i < lists; i++) {
        list = add_list(file, chain, data_id, &plans[i], list);
        if (chain->start == 0)
            chain->start = list;
    }
}

uint64_t choose_link(const log_file *file)
{
    int to_a_block = choose_byte() % 2;
    return to_a_block && file->block_count > 0 ? file->blocks[choose_byte() % file->block_count] : choose_number();
}

/* A word of a block: its id, length, links, count or offsets. Links to other blocks make loops and repeats. */
static void damage_word(log_file *file)
{
    uint64_t address = file->blocks[choose_byte() % file->block_count] + 8u * (choose_byte() % 14);
    uint64_t number = choose_link(file);
    if (address + 8 <= file->length)
        memcpy(file->bytes + address, &number, 8);
}

static void damage_byte(log_file *file)
{
    size_t place = (size_t)choose_raw(2) % file->length;
    file->bytes[place] ^= choose_byte();
}

static void damage(log_file *file)
{
    uint8_t count = choose_byte() % 4;
    for (; count > 0; count--) {
        uint8_t how = choose_byte() % 8;
        file->records.state = file->payloads.state = DAMAGED;
        if (how == 0)
            file->length -= choose_byte() % file->length;
        else if (how < 3)
            damage_byte(file);
        else
            damage_word(file);
    }
}

static void take_raw(log_file *file)
{
    size_t i, length = (size_t)choose_raw(2) % MOST_RAW;
    for (i = 0; i < length; i++)
        file->bytes[i] = choose_byte();
    file->length = length;
    file->records.start = choose_number();
}

void make_file(log_file *file)
{
    memset(file, 0, sizeof *file);
    if (choose_byte() % 2 == 0) {
        take_raw(file);
        return;
    }
    build_chain(file, &file->records, MF4_ID_DT);
    if (choose_byte() % 2 == 1)
        build_chain(file, &file->payloads, MF4_ID_SD);
    damage(file);
    if (choose_byte() % 16 == 15) {
        file->records.start = choose_number();
        file->records.state = DAMAGED;
    }
}

void make_long_list(log_file *file)
{
    uint64_t links[MF4_MAX_TABLE_FRAGMENTS + 8], block;
    const size_t count = MF4_MAX_TABLE_FRAGMENTS - 8 + choose_byte() % 16, length = choose_byte() % 8;
    const size_t size = 24 + 8 + 8 * count + 8 + 8;
    size_t i;
    memset(file, 0, sizeof *file);
    file->length = 1;
    file->records.start = add_block(file, size);
    block = add_data_block(file, &file->records, MF4_ID_DT, length, choose_byte());
    for (i = 0; i < count; i++)
        links[i] = block;
    MUST(mf4_write_list_equal(0, links, count, length, file->bytes + file->records.start, size).reply == MF4_ANSWER);
}
