/* The fuzzer's input as a row of choices. */
#include "fuzz.h"

static const uint8_t *choices;
static size_t choices_left;

void start_choices(const uint8_t *data, size_t size)
{
    choices = data;
    choices_left = size;
}

uint8_t choose_byte(void)
{
    if (choices_left == 0)
        return 0;
    choices_left--;
    return *choices++;
}

uint64_t choose_raw(int size)
{
    uint64_t number = 0;
    int i;
    for (i = 0; i < size; i++)
        number |= (uint64_t)choose_byte() << (8 * i);
    return number;
}

static uint64_t choose_limit(void)
{
    static const uint64_t limits[] = {
        UINT64_MAX, UINT64_MAX - 1, UINT64_MAX - 23, UINT64_MAX / 8, UINT64_MAX / 8 - 4, (uint64_t)1 << 63, INT64_MAX,
        (uint64_t)1 << 61, MF4_MAX_FILE_SIZE, MF4_MAX_FILE_SIZE + 1, UINT32_MAX, (uint64_t)1 << 32, INT32_MAX,
        MF4_MAX_RECORD_SIZE, MF4_MAX_RECORD_SIZE + 1, MF4_MAX_FRAGMENTS, MF4_MAX_FRAGMENTS + 1, MF4_MAX_LISTS,
        MF4_MAX_LISTS + 1, MF4_HEADER_SIZE, MF4_HEADER_SIZE - 1, 64, 65, 32, MF4_MAX_TABLE_FRAGMENTS,
        MF4_MAX_TABLE_FRAGMENTS + 1
    };
    return limits[choose_byte() % (sizeof limits / sizeof *limits)];
}

uint64_t choose_number(void)
{
    uint8_t how = choose_byte();
    if (how < 0xE0)
        return how;
    if (how < 0xEC)
        return choose_limit();
    if (how < 0xF8)
        return choose_raw(2);
    return choose_raw(8);
}

uint64_t choose_below(uint64_t limit)
{
    uint64_t number = choose_number();
    return number < 0xE0 ? number % limit : number;
}

size_t choose_size(size_t most) { return (size_t)(choose_number() % (most + 1)); }

size_t choose_room(uint64_t needed)
{
    size_t wanted = needed <= MF4_MAX_RECORD_SIZE + 16 ? (size_t)needed : 16;
    uint8_t how = choose_byte() % 8;
    return how == 7 ? choose_size(64) : wanted + how % 3;
}
