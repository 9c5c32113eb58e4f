#include <inttypes.h>
#include <stdio.h>
#include <stdlib.h>
#include <string.h>

#include "cells.h"

enum { MOST_BYTES = 16, FEWEST_DIGITS_OF_SINGLE = 7, FEWEST_DIGITS = 15, MOST_DIGITS = 17 };

/* A byte of a UTF-8 text counts, but for those that go on with a character. */
int columns_of(const char *text)
{
    int columns = 0;
    for (; *text != '\0'; text++)
        columns += ((unsigned char)*text & 0xC0) != 0x80;
    return columns;
}

int larger(int a, int b)
{
    return a > b ? a : b;
}

void print_cell(const char *text, int width, int is_right)
{
    const int gap = larger(width - columns_of(text), 0);
    printf("  %*s%s%*s", is_right ? gap : 0, "", text, is_right ? 0 : gap, "");
}

/* ---- numbers ---------------------------------------------------------------------------------------------------- */

/* A NaN is what no digits bring back. */
static int comes_back(const char *text, double value, int is_single)
{
    const double read = strtod(text, NULL);
    return value != value || (is_single ? (float)read == (float)value : read == value);
}

void spell_double(double value, int is_single, char cell[CELL_ROOM])
{
    int digits = is_single ? FEWEST_DIGITS_OF_SINGLE : FEWEST_DIGITS;
    do
        snprintf(cell, CELL_ROOM, "%.*g", digits, value);
    while (!comes_back(cell, value, is_single) && digits++ < MOST_DIGITS);
}

static double number_of(const mf4_valid_value_reply *told)
{
    if (told->kind == MF4_KIND_SIGNED)
        return (double)mf4_bits_as_signed(told->number);
    return told->kind == MF4_KIND_DOUBLE ? mf4_bits_as_double(told->number) : (double)told->number;
}

/* Integers stay integers where there is nothing to convert: not every one has a double. */
static void spell_number(const mdf_channel *channel, const mf4_valid_value_reply *told, char cell[CELL_ROOM])
{
    if (mdf_is_linear(&channel->conversion))
        spell_double(mdf_convert(&channel->conversion, number_of(told)), 0, cell);
    else if (told->kind == MF4_KIND_DOUBLE)
        spell_double(mf4_bits_as_double(told->number), channel->described.bit_count == 32, cell);
    else if (told->kind == MF4_KIND_SIGNED)
        snprintf(cell, CELL_ROOM, "%" PRId64, mf4_bits_as_signed(told->number));
    else
        snprintf(cell, CELL_ROOM, "%" PRIu64, told->number);
}

/* ---- texts and bytes -------------------------------------------------------------------------------------------- */

/* A text without a character is told by a dash. It ends at its stop: the leftovers are left out. */
static void spell_text(uint8_t data_type, const mdf_value *value, char cell[CELL_ROOM])
{
    strcpy(cell, "-");
    if (value->told.length != 0)
        mdf_spell_text(data_type, value->bytes + value->told.at, (size_t)value->told.length, cell, CELL_ROOM);
}

static void spell_bytes(const mdf_value *value, char cell[CELL_ROOM])
{
    const uint64_t length = value->told.length;
    uint64_t i;
    for (i = 0; i < length && i < MOST_BYTES; i++)
        snprintf(cell + 3 * i, CELL_ROOM - 3 * MOST_BYTES, "%02x ", value->bytes[value->told.at + i]);
    if (length > MOST_BYTES)
        snprintf(cell + 3 * MOST_BYTES, CELL_ROOM - 3 * MOST_BYTES, "... (%" PRIu64 " bytes)", length);
    else
        strcpy(length > 0 ? cell + 3 * length - 1 : cell, length > 0 ? "" : "-");
}

/* ---- values ----------------------------------------------------------------------------------------------------- */

/* What is refused in one record alone is said in words. */
static void spell_refusal(const mdf_group *group, const mf4_valid_value_reply *told, char cell[CELL_ROOM])
{
    const int is_told_elsewhere = mdf_is_in_every_record(group, told->reply, told->told);
    snprintf(cell, CELL_ROOM, "refused (%" PRIu32 ")%s%s", told->reply, is_told_elsewhere ? "" : ": ",
             is_told_elsewhere ? "" : mf4_reply_text(told->reply));
}

void spell_value(mdf_record *record, const mdf_channel *channel, char cell[CELL_ROOM])
{
    const mdf_value value = mdf_read_value(record, &channel->described);
    const mf4_valid_value_reply *told = &value.told;
    if (told->reply != MF4_ANSWER)
        spell_refusal(record->group, told, cell);
    else if (told->kind == MF4_KIND_NOTHING)
        strcpy(cell, "not read");
    else if (!told->is_valid)
        strcpy(cell, "invalid");
    else if (told->kind <= MF4_KIND_DOUBLE)
        spell_number(channel, told, cell);
    else if (told->kind == MF4_KIND_TEXT)
        spell_text(channel->described.data_type, &value, cell);
    else if (told->kind == MF4_KIND_UNKNOWN)
        strcpy(cell, "?");
    else
        spell_bytes(&value, cell);
}
