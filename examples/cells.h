/*
 * The cells of the tables that the loader prints, and values spelled for them.
 */
#ifndef CELLS_H
#define CELLS_H

#include "mdf_record.h"

enum { CELL_ROOM = 1024 }; /* a longer text is cut */

/* How many columns of a terminal a UTF-8 text takes. */
int columns_of(const char *text);

int larger(int a, int b);

/* Two blanks, and a text in so many columns; on the right of them, if that is asked for. */
void print_cell(const char *text, int width, int is_right);

/* A double with the digits that bring it back; where it comes from 32 bits, those that bring these back. */
void spell_double(double value, int is_single, char cell[CELL_ROOM]);

/* The converted value of a channel in a record, or why there is none. Of a refusal that is the same in every record, the
 * number alone: the rest is told with the channel. */
void spell_value(mdf_record *record, const mdf_channel *channel, char cell[CELL_ROOM]);

#endif
