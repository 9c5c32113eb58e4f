/*
 * The table of a group's records, as it is printed: a column for each channel, as wide as most of its values need.
 */
#ifndef TABLE_H
#define TABLE_H

#include "mdf_record.h"

/* The names and units above the values, up to the line's end. */
void print_heading(const mdf_channel *channels, size_t count);

/* The number of a record that was read and its values, with their payloads, up to the line's end. */
void print_values(mdf_record *record, const mdf_channel *channels, size_t count);

#endif
