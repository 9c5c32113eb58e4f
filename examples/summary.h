/*
 * What all records say of a channel, in one line.
 */
#ifndef SUMMARY_H
#define SUMMARY_H

#include "mdf_record.h"

/* A line for each number that stands in the records, converted where that is done here; the group's data is a chain. */
void print_summary(const mdf_file *file, const mdf_group *group, const mdf_channel *channels, size_t count);

#endif
