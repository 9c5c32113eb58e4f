/*
 * What the loader prints of a file and of its channels.
 */
#ifndef LISTING_H
#define LISTING_H

#include "mdf_record.h"

/* The version, and when the recording began. */
void print_start(const mdf_start *start);

/* A line for each channel: what the file tells of it; and below it, where its values are refused in every record, why. */
void print_channels(mdf_file *file, const mdf_group *group, const mdf_channel *channels, size_t count, uint64_t records);

/* Why a channel's value is refused, up to the line's end: with the bytes that it needs where they are told, and where its
 * invalidation bit is outside, with that bit. */
void print_refusal(const mdf_group *group, const mf4_channel *channel, mf4_valid_value_reply refused);

#endif
