/* A channel block as hex and as a struct, shared by reading and writing. Apart from zeros no byte of its links and fields
 * stands twice, so that two fields which change places show; and none is the mark of guarded.h. */
#ifndef CHANNEL_BYTES_H
#define CHANNEL_BYTES_H

#include "limits.h"

#define CN "23 23 43 4E "
#define EIGHT_LINKS \
    "11 12 13 14 15 16 17 18 21 22 23 24 25 26 27 28 31 32 33 34 35 36 37 38 41 42 43 44 45 46 47 48 " \
    "51 52 53 54 55 56 57 58 61 62 63 64 65 66 67 68 71 72 73 74 75 76 77 78 81 82 83 84 85 86 87 88 "
#define CHANNEL_FIELDS(reserved1, attachment_count) \
    "91 92 05 94 A1 A2 A3 A4 A6 A7 A8 A9 B1 B2 B3 B4 B5 B6 B7 B8 C1 " reserved1 " " attachment_count " " \
    "D1 D2 D3 D4 D5 D6 D7 D8 E1 E2 E3 E4 E5 E6 E7 E8 F1 F2 F3 F4 F5 F6 F7 F8 " \
    "09 0A 0B 0C 0D 0E 0F 10 19 1A 1B 1C 1D 1E 1F 20 29 2A 2B 2C 2D 2E 2F 30 "

/* The sample's header tells 8 links, and for the rest what no writer would tell. */
#define SAMPLE_BLOCK \
    CN "01 02 03 04 99 9A 9B 9C 9D 9E 9F A0 08 00 00 00 00 00 00 00 " EIGHT_LINKS CHANNEL_FIELDS("C2", "C3 C4")
#define WRITTEN_BLOCK \
    CN "00 00 00 00 A0 00 00 00 00 00 00 00 08 00 00 00 00 00 00 00 " EIGHT_LINKS CHANNEL_FIELDS("00", "00 00")

/* What reading SAMPLE_BLOCK and WRITTEN_BLOCK gives. */
mf4_channel_block sample_block(void);
mf4_channel_block written_block(void);

int channel_is(mf4_channel_reply a, mf4_channel_block block);

#endif
