/*
 * The records of a made-up pump log: where each channel stands in them, and what they say. make_log.c writes the file.
 */
#ifndef PUMP_RECORDS_H
#define PUMP_RECORDS_H

#include "mf4.h"

/* The channels in the order of the file; the invalidation bits are none. */
enum { TIME, SERIAL, HOURS, OIL, COOLANT, STATUS, SITE, REMARK, CHANNELS };

enum {
    RECORDS = 6,
    RECORD_SIZE = 48,
    DATA_BYTES = 47,
    TAIL = 7, /* bytes of a seventh record */
    MOST_JOINED = 512
};

typedef struct pump_channel {
    const char *name, *unit; /* unit: NULL where there is none                 */
    mf4_channel channel;     /* but for the link to the payloads               */
    uint8_t sync_type;       /* of the master                                  */
    double factor;           /* the value is factor * the raw one; 0: it is raw */
} pump_channel;

extern const pump_channel pump_channels[CHANNELS];

/* What the blocks of a chain hold, end to end. */
typedef struct joined_data {
    uint8_t bytes[MOST_JOINED];
    size_t length;
} joined_data;

typedef struct pump_data {
    joined_data records, sites, remarks;
} pump_data;

/* Ends the program if two channels, or a channel and the invalidation bits, share a bit of the record. */
void check_layout(void);

void make_records(pump_data *data);

#endif
