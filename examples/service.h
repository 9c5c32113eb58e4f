/*
 * Which pumps are due for service: of each pump of a log, by its serial, the hours of its last record that has valid ones.
 */
#ifndef SERVICE_H
#define SERVICE_H

#include "mdf_record.h"

typedef struct service_pump {
    char *serial;
    double hours;    /* NaN: no record has valid ones */
    uint64_t record; /* where they are from           */
} service_pump;

/* All 0 to begin with. */
typedef struct service_list {
    service_pump *pumps;
    size_t count;
    uint64_t nameless; /* records without a serial that can be relied on */
} service_list;

/* The two channels that the list is made of. */
typedef struct service_channels {
    const mdf_channel *serial, *hours;
} service_channels;

/* Gives NULL, or why the group says nothing of service. */
const char *find_service_channels(const mdf_channel *channels, size_t count, service_channels *found);

void note_service(service_list *list, mdf_record *record, const service_channels *channels);
void print_service(const service_list *list);
void free_service(service_list *list);

#endif
