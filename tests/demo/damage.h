/*
 * One damage to the good log at a time, and what the loader must say of it. All is counted from the log's blocks.
 */
#ifndef DAMAGE_H
#define DAMAGE_H

#include "tried.h"

/* The log's channels, in the order of their blocks. */
enum { TIME, SERIAL, HOURS, OIL, COOLANT, STATUS, SITE, REMARK };

extern log_bytes good, bad;
extern char good_out[1 << 13]; /* what the loader prints of the good one */

/* A number of so many bytes, and a block's header, in the bad log. */
void put(uint64_t at, uint64_t number, int size);
void add_header(uint64_t at, const char *id, uint64_t length, uint64_t links);

/* The address of a block of the good log: of those with that id the one with that number, from 0. */
uint64_t block(const char *id, int number);

/* Where a link of such a block stands. */
uint64_t link_at(const char *id, int number, int link);

/* Where a channel's fields begin, its type among them; and where the text of its name and of its unit does. */
uint64_t fields_of(int channel);
uint64_t name_of(int channel);
uint64_t unit_of(int channel);

/* The first place behind the good log where a block may stand. */
uint64_t behind(void);

/* The log with one number in it changed must end so, with such words. */
void changed(uint64_t at, uint64_t value, int size, int status, const char *words);

/* How often the loader's table has these words. */
unsigned times_said(const char *words);

/* The damages: anywhere.c, fields.c, meanings.c, chains.c, payloads.c and blocks.c. */
void damage_anywhere(void);
void damage_fields(void);
void damage_meanings(void);
void damage_chains(void);
void damage_payloads(void);
void add_blocks(void);

#endif
