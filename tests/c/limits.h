/* What the subjects of the limits program share: checks with a name, slices written as hex, and the subjects themselves. */
#ifndef LIMITS_H
#define LIMITS_H

#include "guarded.h"
#include "mf4.h"

#define MOST UINT64_C(18446744073709551615)
#define NAN_BITS UINT64_C(0x7FF8000000000000)
#define COUNT(table) (sizeof(table) / sizeof *(table))

/* The name under which the checks that follow are reported. */
void name_case(const char *name);
void name_row(const char *table, size_t index);
void name_number(const char *what, uint64_t number);

void check(int holds, const char *claim, const char *file, int line);
#define CHECK(claim) check((claim) != 0, #claim, __FILE__, __LINE__)

/* Bytes are written as "34 12". */
size_t from_hex(const char *text, uint8_t *bytes);
lent hex(const char *text);

/* Only the first bytes of it, in a slice of their own, so that a guard stands right behind them. */
lent first_of(const char *text, size_t count);

/* An empty text is lent as NULL. */
lent hex_or_null(const char *text);

/* The slice begins with these bytes, and nothing behind them has changed. */
int holds_only(lent slice, const void *bytes, size_t count);
int holds_only_hex(lent slice, const char *text);

int is_header(mf4_header a, uint32_t id, uint32_t reserved0, uint64_t block_len, uint64_t link_count);
int written_is(mf4_written_reply a, uint64_t count);
int write_refused(mf4_written_reply a, uint32_t reply, uint64_t told);
int done_is(mf4_done_reply a, uint32_t reply, uint64_t told);

/* One function for each subject, in the file of its name. */
void check_headers(void);
void check_helpers(void);
void check_lists(void);
void check_list_writing(void);
void check_channels(void);
void check_channel_writing(void);
void check_values(void);
void check_refused_fields(void);
void check_areas(void);
void check_doubles(void);
void check_written_values(void);
void check_overlaps(void);
void check_texts(void);
void check_records(void);
void check_damages(void);
void check_one_length(void);
void check_long_chains(void);
void check_long_files(void);
void check_single_blocks(void);
void check_tables(void);
void check_table_histories(void);
void check_table_records(void);
void check_bad_tables(void);
void check_reports(void);
void check_payloads(void);
void check_refused_payloads(void);

#endif
