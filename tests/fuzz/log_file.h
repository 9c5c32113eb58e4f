/* A file under construction: a chain of records, and perhaps one of payloads behind it. */
#ifndef LOG_FILE_H
#define LOG_FILE_H

#include "fuzz.h"

enum { MOST_LISTS = 4, MOST_FRAGMENTS = 20, MOST_DATA = 24, MOST_BLOCKS = 2 * MOST_LISTS * (MOST_FRAGMENTS + 1) };
enum { MOST_FILE = 12288, MOST_RAW = 2048, MOST_JOINED = MOST_LISTS * MOST_FRAGMENTS * MOST_DATA };

/* A whole chain is accepted. One with a breach is true but for what its lists should share, and is refused for that alone.
 * Of a damaged one, or of raw bytes, nothing is known. */
enum state { DAMAGED, WHOLE, BREACHED };

/* `joined` is what its data blocks hold, end to end, as long as it is as it was built; `places` is where each byte of
 * that stands. */
typedef struct log_chain {
    uint64_t start;
    uint8_t joined[MOST_JOINED];
    size_t places[MOST_JOINED];
    size_t joined_length;
    enum state state;
} log_chain;

typedef struct log_file {
    uint8_t bytes[MOST_FILE];
    size_t length;
    uint64_t blocks[MOST_BLOCKS];
    size_t block_count;
    log_chain records, payloads;
} log_file;

/* Raw bytes, or one or two chains, each whole or with a breach, that are then damaged a little or not at all. */
void make_file(log_file *file);

/* One list of about as many fragments as a table takes, which are all the same block. */
void make_long_list(log_file *file);

/* Puts a number into the joined data of one of the file's chains, as far as that reaches. */
void put_joined(log_file *file, log_chain *chain, uint64_t at, uint64_t number, int size);

/* One of the file's blocks, or any number. */
uint64_t choose_link(const log_file *file);

/* A record size of 0, or more than the most or than the buffer. */
int is_bad_size(uint64_t record_size, size_t room);

#define CHAIN_REPLIES (REPLY(0) | REPLY(2) | REPLY(3) | REPLY(4) | REPLY(8) | REPLY(9) | REPLY(10) | REPLY(11) | REPLY(12) \
                       | REPLY(13))
#define RECORD_REPLIES (CHAIN_REPLIES | REPLY(15) | REPLY(16))

void exercise_chain(const log_file *log, reading how);
void exercise_report(const log_file *log, reading how);

/* Damages a block of the file now and then. */
void exercise_tables(log_file *log, reading how);

/* Puts a position into the file's records and a length into its payloads. */
void exercise_payload(log_file *log, reading how);

#endif
