/*
 * The loader run over logs in memory, all in one process: its main is compiled as loader_main, and what it prints is caught.
 * The first run that ends in another way than it should is reported, and ends the test.
 */
#ifndef TRIED_H
#define TRIED_H

#include <stddef.h>
#include <stdint.h>

enum { MOST_LOG = 8192 };

typedef struct log_bytes {
    uint8_t bytes[MOST_LOG];
    size_t length;
} log_bytes;

/* What the last run printed: its table, and its message. */
extern char tried_out[], tried_message[];
extern unsigned tried_count;

/* Reads the good log; logs and output are kept in the folder, the last ones stay there. */
void begin_tries(const char *path, const char *folder, log_bytes *good);

/* Ends the test with a report if something does not hold. */
void must_hold(int holds, const char *what, uint64_t where);

/* Runs the loader: it must end with 0 and no message, or with 1 and lines of messages, each of which names the log. Gives its
 * status. */
int try_log(const log_bytes *log, const char *what, uint64_t where);

/* Runs the loader: it must end with that status, and print those words, with status 1 in a message. */
void must_say(const log_bytes *log, const char *what, int status, const char *words);

void report(const char *format, ...);

#endif
