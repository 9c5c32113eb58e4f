#define _POSIX_C_SOURCE 200809L /* dup, fdopen, ftruncate */
#include <inttypes.h>
#include <stdarg.h>
#include <stdio.h>
#include <stdlib.h>
#include <string.h>
#include <unistd.h>

#include "tried.h"

enum { MOST_OUT = 1 << 16, MOST_MESSAGE = 8192, MOST_PATH = 512 };

int loader_main(int count, char **words);

char tried_out[MOST_OUT], tried_message[MOST_MESSAGE];
unsigned tried_count;

static char log_path[MOST_PATH];
static FILE *terminal, *log_file;

void report(const char *format, ...)
{
    va_list words;
    va_start(words, format);
    vfprintf(terminal, format, words);
    va_end(words);
    fflush(terminal);
}

void must_hold(int holds, const char *what, uint64_t where)
{
    if (holds)
        return;
    report("demo: FAILED: %s, %" PRIu64 "; the log is %s\n%s%s", what, where, log_path, tried_out, tried_message);
    exit(1);
}

/* The files are opened once and written over: to make each anew for every run would take ten times as long. */
void begin_tries(const char *path, const char *folder, log_bytes *good)
{
    char out_path[MOST_PATH], message_path[MOST_PATH];
    FILE *in = fopen(path, "rb");
    snprintf(log_path, MOST_PATH, "%s/tried.mf4", folder);
    snprintf(out_path, MOST_PATH, "%s/tried.txt", folder);
    snprintf(message_path, MOST_PATH, "%s/message.txt", folder);
    terminal = fdopen(dup(STDOUT_FILENO), "w");
    log_file = fopen(log_path, "w+b");
    if (in == NULL || terminal == NULL || log_file == NULL || freopen(out_path, "w+", stdout) == NULL
        || freopen(message_path, "w+", stderr) == NULL)
        exit(2);
    good->length = fread(good->bytes, 1, MOST_LOG, in);
    fclose(in);
}

static void write_log(const log_bytes *log)
{
    rewind(log_file);
    if (fwrite(log->bytes, 1, log->length, log_file) == log->length && fflush(log_file) == 0
        && ftruncate(fileno(log_file), (off_t)log->length) == 0)
        return;
    report("demo: FAILED: %s cannot be written\n", log_path);
    exit(2);
}

/* What was printed from the start of a stream on: a NUL is put behind it, since older text may stand there. */
static void take(FILE *stream, char *text, size_t room)
{
    fputc('\0', stream);
    fflush(stream);
    rewind(stream);
    text[fread(text, 1, room - 1, stream)] = '\0';
    rewind(stream);
}

/* How many lines of messages there are, each with the log's name in front; -1 where they are not so. */
static int count_messages(void)
{
    const char *line = tried_message, *end;
    int count = 0;
    for (; *line != '\0'; line = end + 1, count++) {
        end = strchr(line, '\n');
        if (end == NULL || strncmp(line, log_path, strlen(log_path)) != 0)
            return -1;
    }
    return count;
}

int try_log(const log_bytes *log, const char *what, uint64_t where)
{
    char name[] = "loader", *words[] = { name, log_path, NULL };
    int status, messages;
    write_log(log);
    status = loader_main(2, words);
    take(stdout, tried_out, MOST_OUT);
    take(stderr, tried_message, MOST_MESSAGE);
    messages = count_messages();
    tried_count++;
    must_hold(status == 0 || status == 1, what, where);
    must_hold(status == 0 ? messages == 0 : messages > 0, what, where);
    return status;
}

void must_say(const log_bytes *log, const char *what, int status, const char *words)
{
    must_hold(try_log(log, what, 0) == status, what, 0);
    must_hold(strstr(status == 0 ? tried_out : tried_message, words) != NULL, what, 1);
}
