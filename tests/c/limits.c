/*
 * Every call of mf4.h at its limits, checked against values written out by hand from the rules.
 *
 * Everything is run three times, with the lent slices in each of the places that guarded.h names.
 *
 * Prints "limits: N checks, 0 failed"; else the name of each check that failed, and exits 1.
 */
#define _DEFAULT_SOURCE
#include "limits.h"

#include <signal.h>
#include <stdio.h>
#include <string.h>
#include <unistd.h>

static unsigned checks, failures;
static char case_name[80];

void name_case(const char *name) { snprintf(case_name, sizeof case_name, "%s", name); }

void name_row(const char *table, size_t index)
{
    snprintf(case_name, sizeof case_name, "%s, row %u", table, (unsigned)(index + 1));
}

void name_number(const char *what, uint64_t number)
{
    snprintf(case_name, sizeof case_name, "%s %llu", what, (unsigned long long)number);
}

void check(int holds, const char *claim, const char *file, int line)
{
    checks++;
    if (holds)
        return;
    failures++;
    printf("limits: FAILED: %s: %s (%s, line %d)\n", case_name, claim, file, line);
    fflush(stdout);
}

static void say(const char *text)
{
    if (write(STDOUT_FILENO, text, strlen(text)) < 0)
        _exit(2);
}

/* A guard was touched. Only calls that are safe in a signal handler are made here. */
static void fail_at_guard(int signal_number)
{
    (void)signal_number;
    say("limits: FAILED: ");
    say(case_name);
    say(": a read or write outside a slice\n");
    _exit(1);
}

static unsigned hex_digit(char digit) { return (unsigned)(digit <= '9' ? digit - '0' : digit - 'A' + 10); }

size_t from_hex(const char *text, uint8_t *bytes)
{
    size_t count = 0;
    for (; *text != '\0'; text += text[2] == ' ' ? 3 : 2)
        bytes[count++] = (uint8_t)(16 * hex_digit(text[0]) + hex_digit(text[1]));
    return count;
}

lent first_of(const char *text, size_t count)
{
    uint8_t bytes[256];
    from_hex(text, bytes);
    return lend_copy(INPUT, bytes, count);
}

lent hex(const char *text)
{
    uint8_t bytes[256];
    size_t count = from_hex(text, bytes);
    return lend_copy(INPUT, bytes, count);
}

lent hex_or_null(const char *text) { return text[0] == '\0' ? no_bytes() : hex(text); }

int holds_only(lent slice, const void *bytes, size_t count)
{
    return slice.length >= count && same_bytes(slice.bytes, bytes, count) && is_unchanged_from(slice, count);
}

int holds_only_hex(lent slice, const char *text)
{
    uint8_t bytes[256];
    size_t count = from_hex(text, bytes);
    return holds_only(slice, bytes, count);
}

static void check_everything(void)
{
    check_headers();
    check_helpers();
    check_lists();
    check_list_writing();
    check_channels();
    check_channel_writing();
    check_values();
    check_refused_fields();
    check_areas();
    check_doubles();
    check_written_values();
    check_overlaps();
    check_texts();
    check_records();
    check_damages();
    check_one_length();
    check_long_chains();
    check_long_files();
    check_single_blocks();
    check_tables();
    check_table_histories();
    check_table_records();
    check_bad_tables();
    check_reports();
    check_payloads();
    check_refused_payloads();
}

int main(void)
{
    int placement;
    signal(SIGSEGV, fail_at_guard);
    signal(SIGBUS, fail_at_guard);
    for (placement = 0; placement < PLACEMENTS; placement++) {
        place_slices((enum placement)placement);
        check_everything();
    }
    take_slices_back();
    printf("limits: %u checks, %u failed\n", checks, failures);
    return failures == 0 ? 0 : 1;
}
