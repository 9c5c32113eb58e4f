/*
 * A plugin of the emulator: in front of the line that the program prints next, it prints how many instructions each call of
 * counted_pass took, with all that it called, and a tab.
 */
#include <stdbool.h>
#include <stddef.h>
#include <stdint.h>
#include <stdio.h>
#include <string.h>

/* What is used of qemu-plugin.h, which no package of Debian 12 has. */
typedef struct qemu_plugin_tb qemu_plugin_tb;
typedef struct qemu_plugin_insn qemu_plugin_insn;
typedef void on_translation(uint64_t id, qemu_plugin_tb *block);
typedef void on_execution(unsigned cpu, void *data);
void qemu_plugin_register_vcpu_tb_trans_cb(uint64_t id, on_translation *call);
void qemu_plugin_register_vcpu_insn_exec_cb(qemu_plugin_insn *at, on_execution *call, int registers, void *data);
size_t qemu_plugin_tb_n_insns(const qemu_plugin_tb *block);
qemu_plugin_insn *qemu_plugin_tb_get_insn(const qemu_plugin_tb *block, size_t index);
const char *qemu_plugin_insn_symbol(const qemu_plugin_insn *at);
const void *qemu_plugin_insn_data(const qemu_plugin_insn *at);

/* Of that interface; the emulator refuses another. */
int qemu_plugin_version = 1;

static uint64_t count;
static bool counting;

static void begin(unsigned cpu, void *data)
{
    (void)cpu, (void)data;
    if (!counting)
        count = 0;
    counting = true;
}

static void step(unsigned cpu, void *data)
{
    (void)cpu, (void)data;
    count++;
}

static void end(unsigned cpu, void *data)
{
    (void)cpu, (void)data;
    counting = false;
    printf("%llu\t", (unsigned long long)count);
    fflush(stdout);
}

static void before_each(qemu_plugin_insn *at, on_execution *call)
{
    qemu_plugin_register_vcpu_insn_exec_cb(at, call, 0, NULL);
}

static bool is_counted_pass(const qemu_plugin_insn *at)
{
    const char *function = qemu_plugin_insn_symbol(at);
    return function && strcmp(function, "counted_pass") == 0;
}

static bool is_return(const qemu_plugin_insn *at) { return *(const uint8_t *)qemu_plugin_insn_data(at) == 0xc3; }

/* The emulator asks once for each stretch of code, before that runs. */
static void translate(uint64_t id, qemu_plugin_tb *block)
{
    (void)id;
    for (size_t i = 0; i < qemu_plugin_tb_n_insns(block); i++) {
        qemu_plugin_insn *at = qemu_plugin_tb_get_insn(block, i);
        if (is_counted_pass(at))
            before_each(at, begin);
        before_each(at, step);
        if (is_counted_pass(at) && is_return(at))
            before_each(at, end);
    }
}

int qemu_plugin_install(uint64_t id, const void *emulator, int argc, char **argv)
{
    (void)emulator, (void)argc, (void)argv;
    qemu_plugin_register_vcpu_tb_trans_cb(id, translate);
    return 0;
}
