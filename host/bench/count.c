/* A plugin for the emulator (qemu-user): counts the instructions that a program executes, and prints the count to the file that
 * `out=` names when the program ends. Each block of code adds its number of instructions whenever it is entered.
 *
 * Debian has no header for plugins, so what is used of version 1 of the interface is declared here. */
#include <stddef.h>
#include <stdint.h>
#include <stdio.h>
#include <string.h>

typedef uint64_t plugin_id;
struct qemu_plugin_tb;
struct qemu_info;

void qemu_plugin_register_vcpu_tb_trans_cb(plugin_id id, void (*on_block)(plugin_id, struct qemu_plugin_tb *));
void qemu_plugin_register_vcpu_tb_exec_inline(struct qemu_plugin_tb *block, int operation, void *to, uint64_t value);
size_t qemu_plugin_tb_n_insns(const struct qemu_plugin_tb *block);
void qemu_plugin_register_atexit_cb(plugin_id id, void (*at_exit)(plugin_id, void *), void *with);

enum { ADD = 0 };

int qemu_plugin_version = 1;
static uint64_t instructions;
static char path[4096];

static void on_block(plugin_id id, struct qemu_plugin_tb *block)
{
    (void)id;
    qemu_plugin_register_vcpu_tb_exec_inline(block, ADD, &instructions, qemu_plugin_tb_n_insns(block));
}

static void at_exit(plugin_id id, void *with)
{
    (void)id;
    (void)with;
    FILE *out = fopen(path, "w");
    if (out == NULL || fprintf(out, "%llu\n", (unsigned long long)instructions) < 0 || fclose(out) != 0)
        perror(path);
}

int qemu_plugin_install(plugin_id id, const struct qemu_info *info, int count, char **arguments)
{
    (void)info;
    if (count != 1 || strncmp(arguments[0], "out=", 4) != 0)
        return 1;
    snprintf(path, sizeof path, "%s", arguments[0] + 4);
    qemu_plugin_register_vcpu_tb_trans_cb(id, on_block);
    qemu_plugin_register_atexit_cb(id, at_exit, NULL);
    return 0;
}
