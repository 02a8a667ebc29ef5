/* A plugin for Debian 12's qemu-user: counts executed instructions by function, and writes them at the end.
 *
 *   qemu-x86_64 -plugin PLUGIN.so,counts=COUNTS PROGRAM ..
 *
 * Each line of COUNTS is a number and a function, "-" for code without a name, such as that of the C library.
 * Debian packs no header of the plugin interface, so what is used of its version 1 is declared here. */
#include <inttypes.h>
#include <stdio.h>
#include <stdlib.h>
#include <string.h>

typedef uint64_t qemu_plugin_id_t;
struct qemu_plugin_tb;
struct qemu_plugin_insn;
size_t qemu_plugin_tb_n_insns(const struct qemu_plugin_tb *tb);
struct qemu_plugin_insn *qemu_plugin_tb_get_insn(const struct qemu_plugin_tb *tb, size_t at);
const char *qemu_plugin_insn_symbol(const struct qemu_plugin_insn *insn);
void qemu_plugin_register_vcpu_tb_trans_cb(qemu_plugin_id_t id, void (*call)(qemu_plugin_id_t, struct qemu_plugin_tb *));
void qemu_plugin_register_vcpu_tb_exec_inline(struct qemu_plugin_tb *tb, int add, void *sum, uint64_t number);
void qemu_plugin_register_atexit_cb(qemu_plugin_id_t id, void (*call)(qemu_plugin_id_t, void *), void *data);

int qemu_plugin_version = 1;

enum { FUNCTIONS = 20000, ADD = 0 };
static struct {
    const char *name;
    uint64_t executed;
} functions[FUNCTIONS];
static const char *file;

/* The function's place; past the last one all share it, so that none is lost. */
static size_t place(const char *name)
{
    size_t at = 0;
    while (at < FUNCTIONS - 1 && functions[at].name && strcmp(functions[at].name, name) != 0)
        at++;
    if (!functions[at].name)
        functions[at].name = strdup(name);
    return at;
}

/* A block of instructions has one way in and no way out but its end: it is executed whole. */
static void translated(qemu_plugin_id_t id, struct qemu_plugin_tb *block)
{
    const char *name = qemu_plugin_insn_symbol(qemu_plugin_tb_get_insn(block, 0));
    size_t at = place(name && *name ? name : "-");
    (void)id;
    qemu_plugin_register_vcpu_tb_exec_inline(block, ADD, &functions[at].executed, qemu_plugin_tb_n_insns(block));
}

static void ended(qemu_plugin_id_t id, void *data)
{
    FILE *out = fopen(file, "w");
    (void)id, (void)data;
    if (!out)
        exit(1);
    for (size_t at = 0; at < FUNCTIONS && functions[at].name; at++)
        fprintf(out, "%" PRIu64 " %s\n", functions[at].executed, functions[at].name);
    fclose(out);
}

int qemu_plugin_install(qemu_plugin_id_t id, const void *info, int count, char **words)
{
    (void)info;
    if (count != 1 || strncmp(words[0], "counts=", 7) != 0)
        return 1;
    file = strdup(words[0] + 7);
    qemu_plugin_register_vcpu_tb_trans_cb(id, translated);
    qemu_plugin_register_atexit_cb(id, ended, NULL);
    return 0;
}
