/* Counts the instructions of x86-64 that run inside measured() on a machine of
 * another kind, as callgrind does on x86-64: a plugin for qemu-x86_64, by
 * version 1 of qemu's plugin interface. bench/run builds and uses it. */
#include <inttypes.h>
#include <stdbool.h>
#include <stddef.h>
#include <stdio.h>
#include <stdlib.h>
#include <string.h>

/* What is used of qemu-plugin.h, which Debian's packages do not have. */
typedef uint64_t plugin;
struct qemu_plugin_tb;
struct qemu_plugin_insn;
size_t qemu_plugin_tb_n_insns(const struct qemu_plugin_tb *);
struct qemu_plugin_insn *qemu_plugin_tb_get_insn(const struct qemu_plugin_tb *, size_t);
uint64_t qemu_plugin_insn_vaddr(const struct qemu_plugin_insn *);
size_t qemu_plugin_insn_size(const struct qemu_plugin_insn *);
const char *qemu_plugin_insn_symbol(const struct qemu_plugin_insn *);
void qemu_plugin_register_vcpu_tb_trans_cb(plugin, void (*)(plugin, struct qemu_plugin_tb *));
void qemu_plugin_register_vcpu_insn_exec_cb(struct qemu_plugin_insn *, void (*)(unsigned, void *), int, void *);
void qemu_plugin_register_atexit_cb(plugin, void (*)(plugin, void *), void *);
int qemu_plugin_install(plugin, const void *, int, char **);
int qemu_plugin_version = 1;

struct instruction {
    uint64_t at, next;
    bool inside;
};

static uint64_t count, back, next;
static bool on;

/* measured() is left where its caller goes on, whichever way it returns. */
static void runs(unsigned cpu, void *given)
{
    const struct instruction *i = given;
    (void)cpu;
    if (on && i->at == back)
        on = false;
    if (!on && i->inside) {
        back = next;
        on = true;
    }
    count += on;
    next = i->next;
}

static void translated(plugin id, struct qemu_plugin_tb *block)
{
    (void)id;
    for (size_t k = 0; k < qemu_plugin_tb_n_insns(block); k++) {
        struct qemu_plugin_insn *insn = qemu_plugin_tb_get_insn(block, k);
        const char *symbol = qemu_plugin_insn_symbol(insn);
        struct instruction *i = malloc(sizeof *i); /* for as long as it may run */
        if (!i)
            abort();
        i->at = qemu_plugin_insn_vaddr(insn);
        i->next = i->at + qemu_plugin_insn_size(insn);
        i->inside = symbol && strcmp(symbol, "measured") == 0;
        qemu_plugin_register_vcpu_insn_exec_cb(insn, runs, 0, i);
    }
}

static void ends(plugin id, void *given)
{
    (void)id, (void)given;
    fprintf(stderr, "Collected : %" PRIu64 "\n", count);
}

int qemu_plugin_install(plugin id, const void *info, int argc, char **argv)
{
    (void)info, (void)argc, (void)argv;
    qemu_plugin_register_vcpu_tb_trans_cb(id, translated);
    qemu_plugin_register_atexit_cb(id, ends, NULL);
    return 0;
}
