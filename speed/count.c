/* A plugin for qemu's user emulation that counts executed instructions, as callgrind does with --toggle-collect: those of one function with all
 * that it calls, or those of the whole run.
 *
 *   qemu-x86_64 -d plugin -plugin count.so[,function=NAME] PROGRAM ..
 *
 * Debian's qemu-user brings no header for plugins, so that what is used of it is declared here. VERSION is that of the interface, which this
 * much of it has had since its first one. */
#include <inttypes.h>
#include <stdbool.h>
#include <stdio.h>
#include <stdlib.h>
#include <string.h>

typedef uint64_t plugin;
struct qemu_plugin_tb;
struct qemu_plugin_insn;
void qemu_plugin_register_vcpu_tb_trans_cb(plugin id, void (*called)(plugin, struct qemu_plugin_tb *));
void qemu_plugin_register_vcpu_tb_exec_cb(struct qemu_plugin_tb *tb, void (*called)(unsigned, void *), int flags, void *data);
void qemu_plugin_register_atexit_cb(plugin id, void (*called)(plugin, void *), void *data);
size_t qemu_plugin_tb_n_insns(const struct qemu_plugin_tb *tb);
struct qemu_plugin_insn *qemu_plugin_tb_get_insn(const struct qemu_plugin_tb *tb, size_t index);
uint64_t qemu_plugin_insn_vaddr(const struct qemu_plugin_insn *insn);
size_t qemu_plugin_insn_size(const struct qemu_plugin_insn *insn);
const char *qemu_plugin_insn_symbol(const struct qemu_plugin_insn *insn);
void qemu_plugin_outs(const char *text);

int qemu_plugin_version = VERSION;

/* Instructions that run one after the other to the next jump, call or return. */
struct run {
    uint64_t first, last, end; /* addresses: of the first instruction, of the last, and after it */
    size_t length;
    bool of_function;
};

static const char *function; /* NULL: the whole program */
static uint64_t total;
static const struct run *running; /* not yet in the total */
static bool inside;               /* the function, or what it calls */
static uint64_t back;             /* where the function returns to */

/* Where its last instruction would cross a page, the emulator ends a run before it, but tells of it; then the next run begins with it. */
static void add_running(const struct run *next)
{
    bool cut = next && running->length > 1 && running->last == next->first;
    if (inside || !function)
        total += running->length - cut;
}

static void executed(unsigned processor, void *data)
{
    const struct run *run = data;
    (void)processor;
    if (running)
        add_running(run);
    if (!inside && run->of_function) {
        inside = true;
        back = running ? running->end : 0; /* the run before ends with the call */
    } else if (inside && run->first == back) {
        inside = false;
    }
    running = run;
}

static void translated(plugin id, struct qemu_plugin_tb *tb)
{
    struct run *run = malloc(sizeof *run);
    size_t length = qemu_plugin_tb_n_insns(tb);
    struct qemu_plugin_insn *first = qemu_plugin_tb_get_insn(tb, 0), *last = qemu_plugin_tb_get_insn(tb, length - 1);
    const char *symbol = function ? qemu_plugin_insn_symbol(first) : NULL;
    (void)id;
    if (!run)
        abort();
    run->first = qemu_plugin_insn_vaddr(first);
    run->last = qemu_plugin_insn_vaddr(last);
    run->end = run->last + qemu_plugin_insn_size(last);
    run->length = length;
    run->of_function = symbol && strcmp(symbol, function) == 0;
    qemu_plugin_register_vcpu_tb_exec_cb(tb, executed, 0, run);
}

/* The line that callgrind writes. A function that was not left was not called as a function. */
static void ended(plugin id, void *data)
{
    char line[64];
    (void)id, (void)data;
    if (running)
        add_running(NULL);
    snprintf(line, sizeof line, "Collected : %" PRIu64 "\n", inside ? 0 : total);
    qemu_plugin_outs(line);
}

int qemu_plugin_install(plugin id, const void *info, int count, char **words)
{
    (void)info;
    for (int i = 0; i < count; i++)
        if (strncmp(words[i], "function=", 9) == 0)
            function = strdup(words[i] + 9);
    qemu_plugin_register_vcpu_tb_trans_cb(id, translated);
    qemu_plugin_register_atexit_cb(id, ended, NULL);
    return 0;
}
