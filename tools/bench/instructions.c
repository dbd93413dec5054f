/* Counts the instructions of calls, as a plugin of qemu-x86_64, for machines where valgrind cannot run the timer.

   Each run of the function `round` is a line of the file `out`: for each of the callees that was called in it, its place in the list of callees, the
   calls, and the instructions from the callee's first to its return, all that it calls included. Of callees that call each other the outer counts.
   Where a call ends is known by the depth: a call is one more, a return one less, and a jump from one function into another none.

       -plugin file=instructions.so,out=FILE,text=ADDRESS,round=ADDRESS,callee=ADDRESS,callee=ADDRESS...

   Addresses are hexadecimal and those of the program's file; `text` is that of its first segment with code, from which the place where it was loaded is
   known. What is declared here is what is used of version 1 of qemu's interface (qemu-plugin.h), so that the header need not be installed. */
#include <stdint.h>
#include <stdio.h>
#include <stdlib.h>
#include <string.h>

typedef uint64_t qemu_plugin_id_t;
struct qemu_plugin_tb;
struct qemu_plugin_insn;
void qemu_plugin_register_vcpu_tb_trans_cb(qemu_plugin_id_t, void (*)(qemu_plugin_id_t, struct qemu_plugin_tb *));
size_t qemu_plugin_tb_n_insns(const struct qemu_plugin_tb *);
struct qemu_plugin_insn *qemu_plugin_tb_get_insn(const struct qemu_plugin_tb *, size_t);
const void *qemu_plugin_insn_data(const struct qemu_plugin_insn *);
size_t qemu_plugin_insn_size(const struct qemu_plugin_insn *);
uint64_t qemu_plugin_insn_vaddr(const struct qemu_plugin_insn *);
void qemu_plugin_register_vcpu_insn_exec_cb(struct qemu_plugin_insn *, void (*)(unsigned int, void *), int flags, void *);
uint64_t qemu_plugin_start_code(void);

#define SEEN __attribute__((visibility("default")))
SEEN int qemu_plugin_version = 1;

enum { MOST = 256 };
static uint64_t text, round_at, callee_at[MOST];
static uint64_t calls[MOST], spent[MOST];
static int callees;
static FILE *out;

/* Inside a round; calls deep in it; the callee that runs, or none, and how deep it began. */
static int active, inside = -1;
static int64_t depth, began;

static void begin(unsigned int cpu, void *data) {
    active = 1;
    inside = -1;
    depth = 0;
    memset(calls, 0, sizeof calls);
    memset(spent, 0, sizeof spent);
}

static void end(void) {
    active = 0;
    for (int at = 0; at < callees; at++)
        if (calls[at])
            fprintf(out, "%d %llu %llu ", at, (unsigned long long)calls[at], (unsigned long long)spent[at]);
    fprintf(out, "\n");
    fflush(out);
}

static void enter(unsigned int cpu, void *data) {
    if (!active || inside >= 0)
        return;
    inside = (int)(intptr_t)data;
    began = depth;
    calls[inside]++;
}

static void plain(unsigned int cpu, void *data) {
    if (inside >= 0)
        spent[inside]++;
}

static void call(unsigned int cpu, void *data) {
    plain(cpu, data);
    depth++;
}

static void ret(unsigned int cpu, void *data) {
    plain(cpu, data);
    if (inside >= 0 && depth == began)
        inside = -1;
    if (active && depth == 0)
        end();
    depth--;
}

/* What is done at an instruction: a near call is e8 or ff /2, a near return c2 or c3, after any prefixes. */
static void (*kind(const struct qemu_plugin_insn *insn))(unsigned int, void *) {
    const uint8_t *b = qemu_plugin_insn_data(insn);
    size_t size = qemu_plugin_insn_size(insn), at = 0;
    while (at + 1 < size && (b[at] == 0xf2 || b[at] == 0xf3 || b[at] == 0x66 || b[at] == 0x2e || b[at] == 0x3e))
        at++;
    if (at + 1 < size && (b[at] & 0xf0) == 0x40)
        at++;
    if (b[at] == 0xe8 || (b[at] == 0xff && at + 1 < size && ((b[at + 1] >> 3) & 7) == 2))
        return call;
    return b[at] == 0xc2 || b[at] == 0xc3 ? ret : plain;
}

static void translated(qemu_plugin_id_t id, struct qemu_plugin_tb *tb) {
    uint64_t moved = qemu_plugin_start_code() - text;
    for (size_t at = 0; at < qemu_plugin_tb_n_insns(tb); at++) {
        struct qemu_plugin_insn *insn = qemu_plugin_tb_get_insn(tb, at);
        uint64_t place = qemu_plugin_insn_vaddr(insn) - moved;
        if (place == round_at)
            qemu_plugin_register_vcpu_insn_exec_cb(insn, begin, 0, NULL);
        for (int callee = 0; callee < callees; callee++)
            if (place == callee_at[callee])
                qemu_plugin_register_vcpu_insn_exec_cb(insn, enter, 0, (void *)(intptr_t)callee);
        qemu_plugin_register_vcpu_insn_exec_cb(insn, kind(insn), 0, NULL);
    }
}

SEEN int qemu_plugin_install(qemu_plugin_id_t id, const void *info, int argc, char **argv) {
    for (int at = 0; at < argc; at++) {
        char *value = strchr(argv[at], '=');
        if (!value)
            return 1;
        value++;
        if (!strncmp(argv[at], "out=", 4))
            out = fopen(value, "w");
        else if (!strncmp(argv[at], "text=", 5))
            text = strtoull(value, NULL, 16);
        else if (!strncmp(argv[at], "round=", 6))
            round_at = strtoull(value, NULL, 16);
        else if (!strncmp(argv[at], "callee=", 7) && callees < MOST)
            callee_at[callees++] = strtoull(value, NULL, 16);
        else
            return 1;
    }
    if (!out || !text || !round_at)
        return 1;
    qemu_plugin_register_vcpu_tb_trans_cb(id, translated);
    return 0;
}
