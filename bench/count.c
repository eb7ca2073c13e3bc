/* A plugin of QEMU's user-mode emulator (API 1; it needs no header of QEMU's) that counts the instructions of an x86-64 program.
 * syscall(0x5e1, id), a number that Linux does not have, is a mark: it prints the count since the last mark on standard error.
 *
 *   gcc -shared -fPIC -O2 count.c -o libcount.so
 *   qemu-x86_64 -plugin ./libcount.so PROGRAM */
#include <stdint.h>
#include <stdio.h>
typedef uint64_t plugin_id;
struct block;
struct instruction;
size_t qemu_plugin_tb_n_insns(const struct block *);
struct instruction *qemu_plugin_tb_get_insn(const struct block *, size_t);
void qemu_plugin_register_vcpu_tb_trans_cb(plugin_id, void (*)(plugin_id, struct block *));
void qemu_plugin_register_vcpu_insn_exec_inline(struct instruction *, int op, void *, uint64_t);
void qemu_plugin_register_vcpu_syscall_cb(plugin_id, void (*)(plugin_id, unsigned, int64_t, uint64_t, uint64_t, uint64_t, uint64_t, uint64_t, uint64_t, uint64_t, uint64_t));
int qemu_plugin_version = 1;

enum { MARK = 0x5e1, ADD = 0 };
static uint64_t counted, before;

static void translated(plugin_id id, struct block *b) {
    (void)id;
    for (size_t i = 0; i < qemu_plugin_tb_n_insns(b); i++)
        qemu_plugin_register_vcpu_insn_exec_inline(qemu_plugin_tb_get_insn(b, i), ADD, &counted, 1);
}

static void called(plugin_id id, unsigned cpu, int64_t number, uint64_t mark, uint64_t b, uint64_t c, uint64_t d, uint64_t e, uint64_t f, uint64_t g, uint64_t h) {
    (void)id, (void)cpu, (void)b, (void)c, (void)d, (void)e, (void)f, (void)g, (void)h;
    if (number != MARK) return;
    fprintf(stderr, "mark %lu %lu\n", (unsigned long)mark, (unsigned long)(counted - before));
    before = counted;
}

int qemu_plugin_install(plugin_id id, const void *info, int argc, char **argv) {
    (void)info, (void)argc, (void)argv;
    qemu_plugin_register_vcpu_tb_trans_cb(id, translated);
    qemu_plugin_register_vcpu_syscall_cb(id, called);
    return 0;
}
