/* A plugin for qemu-user (plugin API 1) that counts the instructions a program runs, and at its end writes their number to the
 * file named by out=. It needs no header of QEMU's: what it uses of the plugin API is declared here.
 *     cc -O2 -shared -fPIC -o icount.so icount.c
 *     qemu-x86_64 -plugin ./icount.so,out=FILE PROGRAM ... */
#include <stdint.h>
#include <stdio.h>
#include <string.h>

typedef uint64_t qemu_plugin_id_t;
struct qemu_plugin_tb;
struct qemu_plugin_insn;
enum qemu_plugin_op { QEMU_PLUGIN_INLINE_ADD_U64 };
extern void qemu_plugin_register_vcpu_tb_trans_cb(qemu_plugin_id_t, void (*)(qemu_plugin_id_t, struct qemu_plugin_tb *));
extern void qemu_plugin_register_atexit_cb(qemu_plugin_id_t, void (*)(qemu_plugin_id_t, void *), void *);
extern size_t qemu_plugin_tb_n_insns(const struct qemu_plugin_tb *);
extern struct qemu_plugin_insn *qemu_plugin_tb_get_insn(const struct qemu_plugin_tb *, size_t);
extern void qemu_plugin_register_vcpu_insn_exec_inline(struct qemu_plugin_insn *, enum qemu_plugin_op, void *, uint64_t);

__attribute__((visibility("default"))) int qemu_plugin_version = 1;

static uint64_t count;
static char out[4096];

/* Each instruction counts where it runs. The number of a block's would not do: one that lies across two pages is in two blocks' lists. */
static void translated(qemu_plugin_id_t id, struct qemu_plugin_tb *block) {
    (void)id;
    for (size_t i = 0; i < qemu_plugin_tb_n_insns(block); i++)
        qemu_plugin_register_vcpu_insn_exec_inline(qemu_plugin_tb_get_insn(block, i), QEMU_PLUGIN_INLINE_ADD_U64, &count, 1);
}

static void ended(qemu_plugin_id_t id, void *none) {
    (void)id;
    (void)none;
    FILE *file = fopen(out, "w");
    if (!file) return;
    fprintf(file, "%llu\n", (unsigned long long)count);
    fclose(file);
}

__attribute__((visibility("default"))) int qemu_plugin_install(qemu_plugin_id_t id, const void *info, int words, char **word) {
    (void)info;
    if (words != 1 || strncmp(word[0], "out=", 4) || strlen(word[0]) > sizeof out) return -1;
    strcpy(out, word[0] + 4);
    qemu_plugin_register_vcpu_tb_trans_cb(id, translated);
    qemu_plugin_register_atexit_cb(id, ended, NULL);
    return 0;
}
