/* A plugin of qemu-aarch64 and qemu-x86_64 that counts the instructions of a run and says them at its end:
 *   gcc -shared -fPIC -O1 -o instructions.so checks/instructions.c
 *   qemu-aarch64 -plugin ./instructions.so -d plugin las laszip -i a.las -o b.laz -cores 1
 * The declarations are those of QEMU's interface for plugins, version 1, whose header Debian has in no package. */
#include <inttypes.h>
#include <stddef.h>
#include <stdint.h>
#include <stdio.h>

struct qemu_plugin_tb;
enum { ADD_TO_U64 = 0 };
void qemu_plugin_register_vcpu_tb_trans_cb(uint64_t id, void (*call)(uint64_t, struct qemu_plugin_tb *));
void qemu_plugin_register_vcpu_tb_exec_inline(struct qemu_plugin_tb *block, int step, void *to, uint64_t value);
void qemu_plugin_register_atexit_cb(uint64_t id, void (*call)(uint64_t, void *), void *with);
size_t qemu_plugin_tb_n_insns(const struct qemu_plugin_tb *block);
void qemu_plugin_outs(const char *text);

int qemu_plugin_version = 1;
static uint64_t count;

static void translated(uint64_t id, struct qemu_plugin_tb *block) {
    (void)id;
    qemu_plugin_register_vcpu_tb_exec_inline(block, ADD_TO_U64, &count, qemu_plugin_tb_n_insns(block));
}

static void ended(uint64_t id, void *with) {
    char text[64];
    (void)id;
    (void)with;
    snprintf(text, sizeof text, "instructions: %" PRIu64 "\n", count);
    qemu_plugin_outs(text);
}

int qemu_plugin_install(uint64_t id, const void *about, int words, char **word);
int qemu_plugin_install(uint64_t id, const void *about, int words, char **word) {
    (void)about;
    (void)words;
    (void)word;
    qemu_plugin_register_vcpu_tb_trans_cb(id, translated);
    qemu_plugin_register_atexit_cb(id, ended, NULL);
    return 0;
}
