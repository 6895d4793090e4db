/*
 * A plugin for qemu-user 7.2 or later that prints how many instructions a program took. The declarations are those of
 * qemu-plugin.h (API version 1), which Debian does not package. Compile it with -shared -fPIC, and run
 * `qemu-aarch64 -plugin ./count_instructions.so -d plugin PROGRAM`.
 */
#include <inttypes.h>
#include <stddef.h>
#include <stdio.h>

typedef uint64_t qemu_plugin_id_t;
struct qemu_plugin_tb;
typedef void (*translated)(qemu_plugin_id_t, struct qemu_plugin_tb *);
typedef void (*ended)(qemu_plugin_id_t, void *);
enum { ADD_U64 = 0 };

void qemu_plugin_register_vcpu_tb_trans_cb(qemu_plugin_id_t id, translated call);
void qemu_plugin_register_vcpu_tb_exec_inline(struct qemu_plugin_tb *block, int operation, void *to, uint64_t by);
void qemu_plugin_register_atexit_cb(qemu_plugin_id_t id, ended call, void *user);
size_t qemu_plugin_tb_n_insns(const struct qemu_plugin_tb *block);
void qemu_plugin_outs(const char *text);

int qemu_plugin_version = 1;
static uint64_t instructions;

static void count(qemu_plugin_id_t id, struct qemu_plugin_tb *block) {
    (void)id;
    qemu_plugin_register_vcpu_tb_exec_inline(block, ADD_U64, &instructions, qemu_plugin_tb_n_insns(block));
}

static void tell(qemu_plugin_id_t id, void *user) {
    char text[64];
    (void)id, (void)user;
    snprintf(text, sizeof text, "%" PRIu64 " instructions\n", instructions);
    qemu_plugin_outs(text);
}

int qemu_plugin_install(qemu_plugin_id_t id, const void *info, int count_of_words, char **words);
int qemu_plugin_install(qemu_plugin_id_t id, const void *info, int count_of_words, char **words) {
    (void)info, (void)count_of_words, (void)words;
    qemu_plugin_register_vcpu_tb_trans_cb(id, count);
    qemu_plugin_register_atexit_cb(id, tell, NULL);
    return 0;
}
