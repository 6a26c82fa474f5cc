/* A plugin for qemu-user: counts the guest instructions a program executes and says on standard error how many they are
 * whenever the program writes to standard output, and at its end. The count depends on the program and its input alone, so it is the same on a busy machine and on an idle one.
 * Debian's package has no header for plugins; what is used of it is declared here. */
#include <stddef.h>
#include <stdint.h>
#include <stdio.h>

typedef uint64_t plugin_id;
struct qemu_plugin_tb;
struct qemu_plugin_insn;
struct qemu_info;

enum inline_operation { ADD_U64 };

extern void qemu_plugin_register_vcpu_tb_trans_cb(plugin_id id,
                                                  void (*call)(plugin_id id, struct qemu_plugin_tb *block));
extern size_t qemu_plugin_tb_n_insns(const struct qemu_plugin_tb *block);
extern struct qemu_plugin_insn *qemu_plugin_tb_get_insn(const struct qemu_plugin_tb *block, size_t which);
extern void qemu_plugin_register_vcpu_tb_exec_inline(struct qemu_plugin_tb *block, enum inline_operation operation,
                                                     void *number, uint64_t operand);
extern void qemu_plugin_register_vcpu_insn_exec_inline(struct qemu_plugin_insn *insn, enum inline_operation operation,
                                                       void *number, uint64_t operand);
extern void qemu_plugin_register_vcpu_syscall_cb(plugin_id id,
                                                 void (*call)(plugin_id id, unsigned processor, int64_t number,
                                                              uint64_t a1, uint64_t a2, uint64_t a3, uint64_t a4,
                                                              uint64_t a5, uint64_t a6, uint64_t a7, uint64_t a8));
extern void qemu_plugin_register_atexit_cb(plugin_id id, void (*call)(plugin_id id, void *data), void *data);

int qemu_plugin_version = 1;

static uint64_t instructions;

/* Each time a translated block is entered, its instructions but the last are added; the last adds itself. An
 * instruction across the end of a page is listed as its block's last but done by the block after: added with the block
 * it would count twice, and a loop's cost would depend on where the linker lays it. */
static void translated(plugin_id id, struct qemu_plugin_tb *block)
{
    size_t before = qemu_plugin_tb_n_insns(block) - 1;
    (void)id;
    qemu_plugin_register_vcpu_tb_exec_inline(block, ADD_U64, &instructions, before);
    qemu_plugin_register_vcpu_insn_exec_inline(qemu_plugin_tb_get_insn(block, before), ADD_U64, &instructions, 1);
}

static void say(void)
{
    fprintf(stderr, "instructions=%llu\n", (unsigned long long)instructions);
}

/* The guest's number of write, and its standard output. */
enum { WRITE = 1, STANDARD_OUTPUT = 1 };

static void called(plugin_id id, unsigned processor, int64_t number, uint64_t a1, uint64_t a2, uint64_t a3, uint64_t a4,
                   uint64_t a5, uint64_t a6, uint64_t a7, uint64_t a8)
{
    (void)id, (void)processor, (void)a2, (void)a3, (void)a4, (void)a5, (void)a6, (void)a7, (void)a8;
    if (number == WRITE && a1 == STANDARD_OUTPUT)
        say();
}

static void ended(plugin_id id, void *data)
{
    (void)id;
    (void)data;
    say();
}

int qemu_plugin_install(plugin_id id, const struct qemu_info *info, int words, char **word)
{
    (void)info;
    (void)words;
    (void)word;
    qemu_plugin_register_vcpu_tb_trans_cb(id, translated);
    qemu_plugin_register_vcpu_syscall_cb(id, called);
    qemu_plugin_register_atexit_cb(id, ended, NULL);
    return 0;
}
