/*
 * A plugin of the emulator `qemu-x86_64` that counts the instructions a program executes, as the program goes on.
 * The count stands in the first eight bytes of a file that the plugin maps, and the program that maps the same file
 * reads it there.
 *
 *   qemu-x86_64 -plugin counter.so,count=FILE PROGRAM
 *
 * The declarations are the emulator's, as far as they are needed; Debian's package of it has no header.
 */
#define _GNU_SOURCE
#include <fcntl.h>
#include <stddef.h>
#include <stdint.h>
#include <string.h>
#include <sys/mman.h>
#include <unistd.h>

typedef uint64_t qemu_plugin_id_t;
struct qemu_plugin_tb;
struct qemu_plugin_insn;
enum qemu_plugin_op { QEMU_PLUGIN_INLINE_ADD_U64 };
typedef void qemu_plugin_translated(qemu_plugin_id_t id, struct qemu_plugin_tb *block);
void qemu_plugin_register_vcpu_tb_trans_cb(qemu_plugin_id_t id, qemu_plugin_translated *translated);
size_t qemu_plugin_tb_n_insns(const struct qemu_plugin_tb *block);
struct qemu_plugin_insn *qemu_plugin_tb_get_insn(const struct qemu_plugin_tb *block, size_t index);
void qemu_plugin_register_vcpu_insn_exec_inline(struct qemu_plugin_insn *instruction, enum qemu_plugin_op op,
                                                void *number, uint64_t added);

/* The version of the emulator's interface for which this is written. */
int qemu_plugin_version = 1;

/* As large as the largest page of the machines that may run this. */
enum { FILE_BYTES = 65536 };

static uint64_t *count;

/* From now on, each instruction of the block adds 1 to the count when it is executed. A block's length would not do:
   the emulator also counts in it an instruction at its end that crosses a page and is left to the next block. */
static void translated(qemu_plugin_id_t id, struct qemu_plugin_tb *block)
{
    (void)id;
    for (size_t i = 0; i < qemu_plugin_tb_n_insns(block); i++)
        qemu_plugin_register_vcpu_insn_exec_inline(qemu_plugin_tb_get_insn(block, i), QEMU_PLUGIN_INLINE_ADD_U64, count,
                                                   1);
}

int qemu_plugin_install(qemu_plugin_id_t id, const void *info, int argc, char **argv)
{
    static const char key[] = "count=";
    (void)info;
    if (argc != 1 || strncmp(argv[0], key, strlen(key)) != 0)
        return 1;
    int file = open(argv[0] + strlen(key), O_RDWR | O_CREAT | O_TRUNC, 0666);
    if (file < 0 || ftruncate(file, FILE_BYTES) != 0)
        return 1;
    void *mapped = mmap(NULL, FILE_BYTES, PROT_READ | PROT_WRITE, MAP_SHARED, file, 0);
    if (mapped == MAP_FAILED)
        return 1;
    count = mapped;
    qemu_plugin_register_vcpu_tb_trans_cb(id, translated);
    return 0;
}
