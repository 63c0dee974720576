/* A plugin for Debian's qemu-user (7.2 or later) that counts the instructions a program executes. At the end it appends the
 * count to the file that the environment's COUNT_FILE names, and writes to the one that COUNT_BLOCKS names a line for each block of
 * instructions: where it begins, and how many were executed in it. compare/bench builds and loads it:
 *   cc -shared -fPIC -O2 -o count.so count.c
 *   COUNT_FILE=count qemu-x86_64 -plugin ./count.so PROGRAM
 * The few declarations are here because the package has no header. */
#include <stddef.h>
#include <stdint.h>
#include <stdio.h>
#include <stdlib.h>

typedef uint64_t plugin_id;
struct qemu_plugin_tb;
enum qemu_plugin_op { QEMU_PLUGIN_INLINE_ADD_U64 };

size_t qemu_plugin_tb_n_insns(const struct qemu_plugin_tb *block);
uint64_t qemu_plugin_tb_vaddr(const struct qemu_plugin_tb *block);
void qemu_plugin_register_vcpu_tb_trans_cb(plugin_id id, void (*call)(plugin_id, struct qemu_plugin_tb *));
void qemu_plugin_register_vcpu_tb_exec_inline(struct qemu_plugin_tb *block, enum qemu_plugin_op op, void *to, uint64_t n);
void qemu_plugin_register_atexit_cb(plugin_id id, void (*call)(plugin_id, void *), void *data);

#define SHOWN __attribute__((visibility("default")))

SHOWN int qemu_plugin_version = 1;

/* A program of this kind has a few thousand blocks. */
#define MOST 1000000

static struct {
    uint64_t at, count;
} blocks[MOST];
static size_t used;

/* Each time the block runs, its number of instructions is added. Of blocks past the last place only the sum is kept, in that place. */
static void translated(plugin_id id, struct qemu_plugin_tb *block)
{
    (void)id;
    size_t place = used < MOST - 1 ? used++ : MOST - 1;
    blocks[place].at = qemu_plugin_tb_vaddr(block);
    qemu_plugin_register_vcpu_tb_exec_inline(block, QEMU_PLUGIN_INLINE_ADD_U64, &blocks[place].count, qemu_plugin_tb_n_insns(block));
}

static FILE *named_by(const char *variable, const char *mode)
{
    const char *name = getenv(variable);
    return name ? fopen(name, mode) : NULL;
}

static void ended(plugin_id id, void *data)
{
    (void)id;
    (void)data;
    uint64_t count = 0;
    FILE *each = named_by("COUNT_BLOCKS", "w");
    for (size_t place = 0; place < MOST; place++) {
        count += blocks[place].count;
        if (each && blocks[place].count)
            fprintf(each, "%llx %llu\n", (unsigned long long)blocks[place].at, (unsigned long long)blocks[place].count);
    }
    if (each)
        fclose(each);
    FILE *file = named_by("COUNT_FILE", "a");
    if (file) {
        fprintf(file, "%llu\n", (unsigned long long)count);
        fclose(file);
    }
}

SHOWN int qemu_plugin_install(plugin_id id, const void *info, int argc, char **argv)
{
    (void)info;
    (void)argc;
    (void)argv;
    qemu_plugin_register_vcpu_tb_trans_cb(id, translated);
    qemu_plugin_register_atexit_cb(id, ended, NULL);
    return 0;
}
