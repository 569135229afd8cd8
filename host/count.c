/* A plugin for qemu-user: counts the instructions that a program runs and writes their number to
   standard error when it ends. Debian's package has no header for plugins, so what is used of the
   interface (version 1, qemu 7.2) is declared here. */
#include <inttypes.h>
#include <stddef.h>
#include <stdio.h>

typedef uint64_t plugin;
struct qemu_plugin_tb; /* a stretch of code without a jump into or out of it */
struct qemu_info;

void qemu_plugin_register_vcpu_tb_trans_cb(plugin, void (*)(plugin, struct qemu_plugin_tb *));
void qemu_plugin_register_vcpu_tb_exec_inline(struct qemu_plugin_tb *, int, void *, uint64_t);
void qemu_plugin_register_atexit_cb(plugin, void (*)(plugin, void *), void *);
size_t qemu_plugin_tb_n_insns(const struct qemu_plugin_tb *);

#define SHOWN __attribute__((visibility("default")))
enum { ADD = 0 };

static uint64_t instructions;

/* Called once for each stretch, when it is translated: from then on it adds its own length. */
static void translated(plugin self, struct qemu_plugin_tb *stretch)
{
    (void)self;
    size_t length = qemu_plugin_tb_n_insns(stretch);
    qemu_plugin_register_vcpu_tb_exec_inline(stretch, ADD, &instructions, length);
}

static void ended(plugin self, void *nothing)
{
    (void)self;
    (void)nothing;
    fprintf(stderr, "instructions %" PRIu64 "\n", instructions);
}

SHOWN int qemu_plugin_version = 1;

SHOWN int qemu_plugin_install(plugin self, const struct qemu_info *info, int words, char **word)
{
    (void)info;
    (void)words;
    (void)word;
    qemu_plugin_register_vcpu_tb_trans_cb(self, translated);
    qemu_plugin_register_atexit_cb(self, ended, NULL);
    return 0;
}
