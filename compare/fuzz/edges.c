/* A plugin for QEMU's user emulation that gives AFL++ the edges taken in uninstrumented code: the archive is run as it
 * was proved and compiled, and each translated block inside the given address range counts the edge that led to it.
 *
 *     qemu-x86_64 -plugin edges.so,low=0x401000,high=0x409000 PROGRAM
 *
 * The few declarations of QEMU's plugin interface (version 1) stand here because Debian ships no header for it. */
#include <stdint.h>
#include <stdlib.h>
#include <string.h>
#include <sys/shm.h>

#define EXPORTED __attribute__((visibility("default")))

struct qemu_plugin_tb;
typedef void translated(uint64_t plugin, struct qemu_plugin_tb *block);
typedef void executed(unsigned int processor, void *place);
void qemu_plugin_register_vcpu_tb_trans_cb(uint64_t plugin, translated *callback);
void qemu_plugin_register_vcpu_tb_exec_cb(struct qemu_plugin_tb *block, executed *callback, int registers, void *place);
uint64_t qemu_plugin_tb_vaddr(const struct qemu_plugin_tb *block);

EXPORTED int qemu_plugin_version = 1;

/* AFL++'s map of edges has this many counters unless AFL_MAP_SIZE says otherwise. */
enum { MAP_SIZE = 1 << 16, NO_REGISTERS = 0 };

static uint8_t unshared[MAP_SIZE];
static uint8_t *map = unshared;
static uintptr_t previous;
static uint64_t low, high = UINT64_MAX;

static void count_edge(unsigned int processor, void *place) {
    (void)processor;
    uintptr_t here = (uintptr_t)place;
    map[here ^ previous]++;
    previous = here >> 1;
}

static void translate(uint64_t plugin, struct qemu_plugin_tb *block) {
    (void)plugin;
    uint64_t address = qemu_plugin_tb_vaddr(block);
    if (address < low || address >= high) {
        return;
    }
    /* Spread neighbouring blocks over the map; which counter a block gets must only not change between runs. */
    uintptr_t place = ((address - low) * 0x9e3779b97f4a7c15u) >> 48;
    qemu_plugin_register_vcpu_tb_exec_cb(block, count_edge, NO_REGISTERS, (void *)place);
}

EXPORTED int qemu_plugin_install(uint64_t plugin, const void *machine, int count, char **arguments) {
    (void)machine;
    for (int i = 0; i < count; i++) {
        if (strncmp(arguments[i], "low=", 4) == 0) {
            low = strtoull(arguments[i] + 4, NULL, 0);
        } else if (strncmp(arguments[i], "high=", 5) == 0) {
            high = strtoull(arguments[i] + 5, NULL, 0);
        }
    }
    const char *shared = getenv("__AFL_SHM_ID");
    if (shared != NULL) {
        void *at = shmat(atoi(shared), NULL, 0);
        if (at == (void *)-1) {
            return -1;
        }
        map = at;
    }
    qemu_plugin_register_vcpu_tb_trans_cb(plugin, translate);
    return 0;
}
