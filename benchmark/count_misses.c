/*
 * A plugin for qemu-user that counts the jumps of a run which a processor would not foresee, and prints jumps and
 * misses to standard error. What it counts by is a model of a branch predictor and no processor's own, but it is the
 * same on every machine.
 *
 * The model, after TAGE (Seznec and Michaud, 2006), foresees where a jump goes from its address and the jumps before
 * it. A base table has a target for each jump and changes it after two misses in a row, as a 2-bit counter does. Six
 * tagged tables have targets for a jump after the same last 4, 8, 16, 32, 64 or 128 outcomes; of the tables that know
 * it the one with the longest history is believed. A miss makes an entry in the next longer table. Conditional jumps
 * are in the model with their two targets, indirect jumps and calls (a C switch) with as many as they have. Returns,
 * and jumps that always go to one place, are taken to be foreseen and are not counted.
 *
 * The few declarations of qemu's plugin interface that it needs stand here, since Debian ships no header for them.
 */
#include <inttypes.h>
#include <stdbool.h>
#include <stdint.h>
#include <stdio.h>
#include <stdlib.h>
#include <string.h>

#ifndef PLUGIN_VERSION
#define PLUGIN_VERSION 1
#endif
#define EXPORT __attribute__((visibility("default")))

struct qemu_plugin_tb;
struct qemu_plugin_insn;
extern size_t qemu_plugin_tb_n_insns(const struct qemu_plugin_tb *block);
extern uint64_t qemu_plugin_tb_vaddr(const struct qemu_plugin_tb *block);
extern struct qemu_plugin_insn *qemu_plugin_tb_get_insn(const struct qemu_plugin_tb *block, size_t index);
extern uint64_t qemu_plugin_insn_vaddr(const struct qemu_plugin_insn *instruction);
extern size_t qemu_plugin_insn_size(const struct qemu_plugin_insn *instruction);
extern char *qemu_plugin_insn_disas(const struct qemu_plugin_insn *instruction);
extern void qemu_plugin_register_vcpu_tb_trans_cb(uint64_t id, void (*translated)(uint64_t, struct qemu_plugin_tb *));
extern void qemu_plugin_register_vcpu_tb_exec_cb(struct qemu_plugin_tb *block, void (*run)(unsigned, void *), int flags,
                                                 void *data);
extern void qemu_plugin_register_atexit_cb(uint64_t id, void (*ended)(uint64_t, void *), void *data);

/* The version of the interface that this plugin is written for. */
EXPORT int qemu_plugin_version = PLUGIN_VERSION;

enum { TABLES = 6, INDEX_BITS = 12, TAG_BITS = 10, BASE_BITS = 14, LONGEST = 128 };
static const unsigned lengths[TABLES] = {4, 8, 16, 32, 64, LONGEST};

/* Where a jump goes, how sure that is (0 to 3; in the base 0 or 1), and how often it was of use of late (0 to 3). */
struct entry {
    uint64_t target;
    uint16_t tag;
    uint8_t sure, useful;
};
static struct entry base[1 << BASE_BITS], tagged[TABLES][1 << INDEX_BITS];

/* The last outcomes, a bit each, the newest at `newest`; each table's share of them, folded to an index and a tag. */
static uint8_t outcomes[LONGEST];
static unsigned newest;
static unsigned folded_index[TABLES], folded_tag[TABLES];

/* A fold of `length` outcomes to `bits`, one outcome later: `in` comes, `out` is too old. */
static unsigned fold(unsigned f, unsigned length, unsigned bits, unsigned in, unsigned out)
{
    f = (f << 1 | in) ^ out << length % bits;
    return (f ^ f >> bits) & ((1u << bits) - 1);
}

static void remember(unsigned outcome)
{
    for (int t = 0; t < TABLES; t++) {
        unsigned out = outcomes[(newest + LONGEST + 1 - lengths[t]) % LONGEST];
        folded_index[t] = fold(folded_index[t], lengths[t], INDEX_BITS, outcome, out);
        folded_tag[t] = fold(folded_tag[t], lengths[t], TAG_BITS, outcome, out);
    }
    newest = (newest + 1) % LONGEST;
    outcomes[newest] = (uint8_t)outcome;
}

/* An entry learns where the jump went: it grows surer, or less sure, or changes. */
static void learn(struct entry *e, uint64_t target, uint8_t surest)
{
    if (e->target == target)
        e->sure += e->sure < surest;
    else if (e->sure)
        e->sure--;
    else
        e->target = target;
}

/* Whether the model foresees that the jump at this address goes to the target; the model learns it. */
static bool foreseen(uint64_t at, uint64_t target)
{
    struct entry *e[TABLES], *known = NULL;
    uint16_t tags[TABLES];
    int longer = 0; /* the first table with a longer history than the one that is believed */
    for (int t = 0; t < TABLES; t++) {
        e[t] = &tagged[t][(at ^ at >> INDEX_BITS ^ folded_index[t]) & ((1 << INDEX_BITS) - 1)];
        tags[t] = (uint16_t)(1 << TAG_BITS | ((at >> 2 ^ at >> 9 ^ folded_tag[t]) & ((1 << TAG_BITS) - 1)));
        if (e[t]->tag == tags[t]) {
            known = e[t];
            longer = t + 1;
        }
    }
    bool right;
    if (known) {
        right = known->target == target;
        learn(known, target, 3);
        if (right)
            known->useful += known->useful < 3;
        else
            known->useful -= known->useful > 0;
    } else {
        known = &base[(at ^ at >> BASE_BITS) & ((1 << BASE_BITS) - 1)];
        right = known->target == target;
        learn(known, target, 1);
    }
    if (!right) {
        int free = longer;
        while (free < TABLES && e[free]->useful)
            free++;
        if (free < TABLES)
            *e[free] = (struct entry){target, tags[free], 0, 0};
        else
            for (int t = longer; t < TABLES; t++)
                e[t]->useful--;
    }
    return right;
}

/* A block of straight code, and the jump that it ends with, if that can go to more than one place. */
struct block {
    uint64_t start, jump, after; /* where it starts, where the jump stands, and what stands after that */
    enum { NONE, CONDITIONAL, INDIRECT } kind;
};
static const struct block *before; /* the block that ran last */
static uint64_t jumps, misses;

/* A block is about to run: now it is known where the jump before it went. */
static void run(unsigned processor, void *data)
{
    (void)processor;
    const struct block *now = data;
    if (before && before->kind != NONE) {
        jumps++;
        misses += !foreseen(before->jump, now->start);
        if (before->kind == CONDITIONAL) {
            remember(now->start != before->after);
        } else { /* two bits of where it went */
            remember((now->start >> 2 ^ now->start >> 4) & 1);
            remember((now->start >> 3 ^ now->start >> 5) & 1);
        }
    }
    before = now;
}

/* What kind of jump an instruction is, by how qemu spells it: `jne 0x40`, `jmp *%rax` or `jmp rax`. */
static int kind_of(const char *spelled)
{
    static const char *const prefixes[] = {"bnd ", "notrack "};
    for (size_t k = 0; k < sizeof prefixes / sizeof *prefixes; k++)
        if (!strncmp(spelled, prefixes[k], strlen(prefixes[k])))
            spelled += strlen(prefixes[k]);
    bool jump = !strncmp(spelled, "jmp", 3), call = !strncmp(spelled, "call", 4);
    if (!jump && !call)
        return *spelled == 'j' ? CONDITIONAL : NONE;
    const char *to = spelled + strcspn(spelled, " \t");
    to += strspn(to, " \t");
    return strncmp(to, "0x", 2) && strncmp(to, "$0x", 3) ? INDIRECT : NONE;
}

static void translated(uint64_t id, struct qemu_plugin_tb *translation)
{
    (void)id;
    struct block *block = malloc(sizeof *block);
    struct qemu_plugin_insn *last =
        qemu_plugin_tb_get_insn(translation, qemu_plugin_tb_n_insns(translation) - 1);
    char *spelled = qemu_plugin_insn_disas(last);
    uint64_t jump = qemu_plugin_insn_vaddr(last);
    *block = (struct block){qemu_plugin_tb_vaddr(translation), jump, jump + qemu_plugin_insn_size(last),
                            kind_of(spelled)};
    free(spelled);
    qemu_plugin_register_vcpu_tb_exec_cb(translation, run, 0, block);
}

static void ended(uint64_t id, void *data)
{
    (void)id;
    (void)data;
    fprintf(stderr, "jumps %" PRIu64 "\nmisses %" PRIu64 "\n", jumps, misses);
}

EXPORT int qemu_plugin_install(uint64_t id, const void *information, int count, char **arguments)
{
    (void)information;
    (void)count;
    (void)arguments;
    qemu_plugin_register_vcpu_tb_trans_cb(id, translated);
    qemu_plugin_register_atexit_cb(id, ended, NULL);
    return 0;
}
