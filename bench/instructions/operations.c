/* What bench/instructions/run counts: operations LARGE KEYS. Opens a tree, a large one where LARGE is 1, and loads so many keys of 16 bytes with values of 8.
 * Then it looks keys up, reads pages, and upserts keys: of each kind COUNT, and then COUNT that callgrind counts, which is what a run with twice as many takes
 * more than one with COUNT. Keys are drawn before, always the same ones. For each kind callgrind writes a file, and this program prints COUNT and how many
 * bytes the counted operations zero and move, by calls of memset, memmove and memcpy. */
#include "bwtree.h"
#include <stdio.h>
#include <stdlib.h>
#include <valgrind/callgrind.h>

enum { COUNT = 2000, LENGTH = 16 };
enum kind { LOOKUP, PAGE, UPSERT, KINDS };

static bwtree tree;
static uint8_t drawn[2 * COUNT][LENGTH];
static uint64_t zeroed, moved;

static void must(int holds, const char *what) {
    if (holds) return;
    fprintf(stderr, "operations: %s\n", what);
    exit(1);
}

/* The linker calls these three in place of the C library's, whose instructions depend on the processor; run leaves their instructions out, and prints the
 * bytes. The barrier keeps the compiler from making calls of memset and memmove of these loops. */
static inline void copy(uint8_t *to, const uint8_t *from, int is_word) {
    if (is_word) __builtin_memcpy(to, from, 8);
    else *to = *from;
    __asm__ volatile("" : : : "memory");
}

void *__wrap_memset(void *to, int byte, size_t length) {
    uint64_t bytes = 0x0101010101010101u * (uint8_t)byte;
    uint8_t *at = to, word[8];
    __builtin_memcpy(word, &bytes, 8);
    zeroed += length;
    for (; length >= 8; length -= 8, at += 8) copy(at, word, 1);
    for (; length > 0; length--) copy(at++, word, 0);
    return to;
}

void *__wrap_memmove(void *to, const void *from, size_t length) {
    uint8_t *at = to;
    const uint8_t *old = from;
    moved += length;
    if ((uintptr_t)to - (uintptr_t)from >= length) {
        for (; length >= 8; length -= 8, at += 8, old += 8) copy(at, old, 1);
        for (; length > 0; length--) copy(at++, old++, 0);
    } else {
        for (; length >= 8; length -= 8) copy(at + length - 8, old + length - 8, 1);
        for (; length > 0; length--) copy(at + length - 1, old + length - 1, 0);
    }
    return to;
}

void *__wrap_memcpy(void *to, const void *from, size_t length) {
    return __wrap_memmove(to, from, length);
}

/* The key of a number: its first eight bytes scatter it. */
static void spell(uint64_t number, uint8_t *key) {
    uint64_t scattered = number * 0x9E3779B97F4A7C15u;
    for (int i = 0; i < 8; i++) {
        key[i] = (uint8_t)(scattered >> (56 - 8 * i));
        key[8 + i] = (uint8_t)(number >> (56 - 8 * i));
    }
}

static void upsert(const uint8_t *key, uint64_t value, uint32_t expected) {
    bwtree_bytes old;
    must(bwtree_upsert(&tree, 0, key, LENGTH, &value, sizeof value, &old) == expected, "an upsert");
}

/* Opens and loads the tree, and draws the keys. A small one has the greatest limits. */
static void prepare(uint64_t large, uint64_t keys) {
    bwtree_limits limits = {1, 4096, 16384, 1, 0};
    uint64_t random = 88172645463325252u;
    if (large) must(bwtree_limits_for_many_keys(1, keys, &limits) == BWTREE_OK, "no limits for so many keys");
    must(bwtree_open(&limits, &tree) == BWTREE_OK, "the tree isn't opened");
    for (uint64_t i = 0; i < keys; i++) {
        uint8_t key[LENGTH];
        spell(i, key);
        upsert(key, i, BWTREE_OK);
    }
    for (int i = 0; i < 2 * COUNT; i++) {
        random ^= random << 13;
        random ^= random >> 7;
        random ^= random << 17;
        spell((random >> 1) % keys, drawn[i]);
    }
}

/* Operations of a kind on the drawn keys from one on. */
static void operate(enum kind kind, int from) {
    static bwtree_page_pairs page;
    bwtree_bytes value;
    for (int i = from; i < from + COUNT; i++) {
        if (kind == LOOKUP) must(bwtree_get(&tree, 0, drawn[i], LENGTH, &value) == BWTREE_OK, "a lookup");
        else if (kind == PAGE) must(bwtree_page(&tree, 0, drawn[i], LENGTH, &page) == BWTREE_OK && page.count > 0, "a page");
        else upsert(drawn[i], (uint64_t)i, BWTREE_REPLACED);
    }
}

int main(int count, char **words) {
    must(count == 3, "operations LARGE KEYS");
    prepare(strtoull(words[1], NULL, 10), strtoull(words[2], NULL, 10));
    for (enum kind kind = LOOKUP; kind < KINDS; kind++) {
        operate(kind, 0);
        zeroed = moved = 0;
        CALLGRIND_START_INSTRUMENTATION;
        operate(kind, COUNT);
        CALLGRIND_STOP_INSTRUMENTATION;
        CALLGRIND_DUMP_STATS;
        printf("%d %llu %llu\n", COUNT, (unsigned long long)zeroed, (unsigned long long)moved);
    }
    return bwtree_close(&tree) == BWTREE_OK ? 0 : 1;
}
