/* Tests of what stands on calls that are SPENT: by the library of spent.c, in which each call is so twice before its operation is done. */
#include "bwtree_waits.h"
#include "bwtree_walks.h"
#include <stdio.h>
#include <stdlib.h>

#define CHECK(x) do { if (!(x)) { fprintf(stderr, "%s:%d: %s\n", __FILE__, __LINE__, #x); exit(1); } } while (0)
#define KEYS 300

static bwtree tree;
static bwtree_bytes old;
static bwtree_page_pairs page;

static int is(const bwtree_bytes *bytes, const char *text) { return bytes->length == strlen(text) && !memcmp(bytes->bytes, text, bytes->length); }

/* What the operation that waits in seat 0 comes to. */
static uint32_t done(void) {
    uint32_t status;
    while ((status = bwtree_resume(&tree, 0, 1 << 16, &old, &page)) == BWTREE_SPENT) {}
    return status;
}

/* An operation that is SPENT waits in its seat, where no other call is made, and writes nothing before it is done. */
static void operations_wait(void) {
    uint64_t count = 7;
    old.length = 9;
    CHECK(bwtree_upsert(&tree, 0, "a", 1, "x", 1, &old) == BWTREE_SPENT && old.length == 9);
    CHECK(bwtree_is_idle(&tree, 0) == BWTREE_UNFINISHED && bwtree_is_idle(&tree, 1) == BWTREE_OK);
    CHECK(bwtree_get(&tree, 0, "a", 1, &old) == BWTREE_UNFINISHED && bwtree_page(&tree, 0, "", 0, &page) == BWTREE_UNFINISHED);
    CHECK(bwtree_close_pairs(&tree, NULL, 0, &count) == BWTREE_UNFINISHED && count == 7);
    CHECK(bwtree_resume(&tree, 0, 0, &old, &page) == BWTREE_SPENT && old.length == 9);
    CHECK(done() == BWTREE_OK && bwtree_is_idle(&tree, 0) == BWTREE_OK);
    CHECK(bwtree_resume(&tree, 0, 1, &old, &page) == BWTREE_IDLE);
    CHECK(bwtree_get(&tree, 0, "a", 1, &old) == BWTREE_SPENT && done() == BWTREE_OK && is(&old, "x"));
    CHECK(bwtree_page(&tree, 0, "", 0, &page) == BWTREE_SPENT && done() == BWTREE_OK && page.count == 1 && is(&page.pairs[0].value, "x"));
    CHECK(bwtree_delete(&tree, 0, "a", 1, &old) == BWTREE_SPENT && done() == BWTREE_OK && is(&old, "x"));
}

/* Key number i, whose order is that of the numbers. */
static const char *key(int i) {
    static char text[8];
    snprintf(text, sizeof text, "k%05d", i);
    return text;
}

/* Walks, neighbours, copies and replacements go on to their ends. */
static void callers_resume(void) {
    static bwtree_pair pairs[KEYS];
    static bwtree_walk walk;
    static const bwtree_range all;
    bwtree_pair pair;
    uint64_t count;
    for (int i = 0; i < KEYS; i++) CHECK(bwtree_insert(&tree, 0, key(i), 6, "v", 1, &old) == BWTREE_SPENT && done() == BWTREE_OK);
    for (int backward = 0; backward < 2; backward++) {
        CHECK(bwtree_walk_begin(&walk, &all, backward) == BWTREE_OK);
        for (int i = 0; i < KEYS; i++)
            CHECK(bwtree_walk_next(&tree, 0, &walk, &pair) == BWTREE_OK && is(&pair.key, key(backward ? KEYS - 1 - i : i)) && is(&pair.value, "v"));
        CHECK(bwtree_walk_next(&tree, 0, &walk, &pair) == BWTREE_ABSENT);
    }
    CHECK(bwtree_first(&tree, 0, &pair) == BWTREE_OK && is(&pair.key, key(0)) && bwtree_last(&tree, 0, &pair) == BWTREE_OK && is(&pair.key, key(KEYS - 1)));
    CHECK(bwtree_higher(&tree, 0, key(7), 6, &pair) == BWTREE_OK && is(&pair.key, key(8)));
    CHECK(bwtree_lower(&tree, 0, key(7), 6, &pair) == BWTREE_OK && is(&pair.key, key(6)));
    CHECK(bwtree_replace(&tree, 0, key(7), 6, "w", 1, &old) == BWTREE_REPLACED && is(&old, "v"));
    CHECK(bwtree_replace(&tree, 0, "none", 4, "w", 1, &old) == BWTREE_ABSENT);
    CHECK(bwtree_copy_pairs(&tree, 0, pairs, KEYS, &count) == BWTREE_OK && count == KEYS && is(&pairs[7].value, "w"));
}

int main(void) {
    bwtree_limits limits;
    CHECK(bwtree_limits_for_keys(2, 2 * KEYS, &limits) == BWTREE_OK && bwtree_open(&limits, &tree) == BWTREE_OK);
    operations_wait();
    callers_resume();
    CHECK(bwtree_close(&tree) == BWTREE_OK && bwtree_get(&tree, 0, "a", 1, &old) == BWTREE_CLOSED);
    puts("passed");
    return 0;
}
