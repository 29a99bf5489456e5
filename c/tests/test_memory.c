/* Tests of what the library takes of memory: each growth that an opening or a closing with pairs asks for is refused in turn, which is answered, and leaves
 * nothing; no other call takes any; and what a closed tree leaves is a few bytes. Link it with -Wl,--wrap=malloc,--wrap=realloc,--wrap=free. */
#include "bwtree.h"
#include <stdio.h>
#include <stdlib.h>
#include <string.h>

#define CHECK(x) do { if (!(x)) { fprintf(stderr, "%s:%d: %s\n", __FILE__, __LINE__, #x); exit(1); } } while (0)

void *__real_malloc(size_t size);
void *__real_realloc(void *old, size_t size);
void __real_free(void *old);
void *__wrap_malloc(size_t size);
void *__wrap_realloc(void *old, size_t size);
void __wrap_free(void *old);

/* How many growths there were, which one is refused, and how many bytes are held. */
static long growths, refused;
static size_t held;

/* Each block has its size in front. */
enum { FRONT = 16 };

static int refuses(void) { return ++growths == refused; }

static void *noted(size_t *block, size_t size) {
    if (!block) return NULL;
    *block = size;
    held += size;
    return (char *)block + FRONT;
}

static size_t *block_of(void *bytes) { return bytes ? (size_t *)((char *)bytes - FRONT) : NULL; }

void *__wrap_malloc(size_t size) { return refuses() ? NULL : noted(__real_malloc(size + FRONT), size); }

void *__wrap_realloc(void *old, size_t size) {
    if (refuses()) return NULL;
    held -= old ? *block_of(old) : 0;
    return noted(__real_realloc(block_of(old), size + FRONT), size);
}

void __wrap_free(void *old) {
    held -= old ? *block_of(old) : 0;
    __real_free(block_of(old));
}

/* Some calls of each kind. */
static void call(const bwtree *tree) {
    static bwtree_page_pairs page;
    bwtree_bytes old;
    bwtree_room room;
    char key[16];
    for (unsigned i = 0; i < 2000; i++) {
        size_t length = (size_t)snprintf(key, sizeof key, "%u", i % 150);
        uint32_t seat = i % 2;
        CHECK(bwtree_upsert(tree, seat, key, length, key, length, &old) <= BWTREE_REPLACED);
        CHECK(bwtree_get(tree, seat, key, length, &old) == BWTREE_OK);
        CHECK(bwtree_compare_and_set(tree, seat, key, length, "x", 1, "y", 1, &old) == BWTREE_DIFFERS);
        if (i % 3 == 0) CHECK(bwtree_delete(tree, seat, key, length, &old) == BWTREE_OK);
        if (i % 5 == 0) CHECK(bwtree_insert(tree, seat, key, length, key, length, &old) <= BWTREE_EXISTS);
        CHECK(bwtree_tidy(tree, seat, key, length) == BWTREE_OK);
        CHECK(bwtree_page(tree, seat, key, length, &page) == BWTREE_OK);
    }
    CHECK(bwtree_is_idle(tree, 0) == BWTREE_OK && bwtree_free_room(tree, 1, &room) == BWTREE_OK);
    CHECK(bwtree_resume(tree, 0, 1, &old, &page) == BWTREE_IDLE);
}

int main(void) {
    static bwtree tree, none;
    bwtree_limits limits;
    CHECK(bwtree_limits_for_keys(2, 200, &limits) == BWTREE_OK && growths == 0);
    uint32_t status;
    for (refused = 1;; refused++) {
        growths = 0;
        status = bwtree_open(&limits, &tree);
        if (status == BWTREE_OK) break;
        CHECK(status == BWTREE_NO_MEMORY && held == 0 && !memcmp(&tree, &none, sizeof tree));
        CHECK(bwtree_is_idle(&tree, 0) == BWTREE_CLOSED);
    }
    CHECK(growths == refused - 1);
    call(&tree);
    CHECK(growths == refused - 1);
    CHECK(bwtree_close(&tree) == BWTREE_OK);
    size_t left = 176 + 40 * limits.actors;
    CHECK(held == left && bwtree_is_idle(&tree, 0) == BWTREE_CLOSED);
    /* each opening leaves as much */
    refused = 0;
    growths = 0;
    for (int i = 0; i < 5; i++) CHECK(bwtree_open(&limits, &tree) == BWTREE_OK && bwtree_close(&tree) == BWTREE_OK);
    CHECK(held == 6 * left);
    long of_one = growths / 5;
    /* an opening with pairs wants one growth more, for a copy of them, and leaves no more */
    const bwtree_pair pair = {{1, {'a'}}, {1, {'x'}}};
    for (refused = 1;; refused++) {
        growths = 0;
        status = bwtree_open_from(&limits, &pair, 1, &tree);
        if (status == BWTREE_OK) break;
        CHECK(status == BWTREE_NO_MEMORY && held == 6 * left && bwtree_is_idle(&tree, 0) == BWTREE_CLOSED);
    }
    CHECK(growths == of_one + 1);
    /* a closing with pairs wants a list of the seats, one of the pairs, and a place for both, and leaves no more; where one is refused, the tree stays open */
    bwtree_pair all[1];
    memset(all, 0, sizeof all);
    uint64_t count = 0;
    size_t open = held;
    for (refused = 1;; refused++) {
        growths = 0;
        status = bwtree_close_pairs(&tree, all, 1, &count);
        if (status == BWTREE_OK) break;
        CHECK(status == BWTREE_NO_MEMORY && held == open && count == 0 && bwtree_is_idle(&tree, 0) == BWTREE_OK);
    }
    CHECK(growths == 3 && count == 1 && held == 7 * left && all[0].key.length == 1 && all[0].key.bytes[0] == 'a' && all[0].value.bytes[0] == 'x');
    refused = 0;
    /* pairs that wait are held until they are handed over */
    CHECK(bwtree_open_from(&limits, &pair, 1, &tree) == BWTREE_OK && bwtree_close_pairs(&tree, all, 0, &count) == BWTREE_NO_ROOM);
    CHECK(held > 8 * left && bwtree_close_pairs(&tree, all, 1, &count) == BWTREE_OK && held == 8 * left);
    CHECK(bwtree_open_from(&limits, &pair, 1, &tree) == BWTREE_OK && bwtree_close_pairs(&tree, all, 0, &count) == BWTREE_NO_ROOM);
    CHECK(held > 9 * left && bwtree_close(&tree) == BWTREE_OK && held == 9 * left);
    /* of a closed tree no room is asked for */
    growths = 0;
    CHECK(bwtree_close_pairs(&tree, all, 1, &count) == BWTREE_CLOSED && growths == 0);
    printf("%ld growths of one opening refused, a closed tree leaves %lu bytes\n", of_one, (unsigned long)left);
    return 0;
}
