/* A tree runs full: it is closed with its pairs, and a larger one is opened with them. */
#include "bwtree.h"
#include <stdio.h>
#include <stdlib.h>

/* Closes a tree with its pairs, which the caller frees. Null where it isn't closed, or there is no memory. */
static bwtree_pair *close_with_pairs(const bwtree *tree, uint64_t *count) {
    /* how many there are is known once the tree is closed */
    uint32_t status = bwtree_close_pairs(tree, NULL, 0, count);
    bwtree_pair *pairs = status <= BWTREE_NO_ROOM ? malloc((*count + 1) * sizeof *pairs) : NULL;
    if (pairs && status == BWTREE_NO_ROOM && bwtree_close_pairs(tree, pairs, *count, count) != BWTREE_OK) {
        free(pairs);
        return NULL;
    }
    return pairs;
}

int main(void) {
    static bwtree small, large;
    bwtree_limits limits = {1, 64, 64, 1, 0};
    bwtree_bytes old;
    if (bwtree_open(&limits, &small) != BWTREE_OK) return 1;
    uint32_t status = BWTREE_OK;
    char key[16];
    int count = 0, length = 0;
    while (status == BWTREE_OK && count < 10000) {
        length = snprintf(key, sizeof key, "%05d", count);
        status = bwtree_insert(&small, 0, key, (size_t)length, "", 0, &old);
        if (status == BWTREE_OK) count++;
    }
    printf("a key more: %s\n", bwtree_text(status));

    uint64_t moved = 0;
    bwtree_pair *pairs = close_with_pairs(&small, &moved);
    if (!pairs || moved != (uint64_t)count || bwtree_limits_for_keys(1, 10000, &limits) != BWTREE_OK) return 1;
    printf("the pairs move: %s\n", bwtree_text(bwtree_open_from(&limits, pairs, moved, &large)));
    free(pairs);
    printf("that key: %s\n", bwtree_text(bwtree_insert(&large, 0, key, (size_t)length, "", 0, &old)));
    int found = 0;
    for (int i = 0; i <= count; i++) {
        length = snprintf(key, sizeof key, "%05d", i);
        found += bwtree_get(&large, 0, key, (size_t)length, &old) == BWTREE_OK;
    }
    printf("keys missing: %d\n", count + 1 - found);
    return bwtree_close(&large) == BWTREE_OK ? 0 : 1;
}
