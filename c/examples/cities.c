/* One thread sets values on a seat. When it has ended, another one goes on with that seat: it looks a key up, and walks the pairs in order. */
#include "bwtree.h"
#include <pthread.h>
#include <stdio.h>
#include <string.h>

static const char *const PAIRS[][2] = {{"Bern", "Switzerland"}, {"Vienna", "Austria"}, {"Paris", "France"}, {"Oslo", "Norway"}};

static bwtree tree;
static const uint32_t seat = 1;

static void *set_all(void *unused) {
    bwtree_bytes old;
    (void)unused;
    for (size_t i = 0; i < sizeof PAIRS / sizeof *PAIRS; i++) {
        uint32_t status = bwtree_upsert(&tree, seat, PAIRS[i][0], strlen(PAIRS[i][0]), PAIRS[i][1], strlen(PAIRS[i][1]), &old);
        if (status != BWTREE_OK) fprintf(stderr, "%s: %s\n", PAIRS[i][0], bwtree_text(status));
    }
    return NULL;
}

int main(void) {
    bwtree_limits limits;
    uint32_t status = bwtree_limits_for_keys(2, 100, &limits);
    if (status == BWTREE_OK) status = bwtree_open(&limits, &tree);
    if (status != BWTREE_OK) {
        fprintf(stderr, "not opened: %s\n", bwtree_text(status));
        return 1;
    }
    pthread_t thread;
    if (pthread_create(&thread, NULL, set_all, NULL) != 0) return 1;
    pthread_join(thread, NULL);

    bwtree_bytes value;
    if (bwtree_get(&tree, seat, "Bern", 4, &value) == BWTREE_OK) printf("Bern: %.*s\n", (int)value.length, (char *)value.bytes);

    static bwtree_page_pairs page;
    bwtree_bytes from = {0, {0}};
    do {
        if (bwtree_page(&tree, seat, from.bytes, from.length, &page) != BWTREE_OK) return 1;
        for (uint64_t i = 0; i < page.count; i++) {
            const bwtree_pair *pair = &page.pairs[i];
            printf("%.*s, %.*s\n", (int)pair->key.length, (const char *)pair->key.bytes, (int)pair->value.length, (const char *)pair->value.bytes);
        }
        from = page.next;
    } while (page.more);
    return bwtree_close(&tree) == BWTREE_OK ? 0 : 1;
}
