/* Tests of deletions by value, additions and pages backward, and of bwtree_walks.h: answers, drawn keys against a sorted list, and threads.
 *   test_walks [KEYS]: how many keys are drawn (1,500) */
#include "bwtree_walks.h"
#include <pthread.h>
#include <sched.h>
#include <stdio.h>
#include <stdlib.h>

#define CHECK(x) do { if (!(x)) { fprintf(stderr, "%s:%d: %s\n", __FILE__, __LINE__, #x); exit(1); } } while (0)
#define THREADS 4

static int keys = 1500;
/* A handle for each opening, so that what it left stays in sight of a leak checker. */
static bwtree trees[3];
static const bwtree *tree = trees;
static bwtree_bytes old;
static bwtree_pair pair;
static bwtree_page_pairs page;
static uint8_t greatest[BWTREE_MAX_LENGTH];

static int is(const bwtree_bytes *bytes, const char *text) { return bytes->length == strlen(text) && !memcmp(bytes->bytes, text, bytes->length); }

static int is_number(const bwtree_bytes *bytes, uint64_t wanted) {
    size_t at = 0;
    uint64_t number;
    return bytes->length == 8 && bwtree_read_u64(bytes, &at, &number) && number == wanted;
}

static void open_for(int at, uint64_t seats, uint64_t most) {
    bwtree_limits limits;
    CHECK(bwtree_limits_for_keys(seats, most, &limits) == BWTREE_OK && bwtree_open(&limits, &trees[at]) == BWTREE_OK);
    tree = &trees[at];
}

static void deletions(void) {
    CHECK(bwtree_delete_if(tree, 0, "a", 1, "x", 1, &old) == BWTREE_ABSENT);
    CHECK(bwtree_insert(tree, 0, "a", 1, "x", 1, &old) == BWTREE_OK);
    CHECK(bwtree_delete_if(tree, 1, "a", 1, "y", 1, &old) == BWTREE_DIFFERS && is(&old, "x"));
    CHECK(bwtree_delete_if(tree, 1, "a", 1, "", 0, &old) == BWTREE_DIFFERS && bwtree_get(tree, 0, "a", 1, &old) == BWTREE_OK && is(&old, "x"));
    old.length = 9;
    CHECK(bwtree_delete_if(tree, 1, "a", 1, "x", 1, &old) == BWTREE_OK && is(&old, "x"));
    CHECK(bwtree_get(tree, 0, "a", 1, &old) == BWTREE_ABSENT);
    CHECK(bwtree_delete_if(tree, 0, greatest, 64, greatest, 65, &old) == BWTREE_TOO_LONG);
    CHECK(bwtree_delete_if(tree, 0, greatest, 65, "", 0, &old) == BWTREE_TOO_LONG);
    CHECK(bwtree_insert(tree, 0, NULL, 0, NULL, 0, &old) == BWTREE_OK && bwtree_delete_if(tree, 0, NULL, 0, NULL, 0, &old) == BWTREE_OK && old.length == 0);
    CHECK(bwtree_delete_if(NULL, 0, "a", 1, "x", 1, &old) == BWTREE_NULL && bwtree_delete_if(tree, 0, NULL, 1, "x", 1, &old) == BWTREE_NULL);
    CHECK(bwtree_delete_if(tree, 0, "a", 1, NULL, 1, &old) == BWTREE_NULL && bwtree_delete_if(tree, 0, "a", 1, "x", 1, NULL) == BWTREE_NULL);
    CHECK(bwtree_delete_if(tree, 2, "a", 1, "x", 1, &old) == BWTREE_NO_SEAT);
}

static void additions(void) {
    CHECK(bwtree_add(tree, 0, "n", 1, 0x0102030405060708, &old) == BWTREE_OK);
    CHECK(bwtree_get(tree, 1, "n", 1, &old) == BWTREE_OK && is(&old, "\1\2\3\4\5\6\7\10"));
    CHECK(bwtree_add(tree, 1, "n", 1, 0xf8, &old) == BWTREE_REPLACED && is_number(&old, 0x0102030405060708));
    CHECK(bwtree_add(tree, 1, "n", 1, 0, &old) == BWTREE_REPLACED && is_number(&old, 0x0102030405060800));
    CHECK(bwtree_add(tree, 0, "n", 1, UINT64_MAX, &old) == BWTREE_REPLACED);
    CHECK(bwtree_get(tree, 1, "n", 1, &old) == BWTREE_OK && is_number(&old, 0x01020304050607ff));
    CHECK(bwtree_upsert(tree, 0, "n", 1, "1234567", 7, &old) == BWTREE_REPLACED);
    CHECK(bwtree_add(tree, 0, "n", 1, 1, &old) == BWTREE_DIFFERS && is(&old, "1234567"));
    CHECK(bwtree_delete(tree, 0, "n", 1, &old) == BWTREE_OK && is(&old, "1234567"));
    CHECK(bwtree_add(tree, 0, greatest, 65, 1, &old) == BWTREE_TOO_LONG && bwtree_add(tree, 2, "n", 1, 1, &old) == BWTREE_NO_SEAT);
    CHECK(bwtree_add(NULL, 0, "n", 1, 1, &old) == BWTREE_NULL && bwtree_add(tree, 0, NULL, 1, 1, &old) == BWTREE_NULL);
    CHECK(bwtree_add(tree, 0, "n", 1, 1, NULL) == BWTREE_NULL);
}

static void replacements(void) {
    CHECK(bwtree_replace(tree, 0, "r", 1, "x", 1, &old) == BWTREE_ABSENT && bwtree_get(tree, 0, "r", 1, &old) == BWTREE_ABSENT);
    CHECK(bwtree_insert(tree, 0, "r", 1, "x", 1, &old) == BWTREE_OK && bwtree_replace(tree, 1, "r", 1, "y", 1, &old) == BWTREE_REPLACED && is(&old, "x"));
    CHECK(bwtree_replace(tree, 1, "r", 1, greatest, 65, &old) == BWTREE_TOO_LONG && bwtree_replace(tree, 1, greatest, 65, "", 0, &old) == BWTREE_TOO_LONG);
    CHECK(bwtree_replace(tree, 1, NULL, 1, "", 0, &old) == BWTREE_NULL && bwtree_replace(tree, 2, "r", 1, "", 0, &old) == BWTREE_NO_SEAT);
    CHECK(bwtree_delete(tree, 0, "r", 1, &old) == BWTREE_OK && is(&old, "y"));
}

static void empty_tree(void) {
    static bwtree_walk walk;
    const bwtree_range all = {{0, {0}}, {0, {0}}, 0};
    CHECK(bwtree_back(tree, 0, "a", 1, &page) == BWTREE_OK && page.count == 0 && page.more == 0);
    CHECK(bwtree_back(tree, 0, greatest, 65, &page) == BWTREE_TOO_LONG && bwtree_back(tree, 2, "a", 1, &page) == BWTREE_NO_SEAT);
    CHECK(bwtree_back(NULL, 0, "a", 1, &page) == BWTREE_NULL && bwtree_back(tree, 0, NULL, 1, &page) == BWTREE_NULL);
    CHECK(bwtree_back(tree, 0, "a", 1, NULL) == BWTREE_NULL);
    CHECK(bwtree_first(tree, 0, &pair) == BWTREE_ABSENT && bwtree_last(tree, 0, &pair) == BWTREE_ABSENT);
    CHECK(bwtree_floor(tree, 0, "a", 1, &pair) == BWTREE_ABSENT && bwtree_lower(tree, 0, "", 0, &pair) == BWTREE_ABSENT);
    CHECK(bwtree_higher(tree, 0, greatest, 64, &pair) == BWTREE_ABSENT && bwtree_ceiling(tree, 0, greatest, 65, &pair) == BWTREE_TOO_LONG);
    CHECK(bwtree_floor(tree, 0, NULL, 1, &pair) == BWTREE_NULL && bwtree_lower(tree, 0, "a", 1, NULL) == BWTREE_NULL);
    CHECK(bwtree_higher(tree, 2, "a", 1, &pair) == BWTREE_NO_SEAT && bwtree_last(tree, 2, &pair) == BWTREE_NO_SEAT);
    for (int backward = 0; backward < 2; backward++) {
        CHECK(bwtree_walk_begin(&walk, &all, backward) == BWTREE_OK && bwtree_walk_next(tree, 0, &walk, &pair) == BWTREE_ABSENT);
        CHECK(bwtree_walk_next(tree, 0, &walk, &pair) == BWTREE_ABSENT);
        CHECK(bwtree_walk_begin(&walk, &all, backward) == BWTREE_OK && bwtree_walk_next(tree, 2, &walk, &pair) == BWTREE_NO_SEAT);
        CHECK(bwtree_walk_next(tree, 0, &walk, &pair) == BWTREE_ABSENT);
    }
}

/* ---- Drawn keys against a sorted list ---- */

static uint64_t state = 7;

static uint64_t next_draw(uint64_t *from) {
    uint64_t z = (*from += 0x9e3779b97f4a7c15u);
    z = (z ^ z >> 30) * 0xbf58476d1ce4e5b9u;
    z = (z ^ z >> 27) * 0x94d049bb133111ebu;
    return z ^ z >> 31;
}

static uint64_t drawn(void) { return next_draw(&state); }

/* Keys of few different bytes, the least and the greatest ones among them, so that many are next to each other or begin alike. */
static bwtree_bytes drawn_key(void) {
    bwtree_bytes key = {0, {0}};
    key.length = drawn() % 8 == 0 ? 60 + drawn() % 5 : drawn() % 7;
    for (uint64_t i = 0; i < key.length; i++) key.bytes[i] = key.length > 50 && i < 55 ? 255 : (uint8_t)"\0\1a\376\377"[drawn() % 5];
    return key;
}

static int by_key(const void *one, const void *other) { return bwtree_compare_keys((const bwtree_bytes *)one, (const bwtree_bytes *)other); }

/* How many of the sorted keys are below a key. */
static int below(const bwtree_bytes *sorted, int count, const bwtree_bytes *key) {
    int n = 0;
    while (n < count && by_key(&sorted[n], key) < 0) n++;
    return n;
}

static int shows(uint32_t status, const bwtree_bytes *sorted, int count, int wanted) {
    if (wanted < 0 || wanted >= count) return status == BWTREE_ABSENT;
    return status == BWTREE_OK && by_key(&pair.key, &sorted[wanted]) == 0 && by_key(&pair.value, &sorted[wanted]) == 0;
}

static void neighbours(const bwtree_bytes *sorted, int count, const bwtree_bytes *key) {
    int at = below(sorted, count, key), there = at < count && by_key(&sorted[at], key) == 0;
    CHECK(shows(bwtree_ceiling(tree, 0, key->bytes, key->length, &pair), sorted, count, at));
    CHECK(shows(bwtree_higher(tree, 0, key->bytes, key->length, &pair), sorted, count, at + there));
    CHECK(shows(bwtree_lower(tree, 0, key->bytes, key->length, &pair), sorted, count, at - 1));
    CHECK(shows(bwtree_floor(tree, 0, key->bytes, key->length, &pair), sorted, count, there ? at : at - 1));
}

/* A walk over a range, in both directions, shows the keys from one place on to another. */
static void walks(const bwtree_bytes *sorted, int count, const bwtree_range *range, int from, int to) {
    static bwtree_walk walk;
    for (int backward = 0; backward < 2; backward++) {
        int shown = 0, most = to > from ? to - from : 0;
        uint32_t status;
        CHECK(bwtree_walk_begin(&walk, range, backward) == BWTREE_OK);
        while ((status = bwtree_walk_next(tree, 0, &walk, &pair)) == BWTREE_OK) {
            CHECK(shown < most && shows(BWTREE_OK, sorted, count, backward ? to - 1 - shown : from + shown));
            shown++;
        }
        CHECK(status == BWTREE_ABSENT && shown == most && bwtree_walk_next(tree, 0, &walk, &pair) == BWTREE_ABSENT);
    }
}

static void prefixes(const bwtree_bytes *sorted, int count, const bwtree_bytes *prefix) {
    bwtree_range range;
    int from = below(sorted, count, prefix), to = from;
    while (to < count && sorted[to].length >= prefix->length && !memcmp(sorted[to].bytes, prefix->bytes, prefix->length)) to++;
    CHECK(bwtree_prefix(prefix->bytes, prefix->length, &range) == BWTREE_OK);
    walks(sorted, count, &range, from, to);
}

/* The pages backward, one after another, have all pairs, and each goes on at the greatest key below what it has shown. */
static void pages(const bwtree_bytes *sorted, int count) {
    bwtree_bytes at = {BWTREE_MAX_LENGTH, {0}}, upto;
    int left = count;
    memcpy(at.bytes, greatest, BWTREE_MAX_LENGTH);
    for (;;) {
        upto = at;
        CHECK(bwtree_back(tree, 0, upto.bytes, upto.length, &page) == BWTREE_OK && page.count <= BWTREE_PAGE_PAIRS && page.count <= (uint64_t)left);
        left -= (int)page.count;
        for (uint64_t i = 0; i < page.count; i++) CHECK(by_key(&page.pairs[i].key, &sorted[left + (int)i]) == 0 && by_key(&page.pairs[i].key, &upto) <= 0);
        at = page.next;
        if (!page.more) break;
        CHECK(by_key(&at, &upto) < 0 && (left == 0 || by_key(&sorted[left - 1], &at) <= 0));
        CHECK(page.count == 0 || by_key(&at, &page.pairs[0].key) < 0);
    }
    CHECK(left == 0);
}

static void drawn_keys(void) {
    bwtree_bytes *sorted = (bwtree_bytes *)calloc((size_t)keys, sizeof *sorted);
    bwtree_range range;
    int count = 0;
    CHECK(sorted);
    for (int i = 0; i < keys; i++) {
        bwtree_bytes key = drawn_key();
        uint32_t status = bwtree_insert(tree, 0, key.bytes, key.length, key.bytes, key.length, &old);
        CHECK(status == BWTREE_OK || status == BWTREE_EXISTS);
        if (status == BWTREE_OK) sorted[count++] = key;
    }
    qsort(sorted, (size_t)count, sizeof *sorted, by_key);
    CHECK(shows(bwtree_first(tree, 0, &pair), sorted, count, 0) && shows(bwtree_last(tree, 0, &pair), sorted, count, count - 1));
    pages(sorted, count);
    CHECK(bwtree_between(NULL, 0, NULL, 0, &range) == BWTREE_OK);
    walks(sorted, count, &range, 0, count);
    for (int i = 0; i < keys / 3; i++) {
        bwtree_bytes one = drawn_key(), other = drawn_key();
        neighbours(sorted, count, i < count ? &sorted[i] : &one);
        neighbours(sorted, count, &one);
        prefixes(sorted, count, &one);
        CHECK(bwtree_between(one.bytes, one.length, other.bytes, other.length, &range) == BWTREE_OK);
        walks(sorted, count, &range, below(sorted, count, &one), below(sorted, count, &other));
    }
    CHECK(bwtree_between("a", 1, "", 0, &range) == BWTREE_OK);
    walks(sorted, count, &range, 0, 0);
    CHECK(bwtree_between(greatest, 65, NULL, 0, &range) == BWTREE_TOO_LONG && bwtree_between(NULL, 1, NULL, 0, &range) == BWTREE_NULL);
    free(sorted);
}

/* ---- Threads: a write that is FULL for a moment is made again ---- */

static bwtree_count total;
static int finished;

static void *add_and_delete(void *number) {
    uint32_t seat = (uint32_t)(uintptr_t)number;
    uint8_t key[3] = {'k', 0, (uint8_t)seat};
    uint64_t draws = seat;
    for (int i = 0; i < keys; i++) {
        bwtree_bytes found;
        uint32_t status;
        while ((status = bwtree_add(tree, seat, "sum", 3, (uint64_t)i, &found)) == BWTREE_FULL) sched_yield();
        CHECK(status == BWTREE_OK || status == BWTREE_REPLACED);
        bwtree_count_set(&total, seat, status);
        key[1] = (uint8_t)(i % 100);
        while ((status = bwtree_insert(tree, seat, key, 3, key, 2, &found)) == BWTREE_FULL) sched_yield();
        CHECK(status == BWTREE_OK || status == BWTREE_EXISTS);
        bwtree_count_set(&total, seat, status);
        key[1] = (uint8_t)(next_draw(&draws) % 100);
        while ((status = bwtree_delete_if(tree, seat, key, 3, key, 2, &found)) == BWTREE_FULL) sched_yield();
        CHECK(status == BWTREE_OK || status == BWTREE_ABSENT);
        bwtree_count_deleted(&total, seat, status);
    }
    return NULL;
}

/* Walks backward show each key that is there throughout, in falling order, whatever others insert and delete. */
static void *walk_back(void *number) {
    uint32_t seat = (uint32_t)(uintptr_t)number;
    const bwtree_range all = {{0, {0}}, {0, {0}}, 0};
    bwtree_walk *walk = (bwtree_walk *)malloc(sizeof *walk);
    CHECK(walk);
    while (!__atomic_load_n(&finished, __ATOMIC_SEQ_CST)) {
        int fixed = 0;
        bwtree_pair last, next;
        CHECK(bwtree_walk_begin(walk, &all, 1) == BWTREE_OK);
        last.key.length = 64;
        memcpy(last.key.bytes, greatest, 64);
        while (bwtree_walk_next(tree, seat, walk, &next) == BWTREE_OK) {
            CHECK(by_key(&next.key, &last.key) < 0);
            fixed += is(&next.value, "stays");
            last = next;
        }
        CHECK(fixed == 100);
    }
    free(walk);
    return NULL;
}

static void threads(void) {
    pthread_t writers[THREADS], walker;
    bwtree_pair next;
    static bwtree_walk walk;
    const bwtree_range all = {{0, {0}}, {0, {0}}, 0};
    uint64_t shown = 0;
    for (int i = 0; i < 100; i++) {
        uint8_t key[3] = {'k', (uint8_t)i, 'x'};
        CHECK(bwtree_insert(tree, 0, key, 3, "stays", 5, &old) == BWTREE_OK);
    }
    bwtree_count_more(&total, 0, 100);
    CHECK(pthread_create(&walker, NULL, walk_back, (void *)(uintptr_t)THREADS) == 0);
    for (uintptr_t i = 0; i < THREADS; i++) CHECK(pthread_create(&writers[i], NULL, add_and_delete, (void *)i) == 0);
    for (int i = 0; i < THREADS; i++) CHECK(pthread_join(writers[i], NULL) == 0);
    __atomic_store_n(&finished, 1, __ATOMIC_SEQ_CST);
    CHECK(pthread_join(walker, NULL) == 0);
    CHECK(bwtree_get(tree, 0, "sum", 3, &old) == BWTREE_OK && is_number(&old, (uint64_t)THREADS * (uint64_t)keys * (uint64_t)(keys - 1) / 2));
    CHECK(bwtree_walk_begin(&walk, &all, 0) == BWTREE_OK);
    while (bwtree_walk_next(tree, 0, &walk, &next) == BWTREE_OK) shown++;
    CHECK(shown == bwtree_counted(&total));
}

int main(int count, char **words) {
    if (count > 1) keys = atoi(words[1]);
    memset(greatest, 255, sizeof greatest);
    CHECK(bwtree_back(tree, 0, "", 0, &page) == BWTREE_CLOSED && bwtree_add(tree, 0, "", 0, 1, &old) == BWTREE_CLOSED);
    CHECK(bwtree_delete_if(tree, 0, "", 0, "", 0, &old) == BWTREE_CLOSED && bwtree_last(tree, 0, &pair) == BWTREE_CLOSED);
    open_for(0, 2, 100);
    deletions();
    additions();
    replacements();
    empty_tree();
    CHECK(bwtree_close(tree) == BWTREE_OK);
    open_for(1, 1, 4000);
    drawn_keys();
    CHECK(bwtree_close(tree) == BWTREE_OK);
    open_for(2, THREADS + 1, 2000);
    threads();
    CHECK(bwtree_close(tree) == BWTREE_OK);
    puts("passed");
    return 0;
}
