/* Tests of the library: what each call answers, misuse, a tree that is closed while calls run, and four threads against models of their own.
 *   test_bwtree [OPERATIONS]: how many each thread makes (10,000) */
#include "bwtree.h"
#include <pthread.h>
#include <sched.h>
#include <stdio.h>
#include <stdlib.h>
#include <string.h>

#define CHECK(x) do { if (!(x)) { fprintf(stderr, "%s:%d: %s\n", __FILE__, __LINE__, #x); exit(1); } } while (0)
#define THREADS 4
#define KEYS 400
#define STACK (512 * 1024)

/* A sanitizer's own records want room on a thread's stack, too. */
#if defined(__SANITIZE_ADDRESS__) || defined(__SANITIZE_THREAD__)
#define SANITIZED 1
#elif defined(__has_feature)
#if __has_feature(address_sanitizer) || __has_feature(thread_sanitizer)
#define SANITIZED 1
#endif
#endif

static int operations = 10000;
static char long_text[65];
static bwtree_page_pairs page;

static int is(const bwtree_bytes *bytes, const char *text) { return bytes->length == strlen(text) && !memcmp(bytes->bytes, text, bytes->length); }

/* A thread with as much stack as the library wants. */
static pthread_t begun(void *(*run)(void *), void *argument) {
    pthread_t thread;
    pthread_attr_t attributes;
    CHECK(pthread_attr_init(&attributes) == 0);
#ifndef SANITIZED
    CHECK(pthread_attr_setstacksize(&attributes, STACK) == 0);
#endif
    CHECK(pthread_create(&thread, &attributes, run, argument) == 0 && pthread_attr_destroy(&attributes) == 0);
    return thread;
}

static void layout(void) {
    CHECK(sizeof(bwtree) == 16 && sizeof(bwtree_limits) == 72 && sizeof(bwtree_room) == 16);
    CHECK(sizeof(bwtree_bytes) == 72 && sizeof(bwtree_pair) == 144 && sizeof(bwtree_page_pairs) == 8 + 8 + 72 + 24 * 144);
}

/* The library is of the header's version, and goes with the versions that it has nothing less than. */
static void version(void) {
    static const char *const others[] = {"0.1.1", "0.2.99", "0.3.0", "1.2.0", "", "0", "0.2", "0.2.", "0.2.0.", "0.2.0.0", " 0.2.0", "0.2.0 ", "0..0", "0.2.00000", "-0.2.0", "0x0.2.0"};
    CHECK(!strcmp(bwtree_version(), BWTREE_VERSION) && bwtree_goes_with(BWTREE_VERSION) == 1 && bwtree_goes_with("0.2.0") == 1);
    CHECK(bwtree_goes_with(NULL) == 0);
    for (size_t i = 0; i < sizeof others / sizeof *others; i++) CHECK(bwtree_goes_with(others[i]) == 0);
}

/* All calls on a seat that isn't to be had answer this, and write nothing. */
static void all_answer(const bwtree *tree, uint32_t seat, uint32_t status) {
    bwtree_bytes old, was;
    bwtree_room room = {7, 7};
    memset(&old, 0x55, sizeof old);
    memset(&page, 0x55, sizeof page);
    was = old;
    CHECK(bwtree_get(tree, seat, "a", 1, &old) == status);
    CHECK(bwtree_insert(tree, seat, "a", 1, "x", 1, &old) == status);
    CHECK(bwtree_upsert(tree, seat, "a", 1, "x", 1, &old) == status);
    CHECK(bwtree_get_within(tree, seat, 9, "a", 1, &old) == status && bwtree_upsert_within(tree, seat, 9, "a", 1, "x", 1, &old) == status);
    CHECK(bwtree_delete(tree, seat, "a", 1, &old) == status);
    CHECK(bwtree_delete_if(tree, seat, "a", 1, "x", 1, &old) == status);
    CHECK(bwtree_compare_and_set(tree, seat, "a", 1, "x", 1, "y", 1, &old) == status);
    CHECK(bwtree_add(tree, seat, "a", 1, 1, &old) == status);
    CHECK(bwtree_tidy(tree, seat, "a", 1) == status);
    CHECK(bwtree_page(tree, seat, "", 0, &page) == status);
    CHECK(bwtree_back(tree, seat, "", 0, &page) == status);
    CHECK(bwtree_resume(tree, seat, 1, &old, &page) == status);
    CHECK(bwtree_is_idle(tree, seat) == status);
    CHECK(bwtree_free_room(tree, seat, &room) == status);
    CHECK(!memcmp(&old, &was, sizeof old) && room.free_pages == 7 && room.free_records == 7);
    for (size_t i = 0; i < sizeof page; i++) CHECK(((uint8_t *)&page)[i] == 0x55);
}

static void limits(void) {
    static bwtree tree, of_pairs;
    bwtree_limits limits = {1, 2, 3, 4, 5};
    CHECK(bwtree_limits_for_keys(0, 1, &limits) == BWTREE_BAD_LIMITS);
    CHECK(bwtree_limits_for_keys(17, 1, &limits) == BWTREE_BAD_LIMITS);
    CHECK(bwtree_limits_for_keys(1, 1000000000, &limits) == BWTREE_BAD_LIMITS);
    CHECK(limits.actors == 1 && limits.pages == 2 && limits.records == 3 && limits.epoch == 4 && limits.large == 5);
    CHECK(bwtree_limits_for_keys(3, 1000, &limits) == BWTREE_OK && limits.actors == 3 && limits.epoch == 1);
    CHECK(limits.pages % 64 == 0 && limits.pages >= 64 && limits.records % 64 == 0 && limits.records >= 64);
    CHECK(limits.large == 0 && bwtree_limits_for_many_keys(64, 1, &limits) == BWTREE_BAD_LIMITS);
    CHECK(bwtree_limits_for_many_keys(2, 1000000000, &limits) == BWTREE_BAD_LIMITS && limits.actors == 3);
    CHECK(bwtree_limits_for_many_keys(2, 1000, &limits) == BWTREE_OK && limits.actors == 2 && limits.large == 2);
    CHECK(limits.narrow_records % 64 == 0 && limits.wide_from > limits.narrow_records && limits.records > limits.wide_from);
    CHECK(limits.narrow_words == 24 && limits.page_words == 344 && bwtree_open(&limits, &tree) == BWTREE_OK && bwtree_close(&tree) == BWTREE_OK);
    /* by the lengths of pairs; longer ones are taken, too */
    CHECK(bwtree_limits_for_pairs(1, 1000, 16, 8, NULL) == BWTREE_NULL && bwtree_limits_for_pairs(1, 1000, 65, 8, &limits) == BWTREE_BAD_LIMITS);
    CHECK(bwtree_limits_for_pairs(1, 1000, 16, 65, &limits) == BWTREE_BAD_LIMITS && bwtree_limits_for_pairs(0, 1000, 16, 8, &limits) == BWTREE_BAD_LIMITS);
    CHECK(limits.page_words == 344 && bwtree_limits_for_pairs(1, 1000, 16, 8, &limits) == BWTREE_OK && limits.large == 2);
    CHECK(limits.narrow_words == 8 && limits.page_words == 88 && bwtree_open(&limits, &of_pairs) == BWTREE_OK);
    for (int i = 0; i < 1000; i++) {
        bwtree_bytes old;
        char key[64] = {0};
        int length = i % 100 ? 16 : 64;
        snprintf(key, sizeof key, "%016d", i);
        CHECK(bwtree_insert(&of_pairs, 0, key, (size_t)length, key, (size_t)length / 2, &old) == BWTREE_OK);
    }
    for (int i = 0; i < 1000; i++) {
        bwtree_bytes value;
        char key[64] = {0};
        size_t length = i % 100 ? 16 : 64;
        snprintf(key, sizeof key, "%016d", i);
        CHECK(bwtree_get(&of_pairs, 0, key, length, &value) == BWTREE_OK && value.length == length / 2 && !memcmp(value.bytes, key, length / 2));
    }
    CHECK(bwtree_close(&of_pairs) == BWTREE_OK);
    /* widths that aren't */
    for (int i = 0; i < 8; i++) {
        bwtree_limits wrong = limits;
        *(uint64_t *[]){&wrong.narrow_records, &wrong.wide_from, &wrong.wide_from, &wrong.narrow_words, &wrong.narrow_words, &wrong.page_words, &wrong.page_words,
                        &wrong.large}[i] = (uint64_t[]){1, 0, limits.records, 7, 96, 16, 513, 3}[i];
        CHECK(bwtree_open(&wrong, &of_pairs) == BWTREE_BAD_LIMITS);
    }
    static const bwtree_limits bad[] = {{0, 64, 64, 1, 0},   {17, 64, 64, 1, 0},    {1, 0, 64, 1, 0},  {1, 65, 64, 1, 0},
                                        {1, 4160, 64, 1, 0}, {1, 64, 16448, 1, 0},  {1, 64, 63, 1, 0}, {1, 64, 64, 0, 0},
                                        {1, 64, 0, 1, 0},    {1, 64, 64, UINT64_MAX, 0}, {UINT64_MAX, 64, 64, 1, 0}, {1, 64, 64, 1, 2},
                                        {1, 4194368, 64, 1, 1}, {1, 64, 67108928, 1, 1}, {1, 4160, 63, 1, 1}, {64, 64, 64, 1, 1}};
    for (size_t i = 0; i < sizeof bad / sizeof *bad; i++) CHECK(bwtree_open(&bad[i], &tree) == BWTREE_BAD_LIMITS);
    all_answer(&tree, 0, BWTREE_CLOSED);
    CHECK(bwtree_close(&tree) == BWTREE_CLOSED);
}

static void nulls(const bwtree *tree) {
    bwtree_limits limits = {1, 64, 64, 1, 0};
    bwtree_bytes old;
    bwtree_room room;
    CHECK(bwtree_limits_for_many_keys(1, 1, NULL) == BWTREE_NULL);
    CHECK(bwtree_limits_for_keys(1, 1, NULL) == BWTREE_NULL && bwtree_open(NULL, NULL) == BWTREE_NULL && bwtree_open(&limits, NULL) == BWTREE_NULL);
    CHECK(bwtree_close(NULL) == BWTREE_NULL);
    all_answer(NULL, 0, BWTREE_NULL);
    CHECK(bwtree_get(tree, 0, NULL, 1, &old) == BWTREE_NULL && bwtree_get(tree, 0, "a", 1, NULL) == BWTREE_NULL);
    CHECK(bwtree_insert(tree, 0, NULL, 1, "x", 1, &old) == BWTREE_NULL && bwtree_insert(tree, 0, "a", 1, NULL, 1, &old) == BWTREE_NULL);
    CHECK(bwtree_insert(tree, 0, "a", 1, "x", 1, NULL) == BWTREE_NULL);
    CHECK(bwtree_upsert(tree, 0, NULL, 1, "x", 1, &old) == BWTREE_NULL && bwtree_upsert(tree, 0, "a", 1, NULL, 1, &old) == BWTREE_NULL);
    CHECK(bwtree_upsert(tree, 0, "a", 1, "x", 1, NULL) == BWTREE_NULL);
    CHECK(bwtree_get_within(tree, 0, 9, NULL, 1, &old) == BWTREE_NULL && bwtree_get_within(tree, 0, 9, "a", 1, NULL) == BWTREE_NULL);
    CHECK(bwtree_upsert_within(tree, 0, 9, NULL, 1, "x", 1, &old) == BWTREE_NULL && bwtree_upsert_within(tree, 0, 9, "a", 1, NULL, 1, &old) == BWTREE_NULL);
    CHECK(bwtree_upsert_within(tree, 0, 9, "a", 1, "x", 1, NULL) == BWTREE_NULL);
    CHECK(bwtree_delete(tree, 0, NULL, 1, &old) == BWTREE_NULL && bwtree_delete(tree, 0, "a", 1, NULL) == BWTREE_NULL);
    CHECK(bwtree_compare_and_set(tree, 0, NULL, 1, "x", 1, "y", 1, &old) == BWTREE_NULL && bwtree_compare_and_set(tree, 0, "a", 1, NULL, 1, "y", 1, &old) == BWTREE_NULL);
    CHECK(bwtree_compare_and_set(tree, 0, "a", 1, "x", 1, NULL, 1, &old) == BWTREE_NULL && bwtree_compare_and_set(tree, 0, "a", 1, "x", 1, "y", 1, NULL) == BWTREE_NULL);
    CHECK(bwtree_tidy(tree, 0, NULL, 1) == BWTREE_NULL && bwtree_page(tree, 0, NULL, 1, &page) == BWTREE_NULL);
    CHECK(bwtree_page(tree, 0, "", 0, NULL) == BWTREE_NULL && bwtree_resume(tree, 0, 1, NULL, &page) == BWTREE_NULL);
    CHECK(bwtree_resume(tree, 0, 1, &old, NULL) == BWTREE_NULL && bwtree_free_room(tree, 0, NULL) == BWTREE_NULL);
    CHECK(bwtree_free_room(tree, 0, &room) == BWTREE_OK);
    /* null for no bytes is the empty key, and the empty value */
    CHECK(bwtree_insert(tree, 0, NULL, 0, NULL, 0, &old) == BWTREE_OK && bwtree_get(tree, 0, NULL, 0, &old) == BWTREE_OK && old.length == 0);
    CHECK(bwtree_compare_and_set(tree, 0, NULL, 0, NULL, 0, "x", 1, &old) == BWTREE_OK && bwtree_page(tree, 0, NULL, 0, &page) == BWTREE_OK && page.count == 1);
    CHECK(bwtree_tidy(tree, 0, NULL, 0) == BWTREE_OK && bwtree_delete(tree, 0, NULL, 0, &old) == BWTREE_OK && is(&old, "x"));
}

static void lengths(const bwtree *tree) {
    bwtree_bytes old = {0, {0}};
    CHECK(bwtree_upsert(tree, 0, long_text, 64, long_text, 64, &old) == BWTREE_OK);
    CHECK(bwtree_get(tree, 0, long_text, 64, &old) == BWTREE_OK && old.length == 64 && !memcmp(old.bytes, long_text, 64));
    CHECK(bwtree_page(tree, 0, long_text, 64, &page) == BWTREE_OK && page.count == 1 && page.more == 0 && page.pairs[0].key.length == 64);
    CHECK(bwtree_delete(tree, 0, long_text, 64, &old) == BWTREE_OK && old.length == 64);
    old.length = 3;
    CHECK(bwtree_get(tree, 0, long_text, 65, &old) == BWTREE_TOO_LONG && bwtree_get_within(tree, 0, 9, long_text, 65, &old) == BWTREE_TOO_LONG);
    CHECK(bwtree_upsert_within(tree, 0, 9, "a", 1, long_text, 65, &old) == BWTREE_TOO_LONG);
    CHECK(bwtree_insert(tree, 0, long_text, 65, "", 0, &old) == BWTREE_TOO_LONG && bwtree_insert(tree, 0, "a", 1, long_text, 65, &old) == BWTREE_TOO_LONG);
    CHECK(bwtree_upsert(tree, 0, long_text, 65, "", 0, &old) == BWTREE_TOO_LONG && bwtree_upsert(tree, 0, "a", 1, long_text, 65, &old) == BWTREE_TOO_LONG);
    CHECK(bwtree_delete(tree, 0, long_text, 65, &old) == BWTREE_TOO_LONG && bwtree_tidy(tree, 0, long_text, 65) == BWTREE_TOO_LONG);
    CHECK(bwtree_compare_and_set(tree, 0, long_text, 65, "", 0, "", 0, &old) == BWTREE_TOO_LONG && bwtree_compare_and_set(tree, 0, "a", 1, long_text, 65, "", 0, &old) == BWTREE_TOO_LONG);
    CHECK(bwtree_compare_and_set(tree, 0, "a", 1, "", 0, long_text, 65, &old) == BWTREE_TOO_LONG && bwtree_page(tree, 0, long_text, 65, &page) == BWTREE_TOO_LONG);
    CHECK(old.length == 3 && bwtree_is_idle(tree, 0) == BWTREE_OK);
}

static void answers(void) {
    static bwtree tree, other;
    bwtree_limits limits = {2, 64, 256, 1, 0};
    bwtree_bytes old = {0, {0}};
    bwtree_room before, after;
    CHECK(bwtree_open(&limits, &tree) == BWTREE_OK);
    bwtree was = tree;
    CHECK(bwtree_open(&limits, &tree) == BWTREE_OPEN && !memcmp(&tree, &was, sizeof tree));
    CHECK(bwtree_raw_vacate(&tree) == BWTREE_OPEN && !memcmp(&tree, &was, sizeof tree));
    all_answer(&tree, 2, BWTREE_NO_SEAT);
    all_answer(&tree, UINT32_MAX, BWTREE_NO_SEAT);
    {   /* of an opening several fit: BAD_LIMITS is before OPEN, and OPEN before what is wrong with the pairs */
        bwtree_limits wrong = {2, 63, 256, 1, 0};
        bwtree_pair longer = {{65, {0}}, {0, {0}}};
        CHECK(bwtree_open(&wrong, &tree) == BWTREE_BAD_LIMITS && bwtree_open_from(&wrong, &longer, 1, &tree) == BWTREE_BAD_LIMITS);
        CHECK(bwtree_open_from(&limits, &longer, 1, &tree) == BWTREE_OPEN && !memcmp(&tree, &was, sizeof tree));
    }
    CHECK(bwtree_is_idle(&tree, 1) == BWTREE_OK && bwtree_free_room(&tree, 0, &before) == BWTREE_OK);
    CHECK(before.free_pages > 0 && before.free_pages < limits.pages && before.free_records > 0 && before.free_records < limits.records);
    CHECK(bwtree_get(&tree, 0, "a", 1, &old) == BWTREE_ABSENT);
    CHECK(bwtree_insert(&tree, 0, "a", 1, "x", 1, &old) == BWTREE_OK);
    CHECK(bwtree_free_room(&tree, 1, &after) == BWTREE_OK && after.free_pages <= before.free_pages && after.free_records < before.free_records);
    CHECK(bwtree_insert(&tree, 1, "a", 1, "y", 1, &old) == BWTREE_EXISTS && is(&old, "x"));
    CHECK(bwtree_get(&tree, 1, "a", 1, &old) == BWTREE_OK && is(&old, "x"));
    CHECK(bwtree_upsert(&tree, 0, "a", 1, "yy", 2, &old) == BWTREE_REPLACED && is(&old, "x"));
    CHECK(bwtree_upsert(&tree, 0, "b", 1, "", 0, &old) == BWTREE_OK);
    CHECK(bwtree_compare_and_set(&tree, 0, "a", 1, "x", 1, "z", 1, &old) == BWTREE_DIFFERS && is(&old, "yy"));
    CHECK(bwtree_compare_and_set(&tree, 0, "a", 1, "yy", 2, "z", 1, &old) == BWTREE_OK);
    CHECK(bwtree_compare_and_set(&tree, 0, "c", 1, "yy", 2, "z", 1, &old) == BWTREE_ABSENT);
    CHECK(bwtree_tidy(&tree, 1, "a", 1) == BWTREE_OK);
    CHECK(bwtree_page(&tree, 0, "", 0, &page) == BWTREE_OK && page.count == 2 && page.more == 0);
    CHECK(is(&page.pairs[0].key, "a") && is(&page.pairs[0].value, "z") && is(&page.pairs[1].key, "b") && is(&page.pairs[1].value, ""));
    CHECK(bwtree_page(&tree, 0, "aa", 2, &page) == BWTREE_OK && page.count == 1 && is(&page.pairs[0].key, "b"));
    CHECK(bwtree_delete(&tree, 0, "a", 1, &old) == BWTREE_OK && is(&old, "z"));
    CHECK(bwtree_delete(&tree, 0, "a", 1, &old) == BWTREE_ABSENT && bwtree_delete(&tree, 0, "b", 1, &old) == BWTREE_OK);
    CHECK(bwtree_resume(&tree, 0, 1, &old, &page) == BWTREE_IDLE && bwtree_resume(&tree, 0, 0, &old, &page) == BWTREE_IDLE);
    nulls(&tree);
    lengths(&tree);
    CHECK(bwtree_page(&tree, 1, "", 0, &page) == BWTREE_OK && page.count == 0 && page.more == 0);
    /* another tree is another map */
    CHECK(bwtree_open(&limits, &other) == BWTREE_OK && bwtree_insert(&other, 1, "a", 1, "o", 1, &old) == BWTREE_OK);
    CHECK(bwtree_get(&tree, 1, "a", 1, &old) == BWTREE_ABSENT && bwtree_close(&other) == BWTREE_OK);
    /* a closed one stays closed, and may be opened again: then it is empty */
    CHECK(bwtree_insert(&tree, 0, "a", 1, "x", 1, &old) == BWTREE_OK && bwtree_close(&tree) == BWTREE_OK && bwtree_close(&tree) == BWTREE_CLOSED);
    all_answer(&tree, 0, BWTREE_CLOSED);
    static bwtree earlier; /* so that a leak checker finds what the first opening left */
    earlier = tree;
    /* the library itself opens no handle that keeps a tree, closed or not */
    CHECK(bwtree_raw_open(&limits, &tree) == BWTREE_OPEN && bwtree_raw_open_from(&limits, &page.pairs[0], 0, &tree) == BWTREE_OPEN);
    CHECK(!memcmp(&tree, &earlier, sizeof tree) && bwtree_raw_vacate(&tree) == BWTREE_OK && bwtree_raw_vacate(&tree) == BWTREE_OK);
    CHECK(tree.held_ == 0 && bwtree_close(&tree) == BWTREE_CLOSED);
    tree = earlier;
    limits.actors = 3;
    CHECK(bwtree_open(&limits, &tree) == BWTREE_OK && bwtree_get(&tree, 2, "a", 1, &old) == BWTREE_ABSENT && bwtree_close(&tree) == BWTREE_OK);
    {   /* of a call several fit: NULL, TOO_LONG, CLOSED of a handle that was never opened, NO_SEAT, CLOSED */
        static bwtree never;
        static const char longer[65];
        CHECK(bwtree_get(&never, 9, NULL, 65, &old) == BWTREE_NULL && bwtree_get(&never, 9, longer, 65, &old) == BWTREE_TOO_LONG);
        CHECK(bwtree_get(&never, 9, "a", 1, &old) == BWTREE_CLOSED && bwtree_get(&tree, 9, longer, 65, &old) == BWTREE_TOO_LONG);
        CHECK(bwtree_get(&tree, 9, "a", 1, &old) == BWTREE_NO_SEAT && bwtree_get(&tree, 0, "a", 1, &old) == BWTREE_CLOSED);
        CHECK(bwtree_resume(&tree, 9, 1, &old, &page) == BWTREE_NO_SEAT && bwtree_resume(&tree, 0, 1, &old, &page) == BWTREE_CLOSED);
    }
    CHECK(earlier.held_ == was.held_);
    for (uint32_t status = 0; status <= BWTREE_BAD_VERSION; status++)
        CHECK(!strcmp(bwtree_text(status), "no status") == (status > BWTREE_NO_ROOM && status < BWTREE_CLOSED));
}

/* Calls whose steps are spent: the operation stays in the seat, whose other calls answer UNFINISHED, as a closing with pairs does, until it is resumed to its
 * end. */
static void spent(void) {
    static bwtree tree;
    bwtree_limits limits;
    bwtree_bytes old = {0, {0}};
    bwtree_pair pairs[2];
    uint64_t count = 7;
    uint32_t steps = 0;
    CHECK(bwtree_limits_for_keys(2, 100, &limits) == BWTREE_OK && bwtree_open(&limits, &tree) == BWTREE_OK);
    CHECK(bwtree_upsert(&tree, 0, "a", 1, "x", 1, &old) == BWTREE_OK);
    /* with no step nothing is begun; with one after another */
    CHECK(bwtree_upsert_within(&tree, 0, 0, "a", 1, "y", 1, &old) == BWTREE_SPENT && bwtree_get_within(&tree, 0, 0, "a", 1, &old) == BWTREE_SPENT);
    CHECK(bwtree_is_idle(&tree, 0) == BWTREE_OK && old.length == 0);
    CHECK(bwtree_upsert_within(&tree, 0, 1, "a", 1, "y", 1, &old) == BWTREE_SPENT && bwtree_is_idle(&tree, 0) == BWTREE_UNFINISHED);
    CHECK(bwtree_resume(&tree, 0, 0, &old, &page) == BWTREE_SPENT && old.length == 0);
    CHECK(bwtree_get(&tree, 0, "a", 1, &old) == BWTREE_UNFINISHED && bwtree_get_within(&tree, 0, 9, "a", 1, &old) == BWTREE_UNFINISHED);
    CHECK(bwtree_insert(&tree, 0, "b", 1, "x", 1, &old) == BWTREE_UNFINISHED && bwtree_delete(&tree, 0, "a", 1, &old) == BWTREE_UNFINISHED);
    CHECK(bwtree_upsert_within(&tree, 0, 9, "a", 1, "z", 1, &old) == BWTREE_UNFINISHED && bwtree_tidy(&tree, 0, "a", 1) == BWTREE_UNFINISHED);
    CHECK(bwtree_page(&tree, 0, "", 0, &page) == BWTREE_UNFINISHED && bwtree_back(&tree, 0, "", 0, &page) == BWTREE_UNFINISHED);
    /* the other seat goes on; the tree can't be closed with its pairs */
    CHECK(bwtree_get(&tree, 1, "a", 1, &old) == BWTREE_OK && is(&old, "x"));
    CHECK(bwtree_close_pairs(&tree, pairs, 2, &count) == BWTREE_UNFINISHED && count == 7);
    while (bwtree_resume(&tree, 0, 1, &old, &page) == BWTREE_SPENT) CHECK(++steps < 1000);
    CHECK(steps && is(&old, "x") && bwtree_is_idle(&tree, 0) == BWTREE_OK && bwtree_resume(&tree, 0, 1, &old, &page) == BWTREE_IDLE);
    CHECK(bwtree_get(&tree, 1, "a", 1, &old) == BWTREE_OK && is(&old, "y"));
    /* a lookup takes as many steps as it is given in all */
    CHECK(bwtree_get_within(&tree, 0, 1, "a", 1, &old) == BWTREE_SPENT && bwtree_resume(&tree, 0, 1000, &old, &page) == BWTREE_OK && is(&old, "y"));
    CHECK(bwtree_get_within(&tree, 0, 1000, "a", 1, &old) == BWTREE_OK && is(&old, "y") && bwtree_get_within(&tree, 0, 1000, "b", 1, &old) == BWTREE_ABSENT);
    CHECK(bwtree_upsert_within(&tree, 0, 1000, "b", 1, "w", 1, &old) == BWTREE_OK && bwtree_close_pairs(&tree, pairs, 2, &count) == BWTREE_OK && count == 2);
}

/* A pair with a key and a value of these texts. */
static bwtree_pair pair_of(const char *key, const char *value) {
    bwtree_pair pair = {{strlen(key), {0}}, {strlen(value), {0}}};
    memcpy(pair.key.bytes, key, strlen(key));
    memcpy(pair.value.bytes, value, strlen(value));
    return pair;
}

/* The pairs of all pages, for which there is room. */
static size_t walked(const bwtree *tree, bwtree_pair *pairs) {
    size_t count = 0;
    bwtree_bytes from = {0, {0}};
    do {
        CHECK(bwtree_page(tree, 1, from.bytes, from.length, &page) == BWTREE_OK);
        memcpy(pairs + count, page.pairs, page.count * sizeof *pairs);
        count += page.count;
        from = page.next;
    } while (page.more);
    return count;
}

/* Trees that are opened with pairs, each with a handle of its own, so that a leak checker finds what its opening leaves. */
static void loads(void) {
    static bwtree first, closed, empty, none, tree, later, small, was;
    static bwtree_pair all[400], again[400];
    bwtree_limits limits = {2, 128, 1152, 1, 0}, bad = {0, 0, 0, 0, 0};
    bwtree_bytes old;
    char key[16];
    bwtree_pair two[2] = {pair_of("b", "x"), pair_of("a", "y")};
    CHECK(bwtree_open_from(NULL, two, 2, &first) == BWTREE_NULL && bwtree_open_from(&limits, two, 2, NULL) == BWTREE_NULL);
    CHECK(bwtree_open_from(&limits, NULL, 1, &first) == BWTREE_NULL && bwtree_open_from(&bad, two, 2, &first) == BWTREE_BAD_LIMITS);
    CHECK(bwtree_open_from(&limits, two, 2, &first) == BWTREE_BAD_ORDER);
    two[1] = two[0];
    CHECK(bwtree_open_from(&limits, two, 2, &first) == BWTREE_BAD_ORDER && bwtree_open_from(&limits, two, 1, &first) == BWTREE_OK);
    CHECK(bwtree_get(&first, 1, "b", 1, &old) == BWTREE_OK && is(&old, "x") && bwtree_open_from(&limits, two, 1, &first) == BWTREE_OPEN);
    CHECK(bwtree_close(&first) == BWTREE_OK);
    closed = first; /* so that a leak checker finds what that opening left, though a refused one makes the handle's bytes zero */
    two[0].value.length = 65;
    CHECK(bwtree_open_from(&limits, two, 1, &first) == BWTREE_TOO_LONG && bwtree_is_idle(&first, 0) == BWTREE_CLOSED);
    CHECK(closed.held_ != 0 && first.held_ == 0);
    CHECK(bwtree_open_from(&limits, two, 0, &empty) == BWTREE_OK && walked(&empty, again) == 0 && bwtree_close(&empty) == BWTREE_OK);
    CHECK(bwtree_open_from(&limits, NULL, 0, &none) == BWTREE_OK && walked(&none, again) == 0 && bwtree_close(&none) == BWTREE_OK);
    /* what one tree has, the next one gets; and that doesn't fit into a small one */
    CHECK(bwtree_open(&limits, &tree) == BWTREE_OK);
    for (int i = 0; i < 400; i++) {
        snprintf(key, sizeof key, "%03d", i * 7 % 400);
        CHECK(bwtree_insert(&tree, i % 2, key, strlen(key), key + 1, 2, &old) == BWTREE_OK);
    }
    CHECK(walked(&tree, all) == 400 && bwtree_close(&tree) == BWTREE_OK && bwtree_open_from(&limits, all, 400, &later) == BWTREE_OK);
    CHECK(walked(&later, again) == 400 && bwtree_close(&later) == BWTREE_OK);
    for (int i = 0; i < 400; i++) {
        snprintf(key, sizeof key, "%03d", i);
        CHECK(is(&again[i].key, key) && is(&again[i].value, key + 1));
    }
    limits.pages = limits.records = 64;
    CHECK(bwtree_open_from(&limits, all, 400, &small) == BWTREE_FULL && !memcmp(&was, &small, sizeof was));
}

/* Trees that are closed with their pairs: refused, and with too little room at first; what one hands over, the next one is opened with. */
static void closed_with_pairs(void) {
    static bwtree tree, later, none, never;
    static bwtree_pair all[400], was[400];
    bwtree_limits limits = {2, 128, 1152, 1, 0};
    bwtree_bytes old;
    uint64_t count = 77;
    char key[16];
    CHECK(bwtree_close_pairs(NULL, all, 400, &count) == BWTREE_NULL && bwtree_close_pairs(&tree, all, 400, NULL) == BWTREE_NULL);
    CHECK(bwtree_close_pairs(&tree, NULL, 1, &count) == BWTREE_NULL && bwtree_close_pairs(&never, all, 400, &count) == BWTREE_CLOSED && count == 77);
    CHECK(bwtree_open(&limits, &tree) == BWTREE_OK);
    for (int i = 0; i < 400; i++) {
        snprintf(key, sizeof key, "%03d", i * 7 % 400);
        CHECK(bwtree_insert(&tree, i % 2, key, strlen(key), key + 1, 2, &old) == BWTREE_OK);
    }
    memset(all, 0x55, sizeof all);
    memcpy(was, all, sizeof was);
    CHECK(bwtree_close_pairs(&tree, all, 399, &count) == BWTREE_NO_ROOM && count == 400 && !memcmp(all, was, sizeof all));
    /* it is closed to all other calls, and its pairs wait */
    all_answer(&tree, 0, BWTREE_CLOSED);
    CHECK(bwtree_open(&limits, &tree) == BWTREE_OPEN && bwtree_open_from(&limits, all, 0, &tree) == BWTREE_OPEN);
    count = 77;
    CHECK(bwtree_close_pairs(&tree, NULL, 0, &count) == BWTREE_NO_ROOM && count == 400);
    CHECK(bwtree_close_pairs(&tree, all, 400, &count) == BWTREE_OK && count == 400);
    for (int i = 0; i < 400; i++) {
        snprintf(key, sizeof key, "%03d", i);
        CHECK(is(&all[i].key, key) && is(&all[i].value, key + 1));
    }
    count = 77;
    CHECK(bwtree_close_pairs(&tree, all, 400, &count) == BWTREE_CLOSED && count == 77 && bwtree_close(&tree) == BWTREE_CLOSED);
    CHECK(bwtree_open_from(&limits, all, 400, &later) == BWTREE_OK && walked(&later, was) == 400 && is(&was[399].key, "399"));
    /* pairs that wait may be dropped */
    CHECK(bwtree_close_pairs(&later, all, 1, &count) == BWTREE_NO_ROOM && count == 400);
    CHECK(bwtree_close(&later) == BWTREE_OK && bwtree_close(&later) == BWTREE_CLOSED);
    /* no pair wants no room */
    CHECK(bwtree_open(&limits, &none) == BWTREE_OK && bwtree_close_pairs(&none, NULL, 0, &count) == BWTREE_OK && count == 0);
}

/* As many seats as there may be, of a small and of a large tree, each opening with a handle of its own: a closing goes a frame deeper for each seat. */
static void most_seats(void) {
    static bwtree trees[4];
    static bwtree_pair all[BWTREE_MAX_SEATS];
    bwtree_limits limits;
    bwtree_bytes old;
    for (int is_large = 0; is_large < 2; is_large++) {
        bwtree *tree = &trees[2 * is_large], *later = tree + 1;
        uint64_t count = 0;
        uint8_t most = is_large ? BWTREE_MAX_SEATS : BWTREE_MAX_SMALL_SEATS;
        CHECK((is_large ? bwtree_limits_for_many_keys : bwtree_limits_for_keys)(most, 100, &limits) == BWTREE_OK);
        CHECK(bwtree_open(&limits, tree) == BWTREE_OK && bwtree_is_idle(tree, most) == BWTREE_NO_SEAT);
        for (uint8_t seat = 0; seat < most; seat++) CHECK(bwtree_insert(tree, seat, &seat, 1, "x", 1, &old) == BWTREE_OK);
        CHECK(bwtree_close_pairs(tree, all, most, &count) == BWTREE_OK && count == most);
        for (uint8_t seat = 0; seat < most; seat++) CHECK(all[seat].key.length == 1 && all[seat].key.bytes[0] == seat && is(&all[seat].value, "x"));
        CHECK(bwtree_open_from(&limits, all, count, later) == BWTREE_OK && bwtree_close(later) == BWTREE_OK);
    }
}

static void full(void) {
    static bwtree tree;
    bwtree_limits limits = {1, 64, 64, 1, 0};
    bwtree_bytes old;
    char key[16];
    CHECK(bwtree_open(&limits, &tree) == BWTREE_OK);
    uint32_t status = BWTREE_OK, count = 0, found = 0;
    for (; status == BWTREE_OK && count < 100000; count++) {
        snprintf(key, sizeof key, "%06u", count);
        status = bwtree_insert(&tree, 0, key, 6, key, 6, &old);
    }
    CHECK(status == BWTREE_FULL && bwtree_get(&tree, 0, key, 6, &old) == BWTREE_ABSENT);
    bwtree_bytes next = {0, {0}};
    do {
        CHECK(bwtree_page(&tree, 0, next.bytes, next.length, &page) == BWTREE_OK);
        for (uint64_t i = 0; i < page.count; i++) {
            snprintf(key, sizeof key, "%06u", found++);
            CHECK(is(&page.pairs[i].key, key) && is(&page.pairs[i].value, key));
        }
        next = page.next;
    } while (page.more);
    CHECK(found == count - 1 && bwtree_close(&tree) == BWTREE_OK);
}

/* A tree that is filled far beyond its limits is read-only: deletions and upserts are FULL, of keys that have a value, too. Reads go on, and its pairs move
 * to a larger tree, which takes changes again. */
static void read_only(void) {
    static bwtree tree, larger;
    static uint32_t keys[4000];
    bwtree_limits limits = {1, 64, 704, 1, 0}, more = {1, 256, 2624, 1, 0};
    bwtree_bytes old;
    uint64_t count = 0, deleted = 0, updated = 0, given = 0;
    CHECK(bwtree_open(&limits, &tree) == BWTREE_OK);
    for (uint32_t i = 0; i < 4000; i++) {
        uint32_t key = i * 2654435761u;
        if (bwtree_insert(&tree, 0, &key, 4, &key, 4, &old) == BWTREE_OK) keys[count++] = key;
    }
    CHECK(count > 0 && count < 4000);
    for (uint64_t i = 0; i < count; i++) {
        CHECK(bwtree_get(&tree, 0, &keys[i], 4, &old) == BWTREE_OK && old.length == 4);
        updated += bwtree_upsert(&tree, 0, &keys[i], 4, &keys[i], 4, &old) == BWTREE_REPLACED;
        deleted += bwtree_delete(&tree, 0, &keys[i], 4, &old) == BWTREE_OK;
    }
    CHECK(2 * updated < count && 2 * deleted < count);
    bwtree_pair *pairs = calloc(count, sizeof *pairs);
    CHECK(pairs && bwtree_close_pairs(&tree, pairs, count, &given) == BWTREE_OK && given == count - deleted);
    CHECK(bwtree_open_from(&more, pairs, given, &larger) == BWTREE_OK);
    for (uint64_t i = 0; i < given; i++) CHECK(bwtree_delete(&larger, 0, pairs[i].key.bytes, pairs[i].key.length, &old) == BWTREE_OK);
    CHECK(bwtree_close(&larger) == BWTREE_OK);
    free(pairs);
}

struct job { const bwtree *tree; uint32_t seat; uint64_t count; };

/* Calls on one seat by two threads: each call is answered, or BUSY and without effect. */
static int seen_busy;
static void *raises(void *argument) {
    struct job *job = argument;
    bwtree_bytes old;
    char key[16];
    int length = snprintf(key, sizeof key, "%p", argument);
    while (job->count < 1000000 && !__atomic_load_n(&seen_busy, __ATOMIC_SEQ_CST)) {
        uint64_t next = job->count + 1;
        uint32_t status = bwtree_upsert(job->tree, 0, key, (size_t)length, &next, 8, &old);
        CHECK(status == BWTREE_BUSY || status == (job->count ? BWTREE_REPLACED : BWTREE_OK));
        if (status == BWTREE_BUSY) {
            __atomic_store_n(&seen_busy, 1, __ATOMIC_SEQ_CST);
            continue;
        }
        CHECK(!job->count || !memcmp(old.bytes, &job->count, 8));
        job->count = next;
    }
    return NULL;
}

static void busy(void) {
    static bwtree tree;
    static struct job jobs[2];
    bwtree_limits limits = {1, 64, 256, 1, 0};
    pthread_t threads[2];
    CHECK(bwtree_open(&limits, &tree) == BWTREE_OK);
    for (int i = 0; i < 2; i++) {
        jobs[i] = (struct job){&tree, 0, 0};
        threads[i] = begun(raises, &jobs[i]);
    }
    for (int i = 0; i < 2; i++) CHECK(pthread_join(threads[i], NULL) == 0);
    CHECK(seen_busy && bwtree_is_idle(&tree, 0) == BWTREE_OK && bwtree_close(&tree) == BWTREE_OK);
}

/* Calls until the tree is closed. */
static void *calls(void *argument) {
    struct job *job = argument;
    bwtree_bytes old;
    uint32_t status;
    do {
        status = bwtree_upsert(job->tree, job->seat, "key", 3, &job->seat, 4, &old);
        CHECK(status == BWTREE_OK || status == BWTREE_REPLACED || status == BWTREE_BUSY || status == BWTREE_FULL || status == BWTREE_CLOSED);
        if (__atomic_add_fetch(&job->count, 1, __ATOMIC_SEQ_CST) % 16 == 0) sched_yield();
    } while (status != BWTREE_CLOSED);
    all_answer(job->tree, job->seat, BWTREE_CLOSED);
    return NULL;
}

static void close_beside_calls(bwtree *tree, int with_pairs) {
    static struct job job;
    bwtree_limits limits = {2, 64, 64, 1, 0};
    uint32_t status;
    uint64_t count = 0;
    bwtree_pair pair;
    CHECK(bwtree_open(&limits, tree) == BWTREE_OK);
    job = (struct job){tree, 1, 0};
    pthread_t thread = begun(calls, &job);
    while (__atomic_load_n(&job.count, __ATOMIC_SEQ_CST) < 3) sched_yield();
    while ((status = with_pairs ? bwtree_close_pairs(tree, &pair, 1, &count) : bwtree_close(tree)) == BWTREE_BUSY)
        CHECK(bwtree_is_idle(tree, 0) == BWTREE_OK);
    CHECK(status == BWTREE_OK && pthread_join(thread, NULL) == 0 && bwtree_close(tree) == BWTREE_CLOSED);
    CHECK(!with_pairs || (count == 1 && is(&pair.key, "key") && pair.value.length == 4));
}

/* Some closings, so that one meets a call. */
static void closing(void) {
    static bwtree trees[16];
    for (size_t i = 0; i < sizeof trees / sizeof *trees; i++) close_beside_calls(&trees[i], i % 2);
}

/* While another thread stands still inside an operation, what others take out of the tree can't be used again, and a write may be told FULL: it is made
 * again until that thread goes on. */
#define UNTIL_ROOM(status, call)                                                                                                                     \
    do status = call;                                                                                                                                \
    while (status == BWTREE_FULL && sched_yield() == 0)

/* Each thread has keys of its own, whose values it knows. */
struct own { const bwtree *tree; uint32_t seat; int known[KEYS]; uint64_t raised; };

static int key_of(char *to, size_t size, uint32_t seat, int key) { return snprintf(to, size, "%u/%05d", seat, key); }

/* One more, by a swap that may lose. */
static void raise_counter(struct own *own) {
    bwtree_bytes old;
    uint64_t count, next;
    CHECK(bwtree_get(own->tree, own->seat, "counter", 7, &old) == BWTREE_OK && old.length == 8);
    memcpy(&count, old.bytes, 8);
    next = count + 1;
    uint32_t status;
    UNTIL_ROOM(status, bwtree_compare_and_set(own->tree, own->seat, "counter", 7, &count, 8, &next, 8, &old));
    CHECK(status == BWTREE_OK || status == BWTREE_DIFFERS);
    own->raised += status == BWTREE_OK;
}

static void step(struct own *own, int kind, int key, int value) {
    bwtree_bytes old;
    char name[16], text[16], was[16];
    size_t length = (size_t)key_of(name, sizeof name, own->seat, key), size = (size_t)snprintf(text, sizeof text, "%d", value);
    snprintf(was, sizeof was, "%d", own->known[key]);
    int there = own->known[key] >= 0;
    uint32_t status;
    switch (kind) {
    case 0:
        status = bwtree_get(own->tree, own->seat, name, length, &old);
        CHECK(there ? status == BWTREE_OK && is(&old, was) : status == BWTREE_ABSENT);
        break;
    case 1:
        UNTIL_ROOM(status, bwtree_insert(own->tree, own->seat, name, length, text, size, &old));
        CHECK(there ? status == BWTREE_EXISTS && is(&old, was) : status == BWTREE_OK);
        if (!there) own->known[key] = value;
        break;
    case 2:
        UNTIL_ROOM(status, bwtree_upsert(own->tree, own->seat, name, length, text, size, &old));
        CHECK(there ? status == BWTREE_REPLACED && is(&old, was) : status == BWTREE_OK);
        own->known[key] = value;
        break;
    case 3:
        UNTIL_ROOM(status, bwtree_delete(own->tree, own->seat, name, length, &old));
        CHECK(there ? status == BWTREE_OK && is(&old, was) : status == BWTREE_ABSENT);
        own->known[key] = -1;
        break;
    default:
        raise_counter(own);
    }
}

/* A walk over the thread's own keys shows what it knows. */
static void walk(const struct own *own) {
    bwtree_page_pairs *pairs = malloc(sizeof *pairs);
    char from[16], name[16], text[16];
    bwtree_bytes next = {0, {0}};
    int key = 0, ended = 0;
    next.length = (uint64_t)snprintf(from, sizeof from, "%u/", own->seat);
    memcpy(next.bytes, from, next.length);
    do {
        CHECK(bwtree_page(own->tree, own->seat, next.bytes, next.length, pairs) == BWTREE_OK);
        for (uint64_t i = 0; i < pairs->count && !ended; i++) {
            if (memcmp(pairs->pairs[i].key.bytes, from, 2)) {
                ended = 1;
                break;
            }
            while (key < KEYS && own->known[key] < 0) key++;
            CHECK(key < KEYS);
            key_of(name, sizeof name, own->seat, key), snprintf(text, sizeof text, "%d", own->known[key]);
            CHECK(is(&pairs->pairs[i].key, name) && is(&pairs->pairs[i].value, text));
            key++;
        }
        next = pairs->next;
    } while (pairs->more && !ended);
    while (key < KEYS && own->known[key] < 0) key++;
    CHECK(key == KEYS);
    free(pairs);
}

static void *work(void *argument) {
    struct own *own = argument;
    uint64_t random = 88172645463325252ull + own->seat * 7919ull;
    for (int i = 0; i < operations; i++) {
        random ^= random << 13, random ^= random >> 7, random ^= random << 17;
        step(own, (int)(random % 5), (int)((random >> 8) % KEYS), (int)((random >> 32) % 1000));
    }
    walk(own);
    return NULL;
}

static void threads(void) {
    static bwtree tree;
    static struct own owns[THREADS];
    bwtree_limits limits;
    bwtree_bytes old;
    uint64_t zero = 0, count, raised = 0;
    pthread_t ids[THREADS];
    CHECK(bwtree_limits_for_keys(THREADS, THREADS * KEYS + 1, &limits) == BWTREE_OK && bwtree_open(&limits, &tree) == BWTREE_OK);
    CHECK(bwtree_insert(&tree, 0, "counter", 7, &zero, 8, &old) == BWTREE_OK);
    for (uint32_t i = 0; i < THREADS; i++) {
        owns[i].tree = &tree, owns[i].seat = i;
        memset(owns[i].known, -1, sizeof owns[i].known);
        ids[i] = begun(work, &owns[i]);
    }
    for (int i = 0; i < THREADS; i++) {
        CHECK(pthread_join(ids[i], NULL) == 0);
        raised += owns[i].raised;
    }
    CHECK(bwtree_get(&tree, 3, "counter", 7, &old) == BWTREE_OK);
    memcpy(&count, old.bytes, 8);
    CHECK(count == raised && raised > 0 && bwtree_close(&tree) == BWTREE_OK);
    printf("%d threads, %d operations each, the counter at %llu\n", THREADS, operations, (unsigned long long)count);
}

static void *all(void *unused) {
    layout();
    version();
    limits();
    answers();
    spent();
    loads();
    closed_with_pairs();
    most_seats();
    full();
    read_only();
    busy();
    closing();
    threads();
    return unused;
}

int main(int count, char **words) {
    if (count > 1) operations = atoi(words[1]);
    memset(long_text, 'k', sizeof long_text);
    CHECK(pthread_join(begun(all, NULL), NULL) == 0);
    puts("passed");
    return 0;
}
