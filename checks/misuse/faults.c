/* Faults that the fuzzer must find. Linked with --wrap for each function below, this stands between the fuzzer and the library, and FAULT, a number, says
 * what it does wrong. Without FAULT it does nothing wrong. */
#include "bwtree.h"
#include <pthread.h>
#include <stdio.h>
#include <stdlib.h>
#include <string.h>

typedef const bwtree *T;
typedef const void *B;

enum {
    NO_FAULT,
    /* one thread sees these */
    CLOSED_FOR_NO_SEAT, WRITES_OF_ABSENT_KEYS, EXISTS_WITHOUT_VALUE, TAKES_LONG_KEYS, OK_FOR_REPLACED, FORGETS_A_PUT, ABSENT_FOR_DELETED, DELETES_ANY_VALUE,
    SETS_WITHOUT_COMPARING,
    ADDS_ONE_MORE, PAGE_WITHOUT_ITS_LAST, ENDS_EARLY, PAGE_OUT_OF_ORDER, BACK_WITHOUT_ITS_FIRST, GOES_ON_TOO_LOW, RESUMES_NOTHING,
    IDLE_WHEN_CLOSED, ROOM_FOR_ALL, OPENS_OVER_A_TREE, DROPS_A_GIVEN_PAIR, TAKES_ANY_ORDER, CLOSES_TWICE, PAIRS_WITHOUT_ROOM, COUNTS_ONE_LESS,
    KEEPS_A_DELETED_PAIR,
    TAKES_ANY_STEPS, BEGINS_OF_NO_STEPS, WRITES_WHEN_SPENT, IDLE_WHEN_UNFINISHED, RESUMES_TO_ABSENT, FORGETS_A_SPENT_PUT,
    LIMITS_THOUGH_REFUSED, LIMITS_OF_TOO_MANY, TAKES_MEMORY, WRITES_BEHIND_OLD, READS_BEHIND_A_KEY, FULL_LOOKUPS, SPENT_LOOKUPS, ANSWERS_SEVENTY,
    /* several threads see these, too */
    BUSY_FOR_NOTHING, TORN_VALUES, ANOTHER_KEYS_VALUE, OPEN_WHEN_CLOSED,
    /* a sanitizer sees these: of addresses, of what is undefined, of threads */
    READS_BEHIND_A_BLOCK, OVERFLOWS, RACES,
    FAULTS
};

static int fault(void) {
    static int known = -1;
    int is = __atomic_load_n(&known, __ATOMIC_RELAXED);
    if (is >= 0) return is;
    const char *word = getenv("FAULT");
    is = word ? atoi(word) : NO_FAULT;
    __atomic_store_n(&known, is, __ATOMIC_RELAXED);
    return is;
}
static int has(int which) { return fault() == which; }

/* Every so often, so that a fault is seldom. */
static int now_and_then(unsigned every) {
    static unsigned calls;
    return __atomic_add_fetch(&calls, 1, __ATOMIC_RELAXED) % every == 0;
}

uint32_t __real_bwtree_raw_limits_for_keys(uint64_t actors, uint64_t keys, bwtree_limits *l);
uint32_t __wrap_bwtree_raw_limits_for_keys(uint64_t actors, uint64_t keys, bwtree_limits *l);
uint32_t __wrap_bwtree_raw_limits_for_keys(uint64_t actors, uint64_t keys, bwtree_limits *l) {
    if (has(LIMITS_OF_TOO_MANY) && keys > 12199) keys = 9000;
    uint32_t status = __real_bwtree_raw_limits_for_keys(actors, keys, l);
    if (has(LIMITS_THOUGH_REFUSED) && status) l->actors = actors;
    return status;
}

uint32_t __real_bwtree_raw_open(const bwtree_limits *l, bwtree *tree);
uint32_t __wrap_bwtree_raw_open(const bwtree_limits *l, bwtree *tree);
uint32_t __wrap_bwtree_raw_open(const bwtree_limits *l, bwtree *tree) {
    uint32_t status = __real_bwtree_raw_open(l, tree);
    return has(OPENS_OVER_A_TREE) && status == BWTREE_OPEN ? (uint32_t)BWTREE_OK : status;
}

uint32_t __real_bwtree_raw_open_from(const bwtree_limits *l, const bwtree_pair *pairs, size_t count, bwtree *tree);
uint32_t __wrap_bwtree_raw_open_from(const bwtree_limits *l, const bwtree_pair *pairs, size_t count, bwtree *tree);
uint32_t __wrap_bwtree_raw_open_from(const bwtree_limits *l, const bwtree_pair *pairs, size_t count, bwtree *tree) {
    if (has(DROPS_A_GIVEN_PAIR) && count) count--;
    uint32_t status = __real_bwtree_raw_open_from(l, pairs, count, tree);
    if (has(TAKES_ANY_ORDER) && status == BWTREE_BAD_ORDER) status = __real_bwtree_raw_open_from(l, pairs, 0, tree);
    return status;
}

uint32_t __real_bwtree_raw_close(T tree);
uint32_t __wrap_bwtree_raw_close(T tree);
uint32_t __wrap_bwtree_raw_close(T tree) {
    uint32_t status = __real_bwtree_raw_close(tree);
    return has(CLOSES_TWICE) && tree->held_ && status == BWTREE_CLOSED ? (uint32_t)BWTREE_OK : status;
}

uint32_t __real_bwtree_raw_close_pairs(T tree, bwtree_pair *pairs, size_t room, uint64_t *count);
uint32_t __wrap_bwtree_raw_close_pairs(T tree, bwtree_pair *pairs, size_t room, uint64_t *count);
uint32_t __wrap_bwtree_raw_close_pairs(T tree, bwtree_pair *pairs, size_t room, uint64_t *count) {
    uint32_t status = __real_bwtree_raw_close_pairs(tree, pairs, room, count);
    if (has(PAIRS_WITHOUT_ROOM) && status == BWTREE_NO_ROOM && room) pairs[0].key.length = 0;
    if (has(COUNTS_ONE_LESS) && status == BWTREE_OK && *count) --*count;
    return status;
}

uint32_t __real_bwtree_raw_get(T tree, uint32_t seat, B key, size_t length, bwtree_bytes *value);
uint32_t __wrap_bwtree_raw_get(T tree, uint32_t seat, B key, size_t length, bwtree_bytes *value);
/* What goes wrong before a lookup. */
static void before_get(B key, size_t length) {
    static int races;
    static char *block;
    volatile int sum = 2147483647;
    if (has(TAKES_MEMORY) && now_and_then(100)) free(malloc(9));
    if (has(READS_BEHIND_A_KEY) && ((volatile const char *)key)[length] == 'y') puts("y");
    if (has(RACES)) races++;
    if (has(OVERFLOWS)) sum += (int)length + 1;
    if (has(READS_BEHIND_A_BLOCK) && (block || (block = malloc(16))) && ((volatile char *)block)[16] == 'y') puts("y");
    (void)sum;
}
uint32_t __wrap_bwtree_raw_get(T tree, uint32_t seat, B key, size_t length, bwtree_bytes *value) {
    static bwtree_bytes last;
    before_get(key, length);
    uint32_t status = __real_bwtree_raw_get(tree, seat, key, length, value);
    if (has(CLOSED_FOR_NO_SEAT) && status == BWTREE_NO_SEAT) return BWTREE_CLOSED;
    if (has(WRITES_OF_ABSENT_KEYS) && status == BWTREE_ABSENT) value->length = 0;
    if (has(WRITES_BEHIND_OLD) && status == BWTREE_OK) ((volatile char *)(value + 1))[0] = 'x';
    if (has(FULL_LOOKUPS) && status == BWTREE_ABSENT && now_and_then(100)) return BWTREE_FULL;
    if (has(SPENT_LOOKUPS) && status == BWTREE_ABSENT && now_and_then(100)) return BWTREE_SPENT;
    if (has(ANSWERS_SEVENTY) && status == BWTREE_ABSENT && now_and_then(100)) return 70;
    if (has(BUSY_FOR_NOTHING) && status == BWTREE_ABSENT && now_and_then(100)) return BWTREE_BUSY;
    if (has(OPEN_WHEN_CLOSED) && status == BWTREE_CLOSED && tree->held_) return BWTREE_ABSENT;
    if (status != BWTREE_OK || value->length < 20) return status;
    if (has(TORN_VALUES) && now_and_then(20)) value->bytes[17] ^= 1;
    if (has(ANOTHER_KEYS_VALUE) && now_and_then(20) && last.length) *value = last;
    if (has(ANOTHER_KEYS_VALUE)) last = *value;
    return status;
}

uint32_t __real_bwtree_raw_get_within(T tree, uint32_t seat, uint32_t budget, B key, size_t length, bwtree_bytes *value);
uint32_t __wrap_bwtree_raw_get_within(T tree, uint32_t seat, uint32_t budget, B key, size_t length, bwtree_bytes *value);
uint32_t __wrap_bwtree_raw_get_within(T tree, uint32_t seat, uint32_t budget, B key, size_t length, bwtree_bytes *value) {
    if (has(TAKES_ANY_STEPS) && budget) budget = UINT32_MAX;
    if (has(BEGINS_OF_NO_STEPS) && !budget) budget = 1;
    uint32_t status = __real_bwtree_raw_get_within(tree, seat, budget, key, length, value);
    if (has(WRITES_WHEN_SPENT) && status == BWTREE_SPENT) value->length = 0;
    return status;
}

uint32_t __real_bwtree_raw_upsert_within(T tree, uint32_t seat, uint32_t budget, B key, size_t length, B value, size_t value_length, bwtree_bytes *old);
uint32_t __wrap_bwtree_raw_upsert_within(T tree, uint32_t seat, uint32_t budget, B key, size_t length, B value, size_t value_length, bwtree_bytes *old);
uint32_t __wrap_bwtree_raw_upsert_within(T tree, uint32_t seat, uint32_t budget, B key, size_t length, B value, size_t value_length, bwtree_bytes *old) {
    uint32_t status;
    if (has(FORGETS_A_SPENT_PUT) && budget && budget < 1 << 16) {
        status = __real_bwtree_raw_get_within(tree, seat, budget, key, length, old);
        return status == BWTREE_OK ? (uint32_t)BWTREE_REPLACED : status == BWTREE_ABSENT ? (uint32_t)BWTREE_OK : status;
    }
    return __real_bwtree_raw_upsert_within(tree, seat, budget, key, length, value, value_length, old);
}

uint32_t __real_bwtree_raw_insert(T tree, uint32_t seat, B key, size_t length, B value, size_t value_length, bwtree_bytes *old);
uint32_t __wrap_bwtree_raw_insert(T tree, uint32_t seat, B key, size_t length, B value, size_t value_length, bwtree_bytes *old);
uint32_t __wrap_bwtree_raw_insert(T tree, uint32_t seat, B key, size_t length, B value, size_t value_length, bwtree_bytes *old) {
    bwtree_bytes was = *old;
    uint32_t status = __real_bwtree_raw_insert(tree, seat, key, has(TAKES_LONG_KEYS) && length > 64 ? 64 : length, value, value_length, old);
    if (has(EXISTS_WITHOUT_VALUE) && status == BWTREE_EXISTS) *old = was;
    return status;
}

uint32_t __real_bwtree_raw_upsert(T tree, uint32_t seat, B key, size_t length, B value, size_t value_length, bwtree_bytes *old);
uint32_t __wrap_bwtree_raw_upsert(T tree, uint32_t seat, B key, size_t length, B value, size_t value_length, bwtree_bytes *old);
uint32_t __wrap_bwtree_raw_upsert(T tree, uint32_t seat, B key, size_t length, B value, size_t value_length, bwtree_bytes *old) {
    if (has(FORGETS_A_PUT) && now_and_then(200)) {
        uint32_t status = __real_bwtree_raw_get(tree, seat, key, length, old);
        return status == BWTREE_OK ? (uint32_t)BWTREE_REPLACED : status == BWTREE_ABSENT ? (uint32_t)BWTREE_OK : status;
    }
    uint32_t status = __real_bwtree_raw_upsert(tree, seat, key, length, value, value_length, old);
    return has(OK_FOR_REPLACED) && status == BWTREE_REPLACED ? (uint32_t)BWTREE_OK : status;
}

uint32_t __real_bwtree_raw_delete(T tree, uint32_t seat, B key, size_t length, bwtree_bytes *old);
uint32_t __wrap_bwtree_raw_delete(T tree, uint32_t seat, B key, size_t length, bwtree_bytes *old);
uint32_t __wrap_bwtree_raw_delete(T tree, uint32_t seat, B key, size_t length, bwtree_bytes *old) {
    if (has(KEEPS_A_DELETED_PAIR) && now_and_then(200)) return __real_bwtree_raw_get(tree, seat, key, length, old);
    bwtree_bytes was = *old;
    uint32_t status = __real_bwtree_raw_delete(tree, seat, key, length, old);
    if (!has(ABSENT_FOR_DELETED) || status != BWTREE_OK) return status;
    *old = was;
    return BWTREE_ABSENT;
}

uint32_t __real_bwtree_raw_delete_if(T tree, uint32_t seat, B key, size_t length, B expected, size_t expected_length, bwtree_bytes *old);
uint32_t __wrap_bwtree_raw_delete_if(T tree, uint32_t seat, B key, size_t length, B expected, size_t expected_length, bwtree_bytes *old);
uint32_t __wrap_bwtree_raw_delete_if(T tree, uint32_t seat, B key, size_t length, B expected, size_t expected_length, bwtree_bytes *old) {
    if (has(DELETES_ANY_VALUE) && expected_length <= 64) return __real_bwtree_raw_delete(tree, seat, key, length, old);
    return __real_bwtree_raw_delete_if(tree, seat, key, length, expected, expected_length, old);
}

uint32_t __real_bwtree_raw_swap(T tree, uint32_t seat, B key, size_t length, B expected, size_t expected_length, B value, size_t value_length,
                                bwtree_bytes *old);
uint32_t __wrap_bwtree_raw_swap(T tree, uint32_t seat, B key, size_t length, B expected, size_t expected_length, B value, size_t value_length,
                                bwtree_bytes *old);
uint32_t __wrap_bwtree_raw_swap(T tree, uint32_t seat, B key, size_t length, B expected, size_t expected_length, B value, size_t value_length,
                                bwtree_bytes *old) {
    bwtree_bytes was = *old, found;
    uint32_t status = __real_bwtree_raw_swap(tree, seat, key, length, expected, expected_length, value, value_length, old);
    if (!has(SETS_WITHOUT_COMPARING) || status != BWTREE_DIFFERS) return status;
    *old = was;
    return __real_bwtree_raw_upsert(tree, seat, key, length, value, value_length, &found) == BWTREE_REPLACED ? (uint32_t)BWTREE_OK : status;
}

uint32_t __real_bwtree_raw_add(T tree, uint32_t seat, B key, size_t length, uint64_t number, bwtree_bytes *old);
uint32_t __wrap_bwtree_raw_add(T tree, uint32_t seat, B key, size_t length, uint64_t number, bwtree_bytes *old);
uint32_t __wrap_bwtree_raw_add(T tree, uint32_t seat, B key, size_t length, uint64_t number, bwtree_bytes *old) {
    return __real_bwtree_raw_add(tree, seat, key, length, number + (has(ADDS_ONE_MORE) && now_and_then(100)), old);
}

uint32_t __real_bwtree_raw_page(T tree, uint32_t seat, B from, size_t length, bwtree_page_pairs *page);
uint32_t __wrap_bwtree_raw_page(T tree, uint32_t seat, B from, size_t length, bwtree_page_pairs *page);
uint32_t __wrap_bwtree_raw_page(T tree, uint32_t seat, B from, size_t length, bwtree_page_pairs *page) {
    uint32_t status = __real_bwtree_raw_page(tree, seat, from, length, page);
    if (status != BWTREE_OK) return status;
    if (has(PAGE_WITHOUT_ITS_LAST) && page->count) page->count--;
    if (has(ENDS_EARLY)) page->more = 0;
    if (has(PAGE_OUT_OF_ORDER) && page->count > 1) {
        bwtree_pair first = page->pairs[0];
        page->pairs[0] = page->pairs[1], page->pairs[1] = first;
    }
    return status;
}

uint32_t __real_bwtree_raw_back(T tree, uint32_t seat, B upto, size_t length, bwtree_page_pairs *page);
uint32_t __wrap_bwtree_raw_back(T tree, uint32_t seat, B upto, size_t length, bwtree_page_pairs *page);
uint32_t __wrap_bwtree_raw_back(T tree, uint32_t seat, B upto, size_t length, bwtree_page_pairs *page) {
    uint32_t status = __real_bwtree_raw_back(tree, seat, upto, length, page);
    if (status != BWTREE_OK) return status;
    if (has(BACK_WITHOUT_ITS_FIRST) && page->count) memmove(page->pairs, page->pairs + 1, --page->count * sizeof *page->pairs);
    if (has(GOES_ON_TOO_LOW) && page->more) page->next.length = 0;
    return status;
}

uint32_t __real_bwtree_raw_resume(T tree, uint32_t seat, uint32_t budget, bwtree_bytes *old, bwtree_page_pairs *page);
uint32_t __wrap_bwtree_raw_resume(T tree, uint32_t seat, uint32_t budget, bwtree_bytes *old, bwtree_page_pairs *page);
uint32_t __wrap_bwtree_raw_resume(T tree, uint32_t seat, uint32_t budget, bwtree_bytes *old, bwtree_page_pairs *page) {
    bwtree_bytes was = *old;
    uint32_t status = __real_bwtree_raw_resume(tree, seat, budget, old, page);
    if (has(RESUMES_TO_ABSENT) && status == BWTREE_OK) {
        *old = was;
        return BWTREE_ABSENT;
    }
    return has(RESUMES_NOTHING) && status == BWTREE_IDLE ? (uint32_t)BWTREE_OK : status;
}

uint32_t __real_bwtree_raw_is_idle(T tree, uint32_t seat);
uint32_t __wrap_bwtree_raw_is_idle(T tree, uint32_t seat);
uint32_t __wrap_bwtree_raw_is_idle(T tree, uint32_t seat) {
    uint32_t status = __real_bwtree_raw_is_idle(tree, seat);
    if (has(IDLE_WHEN_UNFINISHED) && status == BWTREE_UNFINISHED) return BWTREE_OK;
    return has(IDLE_WHEN_CLOSED) && status == BWTREE_CLOSED ? (uint32_t)BWTREE_OK : status;
}

uint32_t __real_bwtree_raw_room(T tree, uint32_t seat, bwtree_room *room);
uint32_t __wrap_bwtree_raw_room(T tree, uint32_t seat, bwtree_room *room);
uint32_t __wrap_bwtree_raw_room(T tree, uint32_t seat, bwtree_room *room) {
    uint32_t status = __real_bwtree_raw_room(tree, seat, room);
    if (has(ROOM_FOR_ALL) && status == BWTREE_OK) room->free_pages += 64;
    return status;
}
