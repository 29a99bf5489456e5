/* bwtree_walks.h: what a program does with pages: walks in both directions, with bounds or a prefix, and the neighbours of a key; and with several calls: a
 * value that is replaced only if there is one, and how many keys a tree has.
 *
 * Each page is atomic. A walk is no snapshot: it proceeds page by page, returns each key that is there throughout and none that never is, in order. The
 * neighbour of a key is atomic if the first page that is read has a pair; if that page is empty, further pages are read, and the answer is a walk's.
 *
 * These functions resume a call that is SPENT until it is done. Each names the statuses that it returns, but for NULL, which each returns where a pointer is
 * null that may not be. Behind a semicolon are those from which on nothing was written: CLOSED, NO_SEAT, BUSY, UNFINISHED and TOO_LONG have the meaning that
 * they have in bwtree.h.
 */
#ifndef BWTREE_WALKS_H
#define BWTREE_WALKS_H

#include "bwtree_keys.h"

#ifdef __cplusplus
extern "C" {
#endif

/* What a call came to, once it is done. */
BWTREE_PRIVATE_ uint32_t bwtree_done_(const bwtree *tree, uint32_t seat, uint32_t status, bwtree_bytes *old) {
    bwtree_page_pairs unused;
    while (status == BWTREE_SPENT) status = bwtree_resume(tree, seat, 1 << 16, old, &unused);
    return status;
}

/* A page from a key on, or backward, up to it. */
BWTREE_PRIVATE_ uint32_t bwtree_paged_(const bwtree *tree, uint32_t seat, const bwtree_bytes *at, int backward, bwtree_page_pairs *page) {
    bwtree_bytes old, key = *at;
    uint32_t status = backward ? bwtree_back(tree, seat, key.bytes, key.length, page) : bwtree_page(tree, seat, key.bytes, key.length, page);
    while (status == BWTREE_SPENT) status = bwtree_resume(tree, seat, 1 << 16, &old, page);
    return status;
}

/* The order of two keys: less than, equal to or greater than 0, as of memcmp. It tests no pointer. */
BWTREE_PRIVATE_ int bwtree_compare_keys(const bwtree_bytes *one, const bwtree_bytes *other) {
    size_t common = (size_t)(one->length < other->length ? one->length : other->length);
    int order = memcmp(one->bytes, other->bytes, common);
    return order ? order : one->length < other->length ? -1 : one->length > other->length;
}

/* ---- Ranges ---- */

/* The keys from one on, and below another one where `bounded` is 1. All zero: all keys. */
typedef struct bwtree_range {
    bwtree_bytes from;
    bwtree_bytes below;
    uint64_t bounded;
} bwtree_range;

/* The keys from one on, and below another one. Null is no bound. OK with `range`; TOO_LONG. */
BWTREE_PRIVATE_ uint32_t bwtree_between(const void *from, size_t from_length, const void *below, size_t below_length, bwtree_range *range) {
    bwtree_range set = {{0, {0}}, {0, {0}}, below != NULL};
    if (!range || (!from && from_length) || (!below && below_length)) return BWTREE_NULL;
    if (bwtree_key_bytes(&set.from, from, from_length) || bwtree_key_bytes(&set.below, below, below_length)) return BWTREE_TOO_LONG;
    *range = set;
    return BWTREE_OK;
}

/* The keys that begin with some bytes. OK with `range`; TOO_LONG. */
BWTREE_PRIVATE_ uint32_t bwtree_prefix(const void *prefix, size_t length, bwtree_range *range) {
    uint32_t status = bwtree_between(prefix, length, NULL, 0, range);
    if (status != BWTREE_OK) return status;
    range->below = range->from;
    range->bounded = (uint64_t)bwtree_key_behind(&range->below);
    return BWTREE_OK;
}

/* ---- Walks ---- */

/* A walk over the pairs of a range, forward or backward. Only the functions here read it. */
typedef struct bwtree_walk {
    bwtree_range range_;
    bwtree_page_pairs page_;
    uint64_t shown_;
    int backward_;
} bwtree_walk;

/* Begins a walk over a range; backward, where that is 1: from its greatest key down. No call is made. OK with `walk`. */
BWTREE_PRIVATE_ uint32_t bwtree_walk_begin(bwtree_walk *walk, const bwtree_range *range, int backward) {
    if (!walk || !range) return BWTREE_NULL;
    walk->range_ = *range;
    walk->page_.count = walk->shown_ = 0;
    walk->page_.more = 1;
    walk->page_.next = range->from;
    walk->backward_ = backward;
    if (!backward) return BWTREE_OK;
    memset(walk->page_.next.bytes, 255, BWTREE_MAX_LENGTH);
    walk->page_.next.length = BWTREE_MAX_LENGTH;
    if (!range->bounded) return BWTREE_OK;
    walk->page_.next = range->below;
    walk->page_.more = (uint64_t)bwtree_key_before(&walk->page_.next);
    return BWTREE_OK;
}

/* The next pair of a walk. OK with `pair`, ABSENT at the end; CLOSED, NO_SEAT, BUSY, UNFINISHED: the walk stays where it was, and may go on. */
BWTREE_PRIVATE_ uint32_t bwtree_walk_next(const bwtree *tree, uint32_t seat, bwtree_walk *walk, bwtree_pair *pair) {
    const bwtree_pair *next;
    if (!walk || !pair) return BWTREE_NULL;
    while (walk->shown_ == walk->page_.count) {
        uint32_t status;
        if (!walk->page_.more) return BWTREE_ABSENT;
        status = bwtree_paged_(tree, seat, &walk->page_.next, walk->backward_, &walk->page_);
        if (status != BWTREE_OK) return status;
        walk->shown_ = 0;
    }
    next = &walk->page_.pairs[walk->backward_ ? walk->page_.count - 1 - walk->shown_ : walk->shown_];
    if (walk->backward_ ? bwtree_compare_keys(&next->key, &walk->range_.from) < 0
                        : walk->range_.bounded && bwtree_compare_keys(&next->key, &walk->range_.below) >= 0) {
        walk->page_.count = walk->page_.more = walk->shown_ = 0;
        return BWTREE_ABSENT;
    }
    *pair = *next;
    walk->shown_++;
    return BWTREE_OK;
}

/* ---- Neighbours: OK with `pair`, ABSENT where there is none; CLOSED, NO_SEAT, BUSY, UNFINISHED, TOO_LONG ---- */

/* The pair of the least key from one on, or, backward, of the greatest key up to one. */
BWTREE_PRIVATE_ uint32_t bwtree_nearest_(const bwtree *tree, uint32_t seat, const bwtree_bytes *key, int backward, bwtree_pair *pair) {
    bwtree_page_pairs page;
    page.next = *key;
    do {
        uint32_t status = bwtree_paged_(tree, seat, &page.next, backward, &page);
        if (status != BWTREE_OK) return status;
        if (page.count) {
            *pair = page.pairs[backward ? page.count - 1 : 0];
            return BWTREE_OK;
        }
    } while (page.more);
    return BWTREE_ABSENT;
}

/* A key as the functions below have it: OK, NULL, TOO_LONG. */
BWTREE_PRIVATE_ uint32_t bwtree_near_(const bwtree *tree, const void *key, size_t length, const bwtree_pair *pair, bwtree_bytes *near_key) {
    near_key->length = 0;
    if (!tree || !pair || (!key && length)) return BWTREE_NULL;
    return bwtree_key_bytes(near_key, key, length);
}

/* The pair of the least key that isn't below a key. */
BWTREE_PRIVATE_ uint32_t bwtree_ceiling(const bwtree *tree, uint32_t seat, const void *key, size_t key_length, bwtree_pair *pair) {
    bwtree_bytes at;
    uint32_t status = bwtree_near_(tree, key, key_length, pair, &at);
    return status ? status : bwtree_nearest_(tree, seat, &at, 0, pair);
}

/* The pair of the greatest key that isn't above a key. */
BWTREE_PRIVATE_ uint32_t bwtree_floor(const bwtree *tree, uint32_t seat, const void *key, size_t key_length, bwtree_pair *pair) {
    bwtree_bytes at;
    uint32_t status = bwtree_near_(tree, key, key_length, pair, &at);
    return status ? status : bwtree_nearest_(tree, seat, &at, 1, pair);
}

/* The pair of the least key above a key. Where no key is above it, no call is made. */
BWTREE_PRIVATE_ uint32_t bwtree_higher(const bwtree *tree, uint32_t seat, const void *key, size_t key_length, bwtree_pair *pair) {
    bwtree_bytes at;
    uint32_t status = bwtree_near_(tree, key, key_length, pair, &at);
    if (status) return status;
    return bwtree_key_after(&at) ? bwtree_nearest_(tree, seat, &at, 0, pair) : (uint32_t)BWTREE_ABSENT;
}

/* The pair of the greatest key below a key. Of the empty key no call is made. */
BWTREE_PRIVATE_ uint32_t bwtree_lower(const bwtree *tree, uint32_t seat, const void *key, size_t key_length, bwtree_pair *pair) {
    bwtree_bytes at;
    uint32_t status = bwtree_near_(tree, key, key_length, pair, &at);
    if (status) return status;
    return bwtree_key_before(&at) ? bwtree_nearest_(tree, seat, &at, 1, pair) : (uint32_t)BWTREE_ABSENT;
}

/* The pair of the least key. */
BWTREE_PRIVATE_ uint32_t bwtree_first(const bwtree *tree, uint32_t seat, bwtree_pair *pair) {
    return bwtree_ceiling(tree, seat, "", 0, pair);
}

/* The pair of the greatest key. */
BWTREE_PRIVATE_ uint32_t bwtree_last(const bwtree *tree, uint32_t seat, bwtree_pair *pair) {
    uint8_t greatest[BWTREE_MAX_LENGTH];
    memset(greatest, 255, sizeof greatest);
    return bwtree_floor(tree, seat, greatest, sizeof greatest, pair);
}

/* ---- Several calls ---- */

/* Gives a key a value where it has one: by bwtree_get, and then bwtree_compare_and_set until one succeeds. It takes effect atomically, in its last call.
 * REPLACED with `old`, ABSENT, FULL: no key was changed; CLOSED, NO_SEAT, BUSY, UNFINISHED, TOO_LONG. */
BWTREE_PRIVATE_ uint32_t bwtree_replace(const bwtree *tree, uint32_t seat, const void *key, size_t key_length, const void *value, size_t value_length,
                                      bwtree_bytes *old) {
    bwtree_bytes expected, found;
    uint32_t status;
    if (!tree || !old || (!key && key_length) || (!value && value_length)) return BWTREE_NULL;
    if (value_length > BWTREE_MAX_LENGTH) return BWTREE_TOO_LONG;
    status = bwtree_done_(tree, seat, bwtree_get(tree, seat, key, key_length, &found), &found);
    if (status != BWTREE_OK) return status;
    do {
        expected = found;
        status = bwtree_compare_and_set(tree, seat, key, key_length, expected.bytes, expected.length, value, value_length, &found);
        status = bwtree_done_(tree, seat, status, &found);
    } while (status == BWTREE_DIFFERS);
    if (status != BWTREE_OK) return status;
    *old = expected;
    return BWTREE_REPLACED;
}

/* Copies all pairs of a tree by a walk, keys ascending, `count` of them. Where a thread was ended inside a call, its seat is BUSY for good and the tree can't
 * be closed: this moves its pairs to a new tree (bwtree_open_from), by another seat; the old one's memory stays. OK with
 * `pairs` and `count`, NO_ROOM with `count`, and with as many pairs as there is room for; CLOSED, NO_SEAT, BUSY, UNFINISHED: `pairs` may be written. */
BWTREE_PRIVATE_ uint32_t bwtree_copy_pairs(const bwtree *tree, uint32_t seat, bwtree_pair *pairs, size_t room, uint64_t *count) {
    bwtree_page_pairs page;
    uint64_t copied = 0;
    if (!tree || !count || (!pairs && room)) return BWTREE_NULL;
    page.next.length = 0;
    do {
        uint32_t status = bwtree_paged_(tree, seat, &page.next, 0, &page);
        if (status != BWTREE_OK) return status;
        for (uint64_t i = 0; i < page.count; i++, copied++)
            if (copied < room) pairs[copied] = page.pairs[i];
    } while (page.more);
    *count = copied;
    return copied > room ? (uint32_t)BWTREE_NO_ROOM : (uint32_t)BWTREE_OK;
}

/* A count of a tree's keys, which its seats keep, each in a cache line of its own. All bytes zero: 0, as for an empty tree. The thread that uses a seat passes
 * the status of each finished operation. The sum is exact when no operation is under way; otherwise it may lack some that are. These functions test no
 * pointer. */
typedef struct bwtree_count {
    struct {
        int64_t keys;
        int64_t unused_[7];
    } seats_[BWTREE_MAX_SEATS];
} bwtree_count;

/* Counts so many more keys of a seat, as those that a tree is opened with. */
BWTREE_PRIVATE_ void bwtree_count_more(bwtree_count *count, uint32_t seat, int64_t more) {
    int64_t *keys = &count->seats_[seat % BWTREE_MAX_SEATS].keys;
    __atomic_store_n(keys, __atomic_load_n(keys, __ATOMIC_RELAXED) + more, __ATOMIC_RELAXED);
}

/* Counts an insert, an upsert or an add that answered this. */
BWTREE_PRIVATE_ void bwtree_count_set(bwtree_count *count, uint32_t seat, uint32_t status) {
    if (status == BWTREE_OK) bwtree_count_more(count, seat, 1);
}

/* Counts a delete or a delete_if that answered this. */
BWTREE_PRIVATE_ void bwtree_count_deleted(bwtree_count *count, uint32_t seat, uint32_t status) {
    if (status == BWTREE_OK) bwtree_count_more(count, seat, -1);
}

/* The sum over all seats, or 0 if operations under way make it negative. */
BWTREE_PRIVATE_ uint64_t bwtree_counted(const bwtree_count *count) {
    int64_t sum = 0;
    for (int seat = 0; seat < BWTREE_MAX_SEATS; seat++) sum += __atomic_load_n(&count->seats_[seat].keys, __ATOMIC_RELAXED);
    return sum < 0 ? 0 : (uint64_t)sum;
}

#ifdef __cplusplus
}
#endif
#endif
