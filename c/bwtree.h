/* bwtree.h: an ordered map from byte strings to byte strings, in memory, for many threads, without locks.
 *
 * One handle stands for a tree, and all threads share it. A tree has 1 to 16 seats, a large one 1 to 63, numbered from 0. A call names the
 * seat that it runs on; at any moment one call at most is inside a seat, and no call waits for another one. A thread that ends leaves nothing
 * behind: its seat's number is free for the next one.
 *
 *     static bwtree tree;                                             // all bytes zero: it was never opened
 *     bwtree_limits limits;
 *     if (bwtree_limits_for_keys(4, 10000, &limits) != BWTREE_OK) ...
 *     if (bwtree_open(&limits, &tree) != BWTREE_OK) ...
 *     // thread i of 4: bwtree_upsert(&tree, i, key, key_length, value, value_length, &old)
 *     bwtree_close(&tree);
 *
 * Each function names the statuses that it returns, but for NULL, which each returns where a pointer is null: that of a text may be, if its length is 0.
 * After a semicolon stand SPENT and the statuses with which nothing was done or written. Where several fit, the first of these is returned: of a call on a seat
 * NULL, TOO_LONG, SPENT of a new call with a budget of 0, CLOSED of a handle that was never opened, NO_SEAT, CLOSED or BUSY, UNFINISHED or IDLE; of an opening
 * NULL, BAD_VERSION, BAD_LIMITS, OPEN, TOO_LONG or NO_MEMORY, BAD_ORDER. C99 or C++ is needed, and a processor of the level x86-64-v2.
 *
 * Every misuse of a tree that was opened is answered with a status, also where threads race: a tree that is closed, or closes while calls run, a
 * seat that it doesn't have, a seat that another call is inside, a seat whose last operation isn't done, 65 bytes, too little room, null with a length.
 *
 * What the library relies on, and can't test:
 *   - A handle's bytes are all zero before it is opened, and from then on only the library writes them. It is not copied: pass its address.
 *   - While bwtree_open or bwtree_open_from runs on a handle, no other call has that handle. An opened handle is passed to other threads by a lock, a thread's
 *     start, or a sequentially consistent atomic. All other calls may share a handle, at any time.
 *   - Pointers point to what their types say. What a call writes (value, old, page, room, limits, pairs, count) no other call has meanwhile, and it lies
 *     apart from all else that the call is given: where a walk goes on from page.next, that is copied first.
 *   - A thread that calls has 512 KB of stack.
 *   - A thread is not cancelled or ended inside a call (pthread_cancel with asynchronous cancellation, a longjmp out of a signal handler).
 *     Otherwise the seat stays BUSY for ever, and so do bwtree_close and bwtree_close_pairs: the tree can't be freed, nor its pairs be handed over. Calls on
 *     other seats go on; as what that seat holds back is never freed, writes are FULL in the end. Give such a tree up: bwtree_copy_pairs (bwtree_walks.h)
 *     copies its pairs by another seat, and bwtree_open_from opens a new one with them.
 *   - The library calls malloc and free, when a tree is opened and closed, and never in another call. No call is made from a signal handler, nor,
 *     in a process with threads, from a child that was forked.
 *
 * Full: a write may be FULL for a moment, while another call holds back what was taken out: make it again (bwtree_waits.h). A small tree that is filled
 * beyond its limits may be read-only for good: then deletions, and upserts of keys that have a value, are FULL, too, since each would have to split its page
 * first. In a large tree insertions alone are FULL then: delete keys, and insert others. But a page with longer pairs than those that the limits were proposed
 * for needs a wide row, and while none is free each write of its keys may be FULL, a deletion, too, for good. Reads and walks go on, and so does
 * bwtree_close_pairs: open a larger tree with these pairs. A program that takes keys from outside keeps count of them, and of long ones.
 *
 * Order: the tree is linearizable (Herlihy and Wing), proved over all states of the tree. All calls of all threads form one sequential history of an
 * ordered map. Each call takes effect at one of its own atomic steps, so a call that has returned precedes a call that begins afterwards, whatever
 * threads and seats make the two. In a program's own proof, order between two seats comes from meeting or a note, because the language has no clock.
 * What happens-before gives in C: docs/C.md, Order.
 */
#ifndef BWTREE_H
#define BWTREE_H

#include <stddef.h>
#include <stdint.h>

#ifdef __cplusplus
extern "C" {
#endif

#define BWTREE_VERSION "0.2.0" /* what its numbers mean: CHANGELOG.md */
#define BWTREE_MAX_LENGTH 64  /* bytes of a key or a value */
#define BWTREE_MAX_SEATS 63   /* seats of a large tree */
#define BWTREE_MAX_SMALL_SEATS 16 /* seats of any other one */
#define BWTREE_PAGE_PAIRS 24  /* pairs of a page */

/* The functions of these headers are compiled into each program. The library has those of this one under their own names, too, for languages that read no
 * header. */
#ifdef __cplusplus
#define BWTREE_PRIVATE_ inline
#else
#define BWTREE_PRIVATE_ static inline
#endif
#ifndef BWTREE_INLINE
#define BWTREE_INLINE BWTREE_PRIVATE_
#endif

/* What a call answers. Below 16 an operation ran: FULL changed no key, SPENT isn't done. From 16 on nothing was done, and nothing that the call may write was
 * written. */
enum {
    BWTREE_OK = 0,          /* done: the key had the value, or got one, or lost it */
    BWTREE_ABSENT = 1,      /* the key has no value (get, delete, delete_if, compare_and_set) */
    BWTREE_EXISTS = 2,      /* the key has the value `old`, and keeps it (insert) */
    BWTREE_REPLACED = 3,    /* done: the key had the value `old` before (upsert, add) */
    BWTREE_DIFFERS = 4,     /* the key has the value `old`, and keeps it: not the expected one (delete_if, compare_and_set), or not of eight bytes (add) */
    BWTREE_FULL = 5,        /* nothing was free for a change, and no key was changed: for a moment, or for good (above, *Full*) */
    BWTREE_SPENT = 6,       /* after 65,536 steps, or as many as the call was given, the operation isn't done: it stays in the seat. Resume it (of a budget of 0
                             * nothing was begun) */
    BWTREE_NO_ROOM = 7,     /* the tree is closed, and its pairs, which are more than there is room for, wait (close_pairs) */
    BWTREE_CLOSED = 16,     /* the tree is closed, or was never opened */
    BWTREE_NO_SEAT = 17,    /* the tree has no seat of this number */
    BWTREE_BUSY = 18,       /* another call is inside the seat; of close: inside some seat, or another closing runs */
    BWTREE_UNFINISHED = 19, /* the seat's last operation isn't done: resume it first; of close_pairs: some seat's */
    BWTREE_IDLE = 20,       /* the seat has no operation to resume */
    BWTREE_TOO_LONG = 21,   /* a key or a value has more than 64 bytes */
    BWTREE_BAD_LIMITS = 22, /* a limit is outside its range */
    BWTREE_NO_MEMORY = 23,  /* malloc refused */
    BWTREE_OPEN = 24,       /* a handle that is to be opened has a tree that isn't closed, or pairs that wait */
    BWTREE_NULL = 25,       /* a pointer is null (answered by this header, which calls nothing then) */
    BWTREE_BAD_ORDER = 26,  /* the keys of the pairs that a tree is to be opened with don't ascend */
    BWTREE_BAD_VERSION = 27 /* the library doesn't go with the header's version (open and open_from, answered by this header) */
};

/* The handle of a tree. All zero: never opened. */
typedef struct bwtree {
    uint64_t held_;
    const void *at_;
} bwtree;

/* How large a tree is. */
typedef struct bwtree_limits {
    uint64_t actors;  /* seats: 1 to 16, of a large tree to 63 */
    uint64_t pages;   /* pages: 64 to 4,096, of a large tree to 4,194,304, a multiple of 64 */
    uint64_t records; /* records: 64 to 16,384, of a large tree to 67,108,864, a multiple of 64; one takes 4,096 bytes, but with large = 2 */
    uint64_t epoch;   /* at which the tree opens: 1 to 2^62; 1 if nothing else is wanted */
    uint64_t large;   /* 0 of a small tree; of a large one, whose pages take fewer records, 1, or 2 with records of three widths: */
    uint64_t narrow_records; /* so many records, a multiple of 64, have narrow_words words of 8 bytes, for single changes */
    uint64_t wide_from;      /* those from there up to this number, a multiple of 64 below records, have page_words, for pages; the others have 512 */
    uint64_t narrow_words;   /* 8 at least */
    uint64_t page_words;     /* 24 to 512, and not less than narrow_words */
} bwtree_limits;

/* At most 64 bytes: the first `length` of them count. */
typedef struct bwtree_bytes {
    uint64_t length;
    uint8_t bytes[BWTREE_MAX_LENGTH];
} bwtree_bytes;

typedef struct bwtree_pair {
    bwtree_bytes key;
    bwtree_bytes value;
} bwtree_pair;

/* The pairs of one leaf from a key on, or up to a key, keys ascending, 0 to 24 of them. Where `more` is 1, the walk goes on from `next`, or backward
 * at `next`; where it is 0, it is at its end. */
typedef struct bwtree_page_pairs {
    uint64_t count;
    uint64_t more;
    bwtree_bytes next;
    bwtree_pair pairs[BWTREE_PAGE_PAIRS];
} bwtree_page_pairs;

/* How many pages and records are free. Those that a seat holds back are not among them. */
typedef struct bwtree_room {
    uint64_t free_pages;
    uint64_t free_records;
} bwtree_room;

/* The version of the library that runs: BWTREE_VERSION of the header that it was built with. */
const char *bwtree_version(void);

/* Whether the library goes with a program that was built for a version, such as BWTREE_VERSION: 1 or 0. While versions begin with 0, it does if their second
 * numbers are the same and its third number is not less; later, if their first numbers are the same and the rest of its own is not less. */
int bwtree_goes_with(const char *version);

/* ---- The proved functions. They test no pointer: a slice is a pointer that isn't null, also where its length is 0, and its length in bytes.
 * Proved of them: a call continues its seat from the last call on it, and a closing hands over what all calls that have returned have left
 * (docs/PROVED.md, Calls from C).
 * Each answers what its namesake below answers (raw_swap what compare_and_set, raw_room what free_room does), but BWTREE_NULL. The two that open answer OPEN
 * also of a handle whose tree is closed: bwtree_raw_vacate empties it first (OK), and answers OPEN where the tree isn't closed or pairs wait, with
 * the handle as it was. ---- */

uint32_t bwtree_raw_limits_for_keys(uint64_t actors, uint64_t keys, bwtree_limits *limits);
uint32_t bwtree_raw_limits_for_many_keys(uint64_t actors, uint64_t keys, bwtree_limits *limits);
uint32_t bwtree_raw_limits_for_pairs(uint64_t actors, uint64_t keys, uint64_t key_bytes, uint64_t value_bytes, bwtree_limits *limits);
uint32_t bwtree_raw_open(const bwtree_limits *limits, bwtree *tree);
uint32_t bwtree_raw_open_from(const bwtree_limits *limits, const bwtree_pair *pairs, size_t count, bwtree *tree);
uint32_t bwtree_raw_vacate(bwtree *tree);
uint32_t bwtree_raw_close(const bwtree *tree);
uint32_t bwtree_raw_close_pairs(const bwtree *tree, bwtree_pair *pairs, size_t room, uint64_t *count);
uint32_t bwtree_raw_get(const bwtree *tree, uint32_t seat, const void *key, size_t key_length, bwtree_bytes *value);
uint32_t bwtree_raw_get_within(const bwtree *tree, uint32_t seat, uint32_t budget, const void *key, size_t key_length, bwtree_bytes *value);
uint32_t bwtree_raw_insert(const bwtree *tree, uint32_t seat, const void *key, size_t key_length, const void *value, size_t value_length,
                           bwtree_bytes *old);
uint32_t bwtree_raw_upsert(const bwtree *tree, uint32_t seat, const void *key, size_t key_length, const void *value, size_t value_length,
                           bwtree_bytes *old);
uint32_t bwtree_raw_upsert_within(const bwtree *tree, uint32_t seat, uint32_t budget, const void *key, size_t key_length, const void *value,
                                  size_t value_length, bwtree_bytes *old);
uint32_t bwtree_raw_delete(const bwtree *tree, uint32_t seat, const void *key, size_t key_length, bwtree_bytes *old);
uint32_t bwtree_raw_delete_if(const bwtree *tree, uint32_t seat, const void *key, size_t key_length, const void *expected, size_t expected_length,
                              bwtree_bytes *old);
uint32_t bwtree_raw_swap(const bwtree *tree, uint32_t seat, const void *key, size_t key_length, const void *expected, size_t expected_length,
                         const void *value, size_t value_length, bwtree_bytes *old);
uint32_t bwtree_raw_add(const bwtree *tree, uint32_t seat, const void *key, size_t key_length, uint64_t number, bwtree_bytes *old);
uint32_t bwtree_raw_tidy(const bwtree *tree, uint32_t seat, const void *key, size_t key_length);
uint32_t bwtree_raw_page(const bwtree *tree, uint32_t seat, const void *from, size_t from_length, bwtree_page_pairs *page);
uint32_t bwtree_raw_back(const bwtree *tree, uint32_t seat, const void *upto, size_t upto_length, bwtree_page_pairs *page);
uint32_t bwtree_raw_resume(const bwtree *tree, uint32_t seat, uint32_t budget, bwtree_bytes *old, bwtree_page_pairs *page);
uint32_t bwtree_raw_is_idle(const bwtree *tree, uint32_t seat);
uint32_t bwtree_raw_room(const bwtree *tree, uint32_t seat, bwtree_room *room);

/* ---- What a program calls. ---- */

/* The bytes of a slice: any place will do for none. */
BWTREE_PRIVATE_ const void *bwtree_slice_(const void *bytes) {
    return bytes ? bytes : "";
}

/* Limits for a tree with so many seats and so many different keys, all counted that it ever has. OK with `limits`; BAD_LIMITS, of 0 or more than 16 seats, and
 * of more keys than fit: 12,199 for one seat, 11,535 for 4, 9,751 for 16. */
BWTREE_INLINE uint32_t bwtree_limits_for_keys(uint64_t actors, uint64_t keys, bwtree_limits *limits) {
    if (!limits) return BWTREE_NULL;
    return bwtree_raw_limits_for_keys(actors, keys, limits);
}

/* Limits for a large tree of pairs of any length: up to 27 million keys, in some 500 bytes each, and with several seats in 26 MB more if the keys are few: so
 * 16,384 updates have room while a thread is stopped inside a call. OK with `limits`; BAD_LIMITS, of 0 or more than 63 seats, and of too many keys. */
BWTREE_INLINE uint32_t bwtree_limits_for_many_keys(uint64_t actors, uint64_t keys, bwtree_limits *limits) {
    if (!limits) return BWTREE_NULL;
    return bwtree_raw_limits_for_many_keys(actors, keys, limits);
}

/* Limits for a large tree of pairs whose keys and values mostly have at most so many bytes, of 16 and 8 in some 141 bytes a key, and 7 MB; longer pairs are
 * taken, too, as far as wide records suffice, one for each 64 pages. OK with `limits`; BAD_LIMITS, of more than 64 bytes, too. */
BWTREE_INLINE uint32_t bwtree_limits_for_pairs(uint64_t actors, uint64_t keys, uint64_t key_bytes, uint64_t value_bytes, bwtree_limits *limits) {
    if (!limits) return BWTREE_NULL;
    return bwtree_raw_limits_for_pairs(actors, keys, key_bytes, value_bytes, limits);
}

/* Opens an empty tree. The handle was never opened, or its tree is closed. OK; BAD_LIMITS, OPEN, BAD_VERSION: the handle
 * is as it was; NO_MEMORY: no tree is open. */
BWTREE_INLINE uint32_t bwtree_open(const bwtree_limits *limits, bwtree *tree) {
    uint32_t status;
    if (!limits || !tree) return BWTREE_NULL;
    if (!bwtree_goes_with(BWTREE_VERSION)) return BWTREE_BAD_VERSION;
    status = bwtree_raw_open(limits, tree);
    if (status == BWTREE_OPEN && bwtree_raw_vacate(tree) == BWTREE_OK) status = bwtree_raw_open(limits, tree);
    return status;
}

/* Opens a tree with so many pairs, whose keys ascend: seat 0 upserts them in order. The handle was never opened, or its tree is closed. The pairs may go
 * when the call is done, which takes memory for a copy of them meanwhile. OK; BAD_LIMITS, OPEN, BAD_VERSION: the handle is as it was; FULL or SPENT, where
 * that is what an upsert came to, TOO_LONG, BAD_ORDER, NO_MEMORY: no tree is open. */
BWTREE_INLINE uint32_t bwtree_open_from(const bwtree_limits *limits, const bwtree_pair *pairs, size_t count, bwtree *tree) {
    static const bwtree_pair none = {{0, {0}}, {0, {0}}};
    uint32_t status;
    if (!limits || !tree || (!pairs && count)) return BWTREE_NULL;
    if (!bwtree_goes_with(BWTREE_VERSION)) return BWTREE_BAD_VERSION;
    if (!pairs) pairs = &none;
    status = bwtree_raw_open_from(limits, pairs, count, tree);
    if (status == BWTREE_OPEN && bwtree_raw_vacate(tree) == BWTREE_OK) status = bwtree_raw_open_from(limits, pairs, count, tree);
    return status;
}

/* Closes a tree, and frees it; or frees the pairs that wait. OK; CLOSED, BUSY: the tree stays open. 176 bytes of an opened tree, and 40 for each seat, are
 * never freed, so that a call that comes too late is answered CLOSED, whenever it comes. */
BWTREE_INLINE uint32_t bwtree_close(const bwtree *tree) {
    if (!tree) return BWTREE_NULL;
    return bwtree_raw_close(tree);
}

/* Closes a tree on which nothing is under way, frees it, and hands all its pairs over, keys ascending, `count` of them: bwtree_open_from takes them. OK.
 * NO_ROOM: there is room for fewer than `count`, and none is written. The tree is closed to all other calls, and its pairs wait: for this call with more
 * room, or for bwtree_close. UNFINISHED, CLOSED, BUSY; NO_MEMORY, for a list of 24 pairs a page, for which no closed tree asks: the
 * tree stays open. */
BWTREE_INLINE uint32_t bwtree_close_pairs(const bwtree *tree, bwtree_pair *pairs, size_t room, uint64_t *count) {
    bwtree_pair none;
    if (!tree || !count || (!pairs && room)) return BWTREE_NULL;
    return bwtree_raw_close_pairs(tree, pairs ? pairs : &none, room, count);
}

/* The value of a key. OK with `value`, ABSENT; SPENT, CLOSED, NO_SEAT, BUSY, UNFINISHED, TOO_LONG. */
BWTREE_INLINE uint32_t bwtree_get(const bwtree *tree, uint32_t seat, const void *key, size_t key_length, bwtree_bytes *value) {
    if (!tree || !value || (!key && key_length)) return BWTREE_NULL;
    return bwtree_raw_get(tree, seat, bwtree_slice_(key), key_length, value);
}

/* As bwtree_get, in at most `budget` steps, for a caller whose calls must be short. A step is one load, store or exchange in the tree, and what is computed
 * between two. Of a budget of 0 it is SPENT, whatever the handle and the seat are, but for NULL and TOO_LONG: nothing is begun, and there is nothing to
 * resume. */
BWTREE_INLINE uint32_t bwtree_get_within(const bwtree *tree, uint32_t seat, uint32_t budget, const void *key, size_t key_length, bwtree_bytes *value) {
    if (!tree || !value || (!key && key_length)) return BWTREE_NULL;
    return bwtree_raw_get_within(tree, seat, budget, bwtree_slice_(key), key_length, value);
}

/* Gives a key a value where it has none. OK, EXISTS with `old`, FULL; SPENT, CLOSED, NO_SEAT, BUSY, UNFINISHED, TOO_LONG. */
BWTREE_INLINE uint32_t bwtree_insert(const bwtree *tree, uint32_t seat, const void *key, size_t key_length, const void *value, size_t value_length,
                                     bwtree_bytes *old) {
    if (!tree || !old || (!key && key_length) || (!value && value_length)) return BWTREE_NULL;
    return bwtree_raw_insert(tree, seat, bwtree_slice_(key), key_length, bwtree_slice_(value), value_length, old);
}

/* Gives a key a value, in place of the one that it has. OK, REPLACED with `old`, FULL; SPENT, CLOSED, NO_SEAT, BUSY, UNFINISHED, TOO_LONG. */
BWTREE_INLINE uint32_t bwtree_upsert(const bwtree *tree, uint32_t seat, const void *key, size_t key_length, const void *value, size_t value_length,
                                     bwtree_bytes *old) {
    if (!tree || !old || (!key && key_length) || (!value && value_length)) return BWTREE_NULL;
    return bwtree_raw_upsert(tree, seat, bwtree_slice_(key), key_length, bwtree_slice_(value), value_length, old);
}

/* As bwtree_upsert, in at most `budget` steps; of 0 as bwtree_get_within. */
BWTREE_INLINE uint32_t bwtree_upsert_within(const bwtree *tree, uint32_t seat, uint32_t budget, const void *key, size_t key_length, const void *value,
                                            size_t value_length, bwtree_bytes *old) {
    if (!tree || !old || (!key && key_length) || (!value && value_length)) return BWTREE_NULL;
    return bwtree_raw_upsert_within(tree, seat, budget, bwtree_slice_(key), key_length, bwtree_slice_(value), value_length, old);
}

/* Makes a key absent. OK with `old`, ABSENT, FULL; SPENT, CLOSED, NO_SEAT, BUSY, UNFINISHED, TOO_LONG. */
BWTREE_INLINE uint32_t bwtree_delete(const bwtree *tree, uint32_t seat, const void *key, size_t key_length, bwtree_bytes *old) {
    if (!tree || !old || (!key && key_length)) return BWTREE_NULL;
    return bwtree_raw_delete(tree, seat, bwtree_slice_(key), key_length, old);
}

/* Makes a key absent where it has the expected value. OK with `old`, DIFFERS with `old`, ABSENT, FULL; SPENT, CLOSED, NO_SEAT, BUSY, UNFINISHED, TOO_LONG. */
BWTREE_INLINE uint32_t bwtree_delete_if(const bwtree *tree, uint32_t seat, const void *key, size_t key_length, const void *expected,
                                        size_t expected_length, bwtree_bytes *old) {
    if (!tree || !old || (!key && key_length) || (!expected && expected_length)) return BWTREE_NULL;
    return bwtree_raw_delete_if(tree, seat, bwtree_slice_(key), key_length, bwtree_slice_(expected), expected_length, old);
}

/* Gives a key the value where it has the expected one. OK, DIFFERS with `old`, ABSENT, FULL; SPENT, CLOSED, NO_SEAT, BUSY, UNFINISHED, TOO_LONG. */
BWTREE_INLINE uint32_t bwtree_compare_and_set(const bwtree *tree, uint32_t seat, const void *key, size_t key_length, const void *expected,
                                   size_t expected_length, const void *value, size_t value_length, bwtree_bytes *old) {
    if (!tree || !old || (!key && key_length) || (!expected && expected_length) || (!value && value_length)) return BWTREE_NULL;
    return bwtree_raw_swap(tree, seat, bwtree_slice_(key), key_length, bwtree_slice_(expected), expected_length, bwtree_slice_(value), value_length,
                           old);
}

/* Adds a number, modulo 2^64, to the one that a key's value of eight bytes is, the highest byte first; a key without a value gets the number. OK, REPLACED
 * with `old`, DIFFERS with `old`, FULL; SPENT, CLOSED, NO_SEAT, BUSY, UNFINISHED, TOO_LONG. */
BWTREE_INLINE uint32_t bwtree_add(const bwtree *tree, uint32_t seat, const void *key, size_t key_length, uint64_t number, bwtree_bytes *old) {
    if (!tree || !old || (!key && key_length)) return BWTREE_NULL;
    return bwtree_raw_add(tree, seat, bwtree_slice_(key), key_length, number, old);
}

/* Does what upkeep is due at the leaf of a key; no value changes. OK, FULL; SPENT, CLOSED, NO_SEAT, BUSY, UNFINISHED, TOO_LONG. */
BWTREE_INLINE uint32_t bwtree_tidy(const bwtree *tree, uint32_t seat, const void *key, size_t key_length) {
    if (!tree || (!key && key_length)) return BWTREE_NULL;
    return bwtree_raw_tidy(tree, seat, bwtree_slice_(key), key_length);
}

/* The pairs of one leaf from a key on. A page may be empty and have more after it. OK with `page`; SPENT, CLOSED, NO_SEAT, BUSY, UNFINISHED, TOO_LONG. */
BWTREE_INLINE uint32_t bwtree_page(const bwtree *tree, uint32_t seat, const void *from, size_t from_length, bwtree_page_pairs *page) {
    if (!tree || !page || (!from && from_length)) return BWTREE_NULL;
    return bwtree_raw_page(tree, seat, bwtree_slice_(from), from_length, page);
}

/* The pairs of the leaf that has a key, up to that key, and in `next` the greatest key below that leaf, at which the next page backward goes on. A page may
 * be empty and have more before it. OK with `page`; SPENT, CLOSED, NO_SEAT, BUSY, UNFINISHED, TOO_LONG. */
BWTREE_INLINE uint32_t bwtree_back(const bwtree *tree, uint32_t seat, const void *upto, size_t upto_length, bwtree_page_pairs *page) {
    if (!tree || !page || (!upto && upto_length)) return BWTREE_NULL;
    return bwtree_raw_back(tree, seat, bwtree_slice_(upto), upto_length, page);
}

/* Goes on with the seat's unfinished operation, for at most `budget` steps (0: for none, and SPENT). What that operation answers, with its value in
 * `old` or its pairs in `page`; SPENT; CLOSED, NO_SEAT, BUSY, IDLE. */
BWTREE_INLINE uint32_t bwtree_resume(const bwtree *tree, uint32_t seat, uint32_t budget, bwtree_bytes *old, bwtree_page_pairs *page) {
    if (!tree || !old || !page) return BWTREE_NULL;
    return bwtree_raw_resume(tree, seat, budget, old, page);
}

/* Whether a call may begin on the seat: OK; CLOSED, NO_SEAT, BUSY, UNFINISHED. */
BWTREE_INLINE uint32_t bwtree_is_idle(const bwtree *tree, uint32_t seat) {
    if (!tree) return BWTREE_NULL;
    return bwtree_raw_is_idle(tree, seat);
}

/* How many pages and records are free, each 64 of them at a moment of their own; also on a seat that is UNFINISHED. OK with `room`; CLOSED, NO_SEAT, BUSY. */
BWTREE_INLINE uint32_t bwtree_free_room(const bwtree *tree, uint32_t seat, bwtree_room *room) {
    if (!tree || !room) return BWTREE_NULL;
    return bwtree_raw_room(tree, seat, room);
}

/* Walks in both directions, the neighbours of a key, and counts: bwtree_walks.h. Keys of numbers and texts in their order: bwtree_keys.h. Seats that threads
 * lease: bwtree_seats.h. Writes that wait while they are FULL: bwtree_waits.h. */

/* What a status means. */
BWTREE_INLINE const char *bwtree_text(uint32_t status) {
    switch (status) {
    case BWTREE_OK: return "done";
    case BWTREE_ABSENT: return "the key has no value";
    case BWTREE_EXISTS: return "the key has a value already";
    case BWTREE_REPLACED: return "done, in place of another value";
    case BWTREE_DIFFERS: return "the key has another value";
    case BWTREE_FULL: return "the tree is full";
    case BWTREE_SPENT: return "the steps are spent";
    case BWTREE_NO_ROOM: return "there is too little room for the pairs";
    case BWTREE_CLOSED: return "the tree is closed";
    case BWTREE_NO_SEAT: return "the tree has no such seat";
    case BWTREE_BUSY: return "another call is inside the seat";
    case BWTREE_UNFINISHED: return "the seat has an unfinished operation";
    case BWTREE_IDLE: return "the seat has no unfinished operation";
    case BWTREE_TOO_LONG: return "a key or a value is longer than 64 bytes";
    case BWTREE_BAD_LIMITS: return "a limit is outside its range";
    case BWTREE_NO_MEMORY: return "no memory";
    case BWTREE_OPEN: return "the tree is open already";
    case BWTREE_NULL: return "a pointer is null";
    case BWTREE_BAD_ORDER: return "the keys don't ascend";
    case BWTREE_BAD_VERSION: return "the library is of another version than this program's bwtree.h";
    default: return "no status";
    }
}

#ifdef __cplusplus
}
#endif
#endif
