/* bwtree_waits.h: a write that is FULL: whether that may pass, and how to wait until it does.
 *
 *     bwtree_wait wait;
 *     bwtree_wait_begin(&wait, 100 * 1000 * 1000);  // at most 100 milliseconds
 *     do status = bwtree_upsert(&tree, seat, key, key_length, value, value_length, &old);
 *     while (status == BWTREE_FULL && bwtree_wait_again(&wait));
 *
 * A write is FULL while no page, or no record that is wide enough, is free. It passes where other seats hold them back: a thread that is stopped inside a call,
 * or a seat whose last write took some out and that has made no write since. It is for good where the tree itself has them all.
 */
#ifndef BWTREE_WAITS_H
#define BWTREE_WAITS_H

#include "bwtree.h"

#ifdef __cplusplus
extern "C" {
#endif

/* A wait between tries. Only the functions here read it. */
typedef struct bwtree_wait {
    uint64_t until_;
    uint64_t pauses_;
} bwtree_wait;

/* Begins a wait of so many nanoseconds at most. Of null it does nothing. */
void bwtree_wait_begin(bwtree_wait *wait, uint64_t nanoseconds);

/* Pauses before the next try: it gives the processor away some times, then sleeps, twice as long each time, from 50 microseconds to 5 milliseconds, and never
 * beyond the end of the wait. 1; 0 at the end, and of null, without a pause. */
int bwtree_wait_again(bwtree_wait *wait);

/* What may become of a write that is FULL. It is a hint, made from what is free a moment later: nothing is proved of it, and other calls change it. Free
 * records are counted over all widths. In a tree with records of three widths (limits with large = 2) a write may need one of 512 words, so there the hint is
 * PASSED only if one of these must be free, and never FOR_NOW. */
typedef enum bwtree_full_hints {
    BWTREE_FULL_PASSED = 0,   /* a page is free now, and a record with room for any change */
    BWTREE_FULL_FOR_NOW = 1,  /* no record is free, but pages are, and the limits have records enough for all pages: other seats hold records back */
    BWTREE_FULL_FOR_GOOD = 2, /* no page is free; or no record, and the limits have too few: the tree itself may have them all. In a large tree keys can be
                               * deleted then. Where they just were, other seats may hold pages back still: so ask after a wait */
    BWTREE_FULL_UNKNOWN = 3   /* of three widths alone: pages are free, but perhaps no record of 512 words, for now or for good. Wait; if that is in vain, a
                               * larger tree is needed, or one for longer pairs */
} bwtree_full_hints;

/* The hint from limits and what is free. The limits have records enough from 9 for each page and 120 for each seat on, in a large tree 3 and 240: that is
 * tested, and not proved. Of three widths, fewer than wide_from records are narrower than 512 words: if more are free, one of these has 512. */
BWTREE_PRIVATE_ uint32_t bwtree_hint_of_room(const bwtree_limits *limits, const bwtree_room *room) {
    uint64_t enough = limits->large ? 3 * limits->pages + 240 * limits->actors : 9 * limits->pages + 120 * limits->actors;
    uint64_t narrower = limits->large == 2 ? limits->wide_from : 0;
    if (room->free_pages && room->free_records > narrower) return BWTREE_FULL_PASSED;
    if (!room->free_pages || (!room->free_records && limits->records < enough)) return BWTREE_FULL_FOR_GOOD;
    return narrower ? BWTREE_FULL_UNKNOWN : BWTREE_FULL_FOR_NOW;
}

/* The hint for a tree with these limits, by bwtree_free_room on a seat. OK with `hint`; CLOSED, NO_SEAT, BUSY, NULL: nothing is written. */
BWTREE_PRIVATE_ uint32_t bwtree_full_hint(const bwtree *tree, uint32_t seat, const bwtree_limits *limits, uint32_t *hint) {
    bwtree_room room;
    uint32_t status;
    if (!limits || !hint) return BWTREE_NULL;
    status = bwtree_free_room(tree, seat, &room);
    if (status == BWTREE_OK) *hint = bwtree_hint_of_room(limits, &room);
    return status;
}

#ifdef __cplusplus
}
#endif
#endif
