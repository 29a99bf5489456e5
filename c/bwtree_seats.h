/* bwtree_seats.h: seats that threads lease and give back, and a thread's own seat.
 *
 *     static bwtree_seats seats;                            // beside the tree, with as many seats
 *     if (bwtree_seats_begin(&seats, limits.actors) != BWTREE_OK) ...
 *     // in any thread:
 *     uint32_t seat;
 *     if (bwtree_local(&seats, &seat) == BWTREE_OK) bwtree_upsert(&tree, seat, ...);
 *
 * bwtree_lease lends a seat until bwtree_give_back. bwtree_local lends the calling thread a seat of its own, which is given back when the thread ends. Neither
 * waits: where all seats are lent, both return BUSY, and a program may wait by bwtree_waits.h. Any number of threads may call these functions.
 *
 * These functions count seats, and make no call on a tree: the tree itself refuses a seat that two calls use at once. They are compiled into the program, which
 * is linked with -lpthread. A child that was forked makes no such call.
 */
#ifndef BWTREE_SEATS_H
#define BWTREE_SEATS_H

#include "bwtree.h"
#include <pthread.h>

#ifdef __cplusplus
extern "C" {
#endif

struct bwtree_seats;

/* A thread's own seat, for what runs when the thread ends. */
typedef struct bwtree_own_seat {
    struct bwtree_seats *of_;
    uint32_t number_;
} bwtree_own_seat;

/* The seats of a tree. Only the functions here read it; it is not copied. */
typedef struct bwtree_seats {
    uint64_t free_; /* a bit for each seat that is free */
    uint64_t all_;
    pthread_key_t key_;
    bwtree_own_seat own_[BWTREE_MAX_SEATS];
} bwtree_seats;

/* Gives a seat back that was leased. OK. NO_SEAT: no such seat is lent, and nothing is changed. NULL. */
BWTREE_PRIVATE_ uint32_t bwtree_give_back(bwtree_seats *seats, uint32_t seat) {
    uint64_t bit;
    if (!seats) return BWTREE_NULL;
    if (seat >= BWTREE_MAX_SEATS || !(seats->all_ & (bit = (uint64_t)1 << seat))) return BWTREE_NO_SEAT;
    return __atomic_fetch_or(&seats->free_, bit, __ATOMIC_SEQ_CST) & bit ? (uint32_t)BWTREE_NO_SEAT : (uint32_t)BWTREE_OK;
}

/* What a thread that ends does with its own seat. */
BWTREE_PRIVATE_ void bwtree_own_seat_ends_(void *own) {
    bwtree_own_seat *ends = (bwtree_own_seat *)own;
    bwtree_give_back(ends->of_, ends->number_);
}

/* Begins the seats of a tree that has so many: all are free. OK. BAD_LIMITS, of 0 or more than 63 seats; NO_MEMORY, where the system has no further key for
 * threads; NULL: nothing is written. Each begin is ended by bwtree_seats_end. */
BWTREE_PRIVATE_ uint32_t bwtree_seats_begin(bwtree_seats *seats, uint64_t actors) {
    pthread_key_t key;
    if (!seats) return BWTREE_NULL;
    if (actors < 1 || actors > BWTREE_MAX_SEATS) return BWTREE_BAD_LIMITS;
    if (pthread_key_create(&key, bwtree_own_seat_ends_)) return BWTREE_NO_MEMORY;
    seats->key_ = key;
    seats->all_ = seats->free_ = ((uint64_t)1 << actors) - 1;
    for (uint32_t number = 0; number < BWTREE_MAX_SEATS; number++) {
        seats->own_[number].of_ = seats;
        seats->own_[number].number_ = number;
    }
    return BWTREE_OK;
}

/* Leases a seat: the free one with the least number. OK with `seat`. BUSY, where all are lent; NULL: `seat` is as it was. */
BWTREE_PRIVATE_ uint32_t bwtree_lease(bwtree_seats *seats, uint32_t *seat) {
    uint64_t free_seats;
    if (!seats || !seat) return BWTREE_NULL;
    free_seats = __atomic_load_n(&seats->free_, __ATOMIC_SEQ_CST);
    while (free_seats) {
        uint64_t left = free_seats & (free_seats - 1);
        if (__atomic_compare_exchange_n(&seats->free_, &free_seats, left, 1, __ATOMIC_SEQ_CST, __ATOMIC_SEQ_CST)) {
            *seat = (uint32_t)__builtin_ctzll(free_seats);
            return BWTREE_OK;
        }
    }
    return BWTREE_BUSY;
}

/* The calling thread's own seat: leased by the thread's first such call, and given back when the thread ends, or by bwtree_local_ends. OK with `seat`. BUSY,
 * where the thread has none and all are lent; NO_MEMORY, where the system refuses memory for the thread; NULL: `seat` is as it was. */
BWTREE_PRIVATE_ uint32_t bwtree_local(bwtree_seats *seats, uint32_t *seat) {
    const bwtree_own_seat *own;
    uint32_t number = 0, status;
    if (!seats || !seat) return BWTREE_NULL;
    own = (const bwtree_own_seat *)pthread_getspecific(seats->key_);
    if (!own) {
        if ((status = bwtree_lease(seats, &number)) != BWTREE_OK) return status;
        own = &seats->own_[number];
        if (pthread_setspecific(seats->key_, own)) {
            bwtree_give_back(seats, number);
            return BWTREE_NO_MEMORY;
        }
    }
    *seat = own->number_;
    return BWTREE_OK;
}

/* Gives the calling thread's own seat back before the thread ends, if it has one. OK, NULL. */
BWTREE_PRIVATE_ uint32_t bwtree_local_ends(bwtree_seats *seats) {
    const bwtree_own_seat *own;
    if (!seats) return BWTREE_NULL;
    own = (const bwtree_own_seat *)pthread_getspecific(seats->key_);
    if (own && !pthread_setspecific(seats->key_, NULL)) bwtree_give_back(seats, own->number_);
    return BWTREE_OK;
}

/* Ends what begin began; the calling thread's own seat is given back first. OK: no seat can be leased until the next begin. BUSY, where a seat is lent;
 * CLOSED, where they were ended; NULL: the other seats are as they were. */
BWTREE_PRIVATE_ uint32_t bwtree_seats_end(bwtree_seats *seats) {
    uint64_t all;
    if (!seats) return BWTREE_NULL;
    if (!(all = seats->all_)) return BWTREE_CLOSED;
    bwtree_local_ends(seats);
    if (!__atomic_compare_exchange_n(&seats->free_, &all, 0, 0, __ATOMIC_SEQ_CST, __ATOMIC_SEQ_CST)) return BWTREE_BUSY;
    pthread_key_delete(seats->key_);
    seats->all_ = 0;
    return BWTREE_OK;
}

#ifdef __cplusplus
}
#endif
#endif
