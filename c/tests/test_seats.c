/* Tests of seats that threads lease, and of a thread's own seat. */
#include "bwtree_seats.h"
#include <sched.h>
#include <stdio.h>
#include <stdlib.h>

#define CHECK(x) do { if (!(x)) { fprintf(stderr, "%s:%d: %s\n", __FILE__, __LINE__, #x); exit(1); } } while (0)
enum { THREADS = 12, ROUNDS = 200 };

static bwtree_seats seats;
static bwtree tree;

/* What one thread answers, by hand. */
static void answers(void) {
    bwtree_seats few = {0, 0, 0, {{NULL, 0}}};
    uint32_t seat = 9;
    CHECK(bwtree_seats_begin(NULL, 1) == BWTREE_NULL && bwtree_seats_end(NULL) == BWTREE_NULL && bwtree_local_ends(NULL) == BWTREE_NULL);
    CHECK(bwtree_lease(NULL, &seat) == BWTREE_NULL && bwtree_local(NULL, &seat) == BWTREE_NULL && bwtree_give_back(NULL, 0) == BWTREE_NULL);
    CHECK(bwtree_seats_begin(&few, 0) == BWTREE_BAD_LIMITS && bwtree_seats_begin(&few, 64) == BWTREE_BAD_LIMITS);
    CHECK(bwtree_lease(&few, &seat) == BWTREE_BUSY && bwtree_seats_end(&few) == BWTREE_CLOSED && seat == 9);
    CHECK(bwtree_seats_begin(&few, 2) == BWTREE_OK && bwtree_lease(&few, NULL) == BWTREE_NULL && bwtree_local(&few, NULL) == BWTREE_NULL);
    CHECK(bwtree_give_back(&few, 0) == BWTREE_NO_SEAT && bwtree_give_back(&few, 2) == BWTREE_NO_SEAT && bwtree_give_back(&few, UINT32_MAX) == BWTREE_NO_SEAT);
    CHECK(bwtree_lease(&few, &seat) == BWTREE_OK && seat == 0);
    CHECK(bwtree_local(&few, &seat) == BWTREE_OK && seat == 1 && bwtree_local(&few, &seat) == BWTREE_OK && seat == 1);
    seat = 9;
    CHECK(bwtree_lease(&few, &seat) == BWTREE_BUSY && seat == 9 && bwtree_seats_end(&few) == BWTREE_BUSY);
    /* that gave the own seat back */
    CHECK(bwtree_lease(&few, &seat) == BWTREE_OK && seat == 1 && bwtree_local(&few, &seat) == BWTREE_BUSY);
    CHECK(bwtree_give_back(&few, 1) == BWTREE_OK && bwtree_give_back(&few, 0) == BWTREE_OK && bwtree_give_back(&few, 0) == BWTREE_NO_SEAT);
    CHECK(bwtree_local(&few, &seat) == BWTREE_OK && bwtree_local_ends(&few) == BWTREE_OK && bwtree_local_ends(&few) == BWTREE_OK);
    CHECK(bwtree_seats_end(&few) == BWTREE_OK && bwtree_seats_end(&few) == BWTREE_CLOSED && bwtree_lease(&few, &seat) == BWTREE_BUSY);
    CHECK(bwtree_seats_begin(&few, BWTREE_MAX_SEATS) == BWTREE_OK);
    for (uint32_t i = 0; i < BWTREE_MAX_SEATS; i++) CHECK(bwtree_lease(&few, &seat) == BWTREE_OK && seat == i);
    CHECK(bwtree_lease(&few, &seat) == BWTREE_BUSY);
    for (uint32_t i = 0; i < BWTREE_MAX_SEATS; i++) CHECK(bwtree_give_back(&few, i) == BWTREE_OK);
    CHECK(bwtree_seats_end(&few) == BWTREE_OK);
}

/* Where the system has no further key, no seats are begun. */
static void keys_run_out(void) {
    static bwtree_seats many[2000];
    uint32_t status = BWTREE_OK;
    size_t begun = 0;
    while (begun < 2000 && (status = bwtree_seats_begin(&many[begun], 1)) == BWTREE_OK) begun++;
    CHECK(status == BWTREE_NO_MEMORY && bwtree_seats_end(&many[begun]) == BWTREE_CLOSED);
    while (begun--) CHECK(bwtree_seats_end(&many[begun]) == BWTREE_OK);
}

/* A thread counts up in its own seat, and leases another one in turn; where all are lent it tries again. */
static void *counts(void *unused) {
    bwtree_bytes old;
    (void)unused;
    for (int round = 0; round < ROUNDS; round++) {
        uint32_t own, again, more, status;
        while ((status = bwtree_local(&seats, &own)) == BWTREE_BUSY) sched_yield();
        CHECK(status == BWTREE_OK && bwtree_local(&seats, &again) == BWTREE_OK && own == again);
        while ((status = bwtree_add(&tree, own, "count", 5, 1, &old)) == BWTREE_FULL) sched_yield();
        CHECK(status == BWTREE_OK || status == BWTREE_REPLACED);
        if (bwtree_lease(&seats, &more) == BWTREE_OK) {
            CHECK(more != own && bwtree_get(&tree, more, "count", 5, &old) == BWTREE_OK && bwtree_give_back(&seats, more) == BWTREE_OK);
        }
        if (round % 50 == 49) CHECK(bwtree_local_ends(&seats) == BWTREE_OK);
    }
    CHECK(bwtree_local_ends(&seats) == BWTREE_OK);
    return NULL;
}

/* A thread that takes its own seat, and ends with it. */
static void *takes(void *number) {
    CHECK(bwtree_local(&seats, (uint32_t *)number) == BWTREE_OK);
    return NULL;
}

static void threads(void) {
    pthread_t ids[THREADS];
    bwtree_limits limits;
    bwtree_bytes value;
    uint32_t seat, last[3];
    CHECK(bwtree_limits_for_keys(4, 100, &limits) == BWTREE_OK && bwtree_open(&limits, &tree) == BWTREE_OK);
    CHECK(bwtree_seats_begin(&seats, limits.actors) == BWTREE_OK);
    for (int i = 0; i < THREADS; i++) CHECK(pthread_create(&ids[i], NULL, counts, NULL) == 0);
    for (int i = 0; i < THREADS; i++) CHECK(pthread_join(ids[i], NULL) == 0);
    CHECK(bwtree_local(&seats, &seat) == BWTREE_OK && bwtree_get(&tree, seat, "count", 5, &value) == BWTREE_OK);
    CHECK(value.length == 8 && value.bytes[6] * 256 + value.bytes[7] == THREADS * ROUNDS);
    /* each thread's end gives its seat back, to the next one */
    for (int i = 0; i < 3; i++) CHECK(pthread_create(&ids[0], NULL, takes, &last[i]) == 0 && pthread_join(ids[0], NULL) == 0);
    CHECK(seat == 0 && last[0] == 1 && last[1] == 1 && last[2] == 1);
    CHECK(bwtree_seats_end(&seats) == BWTREE_OK && bwtree_close(&tree) == BWTREE_OK);
}

int main(void) {
    answers();
    keys_run_out();
    threads();
    return 0;
}
