/* Tests of writes that are FULL, for now and for good, and of a tree that is given up since a thread was ended inside a call. */
#define _GNU_SOURCE
#include "bwtree_waits.h"
#include "bwtree_walks.h"
#include <pthread.h>
#include <semaphore.h>
#include <signal.h>
#include <stdio.h>
#include <stdlib.h>
#include <time.h>

#define CHECK(x) do { if (!(x)) { fprintf(stderr, "%s:%d: %s\n", __FILE__, __LINE__, #x); exit(1); } } while (0)
enum { KEYS = 500, TRIES = 500, MILLISECOND = 1000000 };

/* What finds races delivers signals and ends threads at calls of the system alone, which the library makes none of. */
#if defined(__SANITIZE_THREAD__)
#define STOPS_NOWHERE 1
#elif defined(__has_feature)
#if __has_feature(thread_sanitizer)
#define STOPS_NOWHERE 1
#endif
#endif

static uint64_t now(void) {
    struct timespec time;
    clock_gettime(CLOCK_MONOTONIC, &time);
    return (uint64_t)time.tv_sec * 1000 * MILLISECOND + (uint64_t)time.tv_nsec;
}

/* What is free, by limits, and the hint: by hand. */
static void hints(void) {
    static const struct { bwtree_limits limits; bwtree_room room; uint32_t hint; } rows[] = {
        {{1, 64, 704, 1, 0}, {1, 1}, BWTREE_FULL_PASSED},     {{1, 64, 704, 1, 0}, {0, 1}, BWTREE_FULL_FOR_GOOD},
        {{1, 64, 704, 1, 0}, {0, 0}, BWTREE_FULL_FOR_GOOD},   {{1, 64, 704, 1, 0}, {1, 0}, BWTREE_FULL_FOR_NOW},
        {{1, 64, 640, 1, 0}, {1, 0}, BWTREE_FULL_FOR_GOOD},   {{2, 64, 768, 1, 0}, {60, 0}, BWTREE_FULL_FOR_GOOD},
        {{2, 64, 832, 1, 0}, {60, 0}, BWTREE_FULL_FOR_NOW},   {{1, 64, 448, 1, 1}, {1, 0}, BWTREE_FULL_FOR_NOW},
        {{1, 64, 384, 1, 1}, {1, 0}, BWTREE_FULL_FOR_GOOD},   {{1, 64, 384, 1, 1}, {9, 9}, BWTREE_FULL_PASSED},
        /* of three widths: 512 records are narrower than 512 words, row 0 among them, which is never free */
        {{1, 64, 576, 1, 2, 320, 512, 8, 56}, {1, 513}, BWTREE_FULL_PASSED},   {{1, 64, 576, 1, 2, 320, 512, 8, 56}, {1, 512}, BWTREE_FULL_UNKNOWN},
        {{1, 64, 576, 1, 2, 320, 512, 8, 56}, {1, 0}, BWTREE_FULL_UNKNOWN},    {{1, 64, 576, 1, 2, 320, 512, 8, 56}, {0, 513}, BWTREE_FULL_FOR_GOOD},
        {{1, 64, 384, 1, 2, 128, 320, 8, 56}, {1, 0}, BWTREE_FULL_FOR_GOOD},   {{1, 64, 384, 1, 2, 128, 320, 8, 56}, {1, 1}, BWTREE_FULL_UNKNOWN},
        /* what a tree of one width has in the other fields counts for nothing */
        {{1, 64, 448, 1, 1, 320, 384, 8, 56}, {1, 1}, BWTREE_FULL_PASSED},     {{1, 64, 448, 1, 1, 320, 384, 8, 56}, {1, 0}, BWTREE_FULL_FOR_NOW},
    };
    for (size_t i = 0; i < sizeof rows / sizeof *rows; i++) CHECK(bwtree_hint_of_room(&rows[i].limits, &rows[i].room) == rows[i].hint);
}

static void durations(void) {
    static const uint64_t lengths[] = {0, 1, MILLISECOND, 30 * MILLISECOND};
    bwtree_wait wait;
    for (size_t i = 0; i < sizeof lengths / sizeof *lengths; i++) {
        uint64_t begin = now();
        unsigned pauses = 0;
        bwtree_wait_begin(&wait, lengths[i]);
        while (bwtree_wait_again(&wait)) pauses++;
        CHECK(now() - begin >= lengths[i] && !bwtree_wait_again(&wait) && pauses <= 8 + 7 + lengths[i] / (5 * MILLISECOND) + 1);
    }
    bwtree_wait_begin(&wait, UINT64_MAX);
    CHECK(bwtree_wait_again(&wait) == 1 && bwtree_wait_again(NULL) == 0);
    bwtree_wait_begin(NULL, 1);
}

/* An upsert that waits at most so long. */
static uint32_t put(const bwtree *tree, uint32_t seat, uint32_t key, uint64_t nanoseconds) {
    bwtree_bytes old;
    bwtree_wait wait;
    uint32_t status;
    bwtree_wait_begin(&wait, nanoseconds);
    do status = bwtree_upsert(tree, seat, &key, 4, &key, 4, &old);
    while (status == BWTREE_FULL && bwtree_wait_again(&wait));
    return status;
}

/* A tree that is filled beyond its limits: waiting doesn't help, and the hint says so. */
static void for_good(void) {
    static bwtree tree, closed;
    bwtree_limits limits = {2, 64, 832, 1, 0};
    uint32_t hint = 7, key = 0;
    CHECK(bwtree_full_hint(&closed, 0, &limits, &hint) == BWTREE_CLOSED && bwtree_full_hint(&closed, 0, NULL, &hint) == BWTREE_NULL);
    CHECK(bwtree_full_hint(NULL, 0, &limits, &hint) == BWTREE_NULL && bwtree_full_hint(&closed, 0, &limits, NULL) == BWTREE_NULL);
    CHECK(bwtree_open(&limits, &tree) == BWTREE_OK && bwtree_full_hint(&tree, 2, &limits, &hint) == BWTREE_NO_SEAT && hint == 7);
    CHECK(bwtree_full_hint(&tree, 0, &limits, &hint) == BWTREE_OK && hint == BWTREE_FULL_PASSED);
    while (put(&tree, 0, key * 2654435761u, 0) != BWTREE_FULL) CHECK(key++ < 100000);
    uint64_t begin = now();
    CHECK(put(&tree, 0, key * 2654435761u, 30 * MILLISECOND) == BWTREE_FULL && now() - begin >= 30 * MILLISECOND);
    CHECK(bwtree_full_hint(&tree, 1, &limits, &hint) == BWTREE_OK && hint == BWTREE_FULL_FOR_GOOD);
    CHECK(bwtree_close(&tree) == BWTREE_OK);
}

/* A tree for short pairs that is filled with long ones: no record of 512 words is free any more, for good, though many narrower ones are. */
static void of_three_widths(void) {
    static bwtree tree;
    bwtree_limits limits;
    bwtree_room room;
    uint8_t key[BWTREE_MAX_LENGTH] = {0};
    uint32_t hint = 7, status = BWTREE_OK;
    CHECK(bwtree_limits_for_pairs(1, 2000, 1, 1, &limits) == BWTREE_OK && bwtree_open(&limits, &tree) == BWTREE_OK);
    CHECK(bwtree_full_hint(&tree, 0, &limits, &hint) == BWTREE_OK && hint == BWTREE_FULL_PASSED);
    for (uint32_t i = 0; status == BWTREE_OK; i++) {
        uint32_t first = i * 2654435761u;
        bwtree_bytes old;
        memcpy(key, &first, 4);
        status = bwtree_insert(&tree, 0, key, sizeof key, key, sizeof key, &old);
        CHECK(i < 2000);
    }
    CHECK(status == BWTREE_FULL && bwtree_free_room(&tree, 0, &room) == BWTREE_OK && room.free_pages && room.free_records);
    CHECK(bwtree_full_hint(&tree, 0, &limits, &hint) == BWTREE_OK && hint == BWTREE_FULL_UNKNOWN);
    CHECK(bwtree_close(&tree) == BWTREE_OK);
}

#ifndef STOPS_NOWHERE
static bwtree tree, moved, closed[TRIES]; /* what closed ones left, so that a leak checker finds it */
static int stops, ends;
static sem_t stopped, gone_on;

/* A signal's handler, in which a thread stands until it may go on. */
static void stand(int signal_number) {
    struct timespec while_ = {0, MILLISECOND};
    (void)signal_number;
    sem_post(&stopped);
    while (__atomic_load_n(&stops, __ATOMIC_SEQ_CST)) nanosleep(&while_, NULL);
    sem_post(&gone_on);
}

static void *calls(void *unused) {
    bwtree_bytes old;
    pthread_setcanceltype(PTHREAD_CANCEL_ASYNCHRONOUS, NULL);
    for (uint32_t i = 0; !__atomic_load_n(&ends, __ATOMIC_SEQ_CST); i++) {
        uint32_t key = i % KEYS;
        bwtree_upsert(&tree, 1, &key, 4, "x", 1, &old);
    }
    return unused;
}

/* Lets the other thread go on a moment later. */
static void *release(void *unused) {
    struct timespec moment = {0, 30 * MILLISECOND};
    nanosleep(&moment, NULL);
    __atomic_store_n(&stops, 0, __ATOMIC_SEQ_CST);
    return unused;
}

/* Stops the thread; whether writes of another seat become FULL, as they do where it stands inside a call. */
static int stops_inside(pthread_t thread) {
    __atomic_store_n(&stops, 1, __ATOMIC_SEQ_CST);
    CHECK(pthread_kill(thread, SIGUSR1) == 0 && sem_wait(&stopped) == 0);
    for (uint32_t i = 0; i < 20000; i++)
        if (put(&tree, 0, i % KEYS, 0) == BWTREE_FULL) return 1;
    __atomic_store_n(&stops, 0, __ATOMIC_SEQ_CST);
    CHECK(sem_wait(&gone_on) == 0);
    return 0;
}

/* While another thread stands inside a call, writes are FULL for now, and one that waits is done once that thread goes on. */
static void for_now(void) {
    bwtree_limits limits;
    struct sigaction action;
    pthread_t thread, releasing;
    uint32_t hint = 7;
    memset(&action, 0, sizeof action);
    action.sa_handler = stand;
    action.sa_flags = SA_RESTART;
    CHECK(sem_init(&stopped, 0, 0) == 0 && sem_init(&gone_on, 0, 0) == 0 && sigaction(SIGUSR1, &action, NULL) == 0);
    CHECK(bwtree_limits_for_keys(2, KEYS, &limits) == BWTREE_OK && bwtree_open(&limits, &tree) == BWTREE_OK);
    CHECK(pthread_create(&thread, NULL, calls, NULL) == 0);
    int tries = 0;
    while (!stops_inside(thread)) CHECK(++tries < TRIES);
    CHECK(put(&tree, 0, 1, 5 * MILLISECOND) == BWTREE_FULL);
    CHECK(bwtree_full_hint(&tree, 0, &limits, &hint) == BWTREE_OK && hint == BWTREE_FULL_FOR_NOW);
    CHECK(pthread_create(&releasing, NULL, release, NULL) == 0);
    CHECK(put(&tree, 0, 1, (uint64_t)20000 * MILLISECOND) == BWTREE_REPLACED);
    __atomic_store_n(&ends, 1, __ATOMIC_SEQ_CST);
    CHECK(pthread_join(thread, NULL) == 0 && pthread_join(releasing, NULL) == 0 && bwtree_close(&tree) == BWTREE_OK);
}

/* Where a thread is ended inside a call, its tree is given up: another seat copies the pairs, and a new tree is opened with them. */
static void given_up(void) {
    static bwtree_pair pairs[KEYS];
    bwtree_limits limits;
    bwtree_bytes old;
    uint64_t count = 0;
    int tries = 0;
    CHECK(bwtree_limits_for_keys(2, KEYS, &limits) == BWTREE_OK);
    for (;; tries++) {
        pthread_t thread;
        struct timespec moment = {0, MILLISECOND};
        CHECK(tries < TRIES && bwtree_open(&limits, &tree) == BWTREE_OK);
        for (uint32_t key = 0; key < KEYS; key++) CHECK(put(&tree, 0, key, 0) == BWTREE_OK);
        __atomic_store_n(&ends, 0, __ATOMIC_SEQ_CST);
        CHECK(pthread_create(&thread, NULL, calls, NULL) == 0);
        nanosleep(&moment, NULL);
        CHECK(pthread_cancel(thread) == 0 && pthread_join(thread, NULL) == 0);
        if (bwtree_is_idle(&tree, 1) == BWTREE_BUSY) break;
        CHECK(bwtree_close(&tree) == BWTREE_OK);
        closed[tries] = tree;
    }
    CHECK(bwtree_close(&tree) == BWTREE_BUSY && bwtree_close_pairs(&tree, pairs, KEYS, &count) == BWTREE_BUSY);
    CHECK(bwtree_copy_pairs(&tree, 0, pairs, KEYS - 1, &count) == BWTREE_NO_ROOM && count == KEYS);
    CHECK(bwtree_copy_pairs(&tree, 1, pairs, KEYS, &count) == BWTREE_BUSY && bwtree_copy_pairs(&tree, 0, NULL, 1, &count) == BWTREE_NULL);
    CHECK(bwtree_copy_pairs(&tree, 0, pairs, KEYS, &count) == BWTREE_OK && count == KEYS);
    CHECK(bwtree_open_from(&limits, pairs, count, &moved) == BWTREE_OK);
    for (uint32_t key = 0; key < KEYS; key++) CHECK(bwtree_delete(&moved, 1, &key, 4, &old) == BWTREE_OK);
    CHECK(bwtree_close(&moved) == BWTREE_OK);
}
#endif

int main(void) {
    hints();
    durations();
    for_good();
    of_three_widths();
#ifndef STOPS_NOWHERE
    for_now();
    given_up();
#endif
    puts("passed");
    return 0;
}
