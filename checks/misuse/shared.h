/* What threads that share a handle know of an answer; no call but openings and closings takes memory; and threads that are stopped. */
#ifndef SHARED_H
#define SHARED_H

#include "model.h"
#include <errno.h>
#include <signal.h>
#include <time.h>
#include <unistd.h>

/* ---- Memory: linked with --wrap=malloc, realloc and free, a call that is to take or give back none is seen doing so ---- */

static __thread int is_inside;
static void begin_call(void) { is_inside = 1; }
static void end_call(void) { is_inside = 0; }

#ifdef WATCHES_MEMORY
void *__real_malloc(size_t size);
void *__real_realloc(void *old, size_t size);
void __real_free(void *old);
void *__wrap_malloc(size_t size);
void *__wrap_realloc(void *old, size_t size);
void __wrap_free(void *old);
void *__wrap_malloc(size_t size) {
    if (is_inside) FAIL("a call takes memory");
    return __real_malloc(size);
}
void *__wrap_realloc(void *old, size_t size) {
    if (is_inside) FAIL("a call takes memory");
    return __real_realloc(old, size);
}
void __wrap_free(void *old) {
    if (is_inside && old) FAIL("a call gives memory back");
    __real_free(old);
}
#endif

/* ---- A call on a seat, seen from outside ---- */

static uint64_t load(const uint64_t *at) { return __atomic_load_n(at, __ATOMIC_SEQ_CST); }

struct watch {
    struct handle *h;
    uint32_t seat;
    int has_seat, was_closed;
    uint64_t closes_begun, closes_ended, begun, ended;
};

static struct watch watch(struct handle *h, uint32_t seat) {
    struct watch w = {h, seat, h->ever && seat < h->limits.actors, __atomic_load_n(&h->closed, __ATOMIC_SEQ_CST), 0, 0, 0, 0};
    w.closes_ended = load(&h->closes_ended), w.closes_begun = load(&h->closes_begun);
    if (!w.has_seat) return w;
    w.ended = load(&h->seats_ended[seat]);
    w.begun = __atomic_fetch_add(&h->seats_begun[seat], 1, __ATOMIC_SEQ_CST);
    return w;
}

/* CLOSED wherever the tree was closed before, and only where it was or is being; BUSY only where another call is inside the seat, or a closing. */
static void watched(struct watch *w, uint32_t wanted, uint32_t status) {
    struct handle *h = w->h;
    int closing = w->closes_begun != w->closes_ended || load(&h->closes_begun) != w->closes_begun;
    int alone = w->has_seat && w->begun == w->ended && load(&h->seats_begun[w->seat]) == w->begun + 1;
    if (w->has_seat) __atomic_add_fetch(&h->seats_ended[w->seat], 1, __ATOMIC_SEQ_CST);
    if (wanted) { CHECK(status == wanted); return; }
    if (!h->ever) { CHECK(status == BWTREE_CLOSED); return; }
    CHECK((status == BWTREE_NO_SEAT) == !w->has_seat);
    if (!w->has_seat) return;
    if (w->was_closed) CHECK(status == BWTREE_CLOSED);
    if (status == BWTREE_CLOSED) CHECK(w->was_closed || closing || __atomic_load_n(&h->closed, __ATOMIC_SEQ_CST));
    if (status == BWTREE_BUSY) CHECK(closing || !alone);
}

/* Whether an operation may answer this at all. */
static int may_answer(const struct operation *op, uint32_t status) {
    int kind = op->kind;
    if (status == BWTREE_SPENT) return may_be_spent(op);
    if (must_be_spent(op) && status < BWTREE_CLOSED) return 0;
    if (status == BWTREE_OK || status == BWTREE_CLOSED || status == BWTREE_NO_SEAT || status == BWTREE_BUSY) return 1;
    if (status == BWTREE_FULL) return may_be_full(kind);
    if (status == BWTREE_ABSENT) return kind == GET || kind == DELETE || kind == DELETE_IF || kind == COMPARE_AND_SET;
    if (status == BWTREE_EXISTS) return kind == INSERT;
    if (status == BWTREE_REPLACED) return kind == UPSERT || kind == ADD;
    return status == BWTREE_DIFFERS && (kind == DELETE_IF || kind == COMPARE_AND_SET || kind == ADD);
}

/* ---- A signal's handler, in which a thread stands still for a moment ---- */

static void stand_a_moment(int signal_number) {
    struct timespec moment = {0, 200000 + (long)(signal_number * 7919) % 1000000};
    int number = errno;
    nanosleep(&moment, NULL);
    errno = number;
}
#endif
