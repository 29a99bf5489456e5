/* The model of a handle: what each call is to answer and to write, by what the handle has been through. */
#ifndef MODEL_H
#define MODEL_H

#include "draw.h"

/* An operation: its kind, and what it is called with; of one with a budget, how many steps it may take. */
struct operation {
    int kind, has_budget;
    uint32_t budget;
    bwtree_bytes key, expected, value;
    uint64_t number;
};

/* An operation that is SPENT, and stays in its seat. An upsert has taken effect or not, which a lookup on another seat tells: then the key had `old` before. A
 * lookup may return what the key had when it began, or has had since. */
enum { MOST_SEEN = 8 };
struct unfinished {
    int is, took_effect, had;
    struct operation op;
    bwtree_bytes old;
    int seen_count, has_seen_more, seen_has[MOST_SEEN];
    bwtree_bytes seen[MOST_SEEN];
};

/* A handle was opened or not; its tree is open, or its pairs wait, or a closing has ended it. */
struct handle {
    bwtree *tree;
    pthread_rwlock_t lock;
    int ever, open, waiting, ended;
    uint64_t opening;
    bwtree_limits limits;
    size_t count;
    bwtree_pair map[MOST_PAIRS];
    struct unfinished unfinished[64];
    /* of the threads that share it: how many closings began and ended, how many calls on each seat did, and whether it was closed */
    uint64_t closes_begun, closes_ended, seats_begun[64], seats_ended[64];
    /* and how many calls with too few steps began on each seat, and on any */
    uint64_t shorts[64], all_shorts;
    int closed;
};

static size_t place_of(const struct handle *h, const bwtree_bytes *key) {
    size_t low = 0, high = h->count;
    while (low < high) {
        size_t mid = (low + high) / 2;
        if (compare(&h->map[mid].key, key) < 0) low = mid + 1; else high = mid;
    }
    return low;
}
static bwtree_bytes *value_in(struct handle *h, const bwtree_bytes *key) {
    size_t place = place_of(h, key);
    return place < h->count && same(&h->map[place].key, key) ? &h->map[place].value : NULL;
}

/* What a key has now is among what an unfinished lookup of it may return. */
static void let_see(struct handle *h, struct unfinished *u) {
    bwtree_bytes *now = value_in(h, &u->op.key);
    if (u->seen_count == MOST_SEEN) { u->has_seen_more = 1; return; }
    u->seen_has[u->seen_count] = now != NULL;
    if (now) u->seen[u->seen_count] = *now;
    u->seen_count++;
}
static void changed(struct handle *h, const bwtree_bytes *key) {
    for (uint64_t seat = 0; seat < h->limits.actors; seat++)
        if (h->unfinished[seat].is && same(&h->unfinished[seat].op.key, key)) let_see(h, &h->unfinished[seat]);
}
static int may_see(const struct unfinished *u, const bwtree_bytes *value) {
    if (u->has_seen_more) return 1;
    for (int i = 0; i < u->seen_count; i++)
        if (u->seen_has[i] == (value != NULL) && (!value || same(&u->seen[i], value))) return 1;
    return 0;
}

static void put(struct handle *h, const bwtree_bytes *key, const bwtree_bytes *value) {
    bwtree_bytes *old = value_in(h, key);
    size_t place = place_of(h, key);
    if (!old) {
        CHECK(h->count < MOST_PAIRS);
        memmove(h->map + place + 1, h->map + place, (h->count++ - place) * sizeof *h->map);
        h->map[place].key = *key;
    }
    h->map[place].value = *value;
    changed(h, key);
}
static void take_out(struct handle *h, const bwtree_bytes *key) {
    size_t place = place_of(h, key);
    memmove(h->map + place, h->map + place + 1, (--h->count - place) * sizeof *h->map);
    changed(h, key);
}

/* A seat on which a call may begin, but for one; none: as many as there are seats. */
static uint32_t idle_but(const struct handle *h, uint32_t not_this) {
    for (uint32_t seat = 0; seat < h->limits.actors; seat++)
        if (seat != not_this && !h->unfinished[seat].is) return seat;
    return (uint32_t)h->limits.actors;
}
static int has_unfinished(const struct handle *h) {
    for (uint64_t seat = 0; seat < h->limits.actors; seat++)
        if (h->unfinished[seat].is) return 1;
    return 0;
}

/* What a call on a seat is answered before it looks at the seat's operation: OK where it does. */
static uint32_t entry(const struct handle *h, uint32_t seat) {
    if (!h->ever) return BWTREE_CLOSED;
    if (seat >= h->limits.actors) return BWTREE_NO_SEAT;
    return h->open ? BWTREE_OK : BWTREE_CLOSED;
}
/* What it is answered before it begins an operation. */
static uint32_t beginning(const struct handle *h, uint32_t seat) {
    uint32_t status = entry(h, seat);
    return !status && h->unfinished[seat].is ? (uint32_t)BWTREE_UNFINISHED : status;
}

static int takes_value(int kind) { return kind == INSERT || kind == UPSERT || kind == COMPARE_AND_SET; }
static int takes_expected(int kind) { return kind == DELETE_IF || kind == COMPARE_AND_SET; }

/* What an operation is answered for its arguments. With a budget of 0 it is SPENT, whatever the handle and the seat are, and nothing is begun. */
static uint32_t arguments(const struct operation *op, int no_tree, int no_out, const struct slice *key, const struct slice *expected,
                          const struct slice *value) {
    int kind = op->kind;
    if (no_tree || key->is_null || (no_out && kind != TIDY)) return BWTREE_NULL;
    if ((takes_value(kind) && value->is_null) || (takes_expected(kind) && expected->is_null)) return BWTREE_NULL;
    if (key->is_long || (takes_value(kind) && value->is_long) || (takes_expected(kind) && expected->is_long)) return BWTREE_TOO_LONG;
    return op->has_budget && !op->budget ? BWTREE_SPENT : BWTREE_OK;
}

/* What the table of calls has an operation as. */
static int named(const struct operation *op) {
    return !op->has_budget ? op->kind : op->kind == GET ? GET_WITHIN : UPSERT_WITHIN;
}
/* Whether it may not suffice for an operation, and whether it suffices for none. */
static int may_be_spent(const struct operation *op) { return op->has_budget && op->budget < ENOUGH; }
static int must_be_spent(const struct operation *op) { return op->has_budget && op->budget <= 1; }

static uint64_t number_in(const bwtree_bytes *value) {
    uint64_t number = 0;
    for (int i = 0; i < 8; i++) number = number << 8 | value->bytes[i];
    return number;
}
static bwtree_bytes bytes_of_number(uint64_t number) {
    bwtree_bytes bytes = {8, {0}};
    for (int i = 0; i < 8; i++) bytes.bytes[i] = (uint8_t)(number >> (56 - 8 * i));
    return bytes;
}

/* Whether a page can be one from a key on, or up to it, whatever the tree has. */
static void check_page(const bwtree_page_pairs *page, const bwtree_bytes *at, int backward) {
    CHECK(page->count <= BWTREE_PAGE_PAIRS && page->more <= 1);
    for (uint64_t i = 0; i < page->count; i++) {
        CHECK(page->pairs[i].key.length <= 64 && page->pairs[i].value.length <= 64);
        CHECK(backward ? compare(&page->pairs[i].key, at) <= 0 : compare(&page->pairs[i].key, at) >= 0);
        if (i) CHECK(compare(&page->pairs[i - 1].key, &page->pairs[i].key) < 0);
    }
    if (!page->more) return;
    CHECK(page->next.length <= 64 && (backward ? compare(&page->next, at) < 0 : compare(&page->next, at) > 0));
    if (page->count && backward) CHECK(compare(&page->next, &page->pairs[0].key) < 0);
    if (page->count && !backward) CHECK(compare(&page->next, &page->pairs[page->count - 1].key) > 0);
}

/* Whether a page has the map's pairs from a key on, or up to it, and leaves none out before where it goes on. */
static void settle_page(const struct handle *h, const bwtree_page_pairs *page, const bwtree_bytes *at, int backward) {
    size_t from = place_of(h, at), end;
    check_page(page, at, backward);
    if (backward) {
        end = from < h->count && same(&h->map[from].key, at) ? from + 1 : from;
        CHECK(page->count <= end && (page->more || page->count == end));
        from = end - page->count;
        if (page->more && from) CHECK(compare(&h->map[from - 1].key, &page->next) <= 0);
    } else {
        end = from + page->count;
        CHECK(end <= h->count && (page->more || end == h->count));
        if (page->more && end < h->count) CHECK(compare(&h->map[end].key, &page->next) >= 0);
    }
    for (uint64_t i = 0; i < page->count; i++)
        CHECK(same(&page->pairs[i].key, &h->map[from + i].key) && same(&page->pairs[i].value, &h->map[from + i].value));
}

/* What an addition does, and is to answer. */
static uint32_t settle_add(struct handle *h, const struct operation *op, const bwtree_bytes *now) {
    bwtree_bytes sum = bytes_of_number(op->number + (now && now->length == 8 ? number_in(now) : 0));
    if (now && now->length != 8) return BWTREE_DIFFERS;
    put(h, &op->key, &sum);
    return now ? BWTREE_REPLACED : BWTREE_OK;
}

/* What an operation that is not full does to the map, and is to answer; `found` is the value that goes with the answer. */
static uint32_t settle(struct handle *h, const struct operation *op, bwtree_bytes *found) {
    bwtree_bytes *now = value_in(h, &op->key);
    if (now) *found = *now;
    switch (op->kind) {
    case GET: return now ? BWTREE_OK : BWTREE_ABSENT;
    case INSERT:
        if (!now) put(h, &op->key, &op->value);
        return now ? BWTREE_EXISTS : BWTREE_OK;
    case UPSERT:
        put(h, &op->key, &op->value);
        return now ? BWTREE_REPLACED : BWTREE_OK;
    case DELETE:
    case DELETE_IF:
        if (!now) return BWTREE_ABSENT;
        if (op->kind == DELETE_IF && !same(now, &op->expected)) return BWTREE_DIFFERS;
        take_out(h, &op->key);
        return BWTREE_OK;
    case COMPARE_AND_SET:
        if (!now) return BWTREE_ABSENT;
        if (!same(now, &op->expected)) return BWTREE_DIFFERS;
        put(h, &op->key, &op->value);
        return BWTREE_OK;
    case ADD: return settle_add(h, op, now);
    default: return BWTREE_OK;
    }
}

/* Whether an answer comes with a value in `old`. */
static int shows_value(int kind, uint32_t status) {
    if (status == BWTREE_OK) return kind == GET || kind == DELETE || kind == DELETE_IF;
    return status == BWTREE_EXISTS || status == BWTREE_REPLACED || status == BWTREE_DIFFERS;
}
static int shows_page(int kind, uint32_t status) { return status == BWTREE_OK && (kind == PAGE || kind == BACK); }
static int may_be_full(int kind) { return kind != GET && kind != PAGE && kind != BACK; }
#endif
