/* Calls of all kinds with drawn arguments, right and wrong ones, on handles in all states; each answer, and each byte that is written or not, is compared
 * with a model of c/bwtree.h (model.h). One thread knows each answer. Several threads that share handles and seats know which answers there may be.
 *     fuzz one|shared SEED CALLS [THREADS [STOPS]]       STOPS a second: threads are stopped for a moment, wherever they are
 * It ends with a table of calls by status. At the first fault it says which, and the status is 1. */
#define _GNU_SOURCE
#include "model.h"
#include "shared.h"

enum { HANDLES = 4 };
static struct handle handles[HANDLES];
static uint64_t openings, tried_openings;
static struct thread *all;
static int threads = 1, stops, ended;

/* ---- Operations ---- */

static uint32_t operate(const struct operation *op, const bwtree *tree, uint32_t seat, const struct slice *k, const struct slice *e, const struct slice *v,
                        bwtree_bytes *old, bwtree_page_pairs *page) {
    if (op->has_budget && op->kind == GET) return bwtree_get_within(tree, seat, op->budget, k->at, k->length, old);
    if (op->has_budget) return bwtree_upsert_within(tree, seat, op->budget, k->at, k->length, v->at, v->length, old);
    switch (op->kind) {
    case GET: return bwtree_get(tree, seat, k->at, k->length, old);
    case INSERT: return bwtree_insert(tree, seat, k->at, k->length, v->at, v->length, old);
    case UPSERT: return bwtree_upsert(tree, seat, k->at, k->length, v->at, v->length, old);
    case DELETE: return bwtree_delete(tree, seat, k->at, k->length, old);
    case DELETE_IF: return bwtree_delete_if(tree, seat, k->at, k->length, e->at, e->length, old);
    case COMPARE_AND_SET: return bwtree_compare_and_set(tree, seat, k->at, k->length, e->at, e->length, v->at, v->length, old);
    case ADD: return bwtree_add(tree, seat, k->at, k->length, op->number, old);
    case TIDY: return bwtree_tidy(tree, seat, k->at, k->length);
    case PAGE: return bwtree_page(tree, seat, k->at, k->length, page);
    default: return bwtree_back(tree, seat, k->at, k->length, page);
    }
}

/* An operation on a key of the first so many; the value that one expects is `seen` in half of the cases. */
static struct operation operation_of(struct draw *d, uint64_t opening, uint64_t count, const bwtree_bytes *seen) {
    struct operation op;
    memset(&op, 0, sizeof op);
    op.kind = (int)below(d, OPERATIONS), op.key = keys[below(d, count)], op.number = one_in(d, 2) ? next(d) : below(d, 3);
    op.value = value_of(d, opening, &op.key);
    op.has_budget = (op.kind == GET || op.kind == UPSERT) && one_in(d, 3);
    if (op.has_budget) op.budget = budget_of(d);
    op.expected = seen && one_in(d, 2) ? *seen : op.value;
    return op;
}

/* Whether a call that answered this wrote what it is to write, and nothing else. */
static void check_writes(int kind, uint32_t status, const bwtree_bytes *old, const bwtree_page_pairs *page) {
    if (!shows_value(kind, status)) CHECK(is_filled(old, sizeof *old));
    if (!shows_page(kind, status)) CHECK(is_filled(page, sizeof *page));
}

/* Whether an unfinished upsert has taken effect: by a lookup on another seat. In a tree with one seat nobody else can tell. */
static void look_for_effect(struct handle *h, uint32_t of) {
    struct unfinished *u = &h->unfinished[of];
    uint32_t seat = idle_but(h, of), status;
    bwtree_bytes value, *now = value_in(h, &u->op.key);
    if (u->op.kind != UPSERT || u->took_effect || seat == h->limits.actors) return;
    status = bwtree_get(h->tree, seat, u->op.key.bytes, u->op.key.length, &value);
    if (status == BWTREE_OK && same(&value, &u->op.value)) {
        u->took_effect = 1, u->had = now != NULL;
        if (now) u->old = *now;
        put(h, &u->op.key, &u->op.value);
    } else CHECK(status == (now ? (uint32_t)BWTREE_OK : (uint32_t)BWTREE_ABSENT) && (!now || same(&value, now)));
}

/* An operation that is SPENT stays in its seat. */
static void leave_unfinished(struct handle *h, uint32_t seat, const struct operation *op) {
    struct unfinished *u = &h->unfinished[seat];
    memset(u, 0, sizeof *u);
    u->is = 1, u->op = *op;
    let_see(h, u);
    look_for_effect(h, seat);
}

static void one_operation(struct thread *t, struct handle *h) {
    bwtree_bytes *old = filled(t->old, sizeof *old), found = {0, {0}};
    bwtree_page_pairs *page = filled(t->page, sizeof *page);
    const bwtree_bytes *some = h->count ? &h->map[below(&t->draw, h->count)].value : NULL;
    struct operation op = operation_of(&t->draw, h->opening, KEYS, some);
    if (value_in(h, &op.key) && one_in(&t->draw, 2)) op.expected = *value_in(h, &op.key);
    struct slice k = slice_of(t, t->key, &op.key), e = slice_of(t, t->expected, &op.expected), v = slice_of(t, t->value, &op.value);
    int no_tree = one_in(&t->draw, 60), no_out = one_in(&t->draw, 60);
    uint32_t seat = seat_of(&t->draw, h->ever ? h->limits.actors : 1);
    /* a seat stays idle, by which others' unfinished operations are seen */
    if (op.has_budget && h->ever && h->limits.actors > 1 && idle_but(h, seat) == h->limits.actors) op.budget = ENOUGH;
    uint32_t wanted = arguments(&op, no_tree, no_out, &k, &e, &v);
    if (!wanted) wanted = beginning(h, seat);
    begin_call();
    uint32_t status = operate(&op, no_tree ? NULL : h->tree, seat, &k, &e, &v, no_out ? NULL : old, no_out ? NULL : page);
    end_call();
    note(t, named(&op), status);
    if (!wanted && (must_be_spent(&op) || (status == BWTREE_SPENT && may_be_spent(&op)))) {
        CHECK(status == BWTREE_SPENT && is_filled(old, sizeof *old));
        leave_unfinished(h, seat, &op);
        return;
    }
    if (!wanted && status == BWTREE_FULL && may_be_full(op.kind)) wanted = status;
    else if (!wanted) wanted = settle(h, &op, &found);
    if (status != wanted) FAIL("%s answers %u, not %u", NAMES[op.kind], status, wanted);
    check_writes(op.kind, status, old, page);
    if (shows_value(op.kind, status)) CHECK(same(old, &found));
    if (shows_page(op.kind, status)) settle_page(h, page, &op.key, op.kind == BACK);
}

/* ---- Calls about a seat ---- */

static void one_look(struct thread *t, struct handle *h, int kind) {
    bwtree_room *room = filled(t->room, sizeof *room);
    uint32_t seat = seat_of(&t->draw, h->ever ? h->limits.actors : 1), status, wanted = kind == IDLE ? beginning(h, seat) : entry(h, seat);
    int null = (int)below(&t->draw, 60);
    const bwtree *tree = null == 0 ? NULL : h->tree;
    begin_call();
    if (kind == ROOM) status = bwtree_free_room(tree, seat, null == 1 ? NULL : room);
    else status = bwtree_is_idle(tree, seat);
    end_call();
    note(t, kind, status);
    if (null == 0 || (kind != IDLE && null == 1)) wanted = BWTREE_NULL;
    if (status != wanted) FAIL("%s answers %u, not %u", NAMES[kind], status, wanted);
    if (kind == ROOM && !status) CHECK(room->free_pages < h->limits.pages && room->free_records < h->limits.records);
    else CHECK(is_filled(room, sizeof *room));
}

/* Whether an unfinished operation answers this at its end, and with this value in `old`. */
static void settle_unfinished(struct handle *h, uint32_t seat, uint32_t status, const bwtree_bytes *old) {
    struct unfinished *u = &h->unfinished[seat];
    bwtree_bytes found = {0, {0}};
    uint32_t wanted;
    u->is = 0;
    if (u->op.kind == GET) {
        CHECK(status == BWTREE_OK || status == BWTREE_ABSENT);
        CHECK(may_see(u, status == BWTREE_OK ? old : NULL));
        return;
    }
    if (u->took_effect) wanted = u->had ? BWTREE_REPLACED : BWTREE_OK, found = u->old;
    else if (status == BWTREE_FULL) return;
    else wanted = settle(h, &u->op, &found);
    if (status != wanted) FAIL("resume of an upsert answers %u, not %u", status, wanted);
    if (status == BWTREE_REPLACED) CHECK(same(old, &found));
}

/* Continues a seat's operation, if it has one. */
static void one_resumption(struct thread *t, struct handle *h) {
    bwtree_bytes *old = filled(t->old, sizeof *old);
    bwtree_page_pairs *page = filled(t->page, sizeof *page);
    uint32_t seat = seat_of(&t->draw, h->ever ? h->limits.actors : 1), budget = budget_of(&t->draw);
    for (uint64_t tries = 0; h->ever && tries < h->limits.actors && seat < h->limits.actors && !h->unfinished[seat].is && !one_in(&t->draw, 40); tries++)
        seat = (uint32_t)((seat + 1) % h->limits.actors);
    uint32_t wanted = entry(h, seat);
    int null = (int)below(&t->draw, 60), kind = wanted ? GET : h->unfinished[seat].op.kind;
    begin_call();
    uint32_t status = bwtree_resume(null == 0 ? NULL : h->tree, seat, budget, null == 1 ? NULL : old, null == 2 ? NULL : page);
    end_call();
    note(t, RESUME, status);
    if (null < 3) wanted = BWTREE_NULL;
    else if (!wanted && !h->unfinished[seat].is) wanted = BWTREE_IDLE;
    else if (!wanted && !budget) wanted = BWTREE_SPENT;
    CHECK(is_filled(page, sizeof *page));
    if (wanted || status == BWTREE_SPENT) CHECK(is_filled(old, sizeof *old));
    if (wanted) {
        if (status != wanted) FAIL("resume answers %u, not %u", status, wanted);
    } else if (status == BWTREE_SPENT) {
        CHECK(budget < ENOUGH);
        look_for_effect(h, seat);
    } else {
        if (!shows_value(kind, status)) CHECK(is_filled(old, sizeof *old));
        settle_unfinished(h, seat, status, old);
    }
}

/* ---- Openings and closings ---- */

/* Pairs whose keys ascend, in their memory; in some cases with one that is too long, or out of order. */
static bwtree_pair *pairs_of(struct thread *t, uint64_t opening, size_t *count, int *is_long, int *is_out_of_order) {
    bwtree_pair given[60], *pairs;
    size_t room = below(&t->draw, one_in(&t->draw, 3) ? 60 : 10), all_keys = 0;
    *count = 0, *is_long = *is_out_of_order = 0;
    memset(given, 0, sizeof given);
    for (; all_keys < KEYS && *count < room; all_keys++)
        if ((!*count || compare(&given[*count - 1].key, &keys[all_keys]) < 0) && one_in(&t->draw, 2)) {
            given[*count].key = keys[all_keys];
            given[(*count)++].value = value_of(&t->draw, opening, &keys[all_keys]);
        }
    if (*count && one_in(&t->draw, 10)) given[below(&t->draw, *count)].value.length = one_in(&t->draw, 2) ? 65 : UINT64_MAX, *is_long = 1;
    if (*count && one_in(&t->draw, 20)) given[below(&t->draw, *count)].key.length = 65, *is_long = 1;
    if (*count > 1 && one_in(&t->draw, 10)) {
        size_t i = below(&t->draw, *count - 1);
        bwtree_pair pair = given[i];
        given[i] = given[i + 1], *is_out_of_order = 1;
        if (one_in(&t->draw, 2)) given[i + 1] = pair;
    }
    pairs = (bwtree_pair *)(void *)(t->pairs_in - *count * sizeof *pairs);
    return memcpy(pairs, given, *count * sizeof *pairs);
}

/* Whether an opening answers what it may, by its arguments and what the handle has. */
static void check_opening(uint32_t status, uint32_t wanted, int is_long, int is_out_of_order, size_t count) {
    if (wanted) CHECK(status == wanted);
    else if (is_long || is_out_of_order) CHECK((is_long && status == BWTREE_TOO_LONG) || (is_out_of_order && status == BWTREE_BAD_ORDER));
    else CHECK(status == BWTREE_OK || (count > 20 && status == BWTREE_FULL));
}

static void one_opening(struct thread *t, struct handle *h, int with_pairs) {
    bwtree_limits *limits = (bwtree_limits *)(void *)(t->limits - sizeof *limits);
    int fine, is_long = 0, is_out_of_order = 0, null = (int)below(&t->draw, 50), null_pairs = with_pairs && one_in(&t->draw, 40);
    size_t count = 0;
    uint64_t opening = __atomic_add_fetch(&tried_openings, 1, __ATOMIC_SEQ_CST);
    bwtree_pair *pairs = with_pairs ? pairs_of(t, opening, &count, &is_long, &is_out_of_order) : NULL;
    bwtree *tree = null == 1 ? NULL : h->tree, before = *h->tree;
    *limits = limits_of(&t->draw, &fine);
    uint32_t status = with_pairs ? bwtree_open_from(null == 0 ? NULL : limits, null_pairs ? NULL : pairs, null_pairs ? 1 + count : count, tree)
                                 : bwtree_open(null == 0 ? NULL : limits, tree);
    note(t, with_pairs ? OPEN_FROM : OPEN, status);
    uint32_t wanted = null < 2 || null_pairs ? BWTREE_NULL : !fine ? BWTREE_BAD_LIMITS : h->ever && !h->ended ? BWTREE_OPEN : BWTREE_OK;
    check_opening(status, wanted, is_long, is_out_of_order, count);
    if (status != BWTREE_OK) {
        /* a closed tree's handle may have been emptied */
        if ((h->ever && !h->ended) || wanted == BWTREE_NULL) CHECK(!memcmp(&before, h->tree, sizeof before));
        h->ever = h->tree->held_ != 0;
        return;
    }
    h->ever = h->open = 1, h->waiting = h->closed = h->ended = 0, h->limits = *limits, h->count = count;
    h->opening = opening, h->all_shorts = 0;
    memset(h->shorts, 0, sizeof h->shorts), memset(h->unfinished, 0, sizeof h->unfinished);
    __atomic_add_fetch(&openings, 1, __ATOMIC_SEQ_CST);
    memcpy(h->map, pairs ? pairs : h->map, count * sizeof *h->map);
}

static void one_closing(struct thread *t, struct handle *h) {
    int null = one_in(&t->draw, 30);
    uint32_t status = bwtree_close(null ? NULL : h->tree);
    note(t, CLOSE, status);
    CHECK(status == (null ? (uint32_t)BWTREE_NULL : h->open || h->waiting ? (uint32_t)BWTREE_OK : (uint32_t)BWTREE_CLOSED));
    if (!status) h->open = h->waiting = 0, h->ended = 1;
}

static void one_handing_over(struct thread *t, struct handle *h) {
    size_t room = one_in(&t->draw, 2) ? h->count + below(&t->draw, 3) : below(&t->draw, h->count + 1);
    filled(t->pairs_out, MOST_PAIRS * sizeof(bwtree_pair));
    bwtree_pair *pairs = (bwtree_pair *)(void *)(t->pairs_out - room * sizeof *pairs);
    uint64_t *count = filled(t->count, 8);
    int null = (int)below(&t->draw, 60), no_pairs = one_in(&t->draw, 10);
    uint32_t status = bwtree_close_pairs(null == 0 ? NULL : h->tree, no_pairs ? NULL : pairs, room, null == 1 ? NULL : count);
    note(t, CLOSE_PAIRS, status);
    uint32_t wanted = null < 2 || (no_pairs && room) ? BWTREE_NULL : !h->open && !h->waiting ? BWTREE_CLOSED : h->open && has_unfinished(h) ? BWTREE_UNFINISHED
                    : room < h->count ? BWTREE_NO_ROOM : BWTREE_OK;
    if (status != wanted) FAIL("close_pairs answers %u, not %u", status, wanted);
    CHECK(wanted >= BWTREE_CLOSED ? is_filled(count, 8) : *count == h->count);
    size_t written = status == BWTREE_OK ? h->count : 0;
    for (size_t i = 0; i < written; i++) CHECK(same(&pairs[i].key, &h->map[i].key) && same(&pairs[i].value, &h->map[i].value));
    CHECK(is_filled(pairs + written, (room - written) * sizeof *pairs));
    CHECK(is_filled(t->pairs_out - MOST_PAIRS * sizeof *pairs, (MOST_PAIRS - room) * sizeof *pairs));
    if (status == BWTREE_OK) h->open = h->waiting = 0, h->ended = 1;
    if (status == BWTREE_NO_ROOM) h->open = 0, h->waiting = 1;
}

/* Limits by the number of keys: refused from what no tree takes on, and never where any tree does. */
static void one_proposal(struct thread *t, int kind) {
    static const uint64_t odd[] = {0, 1, 9751, 9752, 12199, 12200, 27066839, 27068967, 27068968, 1ull << 32, 1ull << 63, UINT64_MAX};
    bwtree_limits *l = filled(t->limits, sizeof *l);
    int is_large = kind != FOR_KEYS;
    uint64_t actors = one_in(&t->draw, 10) ? odd[below(&t->draw, 12)] : 1 + below(&t->draw, most_seats(is_large));
    uint64_t key_bytes = one_in(&t->draw, 20) ? odd[below(&t->draw, 12)] : below(&t->draw, 66), value_bytes = below(&t->draw, 66);
    uint64_t count = one_in(&t->draw, 3) ? odd[below(&t->draw, 12)] : below(&t->draw, kind == FOR_KEYS ? 13000 : 28000000);
    uint64_t sure = kind == FOR_KEYS ? 9000 : 27000000, never = kind == FOR_KEYS ? 12200 : 27068968;
    int null = one_in(&t->draw, 40);
    uint32_t status = kind == FOR_PAIRS ? bwtree_limits_for_pairs(actors, count, key_bytes, value_bytes, null ? NULL : l)
                                        : (kind == FOR_KEYS ? bwtree_limits_for_keys : bwtree_limits_for_many_keys)(actors, count, null ? NULL : l);
    note(t, kind, status);
    if (null) CHECK(status == BWTREE_NULL);
    else if (actors < 1 || actors > most_seats(is_large) || count >= never) CHECK(status == BWTREE_BAD_LIMITS);
    else if (kind == FOR_PAIRS && (key_bytes > 64 || value_bytes > 64)) CHECK(status == BWTREE_BAD_LIMITS);
    else CHECK(status == BWTREE_OK || (count > sure && status == BWTREE_BAD_LIMITS));
    if (status) { CHECK(is_filled(l, sizeof *l)); return; }
    CHECK(l->actors == actors && l->epoch == 1 && l->large == (is_large ? 2 : 0) && is_count(l->pages, l->large ? 4194304 : 4096));
    CHECK(is_count(l->records, l->large ? 67108864 : 16384) && (!is_large || have_widths(l)));
}

/* ---- One thread ---- */

static void one(struct thread *t) {
    while (t->calls < t->most) {
        struct handle *h = &handles[below(&t->draw, HANDLES)];
        uint64_t drawn = below(&t->draw, 5000);
        if (drawn < 2) one_closing(t, h);
        else if (drawn < 8) one_handing_over(t, h);
        else if (drawn < 60) one_opening(t, h, one_in(&t->draw, 2));
        else if (drawn < 100) one_proposal(t, FOR_KEYS + (int)below(&t->draw, 3));
        else if (drawn < 400) one_look(t, h, one_in(&t->draw, 2) ? IDLE : ROOM);
        else if (drawn < 500 || (has_unfinished(h) && one_in(&t->draw, 3))) one_resumption(t, h);
        else one_operation(t, h);
    }
}

/* ---- Several threads ---- */

/* Continues a seat's operation, whoever began it, for a drawn number of steps; at its end it answers what a lookup or an upsert may. */
static uint32_t shared_resumption(struct thread *t, struct handle *h, uint32_t seat) {
    bwtree_bytes *old = filled(t->old, sizeof *old);
    bwtree_page_pairs *page = filled(t->page, sizeof *page);
    uint32_t budget = budget_of(&t->draw);
    struct watch w = watch(h, seat);
    begin_call();
    uint32_t status = bwtree_resume(h->tree, seat, budget, old, page);
    end_call();
    watched(&w, BWTREE_OK, status);
    note(t, RESUME, status);
    CHECK(is_filled(page, sizeof *page));
    CHECK(status == BWTREE_OK || status == BWTREE_ABSENT || status == BWTREE_REPLACED || status == BWTREE_FULL || status == BWTREE_SPENT ||
          status == BWTREE_IDLE || status == BWTREE_CLOSED || status == BWTREE_NO_SEAT || status == BWTREE_BUSY);
    if (status <= BWTREE_SPENT) CHECK(load(&h->shorts[seat]));
    if (!budget) CHECK(status >= BWTREE_SPENT);
    if (status == BWTREE_SPENT) CHECK(budget < ENOUGH);
    if (status == BWTREE_REPLACED || (status == BWTREE_OK && !is_filled(old, sizeof *old))) check_value(old, h->opening, NULL);
    else CHECK(is_filled(old, sizeof *old));
    return status;
}

/* Resumes until the seat has nothing unfinished, or the tree is closed; now and then it is left to others. */
static void go_on(struct thread *t, struct handle *h, uint32_t seat) {
    uint32_t status = BWTREE_SPENT;
    while ((status == BWTREE_SPENT || status == BWTREE_BUSY) && !one_in(&t->draw, 60)) status = shared_resumption(t, h, seat);
}

static void shared_operation(struct thread *t, struct handle *h) {
    static __thread bwtree_bytes seen;
    bwtree_bytes *old = filled(t->old, sizeof *old);
    bwtree_page_pairs *page = filled(t->page, sizeof *page);
    struct operation op = operation_of(&t->draw, h->opening, one_in(&t->draw, 2) ? 12 : KEYS, seen.length ? &seen : NULL);
    struct slice k = slice_of(t, t->key, &op.key), e = slice_of(t, t->expected, &op.expected), v = slice_of(t, t->value, &op.value);
    uint32_t seat = seat_of(&t->draw, h->ever ? h->limits.actors : 1), wanted = arguments(&op, 0, 0, &k, &e, &v);
    struct watch w = watch(h, seat);
    if (w.has_seat && !wanted && may_be_spent(&op)) {
        __atomic_add_fetch(&h->shorts[seat], 1, __ATOMIC_SEQ_CST);
        __atomic_add_fetch(&h->all_shorts, 1, __ATOMIC_SEQ_CST);
    }
    begin_call();
    uint32_t status = operate(&op, h->tree, seat, &k, &e, &v, old, page);
    end_call();
    watched(&w, wanted, status);
    note(t, named(&op), status);
    if (wanted) return;
    check_writes(op.kind, status, old, page);
    if (status == BWTREE_UNFINISHED ? !load(&h->shorts[seat]) : !may_answer(&op, status)) FAIL("%s answers %u", NAMES[named(&op)], status);
    if (status == BWTREE_SPENT || (status == BWTREE_UNFINISHED && one_in(&t->draw, 2))) go_on(t, h, seat);
    if (status == BWTREE_SPENT || status == BWTREE_UNFINISHED) return;
    if (shows_value(op.kind, status)) check_value(old, h->opening, &op.key), seen = *old;
    if (status == BWTREE_DIFFERS && op.kind != ADD) CHECK(!same(old, &op.expected));
    if (op.kind == DELETE_IF && status == BWTREE_OK) CHECK(same(old, &op.expected));
    if (!shows_page(op.kind, status)) return;
    check_page(page, &op.key, op.kind == BACK);
    for (uint64_t i = 0; i < page->count; i++) check_value(&page->pairs[i].value, h->opening, &page->pairs[i].key);
}

static void shared_look(struct thread *t, struct handle *h, int kind) {
    bwtree_room *room = filled(t->room, sizeof *room);
    uint32_t seat = seat_of(&t->draw, h->ever ? h->limits.actors : 1), status;
    if (kind == RESUME) { shared_resumption(t, h, seat); return; }
    struct watch w = watch(h, seat);
    begin_call();
    if (kind == ROOM) status = bwtree_free_room(h->tree, seat, room);
    else status = bwtree_is_idle(h->tree, seat);
    end_call();
    watched(&w, BWTREE_OK, status);
    note(t, kind, status);
    CHECK(status == BWTREE_OK || status == BWTREE_CLOSED || status == BWTREE_NO_SEAT || status == BWTREE_BUSY ||
          (kind == IDLE && status == BWTREE_UNFINISHED && load(&h->shorts[seat])));
    if (kind == ROOM && !status) CHECK(room->free_pages < h->limits.pages && room->free_records < h->limits.records);
    else CHECK(is_filled(room, sizeof *room));
}

static void shared_closing(struct thread *t, struct handle *h, int with_pairs) {
    uint64_t *count = filled(t->count, 8), room = one_in(&t->draw, 2) ? below(&t->draw, 40) : MOST_PAIRS;
    bwtree_pair *pairs = filled(t->pairs_out, room * sizeof *pairs);
    __atomic_add_fetch(&h->closes_begun, 1, __ATOMIC_SEQ_CST);
    uint32_t status = with_pairs ? bwtree_close_pairs(h->tree, pairs, room, count) : bwtree_close(h->tree);
    note(t, with_pairs ? CLOSE_PAIRS : CLOSE, status);
    CHECK(status == BWTREE_OK || status == BWTREE_CLOSED || status == BWTREE_BUSY || (with_pairs && status == BWTREE_NO_ROOM) ||
          (with_pairs && status == BWTREE_UNFINISHED && load(&h->all_shorts)));
    size_t written = with_pairs && status == BWTREE_OK ? *count : 0;
    if (with_pairs && (status == BWTREE_OK || status == BWTREE_NO_ROOM)) CHECK(*count <= MOST_PAIRS && (*count > room) == (status == BWTREE_NO_ROOM));
    else CHECK(is_filled(count, 8));
    for (size_t i = 0; i < written; i++) {
        check_value(&pairs[i].value, h->opening, &pairs[i].key);
        if (i) CHECK(compare(&pairs[i - 1].key, &pairs[i].key) < 0);
    }
    CHECK(is_filled(pairs + written, (room - written) * sizeof *pairs));
    /* one closing alone ends a tree */
    if (status == BWTREE_OK) CHECK(__atomic_exchange_n(&h->ended, 1, __ATOMIC_SEQ_CST) == 0);
    if (status == BWTREE_OK || status == BWTREE_NO_ROOM) __atomic_store_n(&h->closed, 1, __ATOMIC_SEQ_CST);
    __atomic_add_fetch(&h->closes_ended, 1, __ATOMIC_SEQ_CST);
}

static void *shared(void *argument) {
    struct thread *t = argument;
    while (t->calls < t->most) {
        struct handle *h = &handles[below(&t->draw, HANDLES)];
        /* an opening has its handle alone */
        if (one_in(&t->draw, 30)) {
            pthread_rwlock_wrlock(&h->lock);
            one_opening(t, h, one_in(&t->draw, 3));
            pthread_rwlock_unlock(&h->lock);
            continue;
        }
        pthread_rwlock_rdlock(&h->lock);
        for (uint64_t more = 1 + below(&t->draw, 30); more; more--) {
            uint64_t drawn = below(&t->draw, 2000);
            if (drawn < 3) shared_closing(t, h, one_in(&t->draw, 2));
            else if (drawn < 200) shared_look(t, h, RESUME + (int)below(&t->draw, 3));
            else shared_operation(t, h);
        }
        pthread_rwlock_unlock(&h->lock);
    }
    __atomic_store_n(&t->is_done, 1, __ATOMIC_SEQ_CST);
    return NULL;
}

/* Stops drawn threads for a moment, wherever they are, until all of them are done. */
static void *stop_some(void *unused) {
    struct draw d = {seed + 99};
    while (!__atomic_load_n(&ended, __ATOMIC_SEQ_CST)) {
        usleep((useconds_t)(1000000 / stops));
        if (!__atomic_load_n(&ended, __ATOMIC_SEQ_CST)) pthread_kill(all[below(&d, (uint64_t)threads)].id, SIGUSR1);
    }
    return unused;
}

static void run_shared(void) {
    pthread_t stopper;
    struct sigaction action;
    memset(&action, 0, sizeof action);
    action.sa_handler = stand_a_moment, action.sa_flags = SA_RESTART;
    CHECK(sigaction(SIGUSR1, &action, NULL) == 0);
    for (int i = 0; i < threads; i++) CHECK(pthread_create(&all[i].id, NULL, shared, &all[i]) == 0);
    if (stops) CHECK(pthread_create(&stopper, NULL, stop_some, NULL) == 0);
    /* a thread's identity is valid until it is joined */
    struct timespec moment = {0, 1000000};
    for (int i = 0; i < threads; i++)
        while (!__atomic_load_n(&all[i].is_done, __ATOMIC_SEQ_CST)) nanosleep(&moment, NULL);
    __atomic_store_n(&ended, 1, __ATOMIC_SEQ_CST);
    if (stops) pthread_join(stopper, NULL);
    for (int i = 0; i < threads; i++) pthread_join(all[i].id, NULL);
}

int main(int count, char **words) {
    uint64_t sum = 0;
    if (count < 4) return fprintf(stderr, "fuzz one|shared SEED CALLS [THREADS [STOPS]]\n"), 2;
    int is_shared = !strcmp(words[1], "shared");
    seed = strtoull(words[2], NULL, 10);
    threads = is_shared && count > 4 ? atoi(words[4]) : 1;
    stops = count > 5 ? atoi(words[5]) : 0;
    struct draw d = {seed * 7919 + 1};
    draw_keys(&d);
    for (int i = 0; i < HANDLES; i++) handles[i].tree = (bwtree *)(void *)(edge(sizeof(bwtree)) - sizeof(bwtree)), pthread_rwlock_init(&handles[i].lock, NULL);
    all = calloc((size_t)threads, sizeof *all);
    CHECK(all);
    for (int i = 0; i < threads; i++) begin_thread(&all[i], seed * 1000003 + (uint64_t)i, strtoull(words[3], NULL, 10) / (uint64_t)threads);
    if (is_shared) run_shared(); else one(&all[0]);
    for (int kind = 0; kind < KINDS; kind++) {
        printf("%-20s", NAMES[kind]);
        for (uint32_t status = 0; status <= MOST_STATUS; status++) {
            uint64_t calls = 0;
            for (int i = 0; i < threads; i++) calls += all[i].table[kind][status];
            if (calls) printf(" %u: %llu", status, (unsigned long long)calls);
            sum += calls;
        }
        puts("");
    }
    for (int i = 0; i < HANDLES; i++) bwtree_close(handles[i].tree);
    printf("%llu calls, %llu openings: as the model has it\n", (unsigned long long)sum, (unsigned long long)openings);
    return 0;
}
