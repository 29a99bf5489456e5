/* What the fuzzer draws: numbers, keys, values, slices, seats and limits; and memory behind which a page lies that nobody may touch. */
#ifndef DRAW_H
#define DRAW_H

#include "bwtree.h"
#include <pthread.h>
#include <stdio.h>
#include <stdlib.h>
#include <string.h>
#include <sys/mman.h>

static uint64_t seed;

/* Ends the process where something isn't as the model has it. */
#define FAIL(...) do { \
    fprintf(stderr, "%s:%d: ", __FILE__, __LINE__); \
    fprintf(stderr, __VA_ARGS__); \
    fprintf(stderr, " (seed %llu)\n", (unsigned long long)seed); \
    _Exit(1); \
} while (0)
#define CHECK(x) do { if (!(x)) FAIL("%s", #x); } while (0)

enum { KEYS = 200, MOST_PAIRS = 400, MOST_STATUS = BWTREE_BAD_VERSION };
enum { GET, INSERT, UPSERT, DELETE, DELETE_IF, COMPARE_AND_SET, ADD, TIDY, PAGE, BACK, OPERATIONS,
       GET_WITHIN = OPERATIONS, UPSERT_WITHIN, RESUME, IDLE, ROOM, OPEN, OPEN_FROM, CLOSE, CLOSE_PAIRS, FOR_KEYS, FOR_MANY, FOR_PAIRS, KINDS };
static const char *const NAMES[KINDS] = {"get", "insert", "upsert", "delete", "delete_if", "compare_and_set", "add", "tidy", "page", "back", "get_within",
                                         "upsert_within", "resume", "is_idle", "free_room", "open", "open_from", "close", "close_pairs", "limits_for_keys",
                                         "limits_for_many_keys", "limits_for_pairs"};

/* ---- Numbers: splitmix64 ---- */

struct draw { uint64_t state; };

static uint64_t next(struct draw *d) {
    uint64_t z = d->state += 0x9e3779b97f4a7c15u;
    z = (z ^ z >> 30) * 0xbf58476d1ce4e5b9u;
    z = (z ^ z >> 27) * 0x94d049bb133111ebu;
    return z ^ z >> 31;
}
static uint64_t below(struct draw *d, uint64_t count) { return next(d) % count; }
static int one_in(struct draw *d, uint64_t count) { return below(d, count) == 0; }

/* ---- A thread, and the memory of its arguments: each name is the end of what may be touched ---- */

struct thread {
    struct draw draw;
    uint64_t calls, most, table[KINDS][MOST_STATUS + 1];
    uint8_t *key, *expected, *value, *old, *page, *room, *count, *limits, *pairs_in, *pairs_out;
    pthread_t id;
    int is_done;
};

/* Memory of some bytes that ends at a page that nobody may touch: its end. */
static uint8_t *edge(size_t size) {
    size_t page = 4096, room = (size + page - 1) / page * page;
    uint8_t *at = mmap(NULL, room + page, PROT_READ | PROT_WRITE, MAP_PRIVATE | MAP_ANONYMOUS, -1, 0);
    if (at == MAP_FAILED || mprotect(at + room, page, PROT_NONE)) FAIL("no memory");
    return at + room;
}

static void begin_thread(struct thread *t, uint64_t state, uint64_t most) {
    memset(t, 0, sizeof *t);
    t->draw.state = state, t->most = most;
    t->key = edge(256), t->expected = edge(256), t->value = edge(256), t->limits = edge(sizeof(bwtree_limits)), t->count = edge(8);
    t->old = edge(sizeof(bwtree_bytes)), t->page = edge(sizeof(bwtree_page_pairs)), t->room = edge(sizeof(bwtree_room));
    t->pairs_in = edge(MOST_PAIRS * sizeof(bwtree_pair)), t->pairs_out = edge(MOST_PAIRS * sizeof(bwtree_pair));
}

/* What a call writes is filled before, to see that it wrote nothing else. */
enum { FILLED = 0x5a };
static void *filled(uint8_t *end, size_t size) { return memset(end - size, FILLED, size); }
static int is_filled(const void *bytes, size_t size) {
    for (size_t i = 0; i < size; i++) if (((const uint8_t *)bytes)[i] != FILLED) return 0;
    return 1;
}

static void note(struct thread *t, int kind, uint32_t status) {
    if (status > MOST_STATUS || !strcmp(bwtree_text(status), "no status")) FAIL("%s answers %u", NAMES[kind], status);
    t->table[kind][status]++, t->calls++;
}

/* ---- Keys and values ---- */

static bwtree_bytes keys[KEYS];

static int compare(const bwtree_bytes *a, const bwtree_bytes *b) {
    int order = memcmp(a->bytes, b->bytes, a->length < b->length ? a->length : b->length);
    return order ? order : a->length < b->length ? -1 : a->length > b->length;
}
static int compare_void(const void *a, const void *b) { return compare(a, b); }
static int same(const bwtree_bytes *a, const bwtree_bytes *b) { return a->length == b->length && !memcmp(a->bytes, b->bytes, a->length); }

/* Keys of all lengths, of few different bytes, some of them others' prefixes; in order. */
static void draw_keys(struct draw *d) {
    for (int i = 0; i < KEYS; i++) {
        memset(&keys[i], 0, sizeof keys[i]);
        keys[i].length = i < 20 ? (uint64_t)i % 4 : below(d, 65);
        for (int j = 0; j < 64; j++) keys[i].bytes[j] = one_in(d, 3) ? 0 : one_in(d, 3) ? 255 : (uint8_t)next(d);
        if (i > 20 && one_in(d, 3)) keys[i] = keys[below(d, (uint64_t)i)];
        if (i > 20 && keys[i].length < 64 && one_in(d, 2)) keys[i].length++;
    }
    qsort(keys, KEYS, sizeof *keys, compare_void);
}

static uint32_t hash(uint32_t from, const uint8_t *bytes, size_t count) {
    for (size_t i = 0; i < count; i++) from = (from ^ bytes[i]) * 16777619u;
    return from;
}

/* A value that says of which opening and key it is, and whether it is whole: opening, hash of the key, hash of all the rest, and drawn bytes. */
static bwtree_bytes value_of(struct draw *d, uint64_t opening, const bwtree_bytes *key) {
    bwtree_bytes value = {20 + below(d, 45), {0}};
    uint32_t of_key = hash(1, key->bytes, key->length), of_all;
    for (uint64_t i = 16; i < value.length; i++) value.bytes[i] = (uint8_t)next(d);
    memcpy(value.bytes, &opening, 8), memcpy(value.bytes + 8, &of_key, 4);
    of_all = hash(hash(2, value.bytes, 12), value.bytes + 16, value.length - 16);
    memcpy(value.bytes + 12, &of_all, 4);
    return value;
}

/* Values of eight bytes come from additions, and say nothing. */
static void check_value(const bwtree_bytes *value, uint64_t opening, const bwtree_bytes *key) {
    uint64_t of;
    uint32_t of_key, of_all;
    CHECK(value->length <= 64);
    if (value->length == 8) return;
    CHECK(value->length >= 20);
    memcpy(&of, value->bytes, 8), memcpy(&of_key, value->bytes + 8, 4), memcpy(&of_all, value->bytes + 12, 4);
    CHECK(of_all == hash(hash(2, value->bytes, 12), value->bytes + 16, value->length - 16));
    CHECK(of == opening && (!key || of_key == hash(1, key->bytes, key->length)));
}

/* ---- Arguments ---- */

/* Bytes at the end of their memory; or null with a length, or too long. */
struct slice { const void *at; size_t length; int is_null, is_long; };

static struct slice slice_of(struct thread *t, uint8_t *end, const bwtree_bytes *bytes) {
    struct slice s = {end - bytes->length, bytes->length, 0, 0};
    if (one_in(&t->draw, 50)) return (struct slice){NULL, 1 + below(&t->draw, 70), 1, 0};
    if (one_in(&t->draw, 50)) {
        s.is_long = 1, s.length = 65 + below(&t->draw, 190);
        s.at = memset(end - s.length, 'x', s.length);
        return s;
    }
    memcpy(end - bytes->length, bytes->bytes, bytes->length);
    if (!bytes->length && one_in(&t->draw, 2)) s.at = NULL;
    return s;
}

static uint32_t seat_of(struct draw *d, uint64_t actors) {
    static const uint32_t odd[] = {16, 17, 63, 64, 255, 65536, 1u << 31, UINT32_MAX};
    if (one_in(d, 40)) return odd[below(d, 8)];
    return (uint32_t)below(d, one_in(d, 40) ? actors + 1 : actors);
}

/* How many steps a call may take: none, one, too few for most operations, or enough for any. */
enum { ENOUGH = 1 << 16 };
static uint32_t budget_of(struct draw *d) {
    switch (below(d, 8)) {
    case 0: return 0;
    case 1: return 1;
    case 2: return 200 + (uint32_t)below(d, 800);
    case 3: return one_in(d, 2) ? ENOUGH : UINT32_MAX;
    default: return 2 + (uint32_t)below(d, 40);
    }
}

static int is_count(uint64_t count, uint64_t most) { return count >= 64 && count <= most && count % 64 == 0; }

/* How many seats a tree may have. */
static uint64_t most_seats(uint64_t large) { return large ? BWTREE_MAX_SEATS : BWTREE_MAX_SMALL_SEATS; }

/* Whether the widths are those of a large tree. */
static int have_widths(const bwtree_limits *l) {
    return l->narrow_records % 64 == 0 && l->wide_from % 64 == 0 && l->narrow_records <= l->wide_from && l->wide_from > 0 && l->wide_from < l->records &&
           l->narrow_words >= 8 && l->page_words >= 24 && l->narrow_words <= l->page_words && l->page_words <= 512;
}

/* Limits, mostly of small trees; whether they are limits. */
static bwtree_limits limits_of(struct draw *d, int *fine) {
    static const uint64_t odd[] = {0, 1, 2, 63, 65, 127, 1ull << 32, 1ull << 62, (1ull << 62) + 1, 1ull << 63, UINT64_MAX, UINT64_MAX - 63};
    bwtree_limits l = {1 + below(d, 4), 64 * (1 + below(d, 4)), 64 * (1 + below(d, one_in(d, 2) ? 2 : 16)), 1, below(d, 3), 0, 64, 8, 24};
    if (one_in(d, 3)) l.actors = 1 + below(d, most_seats(l.large));
    if (one_in(d, 3)) l.epoch = (1ull << 62) - below(d, 40);
    switch (below(d, 14)) {
    case 0: l.actors = one_in(d, 2) ? 64 : odd[below(d, 12)]; break;
    case 1: l.pages = odd[below(d, 12)]; break;
    case 2: l.records = odd[below(d, 12)]; break;
    case 3: l.epoch = odd[below(d, 12)]; break;
    case 4: l.large = odd[below(d, 12)]; break;
    case 5: l.narrow_records = 64 * below(d, 3); break;
    case 6: l.wide_from = 64 * below(d, 4) + below(d, 2); break;
    case 7: l.narrow_words = one_in(d, 2) ? odd[below(d, 12)] : 8 + below(d, 20); break;
    case 8: l.page_words = one_in(d, 2) ? odd[below(d, 12)] : 20 + below(d, 500); break;
    }
    *fine = (l.large <= 1 || (l.large == 2 && have_widths(&l))) && l.actors >= 1 && l.actors <= most_seats(l.large) && is_count(l.pages, l.large ? 4194304 : 4096) &&
            is_count(l.records, l.large ? 67108864 : 16384) && l.epoch >= 1 && l.epoch <= 1ull << 62;
    return l;
}
#endif
