/* Stands before the library's calls in tests of what stands on it: each call on an idle seat is SPENT at first, and once more when it is resumed, and its
 * operation waits in the seat; the next resume runs it. No operation of the library itself takes the 65,536 steps after which that happens. checks/languages
 * gives the archive's own functions the names real_*, and puts this in their place. */
#include "bwtree.h"
#include <pthread.h>
#include <string.h>

enum kind { NONE, GET, INSERT, UPSERT, DELETE, DELETE_IF, SWAP, ADD, TIDY, PAGE, BACK };

/* An operation that waits in a seat. */
typedef struct {
    const bwtree *tree;
    uint32_t seat;
    enum kind kind;
    int is_spent_again;
    bwtree_bytes texts[3];
    uint64_t number;
} operation;

static pthread_mutex_t lock = PTHREAD_MUTEX_INITIALIZER;
static operation waiting[256];

uint32_t real_get(const bwtree *, uint32_t, const void *, size_t, bwtree_bytes *);
uint32_t real_insert(const bwtree *, uint32_t, const void *, size_t, const void *, size_t, bwtree_bytes *);
uint32_t real_upsert(const bwtree *, uint32_t, const void *, size_t, const void *, size_t, bwtree_bytes *);
uint32_t real_delete(const bwtree *, uint32_t, const void *, size_t, bwtree_bytes *);
uint32_t real_delete_if(const bwtree *, uint32_t, const void *, size_t, const void *, size_t, bwtree_bytes *);
uint32_t real_swap(const bwtree *, uint32_t, const void *, size_t, const void *, size_t, const void *, size_t, bwtree_bytes *);
uint32_t real_add(const bwtree *, uint32_t, const void *, size_t, uint64_t, bwtree_bytes *);
uint32_t real_tidy(const bwtree *, uint32_t, const void *, size_t);
uint32_t real_page(const bwtree *, uint32_t, const void *, size_t, bwtree_page_pairs *);
uint32_t real_back(const bwtree *, uint32_t, const void *, size_t, bwtree_page_pairs *);
uint32_t real_resume(const bwtree *, uint32_t, uint32_t, bwtree_bytes *, bwtree_page_pairs *);
uint32_t real_is_idle(const bwtree *, uint32_t);
uint32_t real_close(const bwtree *);
uint32_t real_close_pairs(const bwtree *, bwtree_pair *, size_t, uint64_t *);

/* The operation that waits in a seat, or a place for none where the tree is null. The lock is held. */
static operation *of_seat(const bwtree *tree, uint32_t seat) {
    for (size_t i = 0; i < sizeof waiting / sizeof *waiting; i++)
        if (tree ? waiting[i].tree == tree && waiting[i].seat == seat : !waiting[i].tree) return &waiting[i];
    return NULL;
}

/* Runs an operation. */
static uint32_t run(const operation *o, bwtree_bytes *old, bwtree_page_pairs *page) {
    const bwtree_bytes *t = o->texts;
    switch (o->kind) {
    case GET: return real_get(o->tree, o->seat, t[0].bytes, t[0].length, old);
    case INSERT: return real_insert(o->tree, o->seat, t[0].bytes, t[0].length, t[1].bytes, t[1].length, old);
    case UPSERT: return real_upsert(o->tree, o->seat, t[0].bytes, t[0].length, t[1].bytes, t[1].length, old);
    case DELETE: return real_delete(o->tree, o->seat, t[0].bytes, t[0].length, old);
    case DELETE_IF: return real_delete_if(o->tree, o->seat, t[0].bytes, t[0].length, t[1].bytes, t[1].length, old);
    case SWAP: return real_swap(o->tree, o->seat, t[0].bytes, t[0].length, t[1].bytes, t[1].length, t[2].bytes, t[2].length, old);
    case ADD: return real_add(o->tree, o->seat, t[0].bytes, t[0].length, o->number, old);
    case TIDY: return real_tidy(o->tree, o->seat, t[0].bytes, t[0].length);
    case PAGE: return real_page(o->tree, o->seat, t[0].bytes, t[0].length, page);
    default: return real_back(o->tree, o->seat, t[0].bytes, t[0].length, page);
    }
}

/* Lets an operation wait in its seat, and is SPENT; or is what refuses the call. */
static uint32_t begin(operation o, const void *a, size_t a_length, const void *b, size_t b_length, const void *c, size_t c_length) {
    const void *texts[3] = {a, b, c};
    const size_t lengths[3] = {a_length, b_length, c_length};
    uint32_t status;
    operation *place;
    for (int i = 0; i < 3; i++) {
        if (lengths[i] > BWTREE_MAX_LENGTH) return BWTREE_TOO_LONG;
        o.texts[i].length = lengths[i];
        if (lengths[i]) memcpy(o.texts[i].bytes, texts[i], lengths[i]);
    }
    if ((status = real_is_idle(o.tree, o.seat)) != BWTREE_OK) return status;
    o.is_spent_again = 1;
    pthread_mutex_lock(&lock);
    if (of_seat(o.tree, o.seat)) status = BWTREE_UNFINISHED;
    else if ((place = of_seat(NULL, 0))) *place = o, status = BWTREE_SPENT;
    else status = BWTREE_BUSY;
    pthread_mutex_unlock(&lock);
    return status;
}

uint32_t bwtree_raw_get(const bwtree *tree, uint32_t seat, const void *key, size_t key_length, bwtree_bytes *value) {
    (void)value;
    return begin((operation){.tree = tree, .seat = seat, .kind = GET}, key, key_length, "", 0, "", 0);
}

uint32_t bwtree_raw_insert(const bwtree *tree, uint32_t seat, const void *key, size_t key_length, const void *value, size_t value_length, bwtree_bytes *old) {
    (void)old;
    return begin((operation){.tree = tree, .seat = seat, .kind = INSERT}, key, key_length, value, value_length, "", 0);
}

uint32_t bwtree_raw_upsert(const bwtree *tree, uint32_t seat, const void *key, size_t key_length, const void *value, size_t value_length, bwtree_bytes *old) {
    (void)old;
    return begin((operation){.tree = tree, .seat = seat, .kind = UPSERT}, key, key_length, value, value_length, "", 0);
}

uint32_t bwtree_raw_delete(const bwtree *tree, uint32_t seat, const void *key, size_t key_length, bwtree_bytes *old) {
    (void)old;
    return begin((operation){.tree = tree, .seat = seat, .kind = DELETE}, key, key_length, "", 0, "", 0);
}

uint32_t bwtree_raw_delete_if(const bwtree *tree, uint32_t seat, const void *key, size_t key_length, const void *expected, size_t expected_length,
                              bwtree_bytes *old) {
    (void)old;
    return begin((operation){.tree = tree, .seat = seat, .kind = DELETE_IF}, key, key_length, expected, expected_length, "", 0);
}

uint32_t bwtree_raw_swap(const bwtree *tree, uint32_t seat, const void *key, size_t key_length, const void *expected, size_t expected_length, const void *value,
                         size_t value_length, bwtree_bytes *old) {
    (void)old;
    return begin((operation){.tree = tree, .seat = seat, .kind = SWAP}, key, key_length, expected, expected_length, value, value_length);
}

uint32_t bwtree_raw_add(const bwtree *tree, uint32_t seat, const void *key, size_t key_length, uint64_t number, bwtree_bytes *old) {
    (void)old;
    return begin((operation){.tree = tree, .seat = seat, .kind = ADD, .number = number}, key, key_length, "", 0, "", 0);
}

uint32_t bwtree_raw_tidy(const bwtree *tree, uint32_t seat, const void *key, size_t key_length) {
    return begin((operation){.tree = tree, .seat = seat, .kind = TIDY}, key, key_length, "", 0, "", 0);
}

uint32_t bwtree_raw_page(const bwtree *tree, uint32_t seat, const void *from, size_t from_length, bwtree_page_pairs *page) {
    (void)page;
    return begin((operation){.tree = tree, .seat = seat, .kind = PAGE}, from, from_length, "", 0, "", 0);
}

uint32_t bwtree_raw_back(const bwtree *tree, uint32_t seat, const void *upto, size_t upto_length, bwtree_page_pairs *page) {
    (void)page;
    return begin((operation){.tree = tree, .seat = seat, .kind = BACK}, upto, upto_length, "", 0, "", 0);
}

uint32_t bwtree_raw_resume(const bwtree *tree, uint32_t seat, uint32_t budget, bwtree_bytes *old, bwtree_page_pairs *page) {
    operation *place, o;
    uint32_t status;
    pthread_mutex_lock(&lock);
    if ((place = of_seat(tree, seat))) {
        o = *place;
        if (budget && !o.is_spent_again) place->tree = NULL;
        place->is_spent_again = 0;
    }
    pthread_mutex_unlock(&lock);
    if (!place) return real_resume(tree, seat, budget, old, page);
    status = real_is_idle(tree, seat);
    if (status != BWTREE_OK) return status;
    return budget && !o.is_spent_again ? run(&o, old, page) : (uint32_t)BWTREE_SPENT;
}

uint32_t bwtree_raw_is_idle(const bwtree *tree, uint32_t seat) {
    uint32_t status = real_is_idle(tree, seat);
    pthread_mutex_lock(&lock);
    if (status == BWTREE_OK && of_seat(tree, seat)) status = BWTREE_UNFINISHED;
    pthread_mutex_unlock(&lock);
    return status;
}

/* Whether an operation waits in a seat of a tree; such as do are dropped, where the tree is closed. */
static int waits(const bwtree *tree, int is_closed) {
    int found = 0;
    pthread_mutex_lock(&lock);
    for (size_t i = 0; i < sizeof waiting / sizeof *waiting; i++) {
        if (waiting[i].tree != tree) continue;
        found = 1;
        if (is_closed) waiting[i].tree = NULL;
    }
    pthread_mutex_unlock(&lock);
    return found;
}

uint32_t bwtree_raw_close(const bwtree *tree) {
    uint32_t status = real_close(tree);
    if (status == BWTREE_OK) waits(tree, 1);
    return status;
}

uint32_t bwtree_raw_close_pairs(const bwtree *tree, bwtree_pair *pairs, size_t room, uint64_t *count) {
    return waits(tree, 0) ? (uint32_t)BWTREE_UNFINISHED : real_close_pairs(tree, pairs, room, count);
}
