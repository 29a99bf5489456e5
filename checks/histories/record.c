/* Records a history: threads call a tree at random, and each call is written with its reply and the times at which it began and ended. README.md has
 * the form of the file, and `linearizable check` judges it.
 *
 *     cc -O2 -o record -I FOLDER_OF_BWTREE_H record.c libbwtree.a -lpthread && ./record threads=6 mix=writes seed=3 >history
 *
 * Each word sets one of `settings` or the mix; README.md says what they mean. The times come from one counter that all threads advance: where a call's end
 * is below another one's start, it had ended before that one began. No two values are equal, so that a reply names the call that wrote the value;
 * of sums, which are of drawn numbers, hardly any two. */
#define _GNU_SOURCE
#include "lines.h"
#include <errno.h>
#include <pthread.h>
#include <sched.h>
#include <signal.h>
#include <stdatomic.h>
#include <stdio.h>
#include <stdlib.h>
#include <string.h>
#include <time.h>
#include <unistd.h>

#define STACK (512 * 1024)
#define MOST_THREADS 32

enum operation { GET, INSERT, UPSERT, DELETE, DELETE_IF, PAGE, BACK, SWAP, ADD, TIDY, OPERATIONS };
static const char *const NAMES[OPERATIONS] = {"get", "insert", "upsert", "delete", "delete_if", "page", "back", "swap", "add", "tidy"};

/* How many of a hundred calls are of each operation, and what else is special about a mix. */
enum special { PLAIN, HOT, WAVES, WALKS, WINDOW };
struct mix {
    const char *name;
    unsigned percent[OPERATIONS];
    enum special special;
};
static const struct mix MIXES[] = {
    {"even", {18, 12, 19, 16, 6, 5, 4, 9, 7, 4}, PLAIN},    {"writes", {5, 16, 28, 20, 7, 2, 2, 8, 9, 3}, PLAIN},
    {"inserts", {9, 52, 12, 6, 3, 4, 3, 4, 4, 3}, PLAIN},   {"reads", {43, 5, 9, 7, 3, 12, 11, 4, 4, 2}, PLAIN},
    {"pages", {8, 14, 16, 13, 4, 16, 16, 6, 5, 2}, PLAIN},  {"swaps", {18, 10, 7, 5, 12, 4, 4, 26, 12, 2}, PLAIN},
    {"hot", {5, 16, 28, 20, 7, 2, 2, 8, 9, 3}, HOT},        {"waves", {18, 10, 7, 5, 12, 4, 4, 26, 12, 2}, WAVES},
    {"walks", {18, 10, 7, 5, 12, 4, 4, 26, 12, 2}, WALKS},  {"window", {0}, WINDOW},
};
static const struct mix *mix = &MIXES[0];

static struct {
    uint64_t seats, pages, records, epoch, large, threads, keys, calls, pairs, seed, stops, cores, yields, proposed, key_bytes, value_bytes, spare;
} set = {4, 256, 2624, 1, 0, 4, 100, 5000, 0, 1, 0, 0, 0, 0, 64, 64, 1};
static const struct { const char *name; uint64_t *to; } settings[] = {
    {"seats", &set.seats}, {"pages", &set.pages}, {"records", &set.records}, {"epoch", &set.epoch}, {"large", &set.large}, {"threads", &set.threads}, {"keys", &set.keys},
    {"calls", &set.calls}, {"pairs", &set.pairs}, {"seed", &set.seed},       {"stops", &set.stops}, {"cores", &set.cores}, {"yields", &set.yields},
    {"proposed", &set.proposed}, {"key_bytes", &set.key_bytes}, {"value_bytes", &set.value_bytes}, {"spare", &set.spare},
};

static bwtree tree;
static _Atomic uint64_t now;
static _Atomic uint64_t busy_calls, spent_calls;
static _Atomic int running;
static _Atomic int released;

/* The last one of them is the main thread, which loads the tree and walks it at the end. */
static struct thread threads[MOST_THREADS + 1];

static uint64_t next_draw(uint64_t *state) {
    uint64_t z = (*state += 0x9e3779b97f4a7c15ull);
    z = (z ^ z >> 30) * 0xbf58476d1ce4e5b9ull;
    z = (z ^ z >> 27) * 0x94d049bb133111ebull;
    return z ^ z >> 31;
}

static uint64_t below(struct thread *t, uint64_t count) { return next_draw(&t->draws) % count; }

/* ---- Keys and values ---- */

/* Keys of 0 to 64 bytes, in another order than their numbers. */
static bwtree_bytes key_of(uint64_t number) {
    bwtree_bytes key = {0, {0}};
    if (number == 0) return key;
    memset(key.bytes, '_', sizeof key.bytes);
    key.bytes[0] = (uint8_t)('a' + number % 26), key.bytes[1] = (uint8_t)('a' + number / 26 % 26), key.bytes[2] = (uint8_t)('a' + number / 676 % 26);
    key.length = 3 + number % 62;
    return key;
}

/* Keys in the order of their numbers. */
static bwtree_bytes ordered_key(uint64_t number) {
    bwtree_bytes key = {8, {0}};
    for (int i = 0; i < 8; i++) key.bytes[i] = (uint8_t)(number >> (56 - 8 * i));
    return key;
}

/* The number that eight bytes are, the highest first. */
static uint64_t number_of(const bwtree_bytes *bytes) {
    uint64_t number = 0;
    for (int i = 0; i < 8; i++) number = number << 8 | bytes->bytes[i];
    return number;
}

/* A value of 5 to 64 bytes that no other call writes. */
static bwtree_bytes new_value(struct thread *t) {
    uint64_t number = t->values++;
    bwtree_bytes value = {5 + number % 60, {0}};
    memset(value.bytes, '+', sizeof value.bytes);
    value.bytes[0] = (uint8_t)t->number;
    for (int i = 1; i < 5; i++) value.bytes[i] = (uint8_t)(number >> (32 - 8 * i));
    return value;
}

/* Whether the operation has an expected value, and a new one: of an addition, the number. */
static int expects(enum operation operation) { return operation == SWAP || operation == DELETE_IF; }
static int sets(enum operation operation) { return operation == INSERT || operation == UPSERT || operation == SWAP || operation == ADD; }

/* ---- Replies ---- */

/* The reply of an operation that took place; any other status ends the program. */
static void write_reply(struct thread *t, enum operation operation, uint32_t status, const bwtree_bytes *old) {
    if (status == BWTREE_FULL) write_word(t, "full");
    else if (status == BWTREE_ABSENT) write_word(t, "absent");
    else if (status == BWTREE_EXISTS) write_with(t, "exists", old);
    else if (status == BWTREE_REPLACED) write_with(t, "replaced", old);
    else if (status == BWTREE_DIFFERS) write_with(t, "differs", old);
    else if (status != BWTREE_OK) {
        fprintf(stderr, "%s returns %u: %s\n", NAMES[operation], status, bwtree_text(status));
        exit(2);
    } else if (operation == GET) write_with(t, "value", old);
    else if (operation == DELETE || operation == DELETE_IF) write_with(t, "deleted", old);
    else if (operation == PAGE || operation == BACK) write_page(t);
    else write_word(t, operation == INSERT ? "inserted" : operation == UPSERT || operation == ADD ? "set" : operation == SWAP ? "swapped" : "tidied");
}

/* ---- Calls ---- */

struct arguments { bwtree_bytes key, expected, value; };

static uint32_t call(struct thread *t, enum operation operation, uint32_t seat, const struct arguments *given, bwtree_bytes *old) {
    const bwtree_bytes *key = &given->key, *expected = &given->expected, *value = &given->value;
    switch (operation) {
    case GET: return bwtree_get(&tree, seat, key->bytes, key->length, old);
    case INSERT: return bwtree_insert(&tree, seat, key->bytes, key->length, value->bytes, value->length, old);
    case UPSERT: return bwtree_upsert(&tree, seat, key->bytes, key->length, value->bytes, value->length, old);
    case DELETE: return bwtree_delete(&tree, seat, key->bytes, key->length, old);
    case DELETE_IF: return bwtree_delete_if(&tree, seat, key->bytes, key->length, expected->bytes, expected->length, old);
    case SWAP: return bwtree_compare_and_set(&tree, seat, key->bytes, key->length, expected->bytes, expected->length, value->bytes, value->length, old);
    case ADD: return bwtree_add(&tree, seat, key->bytes, key->length, number_of(value), old);
    case BACK: return bwtree_back(&tree, seat, key->bytes, key->length, &t->page);
    case TIDY: return bwtree_tidy(&tree, seat, key->bytes, key->length);
    default: return bwtree_page(&tree, seat, key->bytes, key->length, &t->page);
    }
}

/* Resumes a call until it is done. Another thread that tries the seat may keep it busy for a moment. */
static uint32_t finish(struct thread *t, uint32_t seat, uint32_t status, bwtree_bytes *old) {
    while (status == BWTREE_SPENT || status == BWTREE_BUSY) {
        atomic_fetch_add(&spent_calls, 1);
        status = bwtree_resume(&tree, seat, 1 + (uint32_t)below(t, 65536), old, &t->page);
    }
    return status;
}

/* Keeps the pair that a call saw. */
static void see(struct thread *t, enum operation operation, uint32_t status, const struct arguments *given, const bwtree_bytes *old) {
    int is_old = status == BWTREE_EXISTS || status == BWTREE_DIFFERS || (operation == GET && status == BWTREE_OK);
    int is_new = (operation == INSERT && status == BWTREE_OK) || (operation == UPSERT && status <= BWTREE_REPLACED);
    if (!is_old && !is_new) return;
    t->has_seen = 1, t->seen_key = given->key, t->seen_value = is_old ? *old : given->value;
}

/* A thread's seat: where each has its own, they lie apart, so that seats of all numbers make calls. */
static uint32_t seat_of(const struct thread *t) {
    uint64_t apart = set.seats / set.threads;
    return (uint32_t)(apart ? t->number * apart % set.seats : t->number % set.seats);
}

/* Makes a call on the thread's seat, or on another one where that is busy, and writes its line. A call that is refused as busy did nothing. */
static void perform(struct thread *t, enum operation operation, struct arguments given) {
    bwtree_bytes old = {0, {0}};
    uint32_t seat = seat_of(t), status;
    uint64_t start, end;
    for (;;) {
        start = atomic_fetch_add(&now, 1);
        status = call(t, operation, seat, &given, &old);
        if (status == BWTREE_SPENT) status = finish(t, seat, status, &old);
        end = atomic_fetch_add(&now, 1);
        if (status != BWTREE_BUSY) break;
        CHECK(set.threads > set.seats);
        atomic_fetch_add(&busy_calls, 1);
        seat = (uint32_t)below(t, set.seats);
        if (below(t, 4) == 0) sched_yield();
    }
    begin_call(t, seat, start, end);
    write_with(t, NAMES[operation], &given.key);
    if (expects(operation)) write_bytes(t, &given.expected);
    if (sets(operation)) write_bytes(t, &given.value);
    write_reply(t, operation, status, &old);
    end_line(t);
    see(t, operation, status, &given, &old);
}

static void perform_on(struct thread *t, enum operation operation, bwtree_bytes key) {
    struct arguments given = {key, {0, {0}}, {0, {0}}};
    if (sets(operation)) given.value = operation == ADD ? ordered_key(next_draw(&t->draws)) : new_value(t);
    if (expects(operation) && t->has_seen) given.key = t->seen_key, given.expected = t->seen_value, t->has_seen = 0;
    perform(t, operation, given);
}

static void walk(struct thread *t, enum operation turn) {
    bwtree_bytes at = {turn == BACK ? BWTREE_MAX_LENGTH : 0, {0}};
    if (turn == BACK) memset(at.bytes, 255, sizeof at.bytes);
    for (int pages = 0; pages < 2000; pages++) {
        perform_on(t, turn, at);
        if (!t->page.more) return;
        at = t->page.next;
    }
}

/* ---- Mixes ---- */

static enum operation drawn_operation(struct thread *t) {
    unsigned draw = (unsigned)below(t, 100), operation = 0;
    while (operation < TIDY && draw >= mix->percent[operation]) draw -= mix->percent[operation++];
    return (enum operation)operation;
}

/* All keys are inserted, then all deleted, by all threads together. */
static void wave(struct thread *t, uint64_t turn) {
    uint64_t place = turn * set.threads + t->number;
    perform_on(t, place / set.keys % 2 == 0 ? INSERT : DELETE, key_of(place * 7919 % set.keys));
}

/* Keys are inserted in order, and the oldest deleted. */
static void move_window(struct thread *t, uint64_t turn) {
    uint64_t place = turn / 2 * set.threads + t->number;
    if (turn % 2 == 0) perform_on(t, INSERT, ordered_key(place));
    else if (place >= set.keys) perform_on(t, DELETE, ordered_key(place - set.keys));
    else perform_on(t, GET, ordered_key(place));
    if (below(t, 16) == 0) perform_on(t, below(t, 2) ? PAGE : BACK, ordered_key(place > set.keys ? place - below(t, set.keys) : 0));
    if (below(t, 10) == 0) perform_on(t, TIDY, ordered_key(place > 2 * set.keys ? place - set.keys - below(t, set.keys) : 0));
}

static void take_turn(struct thread *t, uint64_t turn) {
    bwtree_bytes key = key_of(below(t, mix->special == HOT ? 4 : set.keys));
    if (mix->special == WINDOW) move_window(t, turn);
    else if (mix->special == WALKS && t->number % 3 == 0) walk(t, turn % 2 ? BACK : PAGE);
    else if ((mix->special == WAVES || mix->special == WALKS) && below(t, 4)) wave(t, turn);
    else perform_on(t, drawn_operation(t), key);
}

static void *run(void *argument) {
    struct thread *t = argument;
    while (!atomic_load(&released)) sched_yield();
    for (uint64_t turn = 0; turn < set.calls && t->count < set.calls; turn++) {
        take_turn(t, turn);
        if (set.yields && below(t, 16) == 0) sched_yield();
    }
    atomic_fetch_sub(&running, 1);
    /* it lives on until nobody sends it a signal any more */
    while (atomic_load(&released) == 1) usleep(1000);
    return NULL;
}

/* A thread stops for a moment wherever it is: most often inside a call. */
static void stop(int signal_number) {
    (void)signal_number;
    struct timespec pause = {0, 50000};
    int saved = errno;
    pause.tv_nsec += (long)(((uintptr_t)&pause >> 4) * 2654435761u % 4000000);
    nanosleep(&pause, NULL);
    errno = saved;
}

/* ---- The whole history ---- */

static void read_settings(int count, char **words) {
    for (int i = 1; i < count; i++) {
        int known = 0;
        for (size_t m = 0; m < sizeof MIXES / sizeof *MIXES; m++)
            if (!strncmp(words[i], "mix=", 4) && !strcmp(words[i] + 4, MIXES[m].name)) known = 1, mix = &MIXES[m];
        for (size_t s = 0; s < sizeof settings / sizeof *settings; s++) {
            size_t length = strlen(settings[s].name);
            if (!strncmp(words[i], settings[s].name, length) && words[i][length] == '=') known = 1, *settings[s].to = strtoull(words[i] + length + 1, NULL, 10);
        }
        if (known) continue;
        fprintf(stderr, "record: no setting: %s\n", words[i]);
        exit(2);
    }
    CHECK(set.threads >= 1 && set.threads <= MOST_THREADS && set.keys >= 1 && set.seats >= 1);
}

static void use_some_cores(void) {
    if (set.cores == 0) return;
    cpu_set_t cores;
    CPU_ZERO(&cores);
    long all = sysconf(_SC_NPROCESSORS_ONLN);
    for (uint64_t i = 0; i < set.cores; i++) CPU_SET((i + set.seed) % (uint64_t)all, &cores);
    CHECK(sched_setaffinity(0, sizeof cores, &cores) == 0);
}

/* Takes out what the limits of a tree with several seats spare for calls beside a stopped one: all but 128 of 8,192 pages, and all but 64 of 192 wide
 * records. Otherwise few records would be used again. */
static void take_spare_out(bwtree_limits *limits) {
    const uint64_t pages = 8064;
    if (limits->actors == 1) return;
    limits->pages -= pages, limits->narrow_records -= 2 * pages, limits->wide_from -= 3 * pages;
    limits->records -= 3 * pages + 128;
}

/* The tree's limits: those that are named, or those that are proposed for so many keys, of a large tree with records of three widths. */
static bwtree_limits limits_of_tree(void) {
    bwtree_limits limits = {set.seats, set.pages, set.records, set.epoch, set.large};
    if (!set.proposed) return limits;
    if (set.key_bytes == BWTREE_MAX_LENGTH && set.value_bytes == BWTREE_MAX_LENGTH)
        CHECK(bwtree_limits_for_many_keys(set.seats, set.proposed, &limits) == BWTREE_OK);
    else CHECK(bwtree_limits_for_pairs(set.seats, set.proposed, set.key_bytes, set.value_bytes, &limits) == BWTREE_OK);
    CHECK(limits.large == 2);
    if (!set.spare) take_spare_out(&limits);
    limits.epoch = set.epoch;
    return limits;
}

/* Opens the tree, with pairs if there are some: each counts as an upsert by seat 0. */
static void open_tree(struct thread *main_thread) {
    bwtree_limits limits = limits_of_tree();
    bwtree_pair *pairs = calloc(set.pairs + 1, sizeof *pairs);
    CHECK(pairs);
    for (uint64_t i = 0; i < set.pairs; i++) {
        pairs[i].key = ordered_key(i), pairs[i].value = new_value(main_thread);
        uint64_t start = atomic_fetch_add(&now, 2);
        begin_call(main_thread, 0, start, start + 1);
        write_with(main_thread, "upsert", &pairs[i].key), write_bytes(main_thread, &pairs[i].value), write_word(main_thread, "set");
        end_line(main_thread);
    }
    uint32_t status = bwtree_open_from(&limits, pairs, set.pairs, &tree);
    if (status != BWTREE_OK) fprintf(stderr, "not opened: %s\n", bwtree_text(status));
    CHECK(status == BWTREE_OK);
    free(pairs);
}

static void begin_threads(void) {
    pthread_attr_t attributes;
    CHECK(pthread_attr_init(&attributes) == 0 && pthread_attr_setstacksize(&attributes, STACK) == 0);
    atomic_store(&running, (int)set.threads);
    for (uint64_t i = 0; i < set.threads; i++) CHECK(pthread_create(&threads[i].id, &attributes, run, &threads[i]) == 0);
    CHECK(pthread_attr_destroy(&attributes) == 0);
}

/* Lets the threads run to their ends, and stops one of them now and then. */
static void run_threads(void) {
    uint64_t draws = set.seed + 5;
    atomic_store(&released, 1);
    while (atomic_load(&running) > 0) {
        usleep(set.stops ? (useconds_t)(1000000 / set.stops) : 1000);
        if (set.stops && atomic_load(&running) > 0) pthread_kill(threads[next_draw(&draws) % set.threads].id, SIGUSR1);
    }
    atomic_store(&released, 2);
    for (uint64_t i = 0; i < set.threads; i++) CHECK(pthread_join(threads[i].id, NULL) == 0);
}

static int by_start(const void *a, const void *b) {
    const struct line *one = a, *other = b;
    return one->start < other->start ? -1 : one->start > other->start;
}

/* All lines of all threads, in the order of their starts. */
static void print_lines(void) {
    size_t count = 0;
    for (uint64_t i = 0; i <= MOST_THREADS; i++) count += threads[i].count;
    struct line *all = malloc((count + 1) * sizeof *all), *end = all;
    CHECK(all);
    for (uint64_t i = 0; i <= MOST_THREADS; i++)
        for (size_t line = 0; line < threads[i].count; line++) *end = threads[i].lines[line], (end++)->text = threads[i].text;
    qsort(all, count, sizeof *all, by_start);
    for (const struct line *line = all; line < end; line++) {
        const char *text = line->text + line->at;
        fwrite(text, 1, (size_t)(strchr(text, '\n') + 1 - text), stdout);
    }
    free(all);
}

/* Closes the tree, and prints the pairs that it hands over. */
static void print_listing(struct thread *main_thread) {
    uint64_t count = 0;
    uint32_t status = bwtree_close_pairs(&tree, NULL, 0, &count);
    bwtree_pair *pairs = malloc((count + 1) * sizeof *pairs);
    CHECK(pairs);
    if (status == BWTREE_NO_ROOM) status = bwtree_close_pairs(&tree, pairs, count, &count);
    CHECK(status == BWTREE_OK);
    puts("closed");
    for (uint64_t i = 0; i < count; i++) {
        main_thread->length = 0;
        write_with(main_thread, "pair", &pairs[i].key), write_bytes(main_thread, &pairs[i].value);
        end_line(main_thread);
        fwrite(main_thread->text, 1, main_thread->length, stdout);
    }
    free(pairs);
}

int main(int count, char **words) {
    read_settings(count, words);
    use_some_cores();
    for (uint64_t i = 0; i <= MOST_THREADS; i++) threads[i].number = i, threads[i].draws = set.seed * 1000003 + i;
    struct thread *main_thread = &threads[MOST_THREADS];
    struct sigaction action = {.sa_handler = stop, .sa_flags = SA_RESTART};
    CHECK(sigaction(SIGUSR1, &action, NULL) == 0);
    open_tree(main_thread);
    begin_threads();
    run_threads();
    walk(main_thread, PAGE);
    walk(main_thread, BACK);
    /* a text that ends nowhere has no last line */
    for (uint64_t i = 0; i <= MOST_THREADS; i++) make_room(&threads[i], 1);
    print_lines();
    print_listing(main_thread);
    printf("# busy %llu, resumed %llu\nend\n", (unsigned long long)busy_calls, (unsigned long long)spent_calls);
    return fflush(stdout) == 0 && !ferror(stdout) ? 0 : 2;
}
