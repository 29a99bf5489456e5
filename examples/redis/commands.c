/* The commands: each is a call or a few on the worker's seat. A write that finds the tree full waits up to a second. */
#include "server.h"
#include <stdio.h>
#include <stdlib.h>
#include <string.h>
#include <strings.h>

enum { PATIENCE = 1000 * 1000 * 1000 };

/* ---- Replies ---- */

static void say(struct buffer *reply, const char *text) {
    size_t length = strlen(text);
    memcpy(room_for(reply, length), text, length);
    reply->used += length;
}
static void say_number(struct buffer *reply, char kind, long long number) {
    reply->used += (size_t)snprintf(room_for(reply, 32), 32, "%c%lld\r\n", kind, number);
}
static void say_bytes(struct buffer *reply, const void *bytes, size_t length) {
    say_number(reply, '$', (long long)length);
    char *to = room_for(reply, length + 2);
    if (length) memcpy(to, bytes, length);
    memcpy(to + length, "\r\n", 2);
    reply->used += length + 2;
}
static void say_value(struct buffer *reply, const bwtree_bytes *value) { say_bytes(reply, value->bytes, value->length); }
static void say_none(struct buffer *reply) { say(reply, "$-1\r\n"); }

/* Whether a call took place; else its error is the reply. */
static int took_place(struct buffer *reply, uint32_t status) {
    if (status < BWTREE_FULL) return 1;
    say(reply, status == BWTREE_FULL ? "-OOM " : "-ERR ");
    say(reply, bwtree_text(status));
    say(reply, "\r\n");
    return 0;
}

/* ---- Calls ---- */

/* Makes a call until it is done, and again while the tree is full, up to a second. */
#define MAKE(status, worker, old, call) \
    do { \
        bwtree_wait wait_; \
        bwtree_wait_begin(&wait_, PATIENCE); \
        do { \
            status = call; \
            while (status == BWTREE_SPENT) status = bwtree_resume(&tree, (worker)->seat, 65536, old, &(worker)->page); \
        } while (status == BWTREE_FULL && (worker)->full++ + 1 && bwtree_wait_again(&wait_)); \
    } while (0)

static uint32_t get(struct worker *w, struct word key, bwtree_bytes *value) {
    uint32_t status;
    MAKE(status, w, value, bwtree_get(&tree, w->seat, key.at, key.length, value));
    return status;
}
static uint32_t insert(struct worker *w, struct word key, struct word value, bwtree_bytes *old) {
    uint32_t status;
    MAKE(status, w, old, bwtree_insert(&tree, w->seat, key.at, key.length, value.at, value.length, old));
    bwtree_count_set(&count, w->seat, status);
    return status;
}
static uint32_t upsert(struct worker *w, struct word key, struct word value, bwtree_bytes *old) {
    uint32_t status;
    MAKE(status, w, old, bwtree_upsert(&tree, w->seat, key.at, key.length, value.at, value.length, old));
    bwtree_count_set(&count, w->seat, status);
    return status;
}
static uint32_t delete_key(struct worker *w, struct word key, bwtree_bytes *old) {
    uint32_t status;
    MAKE(status, w, old, bwtree_delete(&tree, w->seat, key.at, key.length, old));
    bwtree_count_deleted(&count, w->seat, status);
    return status;
}
static uint32_t compare_and_set(struct worker *w, struct word key, const bwtree_bytes *expected, struct word value, bwtree_bytes *old) {
    uint32_t status;
    MAKE(status, w, old, bwtree_compare_and_set(&tree, w->seat, key.at, key.length, expected->bytes, expected->length, value.at, value.length, old));
    return status;
}

/* ---- Commands ---- */

/* Reads a number of 64 bits; 0 where the bytes are none. */
static int read_number(const void *bytes, size_t length, long long *number) {
    char text[BWTREE_MAX_LENGTH + 1], *end;
    if (!length || length > BWTREE_MAX_LENGTH) return 0;
    memcpy(text, bytes, length);
    text[length] = 0;
    *number = strtoll(text, &end, 10);
    return !*end;
}

/* Adds to the decimal number that a key's value is, 0 where it has none: a lookup, and a compare-and-set that is made again where another thread was faster. */
static void increase(struct worker *w, struct buffer *reply, struct word key, long long by) {
    bwtree_bytes value, other;
    char text[32];
    for (;;) {
        long long number = 0;
        uint32_t status = get(w, key, &value);
        if (!took_place(reply, status)) return;
        int has_value = status == BWTREE_OK;
        if (has_value && !read_number(value.bytes, value.length, &number)) {
            say(reply, "-ERR value is not an integer or out of range\r\n");
            return;
        }
        if (__builtin_add_overflow(number, by, &number)) {
            say(reply, "-ERR increment or decrement would overflow\r\n");
            return;
        }
        struct word next = {text, (size_t)snprintf(text, sizeof text, "%lld", number)};
        status = has_value ? compare_and_set(w, key, &value, next, &other) : insert(w, key, next, &other);
        if (!took_place(reply, status)) return;
        if (status == BWTREE_OK) {
            say_number(reply, ':', number);
            return;
        }
    }
}

static int is(struct word word, const char *name) { return word.length == strlen(name) && !strncasecmp(word.at, name, word.length); }

/* SET key value [NX] [GET] */
static void set(struct worker *w, struct buffer *reply, const struct word *words, size_t count_of_words) {
    int if_absent = 0, shows_old = 0;
    bwtree_bytes old;
    for (size_t i = 3; i < count_of_words; i++) {
        if_absent |= is(words[i], "nx"), shows_old |= is(words[i], "get");
        if (!is(words[i], "nx") && !is(words[i], "get")) {
            say(reply, "-ERR syntax error\r\n");
            return;
        }
    }
    uint32_t status = if_absent ? insert(w, words[1], words[2], &old) : upsert(w, words[1], words[2], &old);
    if (!took_place(reply, status)) return;
    if (shows_old && status != BWTREE_OK) say_value(reply, &old);
    else if (shows_old || status == BWTREE_EXISTS) say_none(reply);
    else say(reply, "+OK\r\n");
}

/* RANGE from count: keys and values from a key on. How many there are is known at the end: the length is put in front then. */
static void range(struct worker *w, struct buffer *reply, struct word from, struct word most) {
    long long left, found = 0;
    bwtree_range keys;
    bwtree_walk walk;
    bwtree_pair pair;
    char head[32];
    size_t at = reply->used, length;
    uint32_t status = BWTREE_OK;
    if (!read_number(most.at, most.length, &left) || bwtree_between(from.at, from.length, NULL, 0, &keys)) {
        say(reply, "-ERR value is not an integer or out of range\r\n");
        return;
    }
    bwtree_walk_begin(&walk, &keys, 0);
    while (found < left && (status = bwtree_walk_next(&tree, w->seat, &walk, &pair)) == BWTREE_OK) {
        say_value(reply, &pair.key), say_value(reply, &pair.value);
        found++;
    }
    if (!took_place(reply, status)) return;
    length = (size_t)snprintf(head, sizeof head, "*%lld\r\n", 2 * found);
    room_for(reply, length);
    memmove(reply->at + at + length, reply->at + at, reply->used - at);
    memcpy(reply->at + at, head, length);
    reply->used += length;
}

static void info(struct worker *w, struct buffer *reply) {
    bwtree_room room = {0, 0};
    char text[300];
    bwtree_free_room(&tree, w->seat, &room);
    const char *form = "# bwtree\r\nversion:%s\r\nseat:%u\r\ncommands:%llu\r\nfull:%llu\r\nfree_pages:%llu\r\nfree_records:%llu\r\n";
    int length = snprintf(text, sizeof text, form, bwtree_version(), w->seat, (unsigned long long)w->commands, (unsigned long long)w->full,
                          (unsigned long long)room.free_pages, (unsigned long long)room.free_records);
    say_bytes(reply, text, (size_t)length);
}

/* Commands that take several keys. 0 where it is none of them. */
static int run_on_many(struct worker *w, struct buffer *reply, const struct word *words, size_t n) {
    bwtree_bytes value;
    long long found = 0;
    if (is(words[0], "mget") && n > 1) {
        say_number(reply, '*', (long long)n - 1);
        for (size_t i = 1; i < n; i++)
            if (get(w, words[i], &value) == BWTREE_OK) say_value(reply, &value); else say_none(reply);
        return 1;
    }
    if (is(words[0], "mset") && n > 2 && n % 2) {
        for (size_t i = 1; i < n; i += 2)
            if (!took_place(reply, upsert(w, words[i], words[i + 1], &value))) return 1;
        say(reply, "+OK\r\n");
        return 1;
    }
    int deletes = is(words[0], "del");
    if (n < 2 || (!deletes && !is(words[0], "exists"))) return 0;
    for (size_t i = 1; i < n; i++) {
        uint32_t status = deletes ? delete_key(w, words[i], &value) : get(w, words[i], &value);
        if (!took_place(reply, status)) return 1;
        found += status == BWTREE_OK;
    }
    say_number(reply, ':', found);
    return 1;
}

/* Commands on one key. 0 where it is none of them. */
static int run_on_one(struct worker *w, struct buffer *reply, const struct word *words, size_t n) {
    bwtree_bytes value;
    long long by = 1;
    uint32_t status;
    if (is(words[0], "get") && n == 2) {
        status = get(w, words[1], &value);
        if (took_place(reply, status)) { if (status == BWTREE_OK) say_value(reply, &value); else say_none(reply); }
    } else if (is(words[0], "set") && n >= 3) set(w, reply, words, n);
    else if (is(words[0], "setnx") && n == 3) {
        status = insert(w, words[1], words[2], &value);
        if (took_place(reply, status)) say_number(reply, ':', status == BWTREE_OK);
    } else if ((is(words[0], "incr") || is(words[0], "decr")) && n == 2) increase(w, reply, words[1], is(words[0], "incr") ? 1 : -1);
    else if (is(words[0], "incrby") && n == 3) {
        if (read_number(words[2].at, words[2].length, &by)) increase(w, reply, words[1], by);
        else say(reply, "-ERR value is not an integer or out of range\r\n");
    } else if (is(words[0], "range") && n == 3) range(w, reply, words[1], words[2]);
    else return 0;
    return 1;
}

void run_command(struct worker *w, struct buffer *reply, const struct word *words, size_t n) {
    w->commands++;
    if (is(words[0], "ping") && n < 3) { if (n == 2) say_bytes(reply, words[1].at, words[1].length); else say(reply, "+PONG\r\n"); return; }
    if (is(words[0], "echo") && n == 2) { say_bytes(reply, words[1].at, words[1].length); return; }
    if (is(words[0], "dbsize")) { say_number(reply, ':', (long long)bwtree_counted(&count)); return; }
    if (is(words[0], "info")) { info(w, reply); return; }
    /* what redis-cli and redis-benchmark begin with */
    if (is(words[0], "config") || is(words[0], "command") || is(words[0], "client")) { say(reply, "*0\r\n"); return; }
    if (run_on_one(w, reply, words, n) || run_on_many(w, reply, words, n)) return;
    say(reply, "-ERR unknown command, or wrong number of arguments\r\n");
}
