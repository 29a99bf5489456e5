/* The lines of a recorded history: each thread writes its own. README.md has their form. */
#ifndef LINES_H
#define LINES_H

#include "bwtree.h"
#include <pthread.h>
#include <stdint.h>
#include <stdio.h>
#include <stdlib.h>
#include <string.h>

#define CHECK(x) do { if (!(x)) { fprintf(stderr, "%s:%d: %s\n", __FILE__, __LINE__, #x); exit(2); } } while (0)

/* A line of the history: its text is found by its place, since the text moves when it grows. */
struct line {
    uint64_t start;
    const char *text;
    size_t at;
};

struct thread {
    pthread_t id;
    uint64_t number, draws, values;
    char *text;
    size_t length, room;
    struct line *lines;
    size_t count, most;
    /* a pair that a call of this thread saw, for a compare-and-set that wins */
    int has_seen;
    bwtree_bytes seen_key, seen_value;
    bwtree_page_pairs page;
};
static void make_room(struct thread *t, size_t more) {
    if (t->length + more <= t->room) return;
    t->room = 2 * t->room + more;
    CHECK((t->text = realloc(t->text, t->room)));
}

static void write_word(struct thread *t, const char *word) {
    size_t length = strlen(word);
    make_room(t, length + 1);
    if (t->length && t->text[t->length - 1] != '\n') t->text[t->length++] = ' ';
    memcpy(t->text + t->length, word, length);
    t->length += length;
}

static void write_number(struct thread *t, uint64_t number) {
    char digits[24];
    snprintf(digits, sizeof digits, "%llu", (unsigned long long)number);
    write_word(t, digits);
}

static void write_bytes(struct thread *t, const bwtree_bytes *bytes) {
    char word[2 + 2 * BWTREE_MAX_LENGTH] = "x";
    CHECK(bytes->length <= BWTREE_MAX_LENGTH);
    for (uint64_t i = 0; i < bytes->length; i++) snprintf(word + 1 + 2 * i, 3, "%02x", bytes->bytes[i]);
    write_word(t, word);
}

static void begin_line(struct thread *t, uint64_t start) {
    if (t->count == t->most) {
        t->most = 2 * t->most + 64;
        CHECK((t->lines = realloc(t->lines, t->most * sizeof *t->lines)));
    }
    t->lines[t->count++] = (struct line){start, NULL, t->length};
}

static void end_line(struct thread *t) {
    make_room(t, 1);
    t->text[t->length++] = '\n';
}

static void begin_call(struct thread *t, uint64_t seat, uint64_t start, uint64_t end) {
    begin_line(t, start);
    write_word(t, "call");
    write_number(t, seat), write_number(t, start), write_number(t, end);
}

static void write_with(struct thread *t, const char *word, const bwtree_bytes *value) {
    write_word(t, word);
    write_bytes(t, value);
}

static void write_page(struct thread *t) {
    CHECK(t->page.count <= BWTREE_PAGE_PAIRS && t->page.more <= 1);
    write_word(t, "pairs");
    for (uint64_t i = 0; i < t->page.count; i++) write_bytes(t, &t->page.pairs[i].key), write_bytes(t, &t->page.pairs[i].value);
    if (t->page.more) write_with(t, "next", &t->page.next);
    else write_word(t, "end");
}

#endif
