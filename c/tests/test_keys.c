/* Tests of bwtree_keys.h: the keys of c/tests/keys.txt, drawn parts against a sort, and the neighbours of a key.
 *   test_keys KEYS.txt */
#include "bwtree_keys.h"
#include <inttypes.h>
#include <stdio.h>
#include <stdlib.h>

#define CHECK(x) do { if (!(x)) { fprintf(stderr, "%s:%d: %s\n", __FILE__, __LINE__, #x); exit(1); } } while (0)
#define DRAWN 2000

static uint64_t state = 1;

static uint64_t drawn(void) {
    uint64_t z = (state += 0x9e3779b97f4a7c15u);
    z = (z ^ z >> 30) * 0xbf58476d1ce4e5b9u;
    z = (z ^ z >> 27) * 0x94d049bb133111ebu;
    return z ^ z >> 31;
}

static int order(const bwtree_bytes *one, const bwtree_bytes *other) {
    uint64_t common = one->length < other->length ? one->length : other->length;
    int found = memcmp(one->bytes, other->bytes, (size_t)common);
    return found ? found : (one->length > other->length) - (one->length < other->length);
}

static int is_same(const bwtree_bytes *one, const bwtree_bytes *other) { return order(one, other) == 0; }

/* The bytes that pairs of hexadecimal digits spell. */
static bwtree_bytes spelt(const char *digits) {
    bwtree_bytes bytes = {0, {0}};
    unsigned byte;
    for (; sscanf(digits, "%2x", &byte) == 1; digits += 2) bytes.bytes[bytes.length++] = (uint8_t)byte;
    return bytes;
}

/* Puts a part behind a key, and reads it behind what was read of the wanted key. */
static void try_part(const char *word, bwtree_bytes *key, const bwtree_bytes *wanted, size_t *at) {
    if (!strncmp(word, "u64:", 4)) {
        uint64_t part = strtoull(word + 4, NULL, 10), read;
        CHECK(bwtree_key_u64(key, part) == BWTREE_OK && bwtree_read_u64(wanted, at, &read) && read == part);
    } else if (!strncmp(word, "i64:", 4)) {
        int64_t part = strtoll(word + 4, NULL, 10), read;
        CHECK(bwtree_key_i64(key, part) == BWTREE_OK && bwtree_read_i64(wanted, at, &read) && read == part);
    } else if (!strncmp(word, "f64:", 4)) {
        uint64_t bits = strtoull(word + 4, NULL, 16);
        double part, read;
        memcpy(&part, &bits, 8);
        CHECK(bwtree_key_f64(key, part) == BWTREE_OK && bwtree_read_f64(wanted, at, &read) && !memcmp(&read, &part, 8));
    } else {
        bwtree_bytes part = spelt(word + 5), read;
        CHECK(!strncmp(word, "text:", 5));
        CHECK(bwtree_key_text(key, part.bytes, part.length) == BWTREE_OK && bwtree_read_text(wanted, at, &read) && is_same(&read, &part));
    }
}

static void stored(const char *file) {
    char line[512];
    bwtree_bytes last = {0, {0}};
    int lines = 0, is_first = 1;
    FILE *text = fopen(file, "r");
    CHECK(text);
    while (fgets(line, sizeof line, text)) {
        bwtree_bytes wanted, key = {0, {0}};
        size_t at = 0;
        char *word = strtok(line, " \n");
        if (!word || *word == '#') {
            is_first = 1;
            continue;
        }
        wanted = spelt(word);
        while ((word = strtok(NULL, " \n"))) try_part(word, &key, &wanted, &at);
        CHECK(is_same(&key, &wanted) && at == wanted.length && (is_first || order(&last, &wanted) < 0));
        last = wanted, is_first = 0, lines++;
    }
    CHECK(fclose(text) == 0 && lines > 100);
}

/* A tuple of each kind, few enough different ones that first parts are often alike. */
struct tuple {
    char text[5];
    size_t length;
    int64_t i;
    double f;
    uint64_t u;
    bwtree_bytes key;
};

static int by_parts(const void *a, const void *b) {
    const struct tuple *one = (const struct tuple *)a, *other = (const struct tuple *)b;
    size_t common = one->length < other->length ? one->length : other->length;
    int found = memcmp(one->text, other->text, common);
    if (found || one->length != other->length) return found ? found : one->length < other->length ? -1 : 1;
    if (one->i != other->i) return one->i < other->i ? -1 : 1;
    if (one->f != other->f) return one->f < other->f ? -1 : 1;
    return (one->u > other->u) - (one->u < other->u);
}

static void sorted(void) {
    static struct tuple tuples[DRAWN];
    static const double floats[] = {-1e300, -1.5, -1e-300, 0, 1e-300, 0.1, 7, 1e300};
    for (int i = 0; i < DRAWN; i++) {
        struct tuple *it = &tuples[i];
        it->length = (size_t)(drawn() % 5);
        for (size_t j = 0; j < it->length; j++) it->text[j] = "\0\1ab\377"[drawn() % 5];
        it->i = (int64_t)(drawn() >> drawn() % 64) * (drawn() % 2 ? 1 : -1);
        it->f = floats[drawn() % 8];
        it->u = drawn() >> drawn() % 64;
        CHECK(bwtree_key_text(&it->key, it->text, it->length) == BWTREE_OK && bwtree_key_i64(&it->key, it->i) == BWTREE_OK);
        CHECK(bwtree_key_f64(&it->key, it->f) == BWTREE_OK && bwtree_key_u64(&it->key, it->u) == BWTREE_OK);
    }
    qsort(tuples, DRAWN, sizeof *tuples, by_parts);
    for (int i = 1; i < DRAWN; i++) CHECK((by_parts(&tuples[i - 1], &tuples[i]) < 0) == (order(&tuples[i - 1].key, &tuples[i].key) < 0));
}

static void lengths(void) {
    bwtree_bytes key = {0, {0}}, was, text = {9, {0}};
    size_t at = 1;
    uint64_t number = 5;
    char zeros[32] = {0};
    CHECK(bwtree_key_text(&key, zeros, 32) == BWTREE_TOO_LONG && key.length == 0);
    CHECK(bwtree_key_text_start(&key, zeros, 32) == BWTREE_OK && key.length == 64);
    was = key;
    CHECK(bwtree_key_u64(&key, 1) == BWTREE_TOO_LONG && bwtree_key_text(&key, "", 0) == BWTREE_TOO_LONG && is_same(&key, &was));
    CHECK(!bwtree_read_text(&key, &at, &text) && text.length == 9 && at == 1);
    key.length = 8;
    CHECK(!bwtree_read_u64(&key, &at, &number) && number == 5 && at == 1);
    at = 70;
    CHECK(!bwtree_read_u64(&key, &at, &number) && !bwtree_read_text(&key, &at, &text));
}

static bwtree_bytes key_of(const char *bytes, size_t length) {
    bwtree_bytes key = {0, {0}};
    CHECK(bwtree_key_bytes(&key, bytes, length) == BWTREE_OK);
    return key;
}

static void neighbours(void) {
    char full[64];
    bwtree_bytes key = key_of("", 0), other;
    memset(full, 255, 64);
    CHECK(!bwtree_key_before(&key) && !bwtree_key_behind(&key) && key.length == 0 && bwtree_key_after(&key) && key.length == 1 && key.bytes[0] == 0);
    CHECK(bwtree_key_before(&key) && key.length == 0);
    key = key_of("ab", 2), other = key_of("aa", 2);
    memset(other.bytes + 2, 255, 62), other.length = 64;
    CHECK(bwtree_key_before(&key) && is_same(&key, &other));
    CHECK(bwtree_key_after(&key) && key.length == 2 && key.bytes[1] == 'b');
    key = key_of("a\377\377", 3), other = key_of("b", 1);
    CHECK(bwtree_key_behind(&key) && is_same(&key, &other));
    key = key_of(full, 64);
    CHECK(!bwtree_key_after(&key) && !bwtree_key_behind(&key) && key.length == 64 && bwtree_key_before(&key) && key.bytes[63] == 254 && key.length == 64);
    for (int i = 0; i < DRAWN; i++) {
        key.length = drawn() % 65;
        for (uint64_t j = 0; j < key.length; j++) key.bytes[j] = (uint8_t)"\0\1a\376\377"[drawn() % 5];
        other = key;
        if (bwtree_key_before(&other)) CHECK(order(&other, &key) < 0 && bwtree_key_after(&other) && is_same(&other, &key));
    }
}

int main(int count, char **words) {
    CHECK(count == 2);
    stored(words[1]);
    sorted();
    lengths();
    neighbours();
    puts("passed");
    return 0;
}
