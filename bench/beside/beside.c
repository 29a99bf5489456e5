/* What bench/beside.sh runs: beside SHAPE KEYS LIBRARY LIBRARY... */
#define _GNU_SOURCE
#include "bwtree.h"
#include <dlfcn.h>
#include <stdio.h>
#include <stdlib.h>
#include <string.h>
#include <time.h>

enum { MOST = 8, SLICES = 200, DRAWN = 4096, SCANS = 64, SCANNED = 100, VALUE = 8 };
enum kind { LOOKUPS, HALF_UPSERTS, SCANS_OF_PAIRS, KINDS };
static const char *const NAMES[] = {"lookups", "half upserts", "scans of 100"};

/* A build of the library, and its tree. */
struct build {
    bwtree tree;
    uint32_t (*get)(const bwtree *, uint32_t, const void *, size_t, bwtree_bytes *);
    uint32_t (*upsert)(const bwtree *, uint32_t, const void *, size_t, const void *, size_t, bwtree_bytes *);
    uint32_t (*page)(const bwtree *, uint32_t, const void *, size_t, bwtree_page_pairs *);
    double speeds[SLICES], ratios[SLICES];
};

static struct build builds[MOST];
static int count;
static uint64_t keys;
static int are_emails;
static bwtree_bytes drawn[DRAWN];

static void must(int holds, const char *what) {
    if (holds) return;
    fprintf(stderr, "beside: %s\n", what);
    exit(1);
}

static uint64_t scattered(uint64_t number) {
    number = (number ^ number >> 33) * 0xff51afd7ed558ccd;
    number = (number ^ number >> 33) * 0xc4ceb9fe1a85ec53;
    return number ^ number >> 33;
}

/* The key of a number. */
static void spell(uint64_t number, bwtree_bytes *key) {
    static const char *const names[] = {"anna", "bernhard", "christine", "dora", "emil", "friedrich", "gudrun", "heinrich"};
    static const char *const hosts[] = {"example.org", "mail.example.com", "post.example.net", "web.example.de"};
    uint64_t drawn_bits = scattered(number + 1);
    char text[BWTREE_MAX_LENGTH];
    if (are_emails) {
        int length = snprintf(text, sizeof text, "%s.%s%u@%s", names[drawn_bits % 8], names[drawn_bits / 8 % 8], (unsigned)number, hosts[drawn_bits / 64 % 4]);
        key->length = length < 40 ? (uint64_t)length : 40;
        memcpy(key->bytes, text, key->length);
        return;
    }
    key->length = 16;
    for (int i = 0; i < 8; i++) {
        key->bytes[i] = (uint8_t)(drawn_bits >> (56 - 8 * i));
        key->bytes[8 + i] = (uint8_t)(number >> (56 - 8 * i));
    }
}

static void *symbol(void *library, const char *name) {
    void *found = dlsym(library, name);
    must(found != NULL, name);
    return found;
}

/* Opens a build's tree, and loads it. */
static void load(struct build *build, const char *path) {
    bwtree_limits limits;
    bwtree_bytes key, old;
    void *library = dlopen(path, RTLD_NOW | RTLD_LOCAL);
    must(library != NULL, path);
    uint32_t (*for_pairs)(uint64_t, uint64_t, uint64_t, uint64_t, bwtree_limits *) = symbol(library, "bwtree_limits_for_pairs");
    uint32_t (*open)(const bwtree_limits *, bwtree *) = symbol(library, "bwtree_open");
    build->get = symbol(library, "bwtree_get");
    build->upsert = symbol(library, "bwtree_upsert");
    build->page = symbol(library, "bwtree_page");
    must(for_pairs(1, keys, are_emails ? 40 : 16, VALUE, &limits) == BWTREE_OK, "limits");
    must(open(&limits, &build->tree) == BWTREE_OK, "a tree isn't opened");
    for (uint64_t number = 0; number < keys; number++) {
        spell(number, &key);
        must(build->upsert(&build->tree, 0, key.bytes, key.length, &number, VALUE, &old) == BWTREE_OK, "a key isn't loaded");
    }
}

static double now(void) {
    struct timespec time;
    clock_gettime(CLOCK_MONOTONIC, &time);
    return (double)time.tv_sec + (double)time.tv_nsec / 1e9;
}

static void scan(struct build *build, bwtree_bytes from) {
    static bwtree_page_pairs page;
    for (uint64_t got = 0; got < SCANNED; got += page.count, from = page.next) {
        must(build->page(&build->tree, 0, from.bytes, from.length, &page) == BWTREE_OK, "a page");
        if (!page.more) return;
    }
}

/* Operations a second of a slice, on the keys that were drawn. */
static double slice(struct build *build, enum kind kind) {
    bwtree_bytes old;
    uint64_t value = (uint64_t)kind;
    int many = kind == SCANS_OF_PAIRS ? SCANS : DRAWN;
    double begin = now();
    for (int i = 0; i < many; i++) {
        const bwtree_bytes *key = &drawn[i];
        if (kind == SCANS_OF_PAIRS) scan(build, *key);
        else if (kind == HALF_UPSERTS && i % 2) must(build->upsert(&build->tree, 0, key->bytes, key->length, &value, VALUE, &old) == BWTREE_REPLACED, "an upsert");
        else must(build->get(&build->tree, 0, key->bytes, key->length, &old) == BWTREE_OK, "a lookup");
    }
    return many / (now() - begin);
}

static int by_size(const void *one, const void *other) {
    double difference = *(const double *)one - *(const double *)other;
    return (difference > 0) - (difference < 0);
}

static double quantile(double *numbers, int quarter) {
    qsort(numbers, SLICES, sizeof *numbers, by_size);
    return numbers[SLICES * quarter / 4];
}

static void measure(enum kind kind) {
    uint64_t number = 0;
    for (int at = 0; at < SLICES; at++) {
        for (int i = 0; i < DRAWN; i++) spell((number = scattered(number + 0x9e3779b97f4a7c15)) % keys, &drawn[i]);
        for (int i = 0; i < count; i++) {
            builds[i].speeds[at] = slice(&builds[i], kind);
            builds[i].ratios[at] = builds[i].speeds[at] / builds[0].speeds[at];
        }
    }
    printf("%s: %.0f", NAMES[kind], quantile(builds[0].speeds, 2) / 1000);
    for (int i = 1; i < count; i++) {
        double *ratios = builds[i].ratios;
        printf("; %.0f, %.2f (%.2f to %.2f)", quantile(builds[i].speeds, 2) / 1000, quantile(ratios, 2), quantile(ratios, 1), quantile(ratios, 3));
    }
    printf("\n");
    fflush(stdout);
}

int main(int length, char **words) {
    must(length >= 5 && length - 3 <= MOST, "SHAPE KEYS LIBRARY LIBRARY..., eight libraries at most");
    are_emails = strcmp(words[1], "emails") == 0;
    keys = strtoull(words[2], NULL, 10);
    must(keys > 0, "KEYS is a number above 0");
    for (; count < length - 3; count++) load(&builds[count], words[3 + count]);
    for (enum kind kind = 0; kind < KINDS; kind++) measure(kind);
    return 0;
}
