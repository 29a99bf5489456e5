/* bwtree_keys.h: keys of numbers and texts that sort as these do, since a tree compares keys byte by byte.
 *
 * A key is put together part by part, so that a tuple sorts by its first part, then by its second one. Keys that are compared have parts of the same
 * kinds, in the same order. The bytes are the same in C, C++, Rust, Python and Go (c/tests/keys.txt):
 *
 *   uint64_t   eight bytes, the highest first
 *   int64_t    the same of the number above the least one, that is, with its highest bit turned
 *   double     the same of its bits, all turned if it is negative, else the highest one alone: -inf, .. -0, 0, .. inf. A NaN is above or, with its
 *              sign set, below all of them
 *   text       its bytes, each 0 as 0 255, and then 0 0. Texts of UTF-8 sort by code points
 *
 *     bwtree_bytes key = {0, {0}};
 *     if (bwtree_key_text(&key, city, strlen(city)) || bwtree_key_u64(&key, id)) ...  // TOO_LONG: they take more than 64 bytes
 *     bwtree_upsert(&tree, seat, key.bytes, key.length, ...)
 */
#ifndef BWTREE_KEYS_H
#define BWTREE_KEYS_H

#include "bwtree.h"
#include <string.h>

#ifdef __cplusplus
extern "C" {
#endif

/* No function here tests a pointer; that of a text may be null, if its length is 0. */

/* ---- Parts are put behind what the key has. OK, or TOO_LONG: the key is as it was. ---- */

/* Puts bytes behind a key as they are, such as an end that needs no order. */
BWTREE_PRIVATE_ uint32_t bwtree_key_bytes(bwtree_bytes *key, const void *bytes, size_t length) {
    if (length > BWTREE_MAX_LENGTH - key->length) return BWTREE_TOO_LONG;
    if (length) memcpy(key->bytes + key->length, bytes, length);
    key->length += length;
    return BWTREE_OK;
}

/* Puts a number behind a key. */
BWTREE_PRIVATE_ uint32_t bwtree_key_u64(bwtree_bytes *key, uint64_t number) {
    uint8_t bytes[8];
    for (int i = 0; i < 8; i++) bytes[i] = (uint8_t)(number >> (56 - 8 * i));
    return bwtree_key_bytes(key, bytes, 8);
}

/* Puts a signed number behind a key. */
BWTREE_PRIVATE_ uint32_t bwtree_key_i64(bwtree_bytes *key, int64_t number) {
    return bwtree_key_u64(key, (uint64_t)number ^ (uint64_t)1 << 63);
}

/* Puts a float behind a key. */
BWTREE_PRIVATE_ uint32_t bwtree_key_f64(bwtree_bytes *key, double number) {
    uint64_t bits;
    memcpy(&bits, &number, 8);
    return bwtree_key_u64(key, bits >> 63 ? ~bits : bits ^ (uint64_t)1 << 63);
}

/* A text without its end: the keys whose text begins with these bytes begin with this one. */
BWTREE_PRIVATE_ uint32_t bwtree_key_text_start(bwtree_bytes *key, const void *text, size_t length) {
    bwtree_bytes longer = *key;
    const uint8_t *bytes = (const uint8_t *)text;
    for (size_t i = 0; i < length; i++)
        if (bwtree_key_bytes(&longer, bytes[i] ? (const void *)(bytes + i) : "\0\377", bytes[i] ? 1 : 2)) return BWTREE_TOO_LONG;
    *key = longer;
    return BWTREE_OK;
}

/* Puts a text behind a key. */
BWTREE_PRIVATE_ uint32_t bwtree_key_text(bwtree_bytes *key, const void *text, size_t length) {
    bwtree_bytes longer = *key;
    if (bwtree_key_text_start(&longer, text, length) || bwtree_key_bytes(&longer, "\0", 2)) return BWTREE_TOO_LONG;
    *key = longer;
    return BWTREE_OK;
}

/* ---- Parts are read in the order in which they were put, from the place `at` on, which is set behind them. 1, or 0 where there is no such part: nothing
 * is written then. Also a value that bwtree_add made is read by bwtree_read_u64, from 0 on. ---- */

/* Reads a number. */
BWTREE_PRIVATE_ int bwtree_read_u64(const bwtree_bytes *key, size_t *at, uint64_t *number) {
    uint64_t read = 0;
    if (*at > key->length || key->length - *at < 8) return 0;
    for (int i = 0; i < 8; i++) read = read << 8 | key->bytes[*at + (size_t)i];
    *at += 8;
    *number = read;
    return 1;
}

/* Reads a signed number. */
BWTREE_PRIVATE_ int bwtree_read_i64(const bwtree_bytes *key, size_t *at, int64_t *number) {
    uint64_t read;
    if (!bwtree_read_u64(key, at, &read)) return 0;
    read ^= (uint64_t)1 << 63;
    memcpy(number, &read, 8);
    return 1;
}

/* Reads a float. */
BWTREE_PRIVATE_ int bwtree_read_f64(const bwtree_bytes *key, size_t *at, double *number) {
    uint64_t read;
    if (!bwtree_read_u64(key, at, &read)) return 0;
    read = read >> 63 ? read ^ (uint64_t)1 << 63 : ~read;
    memcpy(number, &read, 8);
    return 1;
}

/* Reads a text. */
BWTREE_PRIVATE_ int bwtree_read_text(const bwtree_bytes *key, size_t *at, bwtree_bytes *text) {
    bwtree_bytes read = {0, {0}};
    for (size_t i = *at; i < key->length; i++) {
        if (key->bytes[i]) {
            read.bytes[read.length++] = key->bytes[i];
            continue;
        }
        if (++i == key->length) return 0;
        if (key->bytes[i] == 255) {
            read.bytes[read.length++] = 0;
            continue;
        }
        if (key->bytes[i]) return 0;
        *at = i + 1;
        *text = read;
        return 1;
    }
    return 0;
}

/* ---- The neighbours of a key among keys of at most 64 bytes. 1, or 0 where there is none: the key is as it was. ---- */

/* The greatest key below: without a last 0; else with a last byte that is one less, and filled up with 255. */
BWTREE_PRIVATE_ int bwtree_key_before(bwtree_bytes *key) {
    if (!key->length) return 0;
    if (!key->bytes[key->length - 1]) {
        key->length--;
        return 1;
    }
    key->bytes[key->length - 1]--;
    memset(key->bytes + key->length, 255, BWTREE_MAX_LENGTH - key->length);
    key->length = BWTREE_MAX_LENGTH;
    return 1;
}

/* The least key that is above all that begin with this one: without its last bytes that are 255, and with a last byte that is one more. */
BWTREE_PRIVATE_ int bwtree_key_behind(bwtree_bytes *key) {
    uint64_t length = key->length;
    while (length && key->bytes[length - 1] == 255) length--;
    if (!length) return 0;
    key->length = length;
    key->bytes[length - 1]++;
    return 1;
}

/* The least key above: with a 0 behind it, if there is room. */
BWTREE_PRIVATE_ int bwtree_key_after(bwtree_bytes *key) {
    return bwtree_key_bytes(key, "\0", 1) == BWTREE_OK || bwtree_key_behind(key);
}

#ifdef __cplusplus
}
#endif
#endif
