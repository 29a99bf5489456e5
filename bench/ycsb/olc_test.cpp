// Tests of olc_tree.hpp: drawn keys against a std::map, and threads that insert, update, look up and scan at the same time: olc_test [KEYS]
#include "olc_tree.hpp"
#include <cstdio>
#include <cstdlib>
#include <map>
#include <string>
#include <vector>

#define CHECK(x) do { if (!(x)) { fprintf(stderr, "%s:%d: %s\n", __FILE__, __LINE__, #x); exit(1); } } while (0)

static uint64_t mixed(uint64_t x) {
    x = (x ^ (x >> 30)) * 0xBF58476D1CE4E5B9ull;
    x = (x ^ (x >> 27)) * 0x94D049BB133111EBull;
    return x ^ (x >> 31);
}

// Keys that ascend, that are scattered, that have long common beginnings, and of up to 64 bytes, zeros among them.
static std::string key_of(int kind, uint64_t number) {
    std::string key(8, 0);
    uint64_t word = kind == 0 ? number : mixed(number + 1);
    for (int i = 0; i < 8; i++) key[size_t(i)] = char(word >> (56 - 8 * i));
    if (kind < 2) return key;
    if (kind == 2) return "a common beginning of " + std::string(number % 3 * 7, 'x') + std::to_string(number);
    std::string all(word % 57, char(word >> 8 & 1));
    return number == 0 ? "" : all + key;
}

static olc::Key as_key(const std::string &text) { return olc::Key(text.data(), text.size()); }

static std::string text_of(const olc::Key &key) {
    std::string text;
    for (unsigned i = 0; i < key.length; i++) text += char(key.byte(i));
    return text;
}

static void beside_map(int kind, uint64_t keys) {
    olc::Tree tree;
    std::map<std::string, uint64_t> map;
    uint64_t value = 0, random = 1;
    std::vector<olc::Item> items(100);
    for (uint64_t i = 0; i < 2 * keys; i++) {
        random = mixed(random + i);
        std::string key = key_of(kind, i % 3 == 0 ? i / 3 : random % keys);
        bool is_new = map.find(key) == map.end(), keeps = random >> 20 & 1;
        CHECK(tree.get(as_key(key), value) == !is_new && (is_new || value == map[key]));
        CHECK(tree.put(as_key(key), i, keeps) == is_new);
        if (is_new || !keeps) map[key] = i;
        CHECK(tree.get(as_key(key), value) && value == map[key]);
        if (i % 64) continue;
        std::string from = key_of(kind, random >> 8);
        unsigned most = 1 + unsigned(random >> 40) % 100, met = tree.scan(as_key(from), most, items.data());
        auto it = map.lower_bound(from);
        for (unsigned at = 0; at < met; at++, it++) CHECK(it != map.end() && text_of(items[at].key) == it->first && items[at].payload == it->second);
        CHECK(met == most || it == map.end());
    }
    for (auto &[key, expected] : map) CHECK(tree.get(as_key(key), value) && value == expected);
}

// Thread t inserts the keys whose numbers are t modulo THREADS, each with its number; then it makes each value greater by `keys`, again and again. Meanwhile
// each looks up what others have inserted, whose values only grow, and its scans ascend and have each key that was there before.
static void beside_threads(int kind, uint64_t keys) {
    constexpr uint64_t THREADS = 4;
    olc::Tree tree;
    std::atomic<uint64_t> inserted[THREADS] = {};
    std::vector<std::thread> all;
    for (uint64_t t = 0; t < THREADS; t++)
        all.emplace_back([&, t] {
            std::vector<olc::Item> items(100);
            uint64_t random = t + 1, value = 0;
            for (uint64_t i = t; i < 2 * keys; i += THREADS) {
                if (i < keys) {
                    CHECK(tree.put(as_key(key_of(kind, i)), i, true));
                    inserted[t] = i + 1;
                } else CHECK(!tree.put(as_key(key_of(kind, i - keys)), i, false));
                random = mixed(random + i);
                uint64_t owner = random % THREADS, end = inserted[owner], number = random / 8 % keys / THREADS * THREADS + owner;
                if (number >= end) continue;
                std::string key = key_of(kind, number);
                CHECK(tree.get(as_key(key), value) && value % keys == number);
                unsigned met = tree.scan(as_key(key), 1 + unsigned(random >> 40) % 100, items.data());
                CHECK(met > 0 && text_of(items[0].key) == key && items[0].payload >= value);
                for (unsigned at = 1; at < met; at++) {
                    CHECK(items[at - 1].key < items[at].key);
                    CHECK(text_of(items[at].key) == key_of(kind, items[at].payload % keys));
                }
            }
        });
    for (auto &it : all) it.join();
    uint64_t value = 0;
    for (uint64_t i = 0; i < keys; i++) CHECK(tree.get(as_key(key_of(kind, i)), value) && value == i + keys);
    std::vector<olc::Item> items(keys + 1);
    CHECK(tree.scan(olc::Key(), unsigned(keys) + 1, items.data()) == keys);
}

int main(int count, char **words) {
    uint64_t keys = count > 1 ? strtoull(words[1], nullptr, 10) : 20000;
    for (int kind = 0; kind < 4; kind++) {
        beside_map(kind, keys);
        beside_threads(kind, keys);
    }
    puts("olc_tree.hpp: passed");
}
