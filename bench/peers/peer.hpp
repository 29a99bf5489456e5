// A map beside which the tree is measured: what each of them does, and a cell of the table.
#ifndef PEER_HPP
#define PEER_HPP

#include <atomic>
#include <chrono>
#include <cstdint>
#include <cstdio>
#include <cstdlib>
#include <cstring>
#include <filesystem>
#include <string>
#include <string_view>
#include <thread>
#include <vector>

// A key of 16 bytes in place, so that the keys of a run lie one behind the other, and a map that has keys of a fixed size needs no pointer to them.
struct Key {
    char bytes[16] = {};
    const char *data() const { return bytes; }
    static constexpr size_t size() { return sizeof bytes; }
    std::string_view view() const { return {bytes, sizeof bytes}; }
    bool operator<(const Key &other) const { return memcmp(bytes, other.bytes, sizeof bytes) < 0; }
};

inline void must(bool holds, const char *what) {
    if (holds) return;
    fprintf(stderr, "peers: %s\n", what);
    exit(1);
}

// The key of a number: 16 bytes, whose first eight scatter it.
inline Key key_of(uint64_t number) {
    Key key;
    uint64_t scattered = number * 0x9E3779B97F4A7C15ull;
    for (int i = 0; i < 8; i++) {
        key.bytes[i] = char(scattered >> (56 - 8 * i));
        key.bytes[8 + i] = char(number >> (56 - 8 * i));
    }
    return key;
}

// A folder in memory, which goes with this.
struct Folder {
    std::string path;
    explicit Folder(const char *name) {
        std::string pattern = std::string("/dev/shm/peers-") + name + "-XXXXXX";
        must(mkdtemp(pattern.data()) != nullptr, "no folder in /dev/shm");
        path = pattern;
    }
    ~Folder() { std::filesystem::remove_all(path); }
};

enum Kind { LOOKUPS, HALF_UPSERTS, SCANS };
constexpr int SCANNED = 100;

struct Peer {
    virtual ~Peer() = default;
    virtual const char *name() const = 0;
    // Fills it with the keys.
    virtual void load(const std::vector<Key> &keys) {
        for (size_t i = 0; i < keys.size(); i++) put(0, keys[i], i);
    }
    virtual void put(int thread, const Key &key, uint64_t value) = 0;
    virtual bool get(int thread, const Key &key) = 0;
    // How many pairs it met from a key on, so many at most or a few more.
    virtual int scan(int thread, const Key &from, int most) = 0;

    // Operations a second, by so many threads for so many milliseconds.
    virtual double cell(const std::vector<Key> &keys, Kind kind, int threads, int milliseconds) {
        std::atomic<uint64_t> total{0};
        auto begin = std::chrono::steady_clock::now(), end = begin + std::chrono::milliseconds(milliseconds);
        std::vector<std::thread> all;
        for (int thread = 0; thread < threads; thread++)
            all.emplace_back([&, thread] {
                uint64_t random = 88172645463325252ull + uint64_t(thread) * 7919, count = 0, mask = kind == SCANS ? 7 : 63;
                while ((count & mask) || std::chrono::steady_clock::now() < end) {
                    random ^= random << 13, random ^= random >> 7, random ^= random << 17;
                    const Key &key = keys[(random >> 1) % keys.size()];
                    if (kind == SCANS) scan(thread, key, SCANNED);
                    else if (kind == HALF_UPSERTS && (random >> 40) % 2) put(thread, key, random);
                    else must(get(thread, key), "a key is missing");
                    count++;
                }
                total += count;
            });
        for (auto &it : all) it.join();
        return double(total) / std::chrono::duration<double>(std::chrono::steady_clock::now() - begin).count();
    }
};

// Keeps a sum from being left out.
inline void use(uint64_t sum) { asm volatile("" : : "r"(sum)); }

#endif
