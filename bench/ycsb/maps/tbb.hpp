// TBB's concurrent_map, a skip list. Values are atomics in place, since it has no upsert. Keys are std::string, or have a fixed number of bytes in the node.
#ifndef MAPS_TBB_HPP
#define MAPS_TBB_HPP

#include "../map.hpp"
#include <cstring>
#include <tbb/concurrent_map.h>

// So many words with the key's bytes, the first highest, and zeros behind them. It suits keys that don't end with zeros or have one length.
template <int WORDS> struct InlineKey {
    uint64_t words[WORDS] = {};
    explicit InlineKey(const Key &key) {
        must(key.size() <= sizeof words, "a key is too long for TBB's inline keys");
        memcpy(words, key.bytes, key.size());
        for (auto &it : words) it = __builtin_bswap64(it);
    }
    bool operator<(const InlineKey &other) const {
        for (int i = 0; i < WORDS - 1; i++)
            if (words[i] != other.words[i]) return words[i] < other.words[i];
        return words[WORDS - 1] < other.words[WORDS - 1];
    }
};

struct StringKey : std::string {
    explicit StringKey(const Key &key) : std::string(key.bytes, key.size()) {}
};

inline uint64_t first_of(const StringKey &key) { return uint64_t(key[0]); }
template <int WORDS> uint64_t first_of(const InlineKey<WORDS> &key) { return key.words[0]; }

template <class K> class Tbb : public Map {
    tbb::concurrent_map<K, std::atomic<uint64_t>> map;
    const char *const called;

public:
    explicit Tbb(const char *called) : called(called) {}
    const char *name() const override { return called; }
    void insert(int, const Key &key, uint64_t value) override { map.emplace(K(key), value); }
    void update(int, const Key &key, uint64_t value) override {
        auto [found, is_new] = map.emplace(K(key), value);
        if (!is_new) found->second.store(value);
    }
    bool get(int, const Key &key, uint64_t &value) override {
        auto found = map.find(K(key));
        if (found == map.end()) return false;
        value = found->second.load();
        return true;
    }
    unsigned scan(int, const Key &from, unsigned most) override {
        unsigned met = 0;
        uint64_t sum = 0;
        for (auto it = map.lower_bound(K(from)); it != map.end() && met < most; ++it, met++) sum += it->second.load() + first_of(it->first);
        use(sum);
        return met;
    }
};

#endif
