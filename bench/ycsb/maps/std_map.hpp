// std::map with std::string keys, under a lock that readers share.
#ifndef MAPS_STD_MAP_HPP
#define MAPS_STD_MAP_HPP

#include "../map.hpp"
#include <map>
#include <mutex>
#include <shared_mutex>

class StdMap : public Map {
    std::map<std::string, uint64_t> map;
    std::shared_mutex lock;

public:
    const char *name() const override { return "std::map, shared_mutex"; }
    void insert(int, const Key &key, uint64_t value) override {
        std::unique_lock held(lock);
        map.emplace(key.text(), value);
    }
    void update(int, const Key &key, uint64_t value) override {
        std::unique_lock held(lock);
        map[key.text()] = value;
    }
    bool get(int, const Key &key, uint64_t &value) override {
        std::shared_lock held(lock);
        auto found = map.find(key.text());
        if (found == map.end()) return false;
        value = found->second;
        return true;
    }
    unsigned scan(int, const Key &from, unsigned most) override {
        std::shared_lock held(lock);
        unsigned met = 0;
        uint64_t sum = 0;
        for (auto it = map.lower_bound(from.text()); it != map.end() && met < most; ++it, met++) sum += it->second + uint64_t(it->first[0]);
        use(sum);
        return met;
    }
};

#endif
