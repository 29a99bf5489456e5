// The tree, by its C library: a large one, a seat for each thread.
#ifndef MAPS_BWTREE_HPP
#define MAPS_BWTREE_HPP

#include "../map.hpp"
#include "bwtree_walks.h"

class Bwtree : public Map {
    bwtree tree = {};
    std::atomic<uint64_t> full{0};

    static void need(uint32_t status) { must(status == BWTREE_OK, bwtree_text(status)); }

    // What a call came to, once it is done.
    uint32_t done(int thread, uint32_t status, bwtree_bytes &old) {
        bwtree_page_pairs unused;
        while (status == BWTREE_SPENT) status = bwtree_resume(&tree, uint32_t(thread), 1 << 16, &old, &unused);
        return status;
    }

    // Makes a write again while it is full, which it may be while another thread that was interrupted holds back what is free.
    template <class Call> void write(int thread, Call call) {
        for (int tries = 0; tries < 1000000; tries++) {
            bwtree_bytes old;
            uint32_t status = done(thread, call(uint32_t(thread), &old), old);
            if (status == BWTREE_OK || status == BWTREE_EXISTS || status == BWTREE_REPLACED) return;
            must(status == BWTREE_FULL, bwtree_text(status));
            full++;
            std::this_thread::yield();
        }
        must(false, "the tree is full for good");
    }

public:
    Bwtree(uint64_t keys, int threads) {
        bwtree_limits limits;
        need(bwtree_limits_for_many_keys(uint64_t(threads), keys, &limits));
        need(bwtree_open(&limits, &tree));
    }
    ~Bwtree() override { bwtree_close(&tree); }
    const char *name() const override { return "bwtree"; }
    uint64_t refused() const override { return full; }
    void insert(int thread, const Key &key, uint64_t value) override {
        write(thread, [&](uint32_t seat, bwtree_bytes *old) { return bwtree_insert(&tree, seat, key.bytes, key.size(), &value, sizeof value, old); });
    }
    void update(int thread, const Key &key, uint64_t value) override {
        write(thread, [&](uint32_t seat, bwtree_bytes *old) { return bwtree_upsert(&tree, seat, key.bytes, key.size(), &value, sizeof value, old); });
    }
    bool get(int thread, const Key &key, uint64_t &value) override {
        bwtree_bytes found;
        if (done(thread, bwtree_get(&tree, uint32_t(thread), key.bytes, key.size(), &found), found) != BWTREE_OK) return false;
        memcpy(&value, found.bytes, sizeof value);
        return true;
    }
    unsigned scan(int thread, const Key &from, unsigned most) override {
        static thread_local bwtree_walk walk;
        bwtree_range range;
        bwtree_pair pair = {};
        need(bwtree_between(from.bytes, from.size(), nullptr, 0, &range));
        need(bwtree_walk_begin(&walk, &range, 0));
        unsigned met = 0;
        uint64_t sum = 0;
        for (uint32_t status; met < most && (status = bwtree_walk_next(&tree, uint32_t(thread), &walk, &pair)) != BWTREE_ABSENT; met++) {
            need(status);
            sum += uint64_t(pair.key.bytes[0]) + pair.value.bytes[0];
        }
        use(sum);
        return met;
    }
};

#endif
