// The tree by its C library, and the other maps that this machine has.
#ifndef MAPS_HPP
#define MAPS_HPP

#include "bwtree.h"
#include "peer.hpp"
#include <functional>
#include <map>
#include <memory>
#include <mutex>
#include <shared_mutex>
#ifdef HAS_TBB
#include <tbb/concurrent_map.h>
#endif
#ifdef HAS_LMDB
#include <lmdb.h>
#endif
#ifdef HAS_ROCKSDB
#include <rocksdb/db.h>
#include <rocksdb/options.h>
#endif

// The tree, a seat for each thread: as a large one, whose pages take two deltas, or at the greatest limits of a small one, whose pages take eight.
struct Tree : Peer {
    bwtree tree = {};
    std::atomic<uint64_t> full{0};
    bool is_large;
    Tree(uint64_t keys, bool is_large) : is_large(is_large) {
        bwtree_limits limits = {4, 4096, 16384, 1, 0, 0, 0, 0, 0};
        if (is_large) must(bwtree_limits_for_pairs(4, keys, Key::size(), 8, &limits) == BWTREE_OK, "no limits for so many keys");
        must(bwtree_open(&limits, &tree) == BWTREE_OK, "the tree isn't opened");
    }
    ~Tree() override { bwtree_close(&tree); }
    const char *name() const override { return is_large ? "bwtree, large" : "bwtree, small"; }
    void put(int thread, const Key &key, uint64_t value) override {
        bwtree_bytes old;
        uint32_t status = bwtree_upsert(&tree, uint32_t(thread), key.data(), key.size(), &value, 8, &old);
        if (status == BWTREE_FULL) full++;
        else must(status == BWTREE_OK || status == BWTREE_REPLACED, bwtree_text(status));
    }
    bool get(int thread, const Key &key) override {
        bwtree_bytes value;
        return bwtree_get(&tree, uint32_t(thread), key.data(), key.size(), &value) == BWTREE_OK;
    }
    int scan(int thread, const Key &from, int most) override {
        static thread_local bwtree_page_pairs page;
        bwtree_bytes next;
        next.length = from.size();
        memcpy(next.bytes, from.data(), from.size());
        int met = 0;
        do {
            must(bwtree_page(&tree, uint32_t(thread), next.bytes, next.length, &page) == BWTREE_OK, "a page");
            met += int(page.count);
            next = page.next;
        } while (page.more && met < most);
        return met;
    }
};

struct StdMap : Peer {
    std::map<Key, std::string> map;
    std::shared_mutex lock;
    const char *name() const override { return "std::map, shared_mutex"; }
    void put(int, const Key &key, uint64_t value) override {
        std::unique_lock held(lock);
        map[key].assign(reinterpret_cast<char *>(&value), 8);
    }
    bool get(int, const Key &key) override {
        std::shared_lock held(lock);
        return map.find(key) != map.end();
    }
    int scan(int, const Key &from, int most) override {
        std::shared_lock held(lock);
        int met = 0;
        uint64_t sum = 0;
        for (auto it = map.lower_bound(from); it != map.end() && met < most; ++it, met++) sum += uint64_t(it->second[0] + it->first.bytes[0]);
        use(sum);
        return met;
    }
};

#ifdef HAS_TBB
// Its values are atomics in place, since it has no upsert. Its keys are of 16 bytes in place, or strings, which are looked up without a copy.
template <class Name> struct Tbb : Peer {
    static constexpr bool is_fixed = std::is_same_v<Name, Key>;
    tbb::concurrent_map<Name, std::atomic<uint64_t>, std::less<>> map;
    const char *name() const override { return is_fixed ? "TBB concurrent_map, keys of 16 bytes in place" : "TBB concurrent_map, std::string"; }
    static auto sought(const Key &key) {
        if constexpr (is_fixed) return key;
        else return key.view();
    }
    void put(int, const Key &key, uint64_t value) override {
        auto found = map.find(sought(key));
        if (found == map.end()) map[Name(sought(key))].store(value);
        else found->second.store(value);
    }
    bool get(int, const Key &key) override { return map.find(sought(key)) != map.end(); }
    int scan(int, const Key &from, int most) override {
        int met = 0;
        uint64_t sum = 0;
        for (auto it = map.lower_bound(sought(from)); it != map.end() && met < most; ++it, met++) sum += it->second.load() + uint64_t(it->first.data()[0]);
        use(sum);
        return met;
    }
};
#endif

#ifdef HAS_LMDB
// In memory, without syncs, a transaction for each call.
struct Lmdb : Peer {
    Folder folder{"lmdb"};
    MDB_env *environment = nullptr;
    MDB_dbi map = 0;
    Lmdb() {
        must(!mdb_env_create(&environment) && !mdb_env_set_mapsize(environment, 1 << 28), "LMDB");
        must(!mdb_env_open(environment, folder.path.c_str(), MDB_NOSYNC | MDB_WRITEMAP | MDB_NOMETASYNC, 0600), "LMDB isn't opened");
        MDB_txn *step = begun(0);
        must(!mdb_dbi_open(step, nullptr, MDB_CREATE, &map) && !mdb_txn_commit(step), "LMDB has no map");
    }
    ~Lmdb() override { mdb_env_close(environment); }
    const char *name() const override { return "LMDB, no sync"; }
    MDB_txn *begun(unsigned flags) {
        MDB_txn *step;
        must(!mdb_txn_begin(environment, nullptr, flags, &step), "LMDB begins no transaction");
        return step;
    }
    static MDB_val shown(const Key &key) { return {key.size(), const_cast<char *>(key.data())}; }
    void put(int, const Key &key, uint64_t value) override {
        MDB_txn *step = begun(0);
        MDB_val k = shown(key), v = {8, &value};
        must(!mdb_put(step, map, &k, &v, 0) && !mdb_txn_commit(step), "LMDB puts nothing");
    }
    bool get(int, const Key &key) override {
        MDB_txn *step = begun(MDB_RDONLY);
        MDB_val k = shown(key), v;
        bool is_there = !mdb_get(step, map, &k, &v);
        mdb_txn_abort(step);
        return is_there;
    }
    int scan(int, const Key &from, int most) override {
        MDB_txn *step = begun(MDB_RDONLY);
        MDB_cursor *cursor;
        MDB_val k = shown(from), v;
        must(!mdb_cursor_open(step, map, &cursor), "LMDB has no cursor");
        int met = 0;
        uint64_t sum = 0;
        for (int error = mdb_cursor_get(cursor, &k, &v, MDB_SET_RANGE); !error && met < most; error = mdb_cursor_get(cursor, &k, &v, MDB_NEXT), met++)
            sum += uint64_t(*static_cast<char *>(v.mv_data));
        mdb_cursor_close(cursor);
        mdb_txn_abort(step);
        use(sum);
        return met;
    }
};
#endif

#ifdef HAS_ROCKSDB
// In memory, without its log. All stays in its first table, which keeps each overwritten value.
struct Rocks : Peer {
    Folder folder{"rocksdb"};
    rocksdb::DB *map = nullptr;
    rocksdb::WriteOptions writing;
    rocksdb::ReadOptions reading;
    Rocks() {
        rocksdb::Options options;
        options.create_if_missing = true;
        options.write_buffer_size = size_t(256) << 20;
        must(rocksdb::DB::Open(options, folder.path, &map).ok(), "RocksDB isn't opened");
        writing.disableWAL = true;
    }
    ~Rocks() override { delete map; }
    const char *name() const override { return "RocksDB, no log"; }
    void put(int, const Key &key, uint64_t value) override {
        must(map->Put(writing, rocksdb::Slice(key.data(), key.size()), rocksdb::Slice(reinterpret_cast<char *>(&value), 8)).ok(), "RocksDB puts nothing");
    }
    bool get(int, const Key &key) override {
        static thread_local std::string value;
        return map->Get(reading, rocksdb::Slice(key.data(), key.size()), &value).ok();
    }
    int scan(int, const Key &from, int most) override {
        std::unique_ptr<rocksdb::Iterator> it(map->NewIterator(reading));
        int met = 0;
        uint64_t sum = 0;
        for (it->Seek(rocksdb::Slice(from.data(), from.size())); it->Valid() && met < most; it->Next(), met++) sum += uint64_t(it->value()[0]);
        use(sum);
        return met;
    }
};
#endif

#endif
