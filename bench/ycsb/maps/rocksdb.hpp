// RocksDB's memtable, a skip list: its log is off, and all stays in the first table, which keeps each overwritten value. An insert is a put.
#ifndef MAPS_ROCKSDB_HPP
#define MAPS_ROCKSDB_HPP

#include "../map.hpp"
#include <cstring>
#include <memory>
#include <rocksdb/db.h>
#include <rocksdb/options.h>

class Rocks : public Map {
    Folder folder{"rocksdb"};
    std::unique_ptr<rocksdb::DB> map;
    rocksdb::WriteOptions writing;
    rocksdb::ReadOptions reading;

    static rocksdb::Slice shown(const Key &key) { return rocksdb::Slice(key.bytes, key.size()); }

public:
    Rocks() {
        rocksdb::Options options;
        rocksdb::DB *opened = nullptr;
        options.create_if_missing = true;
        options.write_buffer_size = size_t(2) << 30;
        must(rocksdb::DB::Open(options, folder.path, &opened).ok(), "RocksDB isn't opened");
        map.reset(opened);
        writing.disableWAL = true;
    }
    const char *name() const override { return "RocksDB, memtable"; }
    void insert(int thread, const Key &key, uint64_t value) override { update(thread, key, value); }
    void update(int, const Key &key, uint64_t value) override {
        must(map->Put(writing, shown(key), rocksdb::Slice(reinterpret_cast<char *>(&value), sizeof value)).ok(), "RocksDB puts nothing");
    }
    bool get(int, const Key &key, uint64_t &value) override {
        static thread_local std::string found;
        if (!map->Get(reading, shown(key), &found).ok()) return false;
        memcpy(&value, found.data(), sizeof value);
        return true;
    }
    unsigned scan(int, const Key &from, unsigned most) override {
        std::unique_ptr<rocksdb::Iterator> it(map->NewIterator(reading));
        unsigned met = 0;
        uint64_t sum = 0;
        for (it->Seek(shown(from)); it->Valid() && met < most; it->Next(), met++) sum += uint64_t(it->value()[0]) + uint64_t(it->key()[0]);
        use(sum);
        return met;
    }
};

#endif
