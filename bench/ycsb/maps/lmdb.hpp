// LMDB in memory, without syncs, a transaction for each call.
#ifndef MAPS_LMDB_HPP
#define MAPS_LMDB_HPP

#include "../map.hpp"
#include <cstring>
#include <lmdb.h>

class Lmdb : public Map {
    Folder folder{"lmdb"};
    MDB_env *environment = nullptr;
    MDB_dbi map = 0;

    MDB_txn *begun(unsigned flags) {
        MDB_txn *step;
        must(!mdb_txn_begin(environment, nullptr, flags, &step), "LMDB begins no transaction");
        return step;
    }
    static MDB_val shown(const Key &key) { return {key.size(), const_cast<char *>(key.bytes)}; }
    void put(const Key &key, uint64_t value, unsigned flags) {
        MDB_txn *step = begun(0);
        MDB_val k = shown(key), v = {sizeof value, &value};
        int status = mdb_put(step, map, &k, &v, flags);
        must((!status || status == MDB_KEYEXIST) && !mdb_txn_commit(step), "LMDB puts nothing");
    }

public:
    Lmdb() {
        must(!mdb_env_create(&environment) && !mdb_env_set_mapsize(environment, size_t(4) << 30), "LMDB");
        must(!mdb_env_open(environment, folder.path.c_str(), MDB_NOSYNC | MDB_WRITEMAP | MDB_NOMETASYNC, 0600), "LMDB isn't opened");
        MDB_txn *step = begun(0);
        must(!mdb_dbi_open(step, nullptr, MDB_CREATE, &map) && !mdb_txn_commit(step), "LMDB has no map");
    }
    ~Lmdb() override { mdb_env_close(environment); }
    const char *name() const override { return "LMDB, no sync"; }
    void insert(int, const Key &key, uint64_t value) override { put(key, value, MDB_NOOVERWRITE); }
    void update(int, const Key &key, uint64_t value) override { put(key, value, 0); }
    bool get(int, const Key &key, uint64_t &value) override {
        MDB_txn *step = begun(MDB_RDONLY);
        MDB_val k = shown(key), v;
        bool is_there = !mdb_get(step, map, &k, &v);
        if (is_there) memcpy(&value, v.mv_data, sizeof value);
        mdb_txn_abort(step);
        return is_there;
    }
    unsigned scan(int, const Key &from, unsigned most) override {
        MDB_txn *step = begun(MDB_RDONLY);
        MDB_cursor *cursor;
        MDB_val k = shown(from), v;
        must(!mdb_cursor_open(step, map, &cursor), "LMDB has no cursor");
        unsigned met = 0;
        uint64_t sum = 0;
        for (int error = mdb_cursor_get(cursor, &k, &v, MDB_SET_RANGE); !error && met < most; error = mdb_cursor_get(cursor, &k, &v, MDB_NEXT), met++)
            sum += uint64_t(*static_cast<char *>(v.mv_data)) + uint64_t(*static_cast<char *>(k.mv_data));
        mdb_cursor_close(cursor);
        mdb_txn_abort(step);
        use(sum);
        return met;
    }
};

#endif
