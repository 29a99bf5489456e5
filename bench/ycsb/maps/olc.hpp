// The B+-tree of ../olc_tree.hpp.
#ifndef MAPS_OLC_HPP
#define MAPS_OLC_HPP

#include "../map.hpp"
#include "../olc_tree.hpp"

class Olc : public Map {
    olc::Tree tree;
    static olc::Key as_words(const Key &key) { return olc::Key(key.bytes, key.size()); }

public:
    const char *name() const override { return "B+-tree, optimistic locks"; }
    void insert(int, const Key &key, uint64_t value) override { tree.put(as_words(key), value, true); }
    void update(int, const Key &key, uint64_t value) override { tree.put(as_words(key), value, false); }
    bool get(int, const Key &key, uint64_t &value) override { return tree.get(as_words(key), value); }
    unsigned scan(int, const Key &from, unsigned most) override {
        static thread_local olc::Item items[MOST_SCANNED];
        unsigned met = tree.scan(as_words(from), most, items);
        uint64_t sum = 0;
        for (unsigned i = 0; i < met; i++) sum += items[i].payload + items[i].key.words[0];
        use(sum);
        return met;
    }
};

#endif
