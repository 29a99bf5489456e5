// A B+-tree with optimistic lock coupling (Leis, Haubenschild and Neumann), from byte strings of up to 64 bytes to 64-bit numbers: what one would write by
// hand where neither lock-freedom nor a proof is asked for. Keys are never deleted, and nodes never freed before the tree is.
//
// A node has a version, odd while a writer holds it. A reader loads the version, reads the node, and loads the version again: if it is another one, the
// reader begins anew. A reader that goes down validates a node after it has the child's version. A writer changes a leaf under its lock alone; nodes above
// are split on the way down as soon as they have no room for the longest key, so a split locks the node and its parent and no others.
//
// What readers read beside a writer is in relaxed atomics, so there is no data race. A node is an array of words. In front are slots, in the keys' order: a
// head, and the key's length with the place of the rest. The rest grows from the end: the payload, and the key's words behind the head. The whole words that
// a node's two fences have in common begin all its keys and are left out; so the head of a key is the first word in which the node's keys differ.
#ifndef OLC_TREE_HPP
#define OLC_TREE_HPP

#include <algorithm>
#include <atomic>
#include <cstddef>
#include <cstdint>
#include <cstring>
#include <new>
#include <thread>
#include <vector>

namespace olc {

// A key as words, the first byte highest, and zeros behind its end: keys are in the order of their words, and then of their lengths.
struct Key {
    static constexpr unsigned MAX_LENGTH = 64, WORDS = MAX_LENGTH / 8;
    uint64_t words[WORDS] = {};
    unsigned length = 0;
    Key() = default;
    Key(const void *bytes, size_t length) : length(unsigned(length)) {
        memcpy(words, bytes, length);
        for (unsigned i = 0; i < word_count(); i++) words[i] = __builtin_bswap64(words[i]);
    }
    unsigned word_count() const { return (length + 7) / 8; }
    uint8_t byte(unsigned at) const { return uint8_t(words[at / 8] >> (56 - 8 * (at % 8))); }
    // Its first bytes, so many of them.
    Key prefix(unsigned count) const {
        Key it;
        it.length = count;
        for (unsigned i = 0; i < it.word_count(); i++) it.words[i] = words[i];
        if (count % 8) it.words[count / 8] &= ~uint64_t(0) << (64 - 8 * (count % 8));
        return it;
    }
    bool operator==(const Key &other) const { return length == other.length && std::equal(words, words + WORDS, other.words); }
    bool operator<(const Key &other) const {
        for (unsigned i = 0; i < WORDS; i++)
            if (words[i] != other.words[i]) return words[i] < other.words[i];
        return length < other.length;
    }
};

// The shortest key that is above one and not above another.
inline Key between(const Key &below, const Key &key) {
    unsigned at = 0;
    while (at < below.length && at < key.length && below.byte(at) == key.byte(at)) at++;
    return key.prefix(at + 1);
}

struct Item {
    Key key;
    uint64_t payload;
};

class alignas(64) Node {
    static constexpr unsigned SIZE = 234, NO_HIGH = ~0u; // words of 2,048 bytes behind the fields
    std::atomic<uint64_t> version{0};
    std::atomic<Node *> next{nullptr};
    const unsigned level_;
    std::atomic<unsigned> count{0}, heap{SIZE}, skip{0}; // items; where the rests begin; common words
    const Key low;                                       // its keys aren't below this, nor as great as `high`, which only writers read
    Key high;
    std::atomic<uint64_t> words[SIZE];

    uint64_t word(unsigned at) const { return at < SIZE ? words[at].load(std::memory_order_relaxed) : 0; }
    void set(unsigned at, uint64_t word) { words[at].store(word, std::memory_order_relaxed); }
    uint64_t head(unsigned at) const { return word(2 * at); }
    unsigned skipped() const { return std::min(skip.load(std::memory_order_relaxed), Key::WORDS - 1); }
    static unsigned rest_of(unsigned length, unsigned skipped) { return std::max((length + 7) / 8, skipped + 1) - skipped; }

    // Compares an item's key with one: below 0, 0, or above 0.
    int compare(unsigned at, const Key &key, unsigned skipped) const {
        uint64_t first = head(at);
        if (first != key.words[skipped]) return first < key.words[skipped] ? -1 : 1;
        uint64_t info = word(2 * at + 1);
        unsigned place = unsigned(info), length = unsigned(info >> 32), behind = std::min(rest_of(length, skipped), Key::WORDS - skipped);
        for (unsigned i = 1; skipped + i < Key::WORDS && (i < behind || skipped + i < key.word_count()); i++) {
            uint64_t it = i < behind ? word(place + i) : 0;
            if (it != key.words[skipped + i]) return it < key.words[skipped + i] ? -1 : 1;
        }
        return length == key.length ? 0 : length < key.length ? -1 : 1;
    }

public:
    Node(unsigned level, const Key &low, const Key *high) : level_(level), low(low) {
        if (high) this->high = *high;
        else this->high.length = NO_HIGH;
        for (auto &it : words) it.store(0, std::memory_order_relaxed);
    }
    unsigned level() const { return level_; }
    Node *right() const { return next.load(std::memory_order_relaxed); }
    unsigned size() const { return std::min(count.load(std::memory_order_relaxed), SIZE / 3); }
    bool is_last() const { return high.length == NO_HIGH; }

    // The version, once nobody holds the node.
    uint64_t stable() const {
        for (unsigned tries = 0;; tries++) {
            uint64_t now = version.load(std::memory_order_acquire);
            if (!(now & 1)) return now;
            if (tries % 64 == 63) std::this_thread::yield();
            else __builtin_ia32_pause();
        }
    }
    // Whether all that was read since the node had this version is what it was then.
    bool is_at(uint64_t seen) const {
        std::atomic_thread_fence(std::memory_order_acquire);
        return version.load(std::memory_order_relaxed) == seen;
    }
    bool lock(uint64_t seen) {
        if (!version.compare_exchange_strong(seen, seen + 1, std::memory_order_acquire, std::memory_order_relaxed)) return false;
        std::atomic_thread_fence(std::memory_order_release);
        return true;
    }
    void unlock(bool is_changed = true) {
        uint64_t held = version.load(std::memory_order_relaxed);
        version.store(is_changed ? held + 1 : held - 1, std::memory_order_release);
    }

    // The place of the first item that isn't below a key, and whether it has that key.
    unsigned lower(const Key &key, bool &is_equal) const {
        unsigned all = size(), skipped = this->skipped(), at = 0;
        uint64_t wanted = key.words[skipped];
        for (unsigned left = all; left > 0;) {
            unsigned half = (left + 1) / 2;
            at += head(at + half - 1) < wanted ? half : 0;
            left -= half;
        }
        is_equal = false;
        for (unsigned end = all, middle = at; at < end; middle = (at + end) / 2) { // among equal heads
            int order = compare(middle, key, skipped);
            if (order < 0) at = middle + 1;
            else if (order > 0) end = middle;
            else return is_equal = true, middle;
        }
        return at;
    }
    uint64_t payload(unsigned at) const { return word(unsigned(word(2 * at + 1))); }
    void set_payload(unsigned at, uint64_t payload) { set(unsigned(word(2 * at + 1)), payload); }
    // Of a node above leaves: the child that has a key. Its first item has the node's low key.
    Node *child(const Key &key) const {
        bool is_equal;
        unsigned at = lower(key, is_equal);
        return reinterpret_cast<Node *>(payload(is_equal || at == 0 ? at : at - 1));
    }
    void read(unsigned at, Item &item) const {
        unsigned skipped = this->skipped(), place = unsigned(word(2 * at + 1));
        item.key = low.prefix(std::min(8 * skipped, low.word_count() * 8));
        item.key.length = std::min(unsigned(word(2 * at + 1) >> 32), Key::MAX_LENGTH);
        item.key.words[skipped] = head(at);
        for (unsigned i = 1; skipped + i < item.key.word_count(); i++) item.key.words[skipped + i] = word(place + i);
        item.payload = word(place);
    }

    // ---- What the writer does that holds the node ----

    bool has_room(unsigned length) const { return 2 * (size() + 1) + rest_of(length, skipped()) <= heap.load(std::memory_order_relaxed); }
    void put(unsigned at, const Key &key, uint64_t payload) {
        unsigned skipped = this->skipped(), all = size(), rest = rest_of(key.length, skipped), place = heap.load(std::memory_order_relaxed) - rest;
        set(place, payload);
        for (unsigned i = 1; i < rest; i++) set(place + i, key.words[skipped + i]);
        for (unsigned i = 2 * all; i > 2 * at; i--) set(i + 1, word(i - 1));
        set(2 * at, key.words[skipped]);
        set(2 * at + 1, uint64_t(key.length) << 32 | place);
        heap.store(place, std::memory_order_relaxed);
        count.store(all + 1, std::memory_order_relaxed);
    }
    void fill(const Item *from, const Item *to) {
        unsigned common = 0;
        while (!is_last() && common < Key::WORDS - 1 && 8 * (common + 1) <= std::min(low.length, high.length) && low.words[common] == high.words[common])
            common++;
        skip.store(common, std::memory_order_relaxed);
        count.store(0, std::memory_order_relaxed);
        heap.store(SIZE, std::memory_order_relaxed);
        for (; from != to; from++) put(size(), from->key, from->payload);
    }
    // Moves its upper half into a new node on its right, and returns that. The last node keeps all items but one if `key` is above them, so that ascending
    // inserts leave full nodes behind.
    Node *split(const Key &key) {
        Item items[SIZE / 3];
        unsigned all = size();
        for (unsigned i = 0; i < all; i++) read(i, items[i]);
        unsigned half = is_last() && items[all - 1].key < key ? all - 1 : all / 2;
        Key separator = level_ ? items[half].key : between(items[half - 1].key, items[half].key);
        Node *made = new Node(level_, separator, is_last() ? nullptr : &high);
        made->fill(items + half, items + all);
        made->next.store(right(), std::memory_order_relaxed);
        high = separator;
        fill(items, items + half);
        next.store(made, std::memory_order_relaxed);
        return made;
    }
    const Key &low_key() const { return low; }
};
static_assert(sizeof(Node) == 2048, "a node has 2,048 bytes");

class Tree {
    std::atomic<Node *> root{new Node(0, Key(), nullptr)};

    // A node, its parent if it has one, and their versions when it had the key.
    struct Place {
        Node *parent = nullptr, *node = nullptr;
        uint64_t parent_version = 0, version = 0;
    };

    // Goes down to the leaf of a key, or to a node above that has no room for the longest key, where `is_writing`. False: another thread came between.
    bool descend(const Key &key, bool is_writing, Place &place) const {
        place.parent = nullptr;
        place.node = root.load(std::memory_order_acquire);
        place.version = place.node->stable();
        if (root.load(std::memory_order_acquire) != place.node) return false;
        while (place.node->level() > 0) {
            if (is_writing && !place.node->has_room(Key::MAX_LENGTH)) return true;
            Node *child = place.node->child(key);
            if (!place.node->is_at(place.version)) return false;
            uint64_t version = child->stable();
            if (!place.node->is_at(place.version)) return false;
            place = {place.node, child, place.version, version};
        }
        return true;
    }

    // Splits a node, if it and its parent are what they were.
    void split(const Place &place, const Key &key) {
        Node *node = place.node, *parent = place.parent;
        if (parent && !parent->lock(place.parent_version)) return;
        if (!node->lock(place.version)) {
            if (parent) parent->unlock(false);
            return;
        }
        Node *made = node->split(key);
        if (parent) {
            bool is_equal;
            parent->put(parent->lower(made->low_key(), is_equal), made->low_key(), reinterpret_cast<uint64_t>(made));
            parent->unlock();
        } else {
            Item both[] = {{node->low_key(), reinterpret_cast<uint64_t>(node)}, {made->low_key(), reinterpret_cast<uint64_t>(made)}};
            Node *above = new Node(node->level() + 1, Key(), nullptr);
            above->fill(both, both + 2);
            root.store(above, std::memory_order_release);
        }
        node->unlock();
    }

    static void free(Node *node) {
        Item item;
        for (unsigned i = 0; node->level() > 0 && i < node->size(); i++) node->read(i, item), free(reinterpret_cast<Node *>(item.payload));
        delete node;
    }

public:
    Tree() = default;
    Tree(const Tree &) = delete;
    ~Tree() { free(root.load()); }

    bool get(const Key &key, uint64_t &value) const {
        for (Place place;;) {
            if (!descend(key, false, place)) continue;
            bool is_there;
            unsigned at = place.node->lower(key, is_there);
            uint64_t found = is_there ? place.node->payload(at) : 0;
            if (!place.node->is_at(place.version)) continue;
            if (is_there) value = found;
            return is_there;
        }
    }

    // Gives a key a value, unless it has one and `keeps`. Whether it had none.
    bool put(const Key &key, uint64_t value, bool keeps) {
        for (Place place;;) {
            if (!descend(key, true, place)) continue;
            bool is_there = false;
            unsigned at = place.node->level() > 0 ? 0 : place.node->lower(key, is_there);
            if (place.node->level() > 0 || (!is_there && !place.node->has_room(key.length))) {
                split(place, key);
                continue;
            }
            if (!place.node->lock(place.version)) continue;
            if (!is_there) place.node->put(at, key, value);
            else if (!keeps) place.node->set_payload(at, value);
            place.node->unlock(!is_there || !keeps);
            return !is_there;
        }
    }

    // Up to so many pairs from a key on, in order. The pairs of a leaf are of one moment.
    unsigned scan(const Key &from, unsigned most, Item *items) const {
        Place place;
        while (!descend(from, false, place)) {}
        bool is_first = true, is_equal;
        for (unsigned met = 0;;) {
            unsigned begin = is_first ? place.node->lower(from, is_equal) : 0, end = std::min(place.node->size(), begin + most - met);
            for (unsigned at = begin; at < end; at++) place.node->read(at, items[met + at - begin]);
            Node *right = place.node->right();
            if (place.node->is_at(place.version)) {
                met += end > begin ? end - begin : 0;
                if (met == most || !right) return met;
                is_first = false;
                place.node = right;
                place.version = right->stable();
            } else if (is_first) {
                while (!descend(from, false, place)) {}
            } else {
                place.version = place.node->stable();
            }
        }
    }
};

} // namespace olc

#endif
