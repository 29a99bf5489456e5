// bwtree.hpp: bwtree.h for C++17. A tree is moved, not copied, and lends its seats; what is no ordinary answer throws bw::error.
//
// Any number of threads may call a tree's functions. A seat is used by one thread at a time, and may go from thread to thread as any object does.
// The tree is closed when the object and all its seats are gone, or by close(). What bwtree.h says of order, stacks, signals and forks holds here, too.
//
// *Throws* names the statuses of the bw::error that a function throws. Nothing was done then, and no key was changed. Where a result has strings,
// std::bad_alloc is thrown if there is no memory for them: a write has taken effect then.
#ifndef BWTREE_HPP
#define BWTREE_HPP

#include "bwtree.h"
#include "bwtree_results.hpp"
#include "bwtree_waits.h"
#include "bwtree_walks.h"
#include <atomic>
#include <chrono>
#include <cstddef>
#include <cstdint>
#include <cstring>
#include <iterator>
#include <map>
#include <memory>
#include <optional>
#include <stdexcept>
#include <string>
#include <string_view>
#include <type_traits>
#include <utility>
#include <vector>

namespace bw {

namespace detail {

// The handle, which stays where it is; which of its seats are free, a bit each; how many keys it has; and the closed tree's pairs until they are returned.
struct shared {
    ::bwtree handle = {};
    std::atomic<uint64_t> free{0};
    uint64_t all = 0;
    bwtree_count count = {};
    std::vector<bwtree_pair> left;
    bwtree_limits limits = {};
    ~shared() { bwtree_close(&handle); }
};

// Bytes as C reads them.
inline bwtree_bytes bytes_of(std::string_view text) {
    bwtree_bytes bytes = {text.size(), {0}};
    if (text.size() > BWTREE_MAX_LENGTH) throw error(BWTREE_TOO_LONG);
    if (!text.empty()) std::memcpy(bytes.bytes, text.data(), text.size());
    return bytes;
}

// The bytes that C wrote.
inline std::string_view text(const bwtree_bytes &bytes) { return {reinterpret_cast<const char *>(bytes.bytes), size_t(bytes.length)}; }

inline void must(uint32_t status) {
    if (status != BWTREE_OK) throw error(status);
}

} // namespace detail

// A seat of a tree, which it gets back when this goes. Each call throws CLOSED, where the tree was closed before the seat was leased; BUSY, where another
// thread is inside a call of the seat; NULL, of a seat that was moved from. A call with a key or value of more than 64 bytes throws TOO_LONG. A write throws
// FULL, where nothing was free for the change.
class seat {
public:
    seat(seat &&other) noexcept : shared_(std::move(other.shared_)), number_(other.number_), patience_(other.patience_) {}
    seat &operator=(seat &&other) noexcept {
        if (this != &other) {
            give_back();
            shared_ = std::move(other.shared_);
            number_ = other.number_;
            patience_ = other.patience_;
        }
        return *this;
    }
    ~seat() { give_back(); }

    // Its number, from 0 on.
    uint32_t number() const noexcept { return number_; }

    // How long a write waits while the tree is full, before it throws error(BWTREE_FULL). A seat that was just leased doesn't wait.
    void set_patience(std::chrono::nanoseconds most) noexcept { patience_ = most; }
    // What may become of a write that is full, judged from what is free: a hint, of which nothing is proved (bwtree_waits.h). In a tree with records of three
    // widths, as for_pairs and for_many_keys propose them, it is BWTREE_FULL_PASSED only if a record with room for any change must be free, and
    // BWTREE_FULL_UNKNOWN where that can't be known. Throws CLOSED, BUSY, NULL.
    [[nodiscard]] bwtree_full_hints full_hint() {
        uint32_t hint = BWTREE_FULL_PASSED;
        if (!shared_) throw error(BWTREE_NULL);
        detail::must(bwtree_full_hint(handle(), number_, &shared_->limits, &hint));
        return bwtree_full_hints(hint);
    }

    // The value of a key; none where it has none. Throws TOO_LONG, CLOSED, BUSY, NULL.
    [[nodiscard]] std::optional<std::string> get(std::string_view key) {
        bwtree_bytes value;
        return shown(done(bwtree_get(handle(), number_, key.data(), key.size(), &value), value), value, BWTREE_OK);
    }
    // The value of a key, in `into`, which the caller has: no memory is taken. Throws TOO_LONG, CLOSED, BUSY, NULL.
    [[nodiscard]] std::optional<std::string_view> get(std::string_view key, bwtree_bytes &into) {
        if (done(bwtree_get(handle(), number_, key.data(), key.size(), &into), into) != BWTREE_OK) return std::nullopt;
        return detail::text(into);
    }
    // Whether a key has a value; no memory is taken. Throws TOO_LONG, CLOSED, BUSY, NULL.
    [[nodiscard]] bool contains(std::string_view key) {
        bwtree_bytes value;
        return get(key, value).has_value();
    }
    // Gives a key a value where it has none; else the value that it has. Throws FULL, TOO_LONG, CLOSED, BUSY, NULL.
    inserted insert(std::string_view key, std::string_view value) {
        bwtree_bytes old;
        uint32_t status = set(old, [&] { return bwtree_insert(handle(), number_, key.data(), key.size(), value.data(), value.size(), &old); });
        return {status == BWTREE_OK, shown(status, old, BWTREE_EXISTS)};
    }
    // Gives a key a value: the one that it had before, if it had one. Throws FULL, TOO_LONG, CLOSED, BUSY, NULL.
    std::optional<std::string> upsert(std::string_view key, std::string_view value) {
        bwtree_bytes old;
        auto call = [&] { return bwtree_upsert(handle(), number_, key.data(), key.size(), value.data(), value.size(), &old); };
        return shown(set(old, call), old, BWTREE_REPLACED);
    }
    // Gives a key a value where it has one: the value that it had. It makes several calls, and takes effect atomically in the last one. Throws FULL, TOO_LONG,
    // CLOSED, BUSY, NULL.
    std::optional<std::string> replace(std::string_view key, std::string_view value) {
        bwtree_bytes old;
        auto call = [&] { return bwtree_replace(handle(), number_, key.data(), key.size(), value.data(), value.size(), &old); };
        return shown(written(old, call), old, BWTREE_REPLACED);
    }
    // Makes a key absent: the value that it had, if it had one. Throws FULL, TOO_LONG, CLOSED, BUSY, NULL.
    std::optional<std::string> erase(std::string_view key) {
        bwtree_bytes old;
        return shown(deleted(old, [&] { return bwtree_delete(handle(), number_, key.data(), key.size(), &old); }), old, BWTREE_OK);
    }
    // Makes a key absent where it has the expected value. Throws FULL, TOO_LONG, CLOSED, BUSY, NULL.
    compared erase_if(std::string_view key, std::string_view expected) {
        bwtree_bytes old;
        auto call = [&] { return bwtree_delete_if(handle(), number_, key.data(), key.size(), expected.data(), expected.size(), &old); };
        return found(deleted(old, call), old);
    }
    // Adds a number, modulo 2^64, to the one that a key's value of eight bytes is, the highest byte first; a key without a value gets the number. A value of
    // another length stays. Throws FULL, TOO_LONG, CLOSED, BUSY, NULL.
    added add(std::string_view key, uint64_t number) {
        bwtree_bytes old;
        uint64_t was = 0;
        size_t at = 0;
        uint32_t status = set(old, [&] { return bwtree_add(handle(), number_, key.data(), key.size(), number, &old); });
        if (status == BWTREE_DIFFERS) return {false, std::nullopt, std::string(detail::text(old))};
        if (status == BWTREE_REPLACED && bwtree_read_u64(&old, &at, &was)) return {true, was, std::nullopt};
        return {true, std::nullopt, std::nullopt};
    }
    // Gives a key the value where it has the expected one. Throws FULL, TOO_LONG, CLOSED, BUSY, NULL.
    compared compare_and_set(std::string_view key, std::string_view expected, std::string_view value) {
        bwtree_bytes old;
        auto call = [&] {
            return bwtree_compare_and_set(handle(), number_, key.data(), key.size(), expected.data(), expected.size(), value.data(), value.size(), &old);
        };
        return found(written(old, call), old);
    }
    // Does what upkeep is due at the leaf of a key; no value changes. Throws FULL, TOO_LONG, CLOSED, BUSY, NULL.
    void tidy(std::string_view key) {
        bwtree_bytes old;
        written(old, [&] { return bwtree_tidy(handle(), number_, key.data(), key.size()); });
    }

    // Calls each(key, value) for the pairs from a key on, keys ascending, until it returns false; one that returns nothing is called for all. Other threads may
    // change the tree meanwhile: what is there throughout is shown, and what never is there isn't. Its arguments last as long as the call. Throws TOO_LONG,
    // CLOSED, BUSY, NULL, and what each throws: the pairs before were shown.
    template <class Each> void walk(std::string_view from, Each each) { walk(range::from(from), std::move(each)); }
    // Walks the keys of a range in the same way.
    template <class Each> void walk(const range &keys, Each each) { walked(keys, 0, each); }
    // Walks backward, from the greatest key of a range down.
    template <class Each> void walk_back(const range &keys, Each each) { walked(keys, 1, each); }

    // The pairs of a range for a loop, keys ascending, or from the greatest key down: an input range. The seat is used by the loop alone meanwhile. These throw
    // std::bad_alloc; begin() and each step of the loop throw CLOSED, BUSY, NULL.
    [[nodiscard]] class pairs pairs(const range &keys = range::all());
    [[nodiscard]] class pairs pairs_back(const range &keys = range::all());

    // The pair of the least key, of the greatest one, and of those next to a key: the greatest up to it and below it, the least from it on and above it.
    // None where there is no such pair. The answer is atomic if the first page that is read has a pair; otherwise it is a walk's. Throws TOO_LONG, CLOSED,
    // BUSY, NULL.
    [[nodiscard]] std::optional<pair> first() { return near_by(bwtree_ceiling, {}); }
    [[nodiscard]] std::optional<pair> last() { return near_by(bwtree_floor, std::string(BWTREE_MAX_LENGTH, '\377')); }
    [[nodiscard]] std::optional<pair> floor(std::string_view key) { return near_by(bwtree_floor, key); }
    [[nodiscard]] std::optional<pair> lower(std::string_view key) { return near_by(bwtree_lower, key); }
    [[nodiscard]] std::optional<pair> ceiling(std::string_view key) { return near_by(bwtree_ceiling, key); }
    [[nodiscard]] std::optional<pair> higher(std::string_view key) { return near_by(bwtree_higher, key); }

    // How many pages and records are free. Throws CLOSED, BUSY, NULL.
    [[nodiscard]] bwtree_room free_room() {
        bwtree_room room;
        detail::must(bwtree_free_room(handle(), number_, &room));
        return room;
    }

private:
    friend class tree;
    friend class pairs;
    seat(std::shared_ptr<detail::shared> shared, uint32_t number) : shared_(std::move(shared)), number_(number) {}

    const ::bwtree *handle() const noexcept { return shared_ ? &shared_->handle : nullptr; }
    void give_back() noexcept {
        if (shared_) shared_->free.fetch_or(uint64_t(1) << number_);
        shared_.reset();
    }

    // Resumes an operation until it is done, and throws what is no ordinary answer.
    uint32_t done(uint32_t status, bwtree_bytes &old, bwtree_page_pairs *page = nullptr) {
        if (status == BWTREE_SPENT) status = resumed(old, page);
        if (status >= BWTREE_FULL) throw error(status);
        return status;
    }
    // Resumes an operation until it is done. It takes no memory, since for want of it the operation would stay in the seat.
    uint32_t resumed(bwtree_bytes &old, bwtree_page_pairs *page) noexcept {
        bwtree_page_pairs unused;
        uint32_t status;
        do status = bwtree_resume(handle(), number_, 1 << 16, &old, page ? page : &unused);
        while (status == BWTREE_SPENT);
        return status;
    }
    // What a write came to. While it is FULL it is made again, until the seat's patience is at its end.
    template <class Call> uint32_t written(bwtree_bytes &old, Call call) {
        auto once = [&] {
            uint32_t status = call();
            return status == BWTREE_SPENT ? resumed(old, nullptr) : status;
        };
        uint32_t status = once();
        if (status == BWTREE_FULL && patience_.count() > 0) {
            bwtree_wait wait;
            bwtree_wait_begin(&wait, uint64_t(patience_.count()));
            while (status == BWTREE_FULL && bwtree_wait_again(&wait)) status = once();
        }
        return done(status, old);
    }
    // What a write that may set a key came to, and one that may delete it. It is counted.
    template <class Call> uint32_t set(bwtree_bytes &old, Call call) {
        uint32_t status = written(old, call);
        bwtree_count_set(&shared_->count, number_, status);
        return status;
    }
    template <class Call> uint32_t deleted(bwtree_bytes &old, Call call) {
        uint32_t status = written(old, call);
        bwtree_count_deleted(&shared_->count, number_, status);
        return status;
    }
    // The value that goes with one of the statuses.
    static std::optional<std::string> shown(uint32_t status, const bwtree_bytes &old, uint32_t with_value) {
        if (status != with_value) return std::nullopt;
        return std::string(detail::text(old));
    }
    // What a call with an expected value found.
    static compared found(uint32_t status, const bwtree_bytes &old) { return {status == BWTREE_OK, shown(status, old, BWTREE_DIFFERS)}; }

    template <class Each> static bool goes_on(Each &each, std::string_view key, std::string_view value) {
        if constexpr (std::is_void_v<decltype(each(key, value))>) {
            each(key, value);
            return true;
        } else {
            return bool(each(key, value));
        }
    }
    template <class Each> void walked(const range &keys, int backward, Each &each) {
        auto walk = std::make_unique<bwtree_walk>();
        bwtree_pair next;
        uint32_t status;
        detail::must(bwtree_walk_begin(walk.get(), &keys.raw_, backward));
        while ((status = bwtree_walk_next(handle(), number_, walk.get(), &next)) == BWTREE_OK)
            if (!goes_on(each, detail::text(next.key), detail::text(next.value))) return;
        if (status != BWTREE_ABSENT) throw error(status);
    }
    std::optional<pair> near_by(uint32_t (*call)(const ::bwtree *, uint32_t, const void *, size_t, bwtree_pair *), std::string_view key) {
        bwtree_pair near;
        uint32_t status = call(handle(), number_, key.data(), key.size(), &near);
        if (status == BWTREE_ABSENT) return std::nullopt;
        detail::must(status);
        return pair(detail::text(near.key), detail::text(near.value));
    }

    std::shared_ptr<detail::shared> shared_;
    uint32_t number_;
    std::chrono::nanoseconds patience_{0};
};

// A walk for a loop: `for (auto [key, value] : seat.pairs())`, and an input range of C++20. Keys and values last until the next step. begin() is called once,
// after the last move. It and each step throw CLOSED, BUSY, NULL, as a walk does.
class [[nodiscard]] pairs {
public:
    class iterator {
    public:
        using iterator_category = std::input_iterator_tag;
        using iterator_concept = std::input_iterator_tag;
        using value_type = std::pair<std::string_view, std::string_view>;
        using difference_type = std::ptrdiff_t;
        using pointer = const value_type *;
        using reference = value_type;
        // the end
        iterator() noexcept = default;
        value_type operator*() const { return {detail::text(walk_->next_.key), detail::text(walk_->next_.value)}; }
        iterator &operator++() {
            if (!walk_->step()) walk_ = nullptr;
            return *this;
        }
        void operator++(int) { ++*this; }
        friend bool operator==(const iterator &one, const iterator &other) noexcept { return one.walk_ == other.walk_; }
        friend bool operator!=(const iterator &one, const iterator &other) noexcept { return !(one == other); }

    private:
        friend class pairs;
        explicit iterator(pairs *walk) noexcept : walk_(walk) {}
        pairs *walk_ = nullptr;
    };
    iterator begin() { return iterator(step() ? this : nullptr); }
    iterator end() noexcept { return iterator(nullptr); }

private:
    friend class seat;
    pairs(class seat &seat, const range &keys, int backward) : seat_(&seat), walk_(std::make_unique<bwtree_walk>()) {
        detail::must(bwtree_walk_begin(walk_.get(), &keys.raw_, backward));
    }
    bool step() {
        uint32_t status = bwtree_walk_next(seat_->handle(), seat_->number_, walk_.get(), &next_);
        if (status == BWTREE_ABSENT) return false;
        detail::must(status);
        return true;
    }
    class seat *seat_;
    std::unique_ptr<bwtree_walk> walk_;
    bwtree_pair next_ = {};
};

inline class pairs seat::pairs(const range &keys) { return bw::pairs(*this, keys, 0); }
inline class pairs seat::pairs_back(const range &keys) { return bw::pairs(*this, keys, 1); }

// An ordered map from byte strings to byte strings, which is moved and not copied. Each function throws CLOSED, of a tree that was moved from.
class tree {
public:
    // An empty tree. Throws BAD_LIMITS, NO_MEMORY, BAD_VERSION; and std::bad_alloc.
    explicit tree(const bwtree_limits &limits) : shared_(std::make_shared<detail::shared>()) {
        detail::must(bwtree_open(&limits, &shared_->handle));
        lend_all(limits);
    }
    // A tree with so many pairs, whose keys ascend, of std::string or std::string_view. Throws FULL or SPENT, where they don't all fit; BAD_ORDER,
    // TOO_LONG; and what an empty tree throws. No tree is open then.
    template <class Pairs> static tree from(const bwtree_limits &limits, const Pairs &pairs) {
        std::vector<bwtree_pair> given;
        for (const auto &[key, value] : pairs) given.push_back({detail::bytes_of(key), detail::bytes_of(value)});
        return tree(limits, given);
    }
    // A tree with so many seats, for so many different keys, all counted that it ever has. Throws what an empty tree throws.
    static tree for_keys(uint64_t seats, uint64_t keys) {
        bwtree_limits limits;
        detail::must(bwtree_limits_for_keys(seats, keys, &limits));
        return tree(limits);
    }
    // A large tree for up to 27 million different keys, in some 500 bytes each, and with several seats in 26 MB more if the keys are few. Throws what an empty tree
    // throws.
    static tree for_many_keys(uint64_t seats, uint64_t keys) {
        bwtree_limits limits;
        detail::must(bwtree_limits_for_many_keys(seats, keys, &limits));
        return tree(limits);
    }
    // A large tree for pairs whose keys and values mostly have at most so many bytes, of 16 and 8 in some 141 bytes a key, and 7 MB; longer pairs are taken,
    // too, as far as there is room. Throws what an empty tree throws.
    static tree for_pairs(uint64_t seats, uint64_t keys, uint64_t key_bytes, uint64_t value_bytes) {
        bwtree_limits limits;
        detail::must(bwtree_limits_for_pairs(seats, keys, key_bytes, value_bytes, &limits));
        return tree(limits);
    }
    tree(tree &&) noexcept = default;
    tree &operator=(tree &&other) noexcept {
        if (this != &other) {
            give_own_back();
            shared_ = std::move(other.shared_);
        }
        return *this;
    }
    ~tree() { give_own_back(); }

    // A seat; none where all are lent. Throws CLOSED, of a tree that was moved from.
    [[nodiscard]] std::optional<seat> try_lease() {
        if (!shared_) throw error(BWTREE_CLOSED);
        uint64_t free = shared_->free;
        while (free) {
            uint64_t lowest = free & (~free + 1);
            uint32_t number = 0;
            while (lowest >> number != 1) number++;
            if (shared_->free.compare_exchange_weak(free, free & ~lowest)) return seat(shared_, number);
        }
        return std::nullopt;
    }
    // A seat. Throws BUSY, where all are lent; CLOSED, of a tree that was moved from.
    [[nodiscard]] seat lease() {
        if (auto free = try_lease()) return std::move(*free);
        throw error(BWTREE_BUSY);
    }
    // The calling thread's own seat: leased by the thread's first such call, and given back when the thread ends, or when it closes the tree or lets the object
    // go. Until then it keeps the tree open. Throws BUSY, where the thread has none and all are lent; CLOSED, of a tree that was moved from; and
    // std::bad_alloc.
    [[nodiscard]] seat &local() {
        if (!shared_) throw error(BWTREE_CLOSED);
        thread_local own_seats own;
        auto found = own.seats.find(shared_.get());
        if (found == own.seats.end()) {
            // trees that nobody else has are closed
            for (auto it = own.seats.begin(); it != own.seats.end();) it = it->second.shared_.use_count() == 1 ? own.seats.erase(it) : std::next(it);
            found = own.seats.emplace(shared_.get(), lease()).first;
        }
        return found->second;
    }
    // How many keys the tree has: exact when no call is under way; otherwise it may lack some calls that are. Throws CLOSED, of a tree that was moved from.
    [[nodiscard]] uint64_t size() const {
        if (!shared_) throw error(BWTREE_CLOSED);
        return bwtree_counted(&shared_->count);
    }
    // Closes the tree, after giving back the calling thread's own seat. Throws BUSY, where a seat is lent: the tree stays open; CLOSED, where it is closed.
    void close() {
        give_own_back();
        all_seats all(shared_);
        detail::must(bwtree_close(&all.shared->handle));
    }
    // Closes the tree as close() does, and hands its pairs over, keys ascending. Throws BUSY, CLOSED, as close() does; NO_MEMORY: the tree stays open; and
    // std::bad_alloc, from which on the pairs wait for the next such call.
    [[nodiscard]] std::vector<pair> close_with_pairs() {
        give_own_back();
        all_seats all(shared_);
        std::vector<bwtree_pair> &left = all.shared->left;
        if (left.empty()) {
            std::vector<bwtree_pair> raw;
            uint64_t count = 0;
            uint32_t status;
            while ((status = bwtree_close_pairs(&all.shared->handle, raw.data(), raw.size(), &count)) == BWTREE_NO_ROOM) raw.resize(size_t(count));
            detail::must(status);
            left.swap(raw);
        }
        std::vector<pair> pairs;
        pairs.reserve(left.size());
        for (const auto &[key, value] : left) pairs.emplace_back(detail::text(key), detail::text(value));
        std::vector<bwtree_pair>().swap(left);
        return pairs;
    }

private:
    tree(const bwtree_limits &limits, const std::vector<bwtree_pair> &pairs) : shared_(std::make_shared<detail::shared>()) {
        detail::must(bwtree_open_from(&limits, pairs.data(), pairs.size(), &shared_->handle));
        bwtree_count_more(&shared_->count, 0, int64_t(pairs.size()));
        lend_all(limits);
    }
    // The calling thread's own seats, and where they are, as long as they are.
    struct own_seats {
        std::map<const detail::shared *, seat> seats;
        own_seats() { current() = this; }
        own_seats(const own_seats &) = delete;
        own_seats &operator=(const own_seats &) = delete;
        ~own_seats() { current() = nullptr; }
        static own_seats *&current() noexcept {
            thread_local own_seats *own = nullptr;
            return own;
        }
    };
    void give_own_back() noexcept {
        if (own_seats *own = own_seats::current()) own->seats.erase(shared_.get());
    }
    // All seats of a tree, for who closes it.
    struct all_seats {
        std::shared_ptr<detail::shared> shared;
        explicit all_seats(std::shared_ptr<detail::shared> of) : shared(std::move(of)) {
            if (!shared) throw error(BWTREE_CLOSED);
            uint64_t all = shared->all;
            if (!shared->free.compare_exchange_strong(all, 0)) throw error(BWTREE_BUSY);
        }
        all_seats(const all_seats &) = delete;
        all_seats &operator=(const all_seats &) = delete;
        ~all_seats() { shared->free.store(shared->all); }
    };
    void lend_all(const bwtree_limits &limits) {
        shared_->limits = limits;
        shared_->all = (uint64_t(1) << limits.actors) - 1;
        shared_->free = shared_->all;
    }
    std::shared_ptr<detail::shared> shared_;
};

} // namespace bw
#endif
