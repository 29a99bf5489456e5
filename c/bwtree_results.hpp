// bwtree_results.hpp: what bwtree.hpp returns and throws, and the ranges that it takes.
#ifndef BWTREE_RESULTS_HPP
#define BWTREE_RESULTS_HPP

#include "bwtree_walks.h"
#include <cstdint>
#include <optional>
#include <stdexcept>
#include <string>
#include <string_view>
#include <utility>

namespace bw {

// Why nothing was done: a status of bwtree.h from BWTREE_FULL on.
class error : public std::runtime_error {
public:
    explicit error(uint32_t status) : std::runtime_error(bwtree_text(status)), status_(status) {}
    uint32_t status() const noexcept { return status_; }

private:
    uint32_t status_;
};

// What an insertion found. It is true where the key had no value, and has the new one; else `found` is the value that the key has, and keeps.
struct [[nodiscard]] inserted {
    bool done;
    std::optional<std::string> found;
    explicit operator bool() const noexcept { return done; }
};

// What a compare-and-set or a deletion by value found. It is true where the value was the expected one, and is the new one or none now; else `found` is the
// value that the key has, if it has one.
struct [[nodiscard]] compared {
    bool done;
    std::optional<std::string> found;
    explicit operator bool() const noexcept { return done; }
};

// What an addition found. It is true where the number was added: to `old`, or to none where the key had no value. Else `found` is the key's value, which has
// not eight bytes.
struct [[nodiscard]] added {
    bool done;
    std::optional<uint64_t> old;
    std::optional<std::string> found;
    explicit operator bool() const noexcept { return done; }
};

using pair = std::pair<std::string, std::string>;

// The keys of a walk. Throws error(BWTREE_TOO_LONG) where a bound has more than 64 bytes.
class range {
public:
    static range all() { return range(); }
    static range from(std::string_view key) { return of(key, std::nullopt); }
    static range below(std::string_view key) { return of({}, key); }
    // The keys from one on, and below another one.
    static range between(std::string_view from, std::string_view below) { return of(from, below); }
    // The keys that begin with some bytes.
    static range prefix(std::string_view bytes) {
        range made;
        if (uint32_t status = bwtree_prefix(bytes.data(), bytes.size(), &made.raw_)) throw error(status);
        return made;
    }

private:
    friend class seat;
    friend class pairs;
    range() = default;
    static range of(std::string_view from, std::optional<std::string_view> below) {
        range made;
        const char *end = !below ? nullptr : below->empty() ? "" : below->data();
        if (uint32_t status = bwtree_between(from.data(), from.size(), end, below ? below->size() : 0, &made.raw_)) throw error(status);
        return made;
    }
    bwtree_range raw_ = {};
};

} // namespace bw
#endif
