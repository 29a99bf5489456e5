// bwtree_keys.hpp: bwtree_keys.h for C++17: keys of numbers and texts that sort as these do.
//
//     std::string key = bw::key("Bern", uint64_t(7));
//     auto [city, id] = bw::parts<std::string, uint64_t>(key).value();
#ifndef BWTREE_KEYS_HPP
#define BWTREE_KEYS_HPP

#include "bwtree.hpp"
#include "bwtree_keys.h"
#include <tuple>

namespace bw {
namespace detail {

inline uint32_t put_part(bwtree_bytes &key, uint64_t part) { return bwtree_key_u64(&key, part); }
inline uint32_t put_part(bwtree_bytes &key, int64_t part) { return bwtree_key_i64(&key, part); }
inline uint32_t put_part(bwtree_bytes &key, double part) { return bwtree_key_f64(&key, part); }
inline uint32_t put_part(bwtree_bytes &key, std::string_view part) { return bwtree_key_text(&key, part.data(), part.size()); }

inline bool read_part(const bwtree_bytes &key, size_t &at, uint64_t &part) { return bwtree_read_u64(&key, &at, &part); }
inline bool read_part(const bwtree_bytes &key, size_t &at, int64_t &part) { return bwtree_read_i64(&key, &at, &part); }
inline bool read_part(const bwtree_bytes &key, size_t &at, double &part) { return bwtree_read_f64(&key, &at, &part); }
inline bool read_part(const bwtree_bytes &key, size_t &at, std::string &part) {
    bwtree_bytes read;
    if (!bwtree_read_text(&key, &at, &read)) return false;
    part = text(read);
    return true;
}

} // namespace detail

// A key of these parts, each a uint64_t, an int64_t, a double or a text. Throws error(BWTREE_TOO_LONG) where they take more than 64 bytes.
template <class... Parts> std::string key(const Parts &...parts) {
    bwtree_bytes made = {0, {0}};
    (detail::must(detail::put_part(made, parts)), ...);
    return std::string(detail::text(made));
}

// A text without its end: the keys whose text begins with it begin with these bytes. Throws error(BWTREE_TOO_LONG) where they are more than 64.
inline std::string text_start(std::string_view text) {
    bwtree_bytes made = {0, {0}};
    detail::must(bwtree_key_text_start(&made, text.data(), text.size()));
    return std::string(detail::text(made));
}

// The parts of a key, each a uint64_t, an int64_t, a double or a std::string; none where it has others.
template <class... Parts> std::optional<std::tuple<Parts...>> parts(std::string_view key) {
    if (key.size() > BWTREE_MAX_LENGTH) return std::nullopt;
    bwtree_bytes bytes = detail::bytes_of(key);
    std::tuple<Parts...> read;
    size_t at = 0;
    bool all = std::apply([&](auto &...part) { return (detail::read_part(bytes, at, part) && ...); }, read);
    if (!all || at != bytes.length) return std::nullopt;
    return read;
}

} // namespace bw
#endif
