// What YCSB does to a map: its keys, how they are drawn, and the mixes of its workloads.
#ifndef WORKLOAD_HPP
#define WORKLOAD_HPP

#include <cmath>
#include <cstdint>
#include <cstdio>
#include <cstdlib>
#include <string>
#include <vector>

inline void must(bool holds, const char *what) {
    if (holds) return;
    fprintf(stderr, "ycsb: %s\n", what);
    exit(1);
}

// Scatters a number (splitmix64).
inline uint64_t mixed(uint64_t number) {
    number += 0x9E3779B97F4A7C15ull;
    number = (number ^ (number >> 30)) * 0xBF58476D1CE4E5B9ull;
    number = (number ^ (number >> 27)) * 0x94D049BB133111EBull;
    return number ^ (number >> 31);
}

struct Random {
    uint64_t state;
    uint64_t next() {
        state ^= state << 13, state ^= state >> 7, state ^= state << 17;
        return state;
    }
};

// ---- Keys ----

// A key's bytes lie in the key, so an array of drawn keys is read from the front to the end, and a draw costs no cache miss.
struct Key {
    static constexpr int ROOM = 47;
    char bytes[ROOM] = {};
    uint8_t length = 0;
    size_t size() const { return length; }
    std::string text() const { return std::string(bytes, length); }
};

enum class KeyKind { MONO_INT, RAND_INT, EMAIL };
inline const char *const KIND_NAMES[] = {"mono-int", "rand-int", "email"};

// Eight bytes, the highest first.
inline Key integer(uint64_t number) {
    Key key;
    key.length = 8;
    for (int i = 0; i < 8; i++) key.bytes[i] = char(number >> (56 - 8 * i));
    return key;
}

// 17 to 47 bytes, as users' addresses are: few first and last names, a number that makes each different, and few hosts.
inline Key email(uint64_t number) {
    static const char *const FIRST[] = {"anna", "ben", "carla", "david", "elena", "frank", "greta", "hugo",
                                        "irina", "jonas", "klara", "lukas", "maria", "nils", "olga", "paul"};
    static const char *const LAST[] = {"meier",    "schmidt", "rossi",        "dubois", "novak",   "garcia",
                                       "kowalski", "jensen",  "papadopoulos", "silva",  "ivanova", "nakamura"};
    static const char *const HOST[] = {"gmail.com", "yahoo.com", "hotmail.com", "web.de", "gmx.net", "aol.com", "uni-freiburg.de", "mail.ru"};
    uint64_t drawn = mixed(number);
    std::string text = std::string(FIRST[drawn % 16]) + "." + LAST[(drawn >> 8) % 12] + std::to_string(number) + "@" + HOST[(drawn >> 16) % 8];
    must(text.size() <= Key::ROOM, "an address is too long");
    Key key;
    key.length = uint8_t(text.copy(key.bytes, Key::ROOM));
    return key;
}

// The key that is inserted as the one of this number: integers that ascend, the same scattered, or addresses.
inline Key key_of(KeyKind kind, uint64_t number) {
    return kind == KeyKind::EMAIL ? email(number) : integer(kind == KeyKind::RAND_INT ? mixed(number) : number);
}

inline std::vector<Key> keys_of(KeyKind kind, uint64_t count) {
    std::vector<Key> keys;
    keys.reserve(count);
    for (uint64_t i = 0; i < count; i++) keys.push_back(key_of(kind, i));
    return keys;
}

// ---- Draws ----

enum class Distribution { UNIFORM, ZIPF };
inline const char *const DISTRIBUTION_NAMES[] = {"uniform", "zipf"};

// Ranks by Zipf's distribution of 0.99, by Gray et al. as in YCSB: rank 0 most often.
class Zipf {
    static constexpr double THETA = 0.99;
    double count, zeta = 0, two = 1 + std::pow(0.5, THETA), eta;

public:
    explicit Zipf(uint64_t count) : count(double(count)) {
        for (uint64_t i = 1; i <= count; i++) zeta += 1 / std::pow(double(i), THETA);
        eta = (1 - std::pow(2 / this->count, 1 - THETA)) / (1 - two / zeta);
    }
    uint64_t rank(Random &random) const {
        double drawn = double(random.next() >> 11) / double(uint64_t(1) << 53), part = drawn * zeta;
        if (part < 1) return 0;
        if (part < two) return 1;
        return uint64_t(count * std::pow(eta * drawn - eta + 1, 1 / (1 - THETA)));
    }
};

constexpr uint64_t DRAWS = 1 << 20;

// So many keys among the first ones, drawn, in a row. Zipf's ranks are scattered over the keys, so that those drawn often don't lie beside one another.
inline std::vector<Key> draw(const std::vector<Key> &keys, uint64_t count, Distribution distribution) {
    Random random{88172645463325252ull};
    std::vector<Key> drawn;
    drawn.reserve(DRAWS);
    Zipf zipf(distribution == Distribution::ZIPF ? count : 1);
    for (uint64_t i = 0; i < DRAWS; i++) drawn.push_back(keys[(distribution == Distribution::ZIPF ? mixed(zipf.rank(random)) : random.next() >> 1) % count]);
    return drawn;
}

// ---- Mixes ----

// Of a hundred operations, how many are of each kind.
struct Workload {
    char name;
    unsigned reads, updates, changes, scans, inserts;
};

// In the order in which they are run: E comes last, since it inserts.
constexpr Workload WORKLOADS[] = {{'C', 100, 0, 0, 0, 0}, {'B', 95, 5, 0, 0, 0}, {'A', 50, 50, 0, 0, 0}, {'F', 50, 0, 50, 0, 0}, {'E', 0, 0, 0, 95, 5}};
constexpr unsigned MOST_SCANNED = 100;

#endif
