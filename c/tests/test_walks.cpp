// Tests of bwtree.hpp's walks and neighbours, additions, deletions by value and counts, and of bwtree_keys.hpp, against a std::map and a sort.
#include "bwtree_keys.hpp"
#include <algorithm>
#include <cstdio>
#include <cstdlib>
#include <iterator>
#include <map>
#include <random>
#include <thread>

// clang reads the ranges of GCC's library from 16 on.
#if __cplusplus >= 202002L && !(defined(__clang__) && __clang_major__ < 16)
#define HAS_RANGES 1
#include <concepts>
#include <ranges>
#endif

#define CHECK(x) do { if (!(x)) { fprintf(stderr, "%s:%d: %s\n", __FILE__, __LINE__, #x); exit(1); } } while (0)

using pairs = std::vector<bw::pair>;

template <class Call> static uint32_t thrown(Call call) {
    try {
        call();
    } catch (const bw::error &error) {
        return error.status();
    }
    return 0;
}

static void answers() {
    auto tree = bw::tree::for_keys(2, 100);
    auto one = tree.lease(), other = tree.lease();
    const std::string longer(65, 'k');
    CHECK(!one.replace("a", "x") && !one.get("a") && one.insert("a", "x") && *other.replace("a", "y") == "x" && *one.get("a") == "y");
    CHECK(!one.erase_if("a", "x") && *one.erase_if("a", "x").found == "y" && !one.erase_if("b", "x").found && tree.size() == 1);
    CHECK(other.erase_if("a", "y") && !other.get("a") && tree.size() == 0);
    auto first = one.add("n", 5), second = other.add("n", UINT64_MAX);
    CHECK(first && !first.old && second && *second.old == 5 && *one.get("n") == bw::key(uint64_t(4)) && tree.size() == 1);
    one.upsert("n", "text");
    auto third = one.add("n", 1);
    CHECK(!third && !third.old && *third.found == "text");
    CHECK(thrown([&] { (void)one.add(longer, 1); }) == BWTREE_TOO_LONG && thrown([&] { (void)one.erase_if("a", longer); }) == BWTREE_TOO_LONG);
    CHECK(thrown([&] { (void)one.floor(longer); }) == BWTREE_TOO_LONG && thrown([&] { one.replace("n", longer); }) == BWTREE_TOO_LONG);
    CHECK(thrown([&] { bw::range::below(longer); }) == BWTREE_TOO_LONG && thrown([&] { bw::range::prefix(longer); }) == BWTREE_TOO_LONG);
    auto moved = std::move(one);
    CHECK(thrown([&] { (void)one.add("a", 1); }) == BWTREE_NULL && thrown([&] { (void)one.last(); }) == BWTREE_NULL && moved.last()->first == "n");
}

static pairs shown(bw::seat &seat, const bw::range &range, bool back) {
    pairs found;
    auto each = [&](auto key, auto value) { return found.emplace_back(key, value), true; };
    if (back) seat.walk_back(range, each);
    else seat.walk(range, each);
    return found;
}

#ifdef HAS_RANGES
static_assert(std::ranges::input_range<class bw::pairs> && std::movable<class bw::pairs>);

// Pairs are a range of C++20, which adaptors take.
static void ranges() {
    auto tree = bw::tree::for_keys(1, 100);
    auto seat = tree.lease();
    for (char c = 'a'; c < 'j'; c++) seat.upsert(std::string(1, c), std::string(1, char(c - 32)));
    std::string found;
    auto is_odd = [](const auto &pair) { return pair.first[0] % 2 == 1; };
    for (auto [key, value] : seat.pairs(bw::range::from("b")) | std::views::filter(is_odd) | std::views::take(3)) found += value;
    CHECK(found == "CEG");
    auto back = seat.pairs_back();
    CHECK(std::ranges::find(back, std::string_view("D"), [](const auto &pair) { return pair.second; }) != back.end());
}
#else
static void ranges() {}
#endif

static void walks() {
    std::mt19937 draw(3);
    std::map<std::string, std::string> model;
    auto tree = bw::tree::for_keys(1, 1000);
    auto seat = tree.lease();
    auto drawn = [&] {
        std::string key(draw() % 6, 0);
        for (char &c : key) c = "\0\1ab\377"[draw() % 5];
        return key;
    };
    CHECK(!seat.first() && !seat.last());
    for (int i = 0; i < 600; i++) {
        std::string key = drawn();
        CHECK(bool(seat.insert(key, key + "v")) == model.emplace(key, key + "v").second);
    }
    auto is = [&](const std::optional<bw::pair> &found, auto place, bool none) {
        return none ? !found : found && found->first == place->first && found->second == place->second;
    };
    CHECK(tree.size() == model.size() && is(seat.first(), model.begin(), false) && is(seat.last(), std::prev(model.end()), false));
    auto same = [&](const bw::range &range, auto from, auto to) {
        pairs wanted(from, to), falling = wanted;
        std::reverse(falling.begin(), falling.end());
        CHECK(shown(seat, range, false) == wanted && shown(seat, range, true) == falling);
    };
    same(bw::range::all(), model.begin(), model.end());
    for (int i = 0; i < 200; i++) {
        std::string one = drawn(), other = drawn();
        auto at = model.lower_bound(one), behind = model.upper_bound(one);
        CHECK(is(seat.ceiling(one), at, at == model.end()) && is(seat.higher(one), behind, behind == model.end()));
        CHECK(at == model.begin() ? !seat.lower(one) : is(seat.lower(one), std::prev(at), false));
        CHECK(behind == model.begin() ? !seat.floor(one) : is(seat.floor(one), std::prev(behind), false));
        same(bw::range::from(one), at, model.end());
        same(bw::range::below(one), model.begin(), at);
        same(bw::range::between(one, other), at, one < other ? model.lower_bound(other) : at);
        auto to = at;
        while (to != model.end() && to->first.compare(0, one.size(), one) == 0) ++to;
        same(bw::range::prefix(one), at, to);
    }
    int calls = 0;
    seat.walk_back(bw::range::all(), [&](auto, auto) { return ++calls < 3; });
    CHECK(calls == 3);
}

static void keys() {
    using parts = std::tuple<std::string, int64_t, double, uint64_t>;
    std::mt19937_64 draw(5);
    std::vector<std::pair<parts, std::string>> all;
    for (int i = 0; i < 2000; i++) {
        std::string text(draw() % 4, 0);
        for (char &c : text) c = "\0\1ab"[draw() % 4];
        parts it{text, int64_t(draw()) >> draw() % 64, double(int64_t(draw() % 7) - 3) / 4, draw() >> draw() % 64};
        std::string key = bw::key(text, std::get<1>(it), std::get<2>(it), std::get<3>(it));
        CHECK((bw::parts<std::string, int64_t, double, uint64_t>(key) == it));
        all.emplace_back(it, key);
    }
    std::sort(all.begin(), all.end());
    for (size_t i = 1; i < all.size(); i++) CHECK((all[i - 1].first < all[i].first) == (all[i - 1].second < all[i].second));
    CHECK(bw::key("a", uint64_t(1)) == std::string("a\0\0\0\0\0\0\0\0\0\1", 11) && bw::text_start(std::string("a\0", 2)) == std::string("a\0\377", 3));
    CHECK(!bw::parts<uint64_t>("1234567") && !bw::parts<uint64_t>("123456789") && !bw::parts<std::string>("a") && !bw::parts<uint64_t>(std::string(65, 0)));
    CHECK(thrown([] { bw::key(std::string(63, 'k')); }) == BWTREE_TOO_LONG && bw::key(std::string(62, 'k')).size() == 64);
}

static void counts() {
    auto tree = bw::tree::for_keys(4, 2000);
    std::vector<std::thread> threads;
    for (int t = 0; t < 4; t++)
        threads.emplace_back([&tree, t] {
            auto seat = tree.lease();
            auto again = [&](auto call) {
                while (thrown(call) == BWTREE_FULL) std::this_thread::yield();
            };
            for (uint64_t i = 0; i < 1000; i++) {
                again([&] { (void)seat.add("sum", i); });
                again([&] { seat.upsert(bw::key(uint64_t(t), i % 90), "x"); });
                again([&] { seat.erase(bw::key(uint64_t(t), i * 7 % 90)); });
            }
        });
    for (auto &thread : threads) thread.join();
    auto seat = tree.lease();
    CHECK(*seat.get("sum") == bw::key(uint64_t(4 * 999 * 1000 / 2)) && shown(seat, bw::range::all(), true).size() == tree.size());
    auto given = bw::tree::from(bwtree_limits{1, 64, 256, 1, 0}, pairs{{"a", "x"}, {"b", "y"}});
    CHECK(given.size() == 2 && given.lease().erase("a") && given.size() == 1);
}

// Loops over pairs, and lookups that take no memory.
static void loops() {
    auto tree = bw::tree::for_keys(1, 1000);
    auto seat = tree.lease();
    std::string forward, backward;
    for (auto [key, value] : seat.pairs()) CHECK(key == value && key.empty());
    for (char c = 'a'; c <= 'z'; c++)
        for (char d = 'a'; d <= 'e'; d++) seat.upsert(std::string{c, d}, std::string(1, c));
    for (auto [key, value] : seat.pairs()) {
        CHECK(key.substr(0, 1) == value);
        forward += key;
    }
    CHECK(forward.size() == 26 * 5 * 2 && forward.substr(0, 4) == "aaab" && forward.substr(256) == "zdze");
    for (auto [key, value] : seat.pairs_back(bw::range::between("b", "d"))) backward += key;
    CHECK(backward == "cecdcccbcabebdbcbbba");
    auto two = seat.pairs(bw::range::prefix("c"));
    auto at = two.begin();
    CHECK((*at).first == "ca" && (*++at).first == "cb" && at != two.end() && two.end() == two.end());
    bwtree_bytes bytes;
    CHECK(seat.contains("aa") && !seat.contains("a") && seat.get("zz", bytes) == std::nullopt && seat.get("ze", bytes) == "z");
}

int main() {
    loops();
    answers();
    walks();
    ranges();
    keys();
    counts();
    puts("passed");
}
