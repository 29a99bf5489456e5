// Tests of bwtree.hpp: what it answers and throws, leases, a tree that is moved, and threads.
#include "bwtree.hpp"
#include <atomic>
#include <chrono>
#include <cstdio>
#include <cstdlib>
#include <malloc.h>
#include <new>
#include <sys/resource.h>
#include <thread>
#include <unistd.h>
#include <vector>

#define CHECK(x) do { if (!(x)) { fprintf(stderr, "%s:%d: %s\n", __FILE__, __LINE__, #x); exit(1); } } while (0)

// Where races are looked for, operator new is the sanitizer's own.
#if defined(__SANITIZE_THREAD__)
#define HAS_OWN_NEW 0
#elif defined(__has_feature)
#if __has_feature(thread_sanitizer)
#define HAS_OWN_NEW 0
#endif
#endif

#ifndef HAS_OWN_NEW
#define HAS_OWN_NEW 1
// How many growths of the program's own memory there are until one is refused; 0: none is.
static long growths = 0;

[[gnu::noinline]] void *operator new(size_t size) {
    void *bytes = growths && --growths == 0 ? nullptr : malloc(size);
    if (!bytes) throw std::bad_alloc();
    return bytes;
}
[[gnu::noinline]] void operator delete(void *bytes) noexcept { free(bytes); }
[[gnu::noinline]] void operator delete(void *bytes, size_t) noexcept { free(bytes); }
#endif

template <class Call> static uint32_t thrown(Call call) {
    try {
        call();
    } catch (const bw::error &error) {
        CHECK(std::string(error.what()) == bwtree_text(error.status()));
        return error.status();
    }
    return 0;
}

static void answers() {
    auto tree = bw::tree::for_keys(2, 100);
    auto one = tree.lease(), other = tree.lease();
    const std::string longer(65, 'k');
    CHECK(one.number() == 0 && other.number() == 1);
    CHECK(!one.get("a") && one.insert("a", "x") && !other.insert("a", "y") && other.insert("a", "y").found == "x" && *one.upsert("a", "z") == "x" && !one.upsert("", ""));
    auto lost = one.compare_and_set("a", "x", "w");
    CHECK(!lost && *lost.found == "z" && one.compare_and_set("a", "z", "w") && *other.get("a") == "w" && one.get("")->empty());
    CHECK(!one.compare_and_set("b", "x", "w") && !one.compare_and_set("b", "x", "w").found && *one.erase("a") == "w" && !one.erase("a"));
    one.tidy("a");
    CHECK(one.free_room().free_records > 0);
    CHECK(thrown([&] { (void)one.get(longer); }) == BWTREE_TOO_LONG && thrown([&] { one.upsert("a", longer); }) == BWTREE_TOO_LONG);
    CHECK(thrown([&] { one.walk(longer, [](auto, auto) { return true; }); }) == BWTREE_TOO_LONG);
    CHECK(thrown([] { bw::tree::for_keys(17, 1); }) == BWTREE_BAD_LIMITS);
    CHECK(thrown([] { bw::tree::for_many_keys(64, 1); }) == BWTREE_BAD_LIMITS && !bw::tree::for_many_keys(1, 100).lease().get("a"));
    CHECK(thrown([] { bw::tree::for_pairs(1, 1, 65, 8); }) == BWTREE_BAD_LIMITS && !bw::tree::for_pairs(1, 100, 16, 8).lease().get("a"));
    CHECK(thrown([] { bw::tree(bwtree_limits{1, 63, 64, 1, 0}); }) == BWTREE_BAD_LIMITS);
}

static void loads() {
    const bwtree_limits limits = {2, 64, 256, 1, 0};
    std::vector<std::pair<std::string, std::string>> pairs = {{"a", "x"}, {"b", ""}, {"c", "z"}}, found;
    bw::tree::from(limits, pairs).lease().walk("", [&](auto key, auto value) { return found.emplace_back(key, value), true; });
    CHECK(found == pairs && !bw::tree::from(limits, decltype(pairs)()).lease().get("a"));
    std::swap(pairs[0], pairs[1]);
    CHECK(thrown([&] { bw::tree::from(limits, pairs); }) == BWTREE_BAD_ORDER);
    std::swap(pairs[0], pairs[1]);
    auto tree = bw::tree::from(limits, pairs);
    {
        auto seat = tree.lease();
        CHECK(thrown([&] { (void)tree.close_with_pairs(); }) == BWTREE_BUSY && *seat.erase("b") == "");
    }
    pairs.erase(pairs.begin() + 1);
    CHECK(tree.close_with_pairs() == pairs && thrown([&] { (void)tree.close_with_pairs(); }) == BWTREE_CLOSED);
    CHECK(thrown([&] { (void)tree.lease().get("a"); }) == BWTREE_CLOSED && bw::tree::for_keys(1, 100).close_with_pairs().empty());
    pairs[0].second = std::string(65, 'v');
    CHECK(thrown([&] { bw::tree::from(limits, pairs); }) == BWTREE_TOO_LONG);
}

#if HAS_OWN_NEW
// Where the program has no memory for the pairs of a closed tree, they wait for the next call.
static void refusals() {
    const bwtree_limits limits = {1, 64, 256, 1, 0};
    const std::vector<std::pair<std::string, std::string>> pairs = {{"a", std::string(60, 'x')}, {std::string(60, 'b'), "y"}};
    long refused = 0;
    for (bool is_told = false; !is_told;) {
        auto tree = bw::tree::from(limits, pairs), moved = std::move(tree);
        growths = ++refused;
        try {
            is_told = moved.close_with_pairs() == pairs;
            growths = 0;
            CHECK(is_told);
        } catch (const std::bad_alloc &) {
            CHECK(growths == 0 && moved.close_with_pairs() == pairs);
        }
        CHECK(thrown([&] { (void)moved.close_with_pairs(); }) == BWTREE_CLOSED);
    }
    CHECK(refused > 4);
}
#endif

// What malloc has given out, where it tells: a leak checker is to overlook what the library leaves.
static size_t held() {
#if defined(__GLIBC__) && (__GLIBC__ > 2 || __GLIBC_MINOR__ >= 33)
    auto counts = mallinfo2();
    return counts.uordblks + counts.hblkhd;
#else
    return 0;
#endif
}

// Trees are freed, of a megabyte each: by the last of the object and its seats, by a move over them, by close(), and with their pairs.
static void ends() {
    const bwtree_limits limits = {2, 64, 256, 1, 0};
    size_t before = held();
    {
        auto tree = bw::tree(limits);
        auto seat = tree.lease();
        (void)seat.insert("a", "x");
        tree = bw::tree(limits);
        seat = tree.lease();
        bw::tree(limits).close();
        (void)bw::tree(limits).close_with_pairs();
    }
    CHECK(held() < before + (size_t(1) << 18));
}

static void leases() {
    auto tree = bw::tree::for_keys(1, 100);
    {
        auto seat = tree.lease();
        (void)seat.insert("a", "x");
        CHECK(!tree.try_lease() && thrown([&] { (void)tree.lease(); }) == BWTREE_BUSY && thrown([&] { tree.close(); }) == BWTREE_BUSY);
        auto moved = std::move(seat);
        CHECK(*moved.get("a") == "x" && thrown([&] { (void)seat.get("a"); }) == BWTREE_NULL);
    }
    auto moved = std::move(tree);
    CHECK(thrown([&] { (void)tree.lease(); }) == BWTREE_CLOSED && *moved.lease().get("a") == "x");
    moved.close();
    CHECK(thrown([&] { (void)moved.lease().get("a"); }) == BWTREE_CLOSED && thrown([&] { moved.close(); }) == BWTREE_CLOSED);
    // a seat outlives its tree's object
    std::optional<bw::seat> last;
    {
        auto gone = bw::tree::for_keys(2, 100);
        last = gone.lease();
        (void)last->insert("a", "y");
    }
    CHECK(*last->get("a") == "y");
}

// A thread's own seat: the same in all its calls, another one in another thread, and given back when the thread ends or closes the tree.
static void own_seats() {
    auto tree = bw::tree::for_keys(2, 100);
    bw::seat *mine = &tree.local();
    (void)mine->insert("a", "x");
    for (int i = 0; i < 3; i++)
        std::thread([&] {
            bw::seat *own = &tree.local();
            CHECK(own != mine && own == &tree.local() && own->number() == 1 && *own->get("a") == "x");
            CHECK(thrown([&] { std::thread([&] { CHECK(thrown([&] { (void)tree.local(); }) == BWTREE_BUSY); }).join(); }) == 0);
        }).join();
    auto seat = tree.lease();
    CHECK(thrown([&] { tree.close(); }) == BWTREE_BUSY);
    { auto gone = std::move(seat); }
    (void)tree.local();
    auto moved = std::move(tree);
    CHECK(moved.local().number() < 2 && thrown([&] { (void)tree.local(); }) == BWTREE_CLOSED);
    CHECK(moved.close_with_pairs().size() == 1);
    // a tree that only a thread's own seat keeps is closed once that thread has an own seat of another one, or ends
    size_t before = held();
    std::thread([&] {
        for (int i = 0; i < 4; i++) {
            std::optional<bw::tree> next(bw::tree(bwtree_limits{1, 64, 256, 1, 0}));
            std::thread([&] { (void)next->local().get("a"); }).join();
            (void)next->local();
            std::thread([&] { next.reset(); }).join();
        }
    }).join();
    CHECK(held() < before + (size_t(1) << 18));
}

// What has memory refused: RLIMIT_AS a little above what the program has.
static void no_memory() {
    unsigned long pages = 0;
    FILE *file = fopen("/proc/self/statm", "r");
    if (!file) return;
    int read = fscanf(file, "%lu", &pages);
    fclose(file);
    rlimit was, less;
    CHECK(read == 1 && getrlimit(RLIMIT_AS, &was) == 0);
    less = was;
    less.rlim_cur = rlim_t(pages) * rlim_t(sysconf(_SC_PAGESIZE)) + (rlim_t(64) << 20);
    CHECK(setrlimit(RLIMIT_AS, &less) == 0);
    uint32_t status = thrown([] { bw::tree::for_many_keys(1, 1000000); });
    CHECK(setrlimit(RLIMIT_AS, &was) == 0 && status == BWTREE_NO_MEMORY);
}

// A seat that two threads use at once: each call is made, or throws BUSY and changes nothing.
static void two_in_a_seat() {
    auto tree = bw::tree::for_keys(1, 100);
    auto seat = tree.lease();
    std::atomic<int> done{0}, busy{0};
    auto use = [&] {
        while (busy == 0 && done < 10000000) {
            uint32_t status = thrown([&] { (void)seat.add("a", 1); });
            CHECK(status == 0 || status == BWTREE_BUSY || status == BWTREE_FULL);
            (status == BWTREE_BUSY ? busy : done) += status != BWTREE_FULL;
        }
    };
    std::thread other(use);
    use();
    other.join();
    CHECK(busy > 0 && *seat.add("a", 0).old == uint64_t(done));
}

// A write is told FULL while another thread stands still inside an operation: it is made again until that thread goes on.
static std::optional<std::string> upserted(bw::seat &seat, const std::string &key, const std::string &value) {
    for (;;) {
        try {
            return seat.upsert(key, value);
        } catch (const bw::error &error) {
            if (error.status() != BWTREE_FULL) throw;
            std::this_thread::yield();
        }
    }
}

static void threads() {
    auto tree = bw::tree::for_keys(4, 4000);
    std::vector<std::thread> all;
    for (int t = 0; t < 4; t++)
        all.emplace_back([t, &tree] {
            auto seat = tree.lease();
            for (int i = 0; i < 2000; i++) {
                auto old = upserted(seat, std::to_string(t) + "/" + std::to_string(i % 500), std::to_string(i));
                CHECK(i < 500 ? !old : *old == std::to_string(i - 500));
            }
            int seen = 0;
            seat.walk(std::to_string(t) + "/", [&](auto key, auto) { return key[0] - '0' == t && ++seen; });
            CHECK(seen == 500);
        });
    for (auto &thread : all) thread.join();
    // more threads than seats, one after another
    for (int t = 0; t < 8; t++) std::thread([&tree] { CHECK(tree.lease().get("0/0")); }).join();
}

// As many seats as a large tree lends at most.
static void most_seats() {
    auto tree = bw::tree::for_many_keys(BWTREE_MAX_SEATS, 100);
    {
        std::vector<bw::seat> seats;
        while (auto seat = tree.try_lease()) seats.push_back(std::move(*seat));
        CHECK(seats.size() == BWTREE_MAX_SEATS && seats.back().number() == BWTREE_MAX_SEATS - 1);
        for (auto &seat : seats) CHECK(seat.insert(std::string(1, char(seat.number())), "x"));
        CHECK(thrown([&] { tree.close(); }) == BWTREE_BUSY);
    }
    CHECK(tree.size() == BWTREE_MAX_SEATS && *tree.lease().get(std::string(1, char(BWTREE_MAX_SEATS - 1))) == "x");
    tree.close();
}

// A write waits as long as its seat's patience lasts: in vain where the tree is full for good.
static void waits() {
    auto tree = bw::tree(bwtree_limits{1, 64, 704, 1, 0});
    auto seat = tree.lease();
    uint32_t i = 0;
    CHECK(seat.full_hint() == BWTREE_FULL_PASSED);
    while (!thrown([&] { (void)seat.insert(std::to_string(i * 2654435761u), "x"); })) i++;
    auto begin = std::chrono::steady_clock::now();
    seat.set_patience(std::chrono::milliseconds(30));
    auto next = std::move(seat);
    CHECK(thrown([&] { (void)next.insert(std::to_string(i * 2654435761u), "x"); }) == BWTREE_FULL && next.full_hint() == BWTREE_FULL_FOR_GOOD);
    CHECK(std::chrono::steady_clock::now() - begin >= std::chrono::milliseconds(30));
    CHECK(thrown([&] { (void)seat.full_hint(); }) == BWTREE_NULL && next.get(std::to_string(0)) == "x");
}

// In a tree for short pairs that is filled with long ones no record of 512 words is free any more, though many narrower ones are.
static void hints_of_three_widths() {
    auto tree = bw::tree::for_pairs(1, 2000, 1, 1);
    auto seat = tree.lease();
    std::string rest(56, 'x');
    uint32_t i = 0;
    CHECK(seat.full_hint() == BWTREE_FULL_PASSED);
    uint32_t status = 0;
    while (!(status = thrown([&] { (void)seat.insert(std::to_string(10000000 + i * 7919 % 1000003) + rest, rest + rest.substr(0, 8)); }))) CHECK(i++ < 2000);
    CHECK(status == BWTREE_FULL && seat.free_room().free_pages && seat.free_room().free_records && seat.full_hint() == BWTREE_FULL_UNKNOWN);
}

int main() {
    answers();
    waits();
    hints_of_three_widths();
    loads();
    ends();
#if HAS_OWN_NEW
    refusals();
#endif
    leases();
    own_seats();
    // (the library of spent.c takes no seat before it runs an operation)
    if (!std::getenv("BWTREE_SPENT")) two_in_a_seat();
    no_memory();
    most_seats();
    threads();
    puts("passed");
}
