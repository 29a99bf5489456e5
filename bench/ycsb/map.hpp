// A map that is measured: what each of them does, and a cell of the table.
#ifndef MAP_HPP
#define MAP_HPP

#include "workload.hpp"
#include <algorithm>
#include <atomic>
#include <chrono>
#include <filesystem>
#include <functional>
#include <thread>

// How many operations were done in what time, and the latency in nanoseconds below which 50, 99 and 99.9 in 100 of the measured ones stayed.
struct Cell {
    uint64_t operations = 0, p50 = 0, p99 = 0, p999 = 0;
    double seconds = 0;
    double rate() const { return double(operations) / seconds; }
};

// Latency is that of every 16th operation, so that the clock takes little of the throughput.
class Latencies {
    using Clock = std::chrono::steady_clock;
    std::vector<uint32_t> all;

public:
    static constexpr uint64_t EVERY = 16;
    template <class Operation> void time(uint64_t number, Operation operation) {
        if (number % EVERY) return operation();
        auto begin = Clock::now();
        operation();
        auto taken = std::chrono::duration_cast<std::chrono::nanoseconds>(Clock::now() - begin).count();
        all.push_back(uint32_t(std::min<int64_t>(taken, UINT32_MAX)));
    }
    void join(const Latencies &other) { all.insert(all.end(), other.all.begin(), other.all.end()); }
    void summarize(Cell &cell) {
        std::sort(all.begin(), all.end());
        if (all.empty()) return;
        cell.p50 = all[all.size() / 2], cell.p99 = all[all.size() * 99 / 100], cell.p999 = all[all.size() * 999 / 1000];
    }
};

// Keeps a sum from being left out.
inline void use(uint64_t sum) { asm volatile("" : : "r"(sum)); }

// A folder in memory, which goes with this.
struct Folder {
    std::string path;
    explicit Folder(const char *name) {
        std::string pattern = std::string("/dev/shm/ycsb-") + name + "-XXXXXX";
        must(mkdtemp(pattern.data()) != nullptr, "no folder in /dev/shm");
        path = pattern;
    }
    ~Folder() { std::filesystem::remove_all(path); }
};

class Map {
    // What each thread does with its number and its latencies, as one cell.
    static Cell measured(int threads, const std::function<uint64_t(int, Latencies &)> &work) {
        std::vector<Latencies> latencies{size_t(threads)};
        std::vector<std::thread> all;
        std::atomic<uint64_t> total{0};
        auto begin = std::chrono::steady_clock::now();
        for (int thread = 0; thread < threads; thread++) all.emplace_back([&, thread] { total += work(thread, latencies[size_t(thread)]); });
        for (auto &it : all) it.join();
        Cell cell;
        cell.seconds = std::chrono::duration<double>(std::chrono::steady_clock::now() - begin).count();
        cell.operations = total;
        for (size_t i = 1; i < latencies.size(); i++) latencies[0].join(latencies[i]);
        latencies[0].summarize(cell);
        return cell;
    }

    // One operation of a workload, at a drawn key.
    void operate(int thread, const Workload &workload, const Key &key, uint64_t random, const std::vector<Key> &keys, uint64_t count) {
        unsigned die = unsigned((random >> 33) % 100);
        uint64_t value = 0;
        if (die < workload.reads) must(get(thread, key, value), "a key is missing");
        else if ((die -= workload.reads) < workload.updates) update(thread, key, random);
        else if ((die -= workload.updates) < workload.changes) must(get(thread, key, value), "a key is missing"), update(thread, key, value + 1);
        else if ((die -= workload.changes) < workload.scans) must(scan(thread, key, 1 + unsigned((random >> 45) % MOST_SCANNED)) > 0, "a scan is empty");
        else insert(thread, keys[count + fresh++ % (keys.size() - count)], random);
        use(value);
    }

    std::atomic<uint64_t> fresh{0}; // of the keys that are inserted while it runs

public:
    virtual ~Map() = default;
    virtual const char *name() const = 0;
    virtual void insert(int thread, const Key &key, uint64_t value) = 0;
    virtual void update(int thread, const Key &key, uint64_t value) = 0;
    virtual bool get(int thread, const Key &key, uint64_t &value) = 0;
    // How many pairs it read from a key on, so many at most.
    virtual unsigned scan(int thread, const Key &from, unsigned most) = 0;
    // How many writes were refused, and made again.
    virtual uint64_t refused() const { return 0; }

    // Inserts the first keys. Threads take 64 at a time, so that ascending keys come nearly in order.
    virtual Cell load(const std::vector<Key> &keys, uint64_t count, int threads) {
        std::atomic<uint64_t> next{0};
        return measured(threads, [&](int thread, Latencies &latencies) {
            constexpr uint64_t PART = 64;
            uint64_t done = 0;
            for (uint64_t from; (from = next.fetch_add(PART)) < count;)
                for (uint64_t i = from; i < std::min(from + PART, count); i++, done++) latencies.time(i, [&] { insert(thread, keys[i], i); });
            return done;
        });
    }

    // Runs a workload over the first keys for so many milliseconds; those behind them are inserted.
    virtual Cell run(const Workload &workload, const std::vector<Key> &drawn, const std::vector<Key> &keys, uint64_t count, int threads, int milliseconds) {
        auto end = std::chrono::steady_clock::now() + std::chrono::milliseconds(milliseconds);
        return measured(threads, [&](int thread, Latencies &latencies) {
            Random random{362436069ull + uint64_t(thread) * 7919};
            uint64_t done = 0, at = uint64_t(thread) * (DRAWS / 4);
            do latencies.time(done++, [&] { operate(thread, workload, drawn[at++ % DRAWS], random.next(), keys, count); });
            while (done % Latencies::EVERY || std::chrono::steady_clock::now() < end);
            return done;
        });
    }
};

#endif
