// YCSB's load and its workloads A, B, C, E and F on the tree, by its C library, beside other ordered maps in memory: the same operations in turn.
//   ycsb KEYS MILLISECONDS CSV KINDS DISTRIBUTIONS THREADS [FOLDER OF SkipList.class]         ycsb 1000000 400 ycsb.csv mre uz 124
// Keys are those of the OpenBw-Tree's benchmark (Wang et al., SIGMOD 2018). KINDS are letters: m, integers of 8 bytes that ascend as they are inserted
// (mono-int); r, the same scattered (rand-int); e, email addresses of 17 to 47 bytes. Values have 8 bytes. DISTRIBUTIONS are u, uniform, and z, Zipf's of 0.99,
// whose ranks are scattered over the keys, as YCSB's are. THREADS are digits.
//   load  inserts of all keys      C  lookups      B  95 lookups, 5 updates      A  50 lookups, 50 updates
//   F     50 lookups, 50 times a lookup and an update of one key      E  95 scans of 1 to 100 pairs, 5 inserts of new keys
// Each map gets and returns keys as byte strings in their order. Drawn keys lie in a row, so that a draw costs no cache miss. One cell follows another:
// for a kind and a number of threads each map is loaded, and then each workload runs on all of them in turn. E comes last, as it alone makes maps greater.
//
// It prints a table for each kind: thousand operations a second of the tree, and how many times as fast others are. CSV has a line for each cell:
//   keys           mono-int, rand-int or email
//   count          how many keys are loaded
//   workload       load, A, B, C, E or F
//   distribution   uniform or zipf; of load, which draws none, none
//   threads        how many threads call at the same time
//   map            the map's name
//   operations, seconds, per_second      how many were done, in what time; one scan is one operation
//   p50_ns, p99_ns, p999_ns              latency in nanoseconds, of every 16th operation
//   refused        how many writes the map refused, and were made again (the tree's FULL), since it was opened
#include "maps/bwtree.hpp"
#include "maps/java.hpp"
#include "maps/olc.hpp"
#include "maps/std_map.hpp"
#include <memory>
#ifdef HAS_TBB
#include "maps/tbb.hpp"
#endif
#ifdef HAS_LMDB
#include "maps/lmdb.hpp"
#endif
#ifdef HAS_ROCKSDB
#include "maps/rocksdb.hpp"
#endif

using Maps = std::vector<std::unique_ptr<Map>>;

static Maps maps_for(KeyKind kind, uint64_t keys, int threads, const char *classes) {
    Maps maps;
    maps.emplace_back(new Bwtree(keys, threads));
    maps.emplace_back(new Olc);
#ifdef HAS_TBB
    maps.emplace_back(new Tbb<StringKey>("TBB concurrent_map, std::string"));
    if (kind == KeyKind::EMAIL) maps.emplace_back(new Tbb<InlineKey<6>>("TBB concurrent_map, 48 bytes inline"));
    else maps.emplace_back(new Tbb<InlineKey<2>>("TBB concurrent_map, 16 bytes inline"));
#endif
    maps.emplace_back(new StdMap);
#ifdef HAS_LMDB
    maps.emplace_back(new Lmdb);
#endif
#ifdef HAS_ROCKSDB
    maps.emplace_back(new Rocks);
#endif
    if (classes) maps.emplace_back(new Java(classes));
    (void)kind;
    return maps;
}

// The cells of one kind of keys and one number of threads.
class Table {
    FILE *csv;
    KeyKind kind;
    uint64_t count;
    int threads;
    Maps maps;
    std::vector<std::string> rows;

    // A cell of each map: a column.
    void column(const std::string &workload, const char *distribution, const std::function<Cell(Map &)> &measure) {
        double first = 0;
        for (size_t i = 0; i < maps.size(); i++) {
            Cell cell = measure(*maps[i]);
            if (i == 0) first = cell.rate();
            char text[32];
            snprintf(text, sizeof text, i ? " | %.2f" : " | %.0f", i ? cell.rate() / first : first / 1000);
            rows[i] += text;
            fprintf(csv, "%s,%llu,%s,%s,%d,\"%s\",", KIND_NAMES[int(kind)], as(count), workload.c_str(), distribution, threads, maps[i]->name());
            fprintf(csv, "%llu,%.6f,%.0f,", as(cell.operations), cell.seconds, cell.rate());
            fprintf(csv, "%llu,%llu,%llu,%llu\n", as(cell.p50), as(cell.p99), as(cell.p999), as(maps[i]->refused()));
            fflush(csv);
        }
    }
    static unsigned long long as(uint64_t number) { return number; }

public:
    Table(FILE *csv, KeyKind kind, uint64_t count, int threads, Maps maps) : csv(csv), kind(kind), count(count), threads(threads), maps(std::move(maps)) {
        for (auto &it : this->maps) rows.push_back("| " + std::string(it->name()));
    }
    void load(const std::vector<Key> &keys) {
        column("load", "none", [&](Map &map) { return map.load(keys, count, threads); });
    }
    void run(const Workload &workload, Distribution distribution, const std::vector<Key> &drawn, const std::vector<Key> &keys, int milliseconds) {
        column(std::string(1, workload.name), DISTRIBUTION_NAMES[int(distribution)],
               [&](Map &map) { return map.run(workload, drawn, keys, count, threads, milliseconds); });
    }
    void print(const std::vector<Distribution> &distributions) const {
        std::string line = "|---|---|", head = std::string("| ") + KIND_NAMES[int(kind)] + ", " + std::to_string(threads);
        head += threads == 1 ? " thread | load" : " threads | load";
        for (auto &workload : WORKLOADS)
            for (auto it : distributions) head += std::string(" | ") + workload.name + " " + DISTRIBUTION_NAMES[int(it)], line += "---|";
        printf("%s |\n%s\n", head.c_str(), line.c_str());
        for (auto &row : rows) printf("%s |\n", row.c_str());
        printf("\n"), fflush(stdout);
    }
};

static KeyKind kind_of(char letter) {
    must(letter == 'm' || letter == 'r' || letter == 'e', "KINDS are of the letters m, r and e");
    return letter == 'm' ? KeyKind::MONO_INT : letter == 'r' ? KeyKind::RAND_INT : KeyKind::EMAIL;
}

static Distribution distribution_of(char letter) {
    must(letter == 'u' || letter == 'z', "DISTRIBUTIONS are of the letters u and z");
    return letter == 'u' ? Distribution::UNIFORM : Distribution::ZIPF;
}

int main(int words, char **word) {
    must(words == 7 || words == 8, "ycsb KEYS MILLISECONDS CSV KINDS DISTRIBUTIONS THREADS [FOLDER]");
    uint64_t count = strtoull(word[1], nullptr, 10);
    int milliseconds = atoi(word[2]);
    FILE *csv = fopen(word[3], "w");
    must(count > 0 && milliseconds > 0, "counts are above 0");
    must(csv, "the file for CSV isn't opened");
    fprintf(csv, "keys,count,workload,distribution,threads,map,operations,seconds,per_second,p50_ns,p99_ns,p999_ns,refused\n");
    std::vector<Distribution> distributions;
    for (const char *it = word[5]; *it; it++) distributions.push_back(distribution_of(*it));
    for (const char *letter = word[4]; *letter; letter++) {
        KeyKind kind = kind_of(*letter);
        auto keys = keys_of(kind, count + std::max<uint64_t>(count / 10, 50000)); // the last are new ones, for E
        std::vector<std::vector<Key>> drawn;
        for (auto it : distributions) drawn.push_back(draw(keys, count, it));
        for (const char *digit = word[6]; *digit; digit++) {
            int threads = *digit - '0';
            must(threads > 0 && threads <= 9, "THREADS are digits above 0");
            Table table(csv, kind, count, threads, maps_for(kind, keys.size(), threads, words == 8 ? word[7] : nullptr));
            table.load(keys);
            for (auto &workload : WORKLOADS)
                for (size_t i = 0; i < distributions.size(); i++) table.run(workload, distributions[i], drawn[i], keys, milliseconds);
            table.print(distributions);
        }
    }
    must(fclose(csv) == 0, "the CSV isn't written");
}
