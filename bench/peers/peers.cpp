// The tree by its C library beside what one would take in its place, the same work in turn, cell after cell, in one process (java in its own).
//   peers KEYS MILLISECONDS ROUNDS [FOLDER OF SkipList.class]
// A line for each cell: operations a second, and how many times as fast as the large tree, each the median of the rounds; behind it the least and the greatest.
// Then a table of these ratios, 1 / 2 / 4 threads, the large tree's own row in operations a second.
#include "java.hpp"
#include "maps.hpp"
#include <algorithm>
#include <memory>

// What one crossing costs, in nanoseconds: the best of some rounds.
template <class Call> static double crossing(Call call) {
    const int count = 200000;
    double best = 1e9;
    for (int round = 0; round < 7; round++) {
        auto begin = std::chrono::steady_clock::now();
        for (int i = 0; i < count; i++) call();
        best = std::min(best, std::chrono::duration<double>(std::chrono::steady_clock::now() - begin).count() / count * 1e9);
    }
    return best;
}

static void crossings() {
    static bwtree closed, tree;
    bwtree_limits limits = {1, 64, 256, 1, 0, 0, 0, 0, 0};
    bwtree_bytes bytes;
    must(bwtree_open(&limits, &tree) == BWTREE_OK, "the tree isn't opened");
    printf("a call on a closed tree takes %.1f ns, one that takes a seat and gives it back %.1f ns, a lookup in an empty tree %.0f ns\n",
           crossing([&] { bwtree_is_idle(&closed, 0); }), crossing([&] { bwtree_is_idle(&tree, 0); }),
           crossing([&] { bwtree_get(&tree, 0, "k", 1, &bytes); }));
    bwtree_close(&tree);
}

// Where PEERS_CSV names a file, the medians go there, too, for bench/plot.py.
static FILE *figures() {
    const char *name = getenv("PEERS_CSV");
    if (!name) return nullptr;
    FILE *file = fopen(name, "w");
    must(file, "PEERS_CSV can't be written");
    must(fprintf(file, "work,threads,map,operations\n") > 0, "PEERS_CSV can't be written");
    return file;
}

static double median(std::vector<double> all) {
    std::sort(all.begin(), all.end());
    return all[all.size() / 2];
}

int main(int count, char **words) {
    must(count >= 4, "peers KEYS MILLISECONDS ROUNDS [FOLDER]");
    int key_count = atoi(words[1]), milliseconds = atoi(words[2]), rounds = atoi(words[3]);
    must(key_count > 0 && milliseconds > 0 && rounds > 0, "counts are above 0");
    crossings();
    std::vector<Key> keys;
    for (int i = 0; i < key_count; i++) keys.push_back(key_of(uint64_t(i)));
    std::vector<std::unique_ptr<Peer>> peers;
    auto large = new Tree(uint64_t(key_count), true);
    peers.emplace_back(large);
    Tree *small = key_count > 20000 ? nullptr : new Tree(uint64_t(key_count), false);
    if (small) peers.emplace_back(small);
    peers.emplace_back(new StdMap);
#ifdef HAS_TBB
    peers.emplace_back(new Tbb<Key>);
    peers.emplace_back(new Tbb<std::string>);
#endif
#ifdef HAS_LMDB
    peers.emplace_back(new Lmdb);
#endif
#ifdef HAS_ROCKSDB
    peers.emplace_back(new Rocks);
#endif
    if (count > 4) peers.emplace_back(new Java(words[4]));
    for (auto &peer : peers) peer->load(keys);
    must(large->full == 0 && (!small || small->full == 0), "a tree is too small for the keys");
    static const char *const NAMES[] = {"lookups", "half upserts", "scans of 100"};
    std::vector<std::string> table;
    FILE *csv = figures();
    for (auto &peer : peers) table.push_back(std::string("| ") + peer->name());
    for (Kind kind : {LOOKUPS, HALF_UPSERTS, SCANS})
        for (int threads : {1, 2, 4}) {
            std::vector<std::vector<double>> rates(peers.size()), ratios(peers.size());
            for (int round = 0; round < rounds; round++)
                for (size_t i = 0; i < peers.size(); i++) {
                    rates[i].push_back(peers[i]->cell(keys, kind, threads, milliseconds));
                    ratios[i].push_back(rates[i][size_t(round)] / rates[0][size_t(round)]);
                }
            for (size_t i = 0; i < peers.size(); i++) {
                auto [least, greatest] = std::minmax_element(ratios[i].begin(), ratios[i].end());
                printf("%s, %d thread%s, %s: %.0f a second, %.2f times (%.2f to %.2f)\n", NAMES[kind], threads, threads == 1 ? "" : "s", peers[i]->name(),
                       median(rates[i]), median(ratios[i]), *least, *greatest);
                if (csv) fprintf(csv, "%s,%d,\"%s\",%.0f\n", NAMES[kind], threads, peers[i]->name(), median(rates[i]));
                char figure[32];
                snprintf(figure, sizeof figure, i ? "%.1f" : "%.0f", median(i ? ratios[i] : rates[i]));
                table[i] += std::string(threads == 1 ? " | " : " / ") + figure;
            }
            fflush(stdout);
            must(!csv || fflush(csv) == 0, "PEERS_CSV can't be written");
        }
    printf("| how many times as fast as the large tree | %s | %s | %s |\n|---|---|---|---|\n", NAMES[LOOKUPS], NAMES[HALF_UPSERTS], NAMES[SCANS]);
    for (auto &row : table) printf("%s |\n", row.c_str());
    printf("the trees answered full %llu times\n", static_cast<unsigned long long>(large->full + (small ? small->full.load() : 0)));
}
