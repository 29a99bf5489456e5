#!/bin/sh
# The tree by its C library beside other maps in memory, each that is installed: bench/peers.sh [KEYS [MILLISECONDS [ROUNDS]]]. All do the same work in
# turn: lookups of drawn keys of 16 bytes (20,000), half lookups and half upserts of 8 bytes, and scans of 100 pairs, by 1, 2 and 4 threads, for so many
# milliseconds (500) in each of so many rounds (5). The tree is there as a large one for such pairs and, with up to 20,000 keys, as a small one, too. TBB is
# there with keys of 16 bytes in place and with strings. Figures are medians of the rounds; a ratio is to the large tree in the same round. Where PEERS_CSV names a file, the medians are written there, too, and bench/plot.py draws them.
# The others: std::map under a shared_mutex, TBB (libtbb-dev), LMDB (liblmdb-dev), RocksDB (librocksdb-dev), JDK's ConcurrentSkipListMap (javac, java).
set -eu
top=$(CDPATH='' cd -- "$(dirname -- "$0")/.." && pwd)
folder=$(mktemp -d)
trap 'rm -rf "$folder"' EXIT
compiler=${CXX:-c++}
flags=
libraries=

# Takes a library along where its header and itself are there: with NAME HEADER LIBRARY PACKAGE
with() {
    printf '#include <%s>\nint main() {}\n' "$2" >"$folder/probe.cpp"
    if "$compiler" -std=c++17 -o "$folder/probe" "$folder/probe.cpp" "-l$3" >/dev/null 2>&1; then
        flags="$flags -DHAS_$1"
        libraries="$libraries -l$3"
    else
        echo "$1 is left out: $4 isn't installed"
    fi
}

"$top/c/build.sh" >"$folder/said" 2>&1 || { tail -n 20 "$folder/said"; exit 1; }
with TBB tbb/concurrent_map.h tbb libtbb-dev
with LMDB lmdb.h lmdb liblmdb-dev
with ROCKSDB rocksdb/db.h rocksdb librocksdb-dev
# shellcheck disable=SC2086
"$compiler" -std=c++17 -O2 -Wall -Wextra $flags "-I$top/c/out" -o "$folder/peers" "$top/bench/peers/peers.cpp" "$top/c/out/libbwtree.a" $libraries -lpthread
if command -v javac >/dev/null && command -v java >/dev/null; then
    javac -d "$folder/classes" "$top/bench/peers/SkipList.java"
    "$folder/peers" "${1:-20000}" "${2:-500}" "${3:-5}" "$folder/classes"
else
    echo "JDK's ConcurrentSkipListMap is left out: there is no javac"
    "$folder/peers" "${1:-20000}" "${2:-500}" "${3:-5}"
fi
