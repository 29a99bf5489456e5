#!/bin/sh
# YCSB on the tree, by its C library, beside other ordered maps in memory, each that is installed:
#   bench/ycsb.sh [KEYS [MILLISECONDS [CSV [KINDS [DISTRIBUTIONS [THREADS]]]]]]
# so many keys (1000000), so many milliseconds for each cell (400), and a file for the results (ycsb.csv), which bench/plot.py draws. Its columns are listed at
# the head of bench/ycsb/main.cpp with what the letters of KINDS (mre) and DISTRIBUTIONS (uz) and the digits of THREADS (124) stand for. A tree for a million keys
# takes 900 MB while it is opened.
# The others: std::map under a shared_mutex, bench's own B+-tree with optimistic locks (bench/ycsb/olc_tree.hpp), TBB (libtbb-dev), LMDB (liblmdb-dev),
# RocksDB's memtable (librocksdb-dev), JDK's ConcurrentSkipListMap (default-jdk-headless).
# bench/ycsb.sh test runs the tests of that B+-tree instead, also with -fsanitize=thread where the compiler has it.
set -eu
top=$(CDPATH='' cd -- "$(dirname -- "$0")/.." && pwd)
folder=$(mktemp -d)
trap 'rm -rf "$folder"' EXIT
compiler=${CXX:-c++}
flags=
libraries=

# Takes a library along where its header and itself are there: with NAME HEADER LIBRARY PACKAGE
with() {
    printf '#include <%s>\nint main() {}\n' "$2" >"$folder/probe.cpp"
    if "$compiler" -std=c++17 -o "$folder/probe" "$folder/probe.cpp" "-l$3" >/dev/null 2>&1; then
        flags="$flags -DHAS_$1"
        libraries="$libraries -l$3"
    else
        echo "$1 is left out: $4 isn't installed"
    fi
}

# Builds the tests of the B+-tree and runs them with so many keys: tested KEYS FLAGS..
tested() {
    keys=$1
    shift
    "$compiler" -std=c++17 -O2 -g -Wall -Wextra "$@" -o "$folder/olc_test" "$top/bench/ycsb/olc_test.cpp" -lpthread && "$folder/olc_test" "$keys"
}

if [ "${1-}" = test ]; then
    tested 20000
    echo 'int main() {}' >"$folder/empty.cpp"
    if "$compiler" -fsanitize=thread -o "$folder/empty" "$folder/empty.cpp" >/dev/null 2>&1 && "$folder/empty" 2>/dev/null; then
        # it doesn't know fences, of which the compiler warns; all that they order is atomic
        tested 3000 -fsanitize=thread 2>"$folder/said" || { cat "$folder/said" >&2; exit 1; }
    else
        echo "$compiler has no -fsanitize=thread here: left out"
    fi
    exit 0
fi

"$top/c/build.sh" >"$folder/said" 2>&1 || { tail -n 20 "$folder/said"; exit 1; }
with TBB tbb/concurrent_map.h tbb libtbb-dev
with LMDB lmdb.h lmdb liblmdb-dev
with ROCKSDB rocksdb/db.h rocksdb librocksdb-dev
# shellcheck disable=SC2086
"$compiler" -std=c++17 -O2 -Wall -Wextra $flags "-I$top/c/out" -o "$folder/ycsb" "$top/bench/ycsb/main.cpp" "$top/c/out/libbwtree.a" $libraries -lpthread
classes=
if command -v javac >/dev/null && command -v java >/dev/null; then
    javac -d "$folder/classes" "$top/bench/ycsb/maps/SkipList.java"
    classes=$folder/classes
else
    echo "JDK's ConcurrentSkipListMap is left out: there is no javac"
fi
# shellcheck disable=SC2086
"$folder/ycsb" "${1:-1000000}" "${2:-400}" "${3:-ycsb.csv}" "${4:-mre}" "${5:-uz}" "${6:-124}" $classes
