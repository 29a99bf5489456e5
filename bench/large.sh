#!/bin/sh
# What a large tree takes beside a small one: bench/large.sh [KEYS [OPERATIONS]], a million keys of 16 bytes with values of 8 or so many, and so many
# operations in each thread. First the keys are loaded in drawn and in ascending order, and a tenth of them and nine tenths in drawn order, which tells what a key
# takes at the begin and at the end of the loading; then lookups, operations of which every second one is an upsert, and scans of 100 pairs are done
# by one thread and by four, in turn with a tree of 20,000 keys. The most memory that the program had is printed beside. The program is proved and built first.
set -eu
top=$(CDPATH='' cd -- "$(dirname -- "$0")/.." && pwd)
keys=${1:-1000000}
operations=${2:-100000}
few=20000
program=$top/crates/bench/out/bench
[ -x "$program" ] || (cd "$top/crates/bench" && rt run -- load 1 1 0 16) </dev/null >/dev/null 2>&1
taken=$(mktemp)
trap 'rm -f "$taken"' EXIT

# Prints how many operations succeeded, in how many nanoseconds, and the most memory in KB: done WHAT SIZE THREADS OPERATIONS
done_by() {
    count=$(/usr/bin/env python3 - "$program" "$@" 16 <<'P' 2>"$taken"
import resource, subprocess, sys
ran = subprocess.run(sys.argv[1:], capture_output=True, text=True)
print(ran.stdout.strip(), ran.stderr.strip(), resource.getrusage(resource.RUSAGE_CHILDREN).ru_maxrss)
P
    )
    echo "$count"
}

load() {
    done_by "$1" "$2" 1 0 | awk -v what="$1" -v keys="$2" '{
        printf "%s %d keys: %d inserted, %.1f seconds, %.2f microseconds a key, %.2f GB at most\n", what, keys, $1, $2 / 1e9, $2 / keys / 1e3, $3 / 1048576
        exit $1 != keys
    }'
}

load load "$((keys / 10))"
load load "$((keys * 9 / 10))"
load load "$keys"
load ascend "$keys"
for size in "$few" "$keys"; do
    reads=$(done_by steps "$size" 1 1000 | awk '{ printf "%.1f", $1 / 1000 }')
    writes=$(done_by writes "$size" 1 1000 | awk '{ printf "%.1f", $1 / 1000 }')
    echo "among $size keys a lookup takes $reads steps, an upsert $writes"
done
for threads in 1 4; do
    for what in reads half scans; do
        each=$operations
        [ "$what" != scans ] || each=$((operations / 20))
        for size in "$few" "$keys"; do
            done_by "$what" "$size" "$threads" "$each" | awk -v what="$what" -v size="$size" -v threads="$threads" -v n="$((threads * each))" '{
                printf "%s, %d threads, %d keys: %d of %d succeeded, %.0f a second, %.2f GB at most\n", what, threads, size, $1, n, n / $2 * 1e9, $3 / 1048576
            }'
        done
    done
done
