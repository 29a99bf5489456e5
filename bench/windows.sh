#!/bin/sh
# Whether PIDs run out where keys come at one end and go at the other: bench/windows.sh [INSERTS [KEYS]], a million inserts or so many, of keys of
# 16 bytes with values of 8, where 1,000 keys or so many are there at a time, in a tree of 256 PIDs: first by one thread, then by four, which take
# the keys in turn. Every operation is to succeed: that none is refused shows that PIDs and rows are used again. It prints how many inserts and
# deletions a second there were. The program is proved and built first.
set -eu
top=$(CDPATH='' cd -- "$(dirname -- "$0")/.." && pwd)
inserts=${1:-1000000}
keys=${2:-1000}
program=$top/crates/bench/out/bench
[ -x "$program" ] || (cd "$top/crates/bench" && rt run -- load 1 1 0 16) </dev/null >/dev/null 2>&1
taken=$(mktemp)
trap 'rm -f "$taken"' EXIT
for threads in 1 4; do
    each=$((inserts * 2 / threads))
    wanted=$((each * threads))
    succeeded=$("$program" window "$keys" "$threads" "$each" 16 2>"$taken")
    awk -v threads="$threads" -v n="$wanted" -v got="$succeeded" -v ns="$(cat "$taken")" 'BEGIN {
        printf "%d threads: %d of %d operations succeeded, %.0f a second\n", threads, got, n, n / ns * 1e9
        exit got != n
    }'
done
