#!/bin/sh
# How many turns a second `weave` takes, reading and printing included, and how many bytes a turn it keeps: bench/weave.sh [OPERATIONS]
# Every second operation looks a key up, the others give a key a value; the page is consolidated at 8 deltas, and the next operation that
# gives a value frees the rows that went out, so that all rows in use are of the first word of free bits. How many turns that is follows
# from how many deltas stand. Bytes need GNU time.
set -eu
top=$(CDPATH='' cd -- "$(dirname -- "$0")/.." && pwd)
operations=${1:-10000}
input=$(mktemp)
used=$(mktemp)
trap 'rm -f "$input" "$used"' EXIT
awk -v n="$operations" 'BEGIN {
    for (i = 0; i < n; i++) {
        key = sprintf("k%c", 97 + i % 12)
        print "begin 0 " (i % 2 ? "upsert " key " v" i : "get " key) "\nfinish 0"
    }
}' >"$input"
turns=$(awk -v n="$operations" '
    BEGIN {
        record = 4  # the word of free bits, the take, the place, the exchange
        sweep = 4  # the epoch, its retirement, what the other actor announces, the rows that are free
        for (i = 0; i < n; i++) {
            turns += 5 + deltas + 1 + 1  # up to the slot, the chain, the leave
            if (i % 2 == 0) continue
            if (out) { turns += sweep; out = 0 }
            if (deltas == 8) { turns += record + 3; deltas = 0; out = 1 }
            turns += record
            deltas++
        }
        print turns
    }')
"$top/bwtree" --help >/dev/null
peak() {
    if [ -x /usr/bin/time ]; then
        /usr/bin/time -o "$used" -f %M "$top/bwtree" weave --rows 16384 | wc -l
    else
        "$top/bwtree" weave --rows 16384 | wc -l
    fi
}
peak </dev/null >/dev/null
before=$(cat "$used")
start=$(date +%s%N)
answers=$(peak <"$input")
end=$(date +%s%N)
awk -v n="$operations" -v got="$answers" -v turns="$turns" -v ns="$((end - start))" -v before="$before" -v after="$(cat "$used")" 'BEGIN {
    if (got != n) { print "expected " n " answers, got " got; exit 1 }
    printf "%d turns in %.2f s: %.0f turns a second\n", turns, ns / 1e9, turns / (ns / 1e9)
    if (after != "") printf "%.0f bytes a turn\n", (after - before) * 1024 / turns
}'
