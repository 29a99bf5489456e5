#!/bin/sh
# How long `script` takes at the greatest limits, reading and printing included, and how much memory: bench/script.sh [COMMANDS]
# Of ten commands three insert a new key, five look one up, and two delete one. Memory needs GNU time.
set -eu
top=$(CDPATH='' cd -- "$(dirname -- "$0")/.." && pwd)
commands=${1:-20000}
input=$(mktemp)
output=$(mktemp)
used=$(mktemp)
trap 'rm -f "$input" "$output" "$used"' EXIT
awk -v n="$commands" 'BEGIN {
    for (i = 0; i < n; i++) {
        kind = i % 10
        if (kind < 3) { key = inserted++; print "insert " sprintf("k%05d", key * 7919 % 99991) " v" i; continue }
        if (kind < 8) { print "get " sprintf("k%05d", int(inserted * kind / 9) * 7919 % 99991); continue }
        print "delete " sprintf("k%05d", deleted++ * 7919 % 99991)
    }
}' >"$input"
"$top/bwtree" --help >/dev/null
run() {
    if [ -x /usr/bin/time ]; then
        /usr/bin/time -o "$used" -f %M "$top/bwtree" script --pids 4096 --rows 16384
    else
        "$top/bwtree" script --pids 4096 --rows 16384
    fi
}
start=$(date +%s%N)
run <"$input" >"$output"
end=$(date +%s%N)
awk -v n="$commands" -v got="$(grep -c '^0 ' "$output")" -v full="$(grep -c '^0 full$' "$output" || true)" \
    -v ns="$((end - start))" -v peak="$(cat "$used")" 'BEGIN {
    if (got != n) { print "expected " n " answers, got " got; exit 1 }
    printf "%d commands in %.2f s, %d of them full\n", n, ns / 1e9, full
    if (peak != "") printf "%.0f MB\n", peak / 1024
}'
