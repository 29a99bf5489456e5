#!/bin/sh
# How much processor time it takes to read a row of words as a record: bench/rows.sh [TIMES]
# The rows are a put, and a full leaf of 24 items with keys and values of 4 and of 64 bytes. The program is proved and built first.
set -eu
top=$(CDPATH='' cd -- "$(dirname -- "$0")/.." && pwd)
times=${1:-300000}
program=$top/crates/bench/out/bench
[ -x "$program" ] || (cd "$top/crates/bench" && rt run -- put 1) </dev/null >/dev/null
used=$(mktemp)
trap 'rm -f "$used"' EXIT
for kind in put short long; do
    (
        read=$("$program" "$kind" "$times")
        [ "$read" = "$times" ] || { echo "expected $times, got $read"; exit 1; }
        times >"$used"
    )
    awk -v kind="$kind" -v n="$times" 'NR == 2 {
        split($1, user, /[ms]/)
        printf "%s: %.2f microseconds\n", kind, (user[1] * 60 + user[2]) / n * 1000000
    }' "$used"
done
