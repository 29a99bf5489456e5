#!/bin/sh
# How many writes are refused where threads lose their processors in the midst of calls: bench/stops.sh [OPERATIONS [KEYS]]. Four threads on two
# processors, beside two endless loops there, make so many operations (12 million) of keys of 16 bytes with values of 8, in a large tree of the limits
# that are proposed for so many keys (1,000): upserts of one key; then a window, where keys come at one end and go at the other. What is refused is made
# again. It prints how many operations of a million were refused at first, and how many there were a second. The program is proved and built first.
# It needs taskset.
set -eu
top=$(CDPATH='' cd -- "$(dirname -- "$0")/.." && pwd)
operations=${1:-12000000}
keys=${2:-1000}
program=$top/crates/bench/out/bench
[ -x "$program" ] || (cd "$top/crates/bench" && rt run -- load 1 1 0 16) </dev/null >/dev/null 2>&1
taken=$(mktemp)
loops=
# shellcheck disable=SC2086
trap 'rm -f "$taken"; [ -z "$loops" ] || kill $loops' EXIT
for _ in 1 2; do
    taskset -c 0,1 sh -c 'while :; do :; done' &
    loops="$loops $!"
done
for what in hot passing; do
    each=$((operations / 4))
    succeeded=$(taskset -c 0,1 "$program" "$what" "$keys" 4 "$each" 16 2>"$taken")
    awk -v what="$what" -v n=$((each * 4)) -v got="$succeeded" -v ns="$(cat "$taken")" 'BEGIN {
        printf "%s: %.1f of a million operations refused, %.0f operations a second\n", what, (n - got) / n * 1e6, n / ns * 1e9
    }'
done
