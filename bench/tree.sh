#!/bin/sh
# How many operations a second threads do on one running tree, each thread with a seat of its own: bench/tree.sh [OPERATIONS [BYTES]], so
# many in each thread, with keys of 16 bytes or of so many. The tree has 20,000 keys with values of 8 bytes; lookups are of drawn keys, and
# in the mix every second operation is an upsert of one. Beside it stands how many lookups bare loads of as many rows' words would allow, of the rows of ways over five levels and of
# drawn rows, and loads of the words alone that a search looks at on such ways, and the share of these limits that is reached. Last come four processes at a
# time, each with a tree of its own and one thread: what the machine gives four threads that share nothing. Opening and loading the tree is not counted.
# The program is proved and built first.
set -eu
top=$(CDPATH='' cd -- "$(dirname -- "$0")/.." && pwd)
operations=${1:-10000}
bytes=${2:-16}
keys=20000
program=$top/crates/bench/out/bench
[ -x "$program" ] || (cd "$top/crates/bench" && rt run -- load 1 1 0 16) </dev/null >/dev/null 2>&1
taken=$(mktemp)
times=$(mktemp)
apart=$(mktemp -d)
trap 'rm -rf "$taken" "$times" "$apart"' EXIT

# How many nanoseconds the program says that it took; so many operations are to succeed: took COUNT WORD..
took() {
    wanted=$1
    shift
    succeeded=$("$program" "$@" "$bytes" 2>"$taken")
    [ "$succeeded" = "$wanted" ] || { echo "expected $wanted, got $succeeded" >&2; exit 1; }
    cat "$taken"
}

# How many times as many operations a second four threads do on one tree as four processes of one thread do, each on a tree of its own: beside WORD. Each does
# fifty times as many as above, so that the processes are at it at the same time, though one may have loaded its tree before the others.
beside() {
    each=$((50 * operations))
    together=$(took $((4 * each)) "$1" "$keys" 4 "$each")
    for process in 1 2 3 4; do
        "$program" "$1" "$keys" 1 "$each" "$bytes" 2>"$apart/$process" >"$apart/done" &
    done
    wait
    cat "$apart/1" "$apart/2" "$apart/3" "$apart/4" | awk -v together="$together" '{ sum += together / $1 } END { printf "%.2f", 4 / sum }'
}

# A lookup's steps are the epoch, the entry, slot 0, a slot for each of five levels, the rows of five chains, and the leave.
rows=$("$program" steps "$keys" 1 1000 "$bytes" 2>"$taken" | awk '{ printf "%.0f", $1 / 1000 - 9 }')
for threads in 1 2 4; do
    all=$((threads * operations))
    reads=$(took "$all" reads "$keys" "$threads" "$operations")
    half=$(took "$all" half "$keys" "$threads" "$operations")
    ways=$(took "$all" ways "$rows" "$threads" "$operations")
    drawn=$(took "$all" rows "$rows" "$threads" "$operations")
    looks=$(took "$all" looks "$rows" "$threads" "$operations")
    echo "$threads $all $reads $half $ways $drawn $looks" >>"$times"
done
awk -v rows="$rows" -v reads_beside="$(beside reads)" -v half_beside="$(beside half)" '
    BEGIN { printf "a lookup reads %d rows\n", rows }
    {
        reads = $2 / $3 * 1e9
        half = $2 / $4 * 1e9
        ways = $2 / $5 * 1e9
        drawn = $2 / $6 * 1e9
        looks = $2 / $7 * 1e9
        if (NR == 1) { one_reads = reads; one_half = half; one_ways = ways; one_drawn = drawn; one_looks = looks }
        printf "%d threads: %.0f lookups a second, %.0f operations of the mix; ", $1, reads, half
        printf "bare loads of ways allow %.0f lookups, %.1f %% of which are reached, ", ways, reads / ways * 100
        printf "of drawn rows %.0f, %.1f %%, looks at such ways %.0f, %.1f %%\n", drawn, reads / drawn * 100, looks, reads / looks * 100
    }
    END {
        printf "4 threads against 1: lookups %.2f, mix %.2f, bare loads of ways %.2f, of drawn rows %.2f, looks %.2f\n", \
            reads / one_reads, half / one_half, ways / one_ways, drawn / one_drawn, looks / one_looks
        printf "4 threads against 4 processes, a tree each: lookups %.2f, mix %.2f\n", reads_beside, half_beside
    }
' "$times"
