#!/bin/sh
# Builds of the library beside one another: bench/beside.sh [--emails] KEYS LIBRARY LIBRARY..., each a libbwtree.so of c/build.sh, say one of an older commit.
# All are in one process, each with a large tree of so many keys of 16 bytes with values of 8 (or of mail addresses of 20 to 40 bytes), and one thread does
# the same work in turn in slices of some milliseconds: lookups, half lookups and half upserts, and scans of 100 pairs. So what else the machine does meets
# all alike: ratios of slices are within some hundredths, where rounds of programs differ by halves. Prints for each library the median of thousands of
# operations a second, and behind the first one the median of its ratios to that, with quartiles.
set -eu
top=$(CDPATH='' cd -- "$(dirname -- "$0")/.." && pwd)
folder=$(mktemp -d)
trap 'rm -rf "$folder"' EXIT
shape=pairs
if [ "${1-}" = --emails ]; then
    shape=emails
    shift
fi
[ "$#" -ge 3 ] || { echo 'bench/beside.sh [--emails] KEYS LIBRARY LIBRARY...' >&2; exit 2; }
${CC:-cc} -std=gnu11 -O2 -Wall -Wextra -Werror "-I$top/c" -o "$folder/beside" "$top/bench/beside/beside.c" -ldl
"$folder/beside" "$shape" "$@"
