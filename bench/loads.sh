#!/bin/sh
# A large tree of so many keys of 16 bytes with values of 8, by the C library: bench/loads.sh [KEYS], a million or so many. They are loaded in drawn order and
# looked up once, by one thread; the seconds and the memory of the process are printed. The library is proved and built first.
set -eu
top=$(CDPATH='' cd -- "$(dirname -- "$0")/.." && pwd)
folder=$(mktemp -d)
trap 'rm -rf "$folder"' EXIT
"$top/c/build.sh" >"$folder/said" 2>&1 || { tail -n 20 "$folder/said"; exit 1; }
"${CC:-cc}" -std=gnu11 -O2 -Wall -Wextra "-I$top/c/out" -o "$folder/loads" "$top/bench/loads/loads.c" "$top/c/out/libbwtree.a" -lpthread
"$folder/loads" "${1:-1000000}"
