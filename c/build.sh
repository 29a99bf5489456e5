#!/bin/sh
# Packs what programs in other languages need, into c/out, from the proved archive, which c/archive makes where it isn't there.
#   c/build.sh              libbwtree.a, libbwtree.so, bwtree.pc, and the headers
#   c/build.sh install DIR  copies them into DIR/lib (or LIBDIR, where that is set), DIR/include, and below these the files for pkg-config and CMake, and
#                           the page for man into DIR/share/man; where DESTDIR is set, below that folder
# Where BWTREE_ARCHIVE names another archive with the same functions, that one is packed.
set -eu
case "$#,${1-}" in
0, | 2,install) ;;
*) echo "c/build.sh, or c/build.sh install DIR" >&2; exit 2 ;;
esac
top=$(CDPATH='' cd -- "$(dirname -- "$0")/.." && pwd)
archive=${BWTREE_ARCHIVE:-$top/crates/bw_tree_c/out/libbw_tree_c.a}
kit=$(dirname -- "$(dirname -- "$(readlink -f "$(command -v rt)")")")
out=$top/c/out
version=$(sed -n 's/^#define BWTREE_VERSION "\([0-9.]*\)".*/\1/p' "$top/c/bwtree.h")
compiler=${CC:-$(command -v cc || command -v clang || echo cc)}
[ -n "${BWTREE_ARCHIVE:-}" ] || "$top/c/archive"
mkdir -p "$out"
folder=$(mktemp -d)
trap 'rm -rf "$folder"' EXIT

# What calls malloc and free for the tree is an object of the toolchain's, which the archive takes along.
archive=$(readlink -f -- "$archive")
(cd "$folder" && ar x "$kit/c/liblibc_c.a" && ar x "$archive")
$compiler -std=c99 -O2 -fPIC -Wall -Wextra -Werror -c -o "$folder/library.o" "$top/c/library.c"
rm -f "$out/libbwtree.a"
ar rcs "$out/libbwtree.a" "$folder"/*.o
# The names have a version, so that a later library may have two of one name. The mark of the processor's level, x86-64-v2, is what glibc from 2.33 on
# tests at load: without it, a processor below that level would stop in the midst of a call.
printf 'BWTREE_0 { global: bwtree_*; local: *; };\n' >"$folder/names"
$compiler -shared -o "$out/libbwtree.so.$version" -Wl,-soname,libbwtree.so.0 -Wl,--version-script="$folder/names" -Wl,-z,defs,-z,x86-64-v2 \
    -Wl,--whole-archive "$out/libbwtree.a" -Wl,--no-whole-archive

# The file for pkg-config: describe PREFIX LIBRARIES HEADERS
describe() {
    cat <<PC
prefix=$1
libdir=$2
includedir=$3

Name: bwtree
Description: An ordered in-memory map for many threads, proved linearizable (Herlihy and Wing) and lock-free
Version: $version
Libs: -L"\${libdir}" -lbwtree
Libs.private: -lpthread
Cflags: -I"\${includedir}"
PC
}

# Copies, since the gate takes no links in the repository. What a program has open isn't written over: `install` takes the old file out of its folder first.
install "$out/libbwtree.so.$version" "$out/libbwtree.so.0"
install "$out/libbwtree.so.$version" "$out/libbwtree.so"
install -m 644 "$top"/c/*.h "$top"/c/*.hpp "$out/"
describe "$out" "\${prefix}" "\${prefix}" >"$out/bwtree.pc"
[ "$#" -eq 2 ] || exit 0
case $2 in
/*) prefix=$2 ;;
*) prefix=$PWD/$2 ;;
esac
libraries=${LIBDIR:-$prefix/lib}
case $libraries in
"$prefix"/*) ;;
*) echo "c/build.sh: LIBDIR is not below $prefix" >&2; exit 2 ;;
esac
to=${DESTDIR-}$prefix
lib=${DESTDIR-}$libraries
mkdir -p "$lib/pkgconfig" "$lib/cmake/bwtree" "$to/include" "$to/share/man/man3"
install -m 644 "$out/libbwtree.a" "$lib/"
install "$out/libbwtree.so.$version" "$lib/"
ln -sf "libbwtree.so.$version" "$lib/libbwtree.so.0"
ln -sf libbwtree.so.0 "$lib/libbwtree.so"
install -m 644 "$out"/*.h "$out"/*.hpp "$to/include/"
describe "$prefix" "\${prefix}${libraries#"$prefix"}" "\${prefix}/include" >"$lib/pkgconfig/bwtree.pc"
install -m 644 "$top/c/man/bwtree.3" "$to/share/man/man3/"
# From the folder of CMake's file, the headers are where the library's folder is below the prefix.
up=$(printf '%s' "${libraries#"$prefix"}" | sed 's|/[^/]*|/..|g')
sed "s|@HEADERS@|../..$up/include|" "$top/c/cmake/bwtreeConfig.cmake" >"$lib/cmake/bwtree/bwtreeConfig.cmake"
sed "s|@VERSION@|$version|" "$top/c/cmake/bwtreeConfigVersion.cmake" >"$lib/cmake/bwtree/bwtreeConfigVersion.cmake"
