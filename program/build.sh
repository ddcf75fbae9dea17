#!/bin/sh
# Builds the program hivevigil over lib/libhivevigil.a, into bin/. From any folder:
#     sh program/build.sh [FOLDER]        into FOLDER, or bin/ of the checkout
# Needs a C++17 compiler (c++, or $CXX). Where the machine has archives of its C and C++ libraries, the program needs
# nothing to run, else only the C library. FLAGS, if set, come in place of -O2 (the tests take sanitizers).
set -eu
top=$(cd "$(dirname "$0")/.." && pwd)
folder=${1:-$top/bin}
cxx=${CXX:-c++}
cd "$top"
[ -e lib/libhivevigil.a ] || { echo "program: no lib/libhivevigil.a: sh examples/build.sh makes it" >&2; exit 1; }
version=$(cat VERSION)
[ ! -e lib/UNPROVED ] || version=$version+unproved
mkdir -p "$folder"
work=$(mktemp -d)
trap 'rm -rf "$work"' EXIT
flags=${FLAGS:--O2}
compile() {
    # shellcheck disable=SC2086
    "$cxx" -std=c++17 $flags -Wall -Wextra -Werror -Iinclude "-ffile-prefix-map=$top=." \
        "-DHIVEVIGIL_PROGRAM_VERSION=\"$version\"" -c "$1" -o "$work/$(basename "$1" .cpp).o"
}
# linked HOW..
linked() {
    # shellcheck disable=SC2086
    "$cxx" $flags "$work"/*.o lib/libhivevigil.a "$@" -o "$work/hivevigil"
}
compilers=
for source in program/*.cpp; do
    compile "$source" &
    compilers="$compilers $!"
done
for compiler in $compilers; do wait "$compiler"; done
if [ "${FLAGS:-}" ]; then
    linked
else
    linked -static -s 2>/dev/null || linked -static-libstdc++ -static-libgcc -s
fi
mv "$work/hivevigil" "$folder/hivevigil"
ls -l "$folder/hivevigil"
