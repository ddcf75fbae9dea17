#!/bin/sh
# Builds the runner of vectors over the library for C, and holds the library against the stored lines (lines.txt), or
# against those of FILE (docs/VECTORS.md). From any folder:
#     sh examples/vectors/run.sh [--sanitize] [--test] [--list] [FILE]
# --sanitize looks for faults of memory and for leaks too, --test runs the tests of the runner itself first, --list
# prints each line that no call serves. Needs a C++17 compiler ($CXX, or c++, g++ or clang++) and lib/libhivevigil.a,
# which examples/build.sh makes, or an installed package that pkg-config finds. Of the stored lines as many have to
# agree as expected_counts says, so that a file that was cut, or a runner that serves nothing, fails.
set -eu
here=$(cd "$(dirname "$0")" && pwd)
top=$(cd "$here/../.." && pwd)
flags=-O0 tested= listed=
for word; do
    case $word in
    --sanitize) flags="-O0 -g -fsanitize=address,undefined -fno-sanitize-recover=all" ;;
    --test) tested=1 ;;
    --list) listed=--list ;;
    -*) echo "vectors: $word is not an option" >&2; exit 2 ;;
    *) break ;;
    esac
    shift
done
fail() { echo "vectors: $1" >&2; exit 1; }

for compiler in "${CXX:-}" c++ g++ clang++ ""; do
    [ "$compiler" ] && command -v "$compiler" >/dev/null && break
done
[ "$compiler" ] || fail "no C++ compiler"
if [ -e "$top/lib/libhivevigil.a" ]; then
    include=$top/include archive=$top/lib/libhivevigil.a
elif pkg-config --exists hivevigil 2>/dev/null; then
    include=$(pkg-config --variable=includedir hivevigil)
    archive=$(pkg-config --variable=libdir hivevigil)/libhivevigil.a
else
    fail "no library: sh examples/build.sh makes it"
fi

work=$(mktemp -d)
trap 'rm -rf "$work"' EXIT
trap 'exit 143' HUP INT TERM
# shellcheck disable=SC2086 # the flags are words
"$compiler" -std=c++17 $flags -Wall -Wextra -Werror "-I$include" "$here/runner/run.cpp" "$archive" \
    -Wl,--wrap=malloc,--wrap=calloc,--wrap=realloc,--wrap=free -o "$work/run"
[ -z "$tested" ] || sh "$here/test_runner.sh" "$work/run"
if [ "$#" -gt 0 ]; then
    "$work/run" $listed "$1"
    exit
fi
"$work/run" $listed "$here/lines.txt" >"$work/said" || { cat "$work/said"; exit 1; }
cat "$work/said"
[ "$(tail -n 1 "$work/said")" = "$(cat "$here/expected_counts")" ] || fail "expected $(cat "$here/expected_counts")"
