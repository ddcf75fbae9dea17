#!/bin/sh
# Times the library's calls for C relative to plain Rust kernels that do the same work, and compares what both answer. From
# any folder, over lib/libhivevigil.a (or that of the folder that HIVEVIGIL_LIB names):
#     sh bench/run.sh >tables.md           all lines: some fifteen minutes, 3 GB
#     sh bench/run.sh --only sum,cast      the lines whose names begin so
#     sh bench/run.sh --growth             a thousand to ten million runs
#     sh bench/run.sh --sizes              bytes of messages relative to those of arrays
#     sh bench/run.sh --smoke              every line over few rows, in seconds: do both sides answer the same?
# --rows N, --turns N and --rounds N change the size (4000000, 7, 1: of rounds the middle one of each line counts);
# --seconds N begins no round that would end later; --cold maps each large block anew. CORE=3 in the environment runs only on core 3.
# Needs cargo. The status is 1 where an answer differs, whatever was taken.
set -eu
top=$(cd "$(dirname "$0")/.." && pwd)
library=${HIVEVIGIL_LIB:-$top/lib}
fail() {
    echo "bench: $1" >&2
    exit 2
}
command -v cargo >/dev/null || fail "cargo is not on PATH"
[ -e "$library/libhivevigil.a" ] || fail "no $library/libhivevigil.a: sh examples/build.sh makes it"
export CARGO_TARGET_DIR="${CARGO_TARGET_DIR:-$top/bench/target}"

smoke= profile=release
for word; do
    [ "$word" = --smoke ] && smoke=yes profile=debug
done
# the proved library is compiled for these processors too
case $(uname -m) in
x86_64) export RUSTFLAGS="${RUSTFLAGS:-} -C target-cpu=x86-64-v2" ;;
esac
[ "$profile" = release ] && release=--release || release=
cargo build --quiet --offline $release --manifest-path "$top/bench/Cargo.toml"

# the machine, the date and the library, above the tables
head_line() {
    processor=$(sed -n 's/^model name[^:]*: //p' /proc/cpuinfo 2>/dev/null | head -n 1)
    proof=proved
    [ -e "$library/UNPROVED" ] && proof="built without proof, with checks that the proved one does without"
    commit=$(git -C "$top" rev-parse --short HEAD 2>/dev/null || echo unknown)
    echo "$(date -u +%Y-%m-%d), ${processor:-$(uname -m)}, $(rustc --version | cut -d ' ' -f 1,2)."
    echo "The library: version $(cat "$top/VERSION"), commit $commit, $proof."
    echo
}
[ "$smoke" ] || head_line
${CORE:+taskset -c "$CORE"} "$CARGO_TARGET_DIR/$profile/bench" "$@"
