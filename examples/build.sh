#!/bin/sh
# Proves and builds the library: lib/libhivevigil.a, which needs only the C library, and lib/libhivevigil.so. The calls
# for Arrow, which Rust and Python use, are compiled into both from include/hivevigil_arrow.h, not proved. From any folder:
#     sh examples/build.sh
#     sh examples/build.sh --unproved      the same calls in minutes, with nothing proved; lib/UNPROVED says so
# Needs the toolchain (rt on PATH) and a C compiler (cc, or $CC). The first build proves every crate below the library.
set -eu
top=$(cd "$(dirname "$0")/.." && pwd)
command -v rt >/dev/null || { echo "build: rt, the toolchain's command, is not on PATH" >&2; exit 1; }
case "$#:${1:-}" in
0:) proof=1 ;;
1:--unproved) proof= ;;
*) echo "build: sh examples/build.sh [--unproved]" >&2; exit 2 ;;
esac
kit=$(dirname "$(rt doc)")
cc=${CC:-cc}
work=$(mktemp -d)
trap 'rm -rf "$work"' EXIT
trap 'exit 143' HUP INT TERM

begin=$(date +%s)
if [ "$proof" ]; then
    if [ ! -e "$top/crates/hivevigil/out/libhivevigil.a" ]; then
        echo "build: the first build proves all crates below the library, which takes an hour or more;"
        echo "build: what is proved is kept, and a later build takes two minutes"
    fi
    (cd "$top/crates/hivevigil" && rt lib)
    cp "$top/crates/hivevigil/out/libhivevigil.a" "$work/"
else
    python3 "$top/tools/unproved_archive.py" "$work/libhivevigil.a"
fi
echo "build: ${proof:+proved and }compiled in $(($(date +%s) - begin)) s"

# the library calls the toolchain's three allocation functions, which are malloc, realloc and free
(cd "$work" && ar x "$kit/c/liblibc_c.a" heap.pic.o && ar rs libhivevigil.a heap.pic.o 2>/dev/null)
# 1.2.3 has the binary interface of 1 (docs/ABI.md)
interface=$(sed -E 's/^(0\.[0-9]+|[1-9][0-9]*)\..*/\1/' "$top/VERSION")
# the calls for Arrow, for callers without a C header
(cd "$work" && "$cc" -c -fPIC -O2 -ffunction-sections -ffile-prefix-map="$top=." -I"$top/include" \
    "$top/examples/python/arrow_calls.c" -o arrow_calls.o && ar rs libhivevigil.a arrow_calls.o 2>/dev/null)
# the calls begin with hv_, and nothing else is visible
echo '{ global: hv_*; local: *; };' >"$work/exports"
"$cc" -shared -fPIC -O2 -Wl,--whole-archive "$work/libhivevigil.a" -Wl,--no-whole-archive \
    -Wl,--version-script="$work/exports" -Wl,-soname,"libhivevigil.so.$interface" -Wl,--no-undefined \
    -o "$work/libhivevigil.so"
mkdir -p "$top/lib"
rm -f "$top/lib/UNPROVED"
[ "$proof" ] || echo "built without proof, for tests" >"$top/lib/UNPROVED"
mv "$work/libhivevigil.a" "$work/libhivevigil.so" "$top/lib/"
ls -l "$top/lib"
