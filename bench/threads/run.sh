#!/bin/sh
# What threads gain: encode, decode, sum and filter of one column in windows, in C++, Rust and Python, over
# lib/libhivevigil.a and .so (or those of the folder that HIVEVIGIL_LIB names). From any folder:
#     sh bench/threads/run.sh >page.md                         100,000,000 rows, on 1, 2 and 4 threads
#     sh bench/threads/run.sh --rows 1000000 --turns 3 1 2     of these rows and turns, on these threads
# Fewer rows are worked where the memory that is free is less than 48 bytes a row. What the machine lacks (a C++
# compiler, cargo, NumPy) is named and skipped. How long each language took, and its memory at the peak, go to the error
# output at once, and below the table. The status is 1 where an answer differs, and never by time.
set -eu
top=$(cd "$(dirname "$0")/../.." && pwd)
library=${HIVEVIGIL_LIB:-$top/lib}
for part in a so; do
    [ -e "$library/libhivevigil.$part" ] ||
        { echo "threads: no $library/libhivevigil.$part: sh examples/build.sh makes it" >&2; exit 2; }
done
library=$(cd "$library" && pwd)
export HIVEVIGIL_LIB="$library" HIVEVIGIL_SO="$library/libhivevigil.so"
rows=100000000 turns=3
while [ "$#" -gt 1 ]; do
    case $1 in
    --rows) rows=$2 ;;
    --turns) turns=$2 ;;
    *) break ;;
    esac
    shift 2
done
[ "$#" -gt 0 ] || set -- 1 2 4
free=$(sed -n 's/^MemAvailable: *\([0-9]*\) kB/\1/p' /proc/meminfo)
most=$((free * 1024 / 48))
[ "$rows" -le "$most" ] || { echo "threads: memory for $most rows, not for $rows" >&2; rows=$most; }
work=$(mktemp -d)
child=
trap 'rm -rf "$work"; [ -z "$child" ] || kill "$child" 2>/dev/null' EXIT
trap 'exit 143' HUP INT TERM
failed=0
# of LANGUAGE COMMAND..: its lines go to the table; says how long it took, and its memory at the peak, as Linux has it
of() {
    language=$1
    shift
    begin=$(date +%s)
    "$@" "$rows" "$turns" $threads >>"$work/lines" &
    child=$! peak=0
    while seen=$(sed -n 's/^VmHWM:[^0-9]*\([0-9]*\) kB/\1/p' "/proc/$child/status" 2>/dev/null) && [ "$seen" ]; do
        peak=$seen
        sleep 0.1
    done
    wait "$child" || failed=1
    child=
    echo "$language: $(($(date +%s) - begin)) s, $((peak / 1024)) MiB at the peak" | tee -a "$work/costs" >&2
}
threads=$*
: >"$work/lines" >"$work/costs"

if command -v "${CXX:-c++}" >/dev/null; then
    "${CXX:-c++}" -std=c++17 -O2 -pthread -I"$top/include" "$top/bench/threads/threads.cpp" \
        "$library/libhivevigil.a" -o "$work/threads"
    of C++ "$work/threads"
else
    echo "skipped: C++, no ${CXX:-c++}" >&2
fi
if command -v cargo >/dev/null; then
    export CARGO_TARGET_DIR="${CARGO_TARGET_DIR:-$top/bench/target}"
    cargo build --quiet --offline --release --manifest-path "$top/rust/Cargo.toml" --example threads
    of Rust cargo run --quiet --offline --release --manifest-path "$top/rust/Cargo.toml" \
        --example threads --
else
    echo "skipped: Rust, no cargo" >&2
fi
for python in "${PYTHON:-python3}" /usr/bin/python3; do
    "$python" -c 'import numpy' 2>/dev/null && break
    python=
done
if [ "$python" ]; then
    of Python "$python" "$top/bench/threads/threads.py"
else
    echo "skipped: Python, no NumPy" >&2
fi

processor=$(sed -n 's/^model name[^:]*: //p' /proc/cpuinfo | head -n 1)
proof=proved
[ ! -e "$library/UNPROVED" ] || proof="built without proof, with checks that the proved one does without"
commit=$(git -C "$top" rev-parse --short HEAD 2>/dev/null || echo unknown)
sum=$(sha256sum "$library/libhivevigil.so" 2>/dev/null | cut -c 1-12)
echo "library: $library" >&2
echo "$(date -u +%Y-%m-%d), ${processor:-$(uname -m)}, $(nproc) processors."
echo "Rows: $rows; bench/threads/run.sh of commit $commit. The library: $proof, SHA-256 ${sum:-unknown}..." |
    fold -s -w 116 | sed 's/ *$//'
echo "Milliseconds of the clock, the least of $turns turns, by number of threads."
echo
awk -F, -v threads="$threads" '
    { key = $1 "," $2; if (!(key in seen)) { seen[key] = 1; order[++count] = key } time[key, $3] = $4 / 1000 }
    END {
        n = split(threads, of, " ")
        head = "| | Operation |"; line = "|---|---|"
        for (i = 1; i <= n; i++) { head = head " " of[i] " |"; line = line "---|" }
        print head; print line
        for (i = 1; i <= count; i++) {
            split(order[i], part, ",")
            row = "| " part[1] " | " part[2] " |"
            for (j = 1; j <= n; j++) row = row sprintf(" %.1f |", time[order[i], of[j]])
            print row
        }
    }' "$work/lines"
echo
cat "$work/costs"
exit "$failed"
