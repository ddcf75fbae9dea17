#!/bin/sh
# Do masks, indices, codes and comparisons in short runs lose by staying in runs? Asks each question in runs and as calls
# worked before they read runs, over a million rows in runs of 1, 3, 16 and 200 rows (short.c), by processor time. From
# any folder, over lib/libhivevigil.a, or that of the folder that HIVEVIGIL_LIB names:
#     CORE=3 sh bench/short/run.sh       the table as Markdown, in half a minute, measured on core 3
set -eu
here=$(cd "$(dirname "$0")" && pwd)
top=$(cd "$here/../.." && pwd)
library=${HIVEVIGIL_LIB:-$top/lib}
if ! [ -e "$library/libhivevigil.a" ]; then
    echo "short: no $library/libhivevigil.a: sh examples/build.sh makes it" >&2
    exit 2
fi
work=$(mktemp -d)
trap 'rm -rf "$work"' EXIT
trap 'exit 143' HUP INT TERM
${CC:-cc} -std=gnu11 -O2 -Wall -Wextra -Werror "-I$top/include" "$here/short.c" "$library/libhivevigil.a" -o "$work/short"
${CORE:+taskset -c "$CORE"} "$work/short" >"$work/table"
[ -e "$library/UNPROVED" ] && echo "over a library that was built without proof, whose checks take time" >&2
cat "$work/table"
