#!/bin/sh
# Which calls of include/hivevigil.h cost more where there are more rows in as many runs? Each call is timed over
# columns of 2^10 to 2^60 rows in five runs, of each kind of rows, within 0.4 s and 256 MiB (growth.c). From any folder,
# over lib/libhivevigil.a, or that of the folder that HIVEVIGIL_LIB names:
#     sh bench/growth/run.sh             the table as Markdown, and the calls that grow, in a few seconds
#     sh bench/growth/run.sh --page      puts the table into docs/PERFORMANCE.md
#     sh bench/growth/run.sh --check     the status is 1 where a call grows that bench/growth/grows does not name
set -eu
here=$(cd "$(dirname "$0")" && pwd)
top=$(cd "$here/../.." && pwd)
library=${HIVEVIGIL_LIB:-$top/lib}
page=$top/docs/PERFORMANCE.md
if ! [ -e "$library/libhivevigil.a" ]; then
    echo "growth: no $library/libhivevigil.a: sh examples/build.sh makes it" >&2
    exit 2
fi
work=$(mktemp -d)
trap 'rm -rf "$work"' EXIT
trap 'exit 143' HUP INT TERM
${CC:-cc} -std=gnu11 -O2 -Wall -Wextra -Werror "-I$top/include" "$here/growth.c" "$library/libhivevigil.a" \
    -Wl,--wrap=malloc,--wrap=calloc,--wrap=realloc,--wrap=free -o "$work/growth"
"$work/growth" >"$work/table" 2>"$work/said" || { cat "$work/said" >&2; exit 2; }
case ${1:-} in
--check)
    tail -n 1 "$work/said"
    for call in $(sed 's/.*: *//' "$work/said"); do
        grep -qw "$call" "$here/grows" || { echo "growth: $call grows with rows" >&2; exit 1; }
    done ;;
--page)
    awk -v table="$work/table" '
        /^\| Call \| Kinds \| 2\^10 rows / { inside = 1; while ((getline line < table) > 0) print line; next }
        inside && /^\|/ { next }
        { inside = 0; print }' "$page" >"$work/page"
    cat "$work/page" >"$page"
    tail -n 1 "$work/said" >&2 ;;
*)
    [ -e "$library/UNPROVED" ] && echo "over a library that was built without proof, whose checks take time" >&2
    cat "$work/table"
    tail -n 1 "$work/said" >&2 ;;
esac
