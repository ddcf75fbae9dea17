#!/bin/sh
# Measures all that docs/PERFORMANCE.md says up to "Growth with rows" over the proved library in lib/ (or in the folder
# that HIVEVIGIL_LIB names), and makes the page of bench/results/ of today, docs/PERFORMANCE.md and the sentence of
# README.md of it: within a quarter of an hour, on one core that does nothing else.
#     CORE=3 sh bench/publish.sh
# It makes three rounds, or fewer where another would end after 840 seconds (SECONDS_AT_MOST=N in the environment: after
# N). What was measured is kept in bench/target/published.
# The status is 1 where an answer differs or the library is one without proof; then no page is written.
set -eu
top=$(cd "$(dirname "$0")/.." && pwd)
library=${HIVEVIGIL_LIB:-$top/lib}
if [ -e "$library/UNPROVED" ]; then
    echo "bench: $library is built without proof, and its times are not published" >&2
    exit 1
fi
begin=$(date +%s)
most=${SECONDS_AT_MOST:-840}
measured=$top/bench/target/published
mkdir -p "$measured"
for table in sizes growth; do
    sh "$top/bench/run.sh" "--$table" >"$measured/$table.out"
    grep '^|' "$measured/$table.out" >"$measured/$table.md"
done
left=$((most - ($(date +%s) - begin)))
[ "$left" -gt 0 ] || left=0
sh "$top/bench/run.sh" --rounds 3 --turns 5 --seconds "$left" >"$measured/tables.md"
python3 "$top/tools/bench_page.py" "$measured"
echo "bench: published in $(($(date +%s) - begin)) s"
