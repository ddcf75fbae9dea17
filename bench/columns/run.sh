#!/bin/sh
# The same questions to columns in runs and to tools that keep rows or runs: hivevigil (Python), NumPy, pandas, SQLite,
# PostgreSQL and R's S4Vectors; answers compared, times, sizes and memory as Markdown. From any folder, over
# lib/libhivevigil.so (or that of the folder that HIVEVIGIL_LIB names):
#     sh bench/columns/run.sh >page.md                            10,000,000 rows in runs of 3, 16 and 200 rows: some
#                                                                 fifteen minutes, 3 GB of memory, 2 GB of the disk
#     sh bench/columns/run.sh --rows 100000 --turns 1 >page.md
#     sh bench/columns/run.sh --only hivevigil,NumPy >page.md     these tools only
#     sh bench/columns/run.sh --smoke                             few rows, in seconds: do all tools answer the same?
# Needs Python with NumPy. Any other tool that the machine lacks is named and skipped; nothing is installed. The status
# is 1 where an answer differs or is missing, and never by time. CORE=3 in the environment runs only on core 3.
# Debian: apt-get install python3-numpy python3-pandas postgresql r-bioc-s4vectors r-bioc-iranges
set -eu
here=$(cd "$(dirname "$0")" && pwd)
top=$(cd "$here/../.." && pwd)
library=${HIVEVIGIL_LIB:-$top/lib}
fail() {
    echo "columns: $1" >&2
    exit 2
}
[ -e "$library/libhivevigil.so" ] || fail "no $library/libhivevigil.so: sh examples/build.sh makes it"
for python in "${PYTHON:-python3}" /usr/bin/python3; do
    "$python" -c 'import numpy' 2>/dev/null && break
    python=
done
[ "$python" ] || fail "no Python with NumPy"
library=$(cd "$library" && pwd)
export HIVEVIGIL_SO="$library/libhivevigil.so" PYTHONPATH="$top/python${PYTHONPATH:+:$PYTHONPATH}"
exec ${CORE:+taskset -c "$CORE"} "$python" -B "$here/columns.py" "$@"
