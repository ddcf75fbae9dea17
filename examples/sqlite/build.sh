#!/bin/sh
# Builds hivevigil_sqlite.so, the extension for SQLite, from lib/libhivevigil.a. From any folder:
#     sh examples/sqlite/build.sh [FOLDER]        into FOLDER, or lib/
# Needs a C compiler and SQLite's sqlite3ext.h (Debian: libsqlite3-dev).
set -eu
top=$(cd "$(dirname "$0")/../.." && pwd)
folder=${1:-$top/lib}
cd "$top"
[ -e lib/libhivevigil.a ] || { echo "sqlite: no lib/libhivevigil.a: sh examples/build.sh makes it" >&2; exit 1; }
work=$(mktemp -d)
trap 'rm -rf "$work"' EXIT
echo '{ global: sqlite3_hivevigilsqlite_init; local: *; };' >"$work/exports"
${CC:-cc} -std=c11 -O2 -Wall -Wextra -Werror -shared -fPIC -Iinclude examples/sqlite/functions.c \
    examples/sqlite/pairs.c examples/sqlite/appends.c examples/sqlite/steps.c examples/sqlite/*_table.c \
    examples/engines/*.c lib/libhivevigil.a \
    -Wl,--version-script="$work/exports" -Wl,--no-undefined -lm -o "$work/hivevigil_sqlite.so"
mv "$work/hivevigil_sqlite.so" "$folder/"
ls -l "$folder/hivevigil_sqlite.so"
