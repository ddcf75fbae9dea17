#!/bin/sh
# Builds the extension, starts a server of its own in a temporary folder, as an ordinary user and on a socket there
# alone, runs test.sql in it, and ends it. Nothing of the machine's PostgreSQL is changed. From any folder:
#     sh examples/postgres/test.sh [CALLS]        CALLS: how many calls fail in the loop that looks for lost memory
#     sh examples/postgres/test.sh --figures [ROWS]
#     sh examples/postgres/test.sh --sensors [SENSORS [DAYS]]    the figures of SENSORS.md
# Needs PostgreSQL, its headers and make; as root it also needs runuser, since a server does not run as root.
set -eu
here=$(cd "$(dirname "$0")" && pwd)
top=$(cd "$here/../.." && pwd)
config=${PG_CONFIG:-pg_config}
file=test.sql
[ "${1:-}" = --figures ] && file=figures.sql && shift
[ "${1:-}" = --sensors ] && file=sensors.sql && shift
count=${1:-}
fail() {
    echo "postgres: $1" >&2
    exit 1
}
[ -e "$top/lib/libhivevigil.a" ] || fail "no lib/libhivevigil.a: sh examples/build.sh makes it"
bin=$("$config" --bindir) lib=$("$config" --pkglibdir) share=$("$config" --sharedir)

work=$(mktemp -d)
as=
[ "$(id -u)" = 0 ] && as="runuser -u nobody --"
# server NAME ARGUMENTS..: its data and its socket are in a folder of this name
server() {
    of=$work/$1
    shift
    $as env LC_ALL=C "$work/root$bin/pg_ctl" -D "$of/data" "$@"
}
finish() {
    for name in one other; do
        [ -e "$work/$name/data/postmaster.pid" ] && server "$name" -m fast -w stop >/dev/null 2>&1
    done
    rm -rf "$work"
}
trap finish EXIT
trap 'exit 143' HUP INT TERM

# the sources, built away from them
mkdir -p "$work/build/examples" "$work/build/lib"
cp -r "$here" "$top/examples/engines" "$work/build/examples/"
cp -r "$top/include" "$work/build/"
cp "$top/lib/libhivevigil.a" "$work/build/lib/"
build() { make -s -C "$work/build/examples/postgres" PG_CONFIG="$config" with_llvm=no "$@" >"$work/log" 2>&1; }
build || fail "the extension does not compile: $(cat "$work/log")"
# A server looks for extensions next to its program. So the programs are copied, and all else is linked next to them.
mkdir -p "$work/root$bin" "$work/root$lib" "$work/root$share/extension"
cp "$bin/postgres" "$bin/initdb" "$bin/pg_ctl" "$work/root$bin/"
for folder in "$lib" "$share" "$share/extension"; do
    for each in "$folder"/*; do
        [ -e "$work/root$each" ] || ln -s "$each" "$work/root$each"
    done
done
build DESTDIR="$work/root" install || fail "the extension is not installed: $(cat "$work/log")"

options="-c listen_addresses= -c fsync=off -c max_parallel_workers=8 -c max_worker_processes=16"
started() {
    mkdir -p "$work/$1/socket"
    [ "$as" ] && chown -R nobody "$work"
    $as env LC_ALL=C "$work/root$bin/initdb" -D "$work/$1/data" -U tester -E UTF8 --no-sync --auth=trust \
        >"$work/log" 2>&1 && server "$1" -w -l "$work/$1/server.log" -o "-k $work/$1/socket $options" start \
        >"$work/log" 2>&1 || fail "no server: $(cat "$work/log" "$work/$1/server.log")"
}
ask_of() {
    name=$1
    shift
    $as env LC_ALL=C.UTF-8 "$bin/psql" -X -q -h "$work/$name/socket" -U tester -v ON_ERROR_STOP=1 "$@"
}
ask() { ask_of one -d postgres "$@"; }
scripts=$work/build/examples/postgres
# a database that was dumped and restored answers as it did
restored() {
    answers="SELECT c::text FROM p UNION ALL SELECT c::text FROM q UNION ALL SELECT hv_sum(c)::text FROM p UNION ALL
        SELECT c::text || d::text FROM fp"
    ask -c "CREATE DATABASE restored"
    $as "$bin/pg_dump" -h "$work/one/socket" -U tester postgres >"$work/dump" || fail "no dump"
    ask_of one -d restored <"$work/dump" >"$work/log" 2>&1 || fail "not restored: $(cat "$work/log")"
    ask -At -c "$answers" >"$work/before"
    ask_of one -At -d restored -c "$answers" | cmp - "$work/before" >&2 || fail "a column is another after it was restored"
}
# a database that has the version before keeps its columns, and gets the new types
updated() {
    ask -c "CREATE DATABASE updated"
    found=$(ask_of one -d updated -At -c "CREATE EXTENSION hivevigil VERSION '1.0'" \
        -c "CREATE TABLE kept AS SELECT hv_column(g) AS c FROM generate_series(1, 4) g" \
        -c "ALTER EXTENSION hivevigil UPDATE TO '1.1'" -c "ALTER EXTENSION hivevigil UPDATE TO '1.2'" \
        -c "ALTER EXTENSION hivevigil UPDATE" \
        -c "SELECT hv_sum(hv_cast(c, 'tdD')), pg_typeof(hv_column(0.5)), hv_logical_type(hv_column(0.5::real)) \
            FROM kept GROUP BY c")
    [ "$found" = "10|hvfloat8|f" ] || fail "an update of the extension leaves $found"
}
# columns with a logical type as bytes by hand, and what is answered of them
typed_questions() {
    if command -v python3 >/dev/null; then python3 -B "$top/examples/engines/typed_test.py" postgres
    else echo "SELECT 'PostgreSQL: no python3 to make columns with a logical type by hand';"; fi
}
# columns of 2^40 rows in a few runs, held against a model in Python
long_questions() {
    if command -v python3 >/dev/null; then python3 -B "$top/examples/engines/long_test.py" postgres
    else echo "SELECT 'PostgreSQL: no python3 for a model of columns of 2^40 rows';"; fi
}
# sharded SENSORS DAYS [STAMPS]: a year of sensors, and then the same over two servers, with answers compared
sharded() {
    started other
    ask_of one -d postgres -c "CREATE DATABASE shard"
    ask_of other -d postgres -c "CREATE DATABASE shard"
    ask_of one -d shard -f "$scripts/shard.sql"
    ask_of other -d shard -f "$scripts/shard.sql"
    ask -At -v "sensors=$1" -v "days=$2" ${3:+-v "stamps=$3"} -f "$scripts/sensors.sql"
    ask -At -v "folder=$work/one/socket" -v "other=$work/other/socket" -f "$scripts/shards.sql"
}
started one
case $file in
sensors.sql)
    ask -f "$scripts/same.sql"
    sharded "${count:-20}" "${2:-365}"
    ;;
figures.sql) ask ${count:+-v "count=$count"} -At -f "$scripts/figures.sql" ;;
*)
    ask -f "$scripts/same.sql"
    ask ${count:+-v "count=$count"} -v "folder=$work/one/socket" -At -f "$scripts/test.sql"
    ask -At -f "$scripts/test_steps.sql"
    ask -v "folder=$work/one/socket" -At -f "$scripts/test_floats.sql"
    ask -At -f "$scripts/test_types.sql"
    typed_questions >"$work/typed.sql" || fail "no questions of columns with a logical type"
    ask -At <"$work/typed.sql"
    long_questions >"$work/long.sql" || fail "no questions of columns of 2^40 rows"
    ask -At <"$work/long.sql"
    ask -At -f "$scripts/test_timeouts.sql" 2>"$work/log" || fail "a statement is not ended in time: $(cat "$work/log")"
    sharded 5 12 10000 >"$work/sensors"
    tail -n 1 "$work/sensors"
    restored
    updated
    ;;
esac
