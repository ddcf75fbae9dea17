#!/bin/sh
# Uses the library as its users do, each time in an empty folder outside of the checkout, only from what was installed:
#     sh examples/packages.sh c | cpp | rust | uninstall      after install.sh into that folder
#     sh examples/packages.sh tar | deb | program | python | databases | wheel | site | sums DIST
#                                                            from the packages of dist.sh in DIST
# Nothing is installed outside of that folder, which is removed, and no network is used.
set -eu
top=$(cd "$(dirname "$0")/.." && pwd)
cc=${CC:-cc} cxx=${CXX:-c++}
what=${1:-}
interface=$(sed -E 's/^(0\.[0-9]+|[1-9][0-9]*)\..*/\1/' "$top/VERSION")
dist=${2:-$top/dist}
work=$(mktemp -d)
trap 'rm -rf "$work"' EXIT
mkdir "$work/user"
cd "$work/user"

fail() { echo "$1" >&2; exit 1; }
# expect TEXT COMMAND..: the command says just that
expect() {
    text=$1
    shift
    said=$("$@") || fail "$* ended with $?"
    [ "$said" = "$text" ] || fail "$* said '$said' and not '$text'"
}
installed() { sh "$top/install.sh" --prefix "$work/prefix" >/dev/null 2>&1; }

# a C program by pkg-config over the files below $1, by the shared object and by the archive
c_program() {
    PKG_CONFIG_PATH=$(dirname "$(find "$1" -name hivevigil.pc)")
    export PKG_CONFIG_PATH
    cp "$top/examples/c/first.c" program.c
    said='9 rows, sum 62
refused: rows 2 to 12 are not among 9 rows'
    # shellcheck disable=SC2046
    "$cc" -std=c11 program.c $(pkg-config --cflags --libs hivevigil) -o program
    expect "$said" env LD_LIBRARY_PATH="$(pkg-config --variable=libdir hivevigil)" ./program
    # shellcheck disable=SC2046
    "$cc" -std=c11 program.c $(pkg-config --cflags hivevigil) "$(pkg-config --variable=libdir hivevigil)/libhivevigil.a" \
        -o program
    expect "$said" ./program
    # the schema by which others read columns as bytes, and messages to try them on
    pages=$(pkg-config --variable=prefix hivevigil)/share/doc/hivevigil
    grep -q '^message Column' "$pages/column.proto" || fail "no schema of messages is installed"
    grep -q "^message Table" "$pages/table.proto" || fail "no schema of tables is installed"
    # shellcheck disable=SC2046
    "$cc" -std=c11 "$top/examples/c/corpus.c" "-I$top/examples/c" $(pkg-config --cflags hivevigil) \
        "$(pkg-config --variable=libdir hivevigil)/libhivevigil.a" -o corpus
    ./corpus "$pages/messages.txt" "$pages/typed.txt" >corpus.log 2>&1 || fail "stored messages: $(tail -n 2 corpus.log)"
    for part in tables differences; do
        cmp -s "$pages/$part.txt" "$top/examples/corpus/$part.txt" || fail "no $part.txt of stored tables is installed"
    done
    echo "Hivevigil $(pkg-config --modversion hivevigil) by pkg-config, shared object and archive"
}

# the program that the page $1 shows, built and run as it says
readme_program() {
    sed -n '/^    #include/,/^    }$/s/^    //p' "$1" >first.c
    (
        export PKG_CONFIG_PATH="$work/prefix/lib/pkgconfig" LD_LIBRARY_PATH="$work/prefix/lib"
        # shellcheck disable=SC2046
        "$cc" first.c $(pkg-config --cflags --libs hivevigil) -o first
        expect '9 rows, sum 62' ./first
    )
}

# a C++ program by CMake over what is installed below $1
cpp_program() {
    cat >main.cpp <<'CPP'
#include <hivevigil_table.hpp>
#include <iostream>
int main() {
    const hv::Table table{{"level", hv::Column::of(std::vector<int64_t>{4, 4, 4, 7, 7, 9}).encode()}};
    for (const hv::Run &run : table["level"].runs()) std::cout << run.size() << " of " << std::get<int64_t>(run.value) << "\n";
}
CPP
    cat >CMakeLists.txt <<'CMAKE'
cmake_minimum_required(VERSION 3.10)
project(user CXX)
set(CMAKE_CXX_STANDARD 17)
find_package(Hivevigil INTERFACE REQUIRED)
foreach(library hivevigil archive)
  add_executable(by_${library} main.cpp)
  target_link_libraries(by_${library} Hivevigil::${library})
endforeach()
CMAKE
    sed -i "s/INTERFACE/$interface/" CMakeLists.txt
    cmake -S . -B build -DCMAKE_PREFIX_PATH="$1" -DCMAKE_CXX_COMPILER="$cxx" >cmake.log 2>&1 &&
        cmake --build build >>cmake.log 2>&1 || { cat cmake.log; exit 1; }
    for library in hivevigil archive; do
        expect '3 of 4
2 of 7
1 of 9' "build/by_$library"
    done
    sed -i "s/Hivevigil $interface REQUIRED/Hivevigil 9.9 REQUIRED/" CMakeLists.txt
    ! cmake -S . -B other -DCMAKE_PREFIX_PATH="$1" >cmake.log 2>&1 || fail "CMake took another version"
    echo "find_package(Hivevigil), by shared object and archive"
}

# a package that depends on the crate in folder $1, which finds the library next to it, or by pkg-config
rust_program() {
    mkdir -p src
    export CARGO_TARGET_DIR="$work/target" CARGO_NET_OFFLINE=true
    printf '[package]\nname = "user"\nversion = "0.1.0"\nedition = "2021"\n\n[workspace]\n' >Cargo.toml
    cat >src/main.rs <<'RUST'
fn main() -> Result<(), Box<dyn std::error::Error>> {
    let column = hivevigil::Column::try_from(&[Some(4i64), Some(4), None][..])?.encode()?;
    for run in column.runs()? {
        let run = run?;
        println!("{:?}: {}", run.rows, run.value);
    }
    Ok(())
}
RUST
    cargo add --quiet --path "$1" hivevigil
    expect '0..2: 4
2..3: null' cargo run --quiet
    echo "cargo add --path $(basename "$1")"
}

# the program $1 by itself, its page below the folder of manuals $2, and its completions, which are next to that folder
command_line() {
    printf 'place,count\nOslo,4\nOslo,4\n"a, b",7\n' >towns.csv
    expect 'column  type   rows  nulls  runs  bytes flat  bytes in runs
place   utf8?     3      0     2          84             58
count   i32?      3      0     2          12             10
96 bytes flat, 68 in runs' env -i "$1" report towns.csv
    env -i "$1" convert towns.csv --column count --to count.hv
    expect 15 env -i "$1" query count.hv sum
    expect 7 env -i "$1" query count.hv filter '> 4'
    page "$2" hivevigil 1
    completions=$2/../bash-completion/completions/hivevigil
    [ -f "$completions" ] || fail "no $completions"
    ! command -v bash >/dev/null || expect head bash -euc "source '$completions'; COMP_WORDS=(hivevigil he); COMP_CWORD=1
        _hivevigil; echo \"\${COMPREPLY[@]}\""
    echo "$("$1" --version), and its page of the manual"
}
# page FOLDER NAME SECTION: man finds the page below the folder, and has nothing to say against it
page() {
    command -v man >/dev/null || { echo "no man: the page $2($3) is not shown"; return 0; }
    shown=$(LC_ALL=C.UTF-8 MANPATH="$1" man --warnings "$3" "$2" 2>&1) || fail "man $3 $2: $shown"
    echo "$shown" | grep -q '^SEE ALSO' || fail "man $3 $2 ends early"
    said=$(LC_ALL=C.UTF-8 MANPATH="$1" man --warnings "$3" "$2" 2>&1 >/dev/null)
    [ -z "$said" ] || fail "man $3 $2: $said"
}

python_program() {
    python=${PYTHON:-python3}
    "$python" -m venv "$work/venv"
    "$work/venv/bin/pip" install --quiet --disable-pip-version-check --no-index --no-deps "$dist"/hivevigil-*.whl
    expect "62 [4, 7]" "$work/venv/bin/python" -c '
from hivevigil import Column
runs = Column.of([4, 4, 4, 7, 7, 9, 9, 9, 9]).encode()
print(runs.sum(), runs[2:4].to_list())'
    types=skipped
    for checker in "$python" /usr/bin/python3; do
        "$checker" -c 'import mypy' 2>/dev/null || continue
        cp "$top/python/tests/typed_use.py" program.py
        "$checker" -m mypy --strict --ignore-missing-imports --allow-subclassing-any --python-executable \
            "$work/venv/bin/python" --cache-dir "$work/types" -m program -p hivevigil >types.log || { cat types.log; exit 1; }
        types=found
        break
    done
    [ "$types" = found ] || echo "no mypy: the types of the installed package are not looked at"
    wheel=$(basename "$dist"/hivevigil-*.whl)
    # the machines that it says it is for are those that have what the shared object asks of glibc
    if command -v objdump >/dev/null; then
        found=$(objdump -T "$work"/venv/lib/python*/site-packages/hivevigil/libhivevigil.so |
            grep -o 'GLIBC_[0-9.]*' | sort -uV | tail -n 1 | sed 's/GLIBC_//; s/\./_/')
        case $wheel in *-py3-none-manylinux_"$found"_"$(uname -m)".whl) ;; *) fail "$wheel, and glibc $found" ;; esac
    fi
    echo "pip install of $wheel"
}

# the extensions of the databases: SQLite's is loaded, of PostgreSQL's all that a server looks for is there
databases() {
    for package in "$dist"/libsqlite3-mod-hivevigil_*.deb "$dist"/postgresql-*-hivevigil_*.deb; do
        [ ! -e "$package" ] || dpkg-deb --extract "$package" "$work/root"
    done
    if [ -e "$work/root/usr/lib/sqlite3" ] && command -v sqlite3 >/dev/null; then
        expect 62 sqlite3 :memory: ".load $work/root/usr/lib/sqlite3/hivevigil_sqlite" \
            "SELECT hv_sum(hv_column(column1)) FROM (VALUES (4), (4), (4), (7), (7), (9), (9), (9), (9))"
        echo "SQLite's extension is loaded"
    fi
    [ -e "$work/root/usr/lib/postgresql" ] || return 0
    for file in hivevigil.so hivevigil.control hivevigil--1.0.sql hivevigil--1.0--1.1.sql; do
        [ "$(find "$work/root" -name "$file" | wc -l)" = 1 ] || fail "no $file in PostgreSQL's package"
    done
    bin=$(pg_config --bindir 2>/dev/null) || bin=
    if [ -x "$bin/postgres" ] && { [ "$(id -u)" != 0 ] || command -v runuser >/dev/null; }; then
        postgres_server "$bin"
    else
        echo "PostgreSQL's extension is whole, and there is no server that takes it"
    fi
}

# a server of its own, whose programs are in folder $1, and which finds the extension next to them
postgres_server() {
    lib=$(pg_config --pkglibdir) share=$(pg_config --sharedir) as=
    [ "$(id -u)" != 0 ] || as="runuser -u nobody --"
    mkdir -p "$work/root$1" "$work/root$lib" "$work/root$share/extension" "$work/socket"
    cp "$1/postgres" "$1/initdb" "$1/pg_ctl" "$work/root$1/"
    for folder in "$lib" "$share" "$share/extension"; do
        for each in "$folder"/*; do [ -e "$work/root$each" ] || ln -s "$each" "$work/root$each"; done
    done
    [ -z "$as" ] || chown -R nobody "$work"
    $as env LC_ALL=C "$work/root$1/initdb" -D "$work/data" -U tester -E UTF8 --no-sync --auth=trust >server.log 2>&1 &&
        $as env LC_ALL=C "$work/root$1/pg_ctl" -D "$work/data" -w -l "$work/socket/log" \
            -o "-k $work/socket -c listen_addresses=" start >>server.log 2>&1 || fail "no server: $(cat server.log)"
    trap '$as "$work/root$1/pg_ctl" -D "$work/data" -m fast -w stop >/dev/null 2>&1; rm -rf "$work"' EXIT
    said=$($as "$1/psql" -X -q -A -t -h "$work/socket" -U tester -d postgres -c 'CREATE EXTENSION hivevigil' \
        -c 'SELECT hv_sum(hv_column(v)) FROM (VALUES (4), (4), (4), (7), (7), (9), (9), (9), (9)) AS t(v)' 2>&1) || true
    $as "$work/root$1/pg_ctl" -D "$work/data" -m fast -w stop >/dev/null 2>&1
    trap 'rm -rf "$work"' EXIT
    [ "$said" = 62 ] || fail "PostgreSQL said '$said' and not 62"
    echo "PostgreSQL creates its extension"
}

case $what in
c) installed && c_program "$work/prefix" ;;
cpp) installed && cpp_program "$work/prefix" ;;
rust)
    mkdir crate
    for part in Cargo.toml build.rs src; do cp -R "$top/rust/$part" crate/; done
    export PKG_CONFIG_PATH="$work/prefix/lib/pkgconfig"
    installed && rust_program crate
    ;;
uninstall)
    mkdir -p "$work/prefix/lib" "$work/prefix/include"
    echo mine >"$work/prefix/lib/mine"
    before=$(find "$work/prefix" | sort)
    sh "$top/install.sh" --prefix "$work/prefix" --libdir lib/other >/dev/null 2>&1
    installed
    [ "$(find "$work/prefix" -type f | wc -l)" -gt 8 ] || fail "little was installed"
    [ ! -e "$work/prefix/lib/other" ] || fail "the earlier install was left beside the later"
    sh "$top/install.sh" --prefix "$work/prefix" --uninstall
    after=$(find "$work/prefix" | sort)
    [ "$after" = "$before" ] || fail "before: $before, after: $after"
    ! sh "$top/install.sh" --prefix "$work/prefix" --uninstall 2>/dev/null || fail "taken away twice"
    ;;
tar)
    tar -xzf "$dist"/hivevigil-*-"$(uname -m)".tar.gz
    sh hivevigil-*/install.sh --prefix "$work/prefix" >/dev/null 2>&1
    readme_program "$(echo hivevigil-*/README.md)"
    [ ! -e "$work/prefix/bin" ] || command_line "$work/prefix/bin/hivevigil" "$work/prefix/share/man"
    ! command -v cmake >/dev/null || ! command -v "$cxx" >/dev/null || cpp_program "$work/prefix"
    ! command -v cargo >/dev/null || rust_program "$(echo hivevigil-*/rust)"
    c_program "$work/prefix"
    ;;
deb)
    dpkg-deb --extract "$dist"/libhivevigil-dev_*.deb "$work/root"
    dpkg-deb --info "$dist"/libhivevigil-dev_*.deb | grep -q '^ Package: libhivevigil-dev$'
    for name in hivevigil hv_sum hv_version; do page "$work/root/usr/share/man" "$name" 3; done
    ! command -v cmake >/dev/null || ! command -v "$cxx" >/dev/null || cpp_program "$work/root/usr"
    c_program "$work/root"
    ;;
program)
    dpkg-deb --extract "$dist"/hivevigil_*.deb "$work/root"
    command_line "$work/root/usr/bin/hivevigil" "$work/root/usr/share/man"
    ;;
python)
    dpkg-deb --extract "$dist"/python3-hivevigil_*.deb "$work/root"
    expect "62 [4, 7]" env PYTHONPATH="$work/root/usr/lib/python3/dist-packages" "${PYTHON:-python3}" -c '
from hivevigil import Column
runs = Column.of([4, 4, 4, 7, 7, 9, 9, 9, 9]).encode()
print(runs.sum(), runs[2:4].to_list())'
    echo "the Debian package of Python"
    ;;
databases) databases ;;
wheel) python_program ;;
site)
    tar -xzf "$dist"/hivevigil-*-doc.tar.gz
    for page in index.html c.html docs/PROGRAM.html crates/runend_array.html; do
        [ -s "$(echo hivevigil-*-doc)/$page" ] || fail "no $page in the site"
    done
    "${PYTHON:-python3}" -B "$top/tools/website.py" --check hivevigil-*-doc
    ;;
sums)
    (cd "$dist" && sha256sum --quiet --check SHA256SUMS)
    "${PYTHON:-python3}" -m json.tool "$dist"/hivevigil-*.spdx.json >/dev/null || fail "the list of parts is not JSON"
    [ "$(wc -l <"$dist/SHA256SUMS")" = "$(($(find "$dist" -type f | wc -l) - 1))" ] || fail "a package has no checksum"
    sh "$top/dist.sh" "$work/again" >/dev/null 2>&1
    diff "$dist/SHA256SUMS" "$work/again/SHA256SUMS" || fail "made again, the packages are others"
    echo "$(wc -l <"$dist/SHA256SUMS") packages have their checksums, and the same when made again"
    ;;
*)
    fail "sh examples/packages.sh c | cpp | rust | uninstall, \
or tar | deb | program | python | databases | wheel | site | sums DIST"
    ;;
esac
