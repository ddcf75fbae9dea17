#!/bin/sh
# Makes packages of the built library, for machines that have neither the toolchain nor an hour:
#     sh dist.sh [FOLDER]             into FOLDER, or dist/
#     sh dist.sh --site [FOLDER]      only the documentation, as static HTML in FOLDER/site
# A .tar.gz with install.sh and all that it puts in place, the Rust crate in it; a Python wheel; Debian packages of the
# program, the library, the Python package, and the extensions of SQLite and PostgreSQL; the documentation as a site;
# what is in them (SPDX), and their checksums.
# Their version is that of the file VERSION, with +unproved after it where the library was built without proof. The same
# library gives the same bytes: times are those of SOURCE_DATE_EPOCH, or of the last commit.
# What the machine lacks (a C++ compiler, dpkg-deb, setuptools and wheel, headers of a database, python3-markdown) is
# named and skipped. Nothing is installed.
set -eu
top=$(cd "$(dirname "$0")" && pwd)
only_site=
[ "${1:-}" != --site ] || { only_site=1; shift; }
out=${1:-$top/dist}
mkdir -p "$out"
out=$(cd "$out" && pwd)
for library in libhivevigil.a libhivevigil.so; do
    [ -e "$top/lib/$library" ] || { echo "dist: no lib/$library: sh examples/build.sh makes it" >&2; exit 1; }
done
version=$(cat "$top/VERSION")
[ ! -e "$top/lib/UNPROVED" ] || version=$version+unproved
machine=$(uname -m)
work=$(mktemp -d)
trap 'rm -rf "$work"' EXIT
umask 022
time_of_sources() { git -C "$top" log -1 --format=%ct 2>/dev/null || stat -c %Y "$top/VERSION"; }
SOURCE_DATE_EPOCH=${SOURCE_DATE_EPOCH:-$(time_of_sources)}
export SOURCE_DATE_EPOCH

has() { command -v "$1" >/dev/null 2>&1; }
# is the C library in the program $1?
is_static() { ! ldd "$1" >/dev/null 2>&1; }

# what install.sh needs, as it is in a checkout
make_tar() {
    name=hivevigil-$version-$machine
    mkdir -p "$work/$name/tools" "$work/$name/rust" "$work/$name/docs"
    cp -R "$top/include" "$top/lib" "$top/man" "$top/LICENSE" "$top/VERSION" "$top/install.sh" "$work/$name/"
    rm -f "$work/$name/lib/"*_sqlite.so
    [ ! -e "$work/bin" ] || cp -R "$work/bin" "$work/$name/"
    cp -R "$top/tools/packages" "$work/$name/tools/"
    sed -e "s|@VERSION@|$version|" -e "s|@MACHINE@|$machine|" "$top/tools/packages/README.md" >"$work/$name/README.md"
    for page in ABI.md BYTES.md ERRORS.md PROMISE.md column.proto table.proto; do cp "$top/docs/$page" "$work/$name/docs/"; done
    mkdir -p "$work/$name/examples/corpus"
    for part in messages typed tables differences; do
        cp "$top/examples/corpus/$part.txt" "$work/$name/examples/corpus/"
    done
    for part in Cargo.toml build.rs src tests examples; do cp -R "$top/rust/$part" "$work/$name/rust/"; done
    tar -C "$work" --sort=name --mtime="@$SOURCE_DATE_EPOCH" --owner=0 --group=0 --numeric-owner --mode=go=u-w \
        -cf - "$name" | gzip -9n >"$out/$name.tar.gz"
}

# deb NAME DEPENDS SECTION TITLE: packs $work/NAME, whose description is on standard input
deb() {
    root=$work/$1 architecture=$(dpkg --print-architecture)
    mkdir -p "$root/DEBIAN" "$root/usr/share/doc/$1"
    cp "$top/LICENSE" "$root/usr/share/doc/$1/copyright"
    sed -e "s|@NAME@|$1|" -e "s|@DEPENDS@|$2|" -e "s|@SECTION@|$3|" -e "s|@TITLE@|$4|" -e "s|@VERSION@|$version|" \
        -e "s|@ARCHITECTURE@|$architecture|" -e "s|@SIZE@|$(du -sk --apparent-size "$root/usr" | cut -f1)|" \
        -e '/^Depends: $/d' "$top/tools/packages/control" >"$root/DEBIAN/control"
    sed 's/^/ /' >>"$root/DEBIAN/control"
    dpkg-deb --root-owner-group --build "$root" "$out/${1}_${version}_$architecture.deb" >/dev/null
}

make_library_deb() {
    root=$work/libhivevigil-dev
    folder=lib/$(${CC:-cc} -print-multiarch 2>/dev/null || true)
    DESTDIR=$root sh "$top/install.sh" --prefix /usr --libdir "${folder%/}" >/dev/null
    # dpkg has the list of files, and looks for the licence under the package's name; the program has its own package
    rm -r "$root/usr/share/hivevigil" "$root/usr/share/doc/hivevigil/LICENSE"
    rm -rf "${root:?}/usr/bin" "${root:?}/usr/share/man/man1" "${root:?}/usr/share/bash-completion"
    mkdir -p "$root/DEBIAN"
    printf 'activate-noawait ldconfig\n' >"$root/DEBIAN/triggers"
    deb libhivevigil-dev libc6 libdevel "run-end encoded columns for C and C++" <<'TEXT'
Columns that store each stretch of equal rows once, and answer as the rows
would. Headers, an archive, a shared object, pkg-config and CMake files.
TEXT
}

make_program_deb() {
    root=$work/hivevigil
    completions=$root/usr/share/bash-completion/completions
    mkdir -p "$root/usr/bin" "$root/usr/share/man/man1" "$root/usr/share/doc/hivevigil" "$completions"
    cp "$work/bin/hivevigil" "$root/usr/bin/"
    install -m 644 "$top/tools/packages/hivevigil.bash" "$completions/hivevigil"
    cp "$top/man/hivevigil.1" "$root/usr/share/man/man1/"
    needs=
    is_static "$work/bin/hivevigil" || needs=libc6
    deb hivevigil "$needs" utils "run-end encoded columns from the command line" <<'TEXT'
What a CSV file takes with each stretch of equal rows stored once, one of its
columns kept in a file, and such a file shown and asked.
TEXT
}

make_python_deb() {
    folder=$work/python3-hivevigil/usr/lib/python3/dist-packages/hivevigil
    mkdir -p "$folder"
    cp "$top/python/hivevigil/"*.py "$top/python/hivevigil/py.typed" "$top/lib/libhivevigil.so" "$folder/"
    deb python3-hivevigil "python3 (>= 3.9)" python "run-end encoded columns for Python" <<'TEXT'
The package hivevigil, with the shared object in it. NumPy, pandas, Dask and
GDAL are used where they are installed.
TEXT
}

make_sqlite_deb() {
    folder=$work/libsqlite3-mod-hivevigil/usr/lib/sqlite3
    mkdir -p "$folder"
    sh "$top/examples/sqlite/build.sh" "$folder" >/dev/null
    deb libsqlite3-mod-hivevigil "libsqlite3-0" database "run-end encoded columns in SQLite" <<'TEXT'
An extension that keeps columns in runs as blobs: .load
/usr/lib/sqlite3/hivevigil_sqlite
TEXT
}

make_postgres_deb() {
    major=$(pg_config --version | sed -E 's/^[^0-9]*([0-9]+).*/\1/')
    mkdir -p "$work/build/examples" "$work/build/lib"
    cp -R "$top/examples/postgres" "$top/examples/engines" "$work/build/examples/"
    cp -R "$top/include" "$work/build/"
    cp "$top/lib/libhivevigil.a" "$work/build/lib/"
    make -s -C "$work/build/examples/postgres" with_llvm=no COPT="-ffile-prefix-map=$work=." \
        DESTDIR="$work/postgresql-$major-hivevigil" install \
        >"$work/log" 2>&1 || { cat "$work/log" >&2; exit 1; }
    deb "postgresql-$major-hivevigil" "postgresql-$major" database "run-end encoded columns in PostgreSQL" <<'TEXT'
An extension with a type of columns in runs, and aggregates that make them:
CREATE EXTENSION hivevigil.
TEXT
}

make_wheel() {
    cp -R "$top/python" "$work/python"
    rm -rf "$work/python/build" "$work/python/hivevigil.egg-info"
    cp "$top/lib/libhivevigil.so" "$work/python/hivevigil/"
    cp "$top/LICENSE" "$work/python/"
    (cd "$work/python" && HIVEVIGIL_VERSION=$version "$1" setup.py --quiet bdist_wheel --dist-dir "$out") \
        >"$work/log" 2>&1 || { cat "$work/log" >&2; exit 1; }
}

# python_with MODULE..: the first of PATH's and Debian's Python that has them
python_with() {
    for python in "${PYTHON:-python3}" /usr/bin/python3; do
        "$python" -c "import $1" 2>/dev/null && { echo "$python"; return; }
    done
    return 1
}

# the documentation in folder $1, with that of the Rust crate where there is cargo; every link of it is followed
make_site() {
    rm -rf "$1"
    set -- "$1" "$(python_with markdown)"
    rust=
    if has cargo && CARGO_TARGET_DIR=$work/target cargo doc --quiet --offline --no-deps \
        --manifest-path "$top/rust/Cargo.toml" >"$work/log" 2>&1; then
        rust="--rust $work/target/doc"
    else
        echo "skipped: the site's pages of the Rust crate, no cargo that makes them"
    fi
    # shellcheck disable=SC2086
    "$2" -B "$top/tools/website.py" "$1" $rust
    "$2" -B "$top/tools/website.py" --check "$1"
}
pack_site() {
    name=hivevigil-$version-doc
    make_site "$work/$name" >"$work/said" || { cat "$work/said" >&2; exit 1; }
    grep '^skipped' "$work/said" || true
    tar -C "$work" --sort=name --mtime="@$SOURCE_DATE_EPOCH" --owner=0 --group=0 --numeric-owner --mode=go=u-w \
        -cf - "$name" | gzip -9n >"$out/$name.tar.gz"
}

# What is packed, in SPDX's words: the library's two files and the program by their checksums, and what is linked into
# them. What the program is not linked with, and the program where there is none, is left out.
list_parts() {
    sum_of() { sha256sum "$1" | cut -d' ' -f1; }
    of_program='' without='SPDXRef-program|SPDXRef-glibc|SPDXRef-gcc-runtime'
    if [ -e "$work/bin/hivevigil" ]; then
        of_program=$(sum_of "$work/bin/hivevigil")
        is_static "$work/bin/hivevigil" && without='nothing' || without='SPDXRef-glibc'
    fi
    sed -E -e "/$without/d" -e "s|@PROGRAM@|$of_program|" -e "s|@VERSION@|$version|g" \
        -e "s|@CREATED@|$(date -u -d "@$SOURCE_DATE_EPOCH" +%Y-%m-%dT%H:%M:%SZ)|" \
        -e "s|@ARCHIVE@|$(sum_of "$top/lib/libhivevigil.a")|g" -e "s|@SHARED@|$(sum_of "$top/lib/libhivevigil.so")|" \
        "$top/tools/packages/parts.spdx.json" >"$out/hivevigil-$version.spdx.json"
}

if [ "$only_site" ]; then
    python_with markdown >/dev/null || { echo "dist: no Python with markdown (Debian: python3-markdown)" >&2; exit 1; }
    make_site "$out/site"
    exit 0
fi
rm -f "$out"/*hivevigil*_*.deb "$out"/hivevigil-* "$out/SHA256SUMS"
if has "${CXX:-c++}"; then
    sh "$top/program/build.sh" "$work/bin" >/dev/null
else
    echo "skipped: the program, no ${CXX:-c++}"
fi
make_tar
if has dpkg-deb && has dpkg; then
    make_library_deb
    [ ! -e "$work/bin" ] || make_program_deb
    make_python_deb
    if echo '#include <sqlite3ext.h>' | "${CC:-cc}" -E - >/dev/null 2>&1; then
        make_sqlite_deb
    else
        echo "skipped: the Debian package for SQLite, no sqlite3ext.h (libsqlite3-dev)"
    fi
    if has pg_config && has make && [ -e "$(pg_config --includedir-server)/postgres.h" ]; then
        make_postgres_deb
    else
        echo "skipped: the Debian package for PostgreSQL, no headers of its server"
    fi
else
    echo "skipped: the Debian packages, no dpkg-deb"
fi
if [ ! -d "$top/python" ]; then
    echo "skipped: the wheel, no python/"
elif found=$(python_with setuptools,wheel); then
    make_wheel "$found"
else
    echo "skipped: the wheel, no Python with setuptools and wheel"
fi
if ! python_with markdown >/dev/null; then
    echo "skipped: the documentation as a site, no Python with markdown (python3-markdown)"
elif [ ! -e "$top/tools/website.py" ]; then
    echo "skipped: the documentation as a site, no tools/"
else
    pack_site
fi
list_parts
(cd "$out" && sha256sum ./*hivevigil* >"$work/SHA256SUMS" && mv "$work/SHA256SUMS" SHA256SUMS)
ls -l "$out"
