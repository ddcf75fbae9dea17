#!/bin/sh
# Puts the built library in place: headers, archive, shared object, pkg-config and CMake files, licence, pages of the
# manual, and those that its users read: the binary interface, errors, what stays, columns as bytes, their schema, and
# stored messages with their rows. So is the program hivevigil with its completions for bash, where program/build.sh has
# built it.
#     sh install.sh --prefix DIR [--libdir lib]     installs below DIR
#     sh install.sh --prefix DIR --uninstall        takes away what an install put there, and nothing else
# DESTDIR, if set, comes before DIR, as for other installers. sh examples/build.sh builds the library first.
set -eu
top=$(cd "$(dirname "$0")" && pwd)

fail() { echo "install: $1" >&2; exit "${2:-1}"; }
usage() { fail "sh install.sh --prefix DIR [--libdir DIR] [--uninstall]" 2; }

prefix='' libdir=lib uninstall=''
while [ "$#" -gt 0 ]; do
    case $1 in
    --prefix | --libdir)
        [ "$#" -gt 1 ] || usage
        [ "$1" = --prefix ] && prefix=$2 || libdir=$2
        shift
        ;;
    --uninstall) uninstall=1 ;;
    *) usage ;;
    esac
    shift
done
[ "$prefix" ] || usage
case $libdir in '' | /* | *..*) fail "--libdir is a folder below the prefix, as lib or lib64" 2 ;; esac
case $prefix in /*) ;; *) prefix=$PWD/$prefix ;; esac
to=${DESTDIR:-}$prefix
list=share/hivevigil/installed

# takes away what an earlier install put there, by its list: files, then the folders that it made, where they are empty
take_away() {
    folders=$(sed -n 's|/$||p' "$to/$list" | sort -r)
    grep -v '/$' "$to/$list" | while read -r file; do rm -f "$to/$file"; done
    for folder in $folders; do rmdir "$to/$folder" 2>/dev/null || true; done
}

if [ "$uninstall" ]; then
    [ -f "$to/$list" ] || fail "nothing of Hivevigil is installed below $to"
    take_away
    echo "taken away from $to"
    exit 0
fi

for library in libhivevigil.a libhivevigil.so; do
    [ -e "$top/lib/$library" ] || fail "no lib/$library: sh examples/build.sh makes it"
done
version=$(cat "$top/VERSION")
interface=$(sed -E 's/^(0\.[0-9]+|[1-9][0-9]*)\..*/\1/' "$top/VERSION")
[ ! -f "$to/$list" ] || take_away
work=$(mktemp -d)
trap 'rm -rf "$work"' EXIT

# makes a folder below the prefix, and those above it, with a line for each that was not there
make_folder() {
    [ ! -d "$to/$1" ] || return 0
    case $1 in */*) (make_folder "${1%/*}") ;; esac
    mkdir "$to/$1"
    echo "$1/" >>"$work/installed"
}
# place MODE SOURCE FILE: a file below the prefix, and a line of what an uninstall takes away
place() {
    make_folder "$(dirname "$3")"
    install -m "$1" "$2" "$to/$3"
    echo "$3" >>"$work/installed"
}
# link TARGET FILE: a symbolic link below the prefix
link() {
    make_folder "$(dirname "$2")"
    ln -sf "$1" "$to/$2"
    echo "$2" >>"$work/installed"
}
# filled TEMPLATE FILE: the same of a file in which the version and folders are written
filled() {
    up=$(echo "$(dirname "$2")" | sed 's/[^/][^/]*/../g')
    sed -e "s|@VERSION@|$version|g" -e "s|@INTERFACE@|$interface|g" -e "s|@LIBDIR@|$libdir|g" -e "s|@UP@|$up|g" \
        "$top/tools/packages/$1" >"$work/filled"
    place 644 "$work/filled" "$2"
}

mkdir -p "$to"
for header in "$top"/include/*; do place 644 "$header" "include/$(basename "$header")"; done
place 644 "$top/lib/libhivevigil.a" "$libdir/libhivevigil.a"
place 755 "$top/lib/libhivevigil.so" "$libdir/libhivevigil.so.$version"
link "libhivevigil.so.$version" "$libdir/libhivevigil.so.$interface"
link "libhivevigil.so.$interface" "$libdir/libhivevigil.so"
filled hivevigil.pc "$libdir/pkgconfig/hivevigil.pc"
for file in HivevigilConfig.cmake HivevigilConfigVersion.cmake; do filled "$file" "$libdir/cmake/Hivevigil/$file"; done
if [ -e "$top/bin/hivevigil" ]; then
    place 755 "$top/bin/hivevigil" bin/hivevigil
    place 644 "$top/man/hivevigil.1" share/man/man1/hivevigil.1
    place 644 "$top/tools/packages/hivevigil.bash" share/bash-completion/completions/hivevigil
fi
place 644 "$top/man/hivevigil.3" share/man/man3/hivevigil.3
# man hv_sum shows the page of all calls
sed -nE 's/^(HV_EXPORT )?[a-z0-9_]+ (hv_[a-z0-9_]+)\(.*/\2/p' "$top/include/hivevigil.h" \
    "$top/include/hivevigil_exports.h" | sort -u >"$work/calls"
while read -r call; do link hivevigil.3 "share/man/man3/$call.3"; done <"$work/calls"
place 644 "$top/LICENSE" share/doc/hivevigil/LICENSE
for page in ABI.md BYTES.md ERRORS.md PROMISE.md column.proto table.proto; do
    place 644 "$top/docs/$page" "share/doc/hivevigil/$page"
done
for part in messages typed tables differences; do
    place 644 "$top/examples/corpus/$part.txt" "share/doc/hivevigil/$part.txt"
done
if [ -e "$top/lib/UNPROVED" ]; then
    echo "install: this library was built without proof" >&2
    place 644 "$top/lib/UNPROVED" share/doc/hivevigil/UNPROVED
fi
make_folder "$(dirname "$list")"
echo "$list" >>"$work/installed"
install -m 644 "$work/installed" "$to/$list"
echo "Hivevigil $version is installed below $to"
