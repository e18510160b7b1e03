#!/bin/sh
# Installs Gubzelk under PREFIX, the absolute path of a folder, such as /usr/local. docs/INSTALL.md says what each file
# is for. Where the files lie, and whether a compiler is needed, depends on the folder that it runs in:
#   sh packaging/install.sh PREFIX     in a checkout: the libraries for C, their headers, and a file for pkg-config each.
#                                      Needs gcc and what `rt lib` leaves in crates/broker_c and crates/changeset_c
#   sh install.sh PREFIX               in an unpacked release: all of its files. Needs nothing
#   sh install.sh --remove PREFIX      in an unpacked release: removes its files from PREFIX
# DESTDIR stands before PREFIX in the paths that are written. RT names the prover's command where it isn't `rt`, and CC
# the compiler where it isn't gcc.
fail() {
    echo "install.sh: $1" >&2
    exit "$2"
}

remove=false
[ "$1" != --remove ] || { remove=true; shift; }
[ $# -eq 1 ] || fail 'usage: sh install.sh [--remove] PREFIX' 2
case $1 in /*) ;; *) fail "PREFIX is an absolute path, and $1 isn't" 2 ;; esac
case $1 in *[!A-Za-z0-9/._+-]*) fail "PREFIX has letters, digits and /._+- alone, and $1 hasn't" 2 ;; esac
cd "$(dirname "$0")" || exit 2
: "${RT:=rt}" "${CC:=gcc}" "${DESTDIR:=}"
root=$DESTDIR${1%/}
umask 022

if [ -e include/gubzelk ]; then
    # an unpacked release; what it installs includes the list of the folders that it has made
    list=share/gubzelk/folders
    if $remove; then
        [ -e "$root/$list" ] || fail "nothing is installed under $root" 2
        folders=$(LC_ALL=C sort -r "$root/$list")
        find bin include lib share ! -type d | while read -r file; do rm -f "$root/$file" || exit 1; done || exit 1
        rm "$root/$list"
        for folder in $folders; do
            [ ! -d "$root/$folder" ] || [ -n "$(ls -A "$root/$folder")" ] || rmdir "$root/$folder" || exit 1
        done
    else
        mkdir -p "$root" || exit 1
        [ "$(cd "$root" && pwd -P)" != "$(pwd -P)" ] || fail 'PREFIX is the release itself' 2
        made=$(find bin include lib share -type d | LC_ALL=C sort | while read -r folder; do
            [ -d "$root/$folder" ] || { mkdir "$root/$folder" && echo "$folder"; } || exit 1
        done) || exit 1
        [ -z "$made" ] || echo "$made" >>"$root/$list" || exit 1
        find bin include lib share -type f -o -type l | while read -r file; do
            rm -f "$root/$file" && cp -P "$file" "$root/$file" || exit 1
        done || exit 1
    fi
    exit
fi

! $remove || fail 'only a release removes its files' 2
cd .. || exit 2
broker=crates/broker_c/out/libbroker_c.a changeset=crates/changeset_c/out/libchangeset_c.a
for archive in $broker $changeset; do
    [ -e "$archive" ] || fail "no $archive: run \`rt lib\` in ${archive%/out/*}" 2
done
# the toolchain's three functions between the libraries and malloc, realloc and free
heap=$(dirname "$($RT doc)")/c/liblibc_c.a
[ -e "$heap" ] || fail "no $heap: the command $RT names no toolchain" 2
version=$(cat VERSION)
[ -n "$version" ] || fail 'the file VERSION is empty' 2

include=$root/include/gubzelk lib=$root/lib packages='gubzelk gubzelk-broker gubzelk-changeset'
mkdir -p "$include" "$lib/pkgconfig" || exit 1
cp include/broker.h include/changeset.h "$include" || exit 1
cp $broker $changeset "$lib" && cp "$heap" "$lib/libgubzelk_heap.a" || exit 1

# the library that keeps replicas
if [ -e keeper ]; then
    made=$(mktemp -d) || exit 1
    OUT=$made CFLAGS="-g0 $CFLAGS" sh keeper/build.sh && cp "$made/libgubzelk_keeper.a" "$lib" &&
        cp keeper/gubzelk.h "$include" || fail 'no library of keeper is made' 1
    rm -r "$made"
    packages="$packages gubzelk-keeper"
fi

# shares NAME MAP WORDS..: a shared library that shows what MAP names. Its soname has the first number of the version
shares() {
    name=$1 map=$2
    shift 2
    $CC -shared -o "$lib/$name.so.$version" -Wl,-soname,"$name.so.${version%%.*}" -Wl,--version-script="$map" -Wl,-s \
        "$@" || fail "no $name.so is made" 1
    ln -sf "$name.so.$version" "$lib/$name.so.${version%%.*}" && ln -sf "$name.so.${version%%.*}" "$lib/$name.so" || exit 1
    chmod 644 "$lib/$name.so.$version" || exit 1
}

shares libgubzelk packaging/exports.map -Wl,--whole-archive $broker $changeset -Wl,--no-whole-archive "$heap"
if [ -e keeper ]; then
    # the calls of gubzelk.h. The broker is inside, and SQLite is the system's. -lgubzelk_keeper is the static library
    shares libgubzelk_replicas packaging/exports-replicas.map -Wl,--whole-archive "$lib/libgubzelk_keeper.a" \
        -Wl,--no-whole-archive $broker "$heap" -Wl,-z,defs -lsqlite3 -lpthread
fi
chmod 644 "$include"/*.h "$lib"/lib*.a || exit 1

# The files for pkg-config name no folder outside of their own, so that all may be moved together.
for name in $packages; do
    sed "s|@VERSION@|$version|" "packaging/$name.pc.in" >"$lib/pkgconfig/$name.pc" || exit 1
done
