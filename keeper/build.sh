#!/bin/sh
# Builds the library that keeps replicas: keeper/out/libgubzelk_keeper.a. Its header is keeper/gubzelk.h.
#   sh keeper/build.sh             builds it
#   sh keeper/build.sh --libs      builds it, and prints what a program is linked with, for example:
#       gcc app.c -I keeper $(sh keeper/build.sh --libs) -o app
# It needs gcc, SQLite 3.37 or later with sessions (Debian's libsqlite3-dev), and what `rt lib` leaves in crates/broker_c.
# BROKER is the path of libbroker_c.a where it lies elsewhere, RT the prover's command where it isn't `rt`, CC the
# compiler where it isn't gcc, CFLAGS more words for it, and OUT the folder where it isn't keeper/out.
fail() {
    echo "build.sh: $1" >&2
    exit 2
}

[ $# -eq 0 ] || [ "$*" = --libs ] || fail 'usage: sh keeper/build.sh [--libs]'
here=$(cd "$(dirname "$0")" && pwd) || exit 2
: "${BROKER:=$here/../crates/broker_c/out/libbroker_c.a}" "${RT:=rt}" "${CC:=gcc}" "${OUT:=$here/out}"
[ -e "$BROKER" ] || fail "no $BROKER: (cd crates/broker_c && rt lib) makes it (docs/C.md)"
heap="$(dirname "$($RT doc)")/c/liblibc_c.a"
[ -e "$heap" ] || fail "no $heap: the command $RT names no toolchain"
mkdir -p "$OUT" || exit 2
objects=
for source in "$here"/*.c; do
    object=$OUT/$(basename "$source" .c).o
    # shellcheck disable=SC2086
    $CC -std=c11 -D_POSIX_C_SOURCE=200809L -O2 -g -fPIC -Wall -Wextra -Wpedantic -Werror -I "$here/../include" $CFLAGS \
        -c "$source" -o "$object" || fail "$source is not compiled"
    objects="$objects $object"
done
rm -f "$OUT/libgubzelk_keeper.a"
# shellcheck disable=SC2086
ar rcs "$OUT/libgubzelk_keeper.a" $objects || fail 'no archive is made'
if [ $# -eq 1 ]; then echo "$OUT/libgubzelk_keeper.a $BROKER $heap -lsqlite3 -lpthread"; fi
