#!/bin/sh
# Builds the static library and the comparison with SQLite, and prints its table. It installs what is missing, by
# package name. RT names the prover's command where it isn't `rt`, and UNDER one that runs the program, as a profiler.
# With words, as `ours read integers`, the program runs one job once. With `combine` or `invert` it compares
# that alone.
set -eu
. "$(dirname "$0")/../checks/begin.sh"
: "${UNDER:=}"
installs gcc libc6-dev libsqlite3-dev

(cd crates/changeset_c && "$RT" lib >&2)
# the toolchain's three functions between the library and malloc
heap="$(dirname "$($RT doc)")/c/liblibc_c.a"
for library in crates/changeset_c/out/libchangeset_c.a "$heap"; do
    [ -e "$library" ] || fail "no $library: the command $RT has not made it"
done
gcc -O2 -Wall -Wextra -I include bench/*.c \
    crates/changeset_c/out/libchangeset_c.a "$heap" -lsqlite3 -o "$work/bench"

echo "$(nproc) processors, $(sed -n 's/^model name[^:]*: //p' /proc/cpuinfo | head -n 1)," \
    "SQLite $(dpkg-query -W -f '${Version}' libsqlite3-0), load before: $(cut -d ' ' -f 1 /proc/loadavg)"
echo
# a job alone prints no table
if [ $# -gt 1 ]; then
    $UNDER "$work/bench" "$@"
    exit
fi
{
    $UNDER "$work/bench" "$@" || echo "$?" >"$work/status"
} | tee "$work/table"
[ ! -e "$work/status" ] || fail "the comparison ends with status $(cat "$work/status")"
grep -q '^| .* [0-9]' "$work/table" || fail 'nothing was compared'
