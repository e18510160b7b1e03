#!/bin/sh
# Checks the library that keeps replicas (keeper/).
# - The widening against changesets that SQLite records, over AddressSanitizer (checks/keeper/wide.c).
# - What the header says of each call, over AddressSanitizer and in valgrind (checks/keeper/calls.c).
# - Each STEP-th allocation of a scene refused, over AddressSanitizer (checks/keeper/starved.c). STEP is 41 where it isn't
#   set; with 1 it takes some ten minutes.
# - Foreign writes right after a commit, files that can't be written, and a broker that refuses (checks/keeper/paths.c). As
#   root it mounts a small file system, and makes the file read-only for another user; else it says what it leaves out.
# - Databases of many kinds (checks/keeper/kinds.py).
# - A random load over a source and four replicas, with kills, stops, locks and foreign writes (checks/keeper.py): SECONDS
#   of it, and a short one over AddressSanitizer.
#   sh checks/keeper.sh [SECONDS] [SEED]        60 seconds and seed 1 without operands
# It needs gcc, libsqlite3-dev, python3, valgrind and what `rt lib` leaves in crates/broker_c. RT names the prover's command
# where it isn't `rt`, and BROKER the path of libbroker_c.a where it lies elsewhere.
# shellcheck disable=SC2086 # the flags are words
. "$(dirname "$0")/begin.sh"
[ $# -le 2 ] || fail 'usage: sh checks/keeper.sh [SECONDS] [SEED]' 2
seconds=${1:-60} seed=${2:-1}
: "${BROKER:=$PWD/crates/broker_c/out/libbroker_c.a}"
[ -e "$BROKER" ] || fail "no $BROKER: see docs/C.md" 2
find_heap
export BROKER RT
allocations=-Wl,--wrap=malloc,--wrap=calloc,--wrap=realloc,--wrap=free,--wrap=strdup
strict='-std=c11 -D_GNU_SOURCE -g -O1 -Wall -Wextra -Werror -I include -I keeper'
sanitized='-fsanitize=address,undefined -fno-sanitize-recover=all'

# builds FOLDER FLAGS: the library and the programs of checks/keeper in a folder
builds() {
    mkdir -p "$work/$1" && OUT=$work/$1 CFLAGS=$2 sh keeper/build.sh || return 1
    for program in wide load keep calls paths starved; do
        case $program in
        paths) more=-Wl,--wrap=broker_place,--wrap=broker_open ;;
        starved) more="checks/keeper/memory.c $allocations" ;;
        *) more='' ;; esac
        gcc $strict $2 -DWITH_BROKER checks/keeper/$program.c $more "$work/$1/libgubzelk_keeper.a" "$BROKER" "$heap" -lsqlite3 \
            -lpthread -lm -o "$work/$1/$program" || return 1
    done
}

# in_folder NAME COMMAND..: runs a command with a new folder of $files as its last operand, where anybody may write
in_folder() {
    folder=$files/$1
    shift
    mkdir "$folder" && chmod 777 "$folder" && "$@" "$folder"
}

# without_room: a replica and a source on a file system of 8 MiB
without_room() {
    mkdir "$work/small" && mount -t tmpfs -o size=8m tmpfs "$work/small" || return 1
    in_folder full sh -c '"$0" full "$2" "$1"' "$work/asan/paths" "$work/small"
    code=$?
    umount "$work/small" && return $code
}

# loads FOLDER SECONDS: the random load by the programs of a folder
loads() {
    mkdir "$work/$1.run" && (cd "$work/$1.run" && python3 -B "$checks/keeper.py" "$work/$1" "$2" "$seed")
}

# kinds: databases of many kinds, by the programs over AddressSanitizer
kinds() {
    mkdir "$work/kinds" && (cd "$work/kinds" && python3 -B "$checks/keeper/kinds.py" "$work/asan")
}

# in_valgrind PROGRAM ARGUMENTS..: no error, and no memory stays in use
in_valgrind() {
    valgrind -q --leak-check=full --error-exitcode=9 "$@"
}

# what the scenes write lies in memory where it can
files=$work
[ ! -w /dev/shm ] || files=$(mktemp -d /dev/shm/gubzelk.XXXXXX)
trap 'rm -rf "$work" "$files"' EXIT
chmod 755 "$work" "$files"

checks=$PWD/checks
gcc -std=c11 -Wall -Wextra -Wpedantic -Werror -fsyntax-only -x c keeper/gubzelk.h || fail 'the header has warnings'
g++ -std=c++11 -Wall -Wextra -Wpedantic -Werror -fsyntax-only -x c++ keeper/gubzelk.h || fail 'the header has warnings in C++'
says 'it builds' builds plain ''
says 'it builds with AddressSanitizer' builds asan "$sanitized"
says 'widening' "$work/asan/wide" 500 "$seed"
mkdir "$work/calls" "$work/calls.valgrind"
says 'calls, AddressSanitizer' "$work/asan/calls" "$work/calls"
says 'calls, valgrind' in_valgrind "$work/plain/calls" "$work/calls.valgrind"
says 'allocations refused, AddressSanitizer' in_folder starved sh -c '"$0" "$2" "$1"' "$work/asan/starved" "${STEP:-41}"
for path in foreign limit refused; do says "$path, AddressSanitizer" in_folder $path "$work/asan/paths" $path; done
if [ "$(id -u)" -ne 0 ]; then
    says 'a read-only file' in_folder read-only "$work/asan/paths" read-only
elif command -v setpriv >"$work/tool"; then
    says 'a read-only file' in_folder read-only setpriv --reuid=65534 --regid=65534 --clear-groups "$work/asan/paths" read-only
else
    echo 'left out: a read-only file (no command setpriv)'
fi
if mkdir "$work/try" && mount -t tmpfs -o size=1m tmpfs "$work/try" 2>"$work/tool" && umount "$work/try"; then
    says 'a full file system' without_room
else
    echo 'left out: a full file system (it can'"'"'t be mounted)'
fi
says 'databases of many kinds' kinds
says 'a load, AddressSanitizer' loads asan 20
says "a load of $seconds seconds" loads plain "$seconds"
none_failed checks
