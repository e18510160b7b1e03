# What the scripts of checks/, docs/proof/, refused/ and bench/ begin with, which read this file. It goes to the top of the
# repository, and makes the folder $work, which is removed when the script ends. RT names the prover's command where it isn't `rt`.
: "${RT:=rt}"
# how many checks were made, and how many of them failed
count=0 bad=0

# fail WHY [STATUS]: ends the script, with status 1 where none is given
fail() {
    echo "${0##*/}: $1" >&2
    exit "${2:-1}"
}

# says NAME COMMAND..: prints a check's line
says() {
    name=$1
    shift
    count=$((count + 1))
    if "$@"; then echo "ok $name"; else echo "FAILED $name"; bad=$((bad + 1)); fi
}

# judged NAME WHY: prints the line of a check, with what is wrong, if anything is
judged() {
    count=$((count + 1))
    if [ -z "$2" ]; then echo "ok $1"; else echo "FAILED $1: $2"; bad=$((bad + 1)); fi
}

# none_failed WHAT: ends the script with status 1 where one of these has failed
none_failed() {
    [ "$bad" -eq 0 ] || fail "$bad of $count $1 failed"
}

# find_heap: lets $heap be the toolchain's three functions between a library and malloc
find_heap() {
    heap=$(dirname "$($RT doc)")/c/liblibc_c.a
    [ -e "$heap" ] || fail "no $heap: the command $RT names no toolchain" 2
}

# installs PACKAGE..: installs those packages of Debian that are missing
installs() {
    for package in "$@"; do
        dpkg -s "$package" >/dev/null 2>&1 || apt-get install -y "$package" >&2
    done
}

cd "$(dirname "$0")" || exit 2
until [ -e checks/begin.sh ] || [ "$PWD" = / ]; do cd ..; done
work=$(mktemp -d) || exit 2
trap 'rm -rf "$work"' EXIT
