#!/bin/sh
# Runs the gate, or another command, and prints where its processor time goes: a line for each crate with the minutes that its
# code, its tests and its edits take, and the minutes that compiling and running its programs and tests take. With EDITS=1
# also the seconds of each edit's check, in the order in which they run, which is that of their names. It looks at the
# processes once a second, so what it prints is up to a second short for each of them.
#   sh checks/gate-times.sh [COMMAND..]        runs `rt ci` where no command is given; needs Linux
# RT names the prover's command where it isn't `rt`.
. "$(dirname "$0")/begin.sh"
[ $# -gt 0 ] || set -- "$RT" ci
crates=$(sed -n 's/^\([a-z_]*\).*:.*/\1/p' crates.txt)
begun=$(date +%s)

# what is seen of one process: its number and start, its ticks so far, its crate and what it does for it
look() {
    read -r stat <"/proc/$1/stat" || return
    words=$(tr '\0' ' ' <"/proc/$1/cmdline")
    # a process that has ended has none
    [ -n "$words" ] || return
    place=$(readlink "/proc/$1/cwd")
    name=${stat#*\(}
    name=${name%)*}
    case $place in
    "$PWD"*|/tmp/rt-*) ;;
    *) return ;;
    esac
    case $name in
    rattle)
        crate=${words#*--crate-name }
        crate=${crate%% *}
        case "$place $words" in
        */rt-edit-*) kind=edits ;;
        *' --test '*) kind=tests ;;
        *--crate-checked*) kind=programs ;;
        *) kind=code ;;
        esac
        ;;
    *)
        crate=${name%_tests}
        kind=programs
        ;;
    esac
    echo "$1 ${stat##*\) } $crate $kind" | awk '{ print $1 ":" $21, $13 + $14, $(NF - 1), $NF }'
}

{
    while [ ! -e "$work/over" ]; do
        for process in $(pgrep '^rattle$'; for name in $crates; do pgrep "^$name"; done); do
            look "$process" 2>/dev/null
        done
        sleep 1
    done
} >"$work/seen" &
watcher=$!
"$@"
status=$?
[ "$status" -eq 0 ] || echo "gate-times.sh: the command ended with status $status" >&2
touch "$work/over"
wait $watcher
[ -s "$work/seen" ] || fail 'no process of the prover or of a crate was seen'

awk -v edits="${EDITS:-0}" -v ticks="$(getconf CLK_TCK)" -v clock=$(($(date +%s) - begun)) '
    !($1 in spent) { order[++count] = $1 }
    { spent[$1] = $2 > spent[$1] ? $2 : spent[$1]; crate[$1] = $3; kind[$1] = $4 }
    END {
        for (i = 1; i <= count; i++) {
            it = order[i]
            if (!(crate[it] in known)) { known[crate[it]] = 1; names[++crates] = crate[it] }
            sum[crate[it], kind[it]] += spent[it]
            total[kind[it]] += spent[it]
            if (edits && kind[it] == "edits") printf "%s %.0f s\n", crate[it], spent[it] / ticks
        }
        printf "%-16s %8s %8s %8s %8s\n", "minutes", "code", "tests", "edits", "programs"
        for (i = 1; i <= crates; i++) row(names[i], sum[names[i], "code"], sum[names[i], "tests"], sum[names[i], "edits"], sum[names[i], "programs"])
        row("all", total["code"], total["tests"], total["edits"], total["programs"])
        printf "all together %.1f minutes of processors, %.1f on the clock\n", (total["code"] + total["tests"] + total["edits"] + total["programs"]) / ticks / 60, clock / 60
    }
    function row(name, code, tests, edits, programs) {
        printf "%-16s %8.1f %8.1f %8.1f %8.1f\n", name, code / ticks / 60, tests / ticks / 60, edits / ticks / 60, programs / ticks / 60
    }' "$work/seen"
exit $status
