#!/bin/sh
# Runs every check outside the gate, one after another: those of the sources, those of the program, and those of the libraries.
# It prints a line for each: its name, `passed` or `failed`, and its seconds. After `failed` comes the file with all that the
# check has printed, or a command that the machine lacks.
#   sh checks/all.sh [--long]       with --long those too that take more than some three minutes each
# They need programs and libraries as `rt run`, `rt lib` and `rt test` leave them. What is missing is told before anything
# runs, with status 2. The status is 1 if a check failed. RT names the prover's command where it isn't `rt`, and SEED is
# the seed of the runs by chance, 1 where it isn't set.
. "$(dirname "$0")/begin.sh"
: "${SEED:=1}"
# what failed checks have printed stays
trap '[ "$bad" -gt 0 ] || rm -rf "$work"' EXIT
long=false
[ $# -eq 0 ] || { [ $# -eq 1 ] && [ "$1" = --long ] && long=true; } || fail 'usage: sh checks/all.sh [--long]' 2

# These are no checks: this script, one that measures the gate, the model and the lists that others use, and the edits one
# at a time, which take ten times as long as together.
no_checks='checks/all.sh checks/gate-times.sh checks/model.py checks/edits.sh checks/edit_list.py'
# Each other script of checks/ is named below, or in a script that is. scripts.sh names them all, and checks nothing by them.
sed '/^ *#/d' checks/all.sh >"$work/below"
for script in $(grep -o '[a-z][a-z/]*/[a-z_-]*\.sh' "$work/below"); do
    case " $no_checks checks/scripts.sh " in *" $script "*) ;; *) sed '/^ *#/d' "$script" ;; esac
done >"$work/called"
for script in $(grep -l '^#!\|__main__' checks/*.sh checks/*.py); do
    grep -qF "$script" "$work/below" "$work/called" || fail "nothing runs $script" 2
done

missing=
# wants COMMAND FILE: what this command leaves in a crate's folder
wants() {
    [ -e "crates/$2" ] || missing="$missing, crates/$2 ($1)"
}
wants 'rt run' rb_run/out/rb_run
wants 'rt lib' changeset_c/out/libchangeset_c.a
wants 'rt lib' broker_c/out/libbroker_c.a
if $long; then
    wants 'rt run' replica_stops/out/replica_stops
    for crate in cs_tests rb_tests rb_threads; do wants 'rt test' $crate/out/${crate}_tests; done
fi
[ -z "$missing" ] || fail "missing: ${missing#, }. Give each command in the crate's folder" 2

# check TOOLS COMMAND..: runs a check where the machine has these tools, and prints its line. Its name is its script, and its
# operand if there is one.
check() {
    tools=$1 name=$3
    shift
    [ $# -ne 3 ] || name="$2 $3"
    said=$work/$(echo "$name" | tr '/ ' '__') begun=$(date +%s) why=
    for tool in $tools "$1"; do command -v "$tool" >"$said" || why="${why:-no command} $tool"; done
    [ -n "$why" ] || "$@" </dev/null >"$said" 2>&1 || why=$said
    count=$((count + 1)) took="$(($(date +%s) - begun)) s"
    if [ -z "$why" ]; then echo "$name passed $took"; else echo "$name failed $took: $why"; bad=$((bad + 1)); fi
}

# The edits take the longest: they are tried beside the others.
if $long; then
    (
        # shellcheck disable=SC2046,SC2012 # each crate is a word
        check "git $RT" python3 checks/edits_together.py $(ls crates/*/on-demand.edits | cut -d / -f 2) >"$work/edits"
        exit "$bad"
    ) &
    edits=$!
fi

# the sources
check awk sh checks/names.sh
check awk sh checks/files.sh
check '' python3 checks/proofs.py
check '' python3 checks/embed.py
check git python3 checks/links.py
check '' python3 bench/plot.py --check
check '' python3 checks/definitions.py
check '' sh docs/proof/definitions.sh
check '' python3 checks/claims.py
check '' python3 checks/packs.py
check '' python3 checks/canonical.py
check '' python3 checks/groups.py
check '' python3 checks/inverses.py
check '' python3 checks/recorded.py
check 'gcc g++ valgrind python3 sqlite3 git' sh checks/scripts.sh

# the program
check 'sqlite3 python3' sh checks/run.sh
check python3 sh checks/drive.sh
check '' python3 checks/progress.py
check '' python3 checks/drives.py
check '' python3 checks/deliveries.py 300 "$SEED"
check '' python3 checks/rings.py 5000 "$SEED"
check 'gcc python3' sh refused/run.sh

# the libraries
check "gcc g++ $RT" sh checks/header.sh
check "gcc nm readelf pkg-config python3 $RT" sh checks/packaging.sh
check "cargo gcc pkg-config $RT" sh checks/rust.sh
check "gcc pkg-config python3 rustc $RT" sh checks/examples.sh
check "gcc python3 $RT" sh checks/python.sh
check "gcc $RT" sh checks/leaks.sh
check "gcc g++ python3 valgrind $RT" sh checks/library.sh
check 'gcc sqlite3' sh checks/record.sh
check "gcc sqlite3 $RT" sh examples/keeper/run.sh
check "gcc g++ python3 valgrind $RT" sh checks/keeper.sh 60 "$SEED"

if $long; then
    check 'gcc sqlite3' python3 checks/hostile.py
    check 'python3 valgrind' sh checks/valgrind.sh
    check '' sh checks/stops.sh 16
    check 'python3 sqlite3' sh checks/killed.sh 200 "$SEED"
    check "$RT" sh checks/machines.sh "$SEED"
    check python3 sh checks/soak.sh "$SEED"
    check "gcc objdump dpkg-deb python3 debootstrap $RT" sh checks/release.sh
    check 'gcc addr2line' sh refused/tests.sh cs_tests
    # the tests that ask for memory, and not more often than anybody waits for
    export ONLY='^tests::(desks|groups|limits::limits|lists|runs::runs|streams::(lines|showing|what|write)|texts)'
    check 'gcc addr2line' sh refused/tests.sh rb_tests
    export ONLY='^(appliers|histories::(publishing|deliveries|resumptions|brokers)|restarts|texts)'
    check 'gcc addr2line' sh refused/tests.sh rb_threads
    unset ONLY
    wait "$edits" || bad=$((bad + 1))
    count=$((count + 1))
    cat "$work/edits"
fi
none_failed checks
