#!/bin/sh
# Checks the package of bindings/python, with each interpreter that is named. It prints a line for each check, and ends
# with status 1 where one fails.
# - Codes, kinds, calls and records are those of include/broker.h. Each call and each refusal is tried, each operand of
#   every wrong kind, and the reader of changesets on damaged bytes.
# - Four threads share a broker, two brokers are in two threads, and forks are refused.
# - Scripts made by chance have the answers of checks/model.py.
# - Sources and replicas: codes, calls and structs are those of keeper/gubzelk.h; each call, and each refusal that can be
#   provoked; values of all types; threads, interrupts, forks; processes that are killed, and files compared.
# - The example keeps two replicas through a kill.
# - pip installs the package without a network, and the package finds the libraries beside it.
# - mypy finds nothing, where there is a mypy.
#   sh checks/python.sh [INTERPRETER..]      python3 where none is named; needs gcc, and what packaging/install.sh needs
# LIBRARY names a libgubzelk.so that is there already. Where no libgubzelk_replicas.so lies beside it, sources and replicas
# are not checked. SEED is the seed of what is made by chance, 1 where it isn't set.
# RT names the prover's command where it isn't `rt`.
. "$(dirname "$0")/begin.sh"
: "${SEED:=1}" "${LIBRARY:=}"
export SEED PYTHONDONTWRITEBYTECODE=1
[ $# -gt 0 ] || set -- python3
for command in gcc "$@"; do
    command -v "$command" >"$work/path" || fail "no command $command" 2
done
package=$PWD/bindings/python
if [ -z "$LIBRARY" ]; then
    sh packaging/install.sh "$work/prefix" || fail 'nothing is installed' 2
    LIBRARY=$work/prefix/lib/libgubzelk.so
fi
[ -e "$LIBRARY" ] || fail "no $LIBRARY" 2
keeper=$(dirname "$LIBRARY")/libgubzelk_replicas.so
[ -e "$keeper" ] || keeper=''
gcc -shared -fPIC -O1 -Wall -Werror -I include "$package/tests/stub.c" -o "$work/stub.so" || fail 'no stub' 2
export GUBZELK_STUB="$work/stub.so"

# quiet COMMAND..: what the command prints is shown only if it fails
quiet() {
    "$@" >"$work/said" 2>&1 && return
    tail -n 30 "$work/said" >&2
    return 1
}

# tests FILE: the tests of one file
tests() {
    (cd "$package/tests" && GUBZELK_LIBRARY=$LIBRARY PYTHONPATH=$package quiet timeout 600 "$python" -m unittest "$1")
}

# keeps: the example keeps two replicas
keeps() {
    (
        rm -rf "$work/files" && mkdir "$work/files" && cd "$work/files" || return
        GUBZELK_LIBRARY=$LIBRARY PYTHONPATH=$package quiet timeout 300 "$python" "$package/examples/two_replicas.py" &&
            [ "$(grep -c '^\(one\|two\).db is equal$' "$work/said")" = 2 ]
    )
}

# installs_package: pip puts the package into a folder, and it finds the library that lies beside it
installs_package() {
    rm -rf "$work/source" "$work/site"
    cp -R "$package" "$work/source" && cp "$LIBRARY" "$work/source/gubzelk/libgubzelk.so" || return
    [ -z "$keeper" ] || cp "$keeper" "$work/source/gubzelk/libgubzelk_replicas.so" || return
    quiet "$python" -m pip install --no-index --disable-pip-version-check --target "$work/site" "$work/source" &&
        (cd "$work" && PYTHONPATH=$work/site quiet env -u GUBZELK_LIBRARY "$python" -c '
import gubzelk, os, sys
assert gubzelk.__file__.startswith(os.environ["PYTHONPATH"]), gubzelk.__file__
assert os.path.exists(os.path.join(os.path.dirname(gubzelk.__file__), "py.typed"))
with gubzelk.Broker([("t", (1,))]) as broker: assert broker.publisher() == 0
if sys.argv[1:]:
    os.chdir(sys.argv[1])
    with gubzelk.Source("live.db"), gubzelk.Replica("copy.db", "live.db") as replica: assert replica.wait(60)' \
            ${keeper:+"$(mktemp -d -p "$work")"})
}

for python; do
    version=$("$python" -c 'import sys; print("Python %d.%d" % sys.version_info[:2])') || fail "$python doesn't run" 2
    for file in "$package"/tests/test_*.py; do
        file=${file##*/}
        case $file in test_keeper_header.py) ;; test_keeper_*) [ -n "$keeper" ] || continue ;; esac
        says "$version, $file" tests "${file%.py}"
    done
    [ -z "$keeper" ] || says "$version, the example" keeps
    if "$python" -m pip --version >"$work/said" 2>&1; then says "$version, pip" installs_package; fi
    if "$python" -m mypy --version >"$work/said" 2>&1; then
        says "$version, mypy" quiet "$python" -m mypy --strict --cache-dir "$work/mypy" "$package/gubzelk"
    fi
done
none_failed checks
