#!/bin/sh
# Checks that the scripts of checks/, docs/proof/, refused/ and bench/ fail where they would test nothing. It tries each on
# a copy of the repository with broken parts, such as a program that only exits: it must end with a status other than 0, and say why
# on standard error. One line for each trial.
#   sh checks/scripts.sh        needs gcc, g++, valgrind, python3, git, sqlite3 and its library; no prover and no built program
. "$(dirname "$0")/begin.sh"
git clone -q . "$work/top" && cp -R bindings checks refused bench examples include packaging VERSION "$work/top" || exit 2
cd "$work/top" || exit 2
program=crates/rb_run/out/rb_run
export PROGRAM="$program" RT="$work/rt"

# make FILE TEXT: an executable file
make() {
    mkdir -p "$(dirname "$1")" && printf '%s\n' "$2" >"$1" && chmod +x "$1"
}

exits='#!/bin/sh
cat >/dev/null'

# fails NAME WHY COMMAND..: the command fails within a minute, and a line of standard error has these words
fails() {
    name=$1 why=$2
    shift 2
    count=$((count + 1))
    timeout 60 "$@" </dev/null >"$work/out" 2>"$work/err"
    status=$?
    if [ $status -ne 0 ] && [ $status -lt 124 ] && grep -q -e "$why" "$work/err"; then
        echo "ok $name: $(grep -e "$why" "$work/err" | head -n 1)"
    else
        echo "FAILED $name: status $status: $(tail -n 1 "$work/err")"
        bad=$((bad + 1))
    fi
}

# a prover's command and a valgrind that only exit
make "$work/rt" "$exits"
make "$work/kept/valgrind" "$exits"

# No operand.
fails 'edits.sh, no NAME' usage sh checks/edits.sh
fails 'edits.sh, no SEED' 'a seed' sh checks/edits.sh --some 3
fails 'edit_list.py, no NAME' usage python3 checks/edit_list.py .
fails 'edits_together.py, no NAME' usage python3 checks/edits_together.py
fails 'model.py, no script' usage python3 checks/model.py
fails 'model.py, no such script' 'No such file' python3 checks/model.py none.script
fails 'all.sh, another word' usage sh checks/all.sh --short
fails 'stops.sh, no CHANGES' usage sh checks/stops.sh
fails 'soak.sh, no SEED' usage sh checks/soak.sh
fails 'soak.py, no SEED' usage python3 checks/soak.py
fails 'tests.sh, no CRATE' usage sh refused/tests.sh
fails 'machines.sh, no SEED' usage sh checks/machines.sh
fails 'groups.py, no such folder' 'no folder' python3 checks/groups.py none
fails 'inverses.py, no such folder' 'no folder' python3 checks/inverses.py none
fails 'recorded.py, no such folder' 'no folder' python3 checks/recorded.py none
fails 'plot.py, another word' usage python3 bench/plot.py --draw
fails 'drives.py, no such folder' 'no folder' env PROGRAM=/bin/true python3 checks/drives.py none
fails 'install.sh, no PREFIX' usage sh packaging/install.sh
fails 'table.sh, no NAME' usage sh docs/proof/table.sh
fails 'table.sh, no such file' 'no docs/proof/none.tsv' sh docs/proof/table.sh none
fails 'refusals.sh, no such crate' 'no row of none' sh docs/proof/refusals.sh none
fails 'packaging/release.sh, two operands' usage sh packaging/release.sh one two
fails 'pages.py, no PROGRAM' usage python3 packaging/pages.py out
fails 'wheel.py, no LIBRARY' usage python3 packaging/wheel.py

# Nothing is built.
fails 'all.sh, nothing is built' 'missing: crates/rb_run/out/rb_run (rt run), ' sh checks/all.sh
fails 'all.sh, nothing is built for --long' 'replica_stops (rt run), ' sh checks/all.sh --long
make checks/another.sh '#!/bin/sh'
fails 'all.sh, a check that nothing runs' 'nothing runs checks/another.sh' sh checks/all.sh
rm checks/another.sh
fails 'run.sh, no program' 'no program' sh checks/run.sh
fails 'drive.sh, no program' 'no program' sh checks/drive.sh
fails 'drives.py, no program' 'no program' python3 checks/drives.py
fails 'progress.py, no program' 'no program' python3 checks/progress.py
fails 'rings.py, no program' 'no program' python3 checks/rings.py
fails 'hostile.py, no program' 'no program' python3 checks/hostile.py
fails 'killed.sh, no program' 'no program' sh checks/killed.sh
fails 'soak.sh, no program' 'no program' sh checks/soak.sh 1
fails 'valgrind.sh, no program' 'no program' sh checks/valgrind.sh
fails 'leaks.sh, no program' 'no crates' sh checks/leaks.sh
fails 'stops.sh, no program' 'no program' sh checks/stops.sh 2
fails 'rust.sh, no library' 'nothing is installed' sh checks/rust.sh
mkdir "$work/tools"
for tool in dirname mktemp rm; do ln -s "$(command -v $tool)" "$work/tools"; done
fails 'rust.sh, no cargo' 'no command cargo' env PATH="$work/tools" /bin/sh checks/rust.sh
fails 'header.sh, no library' 'no crates' sh checks/header.sh
fails 'library.sh, no library' 'no crates' sh checks/library.sh
fails 'install.sh, no library' 'no crates' sh packaging/install.sh "$work/prefix"
fails 'packaging.sh, no library' 'nothing is installed' sh checks/packaging.sh
fails 'packaging/release.sh, no program' 'no .*rb_run' sh packaging/release.sh "$work/dist"
make "$work/root/debootstrap" "$exits"
fails 'release.sh, no release' 'no release is made\|only root' env PATH="$work/root:$PATH" sh checks/release.sh
fails 'examples.sh, no library' 'nothing is installed' sh checks/examples.sh
fails 'python.sh, no library' 'nothing is installed' sh checks/python.sh
fails 'python.sh, no interpreter' 'no command' sh checks/python.sh no-such-python
fails 'refused/run.sh, no program' 'no program' sh refused/run.sh
fails 'tests.sh, no program' 'no program' sh refused/tests.sh cs_tests
fails 'record.sh, no program' 'no program' sh checks/record.sh
fails 'keeper.sh, no library' 'no .*libbroker_c' sh checks/keeper.sh
fails 'bench/keeper/run.sh, no library' 'no library of keeper' sh bench/keeper/run.sh
fails 'keeper/run.sh, no library' 'no library of keeper' sh examples/keeper/run.sh
fails 'machines/run.sh, no library' 'no library' sh examples/machines/run.sh
fails 'machines.sh, no library' 'no library' sh checks/machines.sh 1
fails 'bench/machines/run.sh, no library' 'no library' sh bench/machines/run.sh

# The prover's command only exits.
fails 'edits.sh, nothing is tried' '0 of ' sh checks/edits.sh rb_run
fails 'edits.sh --some, nothing is tried' '0 of 3 ' sh checks/edits.sh --some 3 7
fails 'edits_together.py, nothing is tried' '0 of ' python3 checks/edits_together.py rb_run
# other checkouts may have processes of the prover
make "$work/bin/pgrep" '#!/bin/sh'
fails 'gate-times.sh, nothing is run' 'no process' env PATH="$work/bin:$PATH" sh checks/gate-times.sh
fails 'gate-times.sh, a command that fails' 'ended with status 3' sh checks/gate-times.sh sh -c 'exit 3'
fails 'bench/run.sh, nothing is made' 'no crates' sh bench/run.sh
fails 'bench/library/run.sh, nothing is made' 'no crates' sh bench/library/run.sh
fails 'bench/library/memory.sh, nothing is made' 'no crates' sh bench/library/memory.sh
fails 'bench/script.sh, nothing is made' 'script.sh: ' sh bench/script.sh
fails 'bench/apply/run.sh, nothing is made' 'no program' sh bench/apply/run.sh
fails 'bench/pieces/run.sh, nothing is made' 'no program' sh bench/pieces/run.sh
fails 'bench/broker/run.sh, nothing is made' 'the program is not built' bash bench/broker/run.sh
fails 'bench/broker/deliver.sh, nothing is made' 'the program is not built' bash bench/broker/deliver.sh
fails 'bench/drive/run.sh, nothing is made' 'no program' sh bench/drive/run.sh

# The program only exits.
make "$program" "$exits"
fails 'packaging/release.sh, a program that only exits' 'the first example' sh packaging/release.sh "$work/dist"
fails 'pages.py, a program that only exits' 'no commands' python3 packaging/pages.py "$work/pages" "$program" include/broker.h
fails 'run.sh, a program that only exits' 'checks failed' sh checks/run.sh
fails 'drive.sh, a program that only exits' 'drives are bad' sh checks/drive.sh
fails 'drives.py, a program that only exits' 'answers otherwise' python3 checks/drives.py
fails 'progress.py, a program that only exits' 'checks failed' python3 checks/progress.py
fails 'rings.py, a program that only exits' 'hung or differ' python3 checks/rings.py 5
fails 'rings.py, no drive' 'no drive' python3 checks/rings.py 0
fails 'hostile.py, a program that only exits' 'checks failed' python3 checks/hostile.py 'output fails'
fails 'hostile.py, no check' 'checks failed' python3 checks/hostile.py 'no such name'
fails 'killed.sh, a program that only exits' 'none was killed in the middle' sh checks/killed.sh 4
fails 'soak.sh, a program that only exits' 'answers of' sh checks/soak.sh 1 1 200
fails 'valgrind.sh, a valgrind that only exits' 'runs failed' env PATH="$work/kept:$PATH" sh checks/valgrind.sh
make crates/replica_stops/out/replica_stops "$exits"
fails 'stops.sh, a program that only exits' '0 of 12 losses' sh checks/stops.sh 2
fails 'refused/run.sh, a program that only exits' '7 failures' sh refused/run.sh
fails 'bench/script.sh, a program that only exits' '0 answers' sh bench/script.sh
fails 'bench/drive/run.sh, a program that only exits' 'two reports' sh bench/drive/run.sh 1

# A replica, $5, that begins with a zero byte beside a log of 41 bytes, and is never taken again.
make "$program" '#!/bin/sh
cat >/dev/null
[ ! -e "$5" ] || exit 1
printf "%041d" 0 >"$5-wal"
head -c 4096 /dev/zero >"$5"'
fails 'killed.sh, a file that no drive takes' "a second drive doesn't take the file" sh checks/killed.sh 40
make "$program" '#!/bin/sh
cat >/dev/null
printf "%042d" 0 >"$5-wal"
head -c 4096 /dev/zero >"$5"'
fails 'killed.sh, a log of another length' "isn't whole" sh checks/killed.sh 40

# The program answers, but its malloc isn't intercepted: it has no dynamic library.
cat >"$work/static.c" <<'END'
#include <stdio.h>
int main(int count, char **words) {
    for (int byte; (byte = getchar()) != EOF;) if (byte == '\n') puts("ok");
    if (count > 1 && words[1][0] == '-') puts("one: test\ntwo: test");
    return 0;
}
END
gcc -static "$work/static.c" -o "$program" || exit 2
fails 'refused/run.sh, malloc is not intercepted' '7 failures' sh refused/run.sh
grep -q 'no allocation was seen' "$work/out" || { echo 'FAILED: no word of allocations'; bad=$((bad + 1)); }

# Tests: none, malloc isn't intercepted, one that fails by itself.
tests=crates/cs_tests/out/cs_tests_tests
make "$tests" "$exits"
fails 'tests.sh, an empty list of tests' 'failures' sh refused/tests.sh cs_tests
grep -q 'no tests' "$work/out" || { echo 'FAILED: no word of tests'; bad=$((bad + 1)); }
gcc -static "$work/static.c" -o "$tests" || exit 2
fails 'tests.sh, malloc is not intercepted' 'failures' sh refused/tests.sh cs_tests
grep -q 'no allocation was seen' "$work/out" || { echo 'FAILED: no word of allocations'; bad=$((bad + 1)); }
make "$tests" '#!/bin/sh
[ "$1" = --list ] && echo "one: test" && exit
echo "assertion failed" >&2
exit 101'
fails 'tests.sh, a test that fails' 'failures' sh refused/tests.sh cs_tests
grep -q 'where nothing is refused' "$work/out" || { echo 'FAILED: no word of the test'; bad=$((bad + 1)); }
cat >"$work/careless.c" <<'END'
#include <stdio.h>
#include <stdlib.h>
int main(int count, char **words) {
    if (count > 1 && words[1][0] == '-') puts("one: test");
    return free(malloc(8)), 0;
}
END
gcc "$work/careless.c" -o "$tests" || exit 2
mkdir -p crates/rb_case_files/out && cp "$tests" crates/rb_case_files/out/rb_case_files_tests || exit 2
fails 'tests.sh, a refusal that nothing reports' 'no refusal' sh refused/tests.sh rb_case_files
fails 'tests.sh, calls that meet no refusal' 'failures' sh refused/tests.sh cs_tests
grep -q 'are fewer than' "$work/out" || { echo 'FAILED: no word of the calls'; bad=$((bad + 1)); }

# A library whose exports answer 0, by a toolchain that has an empty library.
mkdir -p "$work/kit/c" crates/changeset_c/out
make "$work/rt" "#!/bin/sh
[ \"\$1\" != doc ] || echo '$work/kit/page'"
cat >"$work/none.c" <<'END'
long changeset_check(void) { return 0; }
long changeset_canonical(void) { return 0; }
long changeset_combine(void) { return 0; }
long changeset_invert(void) { return 0; }
END
gcc -c "$work/none.c" -o "$work/none.o" && ar cr crates/changeset_c/out/libchangeset_c.a "$work/none.o" || exit 2
# the broker's functions, of which each answers 7
mkdir -p crates/broker_c/out
sed -n 's/^[A-Z_]* *[a-z0-9_]* \(broker_[a-z_]*\)(.*/long \1(void) { return 7; }/p' include/broker.h >"$work/seven.c"
gcc -c "$work/seven.c" -o "$work/seven.o" && ar cr crates/broker_c/out/libbroker_c.a "$work/seven.o" || exit 2
make crates/rb_threads/out/rb_threads_tests "$exits"
fails 'header.sh, no toolchain' 'no .*liblibc_c' sh checks/header.sh
fails 'leaks.sh, no toolchain' 'no .*liblibc_c' sh checks/leaks.sh
ar cr "$work/kit/c/liblibc_c.a"
fails 'record.sh, a program that only exits' 'checks failed' sh checks/record.sh
rm crates/broker_c/out/libbroker_c.a
mkdir -p crates/broker_c/out
sed -n 's/^[A-Z_]* *[a-z0-9_]* \(broker_[a-z_]*\)(.*/long \1(void) { return 0; }/p' include/broker.h >"$work/none.c"
gcc -c "$work/none.c" -o "$work/none.o" && ar cr crates/broker_c/out/libbroker_c.a "$work/none.o" || exit 2
fails 'library.sh, exports that answer 0' 'checks failed' env EVERY=1000 sh checks/library.sh
fails 'packaging.sh, exports that answer 0' 'checks failed' sh checks/packaging.sh
fails 'header.sh, exports that answer 0' 'checks failed' sh checks/header.sh
fails 'leaks.sh, exports that answer 0' 'checks failed' sh checks/leaks.sh
fails 'bench/run.sh, exports that answer 0' '.' sh bench/run.sh
fails 'bench/run.sh, no such job' 'no job' sh bench/run.sh ours sing integers
fails 'bench/run.sh, a profiler that only exits' 'nothing was compared' env UNDER=true sh bench/run.sh

# No files.
for script in groups inverses recorded; do
    fails "$script.py, a library without sessions" 'with sessions' env SQLITE=libc.so.6 python3 "checks/$script.py"
done
fails 'packs.py, another word' usage python3 checks/packs.py unpack none "$work/none"
rm -r crates/rb_drive_cases/data/drive.pack examples/drives
fails 'drive.sh, no drives' 'of 1 drives' sh checks/drive.sh
fails 'packs.py, texts of no case' 'faults' python3 checks/packs.py
rm -r crates/rb_drive_cases/data
fails 'drive.sh, no packs' 'no packs of rb_drive_cases' sh checks/drive.sh
fails 'packs.py, no packs' 'no packs of rb_drive_cases' python3 checks/packs.py
: >crates/rb_cases/data/sql.pack
fails 'packs.py, an empty pack' 'is no pack' python3 checks/packs.py
rm -r crates/rb_cases/data
fails 'groups.py, no histories' 'no recorded history' python3 checks/groups.py
fails 'inverses.py, no histories' 'no recorded history' python3 checks/inverses.py
fails 'recorded.py, no histories' 'texts differ' python3 checks/recorded.py
rm -r examples/recorded
fails 'recorded.py, no SQL' 'no history' python3 checks/recorded.py
fails 'edits.sh, no edits' 'no edit' sh checks/edits.sh none
fails 'edits_together.py, no edits' 'no edit' python3 checks/edits_together.py none
printf 'edit: first\nsecond line\n' >crates/rb_run/on-demand.edits
fails 'edit_list.py, a line that is no part of an edit' 'out of place' python3 checks/edit_list.py . rb_run
rm crates/*/on-demand.edits
fails 'edit_list.py, no lists' 'no crate' python3 checks/edit_list.py . --some 3 7
fails 'files.sh, no such crate' 'no src/lib.rt' sh checks/files.sh none
fails 'definitions.sh, no such name' 'neither a definition' sh docs/proof/definitions.sh none
fails 'proofs.py, no such crate' 'no crate' python3 checks/proofs.py none
find crates -name '*.antt' | while read -r file; do : >"$file"; done
fails 'names.sh, no definitions' 'no definition' sh checks/names.sh
fails 'definitions.py, no definitions' 'no definition' python3 checks/definitions.py
fails 'definitions.sh, no definitions' 'no definition' sh docs/proof/definitions.sh
fails 'proofs.py, lemma files without a comment' 'no comment' python3 checks/proofs.py
fails 'embed.py, an empty proof' 'not in the program' python3 checks/embed.py
printf '`keeper/none.c`, [there](EMBED.md#nowhere), (docs/C.md, Nothing)\n' >>docs/SCRIPT.md
fails 'links.py, a path that is not there' 'no keeper/none.c' python3 checks/links.py
fails 'links.py, an anchor that is not there' 'no heading for EMBED.md#nowhere' python3 checks/links.py
fails 'links.py, a section that is not there' 'docs/C.md has no heading Nothing' python3 checks/links.py
sed -i 's/laws::every_text/laws::no_text/' docs/proof/PROVED.md
fails 'claims.py, no such law' 'no law no_text' python3 checks/claims.py
sed -i '/Schema::admits\t/d' docs/proof/refusals.tsv
fails 'claims.py, a call without a row' 'Schema::admits has no row' python3 checks/claims.py
sed -i 's/\tresult\t/\tanother\t/' docs/proof/refusals.tsv
fails 'claims.py, no such clause' 'has no clause another' python3 checks/claims.py
: >docs/proof/planted.tsv
fails 'claims.py, no row' 'no row was found' python3 checks/claims.py
sed -i '$s/[.]/0./' bench/figures/jobs.csv
fails 'plot.py, a figure that its picture does not show' 'jobs.svg is not' python3 bench/plot.py --check
: >bench/figures/jobs.csv
fails 'plot.py, an empty table' 'no row' python3 bench/plot.py --check
rm -r crates
fails 'names.sh, no files' 'no file' sh checks/names.sh

# Every check but one only exits, and then there is no sqlite3.
scripts=$(grep -o '[a-z][a-z/]*/[a-z_-]*\.\(sh\|py\)' checks/all.sh)
mkdir "$work/few" && mv checks/all.sh checks/begin.sh "$work/few" && rm -r checks && mkdir checks || exit 2
for script in $scripts; do make "$script" '#!/bin/sh'; done
mv "$work/few"/*.sh checks && ln -sf /usr/bin/* /bin/* "$work/few" && rm "$work/few/sqlite3" || exit 2
for made in rb_run/out/rb_run changeset_c/out/libchangeset_c.a broker_c/out/libbroker_c.a rb_threads/out/rb_threads_tests; do
    make "crates/$made" ''
done
make checks/run.sh 'echo it fails; exit 3'
export TMPDIR="$work"
fails 'all.sh, a check that fails' 'checks failed' sh checks/all.sh
said=$(sed -n 's/^checks.run.sh failed [0-9]* s: //p' "$work/out")
[ -n "$said" ] && grep -qx 'it fails' "$said" || { echo 'FAILED: no word of the check'; bad=$((bad + 1)); }
grep -q '^checks.names.sh passed [0-9]* s$' "$work/out" || { echo 'FAILED: no word of the others'; bad=$((bad + 1)); }
fails 'all.sh, no sqlite3' 'checks failed' env PATH="$work/few" sh checks/all.sh
grep -q '^checks.run.sh failed [0-9]* s: no command sqlite3$' "$work/out" || { echo 'FAILED: no word of sqlite3'; bad=$((bad + 1)); }

[ $bad -eq 0 ] || fail "$bad of $count scripts didn't fail as they should"
