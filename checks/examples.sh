#!/bin/sh
# Checks the examples of examples/library, in C, Python and Rust: it installs the libraries into a folder, builds each
# example as its head says, and compares what it prints, thrice over the same files. It also gives them replicas of other
# brokers. It prints a line for each check, and ends with status 1 where one fails.
#   sh checks/examples.sh        needs gcc, pkg-config, python3, rustc, SQLite with sessions, and what `rt lib` leaves
#                                in crates/broker_c and crates/changeset_c. Debian's packages: gcc pkg-config python3
#                                rustc libsqlite3-dev
# RT names the prover's command where it isn't `rt`.
# shellcheck disable=SC2046,SC2086 # pkg-config's words are the compiler's
. "$(dirname "$0")/begin.sh"
top=$PWD
for command in gcc pkg-config python3 rustc; do
    command -v $command >"$work/path" || fail "no command $command" 2
done
export PKG_CONFIG_PATH="$work/prefix/lib/pkgconfig"
pkg-config --exists sqlite3 || fail 'no package sqlite3 for pkg-config: libsqlite3-dev has it' 2
sh "$top/packaging/install.sh" "$work/prefix" || fail 'nothing is installed' 2
cd "$work" || exit 2

# prints NAME COMMAND..: thrice, over the files that it leaves, the command prints what NAME.output has
prints() {
    wanted=$top/examples/library/$1.output
    shift
    rm -f live.db replica.db*
    for _ in 1 2 3; do "$@" >out && cmp out "$wanted" || return; done
}

# equal: live.db and replica.db have the same rows, and some, as SQLite compares them
equal() {
    python3 - <<'END'
import sqlite3
db = sqlite3.connect('live.db')
db.execute("ATTACH 'replica.db' AS replica")
found = [db.execute(f'SELECT count(*) FROM (SELECT * FROM {a}.item EXCEPT SELECT * FROM {b}.item)').fetchone()[0]
         for a, b in [('main', 'replica'), ('replica', 'main')]] + db.execute('SELECT count(*) FROM item').fetchall()
assert found == [0, 0, (6,)], found
END
}

# changed SQL: runs SQL on a replica's file
changed() {
    python3 -c 'import sqlite3, sys; sqlite3.connect("replica.db").executescript(sys.argv[1])' "$1"
}

# copied SQL COMMAND..: the command says that the file which SQL made another broker's becomes a copy
copied() {
    changed "$1" || return
    shift
    "$@" >out && grep -q "another broker's name, or none: it becomes a copy" out && grep -q 'rows that differ: 0' out
}

# not_copied COMMAND..: the command says so too, but no copy can be made, as a file with a log keeps the size of its pages
not_copied() {
    rm -f replica.db*
    changed 'PRAGMA page_size = 512; PRAGMA journal_mode = WAL;
        CREATE TABLE replica_place AS SELECT hex(zeroblob(16)) AS broker, 5000 AS number' || return
    ! "$@" >out 2>err && grep -q 'it becomes a copy' out && grep -q 'readonly database' err
}

# quoted: the lines of C in "A replica" of docs/C.md are lines of replicate.c
quoted() {
    python3 - "$top" <<'END'
import pathlib, re, sys, textwrap
top = pathlib.Path(sys.argv[1])
section = (top / 'docs/C.md').read_text().split('\n### A replica\n')[1].split('\n### ')[0]
blocks = re.findall(r'^```c\n(.*?)^```$', section, re.M | re.S)
example = (top / 'examples/library/replicate.c').read_text()
assert blocks and all('\n' + textwrap.indent(block, 4 * ' ') in example for block in blocks)
END
}

# restarts LANGUAGE COMMAND..: what the command does with files of other brokers
restarts() {
    language=$1
    shift
    says "$language's replica after three runs" equal
    says "$language, a file of another broker far ahead" copied 'UPDATE replica_place SET number = 5000' "$@"
    says "$language, a file without a name" copied 'DROP TABLE replica_place;
        CREATE TABLE replica_cursor AS SELECT 5000 AS number' "$@"
    says "$language, a file that can't become a copy" not_copied "$@"
}

says "docs/C.md has replicate.c's lines" quoted
strict='-std=c99 -O2 -Wall -Wextra -pedantic -Werror'
says 'C, built' gcc $strict "$top/examples/library/replicate.c" $(pkg-config --cflags --libs gubzelk-broker sqlite3) \
    -o replicate
says 'C' prints replicate.c ./replicate
restarts C ./replicate
says 'C over AddressSanitizer, built' gcc $strict -g -fsanitize=address,undefined -fno-sanitize-recover=all \
    "$top/examples/library/replicate.c" $(pkg-config --cflags --libs gubzelk-broker sqlite3) -o replicate-a
says 'C over AddressSanitizer' prints replicate.c ./replicate-a
set -- python3 -B "$top/examples/library/replicate.py" "$work/prefix/lib/libgubzelk.so"
says 'Python' prints replicate.py "$@"
restarts Python "$@"
says 'Python, each call' python3 -B "$top/checks/binding.py" "$work/prefix/lib/libgubzelk.so"
says 'Rust, built' rustc --edition 2021 -O -D warnings "$top/examples/library/run.rs" -L "native=$work/prefix/lib" \
    -l static=broker_c -l static=gubzelk_heap -o run
says 'Rust' prints run.rs ./run
none_failed checks
