#!/bin/sh
# Checks the crates of bindings/rust. It prints a line for each check, and ends with status 1 where one fails.
# - The declarations of gubzelk-sys agree with the headers: each call's operands, and sizes, offsets and numbers as a C
#   compiler finds them.
# - Each call and each refusal of gubzelk is tried, and brokers in threads. The examples of the documentation run.
# - Sources and replicas keep files equal by type and bytes, in threads, and in processes that are killed.
# - The examples print what they must. That of the broker alone, copy, does so in valgrind too, where there is one: no
#   memory is lost.
# - Formatting, warnings and documentation, where there is a rustfmt and a clippy.
# - The build script finds the libraries by GUBZELK_LIB_DIR and by pkg-config, links the archives or the shared object,
#   and says what to do where it finds nothing.
#   sh checks/rust.sh        needs cargo, gcc and pkg-config, and what packaging/install.sh needs, such as
#                            libsqlite3-dev; no network
# GUBZELK_LIB_DIR names a folder with the libraries that is there already: then nothing is installed, and the build
# script's other ways aren't tried. RT names the prover's command where it isn't `rt`.
. "$(dirname "$0")/begin.sh"
: "${GUBZELK_LIB_DIR:=}"
for command in cargo gcc pkg-config; do
    command -v $command >"$work/path" || fail "no command $command" 2
done
top=$PWD installed=
if [ -z "$GUBZELK_LIB_DIR" ]; then
    sh packaging/install.sh "$work/prefix" || fail 'nothing is installed' 2
    GUBZELK_LIB_DIR=$work/prefix/lib installed=yes
fi
export GUBZELK_LIB_DIR CARGO_TARGET_DIR="$work/target" CARGO_NET_OFFLINE=true CC=gcc
cd bindings/rust || exit 2
# without its library, the functions of changeset.h aren't tested
features='--workspace'
[ ! -e "$GUBZELK_LIB_DIR/libchangeset_c.a" ] || features='--workspace --features gubzelk/changeset'
# nor are sources and replicas without theirs and SQLite
keeper=''
if [ -e "$GUBZELK_LIB_DIR/libgubzelk_keeper.a" ] && pkg-config --exists 'sqlite3 >= 3.37'; then
    features="$features --features gubzelk/keeper" keeper=yes
fi

# quiet COMMAND..: what the command prints is shown only if it fails
quiet() {
    "$@" >"$work/said" 2>&1 && return
    tail -n 40 "$work/said" >&2
    return 1
}

# builds WORDS..: cargo without a network, and with the versions of Cargo.lock
builds() {
    command=$1
    shift
    quiet cargo "$command" -j1 --locked "$@"
}

# prints NAME WORDS..: an example prints what it must
prints() {
    example=$1
    shift
    cargo run -q -j1 --locked -p gubzelk --example "$example" "$@" >"$work/printed" &&
        cmp "$work/printed" "gubzelk/examples/$example.output"
}

# advises WHY COMMAND..: the build fails for this reason, and says what to do
advises() {
    why=$1
    shift
    ! "$@" >"$work/said" 2>&1 && grep -q -e "$why" "$work/said" && grep -q 'packaging/install.sh' "$work/said"
}

# without_sqlite WHY COMMAND..: the same, where SQLite isn't found
without_sqlite() {
    why=$1
    shift
    ! "$@" >"$work/said" 2>&1 && grep -q -e "$why" "$work/said" && grep -q 'libsqlite3-dev' "$work/said"
}

# rebuilds WORDS..: another copy of the crates, so that the build script runs again
rebuilds() {
    CARGO_TARGET_DIR=$work/another quiet cargo test -j1 --locked -p gubzelk --test calls "$@"
}

# $features are words
# shellcheck disable=SC2086
{
    says 'both crates, built' builds build $features
    says 'the tests' builds test $features --all-targets
    says 'the examples of the documentation' builds test $features --doc
    says 'the example of the broker alone' prints copy
    [ -z "$keeper" ] || says 'the example of replicas' prints replicas --features keeper
    if command -v valgrind >"$work/path"; then
        CARGO_TARGET_X86_64_UNKNOWN_LINUX_GNU_RUNNER='valgrind -q --leak-check=full --error-exitcode=9'
        export CARGO_TARGET_X86_64_UNKNOWN_LINUX_GNU_RUNNER
        says 'the example of the broker alone in valgrind' prints copy
        unset CARGO_TARGET_X86_64_UNKNOWN_LINUX_GNU_RUNNER
    fi
    if cargo fmt --version >"$work/path" 2>&1; then says 'formatting' quiet cargo fmt --check; fi
    if cargo clippy --version >"$work/path" 2>&1; then
        says 'clippy' builds clippy $features --all-targets -- -D warnings
        says 'clippy of the broker alone' builds clippy --workspace --all-targets -- -D warnings
    fi
    export RUSTDOCFLAGS='-D warnings'
    says 'documentation' builds doc --no-deps $features
}

fails="env CARGO_TARGET_DIR=$work/none cargo build -j1 --locked"
mkdir "$work/empty"
# shellcheck disable=SC2086 # $fails is a command
{
    says 'no folder' advises 'is no folder' env GUBZELK_LIB_DIR=/no/such/folder $fails
    says 'a relative folder' advises 'is no absolute path' env GUBZELK_LIB_DIR=lib $fails
    says 'a folder without libraries' advises 'no libbroker_c.a' env GUBZELK_LIB_DIR="$work/empty" $fails
    says 'pkg-config knows nothing' advises 'pkg-config finds no libraries' \
        env -u GUBZELK_LIB_DIR PKG_CONFIG_LIBDIR="$work/empty" $fails
    says 'no pkg-config' advises "doesn't run" env -u GUBZELK_LIB_DIR PKG_CONFIG=/no/such/command $fails
    fails="$fails --features gubzelk/keeper"
    says 'a folder without the library of replicas' advises 'no libgubzelk_keeper.a' \
        env GUBZELK_LIB_DIR="$work/empty" $fails
    if [ -n "$keeper" ]; then
        says 'no SQLite' without_sqlite "SQLITE3_LIB_DIR isn't set" env PKG_CONFIG_LIBDIR="$work/empty" $fails
        says 'a folder without SQLite' without_sqlite 'no libsqlite3.so' env SQLITE3_LIB_DIR="$work/empty" $fails
    fi
}
if [ -n "$installed" ]; then
    lib=$GUBZELK_LIB_DIR
    unset GUBZELK_LIB_DIR
    export PKG_CONFIG_PATH="$lib/pkgconfig"
    says 'the archives by pkg-config' rebuilds
    [ -z "$keeper" ] || says 'sources and replicas by pkg-config' rebuilds --test keeper --features keeper
    mkdir "$work/shared" && cp -P "$lib"/libgubzelk.so* "$work/shared" || exit 2
    export GUBZELK_LIB_DIR="$work/shared" LD_LIBRARY_PATH="$work/shared"
    says 'the shared object' rebuilds
    if [ -n "$keeper" ]; then
        cp "$lib/libgubzelk_keeper.a" "$work/shared" || exit 2
        says 'sources and replicas over the shared object' rebuilds --test keeper --features keeper
    fi
fi
cd "$top" || exit 2
none_failed checks
