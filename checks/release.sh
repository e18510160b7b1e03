#!/bin/sh
# Checks the files of packaging/release.sh: two runs make the same bytes, and each file is installed by its own tool in a
# fresh Debian without the toolchain. There the program answers the first example, a C program is built by pkg-config and
# runs, and the file is removed: then nothing is left. It prints a line for each check, and ends with status 1 where one
# fails.
#   sh checks/release.sh        needs root, debootstrap (Debian's package of that name) and a mirror of Debian, and what
#                               packaging/release.sh needs. Without root or debootstrap it says so, with status 2
# TREE names an archive (.tar) of the fresh Debian, which is made if it isn't there, and stays. MIRROR is the mirror where
# it isn't deb.debian.org. RT names the prover's command where it isn't `rt`.
# shellcheck disable=SC2016 # what stands between single quotes is for a shell inside
. "$(dirname "$0")/begin.sh"
: "${TREE:=$work/tree.tar}" "${MIRROR:=http://deb.debian.org/debian}"
[ "$(id -u)" = 0 ] || fail 'only root makes a fresh Debian' 2
for command in debootstrap chroot unshare gcc objdump readelf dpkg-deb python3 git; do
    command -v $command >"$work/path" || fail "no command $command" 2
done
packages=gcc,libc6-dev,pkg-config,python3,python3-pip,libsqlite3-dev,sqlite3,man-db
version=$(cat VERSION)
archive=gubzelk-$version-linux-x86_64

# quiet COMMAND..: what the command prints is shown only if it fails
quiet() {
    "$@" >"$work/said" 2>&1 && return
    tail -n 20 "$work/said" >&2
    return 1
}

for run in one two; do quiet sh packaging/release.sh "$work/$run" || fail 'no release is made' 2; done
says 'two runs make the same bytes' diff -r "$work/one" "$work/two"
says 'the sums' sh -c 'cd "$1" && sha256sum --quiet -c SHA256SUMS && [ "$(($(wc -l <SHA256SUMS) + 1))" = "$(ls | wc -l)" ]' \
    sh "$work/one"

# all_versions: the names of all files have the version
all_versions() {
    for file in "$work"/one/gubzelk*; do
        case ${file##*/} in gubzelk[-_]"$version"[-_]*) ;; *) return 1 ;; esac
    done
    [ "$(dpkg-deb -f "$work/one/gubzelk_${version}_amd64.deb" Version)" = "$version" ]
}
says 'the version in each name' all_versions

tree=$work/tree
if [ ! -e "$TREE" ]; then
    quiet debootstrap --variant=minbase --include=$packages bookworm "$tree" "$MIRROR" || fail 'no fresh Debian is made' 2
    rm -rf "$tree"/var/cache/apt/archives/*.deb "$tree"/var/lib/apt/lists/*
    tar -C "$tree" --numeric-owner -cf "$TREE" . || fail "no $TREE is made" 2
else
    mkdir "$tree" && tar -C "$tree" --numeric-owner -xf "$TREE" || fail "$TREE is no fresh Debian" 2
fi

# inside COMMAND..: runs a command in the fresh Debian, with nothing of this machine's environment, and /proc
inside() {
    unshare -m sh -c 'mount -t proc proc "$1/proc" && exec chroot "$@"' sh "$tree" \
        env -i PATH=/usr/local/sbin:/usr/local/bin:/usr/sbin:/usr/bin:/sbin:/bin HOME=/root LC_ALL=C.UTF-8 "$@"
}

# lines SCRIPT..: runs lines of the shell inside, each of which must pass
lines() {
    quiet inside sh -euc "$@"
}

# listed: all names of the fresh Debian but those of logs, caches and lists of packages
listed() {
    (cd "$tree" && find . -xdev \( -path ./proc -o -path ./sys -o -path ./dev -o -path ./var/lib/dpkg -o -path ./var/log \
        -o -path ./var/cache -o -path ./root/.cache -o -name __pycache__ \) -prune -o -print | LC_ALL=C sort)
}

# nothing_left: the names are those of before, and the linker's cache names no library of the release
nothing_left() {
    listed >"$work/after"
    diff "$work/before" "$work/after" && ! inside ldconfig -p | grep gubzelk
}

mkdir -p "$tree/root/release"
cp "$work"/one/* "$tree/root/release"
cp examples/broker/short.c "$tree/root/short.c"
[ ! -e keeper ] || cp -R examples/keeper "$tree/root/keeper"
# the shortest program over the static library and over the shared one, and a replica where there is a keeper
cat >"$tree/root/builds" <<'END'
set -eu
folder=$(mktemp -d)
trap 'rm -r "$folder"' EXIT
cd "$folder"
gcc -O2 -Wall -Wextra -Werror /root/short.c $(pkg-config --cflags --libs gubzelk-broker) -o static
gcc -O2 -Wall -Wextra -Werror /root/short.c $(pkg-config --cflags --libs gubzelk) -o shared
ldd shared | grep -q 'libgubzelk\.so\.[0-9]* =>'
if ldd static | grep gubzelk; then exit 1; fi
for program in static shared; do [ "$(./$program)" = 'settled up to entry 1' ]; done
if [ -e /root/keeper ]; then
    for program in write replica; do
        gcc -O2 /root/keeper/$program.c $(pkg-config --cflags --libs gubzelk-keeper) -o $program
    done
    { printf 'CREATE TABLE t (a INTEGER PRIMARY KEY, b);\nINSERT INTO t VALUES (1, 2.5);\n'; sleep 5; } | ./write live.db &
    sleep 2
    ./replica copy.db live.db until-equal
    wait
    [ "$(sqlite3 copy.db 'SELECT * FROM t')" = '1|2.5' ]
fi
[ "$(pkg-config --modversion gubzelk gubzelk-broker gubzelk-changeset | uniq)" = "$1" ]
END
! inside sh -c 'command -v rt || command -v rattle' || fail 'the toolchain is in the fresh Debian' 2
inside ldconfig
listed >"$work/before"

# ---- the archive
says 'the archive is unpacked' lines "mkdir /opt/g
    tar -C /opt/g -xf /root/release/$archive.tar.gz"
folder=/opt/g/$archive
says 'its program answers the first example' lines "cd $folder/share/gubzelk/examples
    $folder/bin/rb_run script <first.script | cmp - first.answers"
says 'it has the version' lines "[ \"\$($folder/bin/rb_run --version)\" = 'rb_run $version' ]"
says 'a C program by pkg-config' lines \
    "PKG_CONFIG_PATH=$folder/lib/pkgconfig LD_LIBRARY_PATH=$folder/lib sh /root/builds $version"
says 'the same after the folder has moved' lines "mv $folder /opt/g/moved
    PKG_CONFIG_PATH=/opt/g/moved/lib/pkgconfig LD_LIBRARY_PATH=/opt/g/moved/lib sh /root/builds $version"
says 'its example keeps two replicas' lines 'sh /opt/g/moved/share/gubzelk/examples/keeper/run.sh'
says 'the manual pages have no warning' lines 'cd /opt/g/moved/share/man
    [ -s man1/rb_run.1 ] && [ -s man3/broker.3 ] && [ -s man3/changeset.3 ]
    for page in $(grep -L "^\.so" man?/*); do
        said=$(man --warnings -l "$page" 2>&1 >/dev/null)
        [ -z "$said" ] || { echo "$page: $said"; exit 1; }
    done'
says 'bash reads its completion' quiet inside bash -euc '. /opt/g/moved/share/bash-completion/completions/rb_run
    COMP_WORDS=(rb_run drive --sub) COMP_CWORD=2; _rb_run; [ "${COMPREPLY[*]}" = --subscribers ]'
says 'the archive is installed below /usr/local' lines 'sh /opt/g/moved/install.sh /usr/local && ldconfig'
says 'the installed program answers the first example' lines "cd /usr/local/share/gubzelk/examples
    rb_run script <first.script | cmp - first.answers"
says 'a C program by pkg-config' lines "sh /root/builds $version"
says 'man finds a page for each call' lines 'man -w rb_run broker changeset broker_open changeset_check'
says 'the installed files are removed' lines 'sh /opt/g/moved/install.sh --remove /usr/local && ldconfig && rm -r /opt/g'
says 'nothing is left' nothing_left

# ---- the package for Debian
says 'the package is installed' lines "dpkg -i /root/release/gubzelk_${version}_amd64.deb"
says 'its program answers the first example' lines "cd /usr/share/gubzelk/examples
    rb_run script <first.script | cmp - first.answers"
says 'a C program by pkg-config' lines "sh /root/builds $version"
says 'its example keeps two replicas' lines 'export OUT=/tmp/replicas
    trap "rm -rf $OUT" EXIT
    sh /usr/share/gubzelk/examples/keeper/run.sh'
says 'man finds a page for each call' lines 'man -w rb_run broker changeset broker_open changeset_check'
says 'its files have the sums of the package' lines 'cd / && md5sum --quiet -c /var/lib/dpkg/info/gubzelk.md5sums'
says 'the package is removed' lines 'dpkg -P gubzelk'
says 'nothing is left' nothing_left

# ---- the wheel
if [ -e bindings/python ]; then
    [ -e keeper ] && keeper=yes || keeper=
    says 'the wheel is installed' lines 'pip install --no-index --break-system-packages /root/release/gubzelk-*.whl'
    says 'Python opens a broker' lines "cd / && python3 -c '
import gubzelk, importlib.metadata, os
assert importlib.metadata.version(\"gubzelk\") == \"$version\"
assert os.path.exists(os.path.join(os.path.dirname(gubzelk.__file__), \"libgubzelk.so\"))
insert = b\"T\\2\\1\\0t\\0\\22\\0\\1\" + bytes(7) + b\"\\1\\1\" + bytes(7) + b\"\\5\"
with gubzelk.Broker([(\"t\", (1, 0))]) as broker:
    publisher = broker.publisher()
    subscription, link = broker.subscribe(0)
    assert broker.place(publisher, insert) == 1
    for delivery in broker.deliveries(subscription):
        with delivery:
            delivery.accept()
            delivery.ack()
if \"$keeper\":
    os.chdir(\"/tmp\")
    with gubzelk.Source(\"live.db\") as source, gubzelk.Replica(\"copy.db\", \"live.db\") as replica:
        with source.transaction() as t: t.execute(\"CREATE TABLE t (a INTEGER PRIMARY KEY)\")
        assert replica.wait(60)
    for file in [\"live.db\", \"copy.db\", \"live.db-gz-lock\", \"copy.db-gz-lock\"]: os.remove(file)'"
    says 'the wheel is removed' lines 'pip uninstall -y --break-system-packages gubzelk'
    says 'nothing is left' nothing_left
fi

# ---- the crates, by this machine's Cargo, without the folders of the toolchain
if [ -e bindings/rust ] && command -v cargo >"$work/path"; then
    features=gubzelk/changeset
    [ ! -e keeper ] || features="$features,gubzelk/keeper"
    says 'the crates are built offline, and their tests pass' quiet env -i PATH="$(rustc --print sysroot)/bin:/usr/bin:/bin" \
        CARGO_HOME="$work/cargo" CARGO_TARGET_DIR="$work/target" sh -euc 'cd "$1" && tar xf "$2" && cd "$3" &&
        cargo test -q -j1 --offline --workspace --features "$4"' sh "$work" \
        "$work/one/gubzelk-$version-rust.tar.gz" "gubzelk-$version-rust" "$features"
fi
none_failed checks
