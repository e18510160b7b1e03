#!/bin/sh
# Checks packaging/install.sh: it installs both libraries into a clean folder, and there a C program is built by
# pkg-config alone, with one library, with both and with the shared one, and runs, also after the folder has moved. The
# shared object loads, and shows the calls of the headers alone. The version is everywhere the one of the file VERSION. It
# prints a line for each check, and ends with status 1 where one fails.
#   sh checks/packaging.sh        needs gcc, nm, readelf, pkg-config, python3 and what `rt lib` leaves in crates/broker_c
#                                 and crates/changeset_c. Debian's packages: gcc binutils pkg-config python3
# RT names the prover's command where it isn't `rt`.
# shellcheck disable=SC2046 # pkg-config's words are the compiler's
. "$(dirname "$0")/begin.sh"
for command in gcc nm readelf pkg-config python3; do
    command -v $command >"$work/path" || fail "no command $command" 2
done

# refuses WHY WORDS..: install.sh refuses these operands for this reason
refuses() {
    why=$1
    shift
    ! sh packaging/install.sh "$@" 2>"$work/err" && grep -q "$why" "$work/err"
}

says 'no operand is refused' refuses usage
says 'a relative folder is refused' refuses 'absolute path' here
says 'nothing is removed by a checkout' refuses 'only a release' --remove /opt/some
sh packaging/install.sh "$work/prefix" || fail 'nothing is installed' 2
prefix=$work/prefix top=$PWD version=$(cat VERSION)
export PKG_CONFIG_PATH="$prefix/lib/pkgconfig"

# all that is installed, but what keeper/ adds
listed() {
    (cd "$prefix" && find . ! -type d | grep -v 'keeper\|replicas\|gubzelk\.h' | LC_ALL=C sort) >"$work/files" &&
        cmp "$work/files" - <<END
./include/gubzelk/broker.h
./include/gubzelk/changeset.h
./lib/libbroker_c.a
./lib/libchangeset_c.a
./lib/libgubzelk.so
./lib/libgubzelk.so.${version%%.*}
./lib/libgubzelk.so.$version
./lib/libgubzelk_heap.a
./lib/pkgconfig/gubzelk-broker.pc
./lib/pkgconfig/gubzelk-changeset.pc
./lib/pkgconfig/gubzelk.pc
END
}

# builds NAME PACKAGES..: NAME.c is built in the clean folder with what pkg-config says of these packages alone
builds() {
    built=$1
    shift
    (cd "$work" && gcc -O2 -Wall -Wextra -pedantic -Werror "$built.c" $(pkg-config --cflags --libs "$@") -o "$built")
}

# prints WANTED PROGRAM..
prints() {
    wanted=$1
    shift
    "$@" >"$work/printed" && [ "$(cat "$work/printed")" = "$wanted" ]
}

# the same, and the status is 1
prints_and_fails() {
    wanted=$1
    shift
    "$@" >"$work/printed"
    [ $? -eq 1 ] && [ "$(cat "$work/printed")" = "$wanted" ]
}

says 'what is installed' listed
cp examples/broker/short.c "$work/short.c"
says 'a broker, built by pkg-config' builds short gubzelk-broker
says 'a broker runs' prints 'settled up to entry 1' "$work/short"

# block WORD: the block of C in docs/C.md that has this word
block() {
    awk -v word="$1" '/^```/ { if (index(text, word)) printf "%s", text
                               text = ""; inside = $0 == "```c"; next }
                      inside { text = text $0 "\n" }' docs/C.md
}

# the same program stands in docs/C.md
documented() {
    block 'settled up to entry' >"$work/block" && sed '1,/^ \*.*\*\/$/d' examples/broker/short.c | cmp - "$work/block"
}
says 'docs/C.md has this program' documented

block 'fread' >"$work/check.c"
says 'changesets: the program of docs/C.md, built by pkg-config' builds check gubzelk-changeset
printf 'T\002\001\000t\000\022\000\001\000\000\000\000\000\000\000\001\005' >"$work/some.changeset"
printf 'T\002\001\000t\000\022\000\001' >"$work/cut.changeset"
says 'a changeset is read' prints '1 changes' "$work/check" "$work/some.changeset"
says 'a changeset that is cut is faulty' prints_and_fails 'fault 16 at byte 9' "$work/check" "$work/cut.changeset"

cat >"$work/both.c" <<'END'
#include <broker.h>
#include <changeset.h>
#include <stdio.h>
/* inverts a changeset by one library, and feeds the inverse to the other */
int main(void) {
    static const unsigned char text[] = "T\2\1\0t\0\22\0\1\0\0\0\0\0\0\0\1\1\0\0\0\0\0\0\0\5", key[] = {1, 0};
    unsigned char inverse[26], placed[26];
    struct broker_limits limits = BROKER_LIMITS;
    struct broker_table t = {(const unsigned char *)"t", 1, key, 2};
    struct broker_numbers why;
    uint64_t n;
    broker *b;
    if (changeset_invert(text, 26, inverse, 26) != 26 || broker_open(&b, &limits, &t, 1, &why)) return 1;
    if (broker_publisher(b, &n) || broker_feed(b, 0, inverse, 26) || broker_end(b, 0)) return 1;
    if (broker_send(b, 0, &n) || broker_turn(b, &n) || broker_text(b, n, placed, 26) != 26) return 1;
    broker_free(b);
    return printf("operation %d\n", placed[6]) < 0;
}
END
for packages in 'gubzelk-broker gubzelk-changeset' 'gubzelk-changeset gubzelk-broker'; do
    # two packages are two words
    # shellcheck disable=SC2086
    says "both libraries in one program, $packages" builds both $packages
    says 'it runs' prints 'operation 9' "$work/both"
done

# every archive whole, so that two definitions of one name would show
whole() {
    (cd "$work" && gcc -O2 both.c $(pkg-config --cflags gubzelk-broker) -L"$prefix/lib" -Wl,--whole-archive -lbroker_c \
        -lchangeset_c -Wl,--no-whole-archive -lgubzelk_heap -o whole) && prints 'operation 9' "$work/whole"
}
says 'all of both archives in one program' whole

# one version
cat >"$work/version.c" <<'END'
#include <broker.h>
#include <stdio.h>
int main(void) { return printf("%s %d %d\n", BROKER_VERSION, BROKER_VERSION_NUMBER, broker_version()) < 0; }
END
says 'the version of rb_run' \
    test "$(sed -n 's/^const VERSION: &str = "\(.*\)";$/\1/p' crates/rb_run/src/command.rt)" = "$version"
says 'the version of the packages' \
    test "$(pkg-config --modversion gubzelk gubzelk-broker gubzelk-changeset | uniq)" = "$version"
says 'the version of CHANGELOG.md' test "$(sed -n 's/^## \[\([0-9.]*\)\].*/\1/p' CHANGELOG.md | head -n 1)" = "$version"
for file in bindings/python/pyproject.toml bindings/rust/Cargo.toml; do
    [ ! -e $file ] || says "the version of $file" grep -qx "version = \"$version\"" $file
done
says 'a program that prints the version, built' builds version gubzelk-broker
says 'the version of the header and of the library' prints \
    "$(echo "$version" | awk -F . '{ n = $1 * 1000000 + $2 * 1000 + $3; print $0, n, n }')" "$work/version"

# the calls of both headers, and those that the shared object shows
shows() {
    sed -n 's/^[A-Z_]* *[a-z0-9_]* \(broker_[a-z_]*\|changeset_[a-z_]*\)(.*/\1/p' include/broker.h include/changeset.h |
        sort >"$work/declared"
    nm -D --defined-only "$prefix/lib/libgubzelk.so" | awk '{ print $3 }' | sort >"$work/shown"
    [ "$(wc -l <"$work/declared")" -gt 30 ] && cmp "$work/declared" "$work/shown"
}
says 'the shared object shows the calls, and nothing else' shows

# the same of gubzelk.h; and it needs SQLite, which isn't inside
shows_replicas() {
    sed -n 's/^[a-z ]*[ *]\(gz_[a-z_]*\)(.*/\1/p' keeper/gubzelk.h | sort >"$work/declared"
    nm -D --defined-only "$prefix/lib/libgubzelk_replicas.so" | awk '{ print $3 }' | sort >"$work/shown"
    [ "$(wc -l <"$work/declared")" = 13 ] && cmp "$work/declared" "$work/shown" &&
        readelf -d "$prefix/lib/libgubzelk_replicas.so" | grep -q '(NEEDED).*\[libsqlite3\.so\.0\]'
}
[ ! -e keeper ] || says 'that of sources and replicas shows the calls, and nothing else' shows_replicas

# loads: a program of another language loads it
loads() {
    python3 - "$prefix/lib/libgubzelk.so" <<'END'
import ctypes, sys
library = ctypes.CDLL(sys.argv[1])
at, kind = ctypes.c_size_t(), ctypes.c_uint32()
library.changeset_check.restype = ctypes.c_int64
text = b'T\2\1\0t\0\22\0\1' + bytes(7) + b'\1\1' + bytes(7) + b'\5'
assert library.changeset_check(text, ctypes.c_size_t(26), ctypes.byref(at), ctypes.byref(kind)) == 1
assert library.changeset_check(text, ctypes.c_size_t(25), ctypes.byref(at), ctypes.byref(kind)) == -1
words = ctypes.create_string_buffer(64)
assert 0 < library.broker_message(-16, words, ctypes.c_size_t(64)) <= 64 and words.value
END
}
says 'the shared object loads' loads
# needs_soname FILE: it needs the shared object by its soname
needs_soname() {
    readelf -d "$1" | grep -q "(NEEDED).*\[libgubzelk\.so\.${version%%.*}\]"
}
cp "$work/both.c" "$work/shared.c"
says 'a program over the shared object, built' builds shared gubzelk
says 'it needs the soname' needs_soname "$work/shared"
says 'it runs' prints 'operation 9' env LD_LIBRARY_PATH="$prefix/lib" "$work/shared"

# files under DESTDIR name no folder
staged() {
    DESTDIR=$work/stage sh packaging/install.sh /opt/some && [ -e "$work/stage/opt/some/lib/libgubzelk.so" ] &&
        ! grep -r -e "$work" -e "$top" -e /opt/some "$work/stage/opt/some/lib/pkgconfig"
}
says 'files under DESTDIR' staged
mv "$work/stage/opt/some" "$work/moved"
export PKG_CONFIG_PATH="$work/moved/lib/pkgconfig"
rm -r "$prefix"
cp "$work/short.c" "$work/again.c"
says 'a broker over a folder that has moved, built' builds again gubzelk-broker
says 'it runs' prints 'settled up to entry 1' "$work/again"
none_failed checks
