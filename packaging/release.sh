#!/bin/sh
# Makes the files of a release in OUT, or in dist/: an archive that is unpacked anywhere, a package for Debian, and
# SHA256SUMS; a wheel where bindings/python is there, and an archive of the crates where bindings/rust is there.
# docs/INSTALL.md says how each is installed. Two runs make the same bytes.
#   sh packaging/release.sh [OUT]
# It needs gcc, binutils, dpkg-deb, python3, and what `rt run` leaves in crates/rb_run and `rt lib` in crates/broker_c and
# crates/changeset_c; with keeper/, libsqlite3-dev too. SOURCE_DATE_EPOCH is the date of all files, that of the last
# commit where it isn't set. RT names the prover's command where it isn't `rt`.
fail() {
    echo "release.sh: $1" >&2
    exit "${2:-1}"
}

[ $# -le 1 ] || fail 'usage: sh packaging/release.sh [OUT]' 2
top=$(cd "$(dirname "$0")/.." && pwd) || exit 2
out=${1:-$top/dist}
mkdir -p "$out" && out=$(cd "$out" && pwd) && cd "$top" || exit 2
for command in gcc objdump readelf dpkg-deb python3 git; do
    command -v $command >/dev/null || fail "no command $command" 2
done
program=crates/rb_run/out/rb_run
[ -x $program ] || fail "no $program: \`rt run\` in crates/rb_run makes it" 2
version=$(cat VERSION)
$program script <examples/first.script | cmp - examples/first.answers || fail "$program doesn't answer the first example"
[ "$($program --version)" = "rb_run $version" ] || fail "$program has another version than $version"
: "${SOURCE_DATE_EPOCH:=$(git log -1 --format=%ct)}"
export SOURCE_DATE_EPOCH LC_ALL=C TZ=UTC
umask 022
work=$(mktemp -d) || exit 2
trap 'rm -rf "$work"' EXIT
set -e

# glibc FILE..: the newest version of glibc whose symbols these files need
glibc() {
    objdump -T "$@" | sed -n 's/.*GLIBC_\([0-9][0-9.]*\).*/\1/p' | sort -V | tail -n 1
}

# copied FOLDER TO: what git has of a folder of the repository
copied() {
    git ls-files "$1" | while read -r file; do
        to=$2${file#"$1"}
        mkdir -p "${to%/*}"
        cp "$file" "$to"
    done
}

# dated FOLDER: each file below it has the release's date, and the same modes wherever it is made
dated() {
    chmod -R u=rwX,go=rX "$1"
    find "$1" -exec touch -h -d "@$SOURCE_DATE_EPOCH" {} +
}

# packed FOLDER FILE: an archive of a folder of $work
packed() {
    dated "$work/$1"
    tar -C "$work" --sort=name --format=gnu --owner=0 --group=0 --numeric-owner --mtime="@$SOURCE_DATE_EPOCH" -cf - "$1" |
        gzip -n -9 >"$work/dist/$2"
}

# ---- all files, as they lie below a prefix
name=gubzelk-$version-linux-x86_64
tree=$work/$name
mkdir -p "$work/dist" "$tree/bin" "$tree/share/gubzelk/docs/proof"
DESTDIR=$tree CFLAGS="-ffile-prefix-map=$top=." sh packaging/install.sh /
cp $program "$tree/bin/rb_run"
chmod 755 "$tree/bin/rb_run"
python3 packaging/pages.py "$tree" $program "$tree"/include/gubzelk/*.h
cp README.md CHANGELOG.md VERSION "$tree/share/gubzelk"
# the pages for users, without the one that needs the toolchain; of those for reviewers what users' pages name
for page in docs/*.md docs/proof/PROVED.md docs/proof/DEFINITIONS.md; do
    [ "$page" = docs/EMBED.md ] || cp "$page" "$tree/share/gubzelk/$page"
done
copied examples "$tree/share/gubzelk/examples"
if [ -e bindings/python/examples ]; then copied bindings/python/examples "$tree/share/gubzelk/examples/python"; fi

# ---- the archive
cp docs/INSTALL.md "$tree/README.md"
cp packaging/install.sh CHANGELOG.md VERSION "$tree"
packed "$name" "$name.tar.gz"

# ---- the package for Debian: the same files below /usr
deb=$work/deb
libraries=usr/lib/x86_64-linux-gnu
mkdir -p "$deb/DEBIAN" "$deb/usr/share/doc/gubzelk" "$deb/usr/share/zsh" "$deb/${libraries%/*}"
cp -R "$tree/bin" "$tree/include" "$tree/share" "$deb/usr"
cp -R "$tree/lib" "$deb/$libraries"
mv "$deb/usr/share/zsh/site-functions" "$deb/usr/share/zsh/vendor-completions"
sed -i 's|^prefix=.*|prefix=/usr|; s|^libdir=.*|libdir=${prefix}/lib/x86_64-linux-gnu|' "$deb/$libraries"/pkgconfig/*.pc
gzip -n -9 "$deb"/usr/share/man/man?/*
gzip -n -9 >"$deb/usr/share/doc/gubzelk/changelog.gz" <<END
gubzelk ($version) unstable; urgency=medium

  * /usr/share/gubzelk/CHANGELOG.md says what is there.

 -- $(sed -n 's/^Maintainer: //p' packaging/control.in)  $(date -R -d "@$SOURCE_DATE_EPOCH")
END
# the packages of the libraries that the program and the shared library need
find "$deb" -name '*.so.*' -type f -o -name rb_run -path '*/bin/*' >"$work/elf"
# shellcheck disable=SC2046 # each file is a word
newest=$(glibc $(cat "$work/elf"))
[ -n "$newest" ] || fail 'the program and the shared library need no version of glibc'
depends="libc6 (>= $newest)"
for needed in $(xargs readelf -d <"$work/elf" | sed -n 's/.*(NEEDED).*\[\(.*\)\]$/\1/p' | sort -u); do
    case $needed in
    libc.so.6 | libm.so.6 | libpthread.so.0 | libdl.so.2 | librt.so.1 | ld-linux-x86-64.so.2) ;;
    libgcc_s.so.1) depends="$depends, libgcc-s1" ;;
    libsqlite3.so.0) depends="$depends, libsqlite3-0 (>= 3.37)" ;;
    *) fail "no package is known for $needed" ;;
    esac
done
size=$(($(find "$deb/usr" -type f -printf '%s\n' | awk '{ sum += $1 } END { print sum }') / 1024))
sed -e "s|@VERSION@|$version|" -e "s|@DEPENDS@|$depends|" -e "s|@SIZE@|$size|" packaging/control.in >"$deb/DEBIAN/control"
echo 'activate-noawait ldconfig' >"$deb/DEBIAN/triggers"
for library in "$tree"/lib/libgubzelk*.so; do
    library=${library##*/}
    echo "${library%.so} ${version%%.*} gubzelk (>= $version)"
done >"$deb/DEBIAN/shlibs"
(cd "$deb" && find usr -type f | sort | xargs md5sum) >"$deb/DEBIAN/md5sums"
dated "$deb"
dpkg-deb --root-owner-group --threads-max=1 -Zxz --build "$deb" "$work/dist/gubzelk_${version}_amd64.deb" >/dev/null

# ---- the wheel
if [ -e bindings/python ]; then
    # the broker's library, and that of sources and replicas where there is one
    set -- "$tree"/lib/libgubzelk*.so."$version"
    minor=$(glibc "$@" | cut -d . -f 2)
    # pip knows glibc 2.5 and later
    [ "${minor:?}" -ge 5 ] || minor=5
    python3 packaging/wheel.py "$work/dist" "$minor" "$@"
fi

# ---- the crates, with the static libraries, which Cargo finds where it builds them in their own folder
if [ -e bindings/rust ]; then
    crates=gubzelk-$version-rust
    grep -qx "version = \"$version\"" bindings/rust/Cargo.toml || fail "Cargo.toml has another version than $version"
    copied bindings/rust "$work/$crates"
    mkdir -p "$work/$crates/lib" "$work/$crates/include" "$work/$crates/.cargo"
    cp "$tree"/lib/libbroker_c.a "$tree"/lib/libchangeset_c.a "$tree"/lib/libgubzelk_heap.a "$work/$crates/lib"
    cp include/broker.h include/changeset.h "$work/$crates/include"
    # the feature `keeper` links SQLite too, which the crates don't carry
    if [ -e keeper ]; then
        cp "$tree/lib/libgubzelk_keeper.a" "$work/$crates/lib"
        cp keeper/gubzelk.h "$work/$crates/include"
    fi
    cat >"$work/$crates/.cargo/config.toml" <<END
[env]
GUBZELK_LIB_DIR = { value = "lib", relative = true }
GUBZELK_INCLUDE_DIR = { value = "include", relative = true }
END
    packed "$crates" "$crates.tar.gz"
fi

(cd "$work/dist" && sha256sum -- *) >"$work/sums"
rm -f "$out"/gubzelk[-_]* "$out/SHA256SUMS"
cp "$work/dist"/* "$out"
cp "$work/sums" "$out/SHA256SUMS"
cat "$out/SHA256SUMS"
