# A function of the examples' scripts: it finds the libraries for C. In a checkout these are what `rt lib` leaves in
# crates/broker_c and crates/changeset_c, and what keeper/build.sh makes. Else they are those of the release that the
# example lies in, or those that pkg-config finds. The script sets `top`, the folder above examples/, and defines
# `fail WHY`. RT names the prover's command where it isn't `rt`.

# with_libraries NAMES COMMAND..: runs a compiler's command, with the words for these libraries after its own. NAMES is
# `broker`, `changeset` or both, or `keeper` alone.
with_libraries() {
    if [ "$1" = keeper ] && [ -e "$top/keeper" ]; then
        shift
        lib_words=$(OUT='' sh "$top/keeper/build.sh" --libs) || fail 'no library of keeper'
        # shellcheck disable=SC2086 # the words are the compiler's
        "$@" -I "$top/keeper" $lib_words
        return
    fi
    lib_archives='' lib_packages='' lib_missing=''
    for lib_name in $1; do
        lib_file=crates/${lib_name}_c/out/lib${lib_name}_c.a
        [ -e "$top/$lib_file" ] || lib_missing=$lib_file
        lib_archives="$lib_archives $lib_file" lib_packages="$lib_packages gubzelk-$lib_name"
    done
    shift
    if [ -z "$lib_missing" ]; then
        lib_heap="$(dirname "$(${RT:-rt} doc)")/c/liblibc_c.a"
        [ -e "$lib_heap" ] || fail "no $lib_heap: the command ${RT:-rt} names no toolchain"
        for lib_file in $lib_archives; do set -- "$@" "$top/$lib_file"; done
        "$@" "$lib_heap" -I "$top/include"
    else
        # shellcheck disable=SC2086 # each package is a word
        lib_words=$(PKG_CONFIG_PATH=$top/../../lib/pkgconfig:$PKG_CONFIG_PATH pkg-config --cflags --libs $lib_packages) ||
            fail "no library: there is no $lib_missing, and pkg-config finds none (docs/INSTALL.md)"
        # shellcheck disable=SC2086 # pkg-config's words are the compiler's
        "$@" $lib_words
    fi
}
