#!/bin/sh
# Lists the source files, for who looks for a place in the code: for each crate what the first `//!` lines of its root say,
# then each file of src/ with the first sentence of its own. A file without such a line is an error.
#   sh checks/files.sh [CRATE..]      all crates where none is named
. "$(dirname "$0")/begin.sh"
[ $# -gt 0 ] || set -- $(ls crates)
[ $# -gt 0 ] || fail 'no crate was found' 2
for crate; do
    root=crates/$crate/src/lib.rt
    [ -f "$root" ] || root=crates/$crate/src/main.rt
    [ -f "$root" ] || fail "$crate has no src/lib.rt and no src/main.rt" 2
    echo "$crate"
    # the root comes first: its first paragraph as it stands. Of each other file the first sentence, on one line.
    find "crates/$crate/src" -name '*.rt' ! -path "$root" | LC_ALL=C sort | sed "1i\\$root" | tr '\n' '\0' |
        xargs -0 awk -v root="$root" -v src="crates/$crate/src/" '
            function show() {
                if (file == "" || file == root) return
                if (text == "") {
                    print "files.sh: " file " has no //! line" >"/dev/stderr"
                    failed = 1
                    return
                }
                if (match(text, /[.!?]( |$)/)) text = substr(text, 1, RSTART)
                name = substr(file, length(src) + 1)
                sub(/\.rt$/, "", name)
                printf "    %-16s  %s\n", name, text
            }
            FNR == 1 { show(); file = FILENAME; text = ""; open = 1 }
            !/^\/\/!/ { open = 0 }
            open {
                line = $0
                sub(/^\/\/! ?/, "", line)
                if (line == "") open = 0
                else if (file == root) print "  " line
                else text = text (text == "" ? "" : " ") line
            }
            END { show(); exit failed }' || failed=1
done
exit ${failed:-0}
