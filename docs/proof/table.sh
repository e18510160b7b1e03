#!/bin/sh
# Prints a file of docs/proof/ with tabs between its columns as a table: its comments, if no crate is named, and its
# rows. Each column is as wide as its widest cell. refusals.sh and planted.sh call it.
#   sh docs/proof/table.sh NAME [CRATE]    docs/proof/NAME.tsv, all of it where no crate is named
. "$(dirname "$0")/../../checks/begin.sh"
[ $# -eq 1 ] || [ $# -eq 2 ] || fail 'usage: sh docs/proof/table.sh NAME [CRATE]' 2
[ -e "docs/proof/$1.tsv" ] || fail "no docs/proof/$1.tsv" 2
awk -F '\t' -v crate="${2:-}" '
    /^#/ { if (crate == "") print; next }
    n > 0 && crate != "" && $1 != crate { next }
    {
        row[++n] = $0
        for (i = 1; i < NF; i++) if (length($i) > wide[i]) wide[i] = length($i)
    }
    END {
        if (n < 2) exit 1
        for (k = 1; k <= n; k++) {
            columns = split(row[k], cell)
            line = ""
            for (i = 1; i < columns; i++) line = line sprintf("%-" wide[i] "s  ", cell[i])
            line = line cell[columns]
            sub(/ +$/, "", line)
            print line
        }
    }' "docs/proof/$1.tsv" || fail "no row of $2" 2
