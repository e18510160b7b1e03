#!/bin/sh
# Prints docs/proof/planted.tsv as a table: which wrong bodies the contracts of each crate let through.
#   sh docs/proof/planted.sh [CRATE]       all crates where none is named
sh "$(dirname "$0")/table.sh" planted "$@"
