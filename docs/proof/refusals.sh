#!/bin/sh
# Prints docs/proof/refusals.tsv as a table: what each public call may refuse, and in which order. The head of that file
# says what stands in its columns.
#   sh docs/proof/refusals.sh [CRATE]      all crates where none is named
sh "$(dirname "$0")/table.sh" refusals "$@"
