#!/bin/sh
# Prints the definitions of crates/*/specs with a name, those of a crate, or all: where each stands, the comment above it, its
# type, and its entry in docs/proof/DEFINITIONS.md, if it has one.
#   sh docs/proof/definitions.sh [NAME|CRATE]
exec python3 "$(dirname "$0")/../../checks/specs.py" "$@"
