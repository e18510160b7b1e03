#!/bin/sh
# Runs one broker for long: 64 publishers, 1,024 subscriptions and 100,000 entries, again and again, until the program has
# taken so many seconds of processor time. Each answer is judged by soak.py, which makes the runs by chance from the seed.
#   sh checks/soak.sh SEED [SECONDS]        600 seconds; needs python3 and the program as `rt run` leaves it (README.md)
cd "$(dirname "$0")/.." || exit 2
[ $# -ge 1 ] || { echo "soak.sh: usage: sh checks/soak.sh SEED [SECONDS]" >&2; exit 2; }
exec python3 checks/soak.py "$@"
