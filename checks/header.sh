#!/bin/sh
# Checks include/changeset.h: it compiles without a warning as C and as C++, compilers warn of a result that isn't used
# and of NULL, and the exports do what it says. It prints a line for each, and ends with status 1 where one fails.
#   sh checks/header.sh        needs gcc, g++ and what `rt lib` leaves (docs/C.md)
# RT names the prover's command where it isn't `rt`.
. "$(dirname "$0")/begin.sh"
library=crates/changeset_c/out/libchangeset_c.a
[ -e $library ] || fail "no $library: see docs/C.md" 2
find_heap

# warns COMMAND..: the compiler refuses a file for a warning
warns() {
    ! "$@" 2>"$work/why" && grep -q 'Werror' "$work/why"
}

strict='-Wall -Wextra -pedantic -Werror -I include'
for standard in c99 c11 c17; do
    says "$standard" gcc -std=$standard $strict checks/header.c $library "$heap" -o "$work/c"
done
for standard in c++11 c++17; do
    says "$standard" g++ -std=$standard $strict -x c++ checks/header.c -x none $library "$heap" -o "$work/cpp"
done
cat >"$work/unused.c" <<'E'
#include "changeset.h"
void f(const unsigned char *text, size_t len, size_t *at, uint32_t *kind) { changeset_check(text, len, at, kind); }
E
cat >"$work/null.c" <<'E'
#include "changeset.h"
int64_t f(const unsigned char *text, size_t len) { return changeset_canonical(text, len, 0, 0); }
E
cat >"$work/no-texts.c" <<'E'
#include "changeset.h"
int64_t f(unsigned char *out, size_t *index, size_t *at, uint32_t *kind) {
    return changeset_combine(0, 0, out, 0, index, at, kind);
}
E
says 'a result that is not used gets a warning' warns gcc -std=c99 $strict -c "$work/unused.c" -o "$work/o"
says 'NULL gets a warning' warns gcc -std=c99 $strict -c "$work/null.c" -o "$work/o"
says 'NULL for texts gets a warning' warns gcc -std=c99 $strict -c "$work/no-texts.c" -o "$work/o"
says 'the exports, from C' "$work/c"
says 'the exports, from C++' "$work/cpp"
none_failed checks
