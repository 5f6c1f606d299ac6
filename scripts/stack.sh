#!/usr/bin/env bash
# include/estimator.h promises how much stack a call needs at most. This reads the call graph of the compiled archive:
# it shows that nothing in it calls itself, directly or through others, sums the stack along the deepest path of each C
# call, arguments and return addresses included, and fails where one takes more than is promised, or something else than
# is stated of it, or where the machine code does not tell. scripts/stack.py says how, and scripts/stack_test.py tries it.
#   scripts/stack.sh [--markdown] [ARCHIVE]   of target/staticlib/libestimator.a or another; --markdown writes a table
#   scripts/stack.sh --self-test              small archives of which the answer is known, most of which must fail
# The self-test always comes first, so that a check that no longer finds anything is noticed.
set -euo pipefail
here=$(cd "$(dirname "$0")" && pwd)
"$here/need.sh" python3=python3 objdump=binutils as=binutils ar=binutils
[ "${1:-}" != --self-test ] || exec python3 -B "$here/stack_test.py"
# standard output is for the figures
python3 -B "$here/stack_test.py" >&2
exec python3 -B "$here/stack.py" "$@"
