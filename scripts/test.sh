#!/usr/bin/env bash
# The verdict: `rt ci` proves everything, tries the edits that must fail and runs the programs; it refuses files that are not laid
# out, too. Only then, over what is proved, come the comparisons with the Rust and with NumPy, and the stack along the archive's
# calls; at the end rt's last line, 'N passed, 0 failed', is said again.
set -euo pipefail
cd "$(dirname "$0")/.."

log=$(mktemp)
trap 'rm -f "$log"' EXIT
scripts/facts.sh
scripts/cited.sh
rt ci | tee "$log"
# an edit that cannot be applied, compiled or read shows nothing, and rt ci passes all the same
if grep -E '^rt: ok.*, [1-9][0-9]* bad' "$log" >/dev/null; then
    echo "test: an edit that must fail is bad, see 'rt: ok' above" >&2
    exit 1
fi
oracle/quick.sh
# of the archive that quick.sh has just built
scripts/stack.sh
status=0
ESTIMATOR_LIB=target/staticlib npy/run.sh || status=$?
[ $status -ne 3 ] || { echo "npy: the comparison with NumPy is left out, see above" >&2; status=0; }
[ $status -eq 0 ] || exit $status
tail -n 1 "$log"
