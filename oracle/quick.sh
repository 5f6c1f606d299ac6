#!/usr/bin/env bash
# A few seconds' worth of each comparison with the ported Rust, for `make test`. Where the Rust, a compiler or the packages
# can't be had it says so and ends well: the stored list, which the program `vectors` replays, was made from the same runs.
set -euo pipefail
cd "$(dirname "$0")/.."

compare() {
    local status=0
    oracle/run.sh "$@" || status=$?
    [ $status -ne 3 ] || { echo "oracle: comparison '$1' left out, see above" >&2; exit 0; }
    return $status
}

oracle/circles.sh
for archive in leaves estimator; do scripts/staticlib.sh $archive; done
compare self-test
compare leaves --every 4099 --basis 2000
compare calls --rounds 5000
compare training --rounds 2000
compare chains --rounds 5000
compare images --rounds 5000
compare npy --rounds 20000
compare visits --rounds 5000
compare unmarked --rounds 3000
