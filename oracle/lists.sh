#!/usr/bin/env bash
# Makes the stored lists of answers anew: crates/vectors/data/oracle.txt (the leaves), and images.txt, visits.txt, split.txt and
# npy.txt in crates/model_vectors/data
set -euo pipefail
cd "$(dirname "$0")/.."

mkdir -p target/oracle

store() { # MADE LIST
    mv "$1" "$2"
    echo "$2: $(wc -l <"$2") lines, $(wc -c <"$2") bytes"
}

leaves=target/oracle/leaves.txt
oracle/run.sh lists >"$leaves"
(
    cd "${KAN_RUST:-../shared/docs/src}"
    echo "# The sources' sha256 sums:"
    sha256sum src/network/kan.rs src/data_structures/spline.rs | sed 's/^/# /'
) >>"$leaves"
store "$leaves" crates/vectors/data/oracle.txt

for list in images visits split npy; do
    oracle/run.sh lists $list >"target/oracle/$list.txt"
    store "target/oracle/$list.txt" "crates/model_vectors/data/$list.txt"
done
