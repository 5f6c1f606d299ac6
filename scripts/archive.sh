#!/usr/bin/env bash
# Proves the library, compiles it (target/staticlib/libestimator.a) and writes what is installed, target/lib/libestimator.a.
# Where ESTIMATOR_LIB names a folder with an archive, that one is taken instead of a proved one.
set -euo pipefail
cd "$(dirname "$0")/.."

built=${ESTIMATOR_LIB:-target/staticlib}/libestimator.a
if [ -n "${ESTIMATOR_LIB:-}" ]; then
    [ -f "$built" ] || { echo "no $built" >&2; exit 3; }
else
    echo "proving the library and compiling it; this takes minutes the first time"
    scripts/staticlib.sh estimator
fi
scripts/need.sh as=binutils objcopy=binutils
scripts/bind.sh "$built" target/lib/libestimator.a
