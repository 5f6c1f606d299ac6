#!/usr/bin/env bash
# Holds the NPY calls of libestimator.a to the installed NumPy (check.py): files that each writes, read by the other.
#   npy/run.sh [--rounds N] [--seed S]
# ESTIMATOR_LIB: folder of the archive, else target/lib, which `make archive` fills; PYTHON: an interpreter with NumPy, else
# python3 on the path, else Debian's. Status 1: a difference, 2: arguments, 3: something that is needed is not here and can't
# be installed.
set -euo pipefail
cd "$(dirname "$0")/.."

stop() {
    echo "npy: $1" >&2
    exit "${2:-3}"
}

has_numpy() {
    command -v "$1" >/dev/null && "$1" -c 'import numpy' 2>/dev/null
}

archive=${ESTIMATOR_LIB:-target/lib}/libestimator.a
[ -f "$archive" ] || stop "no $archive: \`make archive\` makes it"
scripts/need.sh g++=g++ nm=binutils
for name in kan_npy_write kan_npy_read; do
    nm "$archive" | grep " T $name\$" >/dev/null || stop "$archive has no $name" 1
done

python=${PYTHON:-python3}
if ! has_numpy "$python"; then
    [ -z "${PYTHON:-}" ] || stop "$PYTHON has no NumPy"
    python=/usr/bin/python3
    scripts/need.sh $python=python3 /usr/lib/python3/dist-packages/numpy=python3-numpy
    has_numpy $python || stop "$python does not find NumPy"
fi

# The archive's code does not depend on its place: it can be put into a shared object as it is, for Python's ctypes.
mkdir -p target/npy
g++ -shared -Wl,-z,defs -Wl,--whole-archive "$archive" -Wl,--no-whole-archive -o target/npy/libestimator.so ||
    stop "the shared object could not be built" 1
ESTIMATOR_SO=$PWD/target/npy/libestimator.so exec "$python" -B npy/check.py "$@"
