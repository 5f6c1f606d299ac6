#!/usr/bin/env bash
# Builds and runs the measurement of the calls' peak stack; bench/run.sh runs it. bench/stack.sh COUNT: of drawn networks.
set -euo pipefail
cd "$(dirname "$0")/.."

scripts/need.sh g++=g++
mkdir -p target/bench
# -z now: else the loader's search for memset, at the first call, would be counted.
g++ -std=c++17 -O2 -Wall -Wextra -Iinclude bench/stack.cpp "${ESTIMATOR_LIB:-target/staticlib}/libestimator.a" \
    -pthread -Wl,-z,now -o target/bench/stack
target/bench/stack "$@"
