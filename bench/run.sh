#!/usr/bin/env bash
# Times the library beside the ported Rust and the algorithm by hand, counts instructions, and measures the stack. Prints
# Markdown, as docs/SPEED.md holds it. Arguments go to the timing program:
#   bench/run.sh [--milliseconds 400] [--training 1]
# BENCH_PARTS: which of "times wide instructions stack" to do (default: all). "wide" has times and instructions where the
# knots span more than the largest float, beside the Rust alone: BENCH_PARTS=wide bench/run.sh
set -euo pipefail
cd "$(dirname "$0")/.."

scripts/need.sh g++=g++ ar=binutils valgrind=valgrind
parts=${BENCH_PARTS:-times wide instructions stack}
archive=${ESTIMATOR_LIB:-target/staticlib}/libestimator.a
mkdir -p target/bench
g++ -std=c++17 -O3 -ffp-contract=off -fno-exceptions -c bench/handwritten.cpp -o target/bench/handwritten.o
ar rcs target/bench/libhandwritten.a target/bench/handwritten.o

echo "$(date -u '+%d %B %Y'), $(uname -m), $(sed -n 's/^model name.*: //p' /proc/cpuinfo | head -n 1), $(nproc) cores;" \
    "$(rustc --version | cut -d' ' -f1-2), g++ $(g++ -dumpfullversion), archive $(sha256sum "$archive" | cut -c1-16)"
[[ $parts != *times* ]] || oracle/run.sh bench "$@"
[[ $parts != *wide* ]] || oracle/run.sh bench --wide 1 "$@"
[[ $parts != *wide* ]] || bench/instructions.sh --wide 1 "$@"
[[ $parts != *instructions* ]] || bench/instructions.sh "$@"
[[ $parts != *stack* ]] || bench/stack.sh
