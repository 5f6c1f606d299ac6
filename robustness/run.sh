#!/usr/bin/env bash
# The C++ side beyond its tests: header_test plainly, under sanitizers, under valgrind's memory and thread checkers; the
# examples under sanitizers; fuzzers of the image reader, of the NPY reader, and of prediction and training. `make robustness`
# runs it, over the archive that is installed, target/lib/libestimator.a.
# FUZZ_SECONDS: how long each fuzzer runs (default 60). Sanitizers see the C++ code alone; valgrind sees the library too, and
# the fuzzers lend it memory that ends at a closed page. What guides them is the coverage of what they compare it with.
set -euo pipefail
cd "$(dirname "$0")/.."

scripts/need.sh g++=g++ clang++=clang valgrind=valgrind
scripts/need.sh "/usr/lib/llvm-*/lib/clang/*/lib/linux/libclang_rt.fuzzer-*.a=libclang-rt-$(clang -dumpversion | cut -d. -f1)-dev"
archive=target/lib/libestimator.a
[ -f $archive ] || { echo "no $archive: make archive writes it" >&2; exit 3; }
out=target/robustness
mkdir -p $out
warnings=(-Wall -Wextra -Wpedantic -Wshadow -Werror -g -O1 -Iinclude)
sanitizers=("-fsanitize=address,undefined" -fno-sanitize-recover=all)

# build OUTPUT COMPILER ARGUMENT..
build() {
    "$2" "${warnings[@]}" "${@:3}" "$archive" -pthread -o "$out/$1"
}

for standard in 17 20; do
    echo "header_test, C++$standard: with -ffast-math, plain, with address and undefined-behaviour sanitizers"
    build header_test g++ -std=c++$standard -O2 -ffast-math robustness/header_test.cpp
    $out/header_test
    build header_test g++ -std=c++$standard robustness/header_test.cpp
    $out/header_test
    build header_test.sanitized g++ -std=c++$standard "${sanitizers[@]}" robustness/header_test.cpp
    $out/header_test.sanitized
done
echo "header_test under valgrind: memory, then threads"
valgrind --quiet --error-exitcode=1 --leak-check=full $out/header_test emulated
valgrind --quiet --error-exitcode=1 --tool=helgrind $out/header_test emulated

echo "the examples under sanitizers"
build scheduler.sanitized g++ -std=c++17 "${sanitizers[@]}" examples/scheduler/main.cpp
$out/scheduler.sanitized examples/scheduler/files.csv $out/model.kan | tail -n 1
build builders.sanitized g++ -std=c++17 "${sanitizers[@]}" examples/builders/main.cpp
$out/builders.sanitized | grep '^(a)'

# fuzz NAME FOLDER SOURCE..: builds a fuzzer and runs it on the folder's samples, with the dictionary if one is named so
fuzz() {
    local log=$out/$1.log
    echo "$1, ${FUZZ_SECONDS:-60} seconds"
    build "$1" clang++ -std=c++17 -ffp-contract=off -fsanitize=fuzzer "${sanitizers[@]}" "${@:3}"
    mkdir -p "$2"
    local words=robustness/${1#fuzz_}.dict more=()
    [ ! -f "$words" ] || more+=(-dict="$words")
    "$out/$1" -max_len=2048 -use_value_profile=1 -max_total_time="${FUZZ_SECONDS:-60}" -artifact_prefix=$out/ \
        "${more[@]}" "$2" >"$log" 2>&1 || { tail -n 40 "$log"; exit 1; }
    grep -E '^(Done|answers)' "$log"
    # Every run is accounted for.
    local runs
    runs=$(sed -n 's/^Done \([0-9]*\) runs.*/\1/p' "$log")
    ! grep '^answers' "$log" | grep -v "in all: $runs\$" || { echo "$1: the answers do not add up to $runs runs"; exit 1; }
}

build seeds g++ -std=c++17 robustness/seeds.cpp
mkdir -p $out/images $out/npys
$out/seeds $out/images $out/npys
fuzz fuzz_image $out/images robustness/fuzz_image.cpp
fuzz fuzz_npy $out/npys robustness/fuzz_npy.cpp
# Every answer of a file was met: accepted, 29, 30, and 11.
for number in 0 11 29 30; do
    grep -qE "^answers:.* $number:" $out/fuzz_npy.log || { echo "fuzz_npy: no answer $number"; exit 1; }
done
fuzz fuzz_calls $out/calls robustness/fuzz_calls.cpp bench/handwritten.cpp
