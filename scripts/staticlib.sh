#!/usr/bin/env bash
# Proves what an archive rests on, and compiles it: target/staticlib/libNAME.a.
#   scripts/staticlib.sh estimator   the C functions, as they are delivered
#   scripts/staticlib.sh leaves      single functions, for the comparison alone
# rt names an archive after its crate, and a crate is a library or an archive: the C functions are exported by estimator_c. Without
# --cpu rt compiles for x86-64-v2, and the library is for every x86-64.
set -euo pipefail
cd "$(dirname "$0")/.."

case ${1:-} in
    estimator) crate=estimator_c ;;
    leaves) crate=leaves ;;
    *) echo "staticlib: name an archive: estimator or leaves" >&2; exit 2 ;;
esac
command -v rt >/dev/null || { echo "needs the Rattle toolchain: no rt here (README.md, \"What it needs\")" >&2; exit 3; }
mkdir -p target/log target/staticlib
(cd "crates/$crate" && rt lib --cpu x86-64) >"target/log/$1.txt" 2>&1 || { cat "target/log/$1.txt"; exit 1; }
cp "crates/$crate/out/lib$crate.a" "target/staticlib/lib$1.a"
