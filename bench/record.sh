#!/usr/bin/env bash
# Fills docs/SPEED.md again: runs bench/run.sh, whose arguments it takes, and puts the tables below "## Measured".
# What stands above that line speaks of the figures too: read it again afterwards.
set -euo pipefail
cd "$(dirname "$0")/.."

mkdir -p target/bench
{ sed '/^## Measured/q' docs/SPEED.md; echo; bench/run.sh "$@"; } | tee target/bench/speed.md
mv target/bench/speed.md docs/SPEED.md
