#!/usr/bin/env bash
# Fails where modules of the oracle's library name each other in a circle. Files in a module's folder are part of it.
set -euo pipefail
cd "$(dirname "$0")/src"

# 'MODULE NAMED' for every path that begins with crate::
paths() {
    find . -name '*.rs' ! -name lib.rs ! -path './bin/*' -exec grep -oHE 'crate::([a-z0-9_]+|\{)' {} + |
        sed -E 's,^\./([a-z0-9_]+)[^:]*:crate::,\1 ,' | sort -u
}

# A group would hide the names in it from the pattern above.
if paths | grep ' {$'; then
    echo "oracle: a module is named by 'crate::{..}'; write a line for each" >&2
    exit 1
fi
# tsort names the modules of a circle, and fails.
paths | tsort >/dev/null || { echo "oracle: modules stand in a circle" >&2; exit 1; }
