#!/usr/bin/env bash
# docs/READING.md says which files a sceptic must read. This follows, from every public contract and every theorem named
# there, the definitions that it cites, through crates/*/specs, and fails where one stands in a file that docs/READING.md
# does not name, or where a file that it names is cited by nothing. scripts/cited.py says how.
# scripts/cited.sh [--verbose] [FOLDER]: of the repository, or of a copy of it; --verbose lists all names.
set -euo pipefail
here=$(cd "$(dirname "$0")" && pwd)
"$here/need.sh" python3=python3
exec python3 "$here/cited.py" "$@"
