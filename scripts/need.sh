#!/usr/bin/env bash
# Installs what is missing, each named as COMMAND=PACKAGE or FILE=PACKAGE: scripts/need.sh g++=g++ cmake=cmake
set -euo pipefail

missing=()
for pair in "$@"; do
    command -v "${pair%%=*}" >/dev/null || compgen -G "${pair%%=*}" >/dev/null || missing+=("${pair#*=}")
done
[ ${#missing[@]} -gt 0 ] || exit 0
command -v apt-get >/dev/null || { echo "needs the Debian packages ${missing[*]}, and there is no apt-get" >&2; exit 3; }
get=(env DEBIAN_FRONTEND=noninteractive apt-get)
"${get[@]}" install -y --no-install-recommends "${missing[@]}" >&2 ||
    { "${get[@]}" update >&2 && "${get[@]}" install -y --no-install-recommends "${missing[@]}" >&2; } ||
    { echo "could not install the Debian packages ${missing[*]}" >&2; exit 3; }
