#!/usr/bin/env bash
# Installs the library, or takes away what an installation with the same folders has put there:
#   packaging/install.sh install | uninstall
# PREFIX, LIBDIR, INCLUDEDIR, DOCDIR and DESTDIR are those of the Makefile. The tree may be moved as a whole afterwards: its
# files name one another by relative paths.
set -euo pipefail
cd "$(dirname "$0")/.."

prefix=$(realpath -ms "${PREFIX:-/usr/local}")
lib=$(realpath -ms "${LIBDIR:-$prefix/lib}")
include=$(realpath -ms "${INCLUDEDIR:-$prefix/include}")
doc=$(realpath -ms "${DOCDIR:-$prefix/share/doc/estimator}")
root=${DESTDIR:-}

place() { # FROM FOLDER [NAME]
    install -d "$root$2"
    install -m 644 "$1" "$root$2/${3:-$(basename "$1")}"
}

# A template of this folder with the version, which include/estimator.h states, and the way to the headers.
place_filled() { # TEMPLATE FOLDER
    local version way filled
    version=$(sed -nE 's/^#define ESTIMATOR_VERSION_(MAJOR|MINOR|PATCH) ([0-9]+)$/\2/p' include/estimator.h | paste -sd.)
    way=$(realpath -ms --relative-to="$lib/pkgconfig" "$include")
    filled=$(<"packaging/$1.in")
    filled=${filled//@VERSION@/"$version"}
    place <(echo "${filled//@INCLUDE@/"$way"}") "$2" "$1"
}

remove() { # FILE..
    for file in "$@"; do
        rm -f "$root$file"
    done
}

case ${1:-} in
    install)
        place include/estimator.h "$include"
        place include/estimator.hpp "$include"
        place target/lib/libestimator.a "$lib"
        place_filled estimator.pc "$lib/pkgconfig"
        place_filled estimator-config.cmake "$lib/cmake/estimator"
        place_filled estimator-config-version.cmake "$lib/cmake/estimator"
        for file in LICENSE NOTICE CHANGELOG.md; do
            place $file "$doc"
        done
        ;;
    uninstall)
        remove "$include"/estimator.{h,hpp} "$lib/libestimator.a" "$lib/pkgconfig/estimator.pc" \
            "$lib"/cmake/estimator/estimator-config{,-version}.cmake "$doc"/{LICENSE,NOTICE,CHANGELOG.md}
        # Folders that are the library's alone; shared ones stay.
        rmdir --ignore-fail-on-non-empty "$root$lib/cmake/estimator" "$root$doc" 2>/dev/null || true
        ;;
    *)
        echo "usage: packaging/install.sh install | uninstall" >&2
        exit 2
        ;;
esac
