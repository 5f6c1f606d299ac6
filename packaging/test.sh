#!/usr/bin/env bash
# Installs into a fresh folder, moves it, and builds against it: the examples by pkg-config, by CMake, and with the archive
# inside a shared object, which must print the same and write the same image; every call on a fibre of the size that
# estimator.h promises, ESTIMATOR_STACK_BYTES; what must not compile; versions; and uninstalling. All folders have a space
# in their names. `make test-install` runs it.
set -euo pipefail
cd "$(dirname "$0")/.."

# Whatever folders the caller's environment or command line names: this installs below target/ and nowhere else.
unset PREFIX LIBDIR INCLUDEDIR DOCDIR DESTDIR MAKEFLAGS MFLAGS MAKEOVERRIDES
scripts/need.sh g++=g++ gcc=gcc nm=binutils cmake=cmake pkg-config=pkg-config
work="$PWD/target/test install"
rm -rf "$work"
mkdir -p "$work"
examples=(scheduler builders)

stop() {
    echo "test-install: $1" >&2
    exit 1
}

make --no-print-directory install PREFIX="$work/first place"
prefix="$work/moved" # nothing in the tree may name the place it was made for
mv "$work/first place" "$prefix"
! grep -rqF "first place" "$prefix" || stop "a file names the place it was made for"
export PKG_CONFIG_PATH="$prefix/lib/pkgconfig"
compilers=(g++)
! command -v clang++ >/dev/null || compilers+=(clang++)

# by_pkg_config COMPILER ARGUMENT..: what pkg-config prints is meant for a shell, which takes its backslashes away
by_pkg_config() {
    eval "local link=($(pkg-config --cflags --libs estimator))"
    "$@" "${link[@]}"
}

echo "headers: C99, C11, C++17 and C++20 without warnings, ${compilers[*]}"
strict=(-Wall -Wextra -Wpedantic -Wconversion -Wshadow -Werror -fsyntax-only -I"$prefix/include")
for compiler in "${compilers[@]}"; do
    for standard in 99 11; do
        "$compiler" -x c -std=c$standard "${strict[@]}" - <<<'#include <estimator.h>'
    done
    for standard in 17 20; do
        "$compiler" -x c++ -std=c++$standard "${strict[@]}" -fno-exceptions -fno-rtti - <<<'#include <estimator.hpp>'
    done
done

echo "what looks like two numbers is no pointer and length: {0, n} must not compile"
view() { # COMPILER POINTER
    "$1" -x c++ -std=c++17 -fsyntax-only -I"$prefix/include" - <<<"#include <estimator.hpp>
        estimator::Floats view(const float *pointer) { return pointer ? estimator::Floats{$2, 3} : estimator::Floats{}; }"
}
for compiler in "${compilers[@]}"; do
    view "$compiler" pointer || stop "a pointer and a length must compile"
    for null in 0 NULL nullptr; do
        ! view "$compiler" $null 2>/dev/null || stop "$compiler takes {$null, 3} for a view"
    done
done

echo "version: in the header, pkg-config, CMake and CHANGELOG.md"
cat >"$work/version.c" <<'EOF'
#include <estimator.h>
#include <stdio.h>
int main(void) { return printf("%s %d\n", ESTIMATOR_VERSION, ESTIMATOR_VERSION_NUMBER) < 0; }
EOF
by_pkg_config gcc "$work/version.c" -o "$work/version"
read -r version number <<<"$("$work/version")"
IFS=. read -r major minor patch <<<"$version"
[ "$number" = $((major * 10000 + minor * 100 + patch)) ] || stop "ESTIMATOR_VERSION_NUMBER is $number for $version"
[ "$(pkg-config --modversion estimator)" = "$version" ] || stop "pkg-config has another version than the header, $version"
newest=$(grep -m1 '^## ' CHANGELOG.md)
[[ $newest =~ ^'## '"$version"($|[ ,]) ]] || stop "CHANGELOG.md begins with '$newest', the header says $version"

mkdir "$work/find"
cat >"$work/find/CMakeLists.txt" <<'EOF'
cmake_minimum_required(VERSION 3.16)
project(find LANGUAGES NONE)
set(CMAKE_LIBRARY_ARCHITECTURE x86_64-linux-gnu) # as the C compiler would say
find_package(estimator ${ASKED})
if(estimator_FOUND)
  get_target_property(archive estimator::estimator IMPORTED_LOCATION)
  get_target_property(include estimator::estimator INTERFACE_INCLUDE_DIRECTORIES)
  if(NOT EXISTS "${archive}" OR NOT EXISTS "${include}/estimator.hpp")
    message(FATAL_ERROR "no ${archive} or no ${include}/estimator.hpp")
  endif()
endif()
file(WRITE "${CMAKE_BINARY_DIR}/found" "${estimator_FOUND} ${estimator_VERSION}")
EOF
# finds VERSION..: whether find_package, asked so, finds the installed version
finds() {
    local IFS=';'
    rm -rf "$work/find/build"
    cmake -S "$work/find" -B "$work/find/build" -DCMAKE_PREFIX_PATH="$prefix" -DASKED="$*" >"$work/find.log" 2>&1 ||
        { cat "$work/find.log"; stop "cmake failed"; }
    [ "$(<"$work/find/build/found")" = "1 $version" ]
}
for asked in "" "$version" "$version EXACT" "$major.$minor" "$major.$minor...$major.$((minor + 1))"; do
    read -ra words <<<"$asked"
    finds "${words[@]}" || stop "find_package(estimator $asked) finds nothing"
done
for asked in "$major.$minor.$((patch + 1))" "$major.$minor.$((patch + 1)) EXACT" "$major.$((minor + 1))" \
    "$((major + 1))" "$major.$((minor + 1))...$major.$((minor + 2))" "0.0.9"; do
    read -ra words <<<"$asked"
    ! finds "${words[@]}" || stop "find_package(estimator $asked) finds $version"
done

echo "archive: the code that was compiled, and memset and memcpy of the C library, bound when a program is loaded"
built=${ESTIMATOR_LIB:-target/staticlib}/libestimator.a
code() { # ARCHIVE: its instructions and what they refer to, without the jumps that scripts/bind.sh adds
    objdump --disassemble --reloc "$1" | sed -n '/^Disassembly/,$ p' | sed '/^bound_.*:/,$ d' |
        sed -E 's/\bestimator_(memset|memcpy|memmove)\b/\1/'
}
[ "$(code "$built" | wc -l)" -gt 1000 ] || stop "no code in $built"
diff <(code "$built" | sed '/^$/d') <(code "$prefix/lib/libestimator.a" | sed '/^$/d') || stop "the code is not what was compiled"
needed=$(nm -u "$prefix/lib/libestimator.a" 2>/dev/null | awk '$1 == "U" { print $2 }' | sort -u |
    grep -vxE '(estimator_)?(memset|memcpy|memmove)|_GLOBAL_OFFSET_TABLE_' || true)
[ -z "$needed" ] || stop "the archive needs $needed"

echo "pkg-config"
mkdir "$work/by-pkg-config" "$work/by-cmake" "$work/by-shared-object"
for example in "${examples[@]}"; do
    by_pkg_config g++ -std=c++17 -O2 -Wall -Wextra -Werror "examples/$example/main.cpp" -o "$work/by-pkg-config/$example"
done

echo "the quick start of README.md, as it stands there"
sed -n '/^```cpp$/,/^```$/ { /^```/ d; p }' README.md >"$work/quick-start.txt"
{
    grep -E '^(#include|using) ' "$work/quick-start.txt"
    cat <<'EOF'
static int fail(const std::string &why) { return std::fprintf(stderr, "%s\n", why.c_str()), 1; }
int main() {
    const std::vector<float> inputs{0.25f, 0.5f, 0.75f, 0.5f, 0.25f, 0.125f}, targets{0.5f, 0.25f}, features{0.5f, 0.5f, 0.5f};
EOF
    grep -vE '^(#include|using) ' "$work/quick-start.txt"
    echo '    return std::printf("  it predicts %g\n", static_cast<double>(seconds)) < 0; }'
} >"$work/quick-start.cpp"
by_pkg_config g++ -std=c++17 -O2 -Wall -Wextra -Werror "$work/quick-start.cpp" -o "$work/quick-start"
(cd "$work" && ./quick-start)
[ "$(grep -o 'if (!outcome) return' "$work/quick-start.txt" | wc -l)" = 1 ] || stop "the quick start does not test its last outcome"

echo "CMake"
for example in "${examples[@]}"; do
    made="$work/cmake/$example"
    cmake -S "examples/$example" -B "$made" -DCMAKE_PREFIX_PATH="$prefix" -DCMAKE_BUILD_TYPE=Release >"$work/cmake.log"
    cmake --build "$made" >>"$work/cmake.log" || { cat "$work/cmake.log"; exit 1; }
    cp "$made/$example" "$work/by-cmake/$example"
done

echo "shared object (-z text: refused if any code had to be patched when loaded)"
g++ -shared -Wl,-z,text -Wl,-z,defs -Wl,-z,lazy -Wl,--whole-archive "$prefix/lib/libestimator.a" -Wl,--no-whole-archive \
    -o "$work/libestimator.so"
! nm -D --defined-only "$work/libestimator.so" | grep -v ' T kan_' || stop "the shared object exports more than the calls"
shared=("$work/libestimator.so" -Wl,-rpath,"$work")
for example in "${examples[@]}"; do
    g++ -std=c++17 -O2 -I"$prefix/include" "examples/$example/main.cpp" "${shared[@]}" -o "$work/by-shared-object/$example"
    ldd "$work/by-shared-object/$example" | grep -F "$work/libestimator.so" >/dev/null || stop "the shared object is not used"
done

for way in by-pkg-config by-cmake by-shared-object; do
    mkdir "$work/$way.run"
    (
        cd "$work/$way.run"
        "$work/$way/scheduler" "$OLDPWD/examples/scheduler/files.csv" model.kan >output.txt
        "$work/$way/builders" >builders.txt
    )
    diff -r "$work/by-pkg-config.run" "$work/$way.run"
done
tail -n 2 "$work/by-pkg-config.run/output.txt"
tail -n 3 "$work/by-pkg-config.run/builders.txt"

stack=$(sed -nE 's/^#define ESTIMATOR_STACK_BYTES ([0-9]+)$/\1/p' "$prefix/include/estimator.h")
[ -n "$stack" ] || stop "estimator.h does not say ESTIMATOR_STACK_BYTES"
echo "along the calls of the installed archive"
scripts/stack.sh "$prefix/lib/libestimator.a" | tail -n 1
for compiler in "${compilers[@]}"; do
    echo "a fibre of $stack bytes, functions bound as late as can be, bytes of stack ($compiler)"
    by_pkg_config "$compiler" -std=c++17 -O2 -Wall -Wextra -Werror packaging/fibre.cpp -Wl,-z,lazy -o "$work/fibre"
    "$work/fibre"
done
echo "the same with the archive inside a shared object, its caller bound when loaded"
g++ -std=c++17 -O2 -I"$prefix/include" packaging/fibre.cpp "${shared[@]}" -Wl,-z,now -o "$work/fibre-shared"
"$work/fibre-shared" | tail -n 1

echo "DESTDIR and LIBDIR; uninstall takes away what was installed, and nothing else"
stage="$work/stage root"
folders=(DESTDIR="$stage" PREFIX=/usr LIBDIR=/usr/lib/x86_64-linux-gnu)
make --no-print-directory install "${folders[@]}"
PKG_CONFIG_PATH="$stage/usr/lib/x86_64-linux-gnu/pkgconfig" by_pkg_config gcc "$work/version.c" -o "$work/staged"
"$work/staged" >/dev/null
prefix="$stage/usr" finds "$version" EXACT || stop "CMake finds nothing in $stage"
for file in LICENSE NOTICE CHANGELOG.md; do
    cmp $file "$stage/usr/share/doc/estimator/$file"
done
touch "$stage/usr/include/other.h"
make --no-print-directory uninstall "${folders[@]}"
left=$(cd "$stage" && find . -type f)
[ "$left" = ./usr/include/other.h ] || stop "after uninstalling there is: $left"
[ ! -e "$stage/usr/share/doc/estimator" ] && [ ! -e "$stage/usr/lib/x86_64-linux-gnu/cmake/estimator" ] ||
    stop "uninstalling leaves folders of its own"

echo "test-install: both examples agree in all three ways, every call fits a fibre of $stack bytes, version $version"
