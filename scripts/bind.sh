#!/usr/bin/env bash
# Copies the archive that the compiler wrote and has its calls of the C library bound when a program is loaded:
#   scripts/bind.sh FROM.a TO.a
# A plain call is bound at its first use, on the caller's stack, and for that the loader needs more than a small fibre
# has. So memset and memcpy (and memmove, should the compiler ever call it) get names of their own inside the archive, and
# under each stands one jump through a pointer which the loader always fills beforehand. The code stays as it was
# proved, but for the names; packaging/test.sh compares.
set -euo pipefail

from=$1 to=$2
work=$(mktemp -d)
trap 'rm -rf "$work"' EXIT
cp "$from" "$work/archive.a"
chmod u+w "$work/archive.a"

jump() { # FUNCTION
    cat <<EOF
    .section .text.estimator_$1, "ax", @progbits
    .globl   estimator_$1
    .hidden  estimator_$1
    .type    estimator_$1, @function
estimator_$1:
    jmp      *$1@GOTPCREL(%rip)
    .size    estimator_$1, . - estimator_$1
    .section .note.GNU-stack, "", @progbits
EOF
}

# An archive that has such jumps already is left as it is.
if ! ar t "$from" | grep '^bound_' >/dev/null; then
    for function in memset memcpy memmove; do
        nm -u "$from" 2>/dev/null | awk '{ print $NF }' | grep -x $function >/dev/null || continue
        objcopy --enable-deterministic-archives --redefine-sym $function=estimator_$function "$work/archive.a"
        jump $function | as -o "$work/bound_$function.o" -
    done
    jumps=("$work"/bound_*.o)
    [ ! -e "${jumps[0]}" ] || ar rcsD "$work/archive.a" "${jumps[@]}"
fi
mkdir -p "$(dirname "$to")"
new=$(mktemp "$to.XXXXXX")
cp "$work/archive.a" "$new"
chmod 644 "$new"
mv "$new" "$to"
