#!/usr/bin/env bash
# Builds the oracle and runs one of its programs:
#   oracle/run.sh self-test
#   oracle/run.sh lists [images | visits | split | npy]
#   oracle/run.sh leaves [--every N] [--offset M] [--basis N]
#   oracle/run.sh calls | training | chains | images | npy | visits | unmarked [--rounds N] [--seed S] [--large] [--round R]
#   oracle/run.sh bench .. (bench/run.sh makes what it needs)
# KAN_RUST: folder of the ported Rust; ESTIMATOR_LIB: folder of the proved code's archives.
# Status 3: something that is needed is not here and can't be installed.
set -euo pipefail
cd "$(dirname "$0")/.."

stop() {
    echo "oracle: $1" >&2
    exit "${2:-3}"
}

install() {
    command -v apt-get >/dev/null || stop "needs the Debian packages $*, and there is no apt-get"
    local get=(env DEBIAN_FRONTEND=noninteractive apt-get)
    "${get[@]}" install -y --no-install-recommends "$@" >&2 && return
    "${get[@]}" update >&2 && "${get[@]}" install -y --no-install-recommends "$@" >&2 && return
    stop "could not install the Debian packages $*"
}

in_registry() {
    compgen -G "/usr/share/cargo/registry/$1-[0-9]*" >/dev/null
}

# Debian 12's own rustc (1.63) is too old for the ported Rust; its rustc-web is not.
compiler() {
    apt-cache show rustc >/dev/null 2>&1 || apt-get update >&2 || true
    if apt-cache show rustc-web cargo-web >/dev/null 2>&1; then echo rustc-web cargo-web; else echo rustc cargo; fi
}

install_missing() {
    local missing=()
    if ! command -v cargo >/dev/null || ! command -v rustc >/dev/null; then
        read -ra missing <<<"$(compiler)"
    fi
    in_registry serde && in_registry serde_derive || missing+=(librust-serde-dev librust-serde+derive-dev)
    in_registry serde_json || missing+=(librust-serde-json-dev)
    in_registry thiserror || missing+=(librust-thiserror-dev)
    [ ${#missing[@]} -eq 0 ] || install "${missing[@]}"
}

program=${1:-}
archives=${ESTIMATOR_LIB:-target/staticlib}
need_archive() {
    [ -f "$archives/lib$1.a" ] || stop "no $archives/lib$1.a: \`scripts/staticlib.sh $1\` makes it"
}

# need_calls NAME..: the linker would say the same at length.
need_calls() {
    local name
    need_archive estimator
    for name in "$@"; do
        nm "$archives/libestimator.a" | grep " T $name\$" >/dev/null || stop "$archives/libestimator.a has no $name" 1
    done
}

case $program in
    self-test | lists) ;;
    leaves) need_archive leaves ;;
    # All five are linked with all calls on a network (src/bin/proved/calls.rs).
    calls | training | chains | visits | unmarked)
        need_calls kan_check kan_initialise kan_predict kan_loss kan_train_step kan_train kan_visits kan_accumulate kan_apply
        ;;
    images) need_calls kan_image_read ;;
    npy) need_calls kan_npy_write kan_npy_read ;;
    bench) need_calls kan_predict kan_train_step kan_accumulate kan_apply kan_visits ;;
    *) stop "name a program: self-test, lists, leaves, calls, training, chains, images, npy, visits, unmarked or bench" 2 ;;
esac
shift

rust=${KAN_RUST:-../shared/docs/src}
for file in src/network/kan.rs src/data_structures/spline.rs; do
    [ -f "$rust/$file" ] || stop "no ported Rust at $rust/$file: set KAN_RUST"
done
install_missing

# Cargo finds oracle/.cargo/config.toml only from inside that folder.
target=$PWD/target/oracle
(cd oracle && cargo build --quiet --release --target-dir "$target" --bin "$program") ||
    stop "the build failed (if it names versions: Cargo.lock is Debian 12's, remove it elsewhere)" 1
exec "$target/release/$program" "$@"
