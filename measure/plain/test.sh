#!/usr/bin/env bash
# The queue in plain Rust against the archive's luffcringle_batch (target/staticlib/libluffcringle.a, which `make` writes): on generated scripts, seeds 1 to 4,
# on the generator's worst messages and on the worked day. With an argument: so many lines of each script.
set -euo pipefail
cd "$(dirname "$0")/../.."
work=$(mktemp -d)
trap 'rm -rf "$work"' EXIT
export CARGO_TARGET_DIR=$PWD/target/cargo
cargo build --offline --release --quiet --manifest-path second/Cargo.toml
scripts=
for seed in 1 2 3 4; do
    "$CARGO_TARGET_DIR/release/scripts" "$seed" "${1:-10000}" >"$work/$seed" 2>"$work/reached"
    scripts=$scripts$work/$seed:
done
for kind in chain records questions pairs; do
    "$CARGO_TARGET_DIR/release/scripts" worst "$kind" >"$work/$kind"
    scripts=$scripts$work/$kind:
done
LUFFCRINGLE_SCRIPTS=${scripts%:} cargo test --offline --locked --quiet --manifest-path measure/plain/Cargo.toml --test equal -- --nocapture
