#!/usr/bin/env bash
# Times of the calls through the C interface against the second reader's library (docs/PERFORMANCE.md). Needs
# target/staticlib/libluffcringle.a (make).
set -euo pipefail
cd "$(dirname "$0")/.."
export CARGO_TARGET_DIR=$PWD/target/cargo
cargo run --release --offline --locked --quiet --manifest-path bindings/rust/Cargo.toml --example speed
