#!/usr/bin/env bash
# The stack that each call through the C interface takes (docs/PERFORMANCE.md). Needs target/staticlib/libluffcringle.a (make).
set -euo pipefail
cd "$(dirname "$0")/../.."
work=$(mktemp -d)
trap 'rm -rf "$work"' EXIT
export CARGO_TARGET_DIR=$PWD/target/cargo
cargo build --offline --release --quiet --manifest-path second/Cargo.toml
for kind in chain records questions; do
    # The last message is the one that the first pair's key signed.
    "$CARGO_TARGET_DIR/release/scripts" worst "$kind" | awk '/^message/ { octets = $6 } END { print octets }' >"$work/$kind"
done
gcc -std=gnu11 -Wall -Wextra -Werror -O2 -Iinclude -Wl,-z,now measure/stack/stack.c target/staticlib/libluffcringle.a -o "$work/stack"
"$work/stack" "$work/chain" "$work/records" "$work/questions"
