#!/usr/bin/env bash
# The least stack, in KiB to 4, on which the replay program does the generator's worst messages and the examples. Needs target/bin/replay
# (make target/bin/replay). Measured with an empty environment and the stack's place fixed: both lie on the stack.
set -euo pipefail
cd "$(dirname "$0")/.."
replay=$PWD/target/bin/replay
work=$(mktemp -d)
trap 'rm -rf "$work"' EXIT
export CARGO_TARGET_DIR=$PWD/target/cargo
cargo build --offline --release --quiet --manifest-path second/Cargo.toml

runs() {
    (ulimit -s "$1" && env -i setarch -R "$replay" <"$2") >"$work/out" 2>/dev/null && cmp -s "$work/out" "$work/want"
}

least() {
    local low=4 high=8192
    "$replay" <"$2" >"$work/want"
    while [ $((high - low)) -gt 4 ]; do
        local middle=$(((low + high) / 2))
        if runs "$middle" "$2"; then high=$middle; else low=$middle; fi
    done
    echo "$1: $high"
}

for kind in chain records questions pairs; do
    "$CARGO_TARGET_DIR/release/scripts" worst "$kind" >"$work/$kind"
    least "$kind" "$work/$kind"
done
for script in day exchange signing; do
    least "$script" "examples/$script.script"
done
