#!/usr/bin/env bash
# The morning queue by the proved code and by the same job in plain Rust (measure/plain), in one run (docs/PERFORMANCE.md; 02, CR 13). Needs
# target/staticlib/libluffcringle.a (make).
#
#   measure/queue.sh [--turns N] [--install] [PART]..
#
# The parts, all of them unless some are named:
#   times     the two sides take turns, N each (5001). Plain Rust is built with --release, then with fat LTO and one codegen unit, then with names put in order
#             octet by octet
#   growth    by pairs and by octets of the message; drawn into docs/cost.svg
#   counts    instructions by callgrind, which do not depend on the machine's other work, and the functions that take most of them
#   beside    one message beside libknot's and ldns's parse and libcrypto's HMAC-SHA256, of those that are there
# --install installs the Debian packages of libknot and ldns (as root).
set -euo pipefail
cd "$(dirname "$0")/.."
turns=5001
parts=()
while [ $# -gt 0 ]; do
    case $1 in
        --turns) turns=$2 && shift ;;
        --install)
            apt-get update -q
            apt-get install -y -q --no-install-recommends --no-upgrade libknot-dev libldns-dev
            ;;
        times | growth | counts | beside) parts+=("$1") ;;
        *) echo "usage: measure/queue.sh [--turns N] [--install] [times|growth|counts|beside].." >&2 && exit 2 ;;
    esac
    shift
done
[ ${#parts[@]} -gt 0 ] || parts=(times growth counts beside)
work=$(mktemp -d)
trap 'rm -rf "$work"' EXIT
export CARGO_TARGET_DIR=$PWD/target/cargo

# build NAME PROFILE FLAG..: the measuring program, for the processors that the archive is for too.
build() {
    RUSTFLAGS='' cargo build --offline --locked --quiet --manifest-path measure/plain/Cargo.toml --example queue --profile "$2" "${@:3}"
    cp "$CARGO_TARGET_DIR/$2/examples/queue" "$work/$1"
}

# timed NAME WORDS: a mix on which the sides do not agree ends the run.
timed() {
    printf '\n## Times: plain Rust built with %s\n\n' "$2"
    "$work/$1" times "$turns"
}

times() {
    timed release "--release"
    timed fat "fat LTO and one codegen unit"
    timed octets "--release, names put in order octet by octet"
}

growth() {
    printf '\n## Growth\n'
    "$work/release" growth "$turns" docs/cost.svg
}

# counted BUILD MIX SIDE: the instructions of one batch; by function in $work/MIX.SIDE.
counted() {
    valgrind --tool=callgrind --callgrind-out-file="$work/$2.$3" --toggle-collect="*queue_$3*" "$work/$1" count "$2" "$3" 1 2>&1 |
        sed -n 's/.*Collected : //p'
}

# leaves MIX SIDE: the functions that take most of it.
leaves() {
    printf '\n%s, %s:\n\n' "$1" "$2"
    callgrind_annotate "$work/$1.$2" | sed -nE 's/^ *([0-9,]+) +\(? *([0-9.]+)%\) +[^:]*:([^[ ]*).*/    \1 (\2 %) \3/p' | head -n 8
}

counts() {
    local mix ours plain fat
    printf '\n## Instructions of one batch, by callgrind\n\n'
    if ! command -v valgrind >"$work/path"; then
        echo "skipped: valgrind is not there"
        return
    fi
    echo "| mix | ours | plain Rust | ratio | plain Rust, fat LTO | ratio |"
    echo "|---|---|---|---|---|---|"
    for mix in $("$work/release" mixes); do
        fat=$(counted fat "$mix" plain)
        plain=$(counted release "$mix" plain)
        ours=$(counted release "$mix" ours)
        awk -v mix="$mix" -v ours="$ours" -v plain="$plain" -v fat="$fat" \
            'BEGIN { printf "| `%s` | %d | %d | %.2f | %d | %.2f |\n", mix, ours, plain, ours / plain, fat, ours / fat }'
    done
    for mix in updates morning updates-last long chain pointers; do
        leaves "$mix" ours
        leaves "$mix" plain
    done
}

# with MACRO PACKAGE: what beside.c links, if it is there.
with() {
    if pkg-config --exists "$2" 2>"$work/errors"; then
        # shellcheck disable=SC2207
        flags+=("-D$1" $(pkg-config --cflags --libs "$2"))
    else
        echo "skipped: $2 is not there (--install installs libknot and ldns)"
    fi
}

beside() {
    local flags=()
    printf '\n## One message, beside others\n\n'
    with KNOT libknot
    with LDNS ldns
    with CRYPTO libcrypto
    gcc -std=gnu11 -Wall -Wextra -Werror -O2 -Iinclude measure/beside/beside.c target/staticlib/libluffcringle.a "${flags[@]}" -o "$work/beside"
    "$work/beside" "$("$work/release" message)"
}

cargo build --offline --release --quiet --manifest-path second/Cargo.toml
build octets release --features octets
build release release
build fat fat
echo "## $(date -u +%F), $(sed -n 's/^model name[^:]*: //p' /proc/cpuinfo | head -n 1), $(nproc) cores, load $(cut -d ' ' -f 1-3 /proc/loadavg), $(rustc --version)"
for part in "${parts[@]}"; do
    "$part"
done
