#!/usr/bin/env bash
# The stack that each call of the office's archive takes (docs/PERFORMANCE.md). Needs target/staticlib/libluffcringle-office.a (make).
set -euo pipefail
cd "$(dirname "$0")/../.."
work=$(mktemp -d)
trap 'rm -rf "$work"' EXIT
gcc -std=gnu11 -Wall -Wextra -Werror -O2 -Iinclude -Wl,-z,now measure/office/stack.c target/staticlib/libluffcringle-office.a -o "$work/stack"
"$work/stack"
