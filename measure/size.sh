#!/usr/bin/env bash
# The code size of what a program links (docs/PERFORMANCE.md): text and constant data of each object of the archives. Needs target/staticlib (make).
set -euo pipefail
cd "$(dirname "$0")/../target/staticlib"
size --format=berkeley capi.o capi_listing.o capi_signing.o capi_resolver.o capi_version.o
