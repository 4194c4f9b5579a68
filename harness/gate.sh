#!/usr/bin/env bash
# Proves the library, builds the harness over it, compares 20,000 generated files and texts, or as many as the argument says, and holds the stored cases
# and lines of the program vectors against those that the harness would write. Exit status 0 only if nothing differs; otherwise what differs is printed.
set -euo pipefail
cd "$(dirname "$0")"
(cd ../crates/prismfleece && rt lib | tail -n 1)
PRISMFLEECE_LIB_DIR="$(cd ../crates/prismfleece/out && pwd)" cargo build --release --offline --quiet
log=$(mktemp)
trap 'rm -f "$log"' EXIT
./target/release/compare --files "${1:-20000}" >"$log" || { cat "$log"; exit 1; }
tail -n 1 "$log"
./target/release/vectors --check ../crates/vectors
