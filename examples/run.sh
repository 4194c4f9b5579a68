#!/usr/bin/env bash
# Proves the library, and builds and runs both examples over it.
set -eu
cd "$(dirname "$0")/.."
(cd crates/prismfleece && rt lib)
mkdir -p target/examples
cc -std=c11 -Wall -Wextra -Iinclude examples/answer.c crates/prismfleece/out/libprismfleece.a -o target/examples/answer-c
rustc --edition 2021 -O examples/answer.rs -L crates/prismfleece/out -l static=prismfleece -o target/examples/answer-rust
target/examples/answer-c
target/examples/answer-rust
