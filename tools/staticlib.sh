#!/usr/bin/env bash
# Proves and builds the static library, and puts it where the Rust package and the C example look
# for it: target/staticlib/libvinzagew.a.
set -euo pipefail
cd "$(dirname "$0")/.."
(cd crates/vinzagew && rt lib)
mkdir -p target/staticlib
cp crates/vinzagew/out/libvinzagew.a target/staticlib/
