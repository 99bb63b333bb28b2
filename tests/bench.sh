#!/usr/bin/env bash
# The library beside plain Rust in one process, as ratios of minima: bench.sh [--seconds N] [--only check|run|calls]
set -eu
cd "$(dirname "$0")/.."
export CARGO_TARGET_DIR="$PWD/target/compare" SEPALSAIL_LIB="$PWD/target/staticlib/libhost.a"
cargo build --release --offline --quiet --manifest-path tests/compare/Cargo.toml
exec "$CARGO_TARGET_DIR/release/bench" "$@"
