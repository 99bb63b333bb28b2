#!/usr/bin/env bash
# The comparison for as long as asked: compare.sh --seconds N --seed S
set -eu
cd "$(dirname "$0")/.."
export CARGO_TARGET_DIR="$PWD/target/compare" SEPALSAIL_LIB="$PWD/target/staticlib/libhost.a"
cargo build --release --offline --quiet --manifest-path tests/compare/Cargo.toml
exec "$CARGO_TARGET_DIR/release/compare" "$@"
