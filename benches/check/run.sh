#!/bin/sh
# Proves and builds the exported check, builds the bench, and prints the table.
set -e
cd "$(dirname "$0")/../.."
sh tools/build.sh exports_c >&2
mkdir -p target/bench
rustc --edition 2021 -O -o target/bench/check benches/check/main.rs -L target/staticlib -l static=exports
exec target/bench/check
