#!/bin/sh
# Proves and builds trace, builds the plain program and the bench, and prints the table.
set -e
cd "$(dirname "$0")/../.."
sh tools/build.sh trace >&2
mkdir -p target/bench
rustc --edition 2021 -O -o target/bench/plain_trace benches/trace/plain.rs
rustc --edition 2021 -O -o target/bench/trace benches/trace/main.rs
exec target/bench/trace target/bin/trace target/bench/plain_trace
