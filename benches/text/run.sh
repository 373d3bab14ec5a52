#!/bin/sh
# Proves and builds the exported reader and writer, builds the bench, and prints the tables.
set -e
cd "$(dirname "$0")/../.."
sh tools/build.sh exported_reading_c >&2
mkdir -p target/bench
rustc --edition 2021 -O -o target/bench/text benches/text/main.rs -L target/staticlib -l static=exported_reading
exec target/bench/text
