#!/bin/sh
# Writes the gate's rows and their lines, crates/rows/stdin and crates/rows/stdout, by the reference alone: the records of its cases and of its generator, and its answers. With
# the folder of another place in the first word they are written there.
#
#     sh tests/gate.sh [FOLDER]
#
# It needs rustc.
set -e
cd "$(dirname "$0")/.."
folder=${1:-crates/rows} work=target/gate
mkdir -p "$work" "$folder"
rustc --edition 2021 -O -o "$work/reference" tests/reference/main.rs

# QUESTION KIND SEED COUNT BYTES PRINTED: as many rows of the kind, but only those of at most so many bytes whose lines have at most so many.
some() {
    "$work/reference" generate "$2" "$3" "$4" "$1" | "$work/reference" short "$5" "$6"
}

{
    "$work/reference" cases c
    "$work/reference" deepgate c
    some c limits 3 120 12000 1000
    some c damaged 5 600 3000 1000
    some c illtyped 7 600 3000 1000
    some c good 9 400 3000 1000
    some c chains 41 40 11000 1000

    "$work/reference" cases r
    "$work/reference" deepgate r
    some r limits 3 60 12000 10000
    some r damaged 5 100 3000 10000
    some r illtyped 7 100 3000 10000
    some r good 9 600 3000 10000
    some r chains 42 40 11000 10000

    "$work/reference" cases x
    "$work/reference" deepgate x
    some x good 21 200 2000 10000
    some x illtyped 22 30 2000 10000
    some x damaged 23 40 2000 10000
    some x limits 24 160 601 10000
    some x chains 44 20 9000 40000

    "$work/reference" cases t
    "$work/reference" deepgate t
    some t good 11 260 401 2500
    some t illtyped 12 80 401 2500
    some t damaged 13 90 401 2500
    some t limits 14 220 401 2500
    some t chains 43 40 9000 15000

    "$work/reference" cases s
    some s texts 31 150 3000 6000
    some s spoilt 32 400 3000 6000
    some s edges 33 300 1500 6000
    some s edges 36 40 9000 10000

    "$work/reference" cases n
    some n nested 35 60 1000 10000

    "$work/reference" cases w
    some w written 34 150 9000 12000

    "$work/reference" faults
} >"$folder/stdin"
"$work/reference" answers <"$folder/stdin" >"$folder/stdout"
wc -c "$folder/stdin" "$folder/stdout"
