#!/bin/sh
# Holds the exported functions, called from C, against the reference: the named rows, deep ones with fuels about their start and their end among them, and rows of every kind, good, ill typed, damaged and at the limits, each checked, run
# and shown; the named texts, and texts of every kind, good, spoilt and at the limits, stored; and rows of every kind, written. Prints the number of rows and of texts and how many
# lines differ, and fails where one does; a call that changed what it may not makes its line differ (tests/c/rows.c).
#
#     sh tests/c/compare.sh [ROWS OF EACH KIND] [SEED]
#
# For each thousand rows of a kind there are 1,050 texts, 50 of them at the limits, and 500 rows that are written.
#
# It needs rustc, nm and a C compiler for x86-64 Linux, and builds the three archives with `tools/build.sh`: where nothing is proved yet, that proves all that they stand on,
# which takes minutes. CC is the C compiler, NM is nm, and RUN is put before the program, for a machine that needs another compiler and an emulator.
set -e
cd "$(dirname "$0")/../.."
each=${1:-5000} seed=${2:-1} chunk=1000
work=target/c program=target/c/rows
mkdir -p "$work"
rustc --edition 2021 -O -o "$work/reference" tests/reference/main.rs
sh tools/build.sh exports_c exported_text_c exported_reading_c >&2
# docs/C.md: they need nothing beside these two of C's functions
${NM:-nm} -u target/staticlib/libexports.a target/staticlib/libexported_text.a target/staticlib/libexported_reading.a >"$work/asked"
asked=$(awk '$1 == "U" && $2 != "memcpy" && $2 != "memset" { print $2 }' "$work/asked")
[ -z "$asked" ] || { echo "the archives need $asked" >&2; exit 1; }
${CC:-cc} -std=c11 -Wall -Wextra -Werror -O2 -I crates/exports -o "$program" tests/c/rows.c target/staticlib/libexports.a target/staticlib/libexported_text.a \
    target/staticlib/libexported_reading.a
rows=0 texts=0 differ=0

# The lines of the reference and of the program over $work/rows.in, which is kept under the name $1 where they differ.
compare() {
    "$work/reference" answers <"$work/rows.in" >"$work/expected"
    $RUN "$program" <"$work/rows.in" >"$work/found" || echo "did not come to its end" >>"$work/found"
    cmp -s "$work/expected" "$work/found" && return
    lines=$(diff -a "$work/expected" "$work/found" | grep -a -c '^[<>]' || true)
    [ "$lines" -gt 0 ] || lines=1
    differ=$((differ + lines))
    cp "$work/rows.in" "$work/differs-$1.rows"
    echo "$lines lines differ: $work/differs-$1.rows" >&2
}

"$work/reference" cases crxsw >"$work/rows.in"
compare cases
"$work/reference" deep crxsw >"$work/rows.in"
compare deep
rows=$((rows + $("$work/reference" names | wc -l) + $("$work/reference" lines w | wc -l) + $("$work/reference" deepnames | wc -l)))
texts=$((texts + $("$work/reference" lines s | wc -l) + $("$work/reference" deeplines | wc -l)))

done=0
while [ "$done" -lt "$each" ]; do
    for kind in good illtyped damaged limits; do
        "$work/reference" generate "$kind" "$seed" "$chunk" crx >"$work/rows.in"
        compare "$kind-$seed"
        rows=$((rows + chunk))
    done
    # KIND COUNT QUESTION
    for asked in "texts 500 s" "spoilt 500 s" "edges 50 s" "written 500 w"; do
        set -- $asked
        "$work/reference" generate "$1" "$seed" "$2" "$3" >"$work/rows.in"
        compare "$1-$seed"
        case $3 in
        s) texts=$((texts + $2)) ;;
        w) rows=$((rows + $2)) ;;
        esac
    done
    done=$((done + chunk))
    seed=$((seed + 1))
done
echo "$rows rows and $texts texts, $differ differ"
[ "$differ" -eq 0 ]
