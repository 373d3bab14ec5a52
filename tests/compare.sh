#!/bin/sh
# Holds the program `rows` against the reference: rows of every kind, good, ill typed, damaged and at the limits, checked and run, and every tenth thousand shown and
# traced as well; texts of every kind, good, spoilt and at the limits, read and stored, and long ones told by their parts; rows of every kind, written; named texts, and named
# rows that are deep, against their lines, worked out by hand; those rows with every question; records that are not answered; a file that is cut at each of its bytes; an input that can't be read. The program `trace`: each named row
# as its input, deep ones too, inputs about the limit of what it reads, and one that can't be read. And the programs `store` and `show`: named texts with and without a line end, named
# rows, the samples with their words and what `trace` makes of them, texts about the longest that is taken, and wrong words.
# Prints the number of rows and of texts and how many lines differ, and fails where one does.
#
#     sh tests/compare.sh [ROWS OF EACH KIND] [SEED]
#
# For each thousand rows of a kind there are 4,120 texts, 100 of them at the limits and 20 long ones, and a thousand rows that are written: 206,000 texts without the word.
#
# It needs rustc, and builds the programs with `sh tools/build.sh rows trace store show`: where nothing is proved yet, that proves all that they stand on, which takes minutes. RUN
# is put before each program, for a machine that needs an emulator.
set -e
cd "$(dirname "$0")/.."
each=${1:-50000} seed=${2:-1} chunk=1000
work=target/compare program=target/bin/rows
mkdir -p "$work"
rustc --edition 2021 -O -o "$work/reference" tests/reference/main.rs
sh tools/build.sh rows trace store show >&2
if ! $RUN "$program" </dev/null >/dev/null 2>&1; then
    cat >&2 <<END
$program is compiled for x86-64 Linux and can't be run here. Set RUN to a command that runs such programs: it is put before the program.
An emulator for one machine's user programs, as qemu-x86_64, will do.
END
    exit 2
fi
rows=0 texts=0 differ=0

# Counts the lines by which $work/expected and $work/found differ, of both sides, and keeps what was read under the name $1.
count() {
    cmp -s "$work/expected" "$work/found" && return
    lines=$(diff -a "$work/expected" "$work/found" | grep -a -c '^[<>]' || true)
    [ "$lines" -gt 0 ] || lines=1
    differ=$((differ + lines))
    cp "$work/rows" "$work/differs-$1.rows"
    echo "$lines lines differ: $work/differs-$1.rows" >&2
}

# The lines of the reference and of the program over $work/rows.
compare() {
    "$work/reference" answers <"$work/rows" >"$work/expected"
    $RUN "$program" <"$work/rows" >"$work/found" || echo "did not come to its end" >>"$work/found"
    count "$1"
}

done=0
while [ "$done" -lt "$each" ]; do
    questions=cr
    [ $((done / chunk % 10)) -ne 0 ] || questions=crxt
    for kind in good illtyped damaged limits; do
        "$work/reference" generate "$kind" "$seed" "$chunk" "$questions" >"$work/rows"
        compare "$kind-$seed"
        rows=$((rows + chunk))
    done
    # KIND COUNT QUESTION
    for asked in "texts 2000 s" "spoilt 2000 s" "edges 100 s" "nested 20 n" "written 1000 w"; do
        set -- $asked
        "$work/reference" generate "$1" "$seed" "$2" "$3" >"$work/rows"
        compare "$1-$seed"
        case $3 in
        s | n) texts=$((texts + $2)) ;;
        w) rows=$((rows + $2)) ;;
        esac
    done
    done=$((done + chunk))
    seed=$((seed + 1))
done

"$work/reference" cases snw >"$work/rows"
"$work/reference" lines snw >"$work/expected"
$RUN "$program" <"$work/rows" >"$work/found" || echo "did not come to its end" >>"$work/found"
count named-texts

"$work/reference" deepruns >"$work/rows"
"$work/reference" deeplines >"$work/expected"
$RUN "$program" <"$work/rows" >"$work/found" || echo "did not come to its end" >>"$work/found"
count deep-runs
for question in c r x t s w; do
    "$work/reference" deep "$question" >"$work/rows"
    compare "deep-$question"
done
rows=$((rows + $("$work/reference" deepnames | wc -l)))
texts=$((texts + $("$work/reference" deeplines | wc -l)))

"$work/reference" faults >"$work/rows"
compare faults

"$work/reference" small >"$work/small"
at=0
while [ "$at" -lt "$(wc -c <"$work/small")" ]; do
    head -c "$at" "$work/small" >"$work/rows"
    compare "cut-$at"
    at=$((at + 1))
done

# What `trace` prints for $work/rows.
trace() {
    "$work/reference" trace <"$work/rows" >"$work/expected"
    $RUN target/bin/trace <"$work/rows" >"$work/found" || echo "did not come to its end" >>"$work/found"
    count "trace-$1"
}

"$work/reference" cases c >"$work/cases"
named=$("$work/reference" names | wc -l) case=0
while [ "$case" -lt "$named" ]; do
    "$work/reference" traceinput "$case" <"$work/cases" >"$work/rows"
    trace "$case"
    case=$((case + 1))
done

"$work/reference" deeptraces >"$work/deep"
named=$("$work/reference" deeplines | wc -l) case=0
while [ "$case" -lt "$named" ]; do
    "$work/reference" traceinput "$case" <"$work/deep" >"$work/rows"
    trace "deep-$case"
    case=$((case + 1))
done

# the row of 4,096 nodes with 64 locations: with its values an input of 33,034 bytes
largest=$(($("$work/reference" names | grep -n -x 'n 4096' | cut -d: -f1) - 1))
"$work/reference" traceinput "$largest" <"$work/cases" >"$work/largest"
for bytes in 33033 33034 33035 33036 70000; do
    { head -c 3 "$work/largest" && printf '\100' && tail -c +5 "$work/largest" && head -c 70000 /dev/zero; } | head -c "$bytes" >"$work/rows"
    trace "of-$bytes"
done

# The kind of a line where its words are free: `usage:`, or one that is neither that nor a refusal.
kinds() {
    sed -e 's/^usage:.*/usage:/' -e t -e '/^refused /!s/.*/a line/'
}

# The program $1 with the words behind it and $work/rows as its input: what stands on standard output, and behind it the lines of standard error.
programs=0
program() {
    programs=$((programs + 1)) before=$differ name=$1
    "$work/reference" "$@" <"$work/rows" >"$work/expected" 2>"$work/said"
    { echo " said:" && kinds <"$work/said"; } >>"$work/expected"
    shift
    $RUN "target/bin/$name" "$@" <"$work/rows" >"$work/found" 2>"$work/said" || echo "did not come to its end" >>"$work/found"
    { echo " said:" && kinds <"$work/said"; } >>"$work/found"
    count "$name-$programs"
    [ "$differ" -eq "$before" ] || echo "    $name $*" >&2
}

mkdir -p "$work/inputs"
"$work/reference" runs >"$work/runs"
"$work/reference" runinputs "$work/inputs"
run=0
while read -r words; do
    cp "$work/inputs/$run" "$work/rows"
    program $words
    run=$((run + 1))
done <"$work/runs"

# words that are no number or out of their range, and numbers at the ends of it; more and fewer values than m
printf '(l0 := (!l0 + 25))\n' >"$work/rows"
program store
program store ''
program store x
program store 1x
program store -1
program store -
program store 1.0
program store '1 100 1875'
program store 65
program store 255
program store 256
program store 257
for words in '' x -1 4294967296 18446744073709551616 1.0; do
    program store 0 "$words"
    program store 1 "$words" 0
done
for words in '' x - --1 2147483648 -2147483649 4294967295 4294967296 -4294967296 18446744073709551617 1.0; do
    program store 1 10 "$words"
done
for words in 2147483647 -2147483648 0 -1; do
    program store 1 4294967295 "$words"
done
program store 1 10
program store 1 10 1 2
program store 0 10
program store 0 10 1
program store 2 10 1 ''
program store 2 10 1 x
program store 256 10
program store x 10 1
program show x
program show ''
program show 1 10

# an m that doesn't fit 32 or 64 bits is refused or a wrong word, and never taken for what is left of it
for words in 4294967297 18446744073709551617; do
    echo "1 line" >"$work/expected"
    $RUN target/bin/store "$words" <"$work/rows" >"$work/found" 2>"$work/said" || echo "did not come to its end" >>"$work/found"
    echo "$(grep -c -e '^usage:' -e '^refused 4$' "$work/said") line" >>"$work/found"
    count "store-$words"
done

# the samples with the words that samples/README.md has for them, and what `trace` makes of each
sed -n 's/^| \([a-z-]*\.txt\) | `\([0-9 -]*\)` .*/\1 \2/p' samples/README.md >"$work/samples"
ls samples | grep '\.txt$' | sort >"$work/expected"
cut -d ' ' -f 1 "$work/samples" | sort >"$work/found"
: >"$work/rows"
count samples
while read -r name words; do
    cp "samples/$name" "$work/rows"
    program store $words
    "$work/reference" store $words <"$work/rows" | "$work/reference" trace >"$work/expected"
    { $RUN target/bin/store $words <"$work/rows" || true; } | $RUN target/bin/trace >"$work/found" || echo "did not come to its end" >>"$work/found"
    count "sample-$name"
done <"$work/samples"

: >"$work/rows"
for name in rows trace; do
    echo "$name: the input could not be read" >"$work/expected"
    $RUN "target/bin/$name" <"$work" >"$work/found" 2>"$work/said" || echo "did not come to its end" >>"$work/found"
    cat "$work/said" >>"$work/found"
    count "unreadable-$name"
done
for words in "store 1" "store 1 10 0" show; do
    echo "a line" >"$work/expected"
    set -- $words
    name=$1
    shift
    $RUN "target/bin/$name" "$@" <"$work" >"$work/found" 2>"$work/said" || echo "did not come to its end" >>"$work/found"
    kinds <"$work/said" >>"$work/found"
    count "unreadable-$name"
done

echo "$rows rows and $texts texts, $differ differ"
[ "$differ" -eq 0 ]
