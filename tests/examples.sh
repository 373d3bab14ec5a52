#!/bin/sh
# Runs each example of docs/ROWS.md and docs/REFUSALS.md, a line that begins with `$`, with the two shell functions of docs/ROWS.md, and compares what it prints, standard
# error too, with the lines under it; and the bytes of samples/setting.hex with the row that `store` makes. Prints the number of examples and how many differ, and fails where
# one does.
#
#     sh tests/examples.sh
#
# It needs xxd, and the programs in target/bin (`sh tools/build.sh rows trace store show`). RUN is put before each program, for a machine that needs an emulator.
set -e
cd "$(dirname "$0")/.."
work=target/examples
mkdir -p "$work"
rm -f "$work"/[0-9]*

sed -n -e 's/^    \(routine() {.*\)/\1/p' -e '/^    record() {$/,/^    }$/p' docs/ROWS.md | sed 's#target/bin/#$RUN target/bin/#g' >"$work/functions"

# Each example is a file of its own, and the lines that are to come another. All are set in by four spaces; another line ends them.
awk -v work="$work" '
    /^    \$ / {
        at = work "/" ++n
        command = substr($0, 7)
        gsub("target/bin/", "$RUN target/bin/", command)
        print command > (at ".sh")
        printf "" > (at ".lines")
        next
    }
    /^    / && at { print substr($0, 5) > (at ".lines"); next }
    { at = "" }' docs/ROWS.md docs/REFUSALS.md

examples=0 differ=0
while [ -f "$work/$((examples + 1)).sh" ]; do
    examples=$((examples + 1))
    (. "$work/functions" && . "$work/$examples.sh") >"$work/found" 2>&1 || echo "did not come to its end" >>"$work/found"
    if ! diff -a "$work/$examples.lines" "$work/found" >"$work/differs"; then
        differ=$((differ + 1))
        cat "$work/$examples.sh" "$work/differs" >&2
    fi
done

sed 's/#.*//' samples/setting.hex | xxd -r -p >"$work/expected"
$RUN target/bin/store 1 10 1875 <samples/setting.txt >"$work/found"
cmp "$work/expected" "$work/found" || differ=$((differ + 1))
echo "$examples examples, $differ differ"
[ "$differ" -eq 0 ]
