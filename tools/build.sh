#!/bin/sh
# Proves crates and what they stand on, and puts what they build where the pages and the scripts look for it: a program into target/bin under its
# name, and of the crates for C the archive into target/staticlib (exports_c gives libexports.a, and so on).
#
#     sh tools/build.sh NAME..
set -e
cd "$(dirname "$0")/.."
mkdir -p target/bin target/staticlib
for name in "$@"; do
    if [ -f "crates/$name/src/main.rt" ]; then
        # `rt run` proves a program, builds it and runs it, here with no input; each of ours then ends with status 0
        log="target/build-$name.log"
        (cd "crates/$name" && rt run </dev/null) >"$log" 2>&1 || { cat "$log" >&2; exit 1; }
        cp "crates/$name/out/$name" target/bin/
    else
        (cd "crates/$name" && rt lib >&2)
        cp "crates/$name/out/lib$name.a" "target/staticlib/lib${name%_c}.a"
    fi
done
