#!/usr/bin/env bash
# Proves the programs and all that they are built of, and puts them into target/bin.
# usage: tools/build.sh      (anywhere; with `rt`)
set -euo pipefail
cd "$(dirname "$0")/.."
mkdir -p target/bin
for program in bound play; do
    rm -f "crates/$program/out/$program"
    # `rt run` proves and builds a program, and then runs it: here on nothing, where `bound` refuses, and `play` finds no tag.bin
    (cd "crates/$program" && rt run < /dev/null > ../../target/$program.log 2>&1) || true
    if ! cp "crates/$program/out/$program" target/bin/; then
        echo "$program is not proved or not built:"
        grep -E 'error|no proof|not proved' "target/$program.log"
        exit 1
    fi
done
