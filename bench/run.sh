#!/usr/bin/env bash
# Builds the library for C, times it beside plain C in one run, and writes the table into docs/BENCHMARKS.md.
# usage: bench/run.sh        (in the folder of the repository, with `rt` and gcc)
set -euo pipefail
cd "$(dirname "$0")/.."
work=$(mktemp -d)
trap 'rm -rf "$work"' EXIT
if ! (cd crates/timed && rt lib) > "$work/lib.log" 2>&1; then
    cat "$work/lib.log"
    exit 1
fi
runtime=$(dirname "$(dirname "$(readlink -f "$(command -v rt)")")")/c/liblibc_c.a
gcc -O3 -Wall -Wextra bench/timed.c bench/plain.c crates/timed/out/libtimed.a "$runtime" -o "$work/timed"
python3 bench/make_tag.py > "$work/large.bin"
ulimit -s unlimited
"$work/timed" shelf/threshold.bin "$work/large.bin" > "$work/table"
{
    sed '/^<!-- table -->$/q' docs/BENCHMARKS.md
    cat "$work/table"
    echo
    echo "Measured on $(date -u +%Y-%m-%d) with $(rt version), $(gcc --version | head -n 1), $(grep -m 1 'model name' /proc/cpuinfo | sed 's/.*: //')."
    sed -n '/^<!-- end of table -->$/,$p' docs/BENCHMARKS.md
} > "$work/page"
cp "$work/page" docs/BENCHMARKS.md
cat "$work/table"
