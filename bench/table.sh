#!/usr/bin/env bash
# How making a table grows, and lookups in it, outside the gate: bench/table.sh.
#
# The crates that it stands on are copied beside a program that makes rows and calls them. A table wants the rows of a
# program, which nothing here proves of rows that are made up, so the program is interpreted: its times are many times
# those of a built one. The interpreter's own cost of a step grows with what is in memory, so the writing of the rows,
# which is plainly one step a row, stands beside: the two grow alike.
set -eu
top=$(cd "$(dirname "$0")/.." && pwd)
work=$(mktemp -d)
trap 'rm -rf "$work"' EXIT
mkdir -p "$work/crates/times/src"
for crate in jr_text jr_ast jr_index jr_table; do
    tar -C "$top" -c --exclude=out "crates/$crate" | tar -C "$work" -x
done
cp "$top/HANDLES" "$work"
grep -E '^(jr_text|jr_ast|jr_index|jr_table):' "$top/crates.txt" > "$work/crates.txt"
echo 'times: jr_table jr_ast anyhow' >> "$work/crates.txt"
cp "$top/bench/table.program" "$work/crates/times/src/main.rt"
cd "$work/crates/times"
git init -q "$work"
rt try
