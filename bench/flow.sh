#!/usr/bin/env bash
# How long the calls on paths of a graph take, outside the gate: bench/flow.sh.
#
# The crates that it stands on are copied beside a program that calls it, which is proved and built there.
set -eu
top=$(cd "$(dirname "$0")/.." && pwd)
work=$(mktemp -d)
trap 'rm -rf "$work"' EXIT
mkdir -p "$work/crates/times/src"
for crate in jr_flow; do
    tar -C "$top" -c --exclude=out "crates/$crate" | tar -C "$work" -x
done
cp "$top/HANDLES" "$work"
grep -E '^jr_flow:' "$top/crates.txt" > "$work/crates.txt"
echo 'times: jr_flow anyhow' >> "$work/crates.txt"
cp "$top/bench/flow.program" "$work/crates/times/src/main.rt"
cd "$work/crates/times"
git init -q "$work"
rt run 2> "$work/said.txt" || { cat "$work/said.txt"; exit 1; }
