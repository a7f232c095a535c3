#!/usr/bin/env bash
# How long parse_expr takes by itself, outside the gate: bench/expressions.sh.
#
# The crates that it stands on are copied beside a program that calls it, which is proved and built there.
set -eu
top=$(cd "$(dirname "$0")/.." && pwd)
work=$(mktemp -d)
trap 'rm -rf "$work"' EXIT
mkdir -p "$work/crates/times/src"
for crate in jr_text jr_lex jr_ast jr_grammar jr_pexpr; do
    tar -C "$top" -c --exclude=out "crates/$crate" | tar -C "$work" -x
done
cp "$top/HANDLES" "$work"
grep -E '^(jr_text|jr_lex|jr_ast|jr_grammar|jr_pexpr):' "$top/crates.txt" > "$work/crates.txt"
echo 'times: jr_pexpr jr_lex jr_text anyhow' >> "$work/crates.txt"
cp "$top/bench/expressions.program" "$work/crates/times/src/main.rt"
cd "$work/crates/times"
git init -q "$work"
rt run 2> "$work/said.txt" || { cat "$work/said.txt"; exit 1; }
