#!/usr/bin/env bash
# How long the check of jr_ast takes from nothing, outside the gate: bench/trees.sh [JOBS], a job a processor where none
# are given.
#
# What `rt` starts begins with what an earlier check kept, in any checkout. This calls the kit's checker itself, which
# takes nothing and keeps nothing.
set -eu
jobs=${1:-$(nproc)}
cd "$(dirname "$0")/../crates/jr_ast"
kit=$(dirname "$(dirname "$(readlink -f "$(command -v rattle)")")")

echo "processors: $(nproc), jobs: $jobs"
begun=$(date +%s)
rattle check --crate-name jr_ast src/lib.rt --links jr_ast= --jobs "$jobs" \
    --extern std="$kit/rlibs/std.rlib" -L dependency="$kit/rlibs" \
    --antt-project "$kit/rattle/logic/antt-project.json" --logic-built "$kit/logic_built" | tail -n 1
echo "seconds: $(($(date +%s) - begun))"
