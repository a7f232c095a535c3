#!/usr/bin/env bash
# How long reading a script and writing a report take, outside the gate: bench/scripts.sh, soonest where the crates are
# proved already. It makes a program of its own in a copy of the repository, since no program of this one reads scripts
# alone.
#
# Scripts have 1,000 steps, a half and a quarter as many, with texts that make the longest nearly 1 MiB. Reports show lines
# of 63 bytes, which come to 8 MiB, a half and a quarter of that.
set -eu
top=$(cd "$(dirname "$0")/.." && pwd)
work=$(mktemp -d)
trap 'rm -rf "$work"' EXIT
tar -C "$top" -c --exclude=out crates crates.txt HANDLES | tar -C "$work" -x
git init -q "$work"
mkdir -p "$work/crates/script_times/src"
echo "script_times: jr_script jr_names jr_ast" >> "$work/crates.txt"
cat > "$work/crates/script_times/src/main.rt" <<'END'
//! Reads a script or writes a report of a size that is asked for, and prints what came of it.
#![tactic(auto)]

use jr_ast::Name;
use jr_names::{Lines, Reply};
use jr_script::{read_script, report_text};
use std::alloc::{AllocError, Global};
use std::process::ExitCode;
use std::rt::Env;
use std::{env, io};

fn main(rt: HostRuntime) -> ExitCode {
    let alloc = rt.alloc();
    let Ok(words) = words_of(&rt, alloc) else {
        return ExitCode::from(2);
    };
    match work(alloc, words.as_slice()) {
        Some(size) => {
            let _ = println!(rt; "{size}");
            ExitCode::from(0)
        }
        None => ExitCode::from(1),
    }
}

fn words_of(rt: &(impl Env + AllocGlobal), alloc: Global) -> io::Result<Vec<String>> {
    let words = env::args(rt)?.skip(1).collect(alloc)?;
    Ok(words)
}

fn work(alloc: Global, words: &[String]) -> Option<usize> {
    match words {
        [kind, count, width] => {
            let count = count.as_str().parse::<usize>().ok()?;
            let width = width.as_str().parse::<usize>().ok()?;
            if kind.as_str() == "read" {
                read(alloc, count, width)
            } else {
                write(alloc, count, width).ok()
            }
        }
        _ => None,
    }
}

// How many steps a script of so many edits has, whose texts have the width.
fn read(alloc: Global, count: usize, width: usize) -> Option<usize> {
    let script = script_text(alloc, count, width).ok()?;
    let steps = read_script(alloc, script.as_str().as_bytes()).ok()?;
    Some(steps.len())
}

fn script_text(alloc: Global, count: usize, width: usize) -> Result<String, AllocError> {
    let text = wide(alloc, width)?;
    let mut script = String::from_str(alloc, "[{\"step\":\"undo\"}")?;
    for _ in 1..count {
        script.push_str(",{\"step\":\"edit\",\"file\":\"A.java\",\"from\":0,\"to\":0,\"text\":\"")?;
        script.push_str(text.as_str())?;
        script.push_str("\"}")?;
    }
    script.push_str("]")?;
    Ok(script)
}

fn wide(alloc: Global, width: usize) -> Result<String, AllocError> {
    let mut text = String::new(alloc);
    for _ in 0..width {
        text.push_str("x")?;
    }
    Ok(text)
}

// How long the report is that shows so many lines of the width.
fn write(alloc: Global, count: usize, width: usize) -> Result<usize, AllocError> {
    let text = wide(alloc, width)?;
    let mut lines = Vec::new(alloc);
    for _ in 0..count {
        lines.push(Name::new(alloc, text.as_str())?)?;
    }
    let replies = [Reply::Shown(Lines::from_vec(lines))];
    let report = report_text(alloc, &[], &replies)?;
    Ok(report.len())
}
END
(cd "$work/crates/script_times" && rt run -- read 0 0) > "$work/log" 2>&1 || { tail -20 "$work/log"; exit 1; }
program="$work/crates/script_times/out/script_times"

best() {
    local least=999999999 before after spent
    for _ in 1 2 3 4 5 6 7 8 9 10; do
        before=$(date +%s%N)
        "$program" "$@" > "$work/out.txt"
        after=$(date +%s%N)
        spent=$(((after - before) / 1000))
        [ "$spent" -lt "$least" ] && least=$spent
    done
    echo "$least"
}

echo "a script of one step: $(best read 1 0) microseconds"
for steps in 250 500 1000; do
    echo "$steps steps, $(((steps - 1) * 1043 + 17)) bytes: $(best read $steps 985) microseconds"
done
echo "a report of one line: $(best write 1 63) microseconds"
for lines in 31775 63550 127100; do
    spent=$(best write $lines 63)
    echo "$lines lines, a report of $(cat "$work/out.txt") bytes: $spent microseconds"
done
