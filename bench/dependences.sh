#!/usr/bin/env bash
# How long a show of dependences takes, outside the gate: bench/dependences.sh JREF [RUNS], where JREF
# is the built program with the command `run`.
#
# One file of a quarter, a half and the whole of 1 MiB, of each shape: a method of 1,000 sites whose
# names are long; methods of 1,000 sites, from each of which edges lead to all that follow; a method
# of so many casts, which has too many sites; methods that have the most lines; methods that take
# the most memory; and ordinary members.
# Milliseconds of a processor for a whole process, the least of three, or of so many, runs: of the
# show of dependences, and of that of bindings; the most in memory, in MiB; and what the show of
# dependences is answered, or how many bytes its report has.
. "$(dirname "$0")/work.sh"
runs=${2:-3}

# A class of this shape and of at most so many bytes.
program() {
    awk -v shape="$1" -v most="$2" '
    function times(text, count,   all, i) {
        all = ""
        for (i = 0; i < count; i++) all = all text
        return all
    }
    function name(count) { return sprintf("%" count "s", "") }
    # So many members as there is room for, each with its number in place of #.
    function members(piece, room,   i, text) {
        for (i = 0; ; i++) {
            text = piece
            gsub(/#/, i, text)
            room -= length(text)
            if (room < 0) break
            printf "%s", text
        }
    }
    BEGIN {
        if (shape == "long") {
            local = name(int(most / 1003) - 6)
            gsub(/ /, "a", local)
            printf "class A{void m(boolean %s){%s}}", local, times("if(" local ");", 1000)
        } else if (shape == "dense") {
            printf "class A{"
            members("void m#(int a){" times("if(true)a=1;", 1000) "}", most - 9)
            printf "}"
        } else if (shape == "casts") {
            printf "class A{void m(A x){%s}}", times("x=(A)x;", int(most / 10.48576))
        } else if (shape == "lines") {
            printf "class A{volatile int v;"
            members("void m#(){while(true){" times("v++;", 499) "}}", most - 24)
            printf "}"
        } else if (shape == "memory") {
            printf "class A{int f;int g;"
            members("void m#(){" times("g=f" times("/f", 70) ";", 7) "}", most - 21)
            printf "}"
        } else {
            printf "class A{"
            members("int f#=#;int m#(int a,A b){int c=a+b.f#*#;while(c<a){c=c+this.f#;}" \
                "if(c<a)return c-1;b.m#(a,this);f#=c;return c;}", most - 9)
            printf "}"
        }
    }'
}

step() {
    echo "[{\"step\":\"show\",\"file\":\"A.java\",\"what\":\"$1\"}]" > "$1.json"
}

# A refusal's text, or the report's bytes.
answer() {
    local refusal
    refusal=$(grep -o '"refusal":"[^"]*"' out.txt | head -1 | cut -d'"' -f4)
    echo "${refusal:-$(wc -c < out.txt) bytes}"
}

step bindings
step dependences
for shape in long dense casts lines memory ordinary; do
    for size in 262144 524288 1048576; do
        program $shape $size > A.java
        bound=$(processor "$runs" "$jref" run bindings.json A.java)
        shown=$(processor "$runs" "$jref" run dependences.json A.java)
        told=$(answer)
        env time -o most.txt -f %M "$jref" run dependences.json A.java > out.txt || true
        most=$(awk 'END { print int($1 / 1024) }' most.txt)
        echo "$shape, $(wc -c < A.java) bytes: $shown ms, bindings $bound, $most MiB; $told"
    done
done
