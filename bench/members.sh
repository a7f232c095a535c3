#!/usr/bin/env bash
# How long binding a member takes, outside the gate: bench/members.sh JREF, where JREF is the built
# program with the command `run`.
#
# Each program is read and bound, and the one reference of a small file is shown. The first shape is
# one method of so many statements, a quarter of them locals. In all others each size has as many
# tokens, or blocks, as the next, in fewer expressions or methods, so that times alike mean that work
# grows as the text does. Milliseconds of a processor for a whole process, and how long reading
# alone takes: the same texts, of which the small file doesn't read.
. "$(dirname "$0")/work.sh"

# So many times a text.
times() {
    awk -v count="$1" -v text="$2" 'BEGIN { for (i = 0; i < count; i++) printf "%s", text }'
}

# So many methods of this body.
methods() {
    printf '%s\n' "$2" | awk -v count="$1" '{
        for (i = 0; i < count; i++) printf "void m%d(){%s}", i, $0
    }'
}

# A program of this shape and size, as A.java. The expressions have so many tokens, 90,000 in all, of
# which one method has some 3,000.
program() {
    local most=$(($2 - 4)) value=
    case $1 in
        statements)
            methods 1 "int v0=0;$(awk -v n="$(($2 / 4))" 'BEGIN {
                for (i = 1; i < n; i++) {
                    text = "int v#=v~+1;v#=v#*v0;f=v#-v~;use(v#);"
                    gsub(/#/, i, text)
                    gsub(/~/, i - 1, text)
                    printf "%s", text
                }
            }')" ;;
        names) value="$(times $((most / 2)) a.)a" ;;
        sums) value="$(times $((most / 2)) f+)f" ;;
        assignments) value="$(times $((most / 2)) a=)a" ;;
        casts) value="$(times $((most / 3)) '(A)')a" ;;
        chains) value="a$(times $((most / 4)) '.own()')" ;;
        calls) value="$(times $((most / 3)) 'of(')a$(times $((most / 3)) ')')" ;;
        parentheses) value="$(times "$2" '(')a$(times "$2" ')')" ;;
        blocks) methods $((9600 / $2)) "$(times "$2" '{int v=0;}{')$(times "$2" '}')" ;;
        scopes)
            methods $((9600 / $2)) "$(awk -v n="$2" 'BEGIN {
                for (i = 0; i < n; i++) printf "{int v%d=%s;", i, i ? "v" i - 1 : "0"
            }')$(times "$2" '}')" ;;
        branches)
            methods $((192 / $2)) "$(times "$2" "$(times 73 'if(b)'){")$(times "$2" '}')" ;;
        others) methods 1 "$(times "$2" 'if(b);else ');" ;;
    esac
    if [ -n "$value" ]; then
        [ "$1" = sums ] && value="f=$value;" || value="a=$value;"
        methods 30 "$(times $((3000 / $2)) "$value")"
    fi
}

# The processor's milliseconds of a show in the small file, with this text.
shown() {
    echo "$1" > Small.java
    processor 5 "$jref" run s.json Small.java A.java
}

printf '[{"step":"show","file":"Small.java","what":"bindings"}]' > s.json
while read -r shape sizes; do
    for size in $sizes; do
        head='class A{A a;int f;boolean b;A own(){return this;}A of(A x){return x;}void use(int x){}'
        echo "$head$(program "$shape" "$size")}" > A.java
        all=$(shown 'class S{S f;}')
        answer=$(cut -c 1-60 out.txt)
        alone=$(shown 'class S{S f;;}')
        echo "$shape, $size: $(wc -c < A.java) bytes, $all ms, $alone of them for reading alone: $answer"
    done
done << 'END'
statements 1250 5000 20000
names 75 150 300
sums 75 150 300
assignments 75 150 300
casts 75 150 300
chains 75 150 300
calls 75 150 290
parentheses 24 48 96
blocks 24 48 96
scopes 24 48 96
branches 24 48 96
others 125 250 498
END
