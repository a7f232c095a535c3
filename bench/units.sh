#!/usr/bin/env bash
# How long a compilation unit takes to be read, outside the gate: bench/units.sh JREF, where JREF is
# the built program, or bench/units.sh PROGRAM alone, where PROGRAM is units.program, built as a crate
# that stands on jr_punit, jr_shelf, jr_lex, jr_text and anyhow.
#
# The words ask for a rename in a file that is a unit, at its first byte, where no identifier stands.
# It is read, lexed, measured and parsed whole, put into a table and bound, and the rename is refused;
# the program of its own does no more than read and parse it. The same words over a small class say
# how long the rest takes. Four shapes at three
# sizes; javac's parser reads the same files. All times are a processor's: of the whole process, and
# of the thread that parses.
set -eu
jref=$(realpath "$1")
if [ "${2:-}" = alone ]; then words="FILE"; else words="rename FILE 0 b"; fi
here=$(cd "$(dirname "$0")" && pwd)
work=$(mktemp -d)
trap 'rm -rf "$work"' EXIT
cd "$work"

# A file of at most so many bytes: what stands in front, pieces with their number in place of #, what stands behind.
file() {
    awk -v most="$2" -v front="$3" -v piece="$4" -v behind="$5" -v times="$6" 'BEGIN {
        printf "%s", front
        so_far = length(front) + length(behind)
        for (i = 0; i < times; i++) {
            text = piece
            gsub(/#/, i, text)
            if (so_far + length(text) > most) break
            so_far += length(text)
            printf "%s", text
        }
        printf "%s", behind
    }' > "$1"
}

. "$here/best.sh"

repeat() { printf "%${2}s" "" | sed "s/ /$1/g"; }

printf 'class A{int f=1;}' > Small.java
for size in 65536 262144 1048576; do
    file "members$size.java" $size "class A{" \
        "int f#=#;int m#(int a,A b){int c=a+b.f#*#;if(c<a)return c-1;b.m#(a,this);return c;}" "}" 1000000
    file "method$size.java" $size "class A{void m(int a){" "int v#=(a+#)*3-a;a=v#;m(a-#);" "}}" 1000000
    file "blocks$size.java" $size "class A{void m(int a){" \
        "$(repeat 'while(a<#){' 90)a=a+#;$(repeat '}' 90)" "}}" 1000000
    branch="if(a<#){$(repeat 'a=a+#*2;' $((size / 5200)))}else "
    file "else$size.java" $size "class A{void m(int a){" "$branch" ";}}" 499
done

echo "cores: $(nproc)"
echo "jref over a small class: $(processor 12 "$jref" ${words/FILE/Small.java}) ms: $(cat out.txt)"
for shape in members method blocks else; do
    for size in 65536 262144 1048576; do
        name=$shape$size.java
        least=$(processor 12 "$jref" ${words/FILE/$name})
        echo "jref over $name, $(wc -c < $name) bytes: $least ms: $(cat out.txt)"
    done
done
if command -v javac > javac.txt; then
    javac -proc:none -d parser "$here/Parse.java"
    java -Xss64m -cp parser Parse members*.java method*.java blocks*.java else*.java
fi
