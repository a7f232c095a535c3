#!/usr/bin/env bash
# How much memory a session takes, outside the gate: bench/session.sh JREF, where JREF is the built
# program with the command `run`.
#
# The largest sessions that there may be, of 8 MiB, once in 256 files and once in 8: with no step,
# with 1,000 edits that go round the files, with 1,000 edits of one file, with a show of bindings,
# and with a show behind 999 edits. The most that a process had in memory, in MiB, and its seconds of
# a processor, of one run each.
set -eu
jref=$(realpath "$1")
work=$(mktemp -d)
trap 'rm -rf "$work"' EXIT
cd "$work"

# A class with a number, whose members and a comment fill so many bytes.
class() {
    awk -v number="$1" -v most="$2" 'BEGIN {
        text = " class A" number "{"
        piece = "int f#=#;int m#(int a,A b){int c=a+b.f#*#;while(c<a){c=c+this.f#;}if(c<a)return c-1;" \
            "b.m#(a,this);f#=c;return c;}"
        gsub(/A b/, "A" number " b", piece)
        for (i = 0; ; i++) {
            member = piece
            gsub(/#/, i, member)
            if (length(text) + length(member) + 5 > most) break
            printf "%s", text
            so_far += length(text)
            most -= length(text)
            text = member
        }
        printf "%s/*%*s*/}", text, most - length(text) - 5, ""
    }'
}

# So many edits, each of the first byte, that go round so many files, and then so many shows.
script() {
    awk -v edits="$1" -v files="$2" -v shows="$3" 'BEGIN {
        printf "["
        for (i = 0; i < edits; i++) {
            printf "%s{\"step\":\"edit\",\"file\":\"A%d.java\",", comma, i % files
            printf "\"from\":0,\"to\":1,\"text\":\" \"}"
            comma = ","
        }
        if (shows) printf "%s{\"step\":\"show\",\"file\":\"A0.java\",\"what\":\"bindings\"}", comma
        printf "]"
    }'
}

figures() {
    local files=$1 size=$2 i
    rm -f ./*.java
    names=
    for ((i = 0; i < files; i++)); do
        class "$i" "$size" > "A$i.java"
        names="$names A$i.java"
    done
    echo "$files files, $(cat $names | wc -c) bytes"
    for steps in "0 1 0" "1000 $files 0" "1000 1 0" "0 1 1" "999 $files 1"; do
        script $steps > s.json
        env time -o time.txt -f '%M %U %S' "$jref" run s.json $names > out.txt
        awk -v name="$steps" '{ printf "edits, of files, shows %s: %d MiB, %.1f s", name, $1 / 1024, $2 + $3 }' time.txt
        echo ", $(grep -o refused out.txt | wc -l) refused"
    done
}

figures 256 32768
figures 8 1048576
