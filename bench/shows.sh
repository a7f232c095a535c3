#!/usr/bin/env bash
# How long a show of bindings takes, outside the gate: bench/shows.sh JREF, where JREF is the built
# program with the command `run`.
#
# One file of 64 KiB, 256 KiB and 1 MiB, and 256 files with the same members in all, are each shown
# whole: milliseconds of a processor for a whole process, the least of five. Beside it the same texts
# of which one doesn't read (reading alone), and of which the last declaration is at fault (reading
# and the table). javac's front end to its flow phase on the same files: the first time in a process,
# and the least of ten, for the thread that does it.
. "$(dirname "$0")/work.sh"

# Members with numbers from the first number on, of at most so many bytes.
members() {
    awk -v i="$1" -v most="$2" 'BEGIN {
        piece = "int f#=#;int m#(int a,A b){int c=a+b.f#*#;while(c<a){c=c+this.f#;}if(c<a)return c-1;" \
            "b.m#(a,this);f#=c;return c;}"
        for (; ; i++) {
            text = piece
            gsub(/#/, i, text)
            so_far += length(text)
            if (so_far > most) break
            printf "%s", text
        }
    }'
}

steps() {
    printf '['
    local comma=""
    for name in "$@"; do
        printf '%s{"step":"show","file":"%s","what":"bindings"}' "$comma" "$name"
        comma=,
    done
    printf ']'
}

# The figures of a folder of files, which are shown in order.
figures() {
    cd "$1"
    names=$(ls *.java | sort -V)
    last=$(echo $names | awk '{ print $NF }')
    steps $names > s.json
    all=$(processor 5 "$jref" run s.json $names)
    shown=$(wc -c < out.txt)
    cp "$last" kept
    steps "$last" > s.json
    sed 's/}$/;;}/' kept > "$last"
    read=$(processor 5 "$jref" run s.json $names)
    sed 's/}$/Z late;}/' kept > "$last"
    table=$(processor 5 "$jref" run s.json $names)
    cp kept "$last"
    rm kept
    echo "$1, $(cat $names | wc -c) bytes: $all ms, $shown bytes shown; read $read, with the table $table"
    java -Xss64m -cp "$work/front" Front "$1" $names
    cd "$work"
}

mkdir front
javac -proc:none -d front "$here/Front.java"
for size in 65536 262144 1048576; do
    mkdir one$size
    echo "class A{$(members 0 $((size - 12)))}" > one$size/A.java
    figures one$size
done
mkdir many
for i in $(seq 0 255); do
    echo "class A$i{$(members 0 4080 | sed "s/A b/A$i b/g")}" > many/A$i.java
done
figures many
