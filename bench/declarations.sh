#!/usr/bin/env bash
# How long the declarations of a program take, outside the gate: bench/declarations.sh JREF, where
# JREF is the built program with the command `run`.
#
# Each program is read, its table is built, and the one reference of a small file is shown; where its
# last declaration is at fault, that is found behind all others. Eight shapes at three sizes, in
# milliseconds of a processor for a whole process, and in each how long reading alone takes: the same
# texts, of which the small file doesn't read.
. "$(dirname "$0")/work.sh"

# So many times a piece, with its number in place of #, the number before in place of ~, and, in
# place of @ and %, the number's two digits to the base that is handed over.
pieces() {
    awk -v count="$1" -v piece="$2" -v base="${3:-1}" 'BEGIN {
        for (i = 1; i < count; i++) {
            text = piece
            gsub(/#/, i, text)
            gsub(/~/, i - 1, text)
            gsub(/@/, int(i / base), text)
            gsub(/%/, i % base, text)
            printf "%s", text
        }
    }'
}

# A program of this shape and size, as A.java.
program() {
    case $1 in
        members) echo "class A{int f0;$(pieces "$2" 'int f#;')}" ;;
        methods)
            base=$(awk -v n="$2" 'BEGIN { print int(sqrt(n)) + 1 }')
            echo "class K0{}$(pieces "$base" 'class K#{}')class A{$(pieces "$2" 'void m(K@ a,K% b){}' "$base")}" ;;
        chain) echo "class K0{}$(pieces "$2" 'class K# extends K~{}')" ;;
        cycle) echo "class K0 extends K$(($2 - 1)){}$(pieces "$2" 'class K# extends K~{}')" ;;
        fan) echo "class K0{}$(pieces "$2" 'class K# extends K0{}')" ;;
        inner) echo "class K0{}$(pieces "$2" 'class K#{static class L{}L f;}')" ;;
        late) echo "class K0{}$(pieces "$2" 'class K# extends K~{K~ f;}')class A{Z f;}" ;;
        files) echo "class K0{}$(pieces "$2" 'class K# extends K~{int f;}')" ;;
    esac > A.java
}

# The processor's milliseconds of a show in the small file, with this text.
shown() {
    echo "$1" > Small.java
    processor 5 "$jref" run s.json Small.java "${@:2}"
}

printf '[{"step":"show","file":"Small.java","what":"bindings"}]' > s.json
echo "the small file alone: $(shown 'class S{S f;}') ms: $(cat out.txt)"
for shape in members methods chain cycle fan inner late files; do
    for size in 2000 8000 20000; do
        program $shape $size
        names=A.java
        if [ $shape = files ]; then
            sed 's/}class/}\nclass/g' A.java |
                awk -v most=$((size / 255 + 1)) '{ print > ("F" int((NR - 1) / most) ".java") }'
            names=$(ls F*.java)
        fi
        all=$(shown 'class S{S f;}' $names)
        answer=$(cut -c 1-80 out.txt)
        alone=$(shown 'class S{S f;;}' $names)
        echo "$shape, $size: $(cat $names | wc -c) bytes, $all ms, $alone of them for reading alone: $answer"
        rm -f F*.java
    done
done
