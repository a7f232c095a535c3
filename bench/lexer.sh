#!/usr/bin/env bash
# How long the lexer takes over 1 MiB of source, outside the gate: bench/lexer.sh JREF, where JREF is the built program.
#
# The words ask for a rename in a file that is no unit: `>>>` stands in it. It is read, lexed whole, measured, and refused
# at its first token that doesn't fit, so that nearly all of the time is the lexer's. The same words over a file of two
# bytes say how long the rest takes. javac, and its scanner alone, read the same file.
. "$(dirname "$0")/work.sh"

awk 'BEGIN {
    print "class Big {"
    length_so_far = 12
    for (i = 0; ; i++) {
        method = "    // method " i "\n" \
            "    int method" i "(int first, String second) {\n" \
            "        /* a comment\n           of two lines */\n" \
            "        int value" i " = (first + " i ") * 17 % 2147483647;\n" \
            "        String text = \"text \\\"" i "\\\" \\n\" + second;\n" \
            "        while (value" i " >= first && text != null) { value" i " -= 3; }\n" \
            "        return value" i " >>> 2;\n" \
            "    }\n"
        if (length_so_far + length(method) + 2 > 1048576) break
        length_so_far += length(method)
        printf "%s", method
    }
    print "}"
}' > Big.java
printf '{}' > Small.java


echo "cores: $(nproc)"
echo "bytes: $(wc -c < Big.java)"
echo "jref over the file: $(best "$jref" rename Big.java 0 b) microseconds: $(cat out.txt)"
echo "jref over two bytes: $(best "$jref" rename Small.java 0 b) microseconds: $(cat out.txt)"
if command -v javac > javac.txt; then
    echo "javac -proc:none: $(best javac -proc:none -d classes Big.java) microseconds"
    exports=--add-exports=jdk.compiler/com.sun.tools.javac
    javac -proc:none $exports.parser=ALL-UNNAMED $exports.util=ALL-UNNAMED -d scanner "$here/Scan.java"
    java $exports.parser=ALL-UNNAMED $exports.util=ALL-UNNAMED -cp scanner Scan Big.java
fi
