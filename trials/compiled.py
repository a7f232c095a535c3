"""What javac makes of programs before and after renames."""
from bindings import REFUSED_BY_JAVAC, javac_lines
from reading.tokens import tokens_of
from reading.trees import read

OWN_READER = [
    "--add-exports=java.base/jdk.internal.org.objectweb.asm%s=ALL-UNNAMED" % part
    for part in ("", ".commons", ".util")
]


def class_files(programs):
    """What javac makes of each program under its renames: of each class a digest of its file and
    one of what stands in it, or that it refuses it."""
    lines = javac_lines("Classes.java", programs, OWN_READER) if programs else []
    return [[part.split(" ") for part in line.split("\t")] for line in lines]


def made_of(pairs):
    """What javac makes of the programs of each rename."""
    before = []
    for _, names, files, _ in pairs:
        if before and before[-1][1] is files:
            before[-1] = (before[-1][0] + "|" + names, files)
        else:
            before.append((names, files))
    made = class_files(before + [("", after) for _, _, _, after in pairs])
    return zip(made[: len(pairs)], made[len(pairs) :])


def shapes(classes):
    return [(one[0], one[2]) for one in classes[1:]]


def compared(kind, one, other):
    """The class of what javac makes of a program before and after a rename, and whether it is one
    that was to be."""
    if one[0] != other[0]:
        return "takes one alone of two others", False
    if one[0] != ["ok"]:
        known = [REFUSED_BY_JAVAC.get(code) for code in one[0][1:]]
        if None in known:
            return "refuses both, for another cause: " + " ".join(one[0][1:]), False
        return "known, refuses both: " + ", ".join(sorted(set(known))), True
    if kind in ("local", "parameter") and one == other:
        return "the same class files, of a " + kind, True
    if shapes(one) == shapes(other):
        return "the same class files but for names, of a " + kind, True
    return "other class files, of a " + kind, False


def variables_alone(files):
    """The program in which no field of objects is final. A final one with a constant for its value
    is a constant by its simple name, but not as `this.f` (JLS 4.12.4, 15.28): javac has the value
    in both (JLS 13.1), and joins only the former with others."""
    return [(name, not_final(text, read(text).classes)) for name, text in files]


def not_final(text, trees):
    source, reached = text.encode("utf-8"), 0
    fields = [one for one in fields_of(trees) if "static" not in one.modifiers]
    spans = [(one.at, one.name.at) for one in fields]
    out = []
    for token in tokens_of(text)[0]:
        if token.text == "final" and any(at <= token.at < end for at, end in spans):
            out.append(source[reached : token.at])
            reached = token.at + len("final")
    return b"".join(out + [source[reached:]]).decode("utf-8")


def fields_of(trees):
    for tree in trees:
        for member in tree.members:
            if member.kind == "inner":
                yield from fields_of([member.of])
            elif member.kind == "field":
                yield member


def against_javac(pairs, seen):
    others = []
    for pair, (one, other) in zip(pairs, made_of(pairs)):
        key, is_wanted = compared(pair[0], one, other)
        if one[0] == other[0] == ["ok"] and not is_wanted:
            kind, names, files, after = pair
            others.append((kind, names, variables_alone(files), variables_alone(after)))
        else:
            seen.add("javac: " + key, None if is_wanted else pair[1:])
    for (kind, *pair), (one, other) in zip(others, made_of(others)):
        key, is_wanted = compared(kind, one, other)
        end = ", where no field is a constant" if is_wanted else ""
        seen.add("javac: " + key + end, None if is_wanted else pair)
