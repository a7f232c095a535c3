"""Programs in a package, and with comments and blanks between their tokens."""
from reading.tokens import tokens_of

BLANKS = [" ", "  ", "/**/", "/* é */", " \f"]


def spread(files, random):
    """The program with some blanks and comments between tokens."""
    return [(name, spread_text(text, random)) for name, text in files]


def spread_text(text, random):
    source = text.encode("utf-8")
    tokens, last = tokens_of(text)
    out, at = [], 0
    for token in tokens + [last]:
        out.append(source[at : token.at].decode("utf-8"))
        if random.random() < 0.2:
            out.append(random.choice(BLANKS))
        at = token.at
    out.append(source[at:].decode("utf-8"))
    return "".join(out)


def packed(files, random):
    """The program in a package."""
    front = "package %s;" % random.choice(["a", "f.K", "x.a.B"])
    return [(name, front + text) for name, text in files]
