"""Programs without some of what breaks a rule, so that more of them are sound."""
from reading.binding import notes_of
from reading.program import Program, SourceFault


def innermost(nodes, at):
    """The innermost member or statement that holds the byte, and whether it may go whole."""
    for node, may_go in nodes:
        if node.at <= at < node.end:
            parts = []
            if node.kind == "inner":
                parts = [(member, True) for member in node.of.members]
            elif isinstance(getattr(node, "body", None), list):
                parts = [(part, True) for part in node.body]
            elif node.kind in ("if", "while"):
                names = ("then", "other", "body")
                parts = [(getattr(node, n), False) for n in names if getattr(node, n, None)]
            return innermost(parts, at) or (node, may_go)
    return None


def thinned(files, random, rounds):
    """The program without some of the statements and members that break a rule."""
    for _ in range(rounds):
        try:
            program = Program(files)
        except SourceFault:
            return files
        new = []
        for number, (name, text) in enumerate(files):
            spans = set()
            for at, _ in notes_of(program, number).errors:
                members = [(m, True) for c in program.units[number].classes for m in c.members]
                found = innermost(members, at)
                if found is not None and random.random() < 0.8:
                    spans.add((found[0].at, found[0].end, "" if found[1] else ";"))
            reached = len(text)
            for start, end, put in sorted(spans, reverse=True):
                if end <= reached:
                    text = text[:start] + put + text[end:]
                    reached = start
            new.append((name, text))
        if new == files:
            break
        files = new
    return files
