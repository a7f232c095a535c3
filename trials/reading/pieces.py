"""Where in a member an expression stands: the way from a statement list down to it, and what is a
function of that way alone: the nearest statement, what bars it, what is evaluated before it.

A way is a list of steps, from the outermost to the innermost. A step is (part, node, number): the
part of the node in which the rest of the way stands, and the number of the element or argument.
The first step is ("element", list, number).
"""
from .ways import row, sites_of

TARGETED = ("assign", "compound")
VALUE_PARTS = {"eval": "value", "local": "init", "return": "value"}


def ways_of_list(body, first=0):
    """The ways to all expressions of a list's elements from this number on, in text order."""
    for number in range(first, len(body)):
        for way, e in ways_of_statement(body[number]):
            yield [("element", body, number)] + way, e


def ways_of_statement(s):
    if s.kind in VALUE_PARTS:
        part = VALUE_PARTS[s.kind]
        if getattr(s, part) is not None:
            yield from stepped(part, s, ways_of_value(getattr(s, part)))
    elif s.kind == "if":
        yield from stepped("condition", s, ways_of_value(s.condition))
        yield from stepped("then", s, ways_of_statement(s.then))
        if s.other is not None:
            yield from stepped("other", s, ways_of_statement(s.other))
    elif s.kind == "while":
        yield from stepped("condition", s, ways_of_value(s.condition))
        yield from stepped("body", s, ways_of_statement(s.body))
    elif s.kind == "block":
        yield from stepped("list", s, ways_of_list(s.body))
    elif s.kind == "sync":
        yield from stepped("lock", s, ways_of_value(s.lock))
        yield from stepped("list", s, ways_of_list(s.body))


def stepped(part, node, ways, number=None):
    for way, e in ways:
        yield [(part, node, number)] + way, e


def ways_of_value(e):
    yield [], e
    for part, of, number in parts_of_value(e):
        yield from stepped(part, e, ways_of_value(of), number)


def parts_of_value(e):
    """The expressions of which an expression is made, in text order."""
    for part in ("on", "of", "left", "right"):
        if hasattr(getattr(e, part, None), "kind"):
            yield part, getattr(e, part), None
    for number, arg in enumerate(getattr(e, "args", [])):
        yield "argument", arg, number


# the nearest statement


def nearest(way):
    """The list of the innermost element on the way, its number there, and the way from it on."""
    at = max(i for i, (part, _, _) in enumerate(way) if part == "element")
    return way[at][1], way[at][2], way[at + 1 :]


# straight below


def bars(step):
    """Whether a step leads where a run may not come, or comes again (JLS 14.9, 14.12, 15.23)."""
    part, node, _ = step
    if part == "right":
        return node.kind == "binary" and node.op in ("&&", "||")
    return part in ("then", "other", "body") or part == "condition" and node.kind == "while"


def barred(way):
    """The first byte of the innermost construct that keeps the way from being straight, or None."""
    found = [step[1].at for step in way if bars(step)]
    return found[-1] if found else None


# what is evaluated before


def before(sites, way):
    """The sites that are evaluated before what the way leads to, from where the way begins on. Of a
    list these are those of its elements from the first one on."""
    found = []
    for step in way:
        found += sites_of(before_step(sites, *step))
    return found


def before_step(sites, part, node, number):
    if part == "element":
        return sites.statements(node[:number])
    if part in ("then", "other"):
        return row(sites.value(node.condition), *([sites.statement(node.then)] * (part == "other")))
    if part in ("condition", "body") and node.kind == "while":
        condition = [sites.value(node.condition)] * (part == "body")
        return row(sites.one(node.at, "loops"), *condition)
    if part == "list" and node.kind == "sync":
        test = sites.lock_check(node)
        return row(sites.value(node.lock), test, sites.one(node.at, "enters"))
    if part == "argument":
        return row(front(sites, node), sites.values(node.args[:number]))
    if part == "right" and node.kind in TARGETED:
        load = [sites.checked_load(node.left)] * (node.kind == "compound")
        return row(sites.operand(node.left), *load)
    return sites.value(node.left) if part == "right" else sites.values([])


def front(sites, e):
    """What is done in front of the arguments of a call or creation."""
    if e.kind == "create":
        return sites.one(e.at, "creates")
    return sites.receiver(e)
