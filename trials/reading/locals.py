"""Extract local and inline local: the new texts, or the first refusal."""
from types import SimpleNamespace as Node

from .binding import notes_of
from .moving import Extracting, Inlining, asked_level, level
from .pieces import barred, before, nearest, ways_of_list
from .program import decl_text
from .renaming import Refused, is_identifier, limits, sound, spliced, would_compile
from .sites import Sites
from .spelling import found_text
from .tokens import Fault, GREATEST, tokens_of
from .ways import access_of, crossing, sites_of

BLANKS = b" \t"


class Asked:
    """A step of these two in a sound program."""

    def __init__(self, files, file_name, places):
        names = [one for one, _ in files]
        if file_name not in names:
            raise Refused(1, "NoSuchFile " + file_name)
        self.files, self.file, self.name = files, names.index(file_name), file_name
        self.text = files[self.file][1]
        self.source = self.text.encode("utf-8")
        self.places = places
        for at in places:
            if at > len(self.source) or self.source[at : at + 1] and self.source[at] & 0xC0 == 0x80:
                raise Refused(2, "BadPlace %s:%d" % (file_name, at))
        if len(places) == 2 and places[0] > places[1]:
            raise Refused(2, "BadPlace %s:%d" % (file_name, places[0]))

    def read(self):
        self.program = sound(self.files)
        self.sites = Sites(self.program, self.file)
        self.notes = self.sites.notes

    def place_text(self, at):
        return "%s:%d" % (self.name, at)

    def bad_target(self, need):
        raise Refused(5, "BadTarget %s %s" % (self.place_text(self.places[0]), need))

    # members and their lists

    def members(self):
        for tree in self.program.units[self.file].classes:
            for key, member in self.of_class((None, tree.name.text), tree):
                yield self.program.member_decl(key, member), member

    def of_class(self, key, tree):
        for member in tree.members:
            if member.kind == "inner":
                yield from self.of_class((key[1], member.of.name.text), member.of)
            elif member.kind != "field":
                yield key, member

    def locals_of(self, member):
        """The locals of a member, each with where its name is declared, by number."""
        found = {d[2]: at for at, d in self.notes.declared.items() if d[:2] == ("local", member)}
        return sorted(found.items())

    # dependences that are lost

    def lost(self, member, first, second):
        found = crossing(first, second, self.sites.kind_of_field)
        if found is not None:
            i, j, kind = found
            texts = [self.site_text(member, site) for site in (first[i], second[j])]
            raise Refused(18, "LostDependence %s %s before %s" % (kind, *texts))

    def site_text(self, member, site):
        at, what, of = site
        access = access_of(site, self.sites.kind_of_field)
        if access:
            named = access[0] + (" " + decl_text(access[1]) if access[1] else "")
        elif what in ("reads", "writes"):
            named = {"reads": "Read ", "writes": "Write "}[what]
            named += decl_text(("local", member, of))
        else:
            named = {"checks": "Check", "calls": "Call", "loops": "Loop"}[what]
        return self.place_text(at) + " " + named

    # what is lost or broken in the new program

    def lost_references(self, kept, copied, made):
        every = [(at, 0, i, d, f) for i, (at, d, f) in enumerate(kept)]
        every += [(at, 1, i, d, f) for i, (at, d, f) in enumerate(copied)]
        every += [(self.places[0], 2, i, d, f) for i, (d, f) in enumerate(made)]
        if every:
            at, _, _, decl, found = min(every, key=lambda one: one[:3])
            words = self.place_text(at), decl_text(decl), found_text(found)
            raise Refused(16, "LostBinding %s %s found %s" % words)

    def done(self, edits):
        new = spliced(self.text, edits)
        after = [(one, new if one == self.name else text) for one, text in self.files]
        limits(after)
        would_compile(after)
        return after

    # bytes

    def with_spaces(self, start, end, put):
        """What takes the place of a span, with the spaces that the tokens beside it need."""
        tokens, _ = tokens_of(self.text)
        size = lambda token: len(token.text.encode("utf-8"))
        front = [token.text for token in tokens if token.at + size(token) == start]
        behind = [token.text for token in tokens if token.at == end]
        if front and are_glued(front[0], put):
            put = " " + put
        return put + " " if behind and are_glued(put, behind[0]) else put

    def line_end(self):
        found = [i for i, byte in enumerate(self.source) if byte in b"\n\r"][:1]
        if not found:
            return ""
        both = self.source[found[0] : found[0] + 2] == b"\r\n"
        return "\r\n" if both else chr(self.source[found[0]])

    def indent(self, at):
        """The spaces and tabs in front of what is first on its line, or None."""
        start = at
        while start > 0 and self.source[start - 1] in BLANKS:
            start -= 1
        if start > 0 and self.source[start - 1] not in b"\n\r":
            return None
        if start > 0 and self.source[start - 1 : start + 1] == b"\r\n":
            return None
        return self.source[start:at].decode("utf-8")

    def gap(self, at):
        indent = self.indent(at)
        return " " if indent is None else (self.line_end() or "\n") + indent

    def removal(self, start, end):
        """The lines on which nothing else stands, or the span."""
        indent, stop = self.indent(start), end
        while self.source[stop : stop + 1] and self.source[stop] in BLANKS:
            stop += 1
        if indent is None or stop < len(self.source) and self.source[stop] not in b"\n\r":
            return start, end
        ends = 2 if self.source[stop : stop + 2] == b"\r\n" else 1
        return start - len(indent), min(len(self.source), stop + ends)


def are_glued(front, behind):
    """Whether two texts side by side aren't read as the tokens of both."""
    words = lambda text: [token.text for token in tokens_of(text)[0]]
    try:
        return words(front + behind) != words(front) + words(behind)
    except Fault:
        return True


# extract


def extract(files, file_name, start, end, name):
    asked = Asked(files, file_name, (start, end))
    if not is_identifier(name):
        raise Refused(3, "BadName " + name)
    asked.read()
    found = value_at(asked, start, end)
    if found is None:
        asked.bad_target("Value")
    at = barred(found.way)
    if at is not None:
        raise Refused(7, "Conditional " + asked.place_text(at))
    clash = taken(asked, found, name)
    if clash is not None:
        raise Refused(14, "Clash " + decl_text(clash))
    walk = Extracting(asked.program, asked.file, found, name, found.type)
    asked.lost_references(walk.lost, [], walk.made_lost)
    after = asked.done(extraction(asked, found, walk, name))
    first, moved = before(asked.sites, found.way), sites_of(asked.sites.value(found.value))
    asked.lost(found.member, first, moved)
    return after, sum(walk.respelled.values())


def value_at(asked, start, end):
    """The value of exactly this span, with where it stands, or None."""
    for decl, member in asked.members():
        for way, e in ways_of_list(member.body):
            if (e.at, e.end) == (start, end):
                type = value_type(asked, way, e)
                return None if type is None else found_at(asked, decl, way, e, type)
    return None


def value_type(asked, way, e):
    """The type of the value that may be extracted, or None where it is none."""
    part, node, _ = way[-1]
    is_target = part == "left" and node.kind != "binary" or part == "of" and node.kind == "bump"
    is_statement = part == "value" and node.kind == "eval"
    is_greatest = e.kind == "number" and e.value == GREATEST
    if asked.sites.is_class_name(e) or is_target or is_statement or is_greatest:
        return None
    type = asked.notes.type_of(asked.notes.place_of[id(e)], e)
    return None if type in ("void", "null") else type


def found_at(asked, member, way, e, type):
    body, index, rest = nearest(way)
    statement = body[index]
    earlier = [n for n, at in asked.locals_of(member) if at < statement.at]
    return Node(
        member=member, body=body, index=index, statement=statement, way=rest, value=e, type=type,
        number=len(earlier),
    )


def taken(asked, found, name):
    """The local of least number that has the name at the statement, in scope or from it on."""
    place = asked.notes.place_of[id(found.value)]
    numbers = [local.number for local in place.locals if local.name == name]
    begin, end = found.statement.at, found.body[-1].end
    for number, at in asked.locals_of(found.member):
        if begin <= at < end and asked.source[at:].startswith(name.encode("utf-8")):
            if word_at(asked, at) == name:
                numbers.append(number)
    return ("local", found.member, min(numbers)) if numbers else None


def word_at(asked, at):
    return next(token.text for token in tokens_of(asked.text)[0] if token.at == at)


def extraction(asked, found, walk, name):
    e, at = found.value, found.statement.at
    is_moved = lambda edit: e.at <= edit[0] and edit[1] <= e.end
    moved = piece(asked, e, [edit for edit in walk.edits if is_moved(edit)])
    put = "%s %s = %s;%s" % (walk.type_text, name, moved, asked.gap(at))
    edits = [(at, at, put), (e.at, e.end, asked.with_spaces(e.at, e.end, name))]
    return edits + [edit for edit in walk.edits if not is_moved(edit)]


def piece(asked, e, edits):
    """The bytes of an expression with its own edits."""
    shifted = [(a - e.at, b - e.at, put) for a, b, put in edits]
    return spliced(asked.source[e.at : e.end].decode("utf-8"), shifted)


# inline


def inline(files, file_name, at):
    asked = Asked(files, file_name, (at,))
    asked.read()
    found = local_at(asked, at)
    if found is None:
        asked.bad_target("Local")
    init = sites_of(asked.sites.value(found.statement.init))
    is_plain = all(what == "reads" for _, what, _ in init)
    if not is_plain:
        once(asked, found)
    targets = [e for way, e in found.names if is_target(way)]
    if targets:
        words = decl_text(("local", found.member, found.number)), asked.place_text(targets[0].at)
        raise Refused(13, "Assigned %s %s" % words)
    walk = Inlining(asked.program, asked.file, found)
    copied = [lost for copy in walk.copies.values() for lost in copy.lost]
    asked.lost_references(walk.lost, copied, [])
    after = asked.done(removal_and_copies(asked, found, walk))
    for way, _ in found.names:
        asked.lost(found.member, init, between(asked, way))
    counts = [walk] + list(walk.copies.values())
    return after, sum(sum(one.respelled.values()) for one in counts)


def local_at(asked, at):
    """The local that the word declares or names, where a statement declares it."""
    words = [t for t in tokens_of(asked.text)[0] if t.kind == "word"]
    held = [t.at for t in words if t.at <= at < t.at + len(t.text.encode("utf-8"))]
    decl = None
    for word in held:
        decl = asked.notes.declared.get(word) or asked.notes.refs.get(word)
    if decl is None or decl[0] != "local":
        return None
    for member, tree in asked.members():
        for body in lists_of(tree.body):
            for index, s in enumerate(body):
                if s.kind == "local" and asked.notes.declared[s.name.at] == decl:
                    return declared(asked, decl, body, index)
    return None


def lists_of(body):
    """A statement list and those within it."""
    yield body
    for s in body:
        yield from lists_within(s)


def lists_within(s):
    if s.kind in ("block", "sync"):
        yield from lists_of(s.body)
    elif s.kind == "if":
        yield from lists_within(s.then)
        if s.other is not None:
            yield from lists_within(s.other)
    elif s.kind == "while":
        yield from lists_within(s.body)


def declared(asked, decl, body, index):
    names = lambda e: e.kind == "name" and asked.notes.refs.get(e.name.at) == decl
    behind = body[index + 1 :]
    found = [(way, e) for way, e in ways_of_list(behind) if names(e)]
    reads = [e for way, e in found if not is_assigned_alone(way)]
    return Node(
        member=decl[1], number=decl[2], statement=body[index], body=behind, names=found, reads=reads
    )


def is_assigned_alone(way):
    return way[-1][0] == "left" and way[-1][1].kind == "assign"


def is_target(way):
    part, node, _ = way[-1]
    return part == "left" and node.kind != "binary" or part == "of" and node.kind == "bump"


def once(asked, found):
    """What is asked of an initializer that isn't plain: one read, straight below, no return."""
    ways = [way for way, e in found.names if not is_assigned_alone(way)]
    if len(ways) != 1:
        asked.bad_target("OneUse")
    at = barred(ways[0])
    if at is not None:
        raise Refused(7, "Conditional " + asked.place_text(at))
    for s in returns_of(found.body):
        if s.end <= found.reads[0].at:
            raise Refused(8, "HasReturn " + asked.place_text(s.at))


def returns_of(body):
    for s in body:
        yield from returns_within(s)


def returns_within(s):
    if s.kind == "return":
        yield s
    elif s.kind in ("block", "sync"):
        yield from returns_of(s.body)
    elif s.kind == "if":
        yield from returns_within(s.then)
        if s.other is not None:
            yield from returns_within(s.other)
    elif s.kind == "while":
        yield from returns_within(s.body)


def between(asked, way):
    """What comes between a declaration and a read, from the list behind the declaration on."""
    if barred(way) is None:
        return before(asked.sites, way)
    _, body, number = way[0]
    return sites_of(asked.sites.statements(body[: number + 1]))


def removal_and_copies(asked, found, walk):
    edits = list(walk.edits)
    edits.append((*asked.removal(found.statement.at, found.statement.end), ""))
    init = found.statement.init
    for way, e in found.names:
        part, node, _ = way[-1]
        text = piece(asked, init, walk.copies[e.at].edits)
        asks = asked_level(part, node, id(node) in walk.casts)
        if level(init, asked.source) < asks:
            text = "(%s)" % text
        edits.append((e.at, e.end, asked.with_spaces(e.at, e.end, text)))
    return edits
