"""Rename: the new texts, or the first refusal (JLS 6.3, 6.4, 8.4.8)."""
from collections import Counter
from functools import lru_cache

from .binding import OBJECT_METHODS, first_error, notes_of
from .program import PRELUDE, Program, SourceFault, decl_text, type_text
from .spelling import Renamed, Spelling, found_text
from .tokens import Fault, tokens_of

LIMIT, TOTAL = 1_048_576, 8_388_608
PRELUDE_DECLS = {row.decl for row in PRELUDE}


class Refused(Exception):
    def __init__(self, number, text):
        super().__init__(number, text)
        self.number = number
        self.text = text


def is_identifier(name):
    try:
        tokens, _ = tokens_of(name)
    except Fault:
        return False
    return len(tokens) == 1 and tokens[0].kind == "word" and tokens[0].text == name


def scopes(program, file, member):
    """Each local of the member: its name, where it is declared, and where its scope ends."""
    found = {}
    number = 0

    def declare(name, end):
        nonlocal number
        found["local", member, number] = (name.text, name.at, end)
        number += 1

    def walk(body, end):
        for s in body:
            if s.kind == "local":
                declare(s.name, end)
            elif s.kind in ("block", "sync"):
                walk(s.body, s.end)
            elif s.kind == "if":
                walk([s.then] + ([s.other] if s.other else []), end)
            elif s.kind == "while":
                walk([s.body], end)

    def members(tree, outer):
        key = (outer, tree.name.text)
        for m in tree.members:
            if m.kind == "inner":
                members(m.of, tree.name.text)
            elif m.kind != "field" and program.member_decl(key, m) == member:
                for param in m.params:
                    declare(param.name, m.end)
                walk(m.body, m.end)

    for tree in program.units[file].classes:
        members(tree, None)
    return found


def is_instance(program, decl):
    """Whether a method is one that is overridden and dispatched: neither private nor static."""
    words = program.row(decl).modifiers
    return decl[0] == "method" and "private" not in words and "static" not in words


def family(program, target):
    """The method with those that are joined to it by overriding."""
    if not is_instance(program, target):
        return [target]
    alike = [
        row.decl
        for row in program.rows
        if row.decl[0] == "method" and row.decl[2:] == target[2:] and is_instance(program, row.decl)
    ]
    found = [target]
    for one in found:
        for other in alike:
            below = program.is_subclass(one[1], other[1]) or program.is_subclass(other[1], one[1])
            if below and other not in found:
                found.append(other)
    return [row.decl for row in program.rows if row.decl in found]


def clash_of_local(program, file, target, name):
    """The local of the new name that would be in the target's scope, or it in that one's."""
    every = scopes(program, file, target[1])
    own = every[target]
    for decl, (other, at, end) in sorted(every.items(), key=lambda item: item[1][1]):
        if decl != target and other == name:
            if own[1] <= at < own[2] or at <= own[1] < end:
                return decl_text(decl)
    return None


def clash_of_members(program, decls, name):
    for row in program.rows:
        other = row.decl
        for decl in decls:
            if other in decls or other[0] in ("ctor", "local"):
                continue
            if other[0] == "class":
                if decl[1][0] is None and other[1] == (decl[1][1], name):
                    return decl_text(other)
            elif other[0] == decl[0] and other[1] == decl[1] and other[2] == name:
                if decl[0] == "field" or other[3] == decl[3]:
                    return decl_text(other)
    return None


def clash_of_class(program, target, name):
    for row in program.rows:
        other = row.decl
        if other[0] == "class" and other[1][1] == name:
            return decl_text(other)
        if target[1][0] is not None and other[0] in ("field", "method"):
            if other[1] == (None, target[1][0]) and other[2] == name:
                return decl_text(other)
    return "Runnable" if name == "Runnable" else None


def clash(program, file, decls, old_name, name):
    target = decls[0]
    if name == old_name:
        return decl_text(target)
    if target[0] == "local":
        return clash_of_local(program, file, target, name)
    if target[0] == "class":
        return clash_of_class(program, target, name)
    return clash_of_members(program, decls, name)


def dispatch(program, key, method):
    for above in program.chain(key):
        decl = ("method", above, *method[2:])
        if decl in program.number and is_instance(program, decl):
            return decl
    return None


def changed_override(program, renamed):
    """The first class and method that dispatch otherwise in the new program."""
    methods = [row.decl for row in program.rows if is_instance(program, row.decl)]
    for row in program.rows:
        if row.decl[0] == "class":
            key = row.decl[1]
            for method in methods:
                if program.is_subclass(key, method[1]):
                    old = dispatch(program, key, method)
                    new = dispatch(renamed.program, renamed.cls(key), renamed.decl(method))
                    if renamed.decl(old) != new:
                        return type_text(key), decl_text(method)
    return None


def target_of(program, file, at, place, name):
    """The declarations that the identifier's rename is of, the one that is named first."""
    target, old_name = target_at(program, file, at, place)
    if target[0] != "method":
        return [target], old_name
    decls = family(program, target)
    for decl in decls:
        if decl in PRELUDE_DECLS:
            raise Refused(6, "PreludeMethod " + decl_text(decl))
    if name in OBJECT_METHODS:
        raise Refused(6, "PreludeMethod " + name)
    return [target] + [decl for decl in decls if decl != target], old_name


def request_faults(files, file_name, at, name):
    """The refusals that a place and a name have by themselves. The file's number."""
    names = [one for one, _ in files]
    if file_name not in names:
        raise Refused(1, "NoSuchFile " + file_name)
    source = files[names.index(file_name)][1].encode("utf-8")
    if at > len(source) or at < len(source) and source[at] & 0xC0 == 0x80:
        raise Refused(2, "BadPlace %s:%d" % (file_name, at))
    if not is_identifier(name):
        raise Refused(3, "BadName " + name)
    return names.index(file_name)


def plan(files, file_name, at, name, locals_alone=False):
    """The new files and the respelled references, by form. Raises `Refused`; where members and
    classes can't be renamed yet (`locals_alone`), they are `Unbuilt`."""
    file = request_faults(files, file_name, at, name)
    program = sound(files)
    place = "%s:%d" % (file_name, at)
    if locals_alone and target_at(program, file, at, place)[0][0] != "local":
        raise Refused(4, "SourceError %s Unbuilt" % place)
    decls, old_name = target_of(program, file, at, place, name)
    other = clash(program, file, decls, old_name, name)
    if other is not None:
        raise Refused(14, "Clash " + other)
    renamed = Renamed(program, decls, name)
    override = changed_override(program, renamed)
    if override is not None:
        raise Refused(15, "OverrideChanged %s %s" % override)
    walks = [Spelling(program, number, renamed) for number in range(len(files))]
    for (one, _), walk in zip(files, walks):
        if walk.lost:
            place, decl, found = min(walk.lost, key=lambda lost: lost[0])
            text = (one, place, decl_text(decl), found_text(found))
            raise Refused(16, "LostBinding %s:%d %s found %s" % text)
    after = [(one, spliced(text, walk.edits)) for (one, text), walk in zip(files, walks)]
    limits(after)
    would_compile(after)
    return after, sum((walk.respelled for walk in walks), Counter())


def sound(files):
    return sound_program(tuple(files))


@lru_cache(maxsize=16)
def sound_program(files):
    try:
        program = Program(files)
    except SourceFault as fault:
        raise Refused(4, "SourceError %s:%d %s" % (files[fault.file][0], fault.at, fault.kind))
    error = first_error(program)
    if error is not None:
        raise Refused(4, "SourceError %s:%d %s" % (files[error[0]][0], *error[1:]))
    return program


def target_at(program, file, at, place):
    tokens, _ = tokens_of(program.files[file][1])
    notes = notes_of(program, file)
    for token in tokens:
        length = len(token.text.encode("utf-8"))
        if token.kind == "word" and token.at <= at < token.at + length:
            decl = notes.declared.get(token.at) or notes.refs.get(token.at)
            if decl is not None and decl not in PRELUDE_DECLS:
                return decl, token.text
    raise Refused(5, "BadTarget %s Declaration" % place)


def spliced(text, edits):
    """The text with its spans replaced. What is put at a place stands before what is replaced
    there, and what was noted first before the rest."""
    source = text.encode("utf-8")
    order = sorted(enumerate(edits), key=lambda one: (one[1][0], one[1][1] > one[1][0], one[0]))
    for _, (start, end, put) in reversed(order):
        source = source[:start] + put.encode("utf-8") + source[end:]
    return source.decode("utf-8")


def limits(files):
    lengths = [len(text.encode("utf-8")) for _, text in files]
    for length in lengths:
        if length > LIMIT:
            raise Refused(20, "TooLong %d" % length)
    if sum(lengths) > TOTAL:
        raise Refused(20, "TooLong %d" % sum(lengths))


def would_compile(files):
    try:
        program = Program(files)
    except SourceFault as fault:
        broken = (files[fault.file][0], fault.at, fault.kind)
        raise Refused(17, "WouldNotCompile %s:%d %s" % broken)
    error = first_error(program)
    if error is not None:
        raise Refused(17, "WouldNotCompile %s:%d %s" % (files[error[0]][0], *error[1:]))
