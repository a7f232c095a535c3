"""References where a local comes or goes: how each is spelled in the new program, and what is
copied or moved with them (JLS 6.3, 6.4)."""
import copy

from .binding import Binding
from .lookup import NONE, Local
from .program import is_class
from .spelling import Renamed, Spelling

# how tightly an expression binds, from the loosest on (JLS 15, 15.26)
LOOSEST = -1
BINARY = {
    "||": 0, "&&": 1, "==": 2, "!=": 2, "<": 3, ">": 3, "<=": 3, ">=": 3, "+": 4, "-": 4,
    "*": 5, "/": 5, "%": 5,
}
UNARY, NOT_SIGN, PRIMARY = 6, 7, 8


def level(e, source):
    """How tightly an expression binds."""
    if e.kind in ("assign", "compound"):
        return LOOSEST
    if e.kind == "binary":
        return BINARY[e.op]
    if e.kind == "unary":
        return NOT_SIGN if e.op == "!" else UNARY
    if e.kind == "bump":
        return UNARY if source[e.at : e.at + 1] in (b"+", b"-") else NOT_SIGN
    return NOT_SIGN if e.kind == "cast" else PRIMARY


def asked_level(part, node, is_cast):
    """How tightly an expression has to bind where it stands as this part of a node."""
    if part == "on":
        return NOT_SIGN if is_cast else PRIMARY
    if part == "of":
        return {"unary": UNARY, "cast": NOT_SIGN, "bump": PRIMARY}.get(node.kind, LOOSEST)
    if part in ("left", "right") and node.kind == "binary":
        return BINARY[node.op] + (part == "right")
    return PRIMARY if part == "left" else LOOSEST


class Numbered(Renamed):
    """Nothing has a new name, and a member's locals from a number on are counted otherwise."""

    def __init__(self, program, member, first, by):
        self.member = member
        self.first = first
        self.by = by
        super().__init__(program, [], None)

    def decl(self, decl):
        if decl[:2] == ("local", self.member) and decl[2] >= self.first:
            return decl[:2] + (decl[2] + self.by,)
        return decl


class Placed(Spelling):
    """Spellings where locals have other numbers."""

    def after(self, place):
        new = super().after(place)
        number = lambda local: self.to.decl(("local", place.member, local.number))[2]
        return new._replace(locals=[l._replace(number=number(l)) for l in new.locals])


class Extracting(Placed):
    """The spellings where a local is made in front of a statement of a list."""

    def __init__(self, program, file, found, name, type):
        self.found = found
        self.made = Local(name, found.number, False, type, True)
        self.is_inside = self.is_moved = False
        to = Numbered(program, found.member, found.number, 1)
        super().__init__(program, file, to)

    def after(self, place):
        new = super().after(place)
        number = self.made.number
        if self.is_moved:
            new = new._replace(locals=[l for l in new.locals if l.number < number])
        return new._replace(locals=new.locals + [self.made]) if self.is_inside else new

    def walk_statement(self, place, s):
        was, behind = self.is_inside, self.found.body[self.found.index :]
        self.is_inside = was or any(s is one for one in behind)
        if s is self.found.statement:
            self.spell_made(self.after(place))
        after = super().walk_statement(place, s)
        self.is_inside = was
        return after

    def walk(self, place, role, e):
        was = self.is_moved
        self.is_moved = was or e is self.found.value
        super().walk(place, role, e)
        self.is_moved = was

    def spell_made(self, place):
        """The type that the made local is declared with, in words."""
        type = self.made.type
        self.type_text = type if not is_class(type) else type[1]
        self.made_lost = []
        if not is_class(type):
            return
        asked = self.new.type(place, type[1])
        outer = self.outer_spelling(place, type)
        if asked != ("one", ("class", type)) and outer is not None:
            self.type_text = outer
            self.respelled["class Outer.K"] += 1
        elif asked != ("one", ("class", type)):
            self.made_lost.append((("class", type), asked))


class Copying(Placed):
    """The spellings of an initializer's copy in the place of a read."""

    def __init__(self, around, init, old_place, new_place):
        self.__dict__.update(around.__dict__)
        self.new_place = new_place
        self.edits, self.lost = [], []
        self.respelled = copy.copy(around.respelled)
        self.respelled.clear()
        self.walk(old_place, "value", init)

    def after(self, place):
        return self.new_place


class Inlining(Placed):
    """The spellings where a local goes, and its initializer stands where it was read."""

    def __init__(self, program, file, found):
        self.found = found
        self.copies = {}  # by the read's first byte
        self.casts = set()  # what stands in a cast that a spelling makes
        to = Numbered(program, found.member, found.number, -1)
        super().__init__(program, file, to)

    def after(self, place):
        if place.member == self.found.member:
            kept = [local for local in place.locals if local.number != self.found.number]
            place = place._replace(locals=kept)
        return super().after(place)

    def walk_statement(self, place, s):
        if s is not self.found.statement:
            return super().walk_statement(place, s)
        kept = self.edits, self.lost, self.respelled
        self.edits, self.lost, self.respelled = [], [], copy.copy(kept[2])
        behind = super().walk_statement(place, s)
        self.edits, self.lost, self.respelled = kept
        return behind

    def walk(self, place, role, e):
        if e is self.found.statement.init:
            self.init_place = place
        super().walk(place, role, e)

    def is_read(self, e):
        return e.kind == "name" and any(e is read for read in self.found.reads)

    def expression_words(self, place, role, e):
        if not self.is_read(e):
            super().expression_words(place, role, e)
            return
        Binding.expression_words(self, place, role, e)
        init = self.found.statement.init
        self.copies[e.at] = Copying(self, init, self.init_place, self.after(place))

    # what has another type now

    def type_now(self, place, e):
        while e.kind == "paren":
            e = e.of
        if self.is_read(e):
            return self.type_of(self.init_place, self.found.statement.init)
        return self.type_of(place, e)

    def types_after(self, place, e):
        if not hasattr(e, "args"):
            return None
        return tuple(self.type_now(place, arg) for arg in e.args)

    def spell_on_value(self, place, new, e):
        decl, types = self.value_found(place, e)[1], self.types_after(place, e)
        operand, key, text = self.type_now(place, e.on), decl[1], e.name.text
        asked = NONE
        if is_class(operand):
            asked = self.member(self.new, new, operand, e, text, types)
        above = is_class(operand) and self.p.is_subclass(operand, key)
        if asked == self.one(decl):
            self.put(e.name, decl)
        elif above and self.names_type(new, key) and (
            self.member(self.new, new, key, e, text, types) == self.one(decl)
        ):
            self.casts.add(id(e))
            self.cast(e, key, text)
        else:
            self.lost.append((e.name.at, decl, asked))
