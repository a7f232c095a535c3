"""The sites of each member of a file, by what its names are bound to, and its dependences, as the
definitions of crates/jr_cover have them (JLS 14, 15.7, 15.12.4, 15.26).

A site is (place, what is done, the local's number or the field).
"""
from .binding import Binding
from .program import decl_text, is_class
from .ways import LEAVE, PASS, dependences, row, sites_of


class Noted(Binding):
    """Bindings, with the place of each expression and what is known of the locals."""

    def __init__(self, program, file):
        self.place_of = {}
        self.assigned_locals = set()
        self.init_of = {}
        super().__init__(program, file)

    def walk(self, place, role, e):
        self.place_of[id(e)] = place
        super().walk(place, role, e)

    def walk_local(self, place, s):
        behind = super().walk_local(place, s)
        self.init_of[self.declared[s.name.at]] = s.init
        return behind

    def assigned(self, place, target):
        found = self.value_found(place, target)
        if found[0] == "one" and found[1][0] == "local":
            self.assigned_locals.add(found[1])
        super().assigned(place, target)


class Sites:
    def __init__(self, program, file):
        self.p = program
        self.notes = Noted(program, file)
        self.marked = None  # an expression in front of whose sites a mark is put

    # what is known

    def bound(self, word):
        found = self.notes.refs.get(word.at)
        return found if found and found[0] in ("local", "field") else None

    def is_class_name(self, e):
        if e.kind not in ("name", "field"):
            return False
        return self.notes.refs.get(e.name.at, (None,))[0] == "class"

    def local_named(self, e):
        while e.kind == "paren":
            e = e.of
        found = self.bound(e.name) if e.kind == "name" else None
        return found if found and found[0] == "local" else None

    def never_null(self, e):
        if e.kind in ("this", "create", "string", "class_literal"):
            return True
        if e.kind == "paren":
            return self.never_null(e.of)
        found = self.local_named(e)
        if found is None or found in self.notes.assigned_locals:
            return False
        init = self.notes.init_of.get(found)
        if init is None:
            return False
        named = self.local_named(init)
        return (named is None or named[2] < found[2]) and self.never_null(init)

    def is_checked(self, cast):
        place = self.notes.place_of[id(cast)]
        to, given = self.notes.written_type(place, cast.type), self.notes.type_of(place, cast.of)
        return to is None or given is None or not self.p.is_assignable(given, to)

    # pieces

    def one(self, at, what, of=None):
        return ("one", (at, what, of))

    def null_check(self, e, at):
        safe = self.is_class_name(e) or self.never_null(e)
        return PASS if safe else self.one(at, "checks")

    def access(self, word, local, field, behind_dot):
        found = self.bound(word)
        if found is None or behind_dot and found[0] == "local":
            return PASS
        if found[0] == "local":
            return self.one(word.at, local, found[2])
        return self.one(word.at, field, found)

    def load(self, word, behind_dot):
        return self.access(word, "reads", "loads", behind_dot)

    def store(self, t):
        return self.access(t.name, "writes", "stores", t.kind != "name")

    def operand(self, t):
        return PASS if t.kind != "field" or self.is_class_name(t.on) else self.value(t.on)

    def check(self, t):
        if t.kind != "field" or self.bound(t.name) is None:
            return PASS
        return self.null_check(t.on, t.name.at)

    def checked_load(self, t):
        return row(self.check(t), self.load(t.name, t.kind != "name"))

    def divisor(self, right):
        if right.kind == "number" and right.value != 0:
            return PASS
        return self.one(right.at, "checks")

    def values(self, es):
        return row(*map(self.value, es), PASS)

    def value(self, e):
        if e is self.marked:
            self.marked = None
            return row(self.one(e.at, "marked"), self.value(e))
        kind = e.kind
        if kind in ("name", "field", "super_field"):
            return row(self.operand(e), self.checked_load(e))
        if kind in ("call", "super_call"):
            return self.call(e)
        if kind == "create":
            behind = self.one(e.at, "calls")
            return row(self.one(e.at, "creates"), self.values(e.args), behind)
        if kind in ("paren", "unary"):
            return self.value(e.of)
        if kind == "cast":
            test = self.one(e.at, "checks") if self.is_checked(e) else PASS
            return row(self.value(e.of), test)
        if kind == "bump":
            return row(self.operand(e.of), self.checked_load(e.of), self.store(e.of))
        if kind == "binary" and e.op in ("&&", "||"):
            return row(self.value(e.left), ("fork", self.value(e.right), PASS))
        if kind == "binary":
            test = self.divisor(e.right) if e.op in "/%" else PASS
            return row(self.value(e.left), self.value(e.right), test)
        if kind == "assign":
            t = e.left
            return row(self.operand(t), self.value(e.right), self.check(t), self.store(t))
        return self.compound(e) if kind == "compound" else PASS

    def compound(self, e):
        t = e.left
        test = self.divisor(e.right) if e.op in ("/=", "%=") else PASS
        load = self.checked_load(t)
        return row(self.operand(t), load, self.value(e.right), test, self.store(t))

    def receiver(self, e):
        """What is in front of a call's name, evaluated: nothing where it is a class."""
        if e.kind == "super_call" or e.on is None or self.is_class_name(e.on):
            return PASS
        return self.value(e.on)

    def call(self, e):
        has_front = e.kind == "call" and e.on is not None
        test = self.null_check(e.on, e.name.at) if has_front else PASS
        return row(self.receiver(e), self.values(e.args), test, self.one(e.name.at, "calls"))

    # statements and members

    def statements(self, body):
        return row(*map(self.statement, body), PASS)

    def statement(self, s):
        if s.kind == "local":
            number = self.notes.declared[s.name.at][2]
            return row(self.value(s.init), self.one(s.name.at, "writes", number))
        if s.kind == "eval":
            return self.value(s.value)
        if s.kind == "if":
            other = PASS if s.other is None else self.statement(s.other)
            return row(self.value(s.condition), ("fork", self.statement(s.then), other))
        if s.kind == "while":
            own = (s.at, "loops", None)
            return ("turns", own, self.value(s.condition), self.statement(s.body))
        if s.kind == "return":
            return LEAVE if s.value is None else row(self.value(s.value), LEAVE)
        if s.kind == "block":
            return self.statements(s.body)
        if s.kind == "sync":
            return row(self.value(s.lock), self.lock_check(s), self.locked(s.at, s))
        return PASS

    def lock_check(self, s):
        return PASS if self.never_null(s.lock) else self.one(s.at, "checks")

    def locked(self, at, node):
        return ("inside", (at, "enters", None), self.statements(node.body),
                (node.end - 1, "exits", None))

    def member(self, member, decl):
        if member.kind == "field":
            if member.init is None:
                return PASS
            static = "static" in member.modifiers
            behind = PASS if static else self.one(member.name.at, "stores", decl)
            return row(self.value(member.init), behind)
        if member.kind == "ctor":
            at = member.name.at if member.super_at is None else member.super_at
            above = row(self.values(member.super_args or []), self.one(at, "calls"))
            return row(above, self.statements(member.body))
        if "synchronized" in member.modifiers:
            return self.locked(member.name.at, member)
        return self.statements(member.body)

    def members(self, tree, outer=None):
        key = (outer, tree.name.text)
        for member in tree.members:
            if member.kind == "inner":
                yield from self.members(member.of, tree.name.text)
            else:
                decl = self.p.member_decl(key, member)
                yield decl, self.member(member, decl)

    def kind_of_field(self, field):
        for word in ("volatile", "final"):
            if self.p.has_word(field, word):
                return word
        return "plain"


def lines(program, name):
    """The lines of a show of dependences."""
    from .ways import KINDS

    file = [file_name for file_name, _ in program.files].index(name)
    sites = Sites(program, file)
    shown = []
    for tree in program.units[file].classes:
        for decl, way in sites.members(tree):
            places = [site[0] for site in sites_of(way)]
            for i, j, kind in dependences(way, sites.kind_of_field):
                words = (decl_text(decl), KINDS[kind], places[i], places[j])
                shown.append("%s %s %d %d" % words)
    return shown
