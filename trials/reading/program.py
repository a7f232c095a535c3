"""The declarations of a program: its rows, superclasses, members and faults (JLS 6.5.5, 8).

A class is (outer, name), where outer is None for a class at the top. A type is "int", "boolean",
"void", "null" or a class. A declaration is ("class", class), ("field", class, name),
("method", class, name, types), ("ctor", class, types) or ("local", member, number).
"""
from collections import namedtuple

from .tokens import Fault
from .trees import read

Row = namedtuple("Row", "decl modifiers type parent has_init")

OBJECT, STRING, CLASS, THREAD = ((None, name) for name in ("Object", "String", "Class", "Thread"))
PRELUDE = [
    Row(("class", OBJECT), [], None, None, False),
    Row(("ctor", OBJECT, ()), [], None, None, False),
    Row(("class", STRING), ["final"], None, OBJECT, False),
    Row(("class", CLASS), ["final"], None, OBJECT, False),
    Row(("class", THREAD), [], None, OBJECT, False),
    Row(("ctor", THREAD, ()), [], None, None, False),
    Row(("method", THREAD, "run", ()), ["public"], "void", None, False),
    Row(("method", THREAD, "start", ()), ["public"], "void", None, False),
]
RESERVED = {"Object", "String", "Class", "Thread", "Runnable"}
ACCESS = {"public", "protected", "private"}
MAY_STAND = {
    "top": {"public", "final"},
    "inner": ACCESS | {"static", "final"},
    "field": ACCESS | {"static", "final", "volatile"},
    "method": ACCESS | {"static", "final", "synchronized"},
    "ctor": ACCESS,
}
KINDS = [
    "PackageDiffers", "PreludeName", "TwiceClass", "NoSuperclass", "Cycle", "NoTy", "TwiceMember",
    "MemberTypeName", "BadModifiers", "StaticInit",
]


def is_class(type):
    return isinstance(type, tuple)


def is_static_form(e):
    """Whether a static field may have this initializer."""
    if e.kind == "unary":
        return e.op == "-" and e.of.kind == "number"
    if e.kind == "create":
        return e.type.outer is None and e.type.name.text == "Object" and not e.args
    return e.kind in ("number", "truth", "string", "null")


def settled(find):
    """Keeps what a program finds, once its superclasses and rows don't change any more."""

    def kept(program, *words):
        if program.found is None:
            return find(program, *words)
        key = (find.__name__, *words)
        if key not in program.found:
            program.found[key] = find(program, *words)
        return program.found[key]

    return kept


class Program:
    """Files as a list of (name, text). Raises `SourceFault` where one of them can't be read, or
    where a declaration is at fault."""

    def __init__(self, files):
        self.files = files
        self.found = None
        self.units = []
        for number, (name, text) in enumerate(files):
            try:
                self.units.append(read(text))
            except Fault as fault:
                raise SourceFault(number, fault.at, fault.kind)
        self.faults = []
        self.classes = []  # (class, tree, number of the file), in file and text order
        self.trees = {}
        self.parent = {row.decl[1]: row.parent for row in PRELUDE if row.decl[0] == "class"}
        self.collect_classes()
        self.stop_at_faults()
        self.find_parents()
        self.stop_at_faults()
        self.find_cycles()
        self.stop_at_faults()
        self.rows = list(PRELUDE)
        self.collect_rows()
        self.stop_at_faults()
        self.number = {row.decl: i for i, row in enumerate(self.rows)}
        self.found = {}

    # faults

    def fault(self, kind, file, at):
        self.faults.append((KINDS.index(kind), file, at))

    def stop_at_faults(self):
        if self.faults:
            kind, file, at = min(self.faults)
            raise SourceFault(file, at, KINDS[kind])

    # classes

    def collect_classes(self):
        first = self.units[0].package if self.units else None
        for file, unit in enumerate(self.units):
            if unit.package != first:
                self.fault("PackageDiffers", file, unit.package_at)
            for tree in unit.classes:
                self.collect_class(tree, None, file)
                for member in tree.members:
                    if member.kind == "inner":
                        self.collect_class(member.of, tree.name.text, file)

    def collect_class(self, tree, outer, file):
        key = (outer, tree.name.text)
        if tree.name.text in RESERVED:
            self.fault("PreludeName", file, tree.name.at)
        if key in self.trees or tree.name.text == outer:
            self.fault("TwiceClass", file, tree.name.at)
        self.trees.setdefault(key, tree)
        self.classes.append((key, tree, file))

    def is_declared(self, key):
        return key in self.trees or key in (OBJECT, STRING, CLASS, THREAD)

    def find_parents(self):
        """The least relation: what is found only by itself isn't found."""
        for key, _, _ in self.classes:
            self.parent[key] = None
        changed = True
        while changed:
            changed = False
            for key, tree, _ in self.classes:
                found = self.named_parent(key, tree)
                if found != self.parent[key]:
                    self.parent[key] = found
                    changed = True
        for key, tree, file in self.classes:
            if self.parent[key] is None:
                self.fault("NoSuperclass", file, tree.parent.at)

    def named_parent(self, key, tree):
        if tree.parent is None:
            return OBJECT
        if key[0] is not None:
            return self.named_type((None, key[0]), tree.parent)
        named = (None, tree.parent.name.text)
        return named if tree.parent.outer is None and self.is_declared(named) else None

    def find_cycles(self):
        for key, tree, file in self.classes:
            at, steps = self.parent[key], 0
            while at is not None and at != key and steps <= len(self.classes):
                at, steps = self.parent[at], steps + 1
            if at == key:
                self.fault("Cycle", file, tree.name.at)

    @settled
    def chain(self, key):
        """A class and its superclasses, nearest first."""
        found = []
        while key is not None and key not in found:
            found.append(key)
            key = self.parent[key]
        return found

    def outer(self, key):
        return None if key[0] is None else (None, key[0])

    def enclosing(self, key):
        return [key] if key[0] is None else [key, (None, key[0])]

    # types by name (JLS 6.5.5, 8.5)

    @settled
    def member_type(self, key, name):
        """The member type of a class, as ("class", class), or None."""
        for i, above in enumerate(self.chain(key)):
            found = (above[1], name)
            if above[0] is None and found in self.trees:
                hidden = i > 0 and "private" in self.trees[found].modifiers
                return None if hidden else found
        return None

    @settled
    def simple_type(self, key, name):
        for enclosing in self.enclosing(key):
            found = self.member_type(enclosing, name)
            if found is not None:
                return found
        return (None, name) if self.is_declared((None, name)) else None

    def named_type(self, key, type):
        if type.outer is None:
            return self.simple_type(key, type.name.text)
        outer = self.simple_type(key, type.outer.text)
        return None if outer is None else self.member_type(outer, type.name.text)

    def declared_type(self, key, type, file):
        """The type that a declaration in the class is written with."""
        if type is None:
            return "void"
        if type.kind != "named":
            return type.kind
        found = self.named_type(key, type)
        if found is None:
            self.fault("NoTy", file, type.at)
        return found

    # rows

    def collect_rows(self):
        for key, tree, file in self.classes:
            if key[0] is None:
                self.class_rows(key, tree, file)

    def class_rows(self, key, tree, file):
        where = "top" if key[0] is None else "inner"
        is_bad = where == "inner" and "static" not in tree.modifiers
        self.test_modifiers(where, tree, file, is_bad)
        self.rows.append(Row(("class", key), tree.modifiers, None, self.parent[key], False))
        if not any(member.kind == "ctor" for member in tree.members):
            access = [word for word in tree.modifiers if word in ACCESS]
            self.rows.append(Row(("ctor", key, ()), access, None, None, False))
        seen = set()
        for member in tree.members:
            if member.kind == "inner":
                self.class_rows((key[1], member.of.name.text), member.of, file)
            else:
                self.member_row(key, member, file, seen)
        named = {m.name.text for m in tree.members if m.kind in ("field", "method")}
        for member in tree.members:
            if member.kind == "inner" and member.of.name.text in named:
                self.fault("MemberTypeName", file, member.of.name.at)

    def member_row(self, key, member, file, seen):
        self.test_modifiers(member.kind, member, file, False)
        type = None if member.kind == "ctor" else self.declared_type(key, member.type, file)
        decl = self.member_decl(key, member, file)
        if decl in seen:
            self.fault("TwiceMember", file, member.name.at)
        seen.add(decl)
        params = set()
        for param in getattr(member, "params", []):
            if param.name.text in params:
                self.fault("TwiceMember", file, param.name.at)
            params.add(param.name.text)
        init = member.init if member.kind == "field" else None
        if init is not None and "static" in member.modifiers and not is_static_form(init):
            self.fault("StaticInit", file, init.at)
        self.rows.append(Row(decl, member.modifiers, type, None, init is not None))

    def member_decl(self, key, member, file=0):
        if member.kind == "field":
            return ("field", key, member.name.text)
        types = tuple(self.declared_type(key, param.type, file) for param in member.params)
        if member.kind == "ctor":
            return ("ctor", key, types)
        return ("method", key, member.name.text, types)

    def test_modifiers(self, where, tree, file, is_bad):
        words = tree.modifiers
        twice = len(set(words)) < len(words) or len(ACCESS & set(words)) > 1
        if is_bad or twice or set(words) - MAY_STAND[where] or {"final", "volatile"} <= set(words):
            self.fault("BadModifiers", file, tree.name.at)

    # members (JLS 8.2 to 8.5)

    def row(self, decl):
        return self.rows[self.number[decl]]

    def has_word(self, decl, word):
        return word in self.row(decl).modifiers

    def is_subclass(self, below, above):
        return above in self.chain(below)

    def is_assignable(self, a, b):
        if a == b:
            return True
        return is_class(b) and (a == "null" or is_class(a) and self.is_subclass(a, b))

    def nearest(self, key, decl_of):
        """The member of a class that is declared as `decl_of` says: not one that is hidden,
        overridden, or private above."""
        for i, above in enumerate(self.chain(key)):
            decl = decl_of(above)
            if decl in self.number:
                return None if i > 0 and self.has_word(decl, "private") else decl
        return None

    @settled
    def member_field(self, key, name):
        return self.nearest(key, lambda above: ("field", above, name))

    @settled
    def member_class(self, key, name):
        return self.nearest(
            key, lambda above: ("class", (above[1], name)) if above[0] is None else None
        )

    @settled
    def member_methods(self, key, name):
        return [
            row.decl
            for row in self.rows
            if row.decl[0] == "method"
            and row.decl[2] == name
            and self.nearest(key, lambda above: ("method", above, *row.decl[2:])) == row.decl
        ]

    @settled
    def ctors(self, key):
        return [row.decl for row in self.rows if row.decl[:2] == ("ctor", key)]

    def is_accessible(self, place, decl):
        """Whether a declaration may be named in a class: a private one in its own top class."""
        if not self.has_word(decl, "private"):
            return True
        return self.enclosing(place)[-1] == self.enclosing(decl[1])[-1]


class SourceFault(Exception):
    """Where the files are no program: the file's number, the byte and the kind of the fault."""

    def __init__(self, file, at, kind):
        super().__init__(file, at, kind)
        self.file = file
        self.at = at
        self.kind = kind


def type_text(type):
    if not is_class(type):
        return type
    return type[1] if type[0] is None else type[0] + "." + type[1]


def decl_text(decl):
    if decl[0] == "local":
        return decl_text(decl[1]) + "#%d" % decl[2]
    text = type_text(decl[1])
    if decl[0] == "class":
        return text
    if decl[0] == "field":
        return text + "." + decl[2]
    name = "new" if decl[0] == "ctor" else decl[2]
    return text + "." + name + "(" + ",".join(map(type_text, decl[-1])) + ")"
