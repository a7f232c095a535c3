"""What a name, a type's name, a call or a creation finds at a place (JLS 6.4, 6.5, 15.12).

A finding is ("one", decl), ("none",), ("many", decl, decl), ("private", decl) or ("static", decl),
the last for an instance member found where there is no object of its class.
"""
from collections import namedtuple

from .program import is_class

NONE = ("none",)

Local = namedtuple("Local", "name number final type has_init")
# A place: the class, the member, whether it is a static context, the locals in scope, and the
# number of the local in whose initializer it stands.
Place = namedtuple("Place", "cls member static locals own")


class Lookup:
    def __init__(self, program):
        self.p = program

    def accessible(self, place, decl):
        if decl is None:
            return NONE
        return ("one" if self.p.is_accessible(place.cls, decl) else "private", decl)

    def instance(self, place, decl, found_in):
        """A member found by its simple name in an enclosing class."""
        needs = not self.p.has_word(decl, "static")
        return ("static" if needs and (place.static or found_in != place.cls) else "one", decl)

    def local(self, place, number):
        return [local for local in place.locals if local.number == number][-1]

    def variable(self, place, name):
        for local in reversed(place.locals):
            if local.name == name:
                return ("one", ("local", place.member, local.number))
        for enclosing in self.p.enclosing(place.cls):
            decl = self.p.member_field(enclosing, name)
            if decl is not None:
                return self.instance(place, decl, enclosing)
        return NONE

    def type(self, place, name):
        found = self.p.simple_type(place.cls, name)
        return NONE if found is None else ("one", ("class", found))

    def member_type(self, place, key, name):
        return self.accessible(place, self.p.member_class(key, name))

    def field(self, place, key, name):
        return self.accessible(place, self.p.member_field(key, name))

    def left(self, place, name):
        found = self.variable(place, name)
        return self.type(place, name) if found == NONE else found

    def left_member(self, place, key, name):
        found = self.field(place, key, name)
        return self.member_type(place, key, name) if found == NONE else found

    # calls (JLS 15.12.2)

    def fit(self, given, wanted):
        return len(given) == len(wanted) and all(
            self.p.is_assignable(a, b) for a, b in zip(given, wanted)
        )

    def choice(self, place, decls, types):
        fitting = [decl for decl in decls if self.fit(types, decl[-1])]
        if not fitting:
            return NONE
        allowed = [decl for decl in fitting if self.p.is_accessible(place.cls, decl)]
        if not allowed:
            return ("private", fitting[0])
        best = [a for a in allowed if all(self.fit(a[-1], b[-1]) for b in allowed)]
        return ("one", best[0]) if len(best) == 1 else ("many", allowed[0], allowed[1])

    def simple_method(self, place, name, types):
        for enclosing in self.p.enclosing(place.cls):
            methods = self.p.member_methods(enclosing, name)
            if methods:
                found = self.choice(place, methods, types)
                return self.instance(place, found[1], enclosing) if found[0] == "one" else found
        return NONE

    def method(self, place, key, name, types):
        return self.choice(place, self.p.member_methods(key, name), types)

    def ctor(self, place, key, types):
        return self.choice(place, self.p.ctors(key), types)

    # types and findings of expressions

    def outer_and_named(self, place, type):
        """What the parts of a written class type find."""
        if type.outer is None:
            return [self.type(place, type.name.text)]
        outer = self.type(place, type.outer.text)
        if outer[0] != "one":
            return [outer, NONE]
        return [outer, self.member_type(place, outer[1][1], type.name.text)]

    def written_type(self, place, type):
        if type.kind != "named":
            return type.kind
        return self.found_class(self.outer_and_named(place, type)[-1])

    def found_class(self, found):
        return found[1][1] if found[0] == "one" and found[1][0] == "class" else None

    def found_type(self, place, found):
        if found[0] != "one":
            return None
        if found[1][0] == "local":
            return self.local(place, found[1][2]).type
        return self.p.row(found[1]).type

    def class_named(self, place, e):
        """The class that an expression in front of a dot names, or None."""
        if e.kind == "name":
            return self.found_class(self.left(place, e.name.text))
        if e.kind == "field":
            outer = self.class_named(place, e.on)
            if outer is not None:
                return self.found_class(self.left_member(place, outer, e.name.text))
        return None

    def class_of(self, place, e):
        """The class in which a member behind this expression and a dot is looked for."""
        named = self.class_named(place, e)
        if named is not None:
            return named
        type = self.type_of(place, e)
        return type if is_class(type) else None

    def types_of(self, place, args):
        types = [self.type_of(place, arg) for arg in args]
        return None if None in types else tuple(types)

    def field_found(self, place, e):
        key = self.class_of(place, e.on)
        return NONE if key is None else self.field(place, key, e.name.text)

    def super_field_found(self, place, e):
        return self.field(place, self.p.parent[place.cls], e.name.text)

    def call_found(self, place, e):
        types = self.types_of(place, e.args)
        if types is None:
            return NONE
        if e.on is None:
            return self.simple_method(place, e.name.text, types)
        key = self.class_of(place, e.on)
        return NONE if key is None else self.method(place, key, e.name.text, types)

    def super_call_found(self, place, e):
        types = self.types_of(place, e.args)
        if types is None:
            return NONE
        return self.method(place, self.p.parent[place.cls], e.name.text, types)

    def creation_found(self, place, e):
        key, types = self.written_type(place, e.type), self.types_of(place, e.args)
        return NONE if key is None or types is None else self.ctor(place, key, types)

    def value_found(self, place, e):
        """What the word of an expression finds as a value."""
        return {
            "name": lambda: self.variable(place, e.name.text),
            "field": lambda: self.field_found(place, e),
            "super_field": lambda: self.super_field_found(place, e),
            "call": lambda: self.call_found(place, e),
            "super_call": lambda: self.super_call_found(place, e),
            "create": lambda: self.creation_found(place, e),
        }[e.kind]()

    def type_of(self, place, e):
        """The type of an expression, or None where it has none."""
        kind = e.kind
        if kind in ("number", "bump", "compound"):
            return "int"
        if kind == "truth":
            return "boolean"
        if kind == "null":
            return "null"
        if kind == "string":
            return (None, "String")
        if kind == "class_literal":
            return (None, "Class")
        if kind == "this":
            return place.cls
        if kind == "paren":
            return self.type_of(place, e.of)
        if kind == "cast":
            return self.written_type(place, e.type)
        if kind == "unary":
            return "boolean" if e.op == "!" else "int"
        if kind == "binary":
            return "int" if e.op in "+-*/%" else "boolean"
        if kind == "assign":
            return self.type_of(place, e.left)
        if kind == "create":
            found = self.creation_found(place, e)
            return self.written_type(place, e.type) if found[0] == "one" else None
        return self.found_type(place, self.value_found(place, e))
