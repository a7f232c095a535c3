"""The references of a file and the rules that it breaks, as lines (JLS 6, 8, 14, 15)."""
from functools import lru_cache

from .lookup import Local, Lookup, Place
from .program import decl_text, is_class
from .tokens import tokens_of

RULES = [
    "NoVariable", "NoType", "NoMethod", "Ambiguous", "Private", "StaticContext",
    "StaticThroughValue", "InstanceThroughType", "TypeMismatch", "Operands", "BadCast",
    "FinalAssigned", "Redeclared", "Forward", "VoidValue", "ReturnForm", "MissingReturn",
    "Unreachable", "ConstantCondition", "Override", "SuperCtor", "FinalClass", "ObjectMethod",
]
OBJECT_METHODS = {
    "equals", "hashCode", "toString", "getClass", "notify", "notifyAll", "wait", "clone",
    "finalize",
}
WEAKNESS = {"private": 0, "protected": 2, "public": 3}


def is_true(e):
    return e.kind == "truth" and e.value or e.kind == "paren" and is_true(e.of)


def completes(s):
    """Whether a statement can complete normally (JLS 14.21)."""
    if s.kind == "if":
        return s.other is None or completes(s.then) or completes(s.other)
    if s.kind == "while":
        return not is_true(s.condition)
    if s.kind in ("block", "sync"):
        return all(map(completes, s.body))
    return s.kind != "return"


def access_of(modifiers):
    return next((WEAKNESS[word] for word in modifiers if word in WEAKNESS), 1)


class Binding(Lookup):
    """The notes of one file of a program."""

    def __init__(self, program, file):
        super().__init__(program)
        self.refs = {}
        self.errors = set()
        self.declared = {}  # places of declared names
        for tree in program.units[file].classes:
            self.notes_of_class(tree, None)

    def ref(self, at, decl):
        self.refs[at] = decl

    def error(self, at, rule):
        self.errors.add((at, RULES.index(rule)))

    def finding(self, at, missing, found):
        if found[0] == "one":
            self.ref(at, found[1])
        else:
            rule = {"none": missing, "many": "Ambiguous", "private": "Private"}
            self.error(at, rule.get(found[0], "StaticContext"))

    def type_words(self, place, type):
        if type.kind == "named":
            found = self.outer_and_named(place, type)
            words = [type.name] if type.outer is None else [type.outer, type.name]
            for word, one in zip(words, found):
                self.finding(word.at, "NoType", one)

    def declared_words(self, place, type):
        """The words of a declared type, of which the table has found that they are types."""
        if type is not None:
            self.type_words(place, type)

    # classes and members

    def notes_of_class(self, tree, outer):
        key = (outer, tree.name.text)
        self.declared[tree.name.at] = ("class", key)
        self.notes_of_head(key, tree)
        for member in tree.members:
            if member.kind == "inner":
                self.notes_of_class(member.of, tree.name.text)
            else:
                self.notes_of_member(key, member)

    def lacks_parent_ctor(self, key):
        place = Place(key, None, False, [], None)
        return self.ctor(place, self.p.parent[key], ())[0] != "one"

    def notes_of_head(self, key, tree):
        if tree.parent is not None:
            if key[0] is None:
                self.ref(tree.parent.at, ("class", self.p.parent[key]))
            else:
                self.type_words(Place((None, key[0]), None, False, [], None), tree.parent)
            if self.p.has_word(("class", self.p.parent[key]), "final"):
                self.error(tree.parent.at, "FinalClass")
        if not any(m.kind == "ctor" for m in tree.members) and self.lacks_parent_ctor(key):
            self.error(tree.name.at, "SuperCtor")

    def notes_of_member(self, key, member):
        decl = self.p.member_decl(key, member)
        self.declared[member.name.at] = ("class", key) if member.kind == "ctor" else decl
        place = Place(key, decl, False, [], None)
        static = "static" in member.modifiers
        self.locals_so_far = 0
        if member.kind == "field":
            self.declared_words(place, member.type)
            if member.init is not None:
                inside = place._replace(static=static)
                self.value_for(inside, member.init, self.p.row(decl).type)
                self.walk(inside, "value", member.init)
            return
        params = []
        for param in member.params:
            self.declared_words(place, param.type)
            type = self.p.declared_type(key, param.type, 0)
            params.append(self.new_local(decl, param.name, param.final, type, False))
        if member.kind == "method":
            self.declared_words(place, member.type)
            self.method_rules(key, member, decl)
            self.walk_list(place._replace(static=static, locals=params), member.body)
        else:
            self.parent_call(place, key, member, params)
            self.walk_list(place._replace(locals=params), member.body)

    def method_rules(self, key, member, decl):
        at = member.name.at
        if member.type is not None and all(map(completes, member.body)):
            self.error(at, "MissingReturn")
        own = self.p.row(decl)
        for row in self.p.rows:
            above = row.decl
            if above[0] != "method" or above[2:] != decl[2:] or above[1] == key:
                continue
            if not self.p.is_subclass(key, above[1]) or "private" in row.modifiers:
                continue
            weaker = access_of(own.modifiers) < access_of(row.modifiers)
            differs = ("static" in own.modifiers) != ("static" in row.modifiers)
            if weaker or differs or own.type != row.type or "final" in row.modifiers:
                self.error(at, "Override")
        if member.name.text in OBJECT_METHODS:
            self.error(at, "ObjectMethod")

    def parent_call(self, place, key, member, params):
        if member.super_args is None:
            if self.lacks_parent_ctor(key):
                self.error(member.name.at, "SuperCtor")
            return
        inside = place._replace(static=True, locals=params)
        types = self.types_of(inside, member.super_args)
        found = ("none",) if types is None else self.ctor(inside, self.p.parent[key], types)
        self.finding(member.super_at, "NoMethod", found)
        for arg in member.super_args:
            self.walk(inside, "value", arg)

    def new_local(self, member, name, final, type, has_init):
        local = Local(name.text, self.locals_so_far, final, type, has_init)
        self.declared[name.at] = ("local", member, local.number)
        self.locals_so_far += 1
        return local

    # statements

    def walk_list(self, place, body):
        reached = True
        for statement in body:
            if not reached:
                self.error(statement.at, "Unreachable")
            reached = reached and completes(statement)
            place = self.walk_statement(place, statement)

    def walk_statement(self, place, s):
        """Notes a statement. The place behind it."""
        if s.kind == "local":
            return self.walk_local(place, s)
        if s.kind == "eval":
            self.walk(place, "statement", s.value)
        elif s.kind == "if":
            self.condition(place, s.condition)
            self.walk_statement(place, s.then)
            if s.other is not None:
                self.walk_statement(place, s.other)
        elif s.kind == "while":
            self.condition(place, s.condition)
            if not is_true(s.condition) and self.is_constant(place, s.condition):
                self.error(s.condition.at, "ConstantCondition")
            self.walk_statement(place, s.body)
        elif s.kind == "return":
            self.walk_return(place, s)
        elif s.kind == "block":
            self.walk_list(place, s.body)
        elif s.kind == "sync":
            if not is_class(self.type_of(place, s.lock)):
                self.error(s.lock.at, "TypeMismatch")
            self.walk(place, "value", s.lock)
            self.walk_list(place, s.body)
        return place

    def walk_local(self, place, s):
        type = self.written_type(place, s.type)
        local = self.new_local(place.member, s.name, s.final, type, True)
        self.type_words(place, s.type)
        if any(other.name == local.name for other in place.locals):
            self.error(s.name.at, "Redeclared")
        behind = place._replace(locals=place.locals + [local])
        inside = behind._replace(own=local.number)
        self.value_for(inside, s.init, type)
        self.walk(inside, "value", s.init)
        return behind

    def condition(self, place, e):
        if self.type_of(place, e) != "boolean":
            self.error(e.at, "TypeMismatch")
        self.walk(place, "value", e)

    def walk_return(self, place, s):
        is_method = place.member[0] == "method"
        wanted = self.p.row(place.member).type if is_method else "void"
        if (s.value is None) != (wanted == "void"):
            self.error(s.at, "ReturnForm")
        elif s.value is not None:
            self.value_for(place, s.value, wanted)
        if s.value is not None:
            self.walk(place, "value", s.value)

    def value_for(self, place, e, wanted):
        given = self.type_of(place, e)
        if given is None or wanted is None or not self.p.is_assignable(given, wanted):
            self.error(e.at, "TypeMismatch")

    # expressions

    def walk(self, place, role, e):
        """Notes an expression: as a value, as what stands in front of a dot ("left"), or as a
        whole statement."""
        self.expression_words(place, role, e)
        if e.kind in ("this", "super_field", "super_call") and place.static:
            self.error(e.at, "StaticContext")
        self.member_through(place, e)
        self.operand_rules(place, e)
        if e.kind in ("assign", "compound", "bump"):
            self.assigned(place, e.of if e.kind == "bump" else e.left)
        if e.kind == "name":
            self.forward(place, e)
        if e.kind in ("call", "super_call"):
            if role != "statement" and self.type_of(place, e) == "void":
                self.error(e.name.at, "VoidValue")
            if e.name.text in OBJECT_METHODS:
                self.error(e.name.at, "ObjectMethod")
        self.walk_parts(place, e)

    def walk_parts(self, place, e):
        if e.kind in ("field", "call") and e.on is not None:
            self.walk(place, "left", e.on)
        for part in getattr(e, "args", []):
            self.walk(place, "value", part)
        for name in ("of", "left", "right"):
            if hasattr(e, name):
                self.walk(place, "value", getattr(e, name))

    def expression_words(self, place, role, e):
        if e.kind == "name" and role == "left":
            self.finding(e.name.at, "NoType", self.left(place, e.name.text))
        elif e.kind == "name":
            self.finding(e.name.at, "NoVariable", self.value_found(place, e))
        elif e.kind == "field":
            outer = self.class_named(place, e.on)
            if role == "left" and outer is not None:
                found = self.left_member(place, outer, e.name.text)
                self.finding(e.name.at, "NoType", found)
            else:
                self.finding(e.name.at, "NoVariable", self.value_found(place, e))
        elif e.kind == "super_field":
            self.finding(e.name.at, "NoVariable", self.value_found(place, e))
        elif e.kind in ("call", "super_call"):
            self.finding(e.name.at, "NoMethod", self.value_found(place, e))
        elif e.kind == "create":
            self.finding(e.at, "NoMethod", self.value_found(place, e))
        if e.kind in ("class_literal", "create", "cast"):
            self.type_words(place, e.type)

    def member_through(self, place, e):
        """A static member through a value, or an instance member through a class."""
        through = e.kind in ("field", "super_field", "super_call")
        if not through and not (e.kind == "call" and e.on is not None):
            return
        found = self.value_found(place, e)
        if found[0] != "one":
            return
        static = self.p.has_word(found[1], "static")
        by_class = e.kind in ("field", "call") and self.class_named(place, e.on) is not None
        if static and not by_class:
            self.error(e.name.at, "StaticThroughValue")
        if not static and by_class:
            self.error(e.name.at, "InstanceThroughType")

    def operand_rules(self, place, e):
        type = lambda part: self.type_of(place, part)
        if e.kind == "assign":
            self.value_for(place, e.right, type(e.left))
        bad = (
            e.kind == "unary" and type(e.of) != ("boolean" if e.op == "!" else "int")
            or e.kind == "bump" and type(e.of) != "int"
            or e.kind == "binary" and not self.takes(e.op, type(e.left), type(e.right))
            or e.kind == "compound" and not type(e.left) == type(e.right) == "int"
        )
        if bad:
            self.error(e.at, "Operands")
        if e.kind == "cast":
            if not self.are_comparable(self.written_type(place, e.type), type(e.of)):
                self.error(e.at, "BadCast")

    def are_comparable(self, a, b):
        """Whether both are references of which one is assignable to the other."""
        if not all(type == "null" or is_class(type) for type in (a, b)):
            return False
        return self.p.is_assignable(a, b) or self.p.is_assignable(b, a)

    def takes(self, op, a, b):
        if op in ("||", "&&"):
            return a == b == "boolean"
        if op in ("==", "!="):
            return a == b and a in ("int", "boolean") or self.are_comparable(a, b)
        return a == b == "int"

    def is_final(self, place, decl):
        if decl[0] == "local":
            return self.local(place, decl[2]).final
        return self.p.has_word(decl, "final")

    def has_init(self, place, decl):
        if decl[0] == "local":
            return self.local(place, decl[2]).has_init
        return self.p.row(decl).has_init

    def may_set(self, place, decl):
        """Whether a final field is one that this constructor may assign."""
        if decl[0] != "field" or place.member[0] != "ctor" or place.member[1] != decl[1]:
            return False
        return not self.p.has_word(decl, "static") and not self.p.row(decl).has_init

    def assigned(self, place, target):
        found = self.value_found(place, target)
        if found[0] != "one" or not self.is_final(place, found[1]):
            return
        simple = target.kind == "name" or target.kind == "field" and target.on.kind == "this"
        if not simple or not self.may_set(place, found[1]):
            self.error(target.name.at, "FinalAssigned")

    def forward(self, place, e):
        """A name in its own initializer, or that of a field that is declared in front of it."""
        found = self.value_found(place, e)
        if found[0] != "one":
            return
        decl = found[1]
        if decl[0] == "local":
            if decl[2] == place.own:
                self.error(e.name.at, "Forward")
        elif place.member[0] == "field" and not place.static and decl[1] == place.cls:
            later = self.p.number[place.member] <= self.p.number[decl]
            if later and not self.p.has_word(decl, "static"):
                self.error(e.name.at, "Forward")

    def is_constant(self, place, e):
        """Whether all leaves are literals or final variables with an initializer."""
        if e.kind in ("number", "truth", "null", "string"):
            return True
        if e.kind == "name" or e.kind == "field" and self.class_named(place, e.on) is not None:
            found = self.value_found(place, e)
            if found[0] != "one":
                return False
            return self.is_final(place, found[1]) and self.has_init(place, found[1])
        if e.kind in ("paren", "cast", "unary"):
            return self.is_constant(place, e.of)
        if e.kind == "binary":
            return self.is_constant(place, e.left) and self.is_constant(place, e.right)
        return False


@lru_cache(maxsize=64)
def notes_of(program, file):
    """The notes of a file of a program."""
    return Binding(program, file)


def lines(program, name):
    """The lines of a show of bindings: references and errors by place, references first."""
    file = [file_name for file_name, _ in program.files].index(name)
    notes = notes_of(program, file)
    tokens, _ = tokens_of(program.files[file][1])
    word = {token.at: token.text for token in tokens}
    shown = [(at, 0, "%d %s %s" % (at, word[at], decl_text(d))) for at, d in notes.refs.items()]
    shown += [(at, 1 + rule, "%d error %s" % (at, RULES[rule])) for at, rule in notes.errors]
    return [line for _, _, line in sorted(shown)]


def first_error(program):
    """The first broken rule of a program, by file and place, or None."""
    for file in range(len(program.files)):
        errors = notes_of(program, file).errors
        if errors:
            at, rule = min(errors)
            return (file, at, RULES[rule])
    return None
