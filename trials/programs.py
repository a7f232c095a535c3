"""Random programs: half of them sound, the others with one or a few broken rules."""
import random
from types import SimpleNamespace as Item

from thinning import thinned

FIELDS = ["f", "g", "h"]
METHODS = ["m", "n", "k"]
LOCALS = ["a", "b", "c"]
# Names that hide, obscure or are the name of something else.
CLASHING = ["f", "g", "A", "K", "m", "B"]
CONDITIONS = ["true", "(true)", "1<2", "false"]
OBJECT_METHODS = ["notify", "wait", "toString", "hashCode"]
SIMPLE = ["int", "boolean", "Object", "String", "Thread"]


class Maker:
    conditions = CONDITIONS

    def __init__(self, seed, wild=0.02):
        self.random = random.Random(seed)
        self.wild = wild
        self.classes = []

    def chance(self, p):
        return self.random.random() < p

    def pick(self, options):
        return self.random.choice(options)

    # what there is

    def make_classes(self):
        tops = ["A", "B", "C"][: self.pick([1, 2, 2, 3, 3])]
        for i, name in enumerate(tops):
            parent = self.pick(tops[:i] + ["Thread", None, None] + tops[i - 1 : i] * 3)
            self.classes.append(Item(name=name, outer=None, parent=parent))
        for top in tops:
            for name in self.pick([[], [], ["K"], ["K"], ["K", "L"]]):
                parent = self.pick([None, None, self.pick(tops)])
                self.classes.append(Item(name=name, outer=top, parent=parent))
        for c in self.classes:
            c.final = self.chance(0.03)
            c.access = self.access() if c.outer else ""
            c.fields = self.make_fields()
            c.methods = self.make_methods()
            c.ctors = self.make_ctors()

    def spelled(self, c):
        return c.name if c.outer is None else c.outer + "." + c.name

    def a_type(self):
        classes = [self.spelled(c) for c in self.classes]
        return self.pick(SIMPLE + ["int", "int", "boolean"] + classes * 2)

    def access(self):
        return self.pick(["", "", "", "public ", "private ", "protected "])

    def make_fields(self):
        fields = []
        names = FIELDS + (["A", "B", "L", "m", "a"] if self.chance(0.2) else [])
        for name in self.random.sample(names, self.pick([0, 1, 2, 3])):
            static = self.chance(0.4)
            final = self.chance(0.2)
            fields.append(Item(
                name=name, type=self.a_type(), static=static, final=final, access=self.access(),
                volatile=not final and self.chance(0.1), init=final or self.chance(0.4),
            ))
        return fields

    def make_methods(self):
        found = {}
        for _ in range(self.pick([1, 1, 2, 3, 4])):
            name = self.pick(OBJECT_METHODS if self.chance(self.wild) else METHODS + ["f"])
            types = [self.a_type() for _ in range(self.pick([0, 0, 1, 1, 2]))]
            static = self.chance(0.35)
            found[name, tuple(types)] = Item(
                name=name, types=types, static=static,
                result=self.pick([self.a_type(), "int", "void"]),
                access=self.pick(["", "", "public ", self.access()]),
                final=self.chance(0.05), synchronized=self.chance(0.1),
            )
        return list(found.values())

    def make_ctors(self):
        found = {}
        for _ in range(self.pick([0, 0, 0, 1, 2])):
            types = [self.a_type() for _ in range(self.pick([0, 0, 1, 2]))]
            found[tuple(types)] = Item(types=types, access=self.pick(["", "", "", "private "]))
        return list(found.values())

    def by_name(self, type):
        return next((c for c in self.classes if self.spelled(c) == type), None)

    def chain(self, c):
        found = []
        while c is not None and c not in found:
            found.append(c)
            c = self.by_name(c.parent) if c.parent else None
        return found

    def fits(self, given, wanted):
        if given == wanted or wanted == "Object" and given not in ("int", "boolean", "void"):
            return True
        c = self.by_name(given)
        return c is not None and any(
            wanted in (self.spelled(above), above.parent) for above in self.chain(c)
        )

    # expressions of a wanted type

    def value(self, here, type, depth):
        if self.chance(self.wild):
            return self.anything(here, depth)
        ways = [self.literal, self.from_local, self.from_field, self.from_field]
        if depth > 0:
            ways += [self.from_call, self.from_call, self.operator, self.operator, self.wrapped]
        self.random.shuffle(ways)
        for way in ways:
            text = way(here, type, depth - 1)
            if text is not None:
                return text
        return self.literal(here, type, 0)

    def literal(self, here, type, depth):
        if type == "int":
            return self.pick(["0", "1", "2", "-1"] if depth >= 0 else ["0", "1"])
        if type == "boolean":
            return self.pick(["true", "false"])
        options = ["null"]
        if type in ("String", "Object"):
            options.append('"s"')
        if type in ("Object", "Class"):
            options.append(self.pick(["A.class", "Object.class"]))
        if type in ("Object", "Thread"):
            options.append("new %s()" % type)
        c = self.by_name(type)
        if c is not None and depth >= 0:
            options += [self.creation(here, c, depth)] * 3
        if not here.static and self.fits(self.spelled(here.cls), type):
            options += ["this"] * 3
        return self.pick(options)

    def creation(self, here, c, depth):
        types = self.ctor_types(here.cls, c)
        return "new %s(%s)" % (self.named(here, c), self.args(here, types, depth))

    def ctor_types(self, where, c):
        """The parameter types of one of a class's constructors, to be called in another class."""
        return self.pick([ctor.types for ctor in c.ctors]) if c.ctors else []

    def named(self, here, c):
        inside = c.outer is None or here.cls.name == c.outer or here.cls.outer == c.outer
        return c.name if inside and self.chance(0.7) else self.spelled(c)

    def args(self, here, types, depth):
        return ",".join(self.value(here, type, max(0, min(depth, 1))) for type in types)

    def from_local(self, here, type, depth):
        fitting = [name for name, given, _ in here.locals if self.fits(given, type)]
        return self.pick(fitting) if fitting else None

    def members(self, here, kind):
        """Each member of each class, with the ways to name it here."""
        found = []
        for c in self.classes:
            for member in getattr(c, kind):
                found.append((c, member))
        self.random.shuffle(found)
        return found

    def fronts(self, here, c, member, depth):
        fronts = []
        inherited = c in self.chain(here.cls)
        enclosing = self.by_name(here.cls.outer) if here.cls.outer else None
        if member.static:
            fronts += [self.named(here, c) + "."] * 2
            if inherited or enclosing is not None and c in self.chain(enclosing):
                fronts += [""] * 3
        else:
            if inherited and not here.static:
                fronts += ["", "", "", "this."]
                if c is not here.cls:
                    fronts.append("super.")
            value = self.from_local(here, self.spelled(c), 0)
            if value is None and depth >= 0:
                value = self.creation(here, c, depth - 1)
            if value is not None:
                fronts.append(self.operand(value) + ".")
        return fronts

    def operand(self, text):
        simple = text.replace(".", "").isalnum() and not text[0].isdigit()
        return text if simple else "(%s)" % text

    def from_field(self, here, type, depth):
        for c, field in self.members(here, "fields"):
            if self.fits(field.type, type):
                fronts = self.fronts(here, c, field, depth)
                if fronts:
                    return self.pick(fronts) + field.name
        return None

    def from_call(self, here, type, depth):
        for c, method in self.members(here, "methods"):
            if self.fits(method.result, type):
                fronts = self.fronts(here, c, method, depth)
                if fronts:
                    args = self.args(here, method.types, depth)
                    return "%s%s(%s)" % (self.pick(fronts), method.name, args)
        return None

    def operator(self, here, type, depth):
        part = lambda t: self.bracketed(self.value(here, t, depth))
        if type == "int":
            way = self.pick(["binary", "binary", "sign", "bump", "assign"])
            if way == "binary":
                return part("int") + self.pick("+-*/%") + part("int")
            if way == "sign":
                return self.pick("+-") + part("int")
            target = self.target(here, "int", depth)
            if target is None:
                return None
            if way == "bump":
                return self.pick(["%s++", "--%s"]) % target
            op = self.pick(["=", "+=", "*="])
            return "(%s%s%s)" % (target, op, self.value(here, "int", depth))
        if type == "boolean":
            way = self.pick(["compare", "equal", "and", "not"])
            if way == "compare":
                return part("int") + self.pick(["<", ">", "<=", ">="]) + part("int")
            if way == "not":
                return "!" + part("boolean")
            if way == "and":
                return part("boolean") + self.pick(["&&", "||"]) + part("boolean")
            other = self.a_type()
            return part(other) + self.pick(["==", "!="]) + part(other)
        return None

    def bracketed(self, text):
        return text if all(c.isalnum() or c == "." for c in text) else "(%s)" % text

    def wrapped(self, here, type, depth):
        if self.chance(0.5):
            return "(%s)" % self.value(here, type, depth)
        if type in ("int", "boolean", "void"):
            return None
        given = self.pick(["Object", type])
        c = self.by_name(type)
        written = type if c is None else self.named(here, c)
        return "((%s)%s)" % (written, self.operand(self.value(here, given, depth)))

    def target(self, here, type, depth):
        options = [name for name, given, final in here.locals if given == type and not final]
        for c, field in self.members(here, "fields"):
            if field.type == type and not (field.final and self.chance(0.9)):
                fronts = self.fronts(here, c, field, min(depth, 0))
                if fronts:
                    options.append(self.pick(fronts) + field.name)
        return self.pick(options) if options else None

    def anything(self, here, depth):
        """An expression of no wanted type."""
        names = FIELDS + LOCALS + METHODS
        fronts = names + ["A", "B", "K", "A.K", "this", "(this)"]
        one, other = self.value(here, self.a_type(), 0), self.value(here, self.a_type(), 0)
        cast = self.pick(["A", "B", "Object", "String", "A.K"])
        return self.pick([
            "this", "super." + self.pick(FIELDS), self.pick(names), self.pick(CLASHING), "null",
            "1", "%s.%s" % (self.pick(fronts), self.pick(FIELDS)),
            "%s(%s)" % (self.pick(METHODS), one),
            "%s.%s()" % (self.pick(["A", "B", "a", "this", "super", "K"]), self.pick(METHODS)),
            "(%s)%s" % (cast, self.operand(one)),
            "new %s()" % self.pick(["A", "B", "K", "Z", "A.K", "String"]),
            "-(%s)" % one,
            "(%s)%s(%s)" % (one, self.pick(["+", "==", "<", "&&"]), other),
            "(%s=%s)" % (self.pick(FIELDS + LOCALS), one),
            "%s.class" % self.pick(["A", "K", "A.K", "String", "Z"]),
            "%s()" % self.pick(["notify", "this.toString", "super.hashCode", "start", "run"]),
            self.from_call(here, "void", depth) or "1",
            "%s.f.g" % self.pick(["A", "A.K", "a", "this.f", "B.g"]),
            one,
        ])

    # statements

    def statements(self, here, count, depth):
        texts = []
        inner = Item(**{**vars(here), "locals": list(here.locals)})
        for _ in range(count):
            texts.append(self.statement(inner, depth, True))
        return "".join(texts)

    def statement(self, here, depth, in_list):
        ways = ["assign", "assign", "call", "bump"] + ["local"] * 5 * in_list
        if depth > 0:
            ways += ["return", "if", "while", "block", "sync", "empty"]
        way = self.pick(ways)
        nested = lambda: self.statement(here, depth - 1, False)
        if way == "local":
            return self.local(here, depth)
        if way == "call":
            target = self.from_call(here, self.pick(["void", self.a_type()]), depth)
            return target + ";" if target is not None else ";"
        if way == "return":
            return self.returned(here, depth) if self.chance(0.3) else ";"
        if way == "if":
            other = "else " + self.no_if(nested()) if self.chance(0.5) else ""
            return "if(%s)%s%s" % (self.value(here, "boolean", depth), self.no_if(nested()), other)
        if way == "while":
            condition = self.value(here, "boolean", depth)
            if self.chance(0.3):
                condition = self.pick(self.conditions)
            return "while(%s)%s" % (condition, nested())
        if way == "block":
            return "{%s}" % self.statements(here, self.pick([0, 1, 2]), depth - 1)
        if way == "sync":
            lock = self.value(here, self.pick(["Object", self.a_type()]), depth)
            return "synchronized(%s){%s}" % (lock, self.statements(here, 1, depth - 1))
        if way == "empty":
            return ";"
        type = "int" if way == "bump" else self.a_type()
        target = self.target(here, type, depth)
        if target is None:
            return ";"
        if way == "bump":
            return self.pick(["%s++;", "++%s;", "%s--;"]) % target
        op = self.pick(["=", "=", "=", "+=" if type == "int" else "="])
        return "%s%s%s;" % (target, op, self.value(here, type, depth))

    def no_if(self, text):
        return "{%s}" % text if text.startswith(("if", "while")) else text

    def local(self, here, depth):
        taken = [name for name, _, _ in here.locals]
        free = [name for name in LOCALS + LOCALS + CLASHING if name not in taken]
        name = self.pick(free if free and not self.chance(2 * self.wild) else LOCALS + CLASHING)
        type, final = self.a_type(), self.chance(0.2)
        if self.chance(self.wild / 2):
            type = self.pick(["Z", "A.Z", "Z.K", "L", "Runnable"])
        c = self.by_name(type)
        written = type if c is None else self.named(here, c)
        init = self.value(here, type, depth)
        text = "%s%s %s=%s;" % ("final " if final else "", written, name, init)
        here.locals.append((name, type, final))
        return text

    def returned(self, here, depth):
        if (here.result == "void") != self.chance(self.wild):
            return "return;"
        return "return %s;" % self.value(here, here.result, depth)

    # members as text

    def words(self, member, *words):
        given = [word for word in words if getattr(member, word, False)]
        return member.access + "".join(word + " " for word in given)

    def field_text(self, c, field):
        init = ""
        here = Item(cls=c, static=field.static, locals=[], result="void")
        if field.init and field.static:
            init = "=" + {"int": self.pick(["1", "-1"]), "boolean": "true", "String": '"s"',
                          "Object": "new Object()"}.get(field.type, "null")
        elif field.init:
            init = "=" + self.value(here, field.type, 1)
        words = self.words(field, "static", "final", "volatile")
        return "%s%s %s%s;" % (words, self.declared(c, field.type), field.name, init)

    def declared(self, c, type):
        """A type as a declaration in the class is written with it."""
        return type

    def params(self, c, types):
        names = self.random.sample(LOCALS + ["f", "A"], len(types))
        finals = [self.chance(0.15) for _ in types]
        locals = list(zip(names, types, finals))
        text = ",".join(
            "%s%s %s" % ("final " if f else "", self.declared(c, t), n) for n, t, f in locals
        )
        return text, locals

    def method_text(self, c, method):
        params, locals = self.params(c, method.types)
        here = Item(cls=c, static=method.static, locals=locals, result=method.result)
        body = self.statements(here, self.pick([0, 1, 1, 2, 3]), 2)
        if method.result != "void" and not self.chance(self.wild):
            body += self.returned(here, 1)
        words = self.words(method, "static", "final", "synchronized")
        result = self.declared(c, method.result)
        return "%s%s %s(%s){%s}" % (words, result, method.name, params, body)

    def ctor_text(self, c, ctor):
        params, locals = self.params(c, ctor.types)
        here = Item(cls=c, static=True, locals=locals, result="void")
        parent, call = self.by_name(c.parent) if c.parent else None, ""
        if parent is not None and (parent.ctors or self.chance(0.3)):
            types = self.ctor_types(c, parent)
            call = "super(%s);" % self.args(here, types, 1)
        elif self.chance(0.1):
            call = "super(%s);" % self.pick(["", "1", "null"])
        here.static = False
        body = call + self.statements(here, self.pick([0, 1, 2]), 1)
        return "%s%s(%s){%s}" % (ctor.access, c.name, params, body)

    def class_text(self, c):
        members = [self.field_text(c, field) for field in c.fields]
        members += [self.method_text(c, method) for method in c.methods]
        members += [self.ctor_text(c, ctor) for ctor in c.ctors]
        if c.outer is None:
            members += [self.class_text(k) for k in self.classes if k.outer == c.name]
        if self.chance(0.3):
            self.random.shuffle(members)
        words = c.access + ("static " if c.outer else "") + ("final " if c.final else "")
        parent = " extends " + c.parent if c.parent else ""
        return "%sclass %s%s{%s}" % (words, c.name, parent, "".join(members))

    def files(self):
        self.make_classes()
        texts = [self.class_text(c) for c in self.classes if c.outer is None]
        if self.chance(0.5):
            self.random.shuffle(texts)
        if self.chance(0.5):
            files = [("A.java", "".join(texts))]
        else:
            files = [("F%d.java" % i, text) for i, text in enumerate(texts)]
        return thinned(files, self.random, self.pick([0, 1, 2, 4, 8, 8, 8]))
