"""Random programs in which much is inherited: methods overridden in several subclasses, fields and
member types hidden by those of subclasses, classes named through a class that inherits them."""
from types import SimpleNamespace as Item

from programs import Maker
from thinning import thinned

TOPS = ["A", "B", "C", "D"]
SIMPLE = ["int", "int", "int", "boolean", "Object", "String", "Thread"]


def top(c):
    return c.outer or c.name


class HidingMaker(Maker):
    conditions = ["true", "(true)"]
    between = 0.15

    def __init__(self, seed):
        super().__init__(seed, wild=0.0)
        self.named_so, self.chains, self.ways_seen = {}, {}, {}

    # what there is

    def make_classes(self):
        tops = TOPS[: self.pick([2, 3, 3, 4, 4])]
        for i, name in enumerate(tops):
            above = tops[:i] + tops[i - 1 : i] * 2
            parent = self.pick(above) if above and self.chance(0.75) else None
            self.add_class(name, None, parent or self.pick(["Thread"] + [None] * 9))
        if self.chance(self.between):
            self.add_private_between(tops)
        for name in tops:
            for inner in self.pick([[], ["K"], ["K"], ["K", "L"], ["L"]]):
                if self.by_name(name + "." + inner) is None:
                    above = [None, None] + tops + self.inner_classes(name)
                    self.add_class(inner, name, self.pick(above))
        for self.now in self.classes:
            self.make_members(self.now)

    def inner_classes(self, outer):
        seen = [c for c in self.classes if c.outer]
        return [self.spelled(c) for c in seen if c.access != "private " or c.outer == outer]

    def add_private_between(self, tops):
        """A private member class that keeps one above it from being inherited by a member class,
        in which its name finds a third one."""
        between = [c for c in self.classes if c.parent in tops]
        if between:
            below = self.pick(between)
            other = self.pick([name for name in tops if name not in (below.name, below.parent)]
                              or [below.name])
            inner = [(below.parent, None, ""), (below.name, None, "private ")]
            for outer, parent, access in inner + [(other, self.pick(tops), "")]:
                if self.by_name(outer + ".K") is None:
                    self.add_class("K", outer, parent, access)
            self.add_class("L", other, below.name)

    def add_class(self, name, outer, parent, access=None):
        if access is None:
            access = self.pick(["", "", "private ", "private "]) if outer else ""
        self.classes.append(Item(name=name, outer=outer, parent=parent, access=access,
                                 final=False, fields=[], methods=[], ctors=[]))
        self.named_so[self.spelled(self.classes[-1])] = self.classes[-1]

    def by_name(self, type):
        return self.named_so.get(type)

    def chain(self, c):
        key = self.spelled(c)
        if key not in self.chains:
            above = self.by_name(c.parent)
            self.chains[key] = [c] + (self.chain(above) if above else [])
        return self.chains[key]

    def make_members(self, c):
        parent = self.by_name(c.parent) if c.parent else None
        inner = [one.name for one in self.classes if one.outer == c.name]
        c.fields = [one for one in self.make_fields() if one.name not in inner]
        c.ctors = self.make_ctors()
        if parent is not None and parent.ctors and not c.ctors:
            c.ctors = [Item(types=[], access="")]
        if c.ctors and all(one.access == "private " for one in c.ctors):
            c.ctors[0].access = ""
        c.methods = [self.again(c, one) for one in self.above(c) if self.chance(0.4)]
        c.methods += [one for one in self.make_methods() if self.is_new(c, one)]

    def above(self, c):
        """The methods that the class inherits and may override, one of each signature."""
        found = {}
        for above in self.chain(c)[1:]:
            for one in above.methods:
                found.setdefault((one.name, tuple(one.types)), one)
        return [one for one in found.values() if one.access != "private " and not one.final]

    def again(self, c, one):
        access = one.access if one.access else self.pick(["", "", "protected ", "public "])
        return Item(**{**vars(one), "access": access})

    def is_new(self, c, one):
        """Whether the class has no such method, nor one above."""
        alike = lambda other: (other.name, other.types) == (one.name, one.types)
        above = [other for each in self.chain(c)[1:] for other in each.methods]
        return not any(alike(other) for other in c.methods) and not any(
            alike(other) and other.access != "private " for other in above
        )

    def a_type(self):
        classes = [self.spelled(c) for c in self.classes if self.is_accessible(self.now, c, c)]
        tops = [name for name in classes if "." not in name]
        return self.pick(SIMPLE + classes + tops)

    # what is found (JLS 6.5.5, 6.6, 8.2 to 8.5)

    def is_accessible(self, where, c, member):
        return member.access != "private " or top(where) == top(c)

    def nearest(self, c, members_of, is_wanted):
        for i, above in enumerate(self.chain(c)):
            for one in members_of(above):
                if is_wanted(one):
                    return None if i > 0 and one.access == "private " else one
        return None

    def member_type(self, c, name):
        for i, above in enumerate(self.chain(c)):
            one = None if above.outer else self.by_name(above.name + "." + name)
            if one is not None:
                return None if i > 0 and one.access == "private " else one
        return None

    def enclosing(self, c):
        return [c] + ([self.by_name(c.outer)] if c.outer else [])

    def simple_type(self, c, name):
        for one in self.enclosing(c):
            found = self.member_type(one, name)
            if found is not None:
                return found
        return self.by_name(name)

    def finds(self, c, member):
        """Whether the member is the class's of its name (and types)."""
        if not hasattr(member, "types"):
            return self.field_of(c, member.name) is member
        alike = lambda other: (other.name, other.types) == (member.name, member.types)
        return self.nearest(c, lambda above: above.methods, alike) is member

    def field_of(self, c, name):
        return self.nearest(c, lambda above: above.fields, lambda one: one.name == name)

    def is_variable(self, here, name):
        if any(name == local for local, _, _ in here.locals):
            return True
        return any(self.field_of(one, name) for one in self.enclosing(here.cls))

    # names of classes

    def ways(self, c, wanted, words):
        """The names of a class in another, of up to so many words."""
        key = self.spelled(c), self.spelled(wanted), words
        if key not in self.ways_seen:
            self.ways_seen[key] = self.make_ways(c, wanted, words)
        return self.ways_seen[key]

    def make_ways(self, c, wanted, words):
        if not self.is_accessible(c, wanted, wanted):
            return []
        names = sorted({one.name for one in self.classes})
        found, ways = [([name], self.simple_type(c, name)) for name in names], []
        while found and words > 0:
            found = [(way, one) for way, one in found if one and self.is_accessible(c, one, one)]
            ways += [".".join(way) for way, one in found if one is wanted]
            found = [(way + [name], self.member_type(one, name))
                     for way, one in found for name in names]
            words -= 1
        return ways

    def written(self, c, wanted):
        ways = self.ways(c, wanted, 2)
        short = min(ways, key=len, default=self.spelled(wanted))
        return self.pick([short] + (ways or [short]))

    def named(self, here, c):
        return self.written(here.cls, c)

    def declared(self, c, type):
        wanted = self.by_name(type)
        return type if wanted is None else self.written(c, wanted)

    def class_fronts(self, here, c):
        """The names of a class in front of a dot, where no variable stands in the way."""
        ways = self.ways(here.cls, c, 3)
        return [way + "." for way in ways if not self.is_variable(here, way.split(".")[0])]

    # members

    def members(self, here, kind):
        return [(c, member) for c, member in super().members(here, kind)
                if self.is_accessible(here.cls, c, member)]

    def fronts(self, here, c, member, depth):
        finding = [one for one in self.classes if c in self.chain(one) and self.finds(one, member)]
        below = self.pick(finding)
        fronts = []
        if member.static:
            for one in (c, below):
                fronts += self.class_fronts(here, one)[:2]
        else:
            fronts += self.value_fronts(here, c, below, depth)
        if self.is_simple(here, member, finding):
            fronts += ["", ""]
        if not here.static and not member.static:
            fronts += ["this."] * (here.cls in finding)
            fronts += ["super."] * (self.chain(here.cls)[1:2] != [] and
                                    self.chain(here.cls)[1] in finding)
        return fronts

    def is_simple(self, here, member, finding):
        """Whether the simple name finds the member."""
        is_field = not hasattr(member, "types")
        if is_field and any(member.name == name for name, _, _ in here.locals):
            return False
        if not member.static and (here.static or getattr(here, "in_field", False)):
            return False
        for one in self.enclosing(here.cls):
            if one in finding:
                return member.static or one is here.cls
            if is_field and self.field_of(one, member.name):
                return False
            if not is_field and any(
                other.name == member.name for above in self.chain(one) for other in above.methods
            ):
                return False
        return False

    def value_fronts(self, here, c, below, depth):
        value = self.from_local(here, self.spelled(below), 0)
        if value is None and depth >= 0:
            value = self.creation(here, below, depth - 1)
        if value is None or not self.ways(here.cls, below, 2):
            return []
        fronts = [self.operand(value) + "."]
        if self.chance(0.3) and self.ways(here.cls, c, 2):
            fronts.append("((%s)%s)." % (self.named(here, c), self.operand(value)))
        return fronts

    def literal(self, here, type, depth):
        c = self.by_name(type)
        return super().literal(here, type, depth if c and self.ways(here.cls, c, 2) else -1)

    def ctor_types(self, where, c):
        ctors = [one for one in c.ctors if self.is_accessible(where, c, one)]
        return self.pick([one.types for one in ctors]) if ctors else []

    def field_text(self, c, field):
        if field.init and not field.static:
            here = Item(cls=c, static=False, locals=[], result="void", in_field=True)
            words = self.words(field, "static", "final", "volatile")
            init = self.value(here, field.type, 1)
            return "%s%s %s=%s;" % (words, self.declared(c, field.type), field.name, init)
        return super().field_text(c, field)

    def class_text(self, c):
        self.now = c
        return super().class_text(c)

    def files(self):
        self.make_classes()
        texts = [self.class_text(c) for c in self.classes if c.outer is None]
        self.random.shuffle(texts)
        count = self.pick([1, 1, 2, len(texts)])
        parts = ["".join(texts[i::count]) for i in range(count)]
        files = [("F%d.java" % i, text) for i, text in enumerate(parts) if text]
        return thinned(files, self.random, 9)


class RareMaker(HidingMaker):
    """More of what makes rare spellings: overloads of inherited methods under other names, with
    `overloads` called with what they take, classes in three levels, and member types that a private
    one keeps from being inherited."""

    between = 0.5

    def __init__(self, seed, overloads):
        super().__init__(seed)
        self.overloads = overloads

    def add_private_between(self, tops):
        super().add_private_between(tops)
        for outer in sorted({c.outer for c in self.classes if c.name == "L"}):
            self.add_class("N", outer, None, "")
            self.by_name(outer + ".K").parent = outer
            self.chains = {}

    def make_members(self, c):
        super().make_members(c)
        for one in self.above(c):
            below = [self.narrower(type) for type in one.types]
            if below != one.types and self.chance(0.6):
                other = Item(**{**vars(one), "name": self.pick(["m", "n", "k"]), "types": below})
                if self.is_new(c, other):
                    c.methods.append(other)

    def args(self, here, types, depth):
        if self.overloads:
            types = [self.narrower(type) for type in types]
        return super().args(here, types, depth)

    def narrower(self, type):
        below = [self.spelled(c) for c in self.classes if c.outer is None and c.parent == type]
        return self.pick(below) if below and self.chance(0.7) else type

    def class_text(self, c):
        text = super().class_text(c)
        if not self.overloads:
            return text
        calls = [self.narrow_call(c, one) for one in self.above(c) if not one.static]
        calls = [call for call in calls if call is not None]
        return text[:-1] + "void t(){%s}}" % self.pick(calls) if calls else text

    def narrow_call(self, c, one):
        """A call of an inherited method on an object of the class, with less than it takes."""
        here = Item(cls=c, static=False, locals=[], result="void")
        types = [self.narrower(type) for type in one.types]
        if types == one.types:
            return None
        value = self.operand(self.creation(here, c, 1))
        return "%s.%s(%s);" % (value, one.name, super().args(here, types, 1))
