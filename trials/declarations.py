"""Random programs of heads and members with few names, so that declarations are often at fault."""
import random

ODD_WORDS = [
    "public private ", "static static ", "final volatile ", "synchronized ", "volatile ", "final ",
    "static ", "private ", "protected ",
]
ODD_TYPES = ["Z", "K", "L", "A.K", "B.K", "A.L", "K.A", "Runnable", "Z.K", "String.K"]
ODD_PARENTS = ["Z", "A", "A.K", "K", "K.L", "B.K", "Runnable", "L", "B.L", "C"]
ODD_INITS = [
    "+1", "(1)", "1+1", "- -1", "!true", "new A()", "new Object(1)", "A.class", "- 1", "A.f",
]


class DeclarationMaker:
    def __init__(self, seed):
        self.random = random.Random(seed)
        self.faulty = self.random.random()

    def pick(self, options):
        return self.random.choice(options)

    def chance(self, p):
        return self.random.random() < p

    def rare(self, usual, odd, p=0.12):
        return self.pick(odd) if self.chance(p * self.faulty) else self.pick(usual)

    def type(self, inside):
        usual = ["int", "boolean", "A", "B", "Object", "String", "Thread", "Class"] + inside
        return self.rare(usual, ODD_TYPES)

    def words(self, usual):
        return self.rare(usual, ODD_WORDS, 0.1)

    def init(self, type, static):
        usual = {"int": ["1", "-1", "0"], "boolean": ["true"], "String": ['"s"', "null"]}
        if not static:
            return usual.get(type, ["null"])[0]
        plain = ["null", "new Object()"] if type == "Object" else ["null"]
        return self.rare(usual.get(type, plain), ODD_INITS, 0.6)

    def member(self, name, outer, inside):
        ways = ["field", "method", "ctor"]
        way = self.pick(ways if outer else ways + ["field", "method", "inner"])
        if way == "inner":
            odd = ["A", "B", "f", "m", "Object", name]
            return self.cls(self.rare(["K", "L"], odd, 0.3), name)
        if way == "ctor":
            return "%s%s(%s){}" % (self.words(["", "", "public "]), name, self.params(inside))
        type, words = self.type(inside), self.words(["", "", "private ", "static "])
        if way == "field":
            init = "=" + self.init(type, "static" in words) if self.chance(0.4) else ""
            called = self.rare(["f", "g", "h", "i"], ["K", "L"], 0.2)
            return "%s%s %s%s;" % (words, type, called, init)
        result = self.pick(["void", type])
        body = {"void": "", "int": "return 1;", "boolean": "return true;"}
        called = self.rare(["m", "n", "o", "f"], ["K", "L"], 0.2)
        parts = (words, result, called, self.params(inside), body.get(result, "return null;"))
        return "%s%s %s(%s){%s}" % parts

    def params(self, inside):
        names = self.rare([["a", "b"]], [["a", "a"]], 0.1)[: self.pick([0, 1, 2])]
        return ",".join("%s %s" % (self.type(inside), name) for name in names)

    def cls(self, name, outer):
        inside = [] if self.chance(0.7) else ["K"]
        above = {"A": ["B", "B", "C"], "B": ["C"]}.get(name, [])
        parent = self.rare(["", "", "", "Object", "Thread"] + above, ODD_PARENTS, 0.15)
        parent = " extends " + parent if parent else ""
        if outer is None:
            odd = ["static ", "private ", "final final ", "final "]
            words = self.rare(["", "", "public "], odd, 0.1)
        else:
            odd = ["", "static volatile ", "public private static "]
            words = self.rare(["static ", "private static ", "static final "], odd, 0.15)
        count = self.pick([0, 1, 2, 3, 4])
        members = "".join(self.member(name, outer, inside) for _ in range(count))
        return "%sclass %s%s{%s}" % (words, name, parent, members)

    def files(self):
        odd = [["A"], ["String"], ["K"], ["Runnable"], ["D"]]
        texts = [self.cls(name, None) for name in ["A", "B", "C"] + self.rare([[]], odd, 0.3)]
        if self.chance(0.5):
            self.random.shuffle(texts)
        package = self.rare([""], ["package p;", "package p.q;", "/**/ package p;"], 0.3)
        if self.chance(0.5):
            return [("A.java", package + "".join(texts))]
        other = ["package q;", "", "package p;"]
        lines = [self.rare([package], other, 0.1) for _ in texts]
        files = zip(lines, texts)
        return [("F%d.java" % i, line + text) for i, (line, text) in enumerate(files)]
