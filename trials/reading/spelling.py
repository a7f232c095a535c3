"""How references are spelled after a rename, so that each keeps its declaration (JLS 6.4).

Each reference takes the first spelling of its form that is bound to its declaration in the new
program: the one of the source with the new names, or one through `this`, `super`, a cast or a class.
"""
import copy
from collections import Counter

from .binding import Binding
from .lookup import NONE, Lookup
from .program import Row, decl_text, is_class


class Renamed:
    """The declarations that get a new name, and the program that they make."""

    def __init__(self, program, decls, name):
        self.decls = set(decls)
        self.name = name
        new = copy.copy(program)
        new.rows = [
            Row(self.decl(r.decl), r.modifiers, self.type(r.type), self.cls(r.parent), r.has_init)
            for r in program.rows
        ]
        new.number = {row.decl: i for i, row in enumerate(new.rows)}
        new.parent = {self.cls(key): self.cls(above) for key, above in program.parent.items()}
        new.found = {}
        new.trees = {self.cls(key): tree for key, tree in program.trees.items()}
        self.program = new

    def cls(self, key):
        if key is None:
            return None
        outer, name = key
        if ("class", key) in self.decls:
            name = self.name
        if outer is not None and ("class", (None, outer)) in self.decls:
            outer = self.name
        return (outer, name)

    def type(self, type):
        return self.cls(type) if is_class(type) else type

    def decl(self, decl):
        kind = decl[0]
        if kind == "local":
            return (kind, self.decl(decl[1]), decl[2])
        key = self.cls(decl[1])
        if kind == "class":
            return (kind, key)
        name = self.name if decl in self.decls else decl[2]
        if kind == "field":
            return (kind, key, name)
        types = tuple(map(self.type, decl[-1]))
        return (kind, key, types) if kind == "ctor" else (kind, key, name, types)


def found_text(found):
    if found[0] == "none":
        return "none"
    text = " and ".join(map(decl_text, found[1:]))
    return text + {"private": " not accessible", "static": " from static"}.get(found[0], "")


def form_of(kind, text):
    """The form of a reference's spelling: `field super.x`, `method K.x`, `class Outer.K`."""
    words = text.split(".")
    if text.startswith("(("):
        return kind + " ((K) this).x"
    if words[0] in ("this", "super"):
        return "%s %s.x" % (kind, words[0])
    forms = ["Outer", "K"] if kind == "class" else ["Outer", "K", "x"]
    return kind + " " + ".".join(forms[-len(words) :])


class Spelling(Binding):
    """The edits of a file, and its references that have no spelling."""

    def __init__(self, program, file, renamed):
        self.to = renamed
        self.new = Lookup(renamed.program)
        self.edits = []  # (from, to, text)
        self.lost = []  # (at, declaration, finding)
        self.respelled = Counter()  # how many references take a form that isn't the asked one
        super().__init__(program, file)
        for at, decl in self.declared.items():
            if decl in renamed.decls:
                self.edits.append((at, at + len(self.old_name(decl)), renamed.name))

    def old_name(self, decl):
        if decl[0] == "local":
            return self.local_names[decl].encode("utf-8")
        return (decl[1][1] if decl[0] == "class" else decl[2]).encode("utf-8")

    def new_local(self, member, name, final, type, has_init):
        local = super().new_local(member, name, final, type, has_init)
        self.local_names = getattr(self, "local_names", {})
        self.local_names["local", member, local.number] = name.text
        return local

    # places, words and findings in the new program

    def after(self, place):
        member = None if place.member is None else self.to.decl(place.member)
        locals = [
            local._replace(
                name=self.word(("local", place.member, local.number), local.name),
                type=self.to.type(local.type),
            )
            for local in place.locals
        ]
        return place._replace(cls=self.to.cls(place.cls), member=member, locals=locals)

    def word(self, decl, text):
        return self.to.name if decl in self.to.decls else text

    def one(self, decl):
        return ("one", self.to.decl(decl))

    def put(self, word, decl):
        """The asked spelling of a word: its declaration's new name."""
        text = self.word(decl, word.text)
        if text != word.text:
            self.edits.append((word.at, self.end_of(word), text))

    def end_of(self, word):
        return word.at + len(word.text.encode("utf-8"))

    def respell(self, start, word, text, kind):
        self.respelled[form_of(kind, text)] += 1
        self.edits.append((start, self.end_of(word), text))

    def cast(self, e, key, text):
        """`((K) e).x`, around what the expression in front of the dot is spelled as."""
        self.respelled[("field" if e.kind == "field" else "method") + " ((K) e).x"] += 1
        self.edits.append((e.on.at, e.on.at, "((%s) " % key[1]))
        self.edits.append((e.on.end, self.end_of(e.name), ")." + text))

    def names_type(self, place, key):
        """Whether the class's simple name, as a type, finds it."""
        return self.new.type(place, key[1]) == ("one", ("class", key))

    def class_fronts(self, place, key):
        """The spellings of a class in front of a dot."""
        new, fronts = self.new, []
        if new.left(place, key[1]) == ("one", ("class", key)):
            fronts.append(key[1])
        outer = ("none",) if key[0] is None else new.left(place, key[0])
        if outer[0] == "one" and outer[1][0] == "class":
            if new.left_member(place, outer[1][1], key[1]) == ("one", ("class", key)):
                fronts.append(key[0] + "." + key[1])
        return fronts

    # types

    def notes_of_head(self, key, tree):
        super().notes_of_head(key, tree)
        if tree.parent is not None and key[0] is None:
            self.put(tree.parent.name, ("class", self.p.parent[key]))

    def type_words(self, place, type):
        super().type_words(place, type)
        if type.kind != "named":
            return
        found = [one[1] for one in self.outer_and_named(place, type)]
        new, decl = self.after(place), found[-1]
        if type.outer is None:
            self.simple_class(new, type.name, decl)
        else:
            self.member_class_words(new, type, *found)

    def outer_spelling(self, place, key):
        """`O.K` as a type, where the two words together find the class."""
        outer = ("none",) if key[0] is None else self.new.type(place, key[0])
        if outer[0] != "one":
            return None
        found = self.new.member_type(place, outer[1][1], key[1])
        return key[0] + "." + key[1] if found == ("one", ("class", key)) else None

    def simple_class(self, place, word, decl):
        asked = self.new.type(place, self.word(decl, word.text))
        text = self.outer_spelling(place, self.to.cls(decl[1]))
        if asked == self.one(decl):
            self.put(word, decl)
        elif text is not None:
            self.respell(word.at, word, text, "class")
        else:
            self.lost.append((word.at, decl, asked))

    def member_class_words(self, place, type, outer, decl):
        """Two references: the class behind the dot, asked by both words, and that in front of it
        where it stays. In front of a dot a type has room for one word alone."""
        key = self.to.cls(decl[1])
        asked_outer = self.new.type(place, self.word(outer, type.outer.text))
        asked = NONE
        if asked_outer[0] == "one":
            text = self.word(decl, type.name.text)
            asked = self.new.member_type(place, asked_outer[1][1], text)
        text = key[1] if self.names_type(place, key) else self.outer_spelling(place, key)
        if asked != self.one(decl) and text is not None:
            self.respell(type.outer.at, type.name, text, "class")
            return
        if asked == self.one(decl):
            self.put(type.name, decl)
        else:
            self.lost.append((type.name.at, decl, asked))
        if asked_outer == self.one(outer):
            self.put(type.outer, outer)
        else:
            self.lost.append((type.outer.at, outer, asked_outer))

    # expressions

    def expression_words(self, place, role, e):
        super().expression_words(place, role, e)
        new = self.after(place)
        if e.kind == "name":
            self.spell_name(place, new, role, e)
        elif e.kind in ("field", "call") and e.on is not None:
            if self.class_named(place, e.on) is not None:
                self.spell_through_class(place, new, role, e)
            else:
                self.spell_on_value(place, new, e)
        elif e.kind == "call":
            self.spell_simple_call(place, new, e)
        elif e.kind in ("super_field", "super_call"):
            self.spell_super(place, new, e)

    def member(self, lookup, place, key, e, text, types):
        if e.kind in ("call", "super_call"):
            return lookup.method(place, key, text, types)
        return lookup.field(place, key, text)

    def types_after(self, place, e):
        if not hasattr(e, "args"):
            return None
        return tuple(map(self.to.type, self.types_of(place, e.args)))

    def spell_name(self, place, new, role, e):
        find = self.left if role == "left" else self.variable
        decl = find(place, e.name.text)[1]
        if decl[0] == "class":
            return  # the member behind it speaks of it
        text = self.word(decl, e.name.text)
        asked = self.new.variable(new, text)
        if asked == self.one(decl):
            self.put(e.name, decl)
        elif decl[0] == "field":
            spellings = self.field_spellings(new, self.to.decl(decl), text)
            self.take(spellings, e.name.at, e.name, decl, asked)
        else:
            self.lost.append((e.name.at, decl, asked))

    def take(self, spellings, start, word, decl, asked):
        if spellings:
            self.respell(start, word, spellings[0], decl[0])
        else:
            self.lost.append((word.at, decl, asked))

    def field_spellings(self, place, decl, text):
        """Those of a field's simple name behind the asked one."""
        new, found, key = self.new, ("one", decl), decl[1]
        if new.p.has_word(decl, "static"):
            fits = new.field(place, key, text) == found
            return [f + "." + text for f in self.class_fronts(place, key)] if fits else []
        if place.static:
            return []
        texts = []
        if new.field(place, place.cls, text) == found:
            texts.append("this." + text)
        if new.field(place, new.p.parent[place.cls], text) == found:
            texts.append("super." + text)
        return texts + self.cast_of_this(place, decl, text)

    def cast_of_this(self, place, decl, text):
        key = decl[1]
        fits = self.names_type(place, key) and self.new.p.is_subclass(place.cls, key)
        if fits and self.new.field(place, key, text) == ("one", decl):
            return ["((%s) this).%s" % (key[1], text)]
        return []

    def spell_simple_call(self, place, new, e):
        decl, types = self.call_found(place, e)[1], self.types_after(place, e)
        text, to, key = self.word(decl, e.name.text), self.to.decl(decl), self.to.cls(decl[1])
        asked = self.new.simple_method(new, text, types)
        if asked == ("one", to):
            self.put(e.name, decl)
            return
        texts = []
        if self.new.p.has_word(to, "static"):
            if self.new.method(new, key, text, types) == ("one", to):
                texts = [front + "." + text for front in self.class_fronts(new, key)]
        elif not place.static and self.new.method(new, new.cls, text, types) == ("one", to):
            texts = ["this." + text]
        self.take(texts, e.name.at, e.name, decl, asked)

    def spell_super(self, place, new, e):
        decl, types = self.value_found(place, e)[1], self.types_after(place, e)
        text = self.word(decl, e.name.text)
        asked = self.member(self.new, new, self.new.p.parent[new.cls], e, text, types)
        if asked == self.one(decl):
            self.put(e.name, decl)
        else:
            texts = self.cast_of_this(new, self.to.decl(decl), text) if types is None else []
            self.take(texts, e.at, e.name, decl, asked)

    def spell_on_value(self, place, new, e):
        decl, types = self.value_found(place, e)[1], self.types_after(place, e)
        text, key = self.word(decl, e.name.text), self.to.cls(decl[1])
        asked = self.member(self.new, new, self.to.cls(self.class_of(place, e.on)), e, text, types)
        if asked == self.one(decl):
            self.put(e.name, decl)
        elif self.names_type(new, key) and (
            self.member(self.new, new, key, e, text, types) == self.one(decl)
        ):
            self.cast(e, key, text)
        else:
            self.lost.append((e.name.at, decl, asked))

    # a member behind a class's name

    def chain(self, place, on):
        """The words of a class in front of a dot, with what each is bound to."""
        if on.kind == "name":
            return [(on.name, self.left(place, on.name.text)[1])]
        outer = self.class_named(place, on.on)
        return self.chain(place, on.on) + [
            (on.name, self.left_member(place, outer, on.name.text)[1])
        ]

    def words_find(self, place, texts):
        """What words with dots between them find in front of a further dot."""
        found = self.new.left(place, texts[0])
        for text in texts[1:]:
            found = self.behind(place, found, text)
        return found

    def behind(self, place, found, text):
        """What a word finds in front of a dot, behind words that find this."""
        if found[0] == "one" and found[1][0] == "class":
            return self.new.left_member(place, found[1][1], text)
        type = self.new.found_type(place, found)
        return self.new.field(place, type, text) if is_class(type) else NONE

    def front_texts(self, chain):
        return [self.word(decl, word.text) for word, decl in chain]

    def spell_class_in_front(self, new, on, chain):
        """A class in front of a dot, and those in front of it where it is as asked."""
        word, decl = chain[-1]
        asked = self.words_find(new, self.front_texts(chain))
        fronts = self.class_fronts(new, self.to.cls(decl[1]))
        if asked != self.one(decl) and fronts:
            self.respell(on.at, word, fronts[0], "class")
            return
        if asked == self.one(decl):
            self.put(word, decl)
        else:
            self.lost.append((word.at, decl, asked))
        if len(chain) > 1:
            self.spell_class_in_front(new, on.on, chain[:-1])

    def spell_through_class(self, place, new, role, e):
        types = self.types_after(place, e)
        if role == "left" and e.kind == "field":
            old = self.left_member(place, self.class_named(place, e.on), e.name.text)
            if old[1][0] == "class":
                return  # the member behind it speaks of it
        else:
            old = self.value_found(place, e)
        decl, chain = old[1], self.chain(place, e.on)
        text, key = self.word(decl, e.name.text), self.to.decl(decl)[1]
        front = self.words_find(new, self.front_texts(chain))
        by_class = front[0] == "one" and front[1][0] == "class"
        of = front[1][1] if by_class else self.new.found_type(new, front)
        asked = self.member(self.new, new, of, e, text, types) if is_class(of) else NONE
        binds = by_class and asked == self.one(decl)
        fronts = self.class_fronts(new, key)
        if not binds and fronts and self.member(self.new, new, key, e, text, types) == self.one(decl):
            self.respell(e.on.at, e.name, fronts[0] + "." + text, decl[0])
            return
        if binds:
            self.put(e.name, decl)
        else:
            self.lost.append((e.name.at, decl, asked))
        self.spell_class_in_front(new, e.on, chain)
