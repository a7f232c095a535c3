"""References of a piece that is moved: by way of what stands for `this` there, and with what the
operand's type is there (JLS 15.8.3, 15.11.2)."""
from .binding import Binding
from .lookup import NONE
from .program import is_class
from .renaming import Refused, limits, spliced, would_compile
from .program import decl_text
from .spelling import Spelling, found_text


class Moving(Spelling):
    """Spellings in which a piece stands in another place. `is_moved` tells which, `this_type` what
    `this` is there, and `receiver` the local that stands for it, or None."""

    receiver = None

    def is_moved(self, place):
        return False

    def this_type(self, place):
        return place.cls

    def type_now(self, place, e):
        while e.kind == "paren":
            e = e.of
        if e.kind == "this" and self.is_moved(place):
            return self.this_type(place)
        return self.type_of(place, e)

    def types_after(self, place, e):
        if not hasattr(e, "args"):
            return None
        return tuple(self.type_now(place, arg) for arg in e.args)

    def expression_words(self, place, role, e):
        away = self.is_moved(place) and self.receiver is not None
        if away and e.kind == "this":
            self.edits.append((e.at, e.end, self.receiver))
        elif away and self.is_of_this(place, role, e):
            Binding.expression_words(self, place, role, e)
            self.spell_on_receiver(place, self.after(place), role, e)
        else:
            super().expression_words(place, role, e)
            if e.kind == "create":
                self.spell_creation(place, self.after(place), e)

    def is_of_this(self, place, role, e):
        """Whether a reference is by way of `this`, written or not."""
        if e.kind in ("super_field", "super_call"):
            return True
        if e.kind == "name":
            find = self.left if role == "left" else self.variable
            decl = find(place, e.name.text)[1]
            return decl[0] == "field" and not self.p.has_word(decl, "static")
        if e.kind == "call" and e.on is None:
            return not self.p.has_word(self.call_found(place, e)[1], "static")
        return False

    def spell_on_receiver(self, place, new, role, e):
        found = self.left(place, e.name.text) if role == "left" else self.value_found(place, e)
        decl, types, text = found[1], self.types_after(place, e), e.name.text
        if e.kind == "super_call":
            self.lost.append((e.name.at, decl, NONE))
            return
        key, of = decl[1], self.this_type(place)
        fits = self.names_type(new, key)
        on_class = self.member(self.new, new, key, e, text, types)
        cast = "((%s) %s).%s" % (key[1], self.receiver, text)
        asked, put = self.member(self.new, new, of, e, text, types), self.receiver + "." + text
        if e.kind == "super_field":
            asked, put = (on_class if fits else NONE), cast
        if asked == self.one(decl):
            self.edits.append((e.at, self.end_of(e.name), put))
        elif fits and self.p.is_subclass(of, key) and on_class == self.one(decl):
            self.respelled["%s ((K) e).x" % decl[0]] += 1
            self.edits.append((e.at, self.end_of(e.name), cast))
        else:
            self.lost.append((e.name.at, decl, asked))

    def spell_creation(self, place, new, e):
        decl = self.creation_found(place, e)[1]
        asked = self.new.ctor(new, decl[1], self.types_after(place, e))
        if asked != self.one(decl):
            self.lost.append((e.at, decl, asked))

    def spell_on_value(self, place, new, e):
        decl, types = self.value_found(place, e)[1], self.types_after(place, e)
        operand, text = self.type_now(place, e.on), e.name.text
        asked = NONE
        if is_class(operand):
            asked = self.member(self.new, new, operand, e, text, types)
        above = is_class(operand) and self.p.is_subclass(operand, decl[1])
        key = self.to.decl(decl)[1]
        if asked == self.one(decl):
            return
        if above and self.names_type(new, key) and (
            self.member(self.new, new, key, e, text, types) == self.one(decl)
        ):
            self.cast(e, key, text)
        else:
            self.lost.append((e.name.at, decl, asked))

    def spell_simple_call(self, place, new, e):
        decl, types = self.call_found(place, e)[1], self.types_after(place, e)
        texts = self.simple_call_texts(new, self.to.decl(decl), types)
        if texts is None or texts and texts[0] == e.name.text:
            return
        asked = self.new.simple_method(new, e.name.text, types)
        self.take(texts, e.name.at, e.name, decl, asked)

    def simple_call_texts(self, new, decl, types):
        """The spellings of a method by its simple name that are bound to it, the asked one first."""
        text, key = decl[2], decl[1]
        if self.new.simple_method(new, text, types) == ("one", decl):
            return [text]
        if self.new.p.has_word(decl, "static"):
            fits = self.new.method(new, key, text, types) == ("one", decl)
            return [f + "." + text for f in self.class_fronts(new, key)] if fits else []
        fits = not new.static and self.new.method(new, new.cls, text, types) == ("one", decl)
        return ["this." + text] if fits else []

    # made references

    def made_type(self, place, type, made_lost):
        """The words of a made type, which is asked by its class's name."""
        if not is_class(type):
            return type
        asked = self.new.type(place, type[1])
        if asked == ("one", ("class", type)):
            return type[1]
        outer = self.outer_spelling(place, type)
        if outer is None:
            made_lost.append((("class", type), asked))
            return type[1]
        self.respelled["class Outer.K"] += 1
        return outer


class Copied(Spelling):
    """A written type in another place of the new program."""

    def __init__(self, around, place):
        self.__dict__.update(around.__dict__)
        self.new_place = place
        self.edits, self.lost = [], []
        self.respelled = type(around.respelled)()

    def after(self, place):
        return self.new_place


def words_of_type(source, type, edits):
    """The words of a written type, with its edits, without blanks and comments between them."""
    if type is None or type.kind != "named":
        return "void" if type is None else type.kind
    words = [type.name] if type.outer is None else [type.outer, type.name]
    texts = []
    for word in words:
        start, end = word.at, word.at + len(word.text.encode("utf-8"))
        inner = [(a - start, b - start, put) for a, b, put in edits if start <= a and b <= end]
        texts.append(spliced(source[start:end].decode("utf-8"), inner))
    whole = [put for a, b, put in edits if a == words[0].at and b > a + len(words[0].text)]
    return whole[0] if whole else ".".join(texts)


def end_step(step, walks, edits, copied, made_lost):
    """The new files and the count, or what refuses the step behind its own refusals. Lost copies
    have their file's number in front."""
    every = [(file, at, 1, i, d, f) for i, (file, at, d, f) in enumerate(copied)]
    for file, walk in walks:
        every += [(file, at, 0, i, d, f) for i, (at, d, f) in enumerate(walk.lost)]
    every += [(step.file, step.places[0], 2, i, d, f) for i, (d, f) in enumerate(made_lost)]
    if every:
        file, at, _, _, decl, found = min(every, key=lambda one: one[:4])
        words = step.files[file][0], at, decl_text(decl), found_text(found)
        raise Refused(16, "LostBinding %s:%d %s found %s" % words)
    after = [(one, spliced(text, put)) for (one, text), put in zip(step.files, edits)]
    limits(after)
    would_compile(after)
    return after, sum(sum(walk.respelled.values()) for _, walk in walks)
