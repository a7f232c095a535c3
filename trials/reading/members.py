"""Members that go elsewhere: move static, move instance and pull up, the new texts or the first
refusal (JLS 6.4, 8.2, 8.4.8)."""
import copy

from .locals import Asked
from .lookup import NONE, Local, Place
from .program import PRELUDE, Row, decl_text, is_class, type_text
from .receivers import Copied, Moving, end_step, words_of_type
from .renaming import Refused, changed_override, is_identifier, scopes, spliced
from .tokens import tokens_of
from .trees import MODIFIERS

BLANKS = b" \t\n\r\f"
PRELUDE_CLASSES = {row.decl[1] for row in PRELUDE if row.decl[0] == "class"}


class NewRows:
    """Where declarations stand and what they are called after a step, with the new rows."""

    decls, name = (), None

    def __init__(self, program, images, gone, row):
        self.images = images
        rows = [one for one in program.rows if one.decl != gone]
        last = max(i for i, one in enumerate(rows) if is_of_body(one.decl, row.decl[1]))
        new = copy.copy(program)
        new.rows = rows[: last + 1] + [row] + rows[last + 1 :]
        new.number = {one.decl: i for i, one in enumerate(new.rows)}
        new.found = {}
        self.program = new

    def cls(self, key):
        return key

    def type(self, type):
        return type

    def decl(self, decl):
        if decl[0] == "local":
            return (decl[0], self.decl(decl[1]), decl[2])
        return self.images.get(decl, decl)


def is_of_body(decl, key):
    """Whether a row is of a class or of what stands in its body."""
    if decl[0] == "class" and decl[1][0] is not None:
        return key in (decl[1], (None, decl[1][0]))
    return decl[1] == key or decl[1][0] is not None and (None, decl[1][0]) == key


class Kept(Moving):
    """The spellings of a file in the new program; what is moved stands in another class."""

    def __init__(self, program, file, to, step):
        self.step = step
        super().__init__(program, file, to)

    def is_moved(self, place):
        return place.member == self.step.decl

    def this_type(self, place):
        return self.step.to

    def after(self, place):
        new = super().after(place)
        return new._replace(cls=self.step.to) if self.is_moved(place) else new


class KeptStatic(Kept):
    """The class in front of the moved static method is asked as the new class."""

    def spell_through_class(self, place, new, role, e):
        is_call = e.kind == "call" and not (role == "left" and e.kind == "field")
        if not is_call or self.value_found(place, e)[1] != self.step.decl:
            super().spell_through_class(place, new, role, e)
            return
        decl, types = self.step.decl, self.types_after(place, e)
        key, text = self.step.to, e.name.text
        front = self.new.left(new, key[1])
        by_class = front[0] == "one" and front[1][0] == "class"
        of = front[1][1] if by_class else self.new.found_type(new, front)
        asked = self.member(self.new, new, of, e, text, types) if is_class(of) else NONE
        binds = by_class and asked == self.one(decl)
        fronts = self.class_fronts(new, key)
        fits = self.member(self.new, new, key, e, text, types) == self.one(decl)
        if not binds and fronts and fits:
            self.respell(e.on.at, e.name, fronts[0] + "." + text, decl[0])
            return
        if not binds:
            self.lost.append((e.name.at, decl, asked))
        self.spell_new_front(new, e.on, key, self.chain(place, e.on)[-1])

    def spell_new_front(self, new, on, key, old):
        asked = self.new.left(new, key[1])
        fronts = self.class_fronts(new, key)
        if asked == ("one", ("class", key)):
            self.edits.append((on.at, on.end, key[1]))
        elif fronts:
            self.respelled["class Outer.K"] += 1
            self.edits.append((on.at, on.end, fronts[0]))
        else:
            self.lost.append((old[0].at, old[1], asked))


class Delegated(Kept):
    """The body stands in another class, where a parameter stands for `this`."""

    in_body = False

    def __init__(self, program, file, to, step):
        self.receiver = step.name
        super().__init__(program, file, to, step)

    def is_moved(self, place):
        return super().is_moved(place) and self.in_body

    def this_type(self, place):
        return place.cls

    def after(self, place):
        new = super().after(place)
        if not self.is_moved(place):
            return new
        first = Local(self.step.name, 0, False, self.step.key, False)
        locals = [first] + [one._replace(number=one.number + 1) for one in new.locals]
        return new._replace(static=True, member=self.step.new, locals=locals)

    def one(self, decl):
        if decl[:2] == ("local", self.step.decl) and self.in_body:
            return ("one", ("local", self.step.new, decl[2] + 1))
        return super().one(decl)

    def walk_list(self, place, body):
        was, self.in_body = self.in_body, self.in_body or body is self.step.member.body
        super().walk_list(place, body)
        self.in_body = was


class Step(Asked):
    """A step that moves a member, in a sound program."""

    def find_member(self, at, need, fits):
        self.read()
        for key, tree, file in self.program.classes:
            for member in tree.members:
                if file == self.file and member.kind != "inner" and fits(member):
                    end = member.name.at + len(member.name.text.encode("utf-8"))
                    if member.name.at <= at < end:
                        self.key, self.member = key, member
                        self.decl = self.program.member_decl(key, member)
                        return
        self.bad_target(need)

    def find_class(self, text):
        for key, tree, file in self.program.classes:
            if type_text(key) == text and key != self.key:
                self.to, self.to_file = key, file
                return
        self.bad_target("OtherClass")

    def refuse_clash(self, decl):
        """The first of the class's declarations that stands in the way."""
        for row in self.program.rows:
            is_type = row.decl[0] == "class" and row.decl[1] == (self.to[1], decl[2])
            if row.decl == decl or is_type and self.to[0] is None:
                raise Refused(14, "Clash " + decl_text(row.decl))

    # texts

    def source_of(self, file):
        return self.files[file][1].encode("utf-8")

    def class_end(self):
        """The byte of the last brace of the class to which the member goes."""
        tree = self.program.trees[self.to]
        tokens, _ = tokens_of(self.files[self.to_file][1])
        depth = 0
        for token in tokens:
            if token.at > tree.name.at and token.kind != "string":
                depth += (token.text == "{") - (token.text == "}")
                if depth == 0 and token.text == "}":
                    return token.at

    def put_at_end(self, text):
        at = self.class_end()
        self.source = self.source_of(self.to_file)
        indent = self.indent(at)
        if indent is None:
            return at, at, " %s " % text
        return at, at, "    " + text + (self.line_end() or "\n") + indent

    def modifier_tokens(self):
        tokens, _ = tokens_of(self.files[self.file][1])
        found = []
        for token in tokens:
            if token.at >= self.member.at:
                if token.text not in MODIFIERS or token.kind == "string":
                    return found
                found.append(token)

    def dropped(self, words):
        """The edits that take modifiers away, each with the blank behind it."""
        source, edits = self.source_of(self.file), []
        for token in self.modifier_tokens():
            if token.text in words:
                end = token.at + len(token.text)
                while source[end : end + 1] and source[end] in BLANKS:
                    end += 1
                edits.append((token.at, end, ""))
        return edits

    def brace(self):
        """The byte of the first brace of the body."""
        tokens, _ = tokens_of(self.files[self.file][1])
        for token in tokens:
            if token.at > self.member.name.at and token.text == "{" and token.kind != "string":
                return token.at

    def piece(self, edits, start, end):
        """The bytes of a span with the edits that lie in it."""
        inner = [(a - start, b - start, put) for a, b, put in edits if start <= a and b <= end]
        return spliced(self.source_of(self.file)[start:end].decode("utf-8"), inner)


def moved_row(step, without):
    old = step.program.row(step.decl)
    words = [word for word in old.modifiers if word not in without]
    return Row((step.decl[0], step.to, *step.decl[2:]), words, old.type, old.parent, old.has_init)


def go_elsewhere(step, without, spellings):
    """Move static and pull up behind their own refusals: the member goes to the end of a class."""
    member = step.member
    row = moved_row(step, without)
    step.new = row.decl
    to = NewRows(step.program, {step.decl: step.new}, step.decl, row)
    if spellings is Kept:
        override = changed_override(step.program, to)
        if override is not None:
            raise Refused(15, "OverrideChanged %s %s" % override)
    walks = [spellings(step.program, number, to, step) for number in range(len(step.files))]
    own, made_lost = walks[step.file], []
    inner = [one for one in own.edits if member.at <= one[0] and one[1] <= member.end]
    inner += step.dropped(without)
    if "synchronized" in without and "synchronized" in member.modifiers:
        place = Place(step.to, step.new, True, [], None)
        lock = own.made_type(place, step.key, made_lost)
        brace = step.brace() + 1
        inner.append((brace, brace, " synchronized (%s.class) {" % lock))
        inner.append((member.end - 1, member.end - 1, "} "))
    text = step.piece(inner, member.at, member.end)
    step.source = step.source_of(step.file)
    start, end = step.removal(member.at, member.end)
    edits = [list(walk.edits) for walk in walks]
    edits[step.file] = [
        one for one in own.edits if not (member.at <= one[0] and one[1] <= member.end)
    ]
    edits[step.file].append((start, end, ""))
    edits[step.to_file].append(step.put_at_end(text))
    return end_step(step, list(enumerate(walks)), edits, [], made_lost)


def move_static(files, file_name, at, class_text):
    step = Step(files, file_name, (at,))
    is_static = lambda m: m.kind == "method" and "static" in m.modifiers
    step.find_member(at, "Method", is_static)
    step.find_class(class_text)
    step.refuse_clash(("method", step.to, *step.decl[2:]))
    return go_elsewhere(step, ("private", "synchronized"), KeptStatic)


def pull_up(files, file_name, at):
    step = Step(files, file_name, (at,))
    step.find_member(at, "Declaration", lambda m: m.kind in ("field", "method"))
    step.to = step.program.parent[step.key]
    if step.to in PRELUDE_CLASSES:
        step.bad_target("Parent")
    step.to_file = next(file for key, _, file in step.program.classes if key == step.to)
    is_static = "static" in step.member.modifiers
    if step.member.kind == "field" and not is_static and step.member.init is not None:
        step.bad_target("NoInitializer")
    step.refuse_clash((step.decl[0], step.to, *step.decl[2:]))
    return go_elsewhere(step, ("synchronized",) if is_static else (), Kept)


# move instance


def refuse_clash_of_head(step, name):
    """What stands in the way of the new method, by file and text order."""
    new = step.new
    found = []
    for i, (key, tree, file) in enumerate(step.program.classes):
        for member in tree.members:
            if key != step.to:
                continue
            if member.kind == "inner" and member.of.name.text == new[2]:
                found.append((file, member.of.name.at, ("class", (key[1], new[2]))))
            elif member.kind == "method" and step.program.member_decl(key, member) == new:
                found.append((file, member.name.at, new))
    for local, (text, at, _) in scopes(step.program, step.file, step.decl).items():
        found += [(step.file, at, local)] if text == name else []
    if found:
        raise Refused(14, "Clash " + decl_text(min(found)[2]))


def move_instance(files, file_name, at, class_text, name):
    step = Step(files, file_name, (at,))
    if not is_identifier(name):
        raise Refused(3, "BadName " + name)
    is_instance = lambda m: m.kind == "method" and "static" not in m.modifiers
    step.find_member(at, "Method", is_instance)
    step.find_class(class_text)
    step.name = name
    step.new = ("method", step.to, step.decl[2], (step.key, *step.decl[3]))
    refuse_clash_of_head(step, name)
    old = step.program.row(step.decl)
    words = [word for word in old.modifiers if word in ("public", "protected")] + ["static"]
    row = Row(step.new, words, old.type, None, False)
    to = NewRows(step.program, {}, None, row)
    walks = [Delegated(step.program, number, to, step) for number in range(len(step.files))]
    own, member, made_lost = walks[step.file], step.member, []
    brace = step.brace()
    body = step.piece([e for e in own.edits if brace <= e[0]], brace, member.end)
    delegate, delegate_lost = delegate_text(step, own)
    head, head_lost, copied_lost = head_text(step, own, words)
    in_order = (step.file, member.at) < (step.to_file, step.class_end())
    made_lost = delegate_lost + head_lost if in_order else head_lost + delegate_lost
    edits = [list(walk.edits) for walk in walks]
    edits[step.file] = [e for e in own.edits if not (brace <= e[0] and e[1] <= member.end)]
    edits[step.file].append((brace, member.end, delegate))
    edits[step.to_file].append(step.put_at_end(head + " " + body))
    return end_step(step, list(enumerate(walks)), edits, copied_lost, made_lost)


def delegate_text(step, own):
    key, lost = step.to, []
    place = Place(step.key, step.decl, False, list(param_locals(step)), None)
    asked_class = own.new.left(place, key[1])
    types = (step.key, *step.decl[3])
    fronts = own.class_fronts(place, key)
    is_class_front = asked_class[0] == "one" and asked_class[1][0] == "class"
    of = asked_class[1][1] if is_class_front else own.new.found_type(place, asked_class)
    asked = own.new.method(place, of, step.new[2], types) if is_class(of) else NONE
    binds = is_class_front and asked == ("one", step.new)
    fits = own.new.method(place, key, step.new[2], types) == ("one", step.new)
    front = key[1]
    if not binds and fronts and fits:
        front = fronts[0]
        own.respelled["method Outer.K.x"] += 1
    else:
        if asked_class == ("one", ("class", key)):
            front = key[1]
        elif fronts:
            front = fronts[0]
            own.respelled["class Outer.K"] += 1
        else:
            lost.append((("class", key), asked_class))
        if not binds:
            lost.append((step.new, asked))
    args = ", ".join(["this"] + [param.name.text for param in step.member.params])
    call = "%s.%s(%s);" % (front, step.member.name.text, args)
    returns = "" if step.member.type is None else "return "
    return "{ %s%s }" % (returns, call), lost


def param_locals(step):
    for number, param in enumerate(step.member.params):
        type = step.program.declared_type(step.key, param.type, 0)
        yield Local(param.name.text, number, param.final, type, False)


def head_text(step, own, words):
    """The head of the new method; its lost made references; its lost copied ones."""
    place = Place(step.to, step.new, True, [], None)
    old_place = Place(step.key, step.decl, False, [], None)
    copied, lost, source = Copied(own, place), [], step.source_of(step.file)

    def words_of(type):
        copied.edits = []
        if type is not None:
            copied.type_words(old_place, type)
        return words_of_type(source, type, copied.edits)

    result = words_of(step.member.type)
    params = [own.made_type(place, step.key, lost) + " " + step.name]
    for param in step.member.params:
        text = words_of(param.type) + " " + param.name.text
        params.append("final " + text if param.final else text)
    own.respelled.update(copied.respelled)
    name = step.member.name.text
    head = "%s %s %s(%s)" % (" ".join(words), result, name, ", ".join(params))
    return head, lost, [(step.file, *one) for one in copied.lost]
