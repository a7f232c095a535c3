"""Inline method: the new texts, or the first refusal (JLS 6.3, 14.17, 15.12.4.4)."""
from types import SimpleNamespace as Node

from .binding import notes_of
from .extracting import Noting
from .locals import Asked, lists_of, piece, returns_of
from .lookup import Local, Place
from .members import NewRows
from .program import PRELUDE, decl_text
from .receivers import Moving, end_step, words_of_type
from .renaming import Refused, dispatch, is_instance, scopes, spliced
from .sites import Sites

PRELUDE_METHODS = {row.decl for row in PRELUDE if row.decl[0] == "method"}
FIRST_OF = {"int": "0", "boolean": "false"}


class SameRows(NewRows):
    """No row changes."""

    def __init__(self, program):
        self.images, self.program = {}, program


class Asking(Asked):
    def read(self):
        super().read()
        self.noting = Noting(self.program, self.file)

    def parameters(self, count):
        """The first so many parameters, as locals of the caller."""
        found = []
        for number, param in enumerate(self.method_tree.params[:count]):
            type = self.program.declared_type(self.method[1], param.type, 0)
            found.append(Local(param.name.text, self.first + number, False, type, True))
        return found


def call_at(step, at):
    """The call whose name stands at a byte, with the statement of a list that holds it."""
    for decl, member in step.members():
        for body in lists_of(member.body):
            for index, s in enumerate(body):
                for form, call in calls_of(step, s):
                    end = call.name.at + len(call.name.text.encode("utf-8"))
                    if call.name.at <= at < end:
                        return Node(decl=decl, member=member, body=body, index=index, s=s,
                                    form=form, call=call, place=step.noting.place_at[id(s)])
    return None


def calls_of(step, s):
    """The call of which a statement is made, with its form."""
    e = {"eval": "value", "local": "init", "return": "value"}.get(s.kind)
    e = getattr(s, e) if e else None
    if e is None:
        return
    if e.kind in ("call", "super_call"):
        yield {"eval": 1, "local": 2, "return": 4}[s.kind], e
    elif s.kind == "eval" and e.kind == "assign" and e.right.kind in ("call", "super_call"):
        of = step.notes.refs.get(e.left.name.at) if e.left.kind == "name" else None
        if of is not None and of[0] == "local":
            yield 3, e.right


def method_of(step, decl):
    for key, tree, file in step.program.classes:
        for member in tree.members:
            if member.kind == "method" and key == decl[1]:
                if step.program.member_decl(key, member) == decl:
                    return file, member


def inline_method(files, file_name, at):
    step = Asking(files, file_name, (at,))
    step.read()
    found = step.found = call_at(step, at)
    if found is None:
        step.bad_target("Call")
    step.method = step.notes.refs[found.call.name.at]
    own_refusals(step, found)
    found.locals = scopes(step.program, step.method_file, step.method)
    refuse_clash(step, found)
    number_locals(step, found)
    to = SameRows(step.program)
    walks = [Around(step.program, n, to, step) for n in range(len(files))]
    body = CopiedBody(step.program, step.method_file, to, step)
    return finish(step, found, walks, body)


def own_refusals(step, found):
    call, m = found.call, step.method
    result = step.program.row(m).type
    if found.form == 1 and result != "void":
        step.bad_target("VoidCall")
    found.receiver = receiver_of(step, call)
    if found.receiver == "other":
        step.bad_target("LocalReceiver")
    if m in PRELUDE_METHODS:
        raise Refused(6, "PreludeMethod " + decl_text(m))
    step.method_file, step.method_tree = method_of(step, m)
    last = step.method_tree.body[-1] if step.method_tree.body else None
    for s in returns_of(step.method_tree.body):
        if s is not last or s.value is None:
            text = "%s:%d" % (step.files[step.method_file][0], s.at)
            raise Refused(8, "HasReturn " + text)
    found.last = last if last is not None and last.kind == "return" else None
    refuse_targets(step, found)
    if found.receiver == "local" and not Sites(step.program, step.file).never_null(call.on):
        raise Refused(11, "MayBeNull " + step.place_text(call.on.at))
    for place, decl in sorted(notes_of(step.program, step.method_file).refs.items()):
        tree = step.method_tree
        if decl == m and tree.at <= place < tree.end:
            text = "%s:%d" % (step.files[step.method_file][0], place)
            raise Refused(12, "Recursive " + text)


def receiver_of(step, call):
    if call.kind == "super_call":
        return "super"
    if call.on is None:
        return "none"
    if call.on.kind == "this":
        return "this"
    place = step.noting.place_of[id(call)]
    if step.notes.class_named(place, call.on) is not None:
        return "class"
    if call.on.kind == "name":
        found = step.notes.refs.get(call.on.name.at)
        if found is not None and found[0] == "local":
            return "local"
    return "other"


def refuse_targets(step, found):
    """The first other method to which a class below the receiver's type dispatches."""
    m, program = step.method, step.program
    if not is_instance(program, m) or found.receiver == "super":
        return
    of = found.place.cls
    if found.receiver == "local":
        of = step.noting.type_of(step.noting.place_of[id(found.call)], found.call.on)
    others = set()
    for row in program.rows:
        if row.decl[0] == "class" and program.is_subclass(row.decl[1], of):
            others.add(dispatch(program, row.decl[1], m))
    for row in program.rows:
        if row.decl in others and row.decl != m:
            words = step.place_text(found.call.name.at), decl_text(row.decl)
            raise Refused(10, "ManyTargets %s %s" % words)


def refuse_clash(step, found):
    names = {text for text, _, _ in found.locals.values()}
    inside = [(one.number, one.name) for one in found.place.locals]
    if found.form == 2:
        inside.append((step.notes.declared[found.s.name.at][2], found.s.name.text))
    taken = [number for number, name in inside if name in names]
    if taken:
        raise Refused(14, "Clash " + decl_text(("local", found.decl, min(taken))))


def number_locals(step, found):
    """How many of the caller's locals stand in front of those of the method."""
    behind = found.s.at if found.form != 2 else found.s.name.at + 1
    declared = [d for at, d in step.notes.declared.items() if d[:2] == ("local", found.decl)
                and at < behind]
    step.first, step.count = len(declared), len(found.locals)


class Around(Moving):
    """The spellings of a file outside of the call that is inlined."""

    def __init__(self, program, file, to, step):
        self.step, self.extra = step, []
        super().__init__(program, file, to)

    def number_now(self, number):
        return number + self.step.count if number >= self.step.first else number

    def after(self, place):
        if place.member != self.step.found.decl:
            return place
        now = [local._replace(number=self.number_now(local.number)) for local in place.locals]
        return place._replace(locals=now + self.extra)

    def one(self, decl):
        if decl[:2] == ("local", self.step.found.decl):
            return ("one", (*decl[:2], self.number_now(decl[2])))
        return super().one(decl)

    def walk_statement(self, place, s):
        found = self.step.found
        if s is not found.s:
            return super().walk_statement(place, s)
        kept = self.edits, self.lost, self.respelled
        self.edits, self.lost, self.respelled = [], [], type(self.respelled)()
        behind = super().walk_statement(place, s)
        self.edits, self.lost, self.respelled = kept
        inside = place
        if found.form == 2:
            self.type_words(place, s.type)
            inside = behind._replace(own=self.declared[s.name.at][2])
        for i, arg in enumerate(found.call.args):
            self.extra = self.step.parameters(i + 1)
            self.walk(inside, "value", arg)
        self.extra = []
        return behind


class CopiedBody(Moving):
    """The spellings of a method's parameters and body in the place of a call."""

    def __init__(self, program, file, to, step):
        self.step = step
        if step.found.receiver == "local":
            self.receiver = step.found.call.on.name.text
        super().__init__(program, file, to)

    def notes_of_head(self, key, tree):
        pass

    def notes_of_member(self, key, member):
        if member is not self.step.method_tree:
            return
        self.param_edits = []
        place = Place(key, self.step.method, "static" in member.modifiers, [], None)
        self.locals_so_far, params = 0, []
        for param in member.params:
            self.edits, kept = [], self.edits
            self.declared_words(place, param.type)
            self.param_edits.append(self.edits)
            self.edits = kept
            type = self.p.declared_type(key, param.type, 0)
            params.append(self.new_local(place.member, param.name, param.final, type, False))
        self.walk_list(place._replace(locals=params), member.body)

    def after(self, place):
        found, first = self.step.found, self.step.first
        locals = list(found.place.locals)
        if found.form == 2:
            locals.append(self.step.noting.local_of[self.step.noting.declared[found.s.name.at]])
        locals += [local._replace(number=local.number + first) for local in place.locals]
        return found.place._replace(locals=locals, own=None)

    def one(self, decl):
        if decl[:2] == ("local", self.step.method):
            return ("one", ("local", self.step.found.decl, decl[2] + self.step.first))
        return super().one(decl)

    # what stands for `this`

    def is_moved(self, place):
        return True

    def this_type(self, place):
        step = self.step
        if step.found.receiver == "local":
            call = step.found.call
            return step.noting.type_of(step.noting.place_of[id(call)], call.on)
        return step.found.place.cls


def body_text(step, found, body):
    """The body's piece, in which the last `return e;` becomes an assignment."""
    held = step.method_tree.body
    if not held:
        return ""
    edits, start, end = list(body.edits), held[0].at, held[-1].end
    source = step.files[step.method_file][1].encode("utf-8")
    if found.last is not None and found.form in (2, 3):
        e = found.last.value
        x = found.s.name.text if found.form == 2 else found.s.value.left.name.text
        inner = [(a - e.at, b - e.at, put) for a, b, put in edits if e.at <= a and b <= e.end]
        value = spliced(source[e.at : e.end].decode("utf-8"), inner)
        edits = [edit for edit in edits if edit[1] <= found.last.at]
        edits.append((found.last.at, found.last.end, "%s = %s;" % (x, value)))
    shifted = [(a - start, b - start, put) for a, b, put in edits if start <= a and b <= end]
    return spliced(source[start:end].decode("utf-8"), shifted)


def in_braces(parts):
    parts = [part for part in parts if part]
    return "{ %s }" % " ".join(parts) if parts else "{ }"


def lock_text(step, found, body, made_lost):
    if found.receiver == "local":
        return found.call.on.name.text
    if "static" not in step.method_tree.modifiers:
        return "this"
    return body.made_type(found.place, step.method[1], made_lost) + ".class"


def finish(step, found, walks, body):
    own, made_lost, s = walks[step.file], [], found.s
    in_s = lambda e: s.at <= e[0] and e[1] <= s.end
    edits_of_s = list(filter(in_s, own.edits))
    texts, source = [], step.files[step.method_file][1].encode("utf-8")
    for param, arg, edits in zip(step.method_tree.params, found.call.args, body.param_edits):
        type = words_of_type(source, param.type, edits)
        inner = [e for e in edits_of_s if arg.at <= e[0] and e[1] <= arg.end]
        texts.append("%s %s = %s;" % (type, param.name.text, piece(step, arg, inner)))
    held = body_text(step, found, body)
    if "synchronized" in step.method_tree.modifiers:
        lock = lock_text(step, found, body, made_lost)
        put = "synchronized (%s) %s" % (lock, in_braces([held]))
        put = in_braces(texts + [put]) if texts else put
    else:
        put = in_braces(texts + [held])
    if found.form == 2:
        inner = [e for e in edits_of_s if e[1] <= s.name.at]
        type = words_of_type(step.source, s.type, inner)
        local = step.noting.local_of[step.noting.declared[s.name.at]]
        first = FIRST_OF.get(local.type, "null")
        put = "%s %s = %s;%s%s" % (type, s.name.text, first, step.gap(s.at), put)
    edits = [list(walk.edits) for walk in walks]
    edits[step.file] = [e for e in own.edits if not in_s(e)] + [(s.at, s.end, put)]
    lost, body.lost = [(step.method_file, *one) for one in body.lost], []
    walks = list(enumerate(walks)) + [(step.method_file, body)]
    return end_step(step, walks, edits, lost, made_lost)
