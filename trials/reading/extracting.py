"""Extract method: the new texts, or the first refusal (JLS 6.3, 8.4, 15.12)."""
from types import SimpleNamespace as Node

from .binding import OBJECT_METHODS
from .locals import Asked, lists_of, piece, returns_of, value_at
from .lookup import Place
from .members import NewRows
from .program import Row, decl_text
from .receivers import Copied, Moving, end_step, words_of_type
from .renaming import Refused, is_identifier
from .sites import Noted, Sites
from .ways import PASS, edges, edges_around, row, size, sites_of

GREATEST_COUNT = 1000


class Noting(Noted):
    """Bindings, with what is known of each local and where each statement stands."""

    def __init__(self, program, file):
        self.local_of = {}
        self.place_at = {}
        super().__init__(program, file)

    def new_local(self, member, name, final, type, has_init):
        local = super().new_local(member, name, final, type, has_init)
        self.local_of["local", member, local.number] = local
        return local

    def walk_statement(self, place, s):
        self.place_at[id(s)] = place
        return super().walk_statement(place, s)


class PieceSites(Sites):
    """Sites of members, in whose ways a piece is one part."""

    def __init__(self, program, file, statements, expression):
        super().__init__(program, file)
        self.statements_in, self.expression, self.piece = statements, expression, None

    def statements(self, body):
        if self.statements_in is None or body is not self.statements_in[0]:
            return super().statements(body)
        _, begin, end = self.statements_in
        self.piece = row(*map(self.statement, body[begin:end]), PASS)
        before, behind = map(self.statement, body[:begin]), map(self.statement, body[end:])
        return row(*before, self.piece, *behind, PASS)

    def value(self, e):
        if e is not self.expression:
            return super().value(e)
        self.expression = None
        self.piece = self.value(e)
        return self.piece


def begin_of(n, w, part):
    """The number of a part's first site, where the way's sites have the numbers from n on."""
    if w is part:
        return n
    parts = {"row": (1, 2), "fork": (1, 2), "turns": (2, 3), "inside": (2,)}.get(w[0], ())
    n += w[0] in ("turns", "inside")
    for number in parts:
        found = begin_of(n, w[number], part)
        if found is not None:
            return found
        n += size(w[number])
    return None


def used_behind(way, part):
    """The locals that a part writes and that are used behind it, by number."""
    sites, first = sites_of(way), begin_of(0, way, part)
    inside = range(first, first + size(part))
    written = {sites[i][2] for i in inside if sites[i][1] == "writes"}
    after = {}
    for i, j in edges(0, way):
        after.setdefault(i, set()).add(j)
    leads = {j for i, j in edges_around(0, way, part) if i in inside}
    return sorted(x for x in written if is_read(sites, after, leads, x))


def is_read(sites, after, work, x):
    """Whether from one of these sites a read of x is met before a write."""
    found, work = set(), list(work)
    while work:
        j = work.pop()
        if sites[j][1:] == ("reads", x):
            return True
        if j not in found and sites[j][1:] != ("writes", x):
            found.add(j)
            work.extend(after.get(j, ()))
    return False


class Piece:
    """What is extracted: statements of one list, or an expression."""

    def __init__(self, asked, decl, member, body, begin, end, value):
        self.decl, self.member = decl, member
        self.body, self.begin, self.end, self.value = body, begin, end, value
        self.statements = None if value is not None else body[begin:end]
        self.at = value.at if value is not None else body[begin].at
        self.stop = value.end if value is not None else body[end - 1].end
        notes = asked.noting
        self.place = notes.place_of[id(value)] if value is not None else (
            notes.place_at[id(body[begin])]
        )
        self.type = None
        names, declared = [], []
        for at, found in sorted({**notes.refs, **notes.declared}.items()):
            if self.at <= at < self.stop and found[:2] == ("local", decl):
                (declared if at in notes.declared else names).append((at, found))
        self.inner = sorted(one[2] for _, one in declared)
        self.outer = sorted({one[2] for _, one in names if one[2] not in self.inner})
        self.locals = {n: notes.local_of["local", decl, n] for n in self.inner + self.outer}


def piece_at(asked, start, end):
    for decl, member in asked.members():
        for body in lists_of(member.body):
            begins = [i for i, s in enumerate(body) if s.at == start]
            ends = [i for i, s in enumerate(body) if s.end == end]
            if begins and ends:
                return Piece(asked, decl, member, body, begins[0], ends[-1] + 1, None)
    found = value_at(asked, start, end)
    if found is None:
        return None
    for decl, member in asked.members():
        if decl == found.member:
            one = Piece(asked, decl, member, None, 0, 0, found.value)
            one.type = found.type
            return one


class RowsWith(NewRows):
    """A row comes behind that of a member."""

    def __init__(self, program, row, behind):
        super().__init__(program, {}, None, row)
        rows = [one for one in self.program.rows if one is not row]
        at = next(i for i, one in enumerate(rows) if one.decl == behind)
        self.program.rows = rows[: at + 1] + [row] + rows[at + 1 :]
        self.program.number = {one.decl: i for i, one in enumerate(self.program.rows)}


class Extracting(Moving):
    """The spellings of a file where a piece becomes a method."""

    def __init__(self, program, file, to, step):
        self.step = step
        self.in_piece = False
        super().__init__(program, file, to)

    def number_now(self, number):
        """The number of a local of the old member, None where it is gone."""
        gone, step = self.step.gone, self.step
        if self.in_piece:
            order = step.piece.outer + step.piece.inner
            return order.index(number) if number in order else None
        return None if number in gone else number - sum(one < number for one in gone)

    def after(self, place):
        if place.member != self.step.piece.decl:
            return place
        member = self.step.new if self.in_piece else place.member
        now = [(self.number_now(local.number), local) for local in place.locals]
        locals = [local._replace(number=n) for n, local in now if n is not None]
        return place._replace(member=member, locals=locals)

    def one(self, decl):
        if decl[:2] == ("local", self.step.piece.decl):
            member = self.step.new if self.in_piece else decl[1]
            return ("one", ("local", member, self.number_now(decl[2])))
        return super().one(decl)

    def walk_statement(self, place, s):
        was, held = self.in_piece, self.step.piece.statements or []
        self.in_piece = was or any(s is one for one in held)
        after = super().walk_statement(place, s)
        self.in_piece = was
        return after

    def walk(self, place, role, e):
        was = self.in_piece
        self.in_piece = was or e is self.step.piece.value
        super().walk(place, role, e)
        self.in_piece = was

    def made_call(self, new, decl, types, made_lost):
        """The words of a made call by a simple name."""
        texts = self.simple_call_texts(new, decl, types)
        if not texts:
            made_lost.append((decl, self.new.simple_method(new, decl[2], types)))
            return decl[2]
        if texts[0] != decl[2]:
            self.respelled["method"] += 1
        return texts[0]


class Step(Asked):
    def read(self):
        super().read()
        self.noting = Noting(self.program, self.file)


def extract_method(files, file_name, start, end, name):
    step = Step(files, file_name, (start, end))
    if not is_identifier(name):
        raise Refused(3, "BadName " + name)
    step.read()
    found = step.piece = piece_at(step, start, end)
    if found is None:
        step.bad_target("Statements")
    results = own_refusals(step, found, name)
    step.gone = [n for n in found.inner if n not in results]
    types = tuple(found.locals[n].type for n in found.outer)
    step.new = ("method", found.decl[1], name, types)
    refuse_clash(step)
    type = found.type if found.value is not None else "void"
    if results:
        type = found.locals[results[0]].type
    words = ["private"] + ["static"] * found.place.static
    to = RowsWith(step.program, Row(step.new, words, type, None, False), found.decl)
    walks = [Extracting(step.program, n, to, step) for n in range(len(files))]
    return finish(step, walks, results, type, words)


def own_refusals(step, found, name):
    pieces = None if found.value is not None else (found.body, found.begin, found.end)
    sites = PieceSites(step.program, step.file, pieces, found.value)
    way = sites.member(found.member, found.decl)
    if size(way) > GREATEST_COUNT:
        raise Refused(24, "TooManySites %s %d" % (decl_text(found.decl), size(way)))
    if name in OBJECT_METHODS:
        raise Refused(6, "PreludeMethod " + name)
    used = used_behind(way, sites.piece)
    if found.value is None:
        for s in returns_of(found.statements):
            raise Refused(8, "HasReturn " + step.place_text(s.at))
        if len(used) > 1:
            texts = [decl_text(("local", found.decl, n)) for n in used[:2]]
            raise Refused(9, "TwoResults %s %s" % tuple(texts))
        return used
    written = [site for site in sites_of(sites.piece) if site[1] == "writes" and site[2] in used]
    if written:
        at, _, number = min(written)
        words = decl_text(("local", found.decl, number)), step.place_text(at)
        raise Refused(13, "Assigned %s %s" % words)
    return []


def refuse_clash(step):
    key = step.new[1]
    for one in step.program.rows:
        is_type = one.decl[0] == "class" and one.decl[1] == (key[1], step.new[2])
        if one.decl == step.new or is_type and key[0] is None:
            raise Refused(14, "Clash " + decl_text(one.decl))


def finish(step, walks, results, type, words):
    found, own, made_lost, copied_lost = step.piece, walks[step.file], [], []
    new_place = own.after(found.place)
    if results and results[0] in found.inner:
        local = found.locals[results[0]]._replace(number=own.number_now(results[0]))
        inside = new_place._replace(locals=new_place.locals + [local])
    else:
        inside = new_place
    names = [found.locals[n].name for n in found.outer]
    call_name = own.made_call(inside, step.new, step.new[3], made_lost)
    call = "%s(%s)" % (call_name, ", ".join(names))
    head_place = Place(step.new[1], step.new, found.place.static, [], None)
    result = own.made_type(head_place, type, made_lost)
    params = [
        own.made_type(head_place, found.locals[n].type, made_lost) + " " + found.locals[n].name
        for n in found.outer
    ]
    in_piece = lambda e: found.at <= e[0] and e[1] <= found.stop
    moved = piece(step, Node(at=found.at, end=found.stop), list(filter(in_piece, own.edits)))
    if found.value is not None:
        put = step.with_spaces(found.at, found.stop, call)
        body = "{ return %s; }" % moved
    elif not results:
        put, body = call + ";", "{ %s }" % moved
    else:
        x = found.locals[results[0]].name
        front = ""
        if results[0] in found.inner:
            front = declaration_words(step, own, new_place, results[0], copied_lost)
        put, body = "%s%s = %s;" % (front, x, call), "{ %s return %s; }" % (moved, x)
    text = "%s %s %s(%s) %s" % (" ".join(words), result, step.new[2], ", ".join(params), body)
    edits = [list(walk.edits) for walk in walks]
    edits[step.file] = [e for e in own.edits if not in_piece(e)]
    edits[step.file].append((found.at, found.stop, put))
    end = found.member.end
    edits[step.file].append((end, end, step.gap(found.member.at) + text))
    return end_step(step, list(enumerate(walks)), edits, copied_lost, made_lost)


def declaration_words(step, own, place, number, copied_lost):
    """The words of a local's declaration in front of its name."""
    for s in all_statements(step.piece.statements):
        if s.kind == "local" and own.declared[s.name.at][2] == number:
            copied = Copied(own, place)
            copied.type_words(step.noting.place_at[id(s)], s.type)
            copied_lost += [(step.file, *one) for one in copied.lost]
            own.respelled.update(copied.respelled)
            return ("final " if s.final else "") + words_of_type(
                step.source, s.type, copied.edits
            ) + " "


def all_statements(body):
    for held in lists_of(body):
        yield from held
