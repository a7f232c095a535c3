"""How control goes through a piece of code that has sites, and which of them depend on others: the
definitions of crates/jr_cover word by word, and slowly (JLS 14, 15).

A way is ("pass",), ("one", site), ("row", a, b), ("fork", a, b), ("leave",),
("turns", site, condition, body) or ("inside", entered, body, exited). The numbers of its sites
begin at n.
"""
PASS, LEAVE = ("pass",), ("leave",)
WILD = ("checks", "calls", "loops")
ALLOWED = {
    ("plain", "plain"): True, ("plain", "enter"): True, ("plain", "exit"): False,
    ("enter", "plain"): False, ("enter", "enter"): False, ("enter", "exit"): False,
    ("exit", "plain"): True, ("exit", "enter"): False, ("exit", "exit"): False,
}
GROUP = {
    "Load": "plain", "Store": "plain", "VolatileLoad": "enter", "Enter": "enter",
    "VolatileStore": "exit", "Exit": "exit",
}
KINDS = ("Order", "Field", "Sync", "Flow", "Anti", "Output")


def row(*ways):
    first, *others = ways
    return ("row", first, row(*others)) if others else first


def sites_of(w):
    if w[0] == "one":
        return [w[1]]
    if w[0] in ("row", "fork"):
        return sites_of(w[1]) + sites_of(w[2])
    if w[0] == "turns":
        return [w[1]] + sites_of(w[2]) + sites_of(w[3])
    if w[0] == "inside":
        return [w[1]] + sites_of(w[2]) + [w[3]]
    return []


def size(w):
    return len(sites_of(w))


def passes(w):
    if w[0] == "row":
        return passes(w[1]) and passes(w[2])
    if w[0] == "fork":
        return passes(w[1]) or passes(w[2])
    return w[0] == "pass"


def leaves_at_once(w):
    if w[0] == "row":
        return leaves_at_once(w[1]) or passes(w[1]) and leaves_at_once(w[2])
    if w[0] == "fork":
        return leaves_at_once(w[1]) or leaves_at_once(w[2])
    return w[0] == "leave"


def firsts(n, w):
    if w[0] == "row":
        return firsts(n, w[1]) | (firsts(n + size(w[1]), w[2]) if passes(w[1]) else set())
    if w[0] == "fork":
        return firsts(n, w[1]) | firsts(n + size(w[1]), w[2])
    return set() if w[0] in ("pass", "leave") else {n}


def lasts(n, w):
    if w[0] == "one":
        return {n}
    if w[0] == "row":
        return lasts(n + size(w[1]), w[2]) | (lasts(n, w[1]) if passes(w[2]) else set())
    if w[0] == "fork":
        return lasts(n, w[1]) | lasts(n + size(w[1]), w[2])
    if w[0] == "turns":
        _, _, condition, body = w
        if size(condition) == 0:
            return {n}
        found = lasts(n + 1, condition)
        if passes(condition):
            found = found | {n} | lasts(n + 1 + size(condition), body)
        return found
    if w[0] == "inside":
        goes_on = passes(w[2]) or lasts(n + 1, w[2])
        return {n + 1 + size(w[2])} if goes_on else set()
    return set()


def leaves(n, w):
    if w[0] == "row":
        found = leaves(n, w[1]) | leaves(n + size(w[1]), w[2])
        return found | (lasts(n, w[1]) if leaves_at_once(w[2]) else set())
    if w[0] == "fork":
        return leaves(n, w[1]) | leaves(n + size(w[1]), w[2])
    if w[0] == "turns":
        found = leaves(n + 1 + size(w[2]), w[3])
        return found | (lasts(n, w) if leaves_at_once(w[3]) else set())
    if w[0] == "inside":
        ends = leaves_at_once(w[2]) or leaves(n + 1, w[2])
        return {n + 1 + size(w[2])} if ends else set()
    return set()


def product(a, b):
    return {(i, j) for i in a for j in b}


def edges(n, w):
    return edges_around(n, w, None)


def edges_around(n, w, piece):
    """The edges of a way but for those within a part of it."""
    if w is piece:
        return set()
    if w[0] == "row":
        behind = n + size(w[1])
        joined = product(lasts(n, w[1]), firsts(behind, w[2]))
        return edges_around(n, w[1], piece) | edges_around(behind, w[2], piece) | joined
    if w[0] == "fork":
        return edges_around(n, w[1], piece) | edges_around(n + size(w[1]), w[2], piece)
    if w[0] == "turns":
        return edges_of_loop(n, w, piece)
    if w[0] == "inside":
        exited = {n + 1 + size(w[2])}
        found = edges_around(n + 1, w[2], piece) | product({n}, firsts(n + 1, w[2]))
        found |= product(lasts(n + 1, w[2]) | leaves(n + 1, w[2]), exited)
        at_once = passes(w[2]) or leaves_at_once(w[2])
        return found | (product({n}, exited) if at_once else set())
    return set()


def edges_of_loop(n, w, piece):
    _, _, condition, body = w
    m = n + 1 + size(condition)
    again = firsts(n + 1, condition) if size(condition) else {n}
    found = edges_around(n + 1, condition, piece) | edges_around(m, body, piece)
    found |= product({n}, firsts(n + 1, condition))
    found |= product(lasts(n, w), firsts(m, body)) | product(lasts(m, body), again)
    return found | (product(lasts(n, w), again) if passes(body) else set())


def reached(all_edges, start, stops):
    """The sites to which a path of at least one edge leads, with no stop strictly between."""
    after = {}
    for i, j in all_edges:
        after.setdefault(i, set()).add(j)
    found, work = set(), [start]
    while work:
        for j in after.get(work.pop(), ()):
            if j not in found:
                found.add(j)
                if j not in stops:
                    work.append(j)
    return found


def access_of(site, kind_of_field):
    """The kind and field of an access, or None."""
    _, what, of = site
    if what in ("loads", "stores"):
        kind = kind_of_field(of)
        plain = "Load" if what == "loads" else "Store"
        return {"plain": plain, "volatile": "Volatile" + plain, "final": "Still"}[kind], of
    named = {"enters": "Enter", "exits": "Exit", "creates": "Still"}
    return (named[what], None) if what in named else None


def allowed(a, b):
    return "Still" not in (a, b) and ALLOWED[GROUP[a], GROUP[b]]


def related(kind, a, b, kind_of_field):
    x, y = access_of(a, kind_of_field), access_of(b, kind_of_field)
    if kind == "Order":
        wild = a[1] in WILD, b[1] in WILD
        return all(wild) or wild[0] and y is not None or wild[1] and x is not None
    if kind == "Field":
        stores = {x and x[0], y and y[0]} & {"Store", "VolatileStore"}
        return bool(x and y and x[1] is not None and x[1] == y[1] and stores)
    if kind == "Sync":
        return bool(x and y) and not allowed(x[0], y[0])
    wanted = {"Flow": ("writes", "reads"), "Anti": ("reads", "writes"), "Output": ("writes",) * 2}
    return (a[1], b[1]) == wanted[kind] and a[2] == b[2]


def dependences(w, kind_of_field):
    """Each as (first, second, kind), in order."""
    sites, all_edges = sites_of(w), edges(0, w)
    found = []
    for i, a in enumerate(sites):
        stops = {k for k, s in enumerate(sites) if s[1] == "writes" and s[1:] == a[1:]}
        anyhow, unwritten = reached(all_edges, i, set()), reached(all_edges, i, stops)
        for j, b in enumerate(sites):
            for number, kind in enumerate(KINDS):
                if j in (unwritten if kind == "Flow" else anyhow):
                    if related(kind, a, b, kind_of_field):
                        found.append((i, j, number))
    return found


# two pieces, the one in front of the other, that may not change places


def seen(site, kind_of_field):
    return access_of(site, kind_of_field) or site[1]


def by_order(a, b):
    is_access = lambda s: isinstance(s, tuple)
    if a in WILD and (b in WILD or is_access(b)) or is_access(a) and b in WILD:
        return "Order"


def by_access(a, b):
    if not (isinstance(a, tuple) and isinstance(b, tuple)):
        return None
    stores = {a[0], b[0]} & {"Store", "VolatileStore"}
    if a[1] is not None and a[1] == b[1] and stores:
        return "Field"
    return None if allowed(a[0], b[0]) else "Sync"


def crossing(first, second, kind_of_field):
    """The first pair of the first of three tests that finds one, as (i, j, kind), or None."""
    a = [seen(site, kind_of_field) for site in first]
    b = [seen(site, kind_of_field) for site in second]
    pairs = [(i, j) for i in range(len(a)) for j in range(len(b))]
    for test in (by_order, by_access):
        for i, j in pairs:
            if test(a[i], b[j]):
                return i, j, test(a[i], b[j])
    for i, j in pairs:
        for kind in ("Flow", "Anti", "Output"):
            if related(kind, first[i], second[j], kind_of_field):
                return i, j, kind
    return None
