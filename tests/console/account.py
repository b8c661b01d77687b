"""The plain account of document 01, for the makers beside this file that import it: paths, and the edits on values.

A value is its kind and what it is, as in values.py, but an object's members stand in a dictionary: a sound record has no name twice,
and byte order is the only order that its names can have. An edit never sees a record.
"""
import values
from values import DEPTH, LIMIT, Refused


class Absent(Exception):
    """A call that ends in an absence."""


# ---- from these values to those of values.py, whose members stand in a list, and back from those of a sound record


def in_order(v):
    kind, x = v
    if kind == "array":
        return (kind, [in_order(w) for w in x])
    if kind == "object":
        return (kind, [(n, in_order(x[n])) for n in sorted(x)])
    return v


def by_name(v):
    kind, x = v
    if kind == "array":
        return (kind, [by_name(w) for w in x])
    if kind == "object":
        return (kind, {n: by_name(w) for n, w in x})
    return v


def record(v):
    return values.record(in_order(v))


# ---- paths: what a path record says, or 6


def index(b):
    if b == b"\x00":
        return 0
    if b[0] in (0x40, 0x50):
        return int.from_bytes(b[1:], "big", signed=b[0] == 0x40)
    raise Refused(6)


def steps(path):
    """The names and indexes of a path's value, None being one that cannot be read."""
    if path is None or path[0] != "array":
        raise Refused(6)
    found = []
    for kind, x in path[1]:
        if kind == "string":
            found.append(x)
        elif kind == "number" and -(2**31) <= index(x) < 2**31:
            found.append(index(x))
        else:
            raise Refused(6)
    return found


def into(v, s):
    """The key or number of what a step takes in a value, and None where it takes nothing."""
    kind, x = v
    if kind == "object":
        name = s if isinstance(s, bytes) else str(s).encode()
        return name if name in x else None
    if kind == "array" and isinstance(s, int):
        i = s if s >= 0 else len(x) + s
        return i if 0 <= i < len(x) else None
    return None


# ---- the six edits on values


def look_up(v, path):
    for s in path:
        k = into(v, s)
        if k is None:
            raise Absent
        v = v[1][k]
    return v


def without(v, path):
    """The value without what a path finds in it."""
    try:
        look_up(v, path)
    except Absent:
        return v
    if not path:
        return v
    k = into(v, path[0])
    x = v[1].copy()
    if len(path) == 1:
        del x[k]
    else:
        x[k] = without(x[k], path[1:])
    return (v[0], x)


def delete(v, path):
    if v[0] in ("null", "true", "false", "number", "string"):
        raise Refused(7)
    return without(v, path)


def concat(v, w):
    if v[0] == w[0] == "object":
        return ("object", {**v[1], **w[1]})
    return ("array", (v[1] if v[0] == "array" else [v]) + (w[1] if w[0] == "array" else [w]))


def strip(v):
    if v[0] == "array":
        return ("array", [strip(x) for x in v[1]])
    if v[0] == "object":
        return ("object", {n: strip(x) for n, x in v[1].items() if x[0] != "null"})
    return v


def append(v, w):
    if v[0] != "array":
        raise Refused(7)
    return ("array", v[1] + [w])


def build(v, w):
    if v[0] != "array" or w[0] != "array" or len(v[1]) != len(w[1]) or any(n[0] != "string" for n in v[1]):
        raise Refused(7)
    names = [n[1] for n in v[1]]
    if len(set(names)) < len(names):
        raise Refused(8)
    return ("object", dict(zip(names, w[1])))


# ---- the limits of a result


def within(v):
    if len(record(v)) > LIMIT or values.depth(in_order(v)) > DEPTH:
        raise Refused(9)
    return v


def written(v, room):
    b = record(v)
    if len(b) > room:
        raise Refused(10)
    return b


# ---- random paths


def some_path(r, v, names, numbers):
    """A path that mostly finds something; a step that need not is one of these names or numbers."""
    path = []
    while not isinstance(v, int) and v[0] in ("array", "object") and v[1] and r.random() < 0.7:
        if v[0] == "object":
            k = r.choice(sorted(v[1]))
            path.append(("string", k))
        else:
            k = r.randrange(-len(v[1]), len(v[1]))
            path.append(("number", b"\x00" if k == 0 else b"\x40" + k.to_bytes(r.choice([1, 2, 4, 8]), "big", signed=True)))
        v = v[1][k]
    if r.random() < 0.3:
        more = [("string", r.choice(names)), ("string", r.choice(names)), ("number", bytes.fromhex(r.choice(numbers))), ("null", None)]
        path.append(r.choice(more))
    return ("array", path)
