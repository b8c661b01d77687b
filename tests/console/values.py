"""Records and their values, for the makers beside this file that import it.

A value is its kind and what it is: a payload, the list of an array's items, or the list of an object's members as they stand,
repeated names and all. Here the value of an object is the sorted list of its members, all of them, which the code does not make:
values are then equal where these forms are.
"""

LIMIT, DEPTH = 65536, 64
KINDS = ["null", "string", "number", "false", "true", "container", "extension"]  # by their codes
CODES = {**{kind: code for code, kind in enumerate(KINDS)}, "array": 5, "object": 5}
# How many bytes stand behind each first byte of a number's payload.
LISTED = {0x00: [0], 0x10: [0], 0x20: [0], 0x30: [0], 0x40: [1, 2, 4, 8], 0x50: [1, 2, 4, 8], 0x60: [8], 0x70: [9, 17, 33]}


class Refused(Exception):
    """A call that ends in this number."""


# ---- a record's bytes as a line has them


def digits(b):
    return b.hex() or "-"


def data(digits):
    return bytes.fromhex("".join(digits.replace("-", "").split()))


# ---- values as they are written here

NULL, TRUE, FALSE = ("null", None), ("true", None), ("false", None)


def text(s):
    return ("string", s.encode())


def num(payload):
    return ("number", bytes.fromhex(payload))


def obj(**values):
    return members(values, *values.values())


def members(names, *values):
    """An object whose names may be repeated."""
    return ("object", [(n.encode(), v) for n, v in zip(names, values)])


def arr(*items):
    return ("array", list(items))


def nested(depth, v):
    for _ in range(depth):
        v = arr(v)
    return v


# ---- from values to records


def payload(v):
    kind, x = v
    if kind == "array":
        return table(0x80000000 + len(x), x)
    if kind == "object":
        return table(0x40000000 + len(x), [("string", n) for n, _ in x] + [w for _, w in x])
    return x or b""


def table(header, parts):
    bodies = [payload(v) for v in parts]
    words = [header] + [CODES[v[0]] << 28 | len(b) for v, b in zip(parts, bodies)]
    return b"".join(w.to_bytes(4, "big") for w in words) + b"".join(bodies)


def record(v):
    return payload(v) if v[0] in ("array", "object") else table(0x20000000, [v])


def value(v):
    """A form that is equal where document 01 calls the values equal."""
    kind, x = v
    if kind == "array":
        return (kind, [value(w) for w in x])
    if kind == "object":
        return (kind, sorted(((n, value(w)) for n, w in x), key=repr))
    return v


def depth(v):
    """How many containers stand one in another; a root container is at depth 1, and a scalar has none."""
    kind, x = v
    if kind == "array":
        return 1 + max(map(depth, x), default=0)
    if kind == "object":
        return 1 + max((depth(w) for _, w in x), default=0)
    return 0


# ---- from records to values: "Readable and sound", rule by rule


def entry(b, at):
    """The code and length of the entry at a place: 1 where it is outside the bytes, 2 where bit 31 is set or the code is 7."""
    if at + 4 > len(b):
        raise Refused(1)
    word = int.from_bytes(b[at : at + 4], "big")
    if word >> 28 > 6:
        raise Refused(2)
    return word >> 28, word & 0x0FFFFFFF


def listed(b):
    """Whether a number's payload is one of those that document 01 lists."""
    return b != b"" and len(b) - 1 in LISTED.get(b[0], [])


def read(b, depth=1):
    """The value of a record, or Refused with its number; a root is at depth 1."""
    if len(b) > LIMIT:
        raise Refused(5)
    if len(b) < 4:
        raise Refused(1)
    header = int.from_bytes(b[:4], "big")
    top, count = header & 0xE0000000, header & 0x1FFFFFFF
    if top not in (0x80000000, 0x40000000, 0x20000000):
        raise Refused(2)
    if top == 0x20000000:
        if depth > 1 or count != 0:
            raise Refused(2)
        return items(b, 1, 0, depth, "scalar")[0]
    if depth > DEPTH:
        raise Refused(5)
    if top == 0x80000000:
        return ("array", items(b, count, 0, depth, "array"))
    both = items(b, 2 * count, count, depth, "object")
    return ("object", [(name, v) for (_, name), v in zip(both[:count], both[count:])])


def items(b, count, names, depth, sort):
    """What stands behind a header: so many parts, of which the first are names."""
    start = 4 + 4 * count
    if start > len(b):
        raise Refused(1)
    entries = [entry(b, 4 + 4 * i) for i in range(count)]
    for i, (code, length) in enumerate(entries):
        if (i < names and code != 1) or (code in (0, 3, 4) and length != 0) or (code == 5 and sort == "scalar"):
            raise Refused(2)
    if start + sum(length for _, length in entries) != len(b):
        raise Refused(2)
    found = []
    for code, length in entries:
        found.append(item(code, b[start : start + length], depth))
        start += length
    return found


def characters(b):
    """How many code points a text has."""
    try:
        return len(b.decode("utf-8"))
    except UnicodeDecodeError:
        raise Refused(3) from None


def item(code, b, depth):
    if code == 5:
        return read(b, depth + 1)
    if code == 1:
        characters(b)
    if code == 2 and not listed(b):
        raise Refused(4)
    return (KINDS[code], b if code in (1, 2, 6) else None)


# ---- random values

NAMES = [b"", b"a", b"b", b"aa", b"zone", b"heater", "é".encode()]
NUMBERS = [bytes.fromhex(n) for n in ("00", "10", "20", "30", "4005", "5005", "400005", "603ff0000000000000", "70" + "00" * 8 + "02")]
DAMAGED = [("", "1 short"), ("400000", "1 short"), ("80000001", "1 short"), ("8000000000", "2 layout"), ("8000000170000000", "2 layout")]
DAMAGED += [("8000000180000000", "2 layout"), ("2000000010000001ff", "3 text"), ("200000002000000101", "4 number")]


def some_value(r, deep, names=NAMES):
    """A value with so many levels of containers; of seven names, so that many are repeated."""
    kinds = ["null", "true", "false", "number", "string", "extension", "array", "object", "object", "object"]
    kind = r.choice(kinds if deep else kinds[:6])
    if kind == "number":
        return (kind, r.choice(NUMBERS))
    if kind == "string":
        return (kind, r.choice(names))
    if kind == "extension":
        return (kind, r.randbytes(r.randrange(3)))
    if kind == "array":
        return (kind, [some_value(r, deep - 1, names) for _ in range(r.randrange(4))])
    if kind == "object":
        drawn = r.choices(names[: r.choice([2, 7])], k=r.randrange(5))
        return (kind, [(n, some_value(r, deep - 1, names)) for n in drawn])
    return (kind, None)


def shuffled(r, v):
    kind, x = v
    if kind == "array":
        return (kind, [shuffled(r, w) for w in x])
    if kind == "object":
        return (kind, r.sample([(n, shuffled(r, w)) for n, w in x], len(x)))
    return v


def changed(r, v):
    """Something else at one place: an item or member less, more, twice, or another one, or a name for a name."""
    kind, x = v
    if kind not in ("array", "object") or not x:
        return some_value(r, 1)
    i = r.randrange(len(x))
    part = x[i]
    how = r.randrange(5)
    if how == 0:
        return (kind, x[:i] + x[i + 1 :])
    if how == 1:
        return (kind, x[:i] + [r.choice(x)] + x[i + 1 :])
    if how == 2:
        return (kind, x + [part])
    if how == 3 and kind == "object":
        return (kind, x[:i] + [(r.choice(NAMES), part[1])] + x[i + 1 :])
    return (kind, x[:i] + [changed(r, part) if kind == "array" else (part[0], changed(r, part[1]))] + x[i + 1 :])


def spoiled(r, b):
    i = r.randrange(len(b))
    return r.choice([b[:i], b + b"\0", b[:i] + bytes([b[i] ^ 1 << r.randrange(8)]) + b[i + 1 :], data(r.choice(DAMAGED)[0])])
