"""The twelve rules of accepted schemas, by docs/schema-language.md, in plain Python: slow, and a function for each rule.

`fault_of(rows)` takes the rows of `schema.compiled`, and answers the first rule that fails and where, as in
`("accept 11 mapkey", 8)`, or None where the schema is accepted. The first rule is asked of all types, then the others of one type after the other.
"""
import re

ALL_BUT_NULL = {"bool", "int", "string", "bytes", "list", "map", "link"}
STRUCT_KINDS = {"map": "map", "tuple": "list", "listpairs": "list", "stringjoin": "string", "stringpairs": "string"}
MAP_KINDS = {"map": "map", "HAMT": "map", "listpairs": "list", "stringpairs": "string"}
UNION_KINDS = {"keyed": "map", "envelope": "map", "inline": "map", "stringprefix": "string", "bytesprefix": "bytes"}
UNIT_KINDS = {"null": "null", "true": "bool", "false": "bool", "emptymap": "map"}
# What a text of this many bytes and its head take is a block of the greatest length.
LONGEST_TEXT = 4_194_299


# ---- what a type is


def behind_copies(rows, number):
    """What a type is a copy of, in the end: its own body where it is none."""
    while rows[number][1][0] == "copy":
        number = rows[number][1][1]
    return rows[number][1]


def kinds(rows, number):
    """The kinds of data that may stand for values of a type."""
    body = behind_copies(rows, number)
    if body[0] == "any":
        return ALL_BUT_NULL
    if body[0] == "struct":
        return {STRUCT_KINDS[body[2][0]]}
    if body[0] == "map":
        return {MAP_KINDS[body[3][0]]}
    if body[0] == "union":
        members, form = body[1:]
        return {mark[1] for _, _, _, mark in marked(members, form)} if form[0] == "kinded" else {UNION_KINDS[form[0]]}
    if body[0] == "enum":
        return {body[2][0]}
    if body[0] == "unit":
        return {UNIT_KINDS[body[1]]}
    return {body[0]}


def is_text(rows, number):
    """Whether a text is all that can stand for values of a type."""
    return kinds(rows, number) == {"string"}


def marked(members, form):
    """The members of a union that have what its form asks for: a kind, or a text."""
    wanted = "kind" if form[0] == "kinded" else "text"
    return [member for member in members if member[3] and member[3][0] == wanted]


def represented(field):
    name, _, _, _, opts = field
    return opts.get("rename", name)


def integer(text):
    """The integer that a text is the one spelling of, or None."""
    if text is None or not re.fullmatch("0|-?[1-9][0-9]*", text, re.A):
        return None
    # Texts of thousands of digits are out of range, and Python would refuse to read them.
    return int(text) if len(text) <= 20 and -(2**63) <= int(text) < 2**64 else None


def prefix(text, form):
    """A prefix as what stands in front: a text, or the bytes of hexadecimal digits. None where it isn't hexadecimal."""
    if form[0] == "stringprefix":
        return text
    return bytes.fromhex(text) if re.fullmatch("([0-9A-Fa-f]{2})*", text) else None


# ---- the rules: each yields the places at which it fails


def cycle(rows, number):
    """A type is represented as itself: by a copy, as a member of a union by kinds, or as the only field of a join."""
    found, left = set(), steps(rows, number)
    while left:
        at = left.pop()
        if at not in found:
            found.add(at)
            left += steps(rows, at)
    if number in found:
        yield rows[number][2]


def steps(rows, number):
    body = rows[number][1]
    if body[0] == "copy":
        return [body[1]]
    if body[0] == "union" and body[2][0] == "kinded":
        return [ty for _, _, ty, _ in body[1]]
    if body[0] == "struct" and body[2][0] == "stringjoin" and len(body[1]) == 1:
        return [body[1][0][3][0]]
    return []


def nullclash(rows, number):
    """Null may stand for a part, and for a value of its type too."""
    body = rows[number][1]
    slots = []
    if body[0] == "list":
        slots = [(body[1][2], body[1])]
    if body[0] == "map":
        slots = [(body[2][2], body[2])]
    if body[0] == "struct":
        slots = [(at, slot) for _, at, _, slot, _ in body[1]]
    for at, (ty, nullable, _) in slots:
        if nullable and "null" in kinds(rows, ty):
            yield at


def kindclash(rows, number):
    """A member's kinds are others than the one that is declared for it, or its kind was declared before.

    Behind a prefix of bytes, what isn't bytes alone. Members that lack their kind or prefix aren't asked.
    """
    body = rows[number][1]
    if body[0] != "union" or body[2][0] not in ("kinded", "bytesprefix"):
        return
    members, form = body[1:]
    before = set()
    for _, at, ty, mark in marked(members, form):
        if form[0] == "bytesprefix":
            wrong = kinds(rows, ty) != {"bytes"}
        else:
            wrong = kinds(rows, ty) != {mark[1]} or mark[1] in before
            before.add(mark[1])
        if wrong:
            yield at


def prefixclash(rows, number):
    """A prefix is empty, or of it and one before it one begins the other. What isn't hexadecimal isn't asked."""
    body = rows[number][1]
    if body[0] != "union" or body[2][0] not in ("stringprefix", "bytesprefix"):
        return
    members, form = body[1:]
    before = []
    for _, at, _, mark in marked(members, form):
        own = prefix(mark[1], form)
        if own is not None:
            if not own or any(own.startswith(other) or other.startswith(own) for other in before):
                yield at
            before.append(own)


def delim(rows, number):
    """A delimiter is empty, or the one between entries stands in the one inside an entry."""
    form = form_of(rows, number)
    if form[0] == "stringjoin" and not form[1]:
        yield rows[number][2]
    if form[0] == "stringpairs":
        inner, entry = form[1:]
        if not inner or not entry or entry in inner:
            yield rows[number][2]


def form_of(rows, number):
    body = rows[number][1]
    return body[-1] if body[0] in ("struct", "map", "union", "enum") else ("",)


def nottext(rows, number):
    """A part of a text may be null, or isn't a text alone."""
    body, form = rows[number][1], form_of(rows, number)[0]
    if body[0] == "struct" and form in ("stringjoin", "stringpairs"):
        parts = [(at, slot[0], slot[1]) for _, at, _, slot, _ in body[1]]
    elif body[0] == "map" and form == "stringpairs":
        parts = [(body[2][2], body[2][0], body[2][1])]
    elif form == "stringprefix":
        parts = [(at, ty, False) for _, at, ty, _ in body[1]]
    else:
        parts = []
    for at, ty, nullable in parts:
        if nullable or not is_text(rows, ty):
            yield at


def optionalplace(rows, number):
    """In a tuple a field must be there, and one before it needn't; a field of a join needn't be there."""
    form = form_of(rows, number)[0]
    seen = False
    for _, at, optional, _, _ in rows[number][1][1] if form in ("tuple", "stringjoin") else []:
        if optional if form == "stringjoin" else seen and not optional:
            yield at
        seen = seen or optional


def implicit(rows, number):
    """A field with a value for when it is left out is optional, the value isn't one of its type, or no block holds it."""
    body = rows[number][1]
    for _, at, optional, slot, opts in body[1] if body[0] == "struct" else []:
        if "implicit" in opts:
            value = opts["implicit"]
            wanted = {"bool": bool, "int": int, "string": str}.get(behind_copies(rows, slot[0])[0])
            too_long = isinstance(value, str) and len(value.encode()) > LONGEST_TEXT
            if optional or type(value) is not wanted or too_long:
                yield at


def nameclash(rows, number):
    """Two names, two names in a block, two discriminants or two values of one type are equal, or two keys of one block."""
    body, form = rows[number][1], form_of(rows, number)
    if body[0] == "struct":
        yield from repeated((field[1], ("name", field[0]), ("block", represented(field))) for field in body[1])
    if body[0] == "enum":
        yield from repeated(value_names(body[1], form))
    if body[0] != "union":
        return
    if form[0] == "envelope" and form[1] == form[2]:
        yield rows[number][2]
    clashes = list(repeated(member_names(body[1], form)))
    if form[0] == "inline":
        clashes += [at for _, at, ty, _ in marked(body[1], form) if form[1] in block_names(rows, ty)]
    yield from sorted(clashes)


def repeated(parts):
    """The places of the parts of which a name, or whatever must differ, stood at a part before. Each is a place and these."""
    before = set()
    for at, *names in parts:
        if before & set(names):
            yield at
        before |= set(names)


def value_names(members, form):
    """A member's name, and its value in a block. In an enum of integers one without a text isn't asked."""
    for name, at, text in members:
        if form[0] == "string":
            yield at, ("name", name), ("value", name if text is None else text)
        elif integer(text) is not None:
            yield at, ("name", name), ("value", integer(text))
        elif text is not None:
            yield at, ("name", name)


def member_names(members, form):
    """A member's name, and its discriminant where the form has them. One that lacks its text or kind isn't asked."""
    for name, at, _, mark in marked(members, form):
        if form[0] in ("keyed", "envelope", "inline"):
            yield at, ("name", name), ("discriminant", mark[1])
        else:
            yield at, ("name", name)


def block_names(rows, number):
    """The names that fields have in a block, where the type is a struct of any form."""
    body = behind_copies(rows, number)
    return [represented(field) for field in body[1]] if body[0] == "struct" else []


def inlinemember(rows, number):
    """A member of an inline union is no struct as a map."""
    body = rows[number][1]
    for _, at, ty, _ in body[1] if form_of(rows, number)[0] == "inline" else []:
        target = behind_copies(rows, ty)
        if target[0] != "struct" or target[2][0] != "map":
            yield at


def mapkey(rows, number):
    """The keys of a map aren't texts alone."""
    body = rows[number][1]
    if body[0] == "map" and not is_text(rows, body[1][0]):
        yield body[1][1]


def strategy(rows, number):
    """What the form needs isn't there, or what it has no place for is.

    A join has no field; a field of a tuple or of a join has a rename or a value for when it is left out; a member has no
    text or no kind, or no hexadecimal behind `bytesprefix`; a member of an enum of integers has no integer.
    """
    body, form = rows[number][1], form_of(rows, number)
    if body[0] == "struct" and form[0] in ("tuple", "stringjoin"):
        if form[0] == "stringjoin" and not body[1]:
            yield rows[number][2]
        for _, at, _, _, opts in body[1]:
            if opts:
                yield at
    if body[0] == "union":
        for member in body[1]:
            if not marked([member], form) or form[0] == "bytesprefix" and prefix(member[3][1], form) is None:
                yield member[1]
    if body[0] == "enum" and form[0] == "int":
        for _, at, text in body[1]:
            if integer(text) is None:
                yield at


RULES = (
    cycle, nullclash, kindclash, prefixclash, delim, nottext,
    optionalplace, implicit, nameclash, inlinemember, mapkey, strategy,
)


def fault_of(rows):
    """The first rule that fails, with its number, its name and the first place at which it fails. None if all hold."""
    for first, last in ((1, 1), (2, 12)):
        for number in range(len(rows)):
            for rule in range(first, last + 1):
                for at in RULES[rule - 1](rows, number):
                    return f"accept {rule} {RULES[rule - 1].__name__}", at
    return None
