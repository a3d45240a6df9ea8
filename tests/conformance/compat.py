"""A plain comparison of types of two schemas, by docs/formats.md: it works out what `compat` may tell.

Nothing of the program is used: the tables are those of `schema.py`, judged by `accept.py`. `answer(old, new, name)` is the set of lines of which one
must be written, and the status. All pairs that the rules ask for are gone through, also behind one for which a rule fails.
"""
import accept
import schema

SCALARS = {"bool", "int", "string", "bytes", "link"}
ANYTHING = (0, True)


def slot(reference):
    """A number and whether null may stand there, without its place."""
    return reference[:2]


def plainly(number):
    return number, False


def named(parts):
    return {part[0]: part for part in parts}


def in_both(body, other):
    """The parts of two types of one form that have one name."""
    later = named(other[1])
    return [(part, later[part[0]]) for part in body[1] if part[0] in later]


# ---- the pairs that are asked for


def asked(body, other):
    form = (body[0], other[0])
    if form == ("list", "list"):
        return [(slot(body[1]), slot(other[1]))]
    if form == ("map", "map"):
        return [(plainly(body[1][0]), plainly(other[1][0])), (slot(body[2]), slot(other[2]))]
    if form == ("struct", "struct"):
        return [(slot(field[3]), slot(later[3])) for field, later in in_both(body, other)]
    if form == ("union", "union"):
        return [(plainly(member[2]), plainly(later[2])) for member, later in in_both(body, other)]
    if form == ("list", "any"):
        return [(slot(body[1]), ANYTHING)]
    if form == ("map", "any") and body[3] == ("map",):
        return [(slot(body[2]), ANYTHING)]
    return []


# ---- the rules on two types


def has_form(body, other):
    is_data = body[0] in SCALARS | {"any", "list"} or body[0] == "map" and body[3] == ("map",)
    return body[0] == other[0] or other[0] == "any" and is_data


def has_strategy(body, other):
    if body[0] != other[0] or body[0] not in ("unit", "map", "struct", "union", "enum"):
        return True
    return body[-1] == other[-1]


def has_fields(body, other):
    fields, later = body[1], [field[0] for field in other[1]]
    if any(field[0] not in later for field in fields):
        return False
    if any(accept.represented(field) != accept.represented(named(other[1])[field[0]]) for field in fields):
        return False
    places = [later.index(field[0]) for field in fields]
    form = body[2][0]
    if form == "map":
        return True
    if form in ("tuple", "stringjoin"):
        return places == list(range(len(fields))) and (form == "tuple" or len(fields) == len(later))
    return places == sorted(places)


def stay_optional(body, other):
    return all(later[2] or not field[2] for field, later in in_both(body, other))


def is_same_value(value, other):
    return type(value) is type(other) and value == other


def stay_implicit(body, other):
    return all(is_same_value(field[4].get("implicit"), later[4].get("implicit")) for field, later in in_both(body, other))


def extras_may_lack(body, other):
    return all(field[2] or field[0] in named(body[1]) for field in other[1])


def mark(member, body):
    """By what a block tells a member: a kind, bytes, a text, or a number."""
    if body[0] == "enum":
        name, _, text = member
        return accept.integer(text) if body[2] == ("int",) else name if text is None else text
    sort, found = member[3][:2] if member[3] else (None, None)
    if body[2] == ("kinded",):
        return found if sort == "kind" else None
    if sort != "text":
        return None
    return accept.prefix(found, body[2]) if body[2] == ("bytesprefix",) else found


def has_members(body, other):
    later = named(other[1])
    return all(member[0] in later and mark(member, body) == mark(later[member[0]], body) for member in body[1])


ON_TYPES = [("2 form", has_form), ("3 strategy", has_strategy)]
ON_STRUCTS = [("4 field", has_fields), ("5 optional", stay_optional), ("6 implicit", stay_implicit), ("7 extra", extras_may_lack)]
ON_MEMBERS = [("8 member", has_members)]


def failing(body, other):
    """The rules that fail for two types, but for that on null."""
    rules = list(ON_TYPES)
    if body[0] == other[0] == "struct":
        rules += ON_STRUCTS
    if body[0] == other[0] and body[0] in ("union", "enum"):
        rules += ON_MEMBERS
    return [name for name, passes in rules if not passes(body, other)]


# ---- all pairs that are reached


def compared(rows, others, first, next):
    """The rules that fail for a pair that is reached, each with the numbers of the pair."""
    found, reached, left = set(), set(), [(plainly(first), plainly(next))]
    while left:
        a, b = left.pop()
        if (a, b) in reached:
            continue
        reached.add((a, b))
        body, other = accept.behind_copies(rows, a[0]), accept.behind_copies(others, b[0])
        fails = failing(body, other) + (["1 null"] if a[1] and not b[1] else [])
        found |= {(name, a[0], b[0]) for name in fails}
        left += asked(body, other)
    return found


def table(source):
    rows = schema.compiled(source)
    fault = accept.fault_of(rows)
    if fault:
        raise schema.Fault(*fault)
    return rows


def number(rows, name):
    return next((n for n, row in enumerate(rows) if row[0] == name and not name.startswith("&")), None)


def answer(old, new, name):
    """The lines of which one must be written, and the status. A source is None where its input isn't there."""
    tables = []
    for role, source in (("schema", old), ("next", new)):
        if source is None:
            return {f"fault 5 input {role} absent\n"}, 5
        try:
            tables.append(table(source))
        except schema.Fault as fault:
            return {f"fault 3 schema {fault}\n"}, 3
    first, later = (number(rows, name) for rows in tables)
    if first is None or later is None:
        return {"fault 2 words\n"}, 2
    found = compared(*tables, first, later)
    return ({f"differ {rule} at {a} {b}\n" for rule, a, b in found}, 1) if found else ({"ok true\n"}, 0)
