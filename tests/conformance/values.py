"""What `new SCHEMA TYPE VALUE` must write, and `show SCHEMA TYPE ROOT` of the root, worked out on plain Python values by docs/values.md,
docs/blocks.md and docs/formats.md.

Nothing of the program is used: schemas are compiled by `schema.py` and judged by `accept.py`, JSON is read and written by Python's own,
blocks are spelled here and hashed by hashlib, and a HAMT is made of its final entries. `answer(source, type, text)` gives the text, the
status and the blocks, the root first, if there are any; `shown_answer(source, type, text)` what `show` writes of that root.

A value of a type is `None` for null, or a tuple that begins with its form: `("scalar", x)` for a bool, an integer, a text, bytes or a
link, `("any", data)`, `("list", values)`, `("map", pairs)` in the order of its entries, `("struct", values)` with `ABSENT` for a field
that isn't there, `("union", number, value)`, `("enum", number)` and `("unit",)`.
"""
import base64
import hashlib
import json
import re

import accept
import schema

LONGEST_BLOCK = 4_194_304
DEEPEST = 96
DEEPEST_JSON = 127
HASH_ALG = 18
BUCKET_SIZE = 3
LEVELS = 32
ABSENT = ("absent",)


class Link(bytes):
    """The bytes of a CID."""


class Refused(Exception):
    """Why a value has no root, as in `4 mismatch`."""


# ---- JSON to data


def data_of(text):
    """The data that the bytes of a DAG-JSON text mean."""
    try:
        source = text.decode()
        if deepest(source) > DEEPEST_JSON or has_half(source):
            raise ValueError
        found = json.loads(source, parse_int=integer, parse_float=no_number, parse_constant=no_number)
        return meant(found)
    except (ValueError, RecursionError) as error:
        raise Refused("3 json") from error


def deepest(source):
    depth = most = 0
    for mark in re.findall(r"[][{}]", re.sub(r'"(?:[^"\\]|\\.)*"', "", source, flags=re.S)):
        depth += 1 if mark in "[{" else -1
        most = max(most, depth)
    return most


def has_half(source):
    """Half of a surrogate pair, which Python would let pass."""
    rest = re.sub(r"\\\\|\\u[dD][89abAB]..\\u[dD][c-fC-F]..", " ", source)
    return re.search(r"\\u[dD][89a-fA-F]", rest)


class NoNumber:
    """A number that is no integer of the range: it means nothing where it stands, and nothing at all where another takes its place."""


def integer(text):
    number = int(text) if len(text) <= 20 else 2**64
    return NoNumber() if text == "-0" or not -(2**63) <= number < 2**64 else number


def no_number(text):
    if text == "NaN" or abs(float(text)) == float("inf"):
        raise ValueError(text)
    return NoNumber()


def meant(found):
    """The data of a JSON value: an object whose only key is `/` is a link, or bytes."""
    if isinstance(found, NoNumber):
        raise ValueError("number")
    if isinstance(found, list):
        return [meant(part) for part in found]
    if not isinstance(found, dict):
        return found
    if list(found) != ["/"]:
        return {key: meant(part) for key, part in found.items()}
    inner = found["/"]
    if isinstance(inner, str):
        return cid_of(inner)
    if isinstance(inner, dict) and list(inner) == ["bytes"] and isinstance(inner["bytes"], str):
        return base64_of(inner["bytes"])
    raise ValueError("reserved")


def base64_of(text):
    if not re.fullmatch("[A-Za-z0-9+/]*", text):
        raise ValueError("bytes")
    found = base64.b64decode(text + "=" * (-len(text) % 4), validate=True)
    if base64.b64encode(found).decode().rstrip("=") != text:
        raise ValueError("bytes")
    return found


def cid_of(text):
    """The CID of a text: version 1 in base32, of any codec and hash."""
    if not re.fullmatch("b[a-z2-7]*", text):
        raise ValueError("cid")
    found = base64.b32decode(text[1:].upper() + "=" * (-len(text[1:]) % 8))
    if cid_text_of(found) != text:
        raise ValueError("cid")
    version, rest = varint(found)
    for _ in range(2):
        _, rest = varint(rest)
    length, digest = varint(rest)
    if version != 1 or length > 64 or len(digest) != length:
        raise ValueError("cid")
    return Link(found)


def varint(found):
    number = 0
    for place, byte in enumerate(found[:9]):
        number |= (byte & 127) << (7 * place)
        if byte < 128:
            if byte == 0 and place:
                break
            return number, found[place + 1 :]
    raise ValueError("varint")


# ---- data to values, by the names of the schema


class Schema:
    def __init__(self, rows):
        self.rows = rows
        self.nodes = []

    def body(self, ty):
        return accept.behind_copies(self.rows, ty)

    def number(self, name):
        """The type of the prelude, or the declared type, that has a name. Inline types and members `&T` are no such types."""
        named = [n for n, row in enumerate(self.rows) if row[0] == name and re.fullmatch("[A-Z][A-Za-z0-9_]*", name, re.A)]
        return named[0] if named else None

    # a value of a slot, by the shown form

    def shown(self, slot, data):
        ty, nullable = slot[:2]
        if data is None:
            need(nullable)
            return None
        body = self.body(ty)
        return getattr(self, "shown_" + body[0], self.shown_scalar)(body, data)

    def shown_scalar(self, body, data):
        need(body[0] == kind_of(data))
        return ("scalar", data)

    def shown_any(self, body, data):
        return ("any", data)

    def shown_list(self, body, data):
        need(kind_of(data) == "list")
        return ("list", [self.shown(body[1], part) for part in data])

    def shown_map(self, body, data):
        need(kind_of(data) == "map")
        for key in data:
            need(self.text_value(body[1][0], key) is not None)
        return ("map", [(key, self.shown(body[2], data[key])) for key in sorted(data, key=key_order)])

    def shown_struct(self, body, data):
        need(kind_of(data) == "map" and set(data) <= {field[0] for field in body[1]})
        return ("struct", [self.shown_field(field, data) for field in body[1]])

    def shown_field(self, field, data):
        name, _, optional, slot, opts = field
        if name in data:
            return self.shown(slot, data[name])
        need(optional or "implicit" in opts)
        return ("scalar", opts["implicit"]) if "implicit" in opts else ABSENT

    def shown_union(self, body, data):
        need(kind_of(data) == "map" and len(data) == 1)
        (name, inner), = data.items()
        for number, member in enumerate(body[1]):
            if member[0] == name:
                return ("union", number, self.shown((member[2], False), inner))
        raise Refused("4 mismatch")

    def shown_enum(self, body, data):
        names = [name for name, _, _ in body[1]]
        need(isinstance(data, str) and data in names)
        return ("enum", names.index(data))

    def shown_unit(self, body, data):
        need(data == {} and kind_of(data) == "map")
        return ("unit",)

    # a value of a type in text form, by the text that represents it; None where the text represents none

    def text_value(self, ty, text):
        body = self.body(ty)
        form = body[-1][0] if body[0] in ("struct", "map", "union", "enum") else ""
        if body[0] == "string":
            return ("scalar", text)
        if body[0] == "enum":
            texts = [name if own is None else own for name, _, own in body[1]]
            return ("enum", texts.index(text)) if text in texts else None
        if form == "stringjoin":
            return self.joined_value(body, text)
        if body[0] == "struct":
            return self.paired_struct(body, text)
        if body[0] == "map":
            return self.paired_map(body, text)
        return self.text_union(body, text, form)

    def text_union(self, body, text, form):
        for number, (_, _, ty, mark) in enumerate(body[1]):
            front = mark[1] if form == "stringprefix" else ""
            if form == "stringprefix" and text.startswith(front) or form == "kinded" and mark[1] == "string":
                inner = self.text_value(ty, text[len(front) :])
                return None if inner is None else ("union", number, inner)
        return None

    def joined_value(self, body, text):
        parts = split(text, body[2][1])
        if parts is None or len(parts) != len(body[1]):
            return None
        return whole("struct", [self.text_value(field[3][0], part) for field, part in zip(body[1], parts)])

    def pairs_in(self, text, inner, entry):
        parts = [] if text == "" else split(text, entry)
        if parts is None or any(inner not in part for part in parts):
            return None
        return [tuple(part.split(inner, 1)) for part in parts]

    def paired_map(self, body, text):
        pairs = self.pairs_in(text, *body[3][1:])
        if pairs is None or len({key for key, _ in pairs}) != len(pairs):
            return None
        if any(self.text_value(body[1][0], key) is None for key, _ in pairs):
            return None
        values = whole("list", [self.text_value(body[2][0], value) for _, value in pairs])
        return values and ("map", [(key, value) for (key, _), value in zip(pairs, values[1])])

    def paired_struct(self, body, text):
        pairs = self.pairs_in(text, *body[2][1:])
        names = [accept.represented(field) for field in body[1]]
        if pairs is None or [key for key, _ in pairs] != [name for name in names if name in dict(pairs)]:
            return None
        return whole("struct", [self.paired_field(field, dict(pairs)) for field in body[1]])

    def paired_field(self, field, given):
        name, _, optional, slot, opts = field
        text = given.get(accept.represented(field))
        if text is not None:
            value = self.text_value(slot[0], text)
            return None if "implicit" in opts and value == ("scalar", opts["implicit"]) else value
        if "implicit" in opts:
            return ("scalar", opts["implicit"])
        return ABSENT if optional else None

    # why a value has no block

    def layers(self, ty, value):
        """The layers of a value, each with the type's form."""
        if value is None:
            return
        body = self.body(ty)
        yield body, value
        for part_ty, part in self.parts(body, value):
            yield from self.layers(part_ty, part)

    def parts(self, body, value):
        if value[0] == "list":
            return [(body[1][0], part) for part in value[1]]
        if value[0] == "map":
            return [(body[2][0], part) for _, part in value[1]]
        if value[0] == "struct":
            return [(field[3][0], part) for field, part in zip(body[1], value[1]) if part is not ABSENT]
        if value[0] == "union":
            return [(body[1][value[1]][2], value[2])]
        return []

    def check_holes(self, ty, value):
        for body, layer in self.layers(ty, value):
            if layer[0] == "struct" and body[2][0] == "tuple":
                there = [part is not ABSENT for part in layer[1]]
                if there != sorted(there, reverse=True):
                    raise Refused("6 hole")

    def deep(self, ty, value):
        if value is None:
            return 0
        body = self.body(ty)
        if value[0] == "any":
            return depth(value[1])
        below = [self.deep(part_ty, part) for part_ty, part in self.parts(body, value)]
        if value[0] == "map":
            below += [self.deep(body[1][0], self.text_value(body[1][0], key)) for key, _ in value[1]]
        return levels(body) + max(below, default=0)

    # the data that represent a value; a broken delimiter is refused where it is met

    def represented(self, ty, value):
        if value is None:
            return None
        body = self.body(ty)
        return getattr(self, "of_" + value[0])(body, value)

    def of_scalar(self, body, value):
        return value[1]

    of_any = of_scalar

    def of_list(self, body, value):
        return [self.represented(body[1][0], part) for part in value[1]]

    def of_map(self, body, value):
        pairs = [(key, self.represented(body[2][0], part)) for key, part in value[1]]
        if body[3][0] == "HAMT":
            return {"hamt": self.node(pairs, 0), "hashAlg": HASH_ALG, "bucketSize": BUCKET_SIZE}
        return self.of_pairs(body[3], pairs)

    def node(self, pairs, level):
        """The data of the HAMT node of these entries; the blocks of the nodes beneath it are kept, those below first."""
        if level == LEVELS:
            raise Refused("8 exhausted")
        slots = {}
        for pair in sorted(pairs, key=lambda pair: pair[0].encode()):
            slots.setdefault(hash_of(pair[0])[level], []).append(pair)
        bits = sum(1 << index for index in slots)
        return [bits.to_bytes(32, "little"), [self.element(slots[index], level) for index in sorted(slots)]]

    def element(self, pairs, level):
        return [[key.encode(), part] for key, part in pairs] if len(pairs) <= BUCKET_SIZE else self.child(pairs, level + 1)

    def child(self, pairs, level):
        block = spelled(self.node(pairs, level))
        self.nodes.append(block)
        return link_to(block)

    def of_pairs(self, form, pairs):
        if form[0] == "map":
            return dict(pairs)
        if form[0] == "listpairs":
            return [list(pair) for pair in pairs]
        inner, entry = form[1:]
        text = joined([key + inner + part for key, part in pairs], entry)
        for key, part in pairs:
            if (key + inner).find(inner) != len(key):
                raise Refused("5 delimiter")
        return text

    def of_struct(self, body, value):
        fields, form = body[1:]
        if form[0] == "tuple":
            return [self.represented(field[3][0], part) for field, part in zip(fields, value[1]) if part is not ABSENT]
        if form[0] == "stringjoin":
            return joined([self.represented(field[3][0], part) for field, part in zip(fields, value[1])], form[1])
        written = [(f, v) for f, v in zip(fields, value[1]) if v is not ABSENT and not is_left_out(f, v)]
        return self.of_pairs(form, [(accept.represented(f), self.represented(f[3][0], v)) for f, v in written])

    def of_union(self, body, value):
        members, form = body[1:]
        _, _, ty, mark = members[value[1]]
        data = self.represented(ty, value[2])
        if form[0] == "keyed":
            return {mark[1]: data}
        if form[0] == "kinded":
            return data
        if form[0] == "envelope":
            return {form[1]: mark[1], form[2]: data}
        if form[0] == "inline":
            return {form[1]: mark[1], **data}
        return accept.prefix(mark[1], form) + data

    def of_enum(self, body, value):
        name, _, text = body[1][value[1]]
        return accept.integer(text) if body[2][0] == "int" else name if text is None else text

    def of_unit(self, body, value):
        return {"null": None, "true": True, "false": False, "emptymap": {}}[body[1]]

    # the shown form of a value

    def data_shown(self, ty, value):
        if value is None:
            return None
        body = self.body(ty)
        form = value[0]
        if form == "list":
            return [self.data_shown(body[1][0], part) for part in value[1]]
        if form == "map":
            return {key: self.data_shown(body[2][0], part) for key, part in value[1]}
        if form == "struct":
            return {field[0]: self.data_shown(field[3][0], part) for field, part in zip(body[1], value[1]) if part is not ABSENT}
        if form == "union":
            name, _, inner, _ = body[1][value[1]]
            return {name: self.data_shown(inner, value[2])}
        return {"enum": lambda: body[1][value[1]][0], "unit": dict}.get(form, lambda: value[1])()


def need(holds):
    if not holds:
        raise Refused("4 mismatch")


def whole(form, parts):
    """A value of these parts, or None where one of them is none."""
    return None if any(part is None for part in parts) else (form, parts)


def kind_of(data):
    for kind, types in (("bool", bool), ("int", int), ("string", str), ("link", Link), ("bytes", bytes), ("list", list), ("map", dict)):
        if isinstance(data, types):
            return kind
    return "null"


def is_left_out(field, value):
    return "implicit" in field[4] and value == ("scalar", field[4]["implicit"]) and type(value[1]) is type(field[4]["implicit"])


def depth(data):
    if isinstance(data, list):
        return 1 + max(map(depth, data), default=0)
    if isinstance(data, dict):
        return 1 + max(map(depth, data.values()), default=0)
    return 0


def levels(body):
    if body[0] in ("struct", "map"):
        return {"listpairs": 2, "HAMT": 5}.get(body[-1][0], 1)
    return 1 if body[0] in ("list", "union", "unit") else 0


# ---- texts and delimiters


def places(text, delimiter):
    """All places at which a delimiter stands, overlapping ones too."""
    return [at for at in range(len(text)) if text.startswith(delimiter, at)]


def split(text, delimiter):
    """The parts between the delimiters; None where two of these overlap."""
    found = places(text, delimiter)
    if any(later - at < len(delimiter) for at, later in zip(found, found[1:])):
        return None
    return text.split(delimiter)


def joined(parts, delimiter):
    text = delimiter.join(parts)
    joints, at = [], 0
    for part in parts[:-1]:
        joints.append(at + len(part))
        at += len(part) + len(delimiter)
    if places(text, delimiter) != joints:
        raise Refused("5 delimiter")
    return text


# ---- data to blocks


def key_order(key):
    return len(key.encode()), key.encode()


def head(major, n):
    for low, size in ((None, 0), (24, 1), (25, 2), (26, 4), (27, 8)):
        if size == 0 and n < 24:
            return bytes([32 * major + n])
        if size and n < 256**size:
            return bytes([32 * major + low]) + n.to_bytes(size, "big")
    raise ValueError(n)


def spelled(data):
    if data is None or isinstance(data, bool):
        return {None: b"\xf6", True: b"\xf5", False: b"\xf4"}[data]
    if isinstance(data, int):
        return head(0, data) if data >= 0 else head(1, -1 - data)
    if isinstance(data, str):
        return head(3, len(data.encode())) + data.encode()
    if isinstance(data, Link):
        return b"\xd8\x2a" + head(2, len(data) + 1) + b"\x00" + bytes(data)
    if isinstance(data, bytes):
        return head(2, len(data)) + data
    if isinstance(data, list):
        return head(4, len(data)) + b"".join(map(spelled, data))
    return head(5, len(data)) + b"".join(spelled(key) + spelled(data[key]) for key in sorted(data, key=key_order))


def cid_text_of(cid):
    return "b" + base64.b32encode(cid).decode().lower().rstrip("=")


def hash_of(key):
    return hashlib.sha256(key.encode()).digest()


def binary_cid(block):
    return b"\x01\x71\x12\x20" + hashlib.sha256(block).digest()


def cid_text(block):
    return cid_text_of(binary_cid(block))


def link_to(block):
    return Link(binary_cid(block))


# ---- data to JSON


def json_text(data):
    """The one JSON text of data, or None where a map whose only key is `/` stands in them."""
    if has_reserved(data):
        return None
    return json.dumps(json_form(data), ensure_ascii=False, separators=(",", ":"))


def has_reserved(data):
    if isinstance(data, dict):
        return list(data) == ["/"] or any(map(has_reserved, data.values()))
    return isinstance(data, list) and any(map(has_reserved, data))


def json_form(data):
    if isinstance(data, Link):
        return {"/": cid_text_of(data)}
    if isinstance(data, bytes):
        return {"/": {"bytes": base64.b64encode(data).decode().rstrip("=")}}
    if isinstance(data, list):
        return [json_form(part) for part in data]
    if isinstance(data, dict):
        return {key: json_form(data[key]) for key in sorted(data, key=str.encode)}
    return data


# ---- the commands


def blocks_of(found, ty, value, room=DEEPEST, over=lambda data: data):
    """The blocks of a value of a type, the root first, or the first refusal: hole, delimiter, depth, exhausted, size. The root's is that of the
    data over the value's own; it leaves room for so many levels of these."""
    found.check_holes(ty, value)
    found.nodes = []
    data = found.represented(ty, value)
    if found.deep(ty, value) > room:
        raise Refused("7 depth")
    blocks = [spelled(over(data))] + found.nodes
    if any(len(block) > LONGEST_BLOCK for block in blocks):
        raise Refused("9 size")
    return blocks


def compiled(source):
    rows = schema.compiled(source)
    fault = accept.fault_of(rows)
    if fault:
        raise schema.Fault(*fault)
    return Schema(rows)


def answer(source, name, text):
    """What `new` writes, the status, and the blocks that are put. The text is None where the input isn't there."""
    try:
        found = compiled(source)
    except schema.Fault as fault:
        return f"fault 3 schema {fault}\n", 3, []
    ty = found.number(name)
    if ty is None:
        return "fault 2 words\n", 2, []
    if text is None:
        return "fault 5 input value absent\n", 5, []
    try:
        blocks = blocks_of(found, ty, found.shown((ty, False), data_of(text)))
    except Refused as refused:
        return f"fault 9 value {refused}\n", 9, []
    return f"root {cid_text(blocks[0])}\n", 0, blocks


def shown_answer(source, name, text):
    """What `show` writes of the root that `new` gives, and the status."""
    found = compiled(source)
    ty = found.number(name)
    written = json_text(found.data_shown(ty, found.shown((ty, False), data_of(text))))
    return ("no 10 reserved\n", 1) if written is None else (f"ok {written}\n", 0)
