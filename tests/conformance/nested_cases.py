#!/usr/bin/env python3
"""Cases of `new` and `show` for each form in every other: a type of one form that holds a type of another, two deep, and a sample of three.

    python3 tests/conformance/nested_cases.py FOLDER      writes the cases there; `run` writes them anew, beside the project's own cases

Nothing of the program is used. A type is written for each pair of forms, and its values are made of those of its parts. Whether the schema is
accepted is told by `schema.py` and `accept.py`, the blocks and the JSON by `values.py`, all of them by the documents alone. Where the schema isn't
accepted, `check` has to tell the same fault. Where it is, `new` has to make these blocks of the JSON, and `show` the JSON of the blocks; and of a block
in which something stands for a part that can't be a value of it (null, or false where null can), `show` has to tell that it is no value of the type.
"""
import itertools
import pathlib
import random
import shutil
import sys

sys.dont_write_bytecode = True
import accept
import new_cases
import schema
import values
from new_cases import bytes_of

SEED = 20
THREE_DEEP = 200
LINKED = values.link_to(b"\xf6")
KIND_WORDS = ("null", "bool", "int", "string", "bytes", "list", "map", "link")
# what parts texts, by how deep the type that is so parted stands: a text in a text is parted by others
JOINS = (":", ";", ",")
PAIRS = (("=", "&"), ("~", "+"), ("!", "^"))


class Type:
    """A type with the types in it, as the text of a schema, and some of its values by their shown form, the fullest first."""

    def __init__(self, source, name, samples):
        self.source, self.name, self.samples = source, name, samples

    def rows(self):
        return schema.compiled(bytes_of(self.source))

    def kinds(self):
        rows = self.rows()
        return accept.kinds(rows, values.Schema(rows).number(self.name))

    def texts(self):
        """The texts that represent the values; none where it isn't accepted, or no text alone."""
        is_text = accept.fault_of(self.rows()) is None and self.kinds() == {"string"}
        return [self.data_of(sample) for sample in self.samples] if is_text else []

    def data_of(self, sample):
        """The data that represent a value."""
        found = values.Schema(self.rows())
        ty = found.number(self.name)
        return found.represented(ty, found.shown((ty, False), sample))


# ---- forms without parts: what stands behind the name, and values

LEAVES = {
    "bool": ("bool", [True, False]),
    "int": ("int", [24, -1]),
    "string": ("string", ["é", ""]),
    "bytes": ("bytes", [b"\x01\xff", b""]),
    "link": ("&Any", [LINKED]),
    "any": ("any", [[None, {"a": b"\x01"}], 1]),
    "unit-null": ("unit representation null", [{}]),
    "unit-true": ("unit representation true", [{}]),
    "unit-false": ("unit representation false", [{}]),
    "unit-emptymap": ("unit representation emptymap", [{}]),
    "enum": ('enum { | Ann ("a") | Bob }', ["Ann", "Bob"]),
    "enum-int": ('enum { | No ("0") | Low ("-25") } representation int', ["Low", "No"]),
}


def leaf(form, name):
    body, samples = LEAVES[form]
    return Type(f"type {name} {body}\n", name, samples)


# ---- forms with parts: each a function of the part's type and how deep it stands, to what stands behind the name and the values


def listed(part, _):
    return f"[{part.name}]", [part.samples, part.samples[:1], []]


def listed_nullable(part, _):
    return f"[nullable {part.name}]", [[None, *part.samples], [None]]


def under_keys(samples):
    """The values under keys of several lengths, the longest first."""
    return {"k" * (len(samples) - place): sample for place, sample in enumerate(samples)}


def mapped(form):
    def of(part, _):
        return f"{{String:{part.name}}}{form}", [under_keys(part.samples), {"": part.samples[0]}, {}]

    return of


def mapped_pairs(part, depth):
    return mapped(pairs(depth))(part, depth)


def keyed_by(form):
    """The part is the key, which a text has to stand for."""

    def of(part, _):
        texts = part.texts()
        return f"{{{part.name}:Int}}{form}", [{text: place for place, text in enumerate(texts)}, {text: 7 for text in texts[:1]}]

    return of


def keyed_by_pairs(part, depth):
    body, values_of = keyed_by("")(part, depth)
    return body.replace(":Int", ":String") + pairs(depth), [{key: str(n) for key, n in sample.items()} for sample in values_of]


def pairs(depth):
    inner, entry = PAIRS[depth]
    return f' representation stringpairs {{ innerDelim "{inner}" entryDelim "{entry}" }}'


def fields(form):
    """A field that is there, and one that needn't be."""

    def of(part, _):
        first, last = part.samples[0], part.samples[-1]
        return f"struct {{ a {part.name} b optional {part.name} }}{form}", [{"a": first, "b": last}, {"a": last}]

    return of


def fields_in_pairs(part, depth):
    return fields(pairs(depth))(part, depth)


def renamed_nullable(part, _):
    first = part.samples[0]
    return f'struct {{ a nullable {part.name} (rename "long") i Int (implicit 1) }}', [{"a": first, "i": 2}, {"a": None, "i": 1}]


def joined(part, depth):
    first, last = part.samples[0], part.samples[-1]
    return f'struct {{ a {part.name} b {part.name} }} representation stringjoin {{ join "{JOINS[depth]}" }}', [{"a": first, "b": last}]


def member(other, value, form, mark="m", other_mark="n"):
    """The part is a member, and another type is one beside it."""

    def of(part, _):
        body = f'union {{ | {part.name} "{mark}" | {other} "{other_mark}" }} representation {form}'
        return body, [{part.name: part.samples[0]}, {other: value}, {part.name: part.samples[-1]}]

    return of


def inline(part, depth):
    """The member beside it is a struct as a map, declared behind the union."""
    body, samples = member(f"Beside{depth}", {"z": 1}, 'inline { discriminantKey "k" }')(part, depth)
    return body + f"\ntype Beside{depth} struct {{ z Int }}", samples


def kind_word(part):
    """The first kind of the part: where it has several, no word fits."""
    return next(kind for kind in KIND_WORDS if kind in part.kinds())


def kinded(part, _):
    word = kind_word(part)
    other, other_word, value = ("String", "string", "s") if word == "int" else ("Int", "int", 7)
    body = f"union {{ | {part.name} {word} | {other} {other_word} }} representation kinded"
    return body, [{part.name: part.samples[0]}, {other: value}]


def kinded_alone(part, _):
    return f"union {{ | {part.name} {kind_word(part)} }} representation kinded", [{part.name: sample} for sample in part.samples]


HOLDERS = {
    "list": listed,
    "list-nullable": listed_nullable,
    "map": mapped(""),
    "map-listpairs": mapped(" representation listpairs"),
    "map-stringpairs": mapped_pairs,
    "hamt": mapped(" representation advanced HAMT"),
    "struct": fields(""),
    "struct-nullable": renamed_nullable,
    "struct-tuple": fields(" representation tuple"),
    "struct-listpairs": fields(" representation listpairs"),
    "struct-stringpairs": fields_in_pairs,
    "struct-stringjoin": joined,
    "keyed": member("Int", 7, "keyed"),
    "envelope": member("Int", 7, 'envelope { discriminantKey "k" contentKey "c" }'),
    "inline": inline,
    "kinded": kinded,
    "kinded-alone": kinded_alone,
    "stringprefix": member("String", "s", "stringprefix", "m-", "n-"),
    "bytesprefix": member("Bytes", b"\x02", "bytesprefix", "00", "ff"),
}
KEYED = {
    "key-of-map": keyed_by(""),
    "key-of-listpairs": keyed_by(" representation listpairs"),
    "key-of-stringpairs": keyed_by_pairs,
    "key-of-hamt": keyed_by(" representation advanced HAMT"),
}
# of what the innermost type is, where a form doesn't take every part
INNERMOST = {
    "map-stringpairs": ["string"],
    "struct-stringpairs": ["string"],
    "struct-stringjoin": ["string"],
    "stringprefix": ["string"],
    "bytesprefix": ["bytes"],
    "inline": ["struct", "int"],
}


def built(chain, depth=0):
    """The type of these forms, each in the one before."""
    name = f"T{depth}"
    if len(chain) == 1:
        return leaf(chain[0], name)
    part = built(chain[1:], depth + 1)
    body, samples = {**HOLDERS, **KEYED}[chain[0]](part, depth)
    return Type(f"type {name} {body}\n{part.source}", name, samples)


def innermost(form):
    return [form] if form in LEAVES else [form, *INNERMOST.get(form, ["int"])]


def two_deep():
    for outer, inner in itertools.product({**HOLDERS, **KEYED}, {**LEAVES, **HOLDERS}):
        yield f"{outer}-of-{inner}", [outer, *innermost(inner)]


def three_deep():
    """A sample of those that are accepted, the same in each run."""
    whole = list(itertools.product({**HOLDERS, **KEYED}, HOLDERS, {**LEAVES, **HOLDERS}))
    random.Random(SEED).shuffle(whole)
    accepted = ((forms, [*forms[:2], *innermost(forms[2])]) for forms in whole)
    for forms, chain in itertools.islice(((f, c) for f, c in accepted if accept.fault_of(built(c).rows()) is None), THREE_DEEP):
        yield "-of-".join(forms), chain


# ---- parts that are spoiled


def spoiled(form, data, wrong):
    """The data of a holder with this in place of its first part, or None where a part is no item of its own."""
    if form in ("list", "struct-tuple"):
        return [wrong, *data[1:]]
    if form in ("map-listpairs", "struct-listpairs"):
        return [[data[0][0], wrong], *data[1:]]
    if form in ("map", "struct", "keyed"):
        return {**data, next(iter(data)): wrong}
    if form == "envelope":
        return {**data, "c": wrong}
    if form == "hamt":
        bits, (((key, _), *bucket), *slots) = data["hamt"]
        return {**data, "hamt": [bits, [[[key, wrong], *bucket], *slots]]}
    return None


def spoiled_block(chain, whole):
    """The block of the fullest value with its first part spoiled: by null, unless null may stand there."""
    part = built(chain[1:], 1)
    wrong = False if "null" in part.kinds() else None
    data = spoiled(chain[0], whole.data_of(whole.samples[0]), wrong)
    return None if data is None else values.spelled(data)


# ---- cases


class Writer:
    def __init__(self, folder):
        self.folder = folder

    def write(self, name, words, given, text, status, **more):
        new_cases.write(name, words, given, text, status, folder=self.folder, **more)

    def write_check(self, name, source, fault):
        self.write(f"check-{name}", ["check", "s"], {"s": source}, "fault 3 schema %s\n" % schema.Fault(*fault), 3)

    def write_new(self, name, whole, json):
        """What `new` makes of a value; its blocks, if it has any."""
        text, status, blocks = values.answer(bytes_of(whole.source), whole.name, bytes_of(json))
        self.write(f"new-{name}", ["new", "s", whole.name, "v"], {"s": whole.source, "v": json}, text, status, blocks=blocks)

    def write_show(self, name, whole, blocks, text, status):
        words = ["show", "s", whole.name, values.cid_text(blocks[0])]
        held = {values.cid_text(block): block for block in blocks}
        self.write(f"show-{name}", words, {"s": whole.source}, text, status, held=held.items())

    def write_shown(self, name, whole, json):
        """What `show` shows of the blocks of a value, if it has any."""
        _, _, blocks = values.answer(bytes_of(whole.source), whole.name, bytes_of(json))
        if blocks:
            self.write_show(name, whole, blocks, *values.shown_answer(bytes_of(whole.source), whole.name, bytes_of(json)))

    def write_nested(self, name, chain, most):
        """The cases of a type of these forms: `new` of its fullest value, and `show` of so many."""
        whole = built(chain)
        fault = accept.fault_of(whole.rows())
        if fault:
            return self.write_check(name, whole.source, fault)
        texts = [values.json_text(sample) for sample in whole.samples[:most]]
        self.write_new(name, whole, texts[0])
        for place, json in enumerate(texts, 1):
            self.write_shown(f"{name}-{place}", whole, json)
        block = spoiled_block(chain, whole)
        if block:
            self.write_show(f"{name}-spoiled", whole, [block], f"fault 4 root shape {values.cid_text(block)}\n", 4)


def write_all(folder):
    shutil.rmtree(folder, ignore_errors=True)
    writer = Writer(folder)
    for name, chain in two_deep():
        writer.write_nested(name, chain, 2)
    for name, chain in three_deep():
        writer.write_nested(name, chain, 1)


if __name__ == "__main__":
    if len(sys.argv) != 2:
        sys.exit(__doc__)
    write_all(pathlib.Path(sys.argv[1]).resolve())
