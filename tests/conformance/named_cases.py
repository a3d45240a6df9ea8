#!/usr/bin/env python3
"""Cases of roots that name their schema: `show ROOT`, and `migrate SCHEMA TYPE ROOT`, which makes such a root.

    python3 tests/conformance/named_cases.py FOLDER      writes the cases there; `run` writes them anew, beside the project's own cases

The values are those of `new_cases.py`, each shown beneath such a root, and moved from a bare root to one. Trees in which one block is at fault are
made here, of plain data. What the block of one root is stands in `SPELLED`, written out by hand: where it isn't what `named` makes, nothing is
written, and the script ends.
"""
import hashlib
import pathlib
import sys

sys.dont_write_bytecode = True
import new_cases
import show_cases
import values
from new_cases import HAMT, NO_WORDS, alike, bytes_of, lists
from show_cases import node, node_of, over, root_map

MAP = "type N {String:Int}"
ANY = "type A any\n"
KINDED = "type U union { | Int int | L list } representation kinded\ntype L [U]\n"
FOUR = alike(4, 1)
LONGEST = 4_194_304
RAW_LINK = values.Link(b"\x01\x55\x12\x20" + hashlib.sha256(b"raw").digest())
SHORT_LINK = values.Link(b"\x01\x71\x12\x10" + hashlib.sha256(b"short").digest()[:16])

# The map {"a": 1} of the type N under `type N {String:Int}`, 19 bytes: the schema's block, and the root up to the id of that block.
SPELLED = (
    "73" + MAP.encode().hex(),
    "a3" "6474797065" "614e" "6576616c7565" "a1616101" "66736368656d61" "d82a582500" "01711220",
)


def text_block(text):
    return values.spelled(text)


def named(name, source, data):
    """The blocks of the root over these data, and of the schema's text."""
    block = text_block(source)
    return values.spelled({"type": name, "value": data, "schema": values.link_to(block)}), block


def check_spelled():
    root, block = named("N", MAP, {"a": 1})
    if (block.hex(), root.hex()) != (SPELLED[0], SPELLED[1] + hashlib.sha256(block).hexdigest()):
        raise ValueError("the root of the map {\"a\": 1} isn't the one that is written out")


def held(blocks):
    return [(values.cid_text(block), block) for block in blocks]


def write_shown(folder, name, root, blocks, told):
    new_cases.write(f"named-{name}", ["show", values.cid_text(root)], {}, *told, held=held(blocks), folder=folder, only=[])


def is_at_fault(folder, name, root, blocks, why, at):
    write_shown(folder, name, root, blocks, (f"fault 4 root {why} {values.cid_text(at)}\n", 4))


def write_moved(folder, name, words, inputs, blocks, told, comes=()):
    """A call of `migrate` over these blocks, where those come."""
    new_cases.write(f"migrate-{name}", ["migrate", *words], inputs, *told, blocks=[*blocks, *comes], held=held(blocks), folder=folder, only=comes)


# ---- values, shown beneath such a root and moved to one


def values_both_ways(folder):
    for form, (source, ty, cases) in new_cases.VALUES.items():
        for name, (meant, json) in cases.items():
            if meant == "root":
                both_ways(folder, f"{form}-{name}", source, ty, json)


def both_ways(folder, name, source, ty, json):
    found = values.compiled(bytes_of(source))
    number = found.number(ty)
    value = found.shown((number, False), values.data_of(bytes_of(json)))
    bare, *nodes = values.blocks_of(found, number, value)
    root, block = named(ty, source, found.represented(number, value))
    if found.deep(number, value) > 95:
        told, comes = ("fault 9 value 7 depth\n", 9), []
    elif max(len(root), len(block)) > LONGEST:
        told, comes = ("fault 9 value 9 size\n", 9), []
    else:
        told, comes = (f"root {values.cid_text(root)}\n", 0), [block, root]
        write_shown(folder, name, root, [root, block, *nodes], values.shown_answer(bytes_of(source), ty, bytes_of(json)))
    write_moved(folder, name, ["s", ty, values.cid_text(bare)], {"s": source}, [bare, *nodes], told, comes)


def edges_of_values(folder):
    for name, source, ty, json in (
        ("map", MAP, "N", '{"a":1}'),
        ("95-levels", ANY, "A", lists(95)),
        ("96-levels", ANY, "A", lists(96)),
        ("95-levels-of-the-type", "type L [L]\n", "L", lists(95)),
        ("96-levels-of-the-type", "type L [L]\n", "L", lists(96)),
        ("empty-schema", "", "Int", "7"),
        ("schema-with-letters-beside-ascii", "# é, and a line\n\ntype N {String:Int}  # no line feed", "N", '{"é":1}'),
        ("longest-schema", "type B bool\n#" + "x" * (LONGEST - 5 - 13), "B", "true"),
        ("schema-a-byte-longer", "type B bool\n#" + "x" * (LONGEST - 5 - 12), "B", "true"),
        ("deep-under-a-longer-schema", "type A any\n#" + "x" * LONGEST, "A", lists(96)),
        ("longest-bare-block", "type T string\n", "T", '"%s"' % ("x" * (LONGEST - 5))),
    ):
        both_ways(folder, name, source, ty, json)
    # `type` and its text, `value`, `schema` and its link, and the head of the map are 62 bytes around a value of this type.
    for name, length in (("longest-root", LONGEST - 5 - 62), ("root-a-byte-longer", LONGEST - 5 - 61)):
        both_ways(folder, name, "type T string\n", "T", '"%s"' % ("x" * length))
    root, block = named("N", MAP, {"/": 1})
    write_shown(folder, "reserved", root, [root, block], ("no 10 reserved\n", 1))
    bare = values.spelled({"a": 1})
    root, block = named("N", MAP, {"a": 1})
    told = (f"root {values.cid_text(root)}\n", 0)
    words = ["s", "N", values.cid_text(bare)]
    new_cases.write("migrate-again", ["migrate", *words], {"s": MAP}, *told, held=held([bare, root, block]), folder=folder, only=[])


# ---- the root, and the schema's block


def no_roots(folder):
    block, good = text_block(MAP), {"type": "N", "value": {"a": 1}, "schema": values.link_to(text_block(MAP))}
    bare = values.spelled({"a": 1})
    is_at_fault(folder, "bare-root", bare, [bare], "shape", bare)
    root = values.spelled(good)
    is_at_fault(folder, "missing", root, [block], "missing", root)
    for name, spelling in {"nothing": b"", "longer-head": b"\x18\x01", "byte-behind": root + b"\x00", "cut-off": root[:-1], "96-lists-as-value": named("A", ANY, values.data_of(bytes_of(lists(96))))[0]}.items():
        is_at_fault(folder, f"root-{name}", spelling, [spelling, block], "cbor", spelling)
    for name, data in {
        "integer": 1, "list": ["N", {"a": 1}, values.link_to(block)], "no-entry": {}, "no-type": {"value": {"a": 1}, "schema": good["schema"]}, "no-value": {"type": "N", "schema": good["schema"]},
        "no-schema": {"type": "N", "value": {"a": 1}}, "an-entry-more": {**good, "more": 1}, "another-name": {"type": "N", "valuf": {"a": 1}, "schema": good["schema"]}, "upper-case": {"Type": "N", "value": {"a": 1}, "schema": good["schema"]},
        "type-integer": {**good, "type": 1}, "type-bytes": {**good, "type": b"N"}, "type-null": {**good, "type": None}, "schema-text": {**good, "schema": MAP}, "schema-bytes": {**good, "schema": bytes(good["schema"])},
        "schema-of-raw-bytes": {**good, "schema": RAW_LINK}, "schema-of-a-short-digest": {**good, "schema": SHORT_LINK}, "schema-null": {**good, "schema": None},
    }.items():
        root = values.spelled(data)
        is_at_fault(folder, f"root-{name}", root, [root, block], "shape", root)


def no_schemas(folder):
    for name, spelling, why in (
        ("integer", values.spelled(1), "shape"), ("bytes", values.spelled(MAP.encode()), "shape"), ("list", values.spelled([MAP]), "shape"), ("nothing", b"", "cbor"), ("longer-head", b"\x78\x13" + MAP.encode(), "cbor"),
        ("byte-behind", text_block(MAP) + b"\x00", "cbor"), ("no-text", b"\x61\xff", "cbor"),
    ):
        root = values.spelled({"type": "N", "value": {"a": 1}, "schema": values.link_to(spelling)})
        is_at_fault(folder, f"schema-{name}", root, [root, spelling], why, spelling)
    root, block = named("N", MAP, {"a": 1})
    is_at_fault(folder, "schema-missing", root, [root], "missing", block)
    for name, source in {
        "bad-character": "type N {String:Int} !", "no-grammar": "type N {String}", "unknown-type": "type N {String:M}\n", "float": "type N float\n", "twice": MAP + "\n" + MAP, "no-map-key": "type N {Int:Int}\n", "cycle": "type N = N\n",
    }.items():
        root, block = named("N", source, {"a": 1})
        is_at_fault(folder, f"schema-{name}", root, [root, block], "shape", block)
    for name in ("M", "", "n", "N ", "&Int", "é"):
        root, block = named(name, MAP, {"a": 1})
        is_at_fault(folder, f"type-{name.encode().hex() or 'empty'}", root, [root, block], "shape", root)
    # The schema's block goes before its type, and that before the value.
    root, block = named("M", "type N float\n", {"a": "x"})
    is_at_fault(folder, "schema-before-the-type", root, [root, block], "shape", block)
    is_at_fault(folder, "schema-missing-before-the-type", root, [root], "missing", block)


# ---- the value


def no_values(folder):
    for name, source, ty, data in (
        ("another-kind", MAP, "N", 1), ("null", MAP, "N", None), ("wrong-at-a-key", MAP, "N", {"a": 1, "b": "x"}), ("null-at-the-top-of-any", ANY, "A", None), ("implicit", "type S struct { n Int (implicit 1) }\n", "S", {"n": 1}),
        ("deep-by-the-type", KINDED, "U", values.data_of(bytes_of(lists(48)))), ("hamt-of-another-hash", HAMT, "H", root_map(node_of(FOUR[:1], 0), 34)), ("hamt-of-another-bucket", HAMT, "H", root_map(node_of(FOUR[:1], 0), 18, 2)),
    ):
        root, block = named(ty, source, data)
        is_at_fault(folder, f"value-{name}", root, [root, block], "shape", root)
    child = values.spelled(node_of(FOUR, 1))
    few = values.spelled(node_of(FOUR[:3], 1))
    for name, at, blocks, why in (
        ("missing", child, [], "missing"), ("cbor", b"\x18\x01", [b"\x18\x01"], "cbor"), ("of-three", few, [few], "shape"), ("integer", values.spelled(1), [values.spelled(1)], "shape"),
    ):
        root, block = named("H", HAMT, root_map(node({show_cases.index_of(FOUR[0]): values.link_to(at)})))
        is_at_fault(folder, f"child-{name}", root, [root, block, *blocks], why, at)


# ---- the words, and what comes before a value is moved


def texts_of_roots(root):
    return {"a-name": "root", "empty": "", "a-dash": "-", "cut-off": root[:-1], "upper-case": root.upper(), "of-raw-bytes": new_cases.RAW, "of-version-0": "QmYwAPJzv5CZsnA625s3Xf2nemtYgPpHdWEz79ojWnPbdG"}


def no_words(folder):
    root, block = named("N", MAP, {"a": 1})
    bare = values.spelled({"a": 1})
    at, at_bare = values.cid_text(root), values.cid_text(bare)
    for name, text in texts_of_roots(at).items():
        new_cases.write(f"named-words-{name}", ["show", text], {}, *NO_WORDS, held=held([root, block]), folder=folder, only=[])
    for name, text in texts_of_roots(at_bare).items():
        write_moved(folder, f"words-{name}", ["s", "N", text], {"s": MAP}, [bare], NO_WORDS)
    words = {"no-root": ["show"], "upper-case-verb": ["Show", at], "a-word-more": ["show", at, "s"], "of-check": ["shows", at]}
    for name, given in words.items():
        new_cases.write(f"named-words-{name}", given, {"s": MAP}, *NO_WORDS, held=held([root, block]), folder=folder, only=[])
    words = {"a-word-less": ["migrate", "s", "N"], "a-word-more": ["migrate", "s", "N", at_bare, "x"], "upper-case-verb": ["Migrate", "s", "N", at_bare], "root-alone": ["migrate", at_bare]}
    for name, given in words.items():
        new_cases.write(f"migrate-words-{name}", given, {"s": MAP}, *NO_WORDS, held=held([bare]), folder=folder, only=[])


def before_moves(folder):
    bare = values.spelled({"a": 1})
    at = values.cid_text(bare)
    for name, words, inputs, told in (
        ("schema-absent", ["t", "N", at], {"s": MAP}, ("fault 5 input schema absent\n", 5)), ("schema-at-fault", ["s", "N", at], {"s": "type N float\n"}, ("fault 3 schema resolve 3 float at 7\n", 3)),
        ("type-that-is-none", ["s", "M", at], {"s": MAP}, NO_WORDS), ("root-before-the-schema", ["t", "N", "root"], {"s": MAP}, NO_WORDS), ("type-before-the-root", ["s", "M", values.cid_text(b"x")], {"s": MAP}, NO_WORDS),
        ("root-missing", ["s", "N", values.cid_text(b"x")], {"s": MAP}, (f"fault 4 root missing {values.cid_text(b'x')}\n", 4)),
        ("root-of-another-kind", ["s", "B", at], {"s": "type B bool\n"}, (f"fault 4 root shape {at}\n", 4)),
    ):
        write_moved(folder, name, words, inputs, [bare], told)
    broken = b"\x18\x01"
    write_moved(folder, "root-of-no-block", ["s", "N", values.cid_text(broken)], {"s": MAP}, [broken], (f"fault 4 root cbor {values.cid_text(broken)}\n", 4))
    root, block = named("N", MAP, {"a": 1})
    write_moved(folder, "named-root", ["s", "N", values.cid_text(root)], {"s": MAP}, [root, block], (f"fault 4 root shape {values.cid_text(root)}\n", 4))
    child = values.spelled(node_of(FOUR, 1))
    write_moved(folder, "child-missing", ["s", "H", values.cid_text(over(child))], {"s": HAMT}, [over(child)], (f"fault 4 root missing {values.cid_text(child)}\n", 4))


def write_all(folder):
    check_spelled()
    new_cases.write_parts(folder, values_both_ways, edges_of_values, no_roots, no_schemas, no_values, no_words, before_moves)


if __name__ == "__main__":
    if len(sys.argv) != 2:
        sys.exit(__doc__)
    write_all(pathlib.Path(sys.argv[1]).resolve())
