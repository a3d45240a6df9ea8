#!/usr/bin/env python3
"""Writes the cases of `show` in `show/`: the values of `new_cases.py`, read back from their blocks, and trees of blocks that no value has.

    python3 tests/conformance/show_cases.py

What a value is shown as is worked out by `values.py`. Damaged trees are made here, of plain data, with links that fit their blocks, so
that one block at a time is at fault: it isn't held, it is no spelling within the limits, or it isn't what has to stand there.
"""
import shutil
import sys

sys.dont_write_bytecode = True
import new_cases
import values
from new_cases import HAMT, HERE, alike, bytes_of

FOUR = alike(4, 1)
FIVE = alike(5, 1)


def write_show(name, source, ty, root, blocks, text, status):
    held = {values.cid_text(block): block for block in blocks}
    new_cases.write(name, ["show", "s", ty, root], {"s": source}, text, status, held=held.items(), folder="show")


def index_of(key, level=0):
    return values.hash_of(key)[level]


def node(slots):
    """The data of a node with these elements by index."""
    bits = sum(1 << index for index in slots)
    return [bits.to_bytes(32, "little"), [slots[index] for index in sorted(slots)]]


def root_map(at_node, hash_alg=18, bucket_size=3):
    return {"hamt": at_node, "hashAlg": hash_alg, "bucketSize": bucket_size}


def pair(key, value=1):
    return [key.encode(), value]


def node_of(keys, level, value=1):
    slots = {}
    for key in sorted(keys, key=str.encode):
        slots.setdefault(index_of(key, level), []).append(pair(key, value))
    return node(slots)


def over(child):
    """The root block over the block of a child, at the index of the four keys."""
    return values.spelled(root_map(node({index_of(FOUR[0]): values.link_to(child)})))


def is_shape(name, source, ty, root, blocks=(), at=None):
    """A tree whose root, or whose block `at`, isn't what has to stand there."""
    is_at_fault(name, source, ty, root, [root, *blocks], "shape", root if at is None else at)


def is_at_fault(name, source, ty, root, blocks, why, at):
    write_show(name, source, ty, values.cid_text(root), blocks, f"fault 4 root {why} {values.cid_text(at)}\n", 4)


# ---- values that are shown


def shown_values():
    for form, (source, ty, cases) in new_cases.VALUES.items():
        for name, (meant, json) in cases.items():
            if meant == "root":
                _, _, blocks = values.answer(bytes_of(source), ty, bytes_of(json))
                text, status = values.shown_answer(bytes_of(source), ty, bytes_of(json))
                write_show(f"{form}-{name}", source, ty, values.cid_text(blocks[0]), blocks, text, status)


def reserved_values():
    maps = {
        "map": ("type M {String:Int}\n", "M", {"/": 1}),
        "map-in-a-list": ("type L [M]\ntype M {String:Int}\n", "L", [{"a": 1}, {"/": 1}]),
        "any": ("", "Any", [{"/": [1]}]),
        "pairs": ("type P {String:Int} representation listpairs\n", "P", [["/", 1]]),
        "hamt": (HAMT, "H", root_map(node_of(["/"], 0))),
    }
    for name, (source, ty, data) in maps.items():
        block = values.spelled(data)
        write_show(f"reserved-{name}", source, ty, values.cid_text(block), [block], "no 10 reserved\n", 1)
    block = values.spelled({"/": 1, "a": 2})
    write_show("reserved-beside-another-key", "type M {String:Int}\n", "M", values.cid_text(block), [block], 'ok {"/":1,"a":2}\n', 0)


# ---- roots at fault


def roots():
    source, one = "type A int\ntype B bool\ntype L [nullable A]\n", values.spelled(1)
    is_at_fault("root-that-is-missing", source, "A", one, [], "missing", one)
    is_at_fault("root-beside-another-block", source, "A", one, [values.spelled(2)], "missing", one)
    for name, spelling in {
        "that-is-empty": b"",
        "in-a-longer-head": b"\x18\x01",
        "with-bytes-behind": b"\x01\x01",
        "cut-off": b"\x82\x01",
        "that-is-a-float": b"\xf9\x3c\x00",
        "with-keys-out-of-order": b"\xa2\x61b\x01\x61a\x02",
        "nested-too-deep": b"\x81" * 96 + b"\x80",
    }.items():
        is_at_fault(f"root-{name}", source, "A", spelling, [spelling], "cbor", spelling)
    is_shape("root-of-another-kind", source, "B", one)
    is_shape("root-that-is-null", source, "A", values.spelled(None))
    is_shape("root-with-a-wrong-element", source, "L", values.spelled([1, None, "x"]))
    is_shape("root-with-an-implicit-value", "type S struct { n Int (implicit 1) }\n", "S", values.spelled({"n": 1}))
    is_shape("root-with-too-few-elements", "type T struct { a Int b optional Int } representation tuple\n", "T", values.spelled([]))
    # Each list is a member of a union too, which is a level more.
    kinded = "type U union { | Int int | L list } representation kinded\ntype L [U]\n"
    is_shape("root-that-is-deep-by-its-type", kinded, "U", b"\x81" * 48 + b"\x80")


# ---- HAMTs at fault


def hamt_roots():
    good = node_of(FOUR[:3], 0)
    first, second, third = sorted(FOUR[:3], key=str.encode)
    index = index_of(FOUR[0])
    wrong = {
        "of-another-hash": root_map(good, hash_alg=17),
        "of-another-bucket-size": root_map(good, bucket_size=4),
        "of-a-text-for-the-hash": root_map(good, hash_alg="18"),
        "with-a-key-more": {**root_map(good), "x": 1},
        "with-a-key-less": {"hamt": good, "hashAlg": 18},
        "that-is-a-plain-map": {"a": 1},
        "that-is-a-node": good,
        "with-a-short-map": root_map([good[0][1:], good[1]]),
        "with-a-bit-without-element": root_map([node({index: [], (index + 1) % 256: []})[0], good[1]]),
        "with-the-last-bit-beside-its-own": root_map([node({index_of("abc"): [], 255: []})[0], node_of(["abc"], 0)[1]]),
        "with-an-element-without-bit": root_map([bytes(32), good[1]]),
        "with-an-empty-bucket": root_map(node({index: []})),
        "with-a-bucket-of-four": root_map(node({index: [pair(key) for key in sorted(FOUR, key=str.encode)]})),
        "with-a-bucket-out-of-order": root_map(node({index: [pair(second), pair(first), pair(third)]})),
        "with-a-key-twice": root_map(node({index: [pair(first), pair(first)]})),
        "with-an-entry-under-another-index": root_map(node({(index + 1) % 256: [pair(first)]})),
        "with-a-key-as-text": root_map(node({index: [[first, 1]]})),
        "with-a-key-that-is-no-text": root_map(node({index: [[b"\xff", 1]]})),
        "with-an-entry-of-three": root_map(node({index: [pair(first) + [1]]})),
        "with-a-value-of-another-kind": root_map(node_of(FOUR[:3], 0, "x")),
        "with-an-integer-for-an-element": root_map(node({index: 1})),
        "with-a-link-that-is-no-block": root_map(node({index: values.Link(b"\x01\x55\x12\x20" + bytes(32))})),
    }
    for name, data in wrong.items():
        is_shape(f"hamt-{name}", HAMT, "H", values.spelled(data))


def hamt_children():
    child = values.spelled(node_of(FOUR, 1))
    root = over(child)
    is_at_fault("hamt-whose-child-is-missing", HAMT, "H", root, [root], "missing", child)
    for name, spelling in {"no-spelling": b"\x18\x01", "nothing": b""}.items():
        broken = over(spelling)
        is_at_fault(f"hamt-whose-child-is-{name}", HAMT, "H", broken, [broken, spelling], "cbor", spelling)
    stray = next(f"s{n}" for n in range(10_000) if index_of(f"s{n}") != index_of(FOUR[0]))
    wrong = {
        "an-integer": 1,
        "a-root": root_map(node_of(FOUR, 1)),
        "a-node-of-three": node_of(FOUR[:3], 1),
        "a-node-of-none": node({}),
        "a-node-with-a-stray-key": node_of([*FOUR, stray], 1),
        "a-node-of-the-level-above": node_of(FIVE, 0),
        "a-node-with-a-wrong-value": node_of(FOUR, 1, None),
    }
    for name, data in wrong.items():
        spelling = values.spelled(data)
        is_shape(f"hamt-whose-child-is-{name}", HAMT, "H", over(spelling), [spelling], spelling)
    keyed = "type H {E:Int} representation advanced HAMT\ntype E enum { | A }\n"
    is_shape("hamt-with-a-key-of-no-type", keyed, "H", values.spelled(root_map(node_of(["B"], 0))))
    is_shape("hamt-with-a-child-whose-keys-are-of-no-type", keyed, "H", over(child), [child], child)


def deep_children():
    source = "type H {String:Any} representation advanced HAMT\n"
    nested = []
    for _ in range(91):
        nested = [nested]
    child = values.spelled(node_of(FOUR, 1, nested))
    is_shape("hamt-with-a-value-too-deep-in-a-child", source, "H", over(child), [child], child)
    root = values.spelled(root_map(node_of(FOUR[:1], 0, nested)))
    is_at_fault("hamt-with-a-value-too-deep", source, "H", root, [root], "cbor", root)


def inner_hamts():
    """A HAMT in the values of another: the inner one's child hangs beneath the block in which its root stands."""
    source = "type G {String:H} representation advanced HAMT\n" + HAMT
    child = values.spelled(node_of(FOUR, 1))
    inner = root_map(node({index_of(FOUR[0]): values.link_to(child)}))
    at_root = values.spelled(root_map(node_of(FOUR[:1], 0, inner)))
    is_at_fault("inner-hamt-whose-child-is-missing", source, "G", at_root, [at_root], "missing", child)
    outer = values.spelled(node_of(FOUR, 1, inner))
    is_at_fault("inner-hamt-in-a-child-whose-child-is-missing", source, "G", over(outer), [over(outer), outer], "missing", child)
    few = values.spelled(node_of(FOUR[:3], 1))
    short = values.spelled(root_map(node_of(FOUR[:1], 0, root_map(node({index_of(FOUR[0]): values.link_to(few)})))))
    is_shape("inner-hamt-whose-child-is-a-node-of-three", source, "G", short, [few], few)


# ---- what comes before a root


def before_roots():
    source, block = "type A int\n", values.spelled(1)
    root = values.cid_text(block)
    words = "fault 2 words\n"
    texts = {
        "a-name": "root",
        "empty": "",
        "a-dash": "-",
        "cut-off": root[:-1],
        "upper-case": root.upper(),
        "with-a-letter-more": root + "a",
        "of-raw-bytes": new_cases.RAW,
        "of-a-short-digest": "bafkqaaa",
        "of-version-0": "QmYwAPJzv5CZsnA625s3Xf2nemtYgPpHdWEz79ojWnPbdG",
        "of-dag-cbor-with-no-digest": values.cid_text_of(b"\x01\x71\x00\x00"),
        "with-bits-set": root[:-1] + chr(ord(root[-1]) + 1),
    }
    for name, text in texts.items():
        write_show(f"words-root-{name}", source, "A", text, [block], words, 2)
    write_show("words-type-that-is-none", source, "B", root, [], words, 2)
    write_show("words-type-before-the-root", source, "B", values.cid_text(b"x"), [], words, 2)
    write_show("schema-at-fault", "type A float\n", "A", root, [block], "fault 3 schema resolve 3 float at 7\n", 3)
    for name, words_given, text, status in (
        ("words-one-less", ["show", "s", "A"], words, 2),
        ("words-one-more", ["show", "s", "A", root, root], words, 2),
        ("words-upper-case", ["Show", "s", "A", root], words, 2),
        ("schema-absent", ["show", "t", "A", root], "fault 5 input schema absent\n", 5),
        ("words-before-the-schema", ["show", "t", "A", "root"], words, 2),
    ):
        new_cases.write(name, words_given, {"s": source}, text, status, held=[(root, block)], folder="show")


def main():
    shutil.rmtree(HERE / "show", ignore_errors=True)
    for part in (shown_values, reserved_values, roots, hamt_roots, hamt_children, deep_children, inner_hamts, before_roots):
        part()


if __name__ == "__main__":
    main()
