"""Rows for the tests of views: blocks from the plain encoder of the conformance cases, which asks no schema, and what stands in each.

Run it and paste what it prints into crates/ild_layer_tests/src/views_at.rt."""
import pathlib
import sys

sys.path.insert(0, str(pathlib.Path(__file__).resolve().parent.parent / "conformance"))
from values import Link, head, spelled as spell


CID = Link(b"\x01\x71\x12\x20" + bytes(32))
ROOT = {"hamt": [bytes(32), []], "hashAlg": 18, "bucketSize": 3}
# a root is no map in the order of its keys
HAMT = (
    head(5, 3) + spell("hamt") + spell(ROOT["hamt"]) + spell("hashAlg") + spell(18) + spell("bucketSize") + spell(3)
)

S = {"i": -5, "s": "hi", "t": True, "y": b"\x01\x02", "l": CID, "n": None}
FULL = {"i": 7, "s": "", "t": False, "y": b"", "l": CID, "n": 3, "o": "yes", "d": 9}

ROWS = {
    "SCALARS": [
        ("S", spell(S), [], "parts 7"),
        ("S", spell(S), ["i"], "int -5"),
        ("S", spell(S), ["s"], "text hi"),
        ("S", spell(S), ["t"], "bool true"),
        ("S", spell(S), ["y"], "bytes 0102"),
        ("S", spell(S), ["l"], "link " + bytes(CID).hex()),
        ("S", spell(S), ["n"], "null"),
        ("S", spell(S), ["o"], "nowhere 0"),
        ("S", spell(S), ["d"], "int 4"),
        ("S", spell(S), ["x"], "nowhere 0"),
        ("S", spell(S), ["i", "i"], "nowhere 1"),
    ],
    "FULL": [
        ("S", spell(FULL), [], "parts 8"),
        ("S", spell(FULL), ["o"], "text yes"),
        ("S", spell(FULL), ["d"], "int 9"),
        ("T", spell([1]), [], "parts 1"),
        ("T", spell([1]), ["b"], "nowhere 0"),
        ("T", spell([1, 2, [3, None]]), [], "parts 3"),
        ("T", spell([1, 2, [3, None]]), ["c"], "parts 2"),
        ("T", spell([1, 2, [3, None]]), ["c", "0"], "int 3"),
        ("T", spell([1, 2, [3, None]]), ["c", "1"], "null"),
        ("T", spell([1, 2, [3, None]]), ["c", "2"], "nowhere 1"),
        ("T", spell([1, 2, [3, None]]), ["c", "00"], "nowhere 1"),
    ],
    "MAPS": [
        ("M", spell({}), [], "parts 0"),
        ("M", spell({"aa": [1], "b": []}), [], "parts 2"),
        ("M", spell({"aa": [1], "b": []}), ["b"], "parts 0"),
        ("M", spell({"aa": [1], "b": []}), ["aa", "0"], "int 1"),
        ("M", spell({"aa": [1], "b": []}), ["a"], "nowhere 0"),
        ("P", spell([["b", 1], ["a", 2]]), [], "parts 2"),
        ("P", spell([["b", 1], ["a", 2]]), ["a"], "int 2"),
        ("Q", spell("b=1&a="), [], "parts 2"),
        ("Q", spell("b=1&a="), ["a"], "text "),
        ("Q", spell(""), [], "parts 0"),
        ("H", HAMT, [], "hamt"),
        ("H", HAMT, ["a"], "enter 0"),
    ],
    "TEXTS": [
        ("J", spell("why:z"), [], "parts 2"),
        ("J", spell("why:z"), ["a"], "enum y"),
        ("J", spell("why:z"), ["b"], "text z"),
        ("K", spell("a=1"), [], "parts 2"),
        ("K", spell("a=1"), ["d"], "text x"),
        ("K", spell("a=1&b=2&d=3"), [], "parts 3"),
        ("K", spell("a=1&b=2&d=3"), ["d"], "text 3"),
        ("R", spell([["a", 1]]), [], "parts 2"),
        ("R", spell([["a", 1]]), ["b"], "int 1"),
        ("R", spell([["a", 1], ["b", 2]]), ["b"], "int 2"),
    ],
    "UNIONS": [
        ("N", spell({"int": 5}), [], "union Int"),
        ("N", spell({"int": 5}), ["Int"], "int 5"),
        ("N", spell({"int": 5}), ["I"], "nowhere 0"),
        ("V", spell({"k": "i", "n": 2}), [], "union I"),
        ("V", spell({"k": "i", "n": 2}), ["I"], "parts 1"),
        ("V", spell({"k": "i", "n": 2}), ["I", "n"], "int 2"),
        ("V", spell({"k": "i", "n": 2}), ["I", "k"], "nowhere 1"),
        ("E", spell("why"), [], "enum y"),
        ("U", spell(None), [], "unit"),
        ("U", spell(None), ["a"], "nowhere 0"),
    ],
    "ANYS": [
        ("A", spell(3), [], "int 3"),
        ("A", spell([None, {"a": CID}]), [], "parts 2"),
        ("A", spell([None, {"a": CID}]), ["0"], "null"),
        ("A", spell([None, {"a": CID}]), ["1"], "parts 1"),
        ("A", spell([None, {"a": CID}]), ["1", "a"], "link " + bytes(CID).hex()),
        ("A", spell([None, {"a": CID}]), ["1", "a", "b"], "nowhere 2"),
        ("A", spell({"0": b"x"}), ["0"], "bytes 78"),
        ("W", head(5, 2) + spell("e") + spell("x") + spell("h") + HAMT, ["h", "k", "z"], "enter 1"),
        ("W", head(5, 2) + spell("e") + spell("x") + spell("h") + HAMT, ["e"], "enum x"),
    ],
}

blocks = []
for ty, block, path, want in (row for rows in ROWS.values() for row in rows):
    if not blocks or blocks[-1][:2] != (ty, block):
        blocks.append((ty, block, []))
    blocks[-1][2].append(("/" + "/".join(path) if path else ".") + " " + want)
print("const PARTS: [&str; %d] = [" % len(blocks))
for ty, block, parts in blocks:
    print('    "' + "\\n\\\n     ".join([f"{ty} {block.hex()} paths", *parts]) + '",')
print("];")
