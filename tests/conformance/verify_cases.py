#!/usr/bin/env python3
"""Cases of `verify`: paths through each form, proofs of which something is wrong, and what comes before a proof.

    python3 tests/conformance/verify_cases.py FOLDER      writes the cases there; `run` writes them anew, beside the project's own cases

What `PATHS` asks of each path is told by hand, and `proofs.py` works out the proof and what it says: where the two differ nothing is written,
and the script ends. No case has a folder of blocks.
"""
import pathlib
import sys

sys.dont_write_bytecode = True
import new_cases
import proofs
import show_cases
import values
from new_cases import HAMT, NO_WORDS, alike, bytes_of, entries, octets
from show_cases import node, node_of, over, root_map

REFUSED = ("fault 9 value 16 proof\n", 9)
FOUR = alike(4, 1)
DEEPER = alike(4, 2)
NEXT = next(f"n{n}" for n in range(10_000) if values.hash_of(f"n{n}")[0] == values.hash_of(FOUR[0])[0])
LONG = "x" * 4_194_299
FORMS = """type Form struct {
  name String
  size Int (implicit 7)
  note nullable String
  tags [String]
  spare optional Int
  kind Kind
  pair Pair
  row Row
  any Any
  odd {String:Int}
  link Link
}
type Kind union { | Num int | Word string } representation kinded
type Num int
type Word string
type Pair struct { a String b String } representation stringjoin { join ":" }
type Row struct { x Int y optional Int } representation tuple
"""
FORM = (
    '{"name":"n","note":null,"tags":["a","b"],"kind":{"Word":"w"},"pair":{"a":"p","b":"q"},"row":{"x":1},"any":{"k":[null,{"/":{"bytes":"AQ"}}],"d":{"/":"%s"}},'
    '"odd":{"/":1,"a":2},"link":{"/":"%s"}}' % (new_cases.LEAF, new_cases.LEAF)
)
DEEP = "type G {String:H} representation advanced HAMT\n" + HAMT

# A schema, a type, a value; then a path and the reply that is due, row by row.
PATHS = {
    "abc": (HAMT, "H", '{"abc":1}', [(["abc"], "ok 1"), (["x"], "absent"), (["abc", "x"], "absent")]),
    "four": (HAMT, "H", entries(FOUR), [([key], "ok 1") for key in FOUR] + [([NEXT], "absent"), (["abc"], "absent"), ([""], "absent")]),
    "deeper": (HAMT, "H", entries(DEEPER), [([key], "ok 1") for key in DEEPER] + [(["abc"], "absent")]),
    "none": (HAMT, "H", "{}", [(["a"], "absent"), ([""], "absent")]),
    "deep": (DEEP, "G", entries(FOUR, entries(FOUR)), [([FOUR[0], FOUR[1]], "ok 1"), ([FOUR[0], NEXT], "absent"), ([NEXT, FOUR[0]], "absent"), ([FOUR[0], "abc"], "absent")]),
    "forms": (
        FORMS, "Form", FORM,
        [
            (["name"], 'ok "n"'), (["size"], "ok 7"), (["note"], "ok null"), (["note", "x"], "absent"), (["tags"], 'ok ["a","b"]'), (["tags", "1"], 'ok "b"'), (["tags", "2"], "absent"),
            (["tags", "01"], "absent"), (["tags", "-"], "absent"), (["spare"], "absent"), (["kind"], 'ok "w"'), (["kind", "Word"], 'ok "w"'), (["kind", "Num"], "absent"), (["pair"], 'ok "p:q"'),
            (["pair", "b"], 'ok "q"'), (["pair", "c"], "absent"), (["row"], "ok [1]"), (["row", "y"], "absent"), (["row", "x"], "ok 1"), (["any", "k"], 'ok [null,{"/":{"bytes":"AQ"}}]'),
            (["any", "k", "0"], "ok null"), (["any", "k", "1"], 'ok {"/":{"bytes":"AQ"}}'), (["any", "d"], 'ok {"/":"%s"}' % new_cases.LEAF), (["any", "d", "x"], "absent"), (["odd"], 'ok {"/":1,"a":2}'), (["odd", "/"], "ok 1"),
            (["link"], 'ok {"/":"%s"}' % new_cases.LEAF), (["link", "x"], "absent"), (["name", "x"], "absent"), (["none"], "absent"),
        ],
    ),
    "reserved": ("type W struct { m {String:String} }\n", "W", '{"m":{}}', [([], 'ok {"m":{}}'), (["m"], "ok {}"), (["m", "/"], "absent")]),
    "slash": ("type W struct { m {String:Int} }\n", "W", '{"m":{"/":1,"a":2}}', [(["m", "/"], "ok 1")]),
    "spaces": ("type M {String:Int}\n", "M", '{"a b":1,"c\\nd":2,"e~f":3,"":4,"é":5}', [(["a b"], "ok 1"), (["c\nd"], "ok 2"), (["e~f"], "ok 3"), ([""], "ok 4"), (["é"], "ok 5")]),
    "scalar": ("type A int\n", "A", "18446744073709551615", [([], "ok 18446744073709551615"), (["a"], "absent")]),
    "copy": ("type B = A\ntype A [Int]\n", "B", "[1]", [([], "ok [1]"), (["0"], "ok 1")]),
    "prelude": ("", "Any", "[[]]", [([], "ok [[]]"), (["0"], "ok []"), (["0", "0"], "absent")]),
    "long": (f'type S struct {{ t String (implicit "{LONG}") }}\n', "S", "{}", [(["t"], f'ok "{LONG}"'), (["t", "x"], "absent")]),
}

# What is no path in words, and what is no root.
NO_PATHS = {"without-slash": "a", "empty": "", "two-spaces": "/a b", "tilde": "/a~", "tilde-9": "/~9", "dot-behind": "/a/.x y", "slash-dot": ".a", "space": " "}


def no_root_texts(root):
    return {"a-dash": "-", "empty": "", "raw": new_cases.RAW, "upper-case": root.upper(), "cut-off": root[:-1]}


def write_case(folder, name, source, ty, root, path, proof, told):
    inputs = {role: text for role, text in (("s", source), ("p", proof)) if text is not None}
    new_cases.write(f"verify-{name}", ["verify", "s", ty, root, path, "p"], inputs, *told, folder=folder)


def paths_of_values(folder):
    for form, (source, ty, json, rows) in PATHS.items():
        found = values.compiled(bytes_of(source))
        number = found.number(ty)
        value = found.shown((number, False), values.data_of(bytes_of(json)))
        for place, (path, due) in enumerate(rows, 1):
            blocks, says = proofs.proof(found, number, value, path)
            if proofs.told(says) != (due + "\n", 0):
                raise ValueError(f"{form} {path} is told to be {due[:200]}, and is worked out as {proofs.told(says)[0][:200]}")
            write_damaged(folder, f"{form}-{place}", source, ty, proofs.path_text(path), blocks, (due + "\n", 0))


def write_damaged(folder, name, source, ty, path, blocks, told):
    """The proof, and the same with one block less, twice, elsewhere or more."""
    root, stray = values.cid_text(blocks[0]), values.spelled(["stray"])
    if len(blocks[0]) > 100_000 or len(source) > 100_000:
        return write_case(folder, name, source, ty, root, path, proofs.json_of(blocks), told)
    for way, (given, due) in {
        "": (blocks, told),
        "-less": (blocks[:-1], REFUSED),
        "-last-twice": (blocks + blocks[-1:], REFUSED),
        "-first-twice": (blocks[:1] + blocks, REFUSED),
        "-backwards": (blocks[::-1], told if len(blocks) == 1 else REFUSED),
        "-stray-first": ([stray, *blocks], REFUSED),
        "-stray-last": ([*blocks, stray], REFUSED),
        "-stray-for-the-last": ([*blocks[:-1], stray], REFUSED),
    }.items():
        write_case(folder, name + way, source, ty, root, path, proofs.json_of(given), due)
    write_case(folder, f"{name}-root-of-another", source, ty, values.cid_text(stray), path, proofs.json_of(blocks), REFUSED)


def no_proofs(folder):
    """Inputs that are no list of bytes."""
    block = values.spelled(1)
    one = octets(values.json_form(block)["/"]["bytes"])
    for name, text in {
        "empty": "", "no-json": "[", "behind": f"[{one}] x", "empty-list": "[]", "map": "{}", "null": "null", "bytes-alone": one, "text": f'["{values.cid_text(block)}"]', "base64-text": '["AQ"]',
        "number": "[1]", "float": f"[{one},1.5]", "list-in-it": f"[[{one}]]", "link": '[{"/":"%s"}]' % values.cid_text(block), "null-behind": f"[{one},null]", "padded": '[{"/":{"bytes":"AQ=="}}]', "url-letters": '[{"/":{"bytes":"_w"}}]',
        "bits-left": '[{"/":{"bytes":"AR"}}]', "slash-number": '[{"/":1}]', "more-beside": '[{"/":{"bytes":"AQ"},"x":1}]', "no-utf8": b'["\xff"]', "comma": f"[{one},]",
    }.items():
        write_case(folder, f"input-{name}", "type A int\n", "A", values.cid_text(block), ".", text, REFUSED)
    for name, text in {"blanks": f" [ {one} ] \n", "escaped": '[{"\\/":{"byt\\u0065s":"%s"}}]' % values.json_form(block)["/"]["bytes"]}.items():
        write_case(folder, f"input-{name}", "type A int\n", "A", values.cid_text(block), ".", text, ("ok 1\n", 0))


def write_blocks(folder, name, source, ty, path, blocks, told):
    write_case(folder, name, source, ty, values.cid_text(blocks[0]), proofs.path_text(path), proofs.json_of(blocks), told)


def no_roots(folder):
    """A first block that isn't what stands under the root as a value of the type."""
    for name, spelling in {"empty": b"", "longer-head": b"\x18\x01", "bytes-behind": b"\x01\x01", "float": b"\xf9\x3c\x00", "too-deep": b"\x81" * 96 + b"\x80", "too-long": values.spelled("x" * 4_194_304)}.items():
        write_blocks(folder, f"root-{name}", "type A any\n", "A", [], [spelling], REFUSED)
    write_blocks(folder, "root-of-96-lists", "type A any\n", "A", ["0"] * 95, [b"\x81" * 95 + b"\x80"], ("ok []\n", 0))
    write_blocks(folder, "root-of-another-type", "type A int\n", "A", [], [values.spelled("x")], REFUSED)
    write_blocks(folder, "root-null", "type A int\n", "A", [], [values.spelled(None)], REFUSED)
    write_blocks(folder, "root-wrong-beside-the-path", "type M {String:Int}\n", "M", ["a"], [values.spelled({"a": 1, "b": "x"})], REFUSED)
    write_blocks(folder, "root-reserved", "type M {String:Int}\n", "M", [], [values.spelled({"/": 1})], ("no 10 reserved\n", 1))
    write_blocks(folder, "root-reserved-entered", "type M {String:Int}\n", "M", ["/"], [values.spelled({"/": 1})], ("ok 1\n", 0))
    write_blocks(folder, "root-reserved-within", "type L [M]\ntype M {String:Int}\n", "L", [], [values.spelled([{"/": 1}])], ("no 10 reserved\n", 1))
    for name, data in {
        "hash": root_map(node_of(FOUR[:1], 0), hash_alg=17), "plain-map": {FOUR[0]: 1}, "wrong-value": root_map(node_of(FOUR[:1], 0, "x")),
        "out-of-order": root_map(node({values.hash_of(FOUR[0])[0]: [show_cases.pair(key) for key in sorted(FOUR[:3], reverse=True)]})),
    }.items():
        write_blocks(folder, f"hamt-root-{name}", HAMT, "H", [FOUR[0]], [values.spelled(data)], REFUSED)


def no_children(folder):
    """A second block that has its id, and isn't a node, or has a wrong value at the key."""
    index = values.hash_of(FOUR[0])[1]
    wrong = {key: "x" for key in FOUR[:1]}
    slots = {}
    for key in sorted(FOUR):
        slots.setdefault(values.hash_of(key)[1], []).append([key.encode(), wrong.get(key, 1)])
    for name, spelling in {
        "integer": values.spelled(1), "root": values.spelled(root_map(node_of(FOUR, 1))), "no-block": b"\x18\x01", "nothing": b"", "short-map": values.spelled([node_of(FOUR, 1)[0][1:], node_of(FOUR, 1)[1]]),
        "empty-bucket": values.spelled(node({index: []})), "wrong-value-at-the-key": values.spelled(node(slots)), "list": b"\x80",
    }.items():
        write_blocks(folder, f"child-{name}", HAMT, "H", [FOUR[0]], [over(spelling), spelling], REFUSED)
    # Of a child its form is asked, and of its values the one at the key: what else stands in it a proof of this key can't tell.
    child = values.spelled(node(slots))
    write_blocks(folder, "child-wrong-value-elsewhere", HAMT, "H", [FOUR[1]], [over(child), child], ("ok 1\n", 0))
    few = values.spelled(node_of(FOUR[:1], 1))
    write_blocks(folder, "child-that-need-not-be", HAMT, "H", [FOUR[0]], [over(few), few], ("ok 1\n", 0))


def before_proofs(folder):
    block = values.spelled(1)
    root, good, source = values.cid_text(block), proofs.json_of([block]), "type A int\n"
    for name, path in NO_PATHS.items():
        write_case(folder, f"path-{name}", source, "A", root, path, good, NO_WORDS)
    for name, path in {"slash": "/", "slashes": "//", "dot-segment": "/.", "tilde-0": "/~0"}.items():
        write_case(folder, f"path-{name}", source, "A", root, path, good, ("absent\n", 0))
    for name, text in no_root_texts(root).items():
        write_case(folder, f"root-text-{name}", source, "A", text, ".", good, NO_WORDS)
    write_case(folder, "type-that-is-none", source, "B", root, ".", good, NO_WORDS)
    write_case(folder, "type-before-the-proof", source, "B", root, ".", None, NO_WORDS)
    write_case(folder, "path-before-the-schema", None, "A", root, "a", good, NO_WORDS)
    write_case(folder, "schema-absent", None, "A", root, ".", good, ("fault 5 input schema absent\n", 5))
    write_case(folder, "schema-at-fault", "type A float\n", "A", root, ".", None, ("fault 3 schema resolve 3 float at 7\n", 3))
    write_case(folder, "proof-absent", source, "A", root, ".", None, ("fault 5 input proof absent\n", 5))
    words = {"a-word-less": ["verify", "s", "A", root, "."], "a-word-more": ["verify", "s", "A", root, ".", "p", "p"], "upper-case": ["Verify", "s", "A", root, ".", "p"], "of-run": ["run", "s", "A", root, ".", "p"]}
    new_cases.write_words("verify-", words, {"s": source, "p": good}, folder)


def write_all(folder):
    new_cases.write_parts(folder, paths_of_values, no_proofs, no_roots, no_children, before_proofs)


if __name__ == "__main__":
    if len(sys.argv) != 2:
        sys.exit(__doc__)
    write_all(pathlib.Path(sys.argv[1]).resolve())
