"""Rows for the tests of edits at paths, by the plain program of the conformance cases, which builds each value from scratch.

    python3 tests/paths/rows.py overlaps      the rows of crates/ild_path_tests/src/overlaps.rt
    python3 tests/paths/rows.py paths         the rows of crates/ild_path_tests: edits at places, through HAMTs in one another, and of damaged blocks
    python3 tests/paths/rows.py club          what crates/ild_run_tests/src/club.rt tells of each failing call
    python3 tests/paths/rows.py batch         what crates/ild_run_tests/src/batch.rt tells of each failing call
"""
import json
import pathlib
import re
import sys

sys.dont_write_bytecode = True
sys.path.insert(0, str(pathlib.Path(__file__).resolve().parent.parent / "conformance"))
import scripts
import values

# how many letters of a literal stand in a line
WIDEST = 190

# Three texts joined in one another, the innermost part beside the outermost joint, before it or behind.
JOINS = """type I struct { a String b String } representation stringjoin { join "ab" }
type M struct { i I c String } representation stringjoin { join "/" }
type N struct { c String i I } representation stringjoin { join "/" }
type Last struct { n N z String } representation stringjoin { join "abc" }
type First struct { z String n M } representation stringjoin { join "cab" }
type Same struct { n N z String } representation stringjoin { join "zz" }
type Long struct { n N z String } representation stringjoin { join "b/ba" }
"""

OVERLAPS = {
    # the joint of the innermost text and the letter that comes behind it spell the outermost joint
    "BEHIND_A_JOINT": [
        ("Last", '{"n":{"c":"w","i":{"a":"x","b":"y"}},"z":"v"}', ["/n/i/b cy", "/n/i/b bcy", "/n/i/b ", "/n/i/b ab", "/n/i/a c", "/z c", "/z bc"]),
    ],
    # the letter that comes before the joint of the innermost text spells the outermost joint with it
    "BEFORE_A_JOINT": [
        ("First", '{"z":"v","n":{"i":{"a":"x","b":"y"},"c":"w"}}', ["/n/i/a xc", "/n/i/a cx", "/n/i/a ", "/n/i/b c", "/n/i/b ca", "/z xc", "/z ca"]),
    ],
    # the last letter of the innermost part and the first one of the joint spell the joint, one place before it
    "AT_THE_JOINT": [
        ("Same", '{"n":{"c":"w","i":{"a":"x","b":"y"}},"z":"v"}', ["/n/i/b yz", "/n/i/b zy", "/n/i/b z", "/n/i/a z", "/z zv", "/z vz", "/n/c z"]),
    ],
    # joints of all three together spell the outermost one
    "ACROSS_JOINTS": [
        ("Long", '{"n":{"c":"w","i":{"a":"x","b":"y"}},"z":"v"}', ["/n/i/a b", "/n/i/a ba", "/n/c b", "/n/i/b b/", "/n/i/b a/b"]),
        ("Long", '{"n":{"c":"b","i":{"a":"x","b":"y"}},"z":"v"}', ["/n/i/a ", "/n/i/a b", "/n/i/a ba", "/n/i/a a", "/n/c w"]),
    ],
}


def texts(text, indent="        "):
    """A text as a literal, of several lines where it is long."""
    parts, shown = [], quoted(text)[1:-1]
    while len(shown) > WIDEST:
        cut = WIDEST
        while shown[cut] == " " or shown[cut - 1] == "\\" or shown[cut - 2] == "\\":
            cut -= 1
        parts.append(shown[:cut])
        shown = shown[cut:]
    return '"' + ("\\\n" + indent).join([*parts, shown]) + '"'


def overlap_row(found, ty, json, edit):
    path, _, text = edit.partition(" ")
    number = found.number(ty)
    document = scripts.Document(found, number, found.shown((number, False), values.data_of(json.encode())))
    (before,) = values.blocks_of(found, number, document.value)
    after = changed(document, "set", scripts.path_of(path), values.json_text(text).encode())
    assert after == "5 delimiter" or len(after) == 1, (edit, after)
    # A part is set as the item that represents it.
    return f"{ty} {before.hex()} set {path} {values.spelled(text).hex()} => {after[2:] if isinstance(after, str) else after[0].hex()}"


def overlaps():
    found = values.compiled(JOINS.encode())
    print("\nconst SRC: &str =\n    " + texts(JOINS.strip().replace("\n", " ")) + ";")
    print_texts("OVERLAPS", [overlap_row(found, ty, json, edit) for cases in OVERLAPS.values() for ty, json, edits in cases for edit in edits])


# ---- edits at places

CLUB = (pathlib.Path(__file__).resolve().parents[2] / "examples/club/schema.ipldsch").read_text()


def changed(document, verb, path, text):
    """The blocks of a document with an edit, the root first, which it then holds; or the number and the word of a refusal."""
    try:
        value = document.edited(verb, path, text)
        blocks = values.blocks_of(document.found, document.ty, value)
    except values.Refused as refused:
        return str(refused)
    document.value = value
    return blocks


def placed(document, verb, path, text):
    """The item that represents the part which an edit brings, in hexadecimals, or None where the part is refused."""
    if verb == "del":
        return ""
    probe = scripts.Document(document.found, document.ty, document.value)
    if isinstance(changed(probe, verb, path, text), str):
        return None
    slot, value = probe.at(path)
    return " " + values.spelled(probe.rep(slot, value)).hex()


def reply(blocks):
    return f"no {blocks}\n" if isinstance(blocks, str) else f"root {values.cid_text(blocks[0])}\n"


def worked():
    """The edits of the club, each part as its item, and a key that comes to a HAMT and goes."""
    found = values.compiled(CLUB.encode())
    ty = found.number("Club")
    document = scripts.Document(found, ty, found.shown((ty, False), values.data_of(b'{"name":"Kite","users":{}}')))
    print("\nconst CLUB: &str =\n    " + texts(re.sub("\\s+", " ", CLUB.split("\n", 1)[1]).strip()) + ";")
    print("\nconst NO_USERS: &str =\n    " + texts(values.blocks_of(found, ty, document.value)[0].hex()) + ";")
    rows = []
    for line in (pathlib.Path(__file__).resolve().parents[2] / "examples/club/script").read_bytes().splitlines():
        verb, path, text = scripts.command(line)
        item = placed(document, verb, path, text) if verb in ("set", "ins", "del") else None
        if item is not None:
            rows.append(" ".join(line.decode().split(" ")[:2]) + item + " => " + reply(changed(document, verb, path, text)))
    print_texts("CLUB_EDITS", rows)
    abc = hamt_document()
    print("\nconst NO_KEYS: &str =\n    " + texts(values.blocks_of(abc.found, abc.ty, abc.value)[0].hex()) + ";")
    edits = [("set", ["abc"], b"1"), ("set", ["abc"], b"1"), ("del", ["abc"], None)]
    print_texts("ABC_EDITS", [f"{verb} /abc{placed(abc, verb, path, text)} => {reply(changed(abc, verb, path, text))}" for verb, path, text in edits])


def replies(document, script, failing=None):
    """The replies to the lines of a script, of which one, by its number, meets a call of the store that fails."""
    return ["no 12 store" if number == failing else document.reply(line) for number, line in enumerate(script)]


def others_row(clean, refused):
    """The replies, each in a line, with an empty line in place of one that is the same where nothing fails."""
    lines = [reply if reply != was else "" for reply, was in zip(refused, clean)]
    return "\n".join(lines).rstrip("\n") + "\n"


CROWD = """get /users/k113/role
len /users
set /users/k120/age 7
has /users/k120/nick
rep /users/k146
del /users/k132
walk /users
root
"""


def user(name):
    return {"mail": f"{name}@x", "role": "Guest", "age": None, "contact": {"Phone": "1"}}


def session(name, schema, ty, value, script, failing):
    """A value with a script: its blocks, the replies, and those where a line that stores, or one of these lines, meets a call that fails."""
    found = values.compiled(schema.encode())
    number = found.number(ty)
    text = json.dumps(value, separators=(",", ":")).encode()

    def document():
        return scripts.Document(found, number, found.shown((number, False), values.data_of(text)))

    blocks, clean, last = document().blocks(), replies(document(), script), document()
    print(f"\nconst {name}: Session = Session {{")
    for field, told in (
        ("schema", schema),
        ("ty", ty),
        ("root", values.cid_text(blocks[0])),
        ("blocks", "".join(block.hex() + "\n" for block in blocks)),
        ("script", "".join(line.decode() + "\n" for line in script)),
        ("replies", "".join(reply + "\n" for reply in clean)),
    ):
        print(f"    {field}: {lines(told)},")
    print("};")
    edits = [n for n, reply in enumerate(clean) if reply.startswith("root ") and script[n] != b"root"]
    print_rows(f"{name}_EDITS", "&str", [lines(others_row(clean, replies(document(), script, n))) + "," for n in edits])
    if failing:
        print_rows(f"{name}_LINES", "&str", [lines(others_row(clean, replies(document(), script, n))) + "," for n in failing])
    replies(last, script)
    print(f"// {len(set(last.stored.values()) - set(blocks))} blocks come")


def club():
    schema = re.sub("\\s+", " ", CLUB.split("\n", 1)[1]).strip()
    script = (pathlib.Path(__file__).resolve().parents[2] / "examples/club/script").read_bytes().splitlines()
    session("KITE", schema, "Club", {"name": "Kite", "users": {}}, script, [])
    crowd = {name: user(name) for name in ALIKE_KEYS}
    session("CROWD", schema, "Club", {"name": "Kite", "users": crowd}, CROWD.encode().splitlines(), range(6))


# HAMTs in a HAMT, with a node beneath each: those of a batch's lines that ask the store are some reads, and each edit that makes new blocks
ALIKE_KEYS = ("k113", "k120", "k132", "k146")
NEST = "type Nest {String:Leaves} representation advanced HAMT type Leaves {String:Int} representation advanced HAMT"
NEST_SCRIPT = """begin
get /k113/k120
set /k113/k152 5
len /k113
set /k331 {"k113":1,"k120":1,"k132":1,"k146":1}
del /k113/k132
del /k120/k120
commit
commit
get /k331
root
"""


def batch():
    value = {"k113": {key: 0 for key in ALIKE_KEYS}, **{key: {} for key in ALIKE_KEYS[1:]}}
    session("NEST", NEST, "Nest", value, NEST_SCRIPT.encode().splitlines(), [1, 2, 4, 5, 9])


def hamt_document(pairs="{}"):
    found = values.compiled(b"type H {String:Int} representation advanced HAMT")
    ty = found.number("H")
    return scripts.Document(found, ty, found.shown((ty, False), values.data_of(pairs.encode())))


def linked():
    """The root block of a HAMT with one child, before and behind the CID of the child, and the child."""
    document = hamt_document('{"a1":1,"a2":2,"a3":3,"a4":4}')
    root, child = values.blocks_of(document.found, document.ty, document.value)
    front, back = root.split(values.binary_cid(child))
    for name, block in (("FRONT", front), ("BACK", back), ("CHILD", child)):
        print(f"\nconst {name}: &str =\n    " + texts(block.hex()) + ";")
    print("\nconst SET_LAST: &str =\n    " + texts(f"set /a4 5 => {reply(changed(document, 'set', ['a4'], b'5'))}") + ";")


def stopped():
    """Keys of two bytes each, before and behind the one that needs a child."""
    three, four = ({f"\0{chr(n)}": n for n in range(1, last)} for last in (4, 5))
    (root,), (last, child) = (values.blocks_of(it.found, it.ty, it.value) for it in map(hamt_document, map(json.dumps, (three, four))))
    for name, block in (("THREE", root), ("FOURTH", child), ("FOUR", last)):
        print(f"\nconst {name}: &str =\n    " + texts(block.hex()) + ";")
    print("\nconst SET_FOURTH: &str =\n    " + texts(f"set /\0\x04 4 => root {values.cid_text(last)}\n") + ";")


# ---- HAMTs in HAMTs in unions in lists

FOREST = """type Forest [Tree]
type Tree union { | Twigs "t" | Leaf "l" } representation keyed
type Twigs {String:Branch} representation advanced HAMT
type Branch {String:Forest} representation advanced HAMT
type Leaf int
"""


def padded(key):
    return (key.encode() + bytes(32))[:32]


def four(front, last, other):
    """Four keys in a node at the third level, of which the last has this value."""
    return {f"{front}1": other, f"{front}2": other, f"{front}3": other, f"{front}4": last}


def forest(inner, fronts):
    """A list of a leaf and a union that holds a HAMT of HAMTs, at whose last key this forest stands."""
    outer, within = fronts
    return [{"Leaf": 1}, {"Twigs": {**four(outer, four(within, inner, []), {}), "b": four("bb", [], [])}}]


VALUE = forest(forest([{"Twigs": four("pp", four("qq", [{"Leaf": 7}], []), {})}], ("mm", "nn")), ("aa", "xx"))
TO_MIDDLE = "/1/Twigs/aa4/xx4"
TO_INNER = TO_MIDDLE + "/1/Twigs/mm4/nn4"
TO_LAST = TO_INNER + "/0/Twigs/pp4"
MANY = json.dumps(four("uu", four("vv", [{"Leaf": 5}], []), {}), separators=(",", ":"))
BRANCH = json.dumps(four("vv", [{"Leaf": 5}], []), separators=(",", ":"))
ALIKE = "k" * 32

FOREST_EDITS = [
    f"set {TO_LAST}/qq4/0/Leaf 8",
    f'ins {TO_LAST}/qq4/- {{"Leaf":9}}',
    f"ins {TO_LAST}/qq5 []",
    f"ins {TO_LAST}/qq5 []",
    f"del {TO_LAST}/qq5",
    f"del {TO_LAST}/qq5",
    f"del {TO_LAST}/qq1",
    f'set {TO_LAST}/qq1 [{{"Leaf":2}},{{"Twigs":{{}}}}]',
    f"del {TO_LAST}/qq4/0",
    f'set {TO_LAST}/qq4/0/Twigs {MANY}',
    f"set {TO_LAST}/qq4/0/Twigs/uu4/vv4/0/Leaf 6",
    f"del {TO_LAST}/qq4/0/Twigs/uu2",
    f"ins {TO_INNER}/0 {{\"Leaf\":3}}",
    f"del {TO_INNER}/1/Twigs/pp3",
    f"set {TO_MIDDLE}/1/Leaf 5",
    f"del {TO_MIDDLE}/1/Leaf",
    f"del {TO_MIDDLE}/1/Twigs",
    f"set {TO_MIDDLE}/1/Twigs {MANY}",
    f"ins {TO_MIDDLE}/1/Twigs {MANY}",
    f"ins {TO_MIDDLE}/1/Twigs/uu9/x/0/Leaf 1",
    f"set {TO_MIDDLE}/0/Leaf null",
    f"set {TO_MIDDLE}/0/Leaf [",
    f"set {TO_MIDDLE}/2 {{\"Leaf\":3}}",
    *(f"ins /1/Twigs/b/{ALIKE}{n} []" for n in range(1, 5)),
    f"set /1/Twigs/b/{ALIKE}3 [{{\"Leaf\":1}}]",
    f"del /1/Twigs/b/{ALIKE}4",
    "del /1/Twigs/aa4",
    "set /1/Twigs/aa4 {}",
    "del /1",
    "set . []",
]

# edits of which each put and each get is tried
TRIED = [
    ("a leaf is set", f"set {TO_LAST}/qq4/0/Leaf 8"),
    ("a node becomes a bucket", f"del {TO_LAST}/qq1"),
    ("a key comes", f"ins {TO_LAST}/qq5 []"),
    ("an element comes", f'ins {TO_INNER}/- {{"Leaf":3}}'),
    ("a part with nodes comes", f"set {TO_MIDDLE}/1/Twigs/mm2 {BRANCH}"),
]


def forest_document():
    values.hash_of = padded
    found = values.compiled(FOREST.encode())
    ty = found.number("Forest")
    return scripts.Document(found, ty, found.shown((ty, False), VALUE))


def quoted(text):
    plain = text.replace("\\", "\\\\").replace('"', '\\"').replace("\n", "\\n").replace("\0", "\\0")
    return '"' + "".join(c if ord(c) >= 32 else f"\\x{ord(c):02x}" for c in plain) + '"'


def lines(text, indent="     "):
    """A text of lines as a literal, with a line of the source for each, or more where it is long."""
    kept, shown = text.endswith("\n"), text.rstrip("\n").split("\n") if text.strip("\n") else [text]
    front, last = [texts(line, indent)[1:-1] + "\\n" for line in shown[:-1]], texts(shown[-1], indent)[1:-1] + ("\\n" if kept else "")
    return '"' + "".join(line + "\\\n" + indent for line in front) + last + '"'


def print_texts(name, rows):
    print_rows(name, "&str", [texts(row) + "," for row in rows])


def print_rows(name, kind, rows):
    print(f"\nconst {name}: [{kind}; {len(rows)}] = [")
    print("\n".join("    " + row for row in rows))
    print("];")


def forest_rows():
    document = forest_document()
    begun = list(dict.fromkeys(values.blocks_of(document.found, document.ty, document.value)))
    shown = json.dumps(VALUE, separators=(",", ":"))
    print("\npub(crate) const SRC: &str =\n    " + texts(FOREST.strip().replace("\n", " ")) + ";")
    print("\npub(crate) const ROOT: &str =\n    " + texts(begun[0].hex()) + ";")
    print_texts("NODES", [block.hex() for block in begun[1:]])
    rows = [f"set . {shown} => root {values.cid_text(begun[0])}\n"]
    for line in FOREST_EDITS:
        rows.append(f"{line} => {reply(changed(document, *scripts.command(line.encode())))}")
    print_texts("EDITS", rows)
    rows = []
    for name, line in TRIED:
        after = changed(forest_document(), *scripts.command(line.encode()))
        rows.append((f"{line} => {reply(after)}", len(set(after) - set(begun)), len(set(begun) - set(after)) - 1))
    print_rows("TRIED", "Tried", [f"({texts(text)}, {puts}, {gets})," for text, puts, gets in rows])
    line = f'ins {TO_MIDDLE}/- {{"Leaf":3}}'
    after = changed(forest_document(), *scripts.command(line.encode()))
    print("\nconst INSERT: &str =\n    " + texts(f"{line} => {reply(after)}") + ";")
    way = [n for n, block in enumerate(begun[1:]) if block not in after]
    print(f"\nconst ON_THE_WAY: [usize; {len(way)}] = {way};")


def paths():
    worked()
    values.hash_of = padded
    forest_rows()
    linked()
    stopped()


if __name__ == "__main__":
    wanted = {"overlaps": overlaps, "paths": paths, "club": club, "batch": batch}
    if len(sys.argv) != 2 or sys.argv[1] not in wanted:
        sys.exit(__doc__)
    wanted[sys.argv[1]]()
