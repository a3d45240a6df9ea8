"""Tables of scripts with batches, told by hand from docs/formats.md and docs/values.md; `batch_cases.py` makes cases of them.

`FORMS` has for each form of type a schema and a type, a value, edits with the value behind each, and lines that are refused behind them all, by why.
`SCRIPTS` has a schema and a type, a value or None for the empty one, and lines with their replies; `root V` is the root of the value V.
"""
import json

from new_cases import CLUB, LEAF, RAW, alike, link, octets

MAP = "type N {String:Int}\n"
HAMT = "type H {String:Int} representation advanced HAMT\n"
PAIRS = ' representation stringpairs { innerDelim "=" entryDelim "&" }\n'
SHAPES = "type Dot struct { x Int }\ntype Box struct { w Int h Int }\n"
PARTS = "type Phone string\ntype Room struct { f String d String } representation stringjoin { join \"-\" }\n"
NESTED = "type T {String:A} representation advanced HAMT\ntype A {String:B} representation advanced HAMT\ntype B {String:Int} representation advanced HAMT\n"
LINK, OTHER_LINK = link(LEAF), link(RAW)


def text_of(value):
    """The JSON of a value that is made of maps, texts and integers."""
    return json.dumps(value, ensure_ascii=False, separators=(",", ":"), sort_keys=True)


def behind(value, *edits):
    """Sets and removals in maps within maps: the line of each, and the value behind it."""
    rows, value = [], json.loads(text_of(value))
    for path, part in edits:
        *way, last = path
        holder = value
        for key in way:
            holder = holder[key]
        line = "/" + "/".join(path)
        if part is None:
            del holder[last]
        else:
            holder[last] = json.loads(text_of(part))
        rows.append((f"del {line}" if part is None else f"set {line} {text_of(part)}", text_of(value)))
    return rows


def boxes(representation, texts=('"dot"', '"box"')):
    """A union of two structs, in a representation."""
    source = f"type U union {{ | Dot {texts[0]} | Box {texts[1]} }} representation {representation}\n{SHAPES}"
    edits = [
        ("set /Dot/x 2", '{"Dot":{"x":2}}'),
        ('set /Box {"w":2,"h":3}', '{"Box":{"h":3,"w":2}}'),
        ("set /Box/w 5", '{"Box":{"h":3,"w":5}}'),
        ('set . {"Dot":{"x":7}}', '{"Dot":{"x":7}}'),
        ('set /Box {"h":0,"w":0}', '{"Box":{"h":0,"w":0}}'),
    ]
    refused = {
        "2 path": ["set /Dot/x 1", "del /Dot", 'ins /Dot {"x":1}', "set /Pin 1", "len .", "set /Box/x 1"],
        "4 mismatch": ["del /Box", "del /Box/w", 'set /Dot {"w":1}', "set /Box/w null"],
        "3 json": ["set /Dot {"],
    }
    return source, "U", '{"Dot":{"x":1}}', edits, refused


# ---- HAMTs with nodes beneath: keys whose hashes agree in their first byte, and in their first two

FIRST = alike(6, 1)
PAIR = alike(5, 2)


def deep_hamt():
    first = {key: place for place, key in enumerate(FIRST[:3])}
    edits = behind(first, ((FIRST[3],), 3), ((FIRST[4],), 4), ((FIRST[0],), 7), ((FIRST[1],), None), ((FIRST[2],), None), ((FIRST[5],), 5))
    return HAMT, "H", text_of(first), edits, {"2 path": [f"del /{FIRST[1]}", "del /z"], "4 mismatch": [f'set /{FIRST[0]} "x"'], "1 line": ["begin /"]}


def deeper_hamt():
    first = {key: place for place, key in enumerate(PAIR)}
    edits = behind(first, ((PAIR[0],), 9), ((PAIR[1],), None), ((PAIR[2],), None), ((PAIR[1],), 1))
    return HAMT, "H", text_of(first), edits, {"2 path": [f"del /{PAIR[2]}", f"get /{PAIR[2]}"], "3 json": [f"set /{PAIR[0]} 1.5"]}


def nested_hamts():
    """Three deep, each with nodes beneath: the innermost edit changes nodes of all three."""
    a, b, c, d, e = FIRST[:5]
    leaf = {a: 1, b: 2, c: 3}
    first = {a: {a: leaf, b: {}, c: leaf}, b: {}, c: {a: {}}, d: {d: leaf}}
    edits = behind(
        first,
        ((a, a, d), 4),  # a node beneath the innermost
        ((a, d), {**leaf, e: 5}),  # and one beneath that in the middle
        ((a, a, e), 5),
        ((d, d), {key: 0 for key in FIRST}),
        ((d, a), {}),
        ((a, a, a), None),
        ((a, a, b), None),  # three are left, in one bucket
        ((c,), None),
        ((b, b), leaf),
        ((b, b, d), 8),
    )
    refused = {
        "2 path": [f"del /{a}/{a}/{a}", f"set /{c}/{a}/{a} 1", f"del /{b}/{a}"],
        "4 mismatch": [f"set /{a}/{a} 1", f"set /{a}/{a}/{c} null", "del ."],
        "3 json": [f"set /{a}/{a}/{c} x"],
    }
    return NESTED, "T", text_of(first), edits, refused


FORMS = {
    # ---- without parts
    "bool": ("", "Bool", "true", [("set . false", "false"), ("set . true", "true")], {"4 mismatch": ["set . 1", "del ."], "2 path": ["set /a 1", "ins . true"]}),
    "int": ("", "Int", "1", [("set . 24", "24"), ("set . -1", "-1")], {"4 mismatch": ["set . true", "del ."], "3 json": ["set . 1.0"], "2 path": ["len ."]}),
    "string": ("", "String", '"é"', [('set . ""', '""'), ('set . "x"', '"x"')], {"4 mismatch": ["set . 1"], "2 path": ["walk ."]}),
    "bytes": ("", "Bytes", octets(""), [(f"set . {octets('AQI')}", octets("AQI")), (f"set . {octets('AA')}", octets("AA"))], {"3 json": [f"set . {octets('A')}"]}),
    "link": ("type K &Any\n", "K", LINK, [(f"set . {OTHER_LINK}", OTHER_LINK), (f"set . {LINK}", LINK)], {"4 mismatch": ["set . {}"]}),
    "enum": ('type E enum { | Yes ("y") | No }\n', "E", '"Yes"', [('set . "No"', '"No"'), ('set . "Yes"', '"Yes"')], {"4 mismatch": ['set . "y"', "del ."]}),
    "enum-int": ('type E enum { | No ("0") | Low ("-25") } representation int\n', "E", '"No"', [('set . "Low"', '"Low"'), ('set . "No"', '"No"')], {"4 mismatch": ["set . 0"]}),
    "unit-null": ("type U unit representation null\n", "U", "{}", [("set . {}", "{}"), ("set . {}", "{}")], {"4 mismatch": ["set . null"], "2 path": ["len ."]}),
    "unit-emptymap": ("type U unit representation emptymap\n", "U", "{}", [("set . {}", "{}"), ("set . {}", "{}")], {"4 mismatch": ['set . {"a":1}'], "2 path": ["set /a 1"]}),
    "any": ("", "Any", '{"a":[1]}', [
        ("set /b null", '{"a":[1],"b":null}'),
        ("ins /a/- {}", '{"a":[1,{}],"b":null}'),
        ("del /a/0", '{"a":[{}],"b":null}'),
        (f"set /a/0/x {octets('AQI')}", '{"a":[{"x":%s}],"b":null}' % octets("AQI")),
        ('set /a {"y":[[]],"":0}', '{"a":{"":0,"y":[[]]},"b":null}'),
    ], {"2 path": ["del /z", "set /a/y/7 1", "ins /b 1", "set /b/c 1"], "3 json": ['set /b {"/":1}'], "4 mismatch": ["del .", "set . null"]}),
    "copy": ("type C = D\ntype D = List\n", "C", "[]", [("ins /- null", "[null]"), ("ins /0 [1]", "[[1],null]"), ("del /0/0", "[[],null]")], {"2 path": ["set /1/0 1"]}),
    # ---- lists and maps
    "list": ("type L [Int]\n", "L", "[1,2]", [
        ("ins /0 0", "[0,1,2]"),
        ("ins /- 3", "[0,1,2,3]"),
        ("set /1 7", "[0,7,2,3]"),
        ("del /0", "[7,2,3]"),
    ], {"2 path": ["set /3 1", "ins /4 1", "del /3", "set /- 1", "get /00"], "4 mismatch": ["set /0 null"]}),
    "list-nullable": ("type L [nullable Int]\n", "L", "[null]", [("ins /- 1", "[null,1]"), ("set /1 null", "[null,null]"), ("del /0", "[null]")], {"4 mismatch": ["set /0 true"]}),
    "map": (MAP, "N", '{"a":1}', [
        ("set /b 2", '{"a":1,"b":2}'),
        ("ins /aa 3", '{"a":1,"aa":3,"b":2}'),
        ("del /a", '{"aa":3,"b":2}'),
        ("set / 0", '{"":0,"aa":3,"b":2}'),
        ('set . {"c":4}', '{"c":4}'),
    ], {"2 path": ["del /z", "ins /c 1"], "4 mismatch": ["set /a true", "set . []"], "3 json": ["set /a x"], "1 line": ["set /a", "commit .", "begin "]}),
    "map-of-enums": ("type M {K:Int}\ntype K enum { | One | Two }\n", "M", '{"One":1}', [("set /Two 2", '{"One":1,"Two":2}'), ("del /One", '{"Two":2}')], {"4 mismatch": ["set /Three 3"]}),
    "map-listpairs": ("type P {String:Int} representation listpairs\n", "P", '{"a":1}', [
        ("set /b 2", '{"a":1,"b":2}'),
        ("ins /c 3", '{"a":1,"b":2,"c":3}'),
        ("set /b 7", '{"a":1,"b":7,"c":3}'),
        ("del /a", '{"b":7,"c":3}'),
    ], {"2 path": ["ins /b 1", "del /z"], "4 mismatch": ["set /b null"]}),
    "map-stringpairs": (f"type Q {{String:String}}{PAIRS}", "Q", '{"a":"1"}', [
        ('set /b "x=y"', '{"a":"1","b":"x=y"}'),
        ("del /a", '{"b":"x=y"}'),
        ('set /c ""', '{"b":"x=y","c":""}'),
    ], {"5 delimiter": ['set /a "1&2"', 'set /a=b "1"'], "2 path": ["del /a"]}),
    "hamt": (HAMT, "H", '{"abc":1}', [
        ("set /x 2", '{"abc":1,"x":2}'),
        ("set /abc 7", '{"abc":7,"x":2}'),
        ("del /x", '{"abc":7}'),
        ("ins /y 0", '{"abc":7,"y":0}'),
    ], {"2 path": ["del /x", "ins /abc 1"], "4 mismatch": ["set /abc true"]}),
    "hamt-with-a-node": deep_hamt(),
    "hamt-with-nodes-in-a-row": deeper_hamt(),
    "hamts-three-deep": nested_hamts(),
    # ---- structs
    "struct": ('type S struct { a Int b optional Int c Int (implicit 0) d nullable Int (rename "e") }\n', "S", '{"a":1,"c":0,"d":null}', [
        ("ins /b 2", '{"a":1,"b":2,"c":0,"d":null}'),
        ("set /c 5", '{"a":1,"b":2,"c":5,"d":null}'),
        ("set /d 4", '{"a":1,"b":2,"c":5,"d":4}'),
        ("del /b", '{"a":1,"c":5,"d":4}'),
        ("set /c 0", '{"a":1,"c":0,"d":4}'),
    ], {"2 path": ["del /b", "ins /a 1", "set /e 1"], "4 mismatch": ["del /c", "del /a", "set /a null", 'set . {"a":1}']}),
    "struct-tuple": ("type T struct { a Int b optional Int c optional Int } representation tuple\n", "T", '{"a":1}', [
        ("set /b 2", '{"a":1,"b":2}'),
        ("set /c 3", '{"a":1,"b":2,"c":3}'),
    ], {"6 hole": ["del /b", 'set . {"a":1,"c":3}'], "4 mismatch": ["del /a"], "2 path": ["ins /c 1", "del /d"]}),
    "struct-listpairs": ("type S struct { a Int b optional Int } representation listpairs\n", "S", '{"a":1}', [
        ("set /b 2", '{"a":1,"b":2}'),
        ("set /a 0", '{"a":0,"b":2}'),
    ], {"4 mismatch": ["del /a"]}),
    "struct-stringpairs": (f"type S struct {{ a String b optional String }}{PAIRS}", "S", '{"a":"1"}', [
        ('set /b "2"', '{"a":"1","b":"2"}'),
        ('set /a "="', '{"a":"=","b":"2"}'),
    ], {"5 delimiter": ['set /a "x&y"'], "4 mismatch": ["del /a"]}),
    "struct-stringjoin": ('type J struct { a String b String } representation stringjoin { join ":" }\n', "J", '{"a":"x","b":"y"}', [
        ('set /a ""', '{"a":"","b":"y"}'),
        ('set /b "z"', '{"a":"","b":"z"}'),
    ], {"5 delimiter": ['set /a "p:q"'], "4 mismatch": ["del /a"], "2 path": ['ins /a "x"']}),
    # ---- unions
    "union-keyed": boxes("keyed"),
    "union-envelope": boxes('envelope { discriminantKey "k" contentKey "c" }'),
    "union-inline": boxes('inline { discriminantKey "k" }'),
    "union-kinded": ("type U union { | Int int | Words list } representation kinded\ntype Words [String]\n", "U", '{"Int":1}', [
        ("set /Int 2", '{"Int":2}'),
        ('set /Words ["a"]', '{"Words":["a"]}'),
        ('ins /Words/- "b"', '{"Words":["a","b"]}'),
    ], {"4 mismatch": ["del /Words", "set /Int null"], "2 path": ["get /Int", "del /Int", "set /Words/2 0"]}),
    "union-stringprefix": (f'type U union {{ | Phone "p:" | Room "r:" }} representation stringprefix\n{PARTS}', "U", '{"Phone":"12"}', [
        ('set /Phone "34"', '{"Phone":"34"}'),
        ('set /Room {"f":"1","d":"2"}', '{"Room":{"d":"2","f":"1"}}'),
        ('set /Room/d ""', '{"Room":{"d":"","f":"1"}}'),
    ], {"5 delimiter": ['set /Room/f "1-2"'], "2 path": ["del /Phone"]}),
    "union-bytesprefix": ('type U union { | Raw "01" | Key "0203" } representation bytesprefix\ntype Raw bytes\ntype Key bytes\n', "U", '{"Raw":%s}' % octets("qrs"), [
        (f"set /Raw {octets('')}", '{"Raw":%s}' % octets("")),
        (f"set /Key {octets('AQI')}", '{"Key":%s}' % octets("AQI")),
    ], {"4 mismatch": ["del /Key", 'set /Raw ""'], "2 path": ["set /Raw/0 1"]}),
}

# ---- scripts, line by line

BEGIN, ABORT, BATCH = ("begin", "ok null"), ("abort", "ok null"), "no 15 batch"
ANN = '{"age":null,"avatar":{"/":{"bytes":"AQI"}},"contact":{"Phone":"12"},"mail":"ann@x","role":"Admin"}'
BOB = '{"age":41,"contact":{"Phone":"34"},"mail":"bob@x","role":"Guest"}'
KEYS = [f"k{n}" for n in range(40)]


def numbered(lines, reply="ok null"):
    return [(line, reply) for line in lines]


def many(*last):
    """A thousand edits in a batch of few keys, and what follows."""
    sets = [f"set /{KEYS[n * 7 % 40]} {n}" for n in range(1000)]
    value = {KEYS[n * 7 % 40]: n for n in range(1000)}
    return [("set /a 1", 'root {"a":1}'), BEGIN, *numbered(sets), *((line, reply.replace("VALUE", text_of({"a": 1, **value}))) for line, reply in last)]


def back_again(keys):
    """Keys that come and go again in a batch: what is stored is what was there."""
    return [BEGIN, *numbered(f"set /{key} 1" for key in keys), *numbered(f"del /{key}" for key in keys), ("commit", "root {}")]


SCRIPTS = {
    "map-root-inside-and-commit-twice": (MAP, "N", None, [BEGIN, ("set /a 1", "ok null"), ("get /a", "ok 1"), ("root", BATCH), ("commit", 'root {"a":1}'), ("commit", BATCH)]),
    "row-of-two-sets": (HAMT, "H", None, [BEGIN, ("set /abc 1", "ok null"), ("set /abc 2", "ok null"), ("commit", 'root {"abc":2}')]),
    "row-of-an-abort": (HAMT, "H", None, [BEGIN, ("set /abc 1", "ok null"), ABORT, ("root", "root {}")]),
    "begin-in-a-batch": (MAP, "N", None, [BEGIN, ("begin", BATCH), ("set /a 1", "ok null"), ("begin", BATCH), ABORT, ("has /a", "ok false"), ("root", "root {}")]),
    "commit-and-abort-outside": (MAP, "N", '{"a":1}', [("commit", BATCH), ("abort", BATCH), BEGIN, ABORT, ("abort", BATCH), BEGIN, ("commit", 'root {"a":1}'), ("abort", BATCH)]),
    "root-inside": (MAP, "N", None, [("root", "root {}"), BEGIN, ("root", BATCH), ("set /a 1", "ok null"), ("root", BATCH), ("commit", 'root {"a":1}'), ("root", 'root {"a":1}')]),
    "commit-without-an-edit": (HAMT, "H", '{"a":1}', [BEGIN, ("commit", 'root {"a":1}'), BEGIN, ("get /a", "ok 1"), ("commit", 'root {"a":1}'), ("root", 'root {"a":1}')]),
    "commit-twice": (MAP, "N", None, [BEGIN, ("set /a 1", "ok null"), ("commit", 'root {"a":1}'), ("commit", BATCH), BEGIN, ("set /a 2", "ok null"), ("commit", 'root {"a":2}')]),
    "two-batches-of-one-value": (HAMT, "H", None, [BEGIN, ("set /a 1", "ok null"), ("commit", 'root {"a":1}'), ("del /a", "root {}"), BEGIN, ("set /a 1", "ok null"), ("commit", 'root {"a":1}')]),
    "abort-and-the-same-again": (MAP, "N", None, [BEGIN, ("set /a 1", "ok null"), ABORT, ("set /a 1", 'root {"a":1}'), BEGIN, ("set /a 1", "ok null"), ("commit", 'root {"a":1}')]),
    "refused-edits-leave-it-open": (MAP, "N", None, [
        BEGIN, ("del /a", "no 2 path"), ("set /a x", "no 3 json"), ("set /a true", "no 4 mismatch"), ("ins . {}", "no 2 path"), ("root", BATCH), ("set /a 1", "ok null"),
        ("ins /a 2", "no 2 path"), ("get /a", "ok 1"), ("del .", "no 4 mismatch"), ("commit", 'root {"a":1}')]),
    "only-refused-edits": (MAP, "N", '{"a":1}', [BEGIN, ("set /a/b 1", "no 2 path"), ("set /a 1.5", "no 3 json"), ("commit", 'root {"a":1}'), ("root", 'root {"a":1}')]),
    "lines-outside-the-grammar": (MAP, "N", None, [
        *numbered(("begin ", " begin", "begin .", "begins", "Begin", "begin\r", "commit ", "commit\r", "abort 1", "ABORT"), "no 1 line"), BEGIN,
        *numbered(("commit ", "abort\t", "begin .", "commit\r", "put /a 1", "get"), "no 1 line"), ("set /a 1", "ok null"), ("commit", 'root {"a":1}')]),
    "blank-lines-inside": (MAP, "N", None, [("", ""), BEGIN, ("", ""), ("", ""), ("set /a 1", "ok null"), ("", ""), ("commit", 'root {"a":1}'), ("", "")]),
    "reads-inside": (CLUB, "Club", '{"name":"Kite","users":{}}', [
        BEGIN, (f"set /users/ann {ANN}", "ok null"), ("get /users/ann/role", 'ok "Admin"'),
        ("rep /users/ann", 'ok {"age":null,"avatar":{"/":{"bytes":"AQI"}},"contact":{"phone":"12"},"mail":"ann@x","role":"a"}'),
        ('set /users/bob {"mail":"bob@x","role":"Guest","age":41,"contact":{"Room":{"floor":2,"door":7}}}', "ok null"),
        ("get /users/bob/contact", 'ok {"Room":{"door":7,"floor":2}}'), ("rep /users/bob/contact", 'ok {"room":[2,7]}'), ('set /users/bob/contact/Phone "34"', "ok null"),
        ("len /users", "ok 2"), ("del /users/ann/avatar", "ok null"), ("walk /users/ann", 'ok [["mail","ann@x"],["role","Admin"],["age",null],["contact",{"Phone":"12"}]]'),
        ("del /users/ann", "ok null"), ("has /users/ann", "ok false"), ("get /users", f'ok {{"bob":{BOB}}}'), ("get /name", 'ok "Kite"'), ("root", BATCH),
        ('set /users/bob/role "Owner"', "no 4 mismatch"), ("del /users/bob/mail", "no 4 mismatch"), ("del /motto", "no 2 path"),
        ("commit", f'root {{"name":"Kite","users":{{"bob":{BOB}}}}}')]),
    "reads-alone": (HAMT, "H", text_of({key: 1 for key in FIRST}), [BEGIN, ("len .", "ok 6"), (f"get /{FIRST[5]}", "ok 1"), ("has /z", "ok false"), ("get /z", "no 2 path")]),
    "a-map-that-cannot-be-printed": ("type W struct { m {String:String} }\n", "W", '{"m":{}}', [
        BEGIN, ('set /m/~1 "v"', "ok null"), ("get .", "no 10 reserved"), ("get /m/~1", 'ok "v"'), ("len /m", "ok 1"), ("walk .", "no 10 reserved"), ('set /m {"/":"v"}', "no 3 json"),
        ("del /m/~1", "ok null"), ("get .", 'ok {"m":{}}'), ("commit", 'root {"m":{}}')]),
    "too-deep": ("type A any\n", "A", "1", [
        BEGIN, ("set . " + "[" * 97 + "]" * 97, "no 7 depth"), ("set . " + "[" * 96 + "]" * 96, "ok null"), ("ins /0/0/- " + "[" * 95 + "]" * 95, "no 7 depth"),
        ("set . 2", "ok null"), ("commit", "root 2")]),
    "edits-outside-behind-a-commit": (HAMT, "H", None, [
        BEGIN, ("set /a 1", "ok null"), ("commit", 'root {"a":1}'), ("set /b 2", 'root {"a":1,"b":2}'), ("del /a", 'root {"b":2}'),
        BEGIN, ("del /b", "ok null"), ("commit", "root {}"), ("set /c 3", 'root {"c":3}')]),
    "edits-before-and-an-end-inside": (MAP, "N", None, [("set /a 1", 'root {"a":1}'), BEGIN, ("set /b 2", "ok null"), ("del /a", "ok null"), ("get .", 'ok {"b":2}')]),
    "begin-is-the-last-line": (MAP, "N", None, [("set /a 1", 'root {"a":1}'), BEGIN]),
    "many-edits-committed": (MAP, "N", None, many(("get .", "ok VALUE"), ("commit", "root VALUE"), ("root", "root VALUE"))),
    "many-edits-aborted": (MAP, "N", None, many(("get .", "ok VALUE"), ABORT, ("root", 'root {"a":1}'), ("set /b 2", 'root {"a":1,"b":2}'))),
    "many-edits-and-an-end-inside": (MAP, "N", None, many(("get .", "ok VALUE"))),
    "many-edits-of-a-hamt": (HAMT, "H", None, many(("len .", "ok 41"), ("commit", "root VALUE"))),
    "keys-that-come-and-go": (HAMT, "H", None, back_again(KEYS + FIRST + PAIR)),
    "keys-of-a-map-that-come-and-go": (MAP, "N", None, back_again(KEYS)),
    "a-node-that-comes-and-goes": (NESTED, "T", "{}", [
        BEGIN, (f"set /{PAIR[0]} {{}}", "ok null"), (f"set /{PAIR[0]}/{PAIR[0]} {text_of({key: 1 for key in FIRST})}", "ok null"), (f"len /{PAIR[0]}/{PAIR[0]}", "ok 6"),
        (f"del /{PAIR[0]}/{PAIR[0]}", "ok null"), ("commit", 'root {"%s":{}}' % PAIR[0])]),
}
