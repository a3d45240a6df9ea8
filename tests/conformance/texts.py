"""Tables of JSON texts for cases of `new`, and of `show` for the values that they make.

`MEANT` has for each form a schema and its rows: a type, a JSON text, and the text as which its value is shown, or why it makes none (`3 json`,
`4 mismatch`, `5 delimiter`, `6 hole`, `7 depth`). What is shown was told by hand, and escapes by python3's `json.dumps`; `values.py` is asked to agree.
"""
from tables import CIDS, JOIN, PAIRS, ZERO_TEXT

JSON, MISMATCH, DELIMITER, HOLE, DEPTH = "3 json", "4 mismatch", "5 delimiter", "6 hole", "7 depth"
SAME = "the same text"


def link(text):
    return '{"/":"%s"}' % text


def octets(text):
    return '{"/":{"bytes":"%s"}}' % text


ANYS = [
    (" true\r\n", "true"),
    ("[true, false]", "[true,false]"),
    ("[0,-1,18446744073709551615]", SAME),
    ("-9223372036854775808", SAME),
    ('{"b":1,"aa":{},"z":[],"é":3}', '{"aa":{},"b":1,"z":[],"é":3}'),
    ('{"a":1.5,"a":2}', '{"a":2}'),
    ('{"/":1,"x":2}', SAME),
    ('"A\\n\\t\\"\\\\\\/\\u00e9\\u0001\\u007f"', '"A\\n\\t\\"\\\\/é\\u0001\x7f"'),
    ('"\\ud83d\\ude00"', '"\U0001f600"'),
    (octets(""), SAME),
    ("[%s]" % octets("AQI"), SAME),
    ('{"x":%s}' % octets("+/8A"), SAME),
    ('{"/":3,"/":%s' % ZERO_TEXT[5:], ZERO_TEXT),
    ('[{"l": %s}]' % ZERO_TEXT, '[{"l":%s}]' % ZERO_TEXT),
    # numbers that no data have
    ("1.5", JSON),
    ("-0", JSON),
    ("1.0", JSON),
    ("1e0", JSON),
    ("18446744073709551616", JSON),
    ("-9223372036854775809", JSON),
    ('[1.5,{"/":1}]', JSON),
    # links that are no CIDs, and bytes that are no base64
    (link(""), JSON),
    (link("x"), JSON),
    ('{"a":[%s],"b":1}' % link("x"), JSON),
    (octets("A"), JSON),
    (octets("AQI="), JSON),
    (octets("AQJ"), JSON),
    (octets("-_8A"), JSON),
    # maps whose key `/` is for links and bytes
    ('{"/":1}', JSON),
    ('{"/":1.5}', JSON),
    ('{"/":null}', JSON),
    ('{"/":[]}', JSON),
    ('{"/":{}}', JSON),
    ('{"/":{"bytes":1}}', JSON),
    ('{"/":{"bytes":"AA","x":1}}', JSON),
    ('{"b":1,"a":{"/":1}}', JSON),
    # no JSON
    ("", JSON),
    ("[1,]", JSON),
    ("1 2", JSON),
    ("1e999", JSON),
    ("01", JSON),
    ("'a'", JSON),
    ('"\\ud800"', JSON),
    ('"\\udc00\\ud800"', JSON),
    ('"\x01"', JSON),
    ("\ufeff1", JSON),
    ('{"/":1', JSON),
]

# texts that are none of a CID: in another base or case, with another letter, with bits left over, and of bytes that are none
NO_CIDS = [
    "",
    "zafyreiaaaaaaaaaaaaaaaaaaaaaaaaaaaaaaaaaaaaaaaaaaaaaaaaaaaa",
    "BAFYREIA",
    "bAE",
    "ba1",
    "ba8",
    "baé",
    "bae======",
    "ba",
    "baf",
    "bafyreiaaaaaaaaaaaaaaaaaaaaaaaaaaaaaaaaaaaaaaaaaaaaaaaaaaab",
    "b",
    "bae",
    "bci",
]

VALUES = """type S struct { a Int b optional String }
type R struct { a Int (rename "b") b Int (rename "a") }
type P {String:Int} representation listpairs
type H {String:Int} representation advanced HAMT
type T struct { a Int b optional Int c optional Int } representation tuple
type I struct { n Int (implicit 0) }
type Dot struct { x Int }
type Box struct { w Int h Int }
type U union { | Dot "dot" | Box "box" } representation keyed
type V union { | Dot "dot" | Box "box" } representation inline { discriminantKey "k" }
type E enum { | No ("0") | Yes ("1") } representation int
type O unit representation emptymap
type L [nullable Int]
type A any
type M struct { z String y optional Bytes w {String:String} v Link n A }
"""
LINK = link("bafyreibwgqhlf3cquwa66c25m4jc3cadrcvcjprzbhmrgmqvb3kt5xbcxu")

KEYED = f"""type W string
type K enum {{ | x | y }}
type C = K
type J struct {{ a K b W }}{JOIN}type Q {{K:W}}{PAIRS}type F struct {{ a W b optional W }}{PAIRS}type N union {{ | W "w" | K "k" }} representation stringprefix
type D union {{ | K string }} representation kinded
type MK {{K:Int}}
type MC {{C:Int}}
type MJ {{J:Int}}
type MQ {{Q:Int}}
type MF {{F:Int}}
type MN {{N:Int}}
type MD {{D:Int}}
type MW {{W:Int}} representation listpairs
type MH {{J:Int}} representation advanced HAMT
"""

JUDGED = f"""type J struct {{ a String b String }}{JOIN}type JJ struct {{ a String b String }} representation stringjoin {{ join "aa" }}
type Q {{String:String}}{PAIRS}type T struct {{ a Int b optional Int c optional Int }} representation tuple
type TJ struct {{ a J b T }}
type M {{J:Int}}
"""

# each type of keys is a struct of the one before, so that `M95` is the deepest map that fits in a block
NESTED = "type B0 string\n" + "".join(
    f"type B{n + 1} struct {{ a B{n} }}{JOIN}type M{n + 1} {{B{n + 1}:Int}}\n" for n in range(100)
)

# a chain of copies
COPIES = "".join(f"type A{n} = A{n + 1}\n" for n in range(199)) + "type A199 = Int\n"

MEANT = {
    "any": ("", [("Any", text, told) for text, told in ANYS]),
    "cid": ("", [("Link", link(text), SAME) for _, text in CIDS if text] + [("Link", link(text), JSON) for text in NO_CIDS]),
    "value": (VALUES, [
        ("S", '{"a":1}', SAME),
        ("S", '{"b":"x","a":1}', '{"a":1,"b":"x"}'),
        ("R", '{"a":1,"b":2}', SAME),
        ("P", '{"b":1,"a":2}', '{"a":2,"b":1}'),
        ("P", "{}", SAME),
        ("H", '{"b":1,"a":2}', '{"a":2,"b":1}'),
        ("T", '{"a":1}', SAME),
        ("T", '{"a":1,"c":3}', HOLE),
        ("I", "{}", '{"n":0}'),
        ("I", '{"n":0}', SAME),
        ("I", '{"n":7}', SAME),
        ("U", '{"Box":{"w":2,"h":3}}', '{"Box":{"h":3,"w":2}}'),
        ("V", '{"Dot":{"x":1}}', SAME),
        ("E", '"Yes"', SAME),
        ("O", "{}", SAME),
        ("L", "[1,null]", SAME),
        ("A", '[null,{"b":1}]', SAME),
        ("Int", "18446744073709551615", SAME),
        ("M", '{"n":[1,{"w":"z"}],"v":%s,"w":{"k":"l"},"y":{"/":{"bytes":"AQI"}},"z":"x"}' % LINK, SAME),
        ("M", '{"n":"m","v":%s,"w":{},"z":""}' % LINK, SAME),
        ("S", '{"a":"x"}', MISMATCH),
        ("S", '{"a":null}', MISMATCH),
        ("S", "[1]", MISMATCH),
        ("S", '{"a":1,"z":1}', MISMATCH),
        ("S", "{}", MISMATCH),
        ("S", '{"b":"x"}', MISMATCH),
        ("T", '{"b":2}', MISMATCH),
        ("I", '{"n":null}', MISMATCH),
        ("U", '{"Dit":{"x":1}}', MISMATCH),
        ("U", '{"dot":{"x":1}}', MISMATCH),
        ("U", "{}", MISMATCH),
        ("U", '{"Dot":{"x":1},"Box":{"w":2,"h":3}}', MISMATCH),
        ("U", '{"Dot":{"y":1}}', MISMATCH),
        ("E", '"1"', MISMATCH),
        ("E", "1", MISMATCH),
        ("O", '{"x":1}', MISMATCH),
        ("O", "null", MISMATCH),
        ("L", '["x"]', MISMATCH),
        ("A", "null", MISMATCH),
    ]),
    "key": (KEYED, [
        ("MW", '{"z":1}', SAME),
        ("MK", '{"x":1}', SAME),
        ("MK", '{"z":1}', MISMATCH),
        ("MK", '{"x":""}', MISMATCH),
        ("MC", '{"y":1}', SAME),
        ("MC", '{"z":1}', MISMATCH),
        ("MJ", '{"x:":1}', SAME),
        ("MJ", '{"x":1}', MISMATCH),
        ("MJ", '{"z:b":1}', MISMATCH),
        ("MJ", '{"x:b:c":1}', MISMATCH),
        ("MQ", '{"":1,"x=1&y=":2}', SAME),
        ("MQ", '{"x=1&x=2":1}', MISMATCH),
        ("MQ", '{"z=1":1}', MISMATCH),
        ("MF", '{"a=1":1}', SAME),
        ("MF", '{"b=1":1}', MISMATCH),
        ("MN", '{"w":1,"kx":2}', '{"kx":2,"w":1}'),
        ("MN", '{"kz":1}', MISMATCH),
        ("MN", '{"z":1}', MISMATCH),
        ("MD", '{"x":1}', SAME),
        ("MD", '{"z":1}', MISMATCH),
        ("MH", '{"y:b":1}', SAME),
        ("MH", '{"b":1}', MISMATCH),
    ]),
    "judged": (JUDGED, [
        ("J", '{"a":"x","b":"y"}', SAME),
        ("J", '{"a":"","b":"y"}', SAME),
        ("J", '{"a":"p:q","b":"y"}', DELIMITER),
        ("JJ", '{"a":"a","b":"b"}', DELIMITER),
        ("JJ", '{"a":"b","b":"b"}', SAME),
        ("JJ", '{"a":"","b":""}', SAME),
        ("Q", '{"a":"1","b":""}', SAME),
        ("Q", '{"a":"1&2"}', DELIMITER),
        ("Q", '{"a=b":"1"}', DELIMITER),
        ("Q", '{"a":"x=y"}', SAME),
        ("Q", "{}", SAME),
        ("T", '{"a":1,"b":2}', SAME),
        ("T", '{"a":1,"b":2,"c":3}', SAME),
        ("TJ", '{"a":{"a":":","b":""},"b":{"a":1,"c":3}}', HOLE),
        ("TJ", '{"a":{"a":":","b":""},"b":{"a":1}}', DELIMITER),
        ("TJ", '{"a":{"a":"","b":""},"b":{"a":1}}', SAME),
        ("M", "{}", SAME),
        ("M", '{"x:y":1}', SAME),
    ]),
    "copy": (COPIES, [("A0", "5", SAME), ("A0", '"5"', MISMATCH)]),
    "nested-key": (NESTED, [
        ("M95", '{"x":1}', SAME),
        ("M96", '{"x":1}', DEPTH),
        ("M100", '{"x":1}', DEPTH),
    ]),
}
