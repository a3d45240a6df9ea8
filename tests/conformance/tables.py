"""Tables of blocks and of texts, for cases of `show` and `new`: what stands here was told by hand and by other tools, and `values.py`,
which works the same out on plain values, is asked to agree.

`SHOWN` has for each form a schema and its rows: a type, a block, and the JSON of its value, or `cbor` where the bytes are no block within the
limits, or `shape` where they aren't one of the type. The value of such a JSON has that block, but for the rows of `OTHERWISE`, in which pairs stand
in another order than that in which `new` writes them. `TYPED` has for each form a schema and what is asked of a type's JSON texts.
"""
from new_cases import CLUB

CBOR, SHAPE = "cbor", "shape"
ZERO_CID = b"\x01\x71\x12\x20" + bytes(32)
ZERO = b"\xd8\x2a\x58\x25\x00" + ZERO_CID
ZERO_TEXT = '{"/":"bafyreiaaaaaaaaaaaaaaaaaaaaaaaaaaaaaaaaaaaaaaaaaaaaaaaaaaaa"}'
PAIRS = ' representation stringpairs { innerDelim "=" entryDelim "&" }\n'
JOIN = ' representation stringjoin { join ":" }\n'
# the bucket of a HAMT's root at the index of `abc`, whose sha2-256 begins with ba (the first example of FIPS 180-4)
ABC_BITS = bytes(23) + b"\x04" + bytes(8)


def hamt(bits, elements, alg=b"\x12", size=b"\x03"):
    """The root of a HAMT, spelled out."""
    return b"\xa3\x64hamt\x82\x58\x20" + bits + elements + b"\x67hashAlg" + alg + b"\x6abucketSize" + size


# ---- blocks of any data

# {"b": true, "i": -2^63, "l": [1, 24, 256, 65536, 2^32, 2^64-1, false], "m": {"a": [], "bb": {}}, "n": null, "t": "Größe", "by": h'0102',
# "ln": a link}, by the rules of RFC 8949
ALL = bytes.fromhex(
    "a86162f561693b7fffffffffffffff616c8701181819010 01a000100001b00000001000000001bffffffffffffffff"
    "f4616da261618062 6262a0616ef661746747 72c3b6c39f6562627942010262 6c6e".replace(" ", "")
) + ZERO
ALL_TEXT = (
    '{"b":true,"by":{"/":{"bytes":"AQI"}},"i":-9223372036854775808,"l":[1,24,256,65536,4294967296,18446744073709551615,false],"ln":' + ZERO_TEXT
    + ',"m":{"a":[],"bb":{}},"n":null,"t":"Größe"}'
)
# by python3's cbor2, as `dumps(value, canonical=True)`, with tag 42 for a link
CANONICAL = bytes.fromhex(
    "aa616184012080a06163f66164f56165f46166" + ZERO.hex() + "61671bffffffffffffffff61683b7fffffffffffffff"
    "6262624201026 2c3a962c3bc646c6f6e6787181818ff19010019ffff1a000100001affffffff1b0000000100000000".replace(" ", "")
)
CANONICAL_TEXT = (
    '{"a":[1,-1,[],{}],"bb":{"/":{"bytes":"AQI"}},"c":null,"d":true,"e":false,"f":' + ZERO_TEXT + ',"g":18446744073709551615,'
    '"h":-9223372036854775808,"long":[24,255,256,65535,65536,4294967295,4294967296],"é":"ü"}'
)

DATA = [
    ("Any", b"\xf5", "true"),
    ("Any", b"\x17", "23"),
    ("Any", b"\x37", "-24"),
    ("Any", b"\x62\xc3\xa9", '"é"'),
    ("Any", b"\xa2\x61\x62\x01\x62\x61\x61\x02", '{"aa":2,"b":1}'),
    ("Any", b"\x81\x81\x80", "[[[]]]"),
    ("Any", b"\x42\x01\x02", '{"/":{"bytes":"AQI"}}'),
    ("Any", b"\x85\x38\x18\x62\xc3\xa9\x42\x01\x02\xf6\xf5", '[-25,"é",{"/":{"bytes":"AQI"}},null,true]'),
    ("Any", ZERO, ZERO_TEXT),
    ("Any", ALL, ALL_TEXT),
    ("Any", CANONICAL, CANONICAL_TEXT),
]

NO_BLOCKS = [
    ("Any", block, CBOR)
    for block in (
        b"\xa1\x61\x61",
        b"\x9b" + b"\xff" * 8,
        b"\xbb" + b"\xff" * 8,
        b"\x5b" + b"\xff" * 8,
        b"\xf6\xf6",
        b"\x18\x17",
        b"\x19\x00\xff",
        b"\x1a\x00\x00\xff\xff",
        b"\x1b" + bytes(4) + b"\xff" * 4,
        b"\x81\x1c",
        b"\x9f\xff",
        b"\xa1\x7f",
        b"\xd8\x2a\x5f",
        b"\xa1\xff",
        b"\xa2\x62\x61\x61\x02\x61\x62\x01",
        b"\xa2\x61\x61\x02\x61\x61\x01",
        b"\xd8\x2b\x40",
        b"\xd8\x2a\x40",
        b"\xd8\x2a\x61\x00",
        b"\x81\x62\xc3\x28",
        b"\xa1\x61\xff\xf6",
        b"\xf9\x3c\x00",
        b"\xf7",
        b"\xfc",
        b"\x3b\x80" + bytes(7),
        b"\xd8\x2a\x58\x24" + ZERO_CID,
    )
]

# CIDs: (the CID, whether it is one, or its text where that was spelled by hand)
VARINT = b"\xff" * 8 + b"\x7f"
CIDS = [
    (b"", None),
    (b"\x81\x00", None),
    (b"\x01\x80\x80\x00", None),
    (b"\x01" + b"\x80" * 8, None),
    (b"\x01" + b"\x80" * 9, None),
    (b"\x02\x00\x00\x00", None),
    (b"\x12\x20" + bytes(32), None),
    (b"\x01\x71\x12\x41" + bytes(65), None),
    (b"\x01\x71\x12\x40" + bytes(65), None),
    (b"\x01\x71\x12\x40" + bytes(63), None),
    (b"\x01\x71\x12\x00\x07", None),
    (b"\x01\x00\x00\x00", "baeaaaaa"),
    (b"\x01\x71\x00\x00", "bafyqaaa"),
    (b"\x01\xa9\x02\xa2\x20\x02\x08\x09", "baguqfiraaieas"),
    (b"\x01" + VARINT + VARINT + b"\x40" + b"\x5a" * 64, "bah77777777777737777777777777672aljnfuws2ljnfuws2ljnfuws2ljnfuws2ljnfuws2ljnfuws2ljnfuws2ljnfuws2ljnfuws2ljnfuws2ljnfuws2ljnfuws2ljnfuwq"),
    # the example of the CID pages (dag-pb), `hello world` (raw) and a block of DAG-CBOR
    (bytes.fromhex("01701220c3c4733ec8affd06cf9e9ff50ffc6bcd2ec85a6170004bb709669c31de94391a"), "bafybeigdyrzt5sfp7udm7hu76uh7y26nf3efuylqabf3oclgtqy55fbzdi"),
    (bytes.fromhex("01551220b94d27b9934d3e08a52e52d7da7dabfac484efe37a5380ee9088f7ace2efcde9"), "bafkreifzjut3te2nhyekklss27nh3k72ysco7y32koao5eei66wof36n5e"),
    (bytes.fromhex("0171122078519722 9dc8bb1152945da58e2348f7e279eeded06cc2ca736d0e879858b501".replace(" ", "")), "bafyreidykglsfhoixmivffc5uwhcgshx4j465xwqntbmu43nb2dzqwfvae"),
]


def linked(cid):
    length = len(cid) + 1
    return b"\xd8\x2a" + (bytes([0x40 + length]) if length < 24 else bytes([0x58, length])) + b"\x00" + cid


LINKS = [("Link", linked(cid), CBOR if text is None else '{"/":"%s"}' % text) for cid, text in CIDS]

# ---- layers, form by form

ENUMS = """type E enum { | Yes | No ("n") }
type N enum { | No ("0") | Yes ("1") | Low ("-9223372036854775808") | High ("18446744073709551615") } representation int
type Again = N
"""
UNITS = """type Nil unit representation null
type T unit representation true
type F unit representation false
type O unit representation emptymap
"""
BOXES = '{ | Dot "dot" | Box "box" }'
KEYS = f"""type Dot struct {{ x Int }}
type Box struct {{ w Int h Int }}
type K union {BOXES} representation keyed
type V union {BOXES} representation envelope {{ discriminantKey "k" contentKey "c" }}
type I union {BOXES} representation inline {{ discriminantKey "k" }}
type Again = I
"""
FRONTS = """type Box struct { w Int h Int }
type A string
type B string
type Raw bytes
type More bytes
type Q union { | Int int | String string | Box map | Bytes bytes } representation kinded
type P union { | A "a:" | B "b:" } representation stringprefix
type X union { | Raw "01" | More "fF02" } representation bytesprefix
"""
STRUCTS = f"""type M struct {{ a Int (rename "x") b optional Int n nullable Int m Int (implicit 0) }}
type I struct {{ n Int (implicit 0) }}
type T struct {{ a Int b optional Int c optional Int }} representation tuple
type L struct {{ a Int b optional Int m Int (implicit 0) }} representation listpairs
type P struct {{ a String b optional String m String (implicit "i") }}{PAIRS}type J struct {{ a String b String }}{JOIN}"""
PARTS = f"""type S struct {{ a Int b optional String }}
type L [S]
type K enum {{ | x | y }}
type M {{K:Int}}
type P {{String:Int}} representation listpairs
type Q {{String:String}}{PAIRS}type U union {{ | S "s" | Int "i" }} representation keyed
type H {{String:Int}} representation advanced HAMT
type R struct {{ a Int b Int }} representation listpairs
type J struct {{ a K b K }}{JOIN}type A any
type T struct {{ a Int b optional Int c optional Int }} representation tuple
"""
# texts in which delimiters overlap, or stand inside one another
SPLITS = f"""type J struct {{ a String b String c String }}{JOIN}type A struct {{ a String b String }} representation stringjoin {{ join "aa" }}
type B struct {{ a String b String }} representation stringjoin {{ join "aba" }}
type C struct {{ a String b String }} representation stringjoin {{ join "ü" }}
type Q {{String:String}}{PAIRS}type P {{String:String}} representation stringpairs {{ innerDelim "aa" entryDelim "&" }}
type D {{String:String}} representation stringpairs {{ innerDelim "=" entryDelim "&&" }}
type N struct {{ a String b Q }} representation stringjoin {{ join "aa" }}
"""
# a link inside a union, a list inside a list, and a layout
NAMES = 'type U union { | &B "b" } representation keyed\ntype B [[Int]]\nadvanced HAMT\n'
# settings in either order, and a member for each kind
SETTINGS = r"""type M1 {String:Int} representation listpairs
type M2 {String:String} representation stringpairs { entryDelim "&" innerDelim "=" }
type S1 struct { a Int (rename "b" implicit -3) c Bool (implicit true) }
type S2 struct { d optional nullable String e String (implicit "x\"y" rename "f") }
type S3 struct {} representation listpairs
type S4 struct { a String (rename "b" implicit "-3") } representation stringpairs { entryDelim "&" innerDelim "=" }
type S5 struct { d String e String } representation stringjoin { join ":" }
type S bool
type Box struct { w Int }
type Nil unit representation null
type U1 union { | S "s" } representation envelope { contentKey "body" discriminantKey "tag" }
type U2 union { | Box "s" } representation inline { discriminantKey "tag" }
type U3 union { | String "p:" } representation stringprefix
type U4 union { | Bytes "00" } representation bytesprefix
type U5 union { | Nil null | S bool | Int int | String string | Bytes bytes | List list | Map map | &S link } representation kinded
type E1 enum { | Ann ("a") | Bob }
type E2 enum { | One ("1") } representation int
type E3 enum { | Ann } representation string
"""


def text(written):
    """The block of a short text."""
    spelled = written.encode()
    return bytes([0x60 + len(spelled)]) + spelled


A_BOX = '{"Box":{"h":3,"w":2}}'

SHOWN = {
    "data": ("", DATA),
    "no-block": ("", NO_BLOCKS),
    "link": ("", LINKS),
    "name": (NAMES, [
        ("Any", b"\x82\x01\xf6", "[1,null]"),
        ("Any", b"\x61a", '"a"'),
        ("Bool", b"\xf5", "true"),
        ("Bool", b"\x01", SHAPE),
        ("Bytes", b"\x41a", '{"/":{"bytes":"YQ"}}'),
        ("Bytes", b"\x61a", SHAPE),
        ("Int", b"\x01", "1"),
        ("Int", b"\xf5", SHAPE),
        ("Link", ZERO, ZERO_TEXT),
        ("Link", b"\x41a", SHAPE),
        ("List", b"\x82\x01\xf6", "[1,null]"),
        ("List", b"\xa0", SHAPE),
        ("Map", b"\xa1\x61a\xf6", '{"a":null}'),
        ("Map", b"\x80", SHAPE),
        ("String", b"\x61a", '"a"'),
        ("String", b"\x41a", SHAPE),
        ("U", b"\xa1\x61b" + ZERO, '{"&B":%s}' % ZERO_TEXT),
        ("U", b"\xa1\x61b\x80", SHAPE),
        ("B", b"\x82\x80\x81\x01", "[[],[1]]"),
        ("B", b"\x81\x01", SHAPE),
    ]),
    "club": (CLUB, [
        ("Club", b"\xa2\x64name\x61c\x65users" + hamt(bytes(32), b"\x80"), '{"name":"c","users":{}}'),
        ("Users", hamt(bytes(32), b"\x80"), "{}"),
        (
            "User",
            b"\xa5\x63age\xf6\x64mail\x61m\x64role\x61a\x66avatar\x41a\x67contact\xa1\x65phone\x6212",
            '{"age":null,"avatar":{"/":{"bytes":"YQ"}},"contact":{"Phone":"12"},"mail":"m","role":"Admin"}',
        ),
        ("User", b"\xa5\x63age\x01\x64mail\x61m\x64nick\xf6\x64role\x61g\x67contact\xa1\x65phone\x60", SHAPE),
        ("Role", text("g"), '"Guest"'),
        ("Role", text("Guest"), SHAPE),
        ("Contact", b"\xa1\x64room\x82\x02\x07", '{"Room":{"door":7,"floor":2}}'),
        ("Phone", text("12"), '"12"'),
        ("Room", b"\x82\x02\x07", '{"door":7,"floor":2}'),
        ("Room", b"\x81\x02", SHAPE),
    ]),
    "setting": (SETTINGS, [
        ("M1", b"\x82\x82\x61a\x01\x82\x61b\x02", '{"a":1,"b":2}'),
        ("M2", text("a=1&b="), '{"a":"1","b":""}'),
        ("S1", b"\xa0", '{"a":-3,"c":true}'),
        ("S1", b"\xa2\x61b\x01\x61c\xf4", '{"a":1,"c":false}'),
        ("S1", b"\xa1\x61a\x01", SHAPE),
        ("S1", b"\xa1\x61b\x22", SHAPE),
        ("S1", b"\xa1\x61c\xf5", SHAPE),
        ("S2", b"\xa0", r'{"e":"x\"y"}'),
        ("S2", b"\xa2\x61d\xf6\x61f\x61z", '{"d":null,"e":"z"}'),
        ("S2", b"\xa1\x61f\x63x\"y", SHAPE),
        ("S3", b"\x80", "{}"),
        ("S4", text(""), '{"a":"-3"}'),
        ("S4", text("b=1"), '{"a":"1"}'),
        ("S5", text("x:y"), '{"d":"x","e":"y"}'),
        ("U1", b"\xa2\x63tag\x61s\x64body\xf5", '{"S":true}'),
        ("U2", b"\xa2\x61w\x01\x63tag\x61s", '{"Box":{"w":1}}'),
        ("U3", text("p:x"), '{"String":"x"}'),
        ("U4", b"\x42\x00\x01", '{"Bytes":{"/":{"bytes":"AQ"}}}'),
        ("U5", b"\xf6", '{"Nil":{}}'),
        ("U5", b"\xf4", '{"S":false}'),
        ("U5", b"\x20", '{"Int":-1}'),
        ("U5", b"\x61x", '{"String":"x"}'),
        ("U5", b"\x41a", '{"Bytes":{"/":{"bytes":"YQ"}}}'),
        ("U5", b"\x81\x01", '{"List":[1]}'),
        ("U5", b"\xa1\x61a\x01", '{"Map":{"a":1}}'),
        ("U5", ZERO, '{"&S":%s}' % ZERO_TEXT),
        ("E1", text("a"), '"Ann"'),
        ("E1", text("Bob"), '"Bob"'),
        ("E1", text("Ann"), SHAPE),
        ("E2", b"\x01", '"One"'),
        ("E3", text("Ann"), '"Ann"'),
    ]),
    "enum": (ENUMS, [
        ("E", b"\x63Yes", '"Yes"'),
        ("E", b"\x61n", '"No"'),
        ("E", b"\x62No", SHAPE),
        ("E", b"\x00", SHAPE),
        ("N", b"\x00", '"No"'),
        ("N", b"\x01", '"Yes"'),
        ("N", b"\x02", SHAPE),
        ("N", b"\x20", SHAPE),
        ("N", b"\x3b\x7f" + b"\xff" * 7, '"Low"'),
        ("N", b"\x1b" + b"\xff" * 8, '"High"'),
        ("N", b"\x610", SHAPE),
        ("Again", b"\x01", '"Yes"'),
        ("Again", b"\x18\x18", SHAPE),
    ]),
    "unit": (UNITS, [
        ("Nil", b"\xf6", "{}"),
        ("Nil", b"\xf4", SHAPE),
        ("T", b"\xf5", "{}"),
        ("T", b"\xf4", SHAPE),
        ("T", b"\x01", SHAPE),
        ("F", b"\xf4", "{}"),
        ("F", b"\xf5", SHAPE),
        ("F", b"\xf6", SHAPE),
        ("O", b"\xa0", "{}"),
        ("O", b"\xa1\x61a\x01", SHAPE),
        ("O", b"\x80", SHAPE),
    ]),
    "union-keyed": (KEYS, [
        ("K", b"\xa1\x63box\xa2\x61h\x03\x61w\x02", A_BOX),
        ("K", b"\x81\x01", SHAPE),
        ("K", b"\xa0", SHAPE),
        ("K", b"\xa2\x61a\x01\x61b\x02", SHAPE),
        ("K", b"\xa1\x61a\x01", SHAPE),
        ("K", b"\xa1\x63dot\xa1\x61y\x01", SHAPE),
    ]),
    "union-envelope": (KEYS, [
        ("V", b"\xa2\x61c\xa2\x61h\x03\x61w\x02\x61k\x63box", A_BOX),
        ("V", b"\x80", SHAPE),
        ("V", b"\xa3\x61c\xa1\x61x\x01\x61k\x63dot\x61z\x00", SHAPE),
        ("V", b"\xa2\x61c\xa1\x61x\x01\x61z\x00", SHAPE),
        ("V", b"\xa1\x61z\x00", SHAPE),
        ("V", b"\xa1\x61k\x63box", SHAPE),
        ("V", b"\xa0", SHAPE),
        ("V", b"\xa2\x61c\xa1\x61x\x01\x61k\x61a", SHAPE),
        ("V", b"\xa2\x61c\xa1\x61x\x01\x61k\x01", SHAPE),
    ]),
    "union-inline": (KEYS, [
        ("I", b"\xa3\x61h\x03\x61k\x63box\x61w\x02", A_BOX),
        ("Again", b"\xa2\x61k\x63dot\x61x\x07", '{"Dot":{"x":7}}'),
        ("Again", b"\xa1\x61k\x63dot", SHAPE),
        ("I", b"\x61k", SHAPE),
        ("I", b"\xa1\x61x\x02", SHAPE),
        ("I", b"\xa2\x61k\x01\x61x\x02", SHAPE),
        ("I", b"\xa2\x61k\x61a\x61x\x02", SHAPE),
    ]),
    "union-kinded": (FRONTS, [
        ("Q", b"\x01", '{"Int":1}'),
        ("Q", b"\x61a", '{"String":"a"}'),
        ("Q", b"\xa2\x61h\x03\x61w\x02", A_BOX),
        ("Q", b"\xa0", SHAPE),
        ("Q", b"\x41a", '{"Bytes":{"/":{"bytes":"YQ"}}}'),
        ("Q", b"\x80", SHAPE),
        ("Q", b"\xf6", SHAPE),
    ]),
    "union-prefix": (FRONTS, [
        ("P", b"\x63a:x", '{"A":"x"}'),
        ("P", b"\x62b:", '{"B":""}'),
        ("P", b"\x42a:", SHAPE),
        ("P", b"\x62c:", SHAPE),
        ("X", b"\x43\x01\xaa\xbb", '{"Raw":{"/":{"bytes":"qrs"}}}'),
        ("X", b"\x42\xff\x02", '{"More":{"/":{"bytes":""}}}'),
        ("X", b"\x62a:", SHAPE),
        ("X", b"\x42\x02\xff", SHAPE),
    ]),
    "struct-map": (STRUCTS, [
        ("M", b"\xa3am\x01an\xf6ax\x01", '{"a":1,"m":1,"n":null}'),
        ("M", b"\xa2an\x01ax\x01", '{"a":1,"m":0,"n":1}'),
        ("I", b"\xa0", '{"n":0}'),
        ("I", b"\xa1an\x00", SHAPE),
        ("M", b"\x80", SHAPE),
        ("M", b"\xa3aa\x01an\x01ax\x01", SHAPE),
        ("M", b"\xa1aa\x01", SHAPE),
        ("M", b"\xa1ax\x01", SHAPE),
        ("M", b"\xa2am\x00ax\x01", SHAPE),
        ("M", b"\xa3am\x00an\x01ax\x01", SHAPE),
    ]),
    "struct-tuple": (STRUCTS, [
        ("T", b"\x81\x01", '{"a":1}'),
        ("T", b"\x83\x01\x02\x03", '{"a":1,"b":2,"c":3}'),
        ("T", b"\x80", SHAPE),
        ("T", b"\x84\x01\x02\x03\x04", SHAPE),
        ("T", b"\xa0", SHAPE),
    ]),
    "struct-listpairs": (STRUCTS, [
        ("L", b"\x81\x82aa\x01", '{"a":1,"m":0}'),
        ("L", b"\x83\x82aa\x01\x82ab\x02\x82am\x05", '{"a":1,"b":2,"m":5}'),
        ("L", b"\xa0", SHAPE),
        ("L", b"\x81\x01", SHAPE),
        ("L", b"\x81\x82\x01\x01", SHAPE),
        ("L", b"\x82\x82aa\x01\x81az", SHAPE),
        ("L", b"\x82\x82aa\x01\x82az\x01", SHAPE),
        ("L", b"\x81\x81az", SHAPE),
        ("L", b"\x80", SHAPE),
        ("L", b"\x81\x80", SHAPE),
        ("L", b"\x81\x82ab\x01", SHAPE),
        ("L", b"\x81\x81aa", SHAPE),
        ("L", b"\x82\x82aa\x01\x80", SHAPE),
        ("L", b"\x81\x83aa\x01\x02", SHAPE),
        ("L", b"\x82\x82ab\x01\x82aa\x01", SHAPE),
        ("L", b"\x82\x82aa\x01\x82aa\x01", SHAPE),
        ("L", b"\x82\x82aa\x01\x82am\x00", SHAPE),
    ]),
    "struct-stringpairs": (STRUCTS, [
        ("P", b"ca=1", '{"a":"1","m":"i"}'),
        ("P", b"ka=1&b=2&m=3", '{"a":"1","b":"2","m":"3"}'),
        ("P", b"ga==&b=c", '{"a":"=","b":"c","m":"i"}'),
        ("P", b"\x80", SHAPE),
        ("P", b"aa", SHAPE),
        ("P", b"ea=1&b", SHAPE),
        ("P", b"`", SHAPE),
        ("P", b"ga=1&z=1", SHAPE),
        ("P", b"cb=1", SHAPE),
        ("P", b"gb=1&a=1", SHAPE),
        ("P", b"ga=1&a=2", SHAPE),
        ("P", b"ga=1&m=i", SHAPE),
    ]),
    "struct-stringjoin": (STRUCTS, [
        ("J", b"cx:y", '{"a":"x","b":"y"}'),
        ("J", b"a:", '{"a":"","b":""}'),
        ("J", b"\x01", SHAPE),
        ("J", b"ax", SHAPE),
        ("J", b"ex:y:z", SHAPE),
        ("J", b"`", SHAPE),
    ]),
    "part": (PARTS, [
        ("S", b"\xa1aa\x01", '{"a":1}'),
        ("S", b"\xa1aa\xf6", SHAPE),
        ("T", b"\x82\x01\xf6", SHAPE),
        ("R", b"\x82\x82aa\x01\x82ab\xf6", SHAPE),
        ("J", b"\x63x:y", '{"a":"x","b":"y"}'),
        ("J", b"\x63x:z", SHAPE),
        ("L", b"\x82\xa1aa\x01\xa1aa\x02", '[{"a":1},{"a":2}]'),
        ("L", b"\x82\xa1aa\x01\xa1aa\xf5", SHAPE),
        ("L", b"\x82\xa0\xf5", SHAPE),
        ("M", b"\xa1ax\x01", '{"x":1}'),
        ("M", b"\xa2ax\x01az\x01", SHAPE),
        ("M", b"\xa2ax\xf5ay\x01", SHAPE),
        ("P", b"\x82\x82aa\x02\x82ab\x01", '{"a":2,"b":1}'),
        ("P", b"\x82\x82aa\x02\x82aa\x01", SHAPE),
        ("P", b"\x82\x82aa\x02\x82ab\xf4", SHAPE),
        ("Q", b"\x66a=1&b=", '{"a":"1","b":""}'),
        ("Q", b"\x60", "{}"),
        ("Q", b"\x63a=&", SHAPE),
        ("Q", b"\x67a=1&a=2", SHAPE),
        ("U", b"\xa1ai\x05", '{"Int":5}'),
        ("U", b"\xa1ai\xf5", SHAPE),
        ("U", b"\xa1az\x05", SHAPE),
        ("A", b"\x81\xf6", "[null]"),
        ("A", b"\xf6", SHAPE),
    ]),
    "split": (SPLITS, [
        ("J", text("x:é:"), '{"a":"x","b":"é","c":""}'),
        ("J", text("x::y"), '{"a":"x","b":"","c":"y"}'),
        ("J", text("x:y"), SHAPE),
        ("A", text("aa"), '{"a":"","b":""}'),
        ("A", text("baab"), '{"a":"b","b":"b"}'),
        ("A", text("aaab"), SHAPE),
        ("A", text("aaa=2"), SHAPE),
        ("A", text(""), SHAPE),
        ("B", text("abcaba"), '{"a":"abc","b":""}'),
        ("B", text("ababa"), SHAPE),
        ("C", text("éüé"), '{"a":"é","b":"é"}'),
        ("Q", text("a=x=y&b="), '{"a":"x=y","b":""}'),
        ("Q", text("="), '{"":""}'),
        ("Q", text("x=a=b"), '{"x":"a=b"}'),
        ("Q", text("é=ü&ü=é"), '{"é":"ü","ü":"é"}'),
        ("Q", text("a=1&b"), SHAPE),
        ("Q", text("a=1&"), SHAPE),
        ("Q", text("a=1&&b=2"), SHAPE),
        ("Q", text("b"), SHAPE),
        ("P", text("kaaaa"), '{"k":"aa"}'),
        ("P", text("xaaa1"), '{"x":"a1"}'),
        ("P", text("aaaV"), '{"":"aV"}'),
        ("D", text("a=1&&&b=2"), SHAPE),
        ("N", text("aaa=2"), SHAPE),
        ("N", text("aab=aa&a=2"), SHAPE),
        ("N", text("aab=1&a=2aa"), SHAPE),
    ]),
    "hamt": (PARTS, [
        ("H", hamt(bytes(32), b"\x80"), "{}"),
        ("H", hamt(ABC_BITS, b"\x81\x81\x82\x43abc\x01"), '{"abc":1}'),
        ("H", hamt(ABC_BITS, b"\x81\x81\x82\x43abc\xf5"), SHAPE),
        ("H", hamt(bytes(32), b"\x80", alg=b"\x18\x22"), SHAPE),
        ("H", hamt(bytes(32), b"\x80", alg=b"\x18\x22", size=b"\x04"), SHAPE),
        ("H", hamt(bytes(32), b"\x80", size=b"\x04"), SHAPE),
        ("H", hamt(bytes(32), b"\x80", alg=b"\x61x"), SHAPE),
        ("H", b"\xa3\x64hamt\x00\x67hashAlg\x12\x6abucketSize\x03", SHAPE),
        ("H", hamt(bytes(32), b"\x80").replace(b"hamt", b"hamu"), SHAPE),
        ("H", b"\x80", SHAPE),
        ("H", b"\xa0", SHAPE),
        ("H", hamt(bytes(31), b"\x80").replace(b"\x58\x20", b"\x58\x1f"), SHAPE),
        ("H", hamt(ABC_BITS, b"\x81\x80"), SHAPE),
        ("H", hamt(ABC_BITS, b"\x81" + ZERO.replace(b"\x71", b"\x55")), SHAPE),
        ("H", hamt(bytes(32), b"\x81\x81\x82\x43abc\x01"), SHAPE),
        ("H", hamt(b"\x01" + ABC_BITS[1:], b"\x81\x81\x82\x43abc\x01"), SHAPE),
        ("H", hamt(ABC_BITS, b"\x81\x81\x82\x41\xff\x01"), SHAPE),
    ]),
}

OTHERWISE = {
    "map-listpairs": (PARTS, [("P", b"\x82\x82ab\x01\x82aa\x02", '{"a":2,"b":1}')]),
    "map-stringpairs": (PARTS, [("Q", b"fb=1&a=", '{"a":"","b":"1"}')]),
    "text-in-a-text": (SPLITS, [("N", text("aab=1&a=2"), '{"a":"","b":{"a":"2","b":"1"}}')]),
}
