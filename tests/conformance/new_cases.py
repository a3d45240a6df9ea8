#!/usr/bin/env python3
"""Writes the cases of `new` in `new/`: what each run must write is worked out by `values.py`, on plain Python values.

    python3 tests/conformance/new_cases.py

`VALUES` has a table for each form: a schema, a type of it, and by name what is asked of each value (`root`, or why it is refused) with
its JSON. A case that `values.py` answers otherwise than it is meant isn't written, and ends the script; so does a block of
`SPELLED` that isn't the one that docs/values.md writes out.
"""
import hashlib
import itertools
import pathlib
import shutil
import sys

sys.dont_write_bytecode = True
import values

HERE = pathlib.Path(__file__).resolve().parent
LEAF = "bafyreigbtj4x7ip5legnfznufuopl4sg4knzc2cof6duas4b3q2fy6swua"
RAW = "bafkreie7q3iidccmpvszul7kudcvvuavuo7u6gzlbobczuk5nqk3b4akba"
NO_WORDS = ("fault 2 words\n", 2)
JOIN = ' representation stringjoin { join ":" }\n'
PAIRS = ' representation stringpairs { innerDelim "=" entryDelim "&" }\n'


def alike(count, length):
    """So many keys whose hashes agree in so many bytes."""
    found = {}
    for n in itertools.count():
        keys = found.setdefault(hashlib.sha256(f"k{n}".encode()).digest()[:length], [])
        keys.append(f"k{n}")
        if len(keys) == count:
            return keys


def entries(keys, value="1"):
    return "{%s}" % ",".join(f'"{key}":{value}' for key in keys)


def link(text):
    return '{"/":"%s"}' % text


def octets(text):
    return '{"/":{"bytes":"%s"}}' % text


def lists(count):
    return "[" * count + "]" * count


HAMT = "type H {String:Int} representation advanced HAMT\n"
CLUB = """# members of a club
type Club struct {
  name String
  users Users
  motto optional String
}
type Users {String:User} representation advanced HAMT
type User struct {
  mail String
  role Role
  age nullable Int
  nick optional String
  avatar optional Bytes
  contact Contact
}
type Role enum {
  | Admin ("a")
  | Guest ("g")
}
type Contact union {
  | Phone "phone"
  | Room "room"
} representation keyed
type Phone string
type Room struct {
  floor Int
  door Int
} representation tuple
"""
ANN = '{"mail":"ann@x","role":"Admin","age":null,"avatar":{"/":{"bytes":"AQI"}},"contact":{"Phone":"12"}}'
BOB = '{"mail":"bob@x","role":"Guest","age":41,"contact":{"Room":{"floor":2,"door":7}}}'
POINT = "type Point struct { x Int y Int }\n"
TUPLE = "type T struct { a Int b optional Int c optional nullable Int } representation tuple\n"
NUMBERS = "".join(f",{n}" for n in (0, 23, 24, 255, 256, 65535, 65536, 4294967295, 4294967296, 18446744073709551615))
NEGATIVE = "".join(f",{-n}" for n in (1, 24, 25, 256, 257, 65536, 65537, 4294967296, 4294967297, 9223372036854775808))
BOXES = '{ | Dot "dot" | Box "box" }'
SHAPES = "type Dot struct { x Int }\ntype Box struct { w Int h Int }\n"

# (schema, type, {name: (what is meant, json)})
VALUES = {
    "bool": ("", "Bool", {
        "true": ("root", "true"),
        "false": ("root", " false\r\n"),
        "integer": ("4 mismatch", "1"),
        "null": ("4 mismatch", "null"),
    }),
    "int": ("type L [Int]\n", "L", {
        "each-head": ("root", "[" + NUMBERS[1:] + "]"),
        "each-negative-head": ("root", "[" + NEGATIVE[1:] + "]"),
        "truth-value": ("4 mismatch", "[1,true]"),
        "text": ("4 mismatch", '["1"]'),
        "above-the-range": ("3 json", "[18446744073709551616]"),
        "below-the-range": ("3 json", "[-9223372036854775809]"),
        "minus-zero": ("3 json", "[-0]"),
        "fraction": ("3 json", "[1.0]"),
        "exponent": ("3 json", "[1e3]"),
        "leading-zero": ("3 json", "[01]"),
    }),
    "string": ("", "String", {
        "empty": ("root", '""'),
        "other-letters": ("root", '"\\u00e9\\ud83d\\udd11é鍵\\u0000\\n"'),
        "of-24-bytes": ("root", '"' + "x" * 24 + '"'),
        "of-256-bytes": ("root", '"' + "é" * 128 + '"'),
        "of-65536-bytes": ("root", '"' + "x" * 65536 + '"'),
        "half-of-a-pair": ("3 json", '"\\ud83d"'),
        "unended": ("3 json", '"x'),
        "feed-inside": ("3 json", '"a\nb"'),
        "list-of-texts": ("4 mismatch", '["x"]'),
        "link": ("4 mismatch", link(LEAF)),
    }),
    "bytes": ("", "Bytes", {
        "empty": ("root", octets("")),
        "two": ("root", octets("AQI")),
        "all-digits": ("root", octets("+/+/AZaz0189")),
        "padded": ("3 json", octets("AQI=")),
        "bits-left": ("3 json", octets("AQJ")),
        "one-digit": ("3 json", octets("AQIDB")),
        "a-key-more": ("3 json", '{"/":{"bytes":"","x":1}}'),
        "text": ("4 mismatch", '"AQI"'),
    }),
    "link": ("type K &Point\n" + POINT, "K", {
        "block": ("root", link(LEAF)),
        "of-raw-bytes": ("root", link(RAW)),
        "of-a-short-digest": ("root", link("bafkqaaa")),
        "upper-case": ("3 json", link(LEAF.upper())),
        "cut-off": ("3 json", link(LEAF[:-1])),
        "version-0": ("3 json", link("QmYwAPJzv5CZsnA625s3Xf2nemtYgPpHdWEz79ojWnPbdG")),
        "of-a-number": ("3 json", '{"/":1}'),
        "its-target": ("4 mismatch", '{"x":1,"y":2}'),
    }),
    "any": ("type A any\n", "A", {
        "null-inside": ("root", '[null,{"a":null}]'),
        "maps-by-length-of-key": ("root", '{"b":1,"aa":2,"":3,"é":4,"ab":5}'),
        "links-and-bytes": ("root", '{"l":%s,"b":%s}' % (link(LEAF), octets("AA"))),
        "slash-beside-another-key": ("root", '{"/":1,"x":2}'),
        "slash-inside": ("3 json", '[{"/":[]}]'),
        "last-of-repeated-keys": ("root", '{"a":1.5,"a":{"b":2,"b":3}}'),
        "last-of-repeated-links": ("root", '{"/":3,"/":"%s"}' % RAW),
        "null": ("4 mismatch", "null"),
        "96-lists": ("root", lists(96)),
        "97-lists": ("7 depth", lists(97)),
        "127-lists": ("7 depth", lists(127)),
        "128-lists": ("3 json", lists(128)),
        "96-maps": ("root", '{"a":' * 95 + "{}" + "}" * 95),
        "97-maps": ("7 depth", '{"a":' * 96 + "{}" + "}" * 96),
    }),
    "json": ("", "Any", {
        "nothing": ("3 json", ""),
        "blanks": ("3 json", " \n"),
        "two-values": ("3 json", "1 2"),
        "not-utf8": ("3 json", b'"\xff"'),
        "mark-in-front": ("3 json", "\ufeff1"),
        "constant": ("3 json", "[NaN]"),
        "comma-behind-the-last": ("3 json", "[1,]"),
        "blanks-around": ("root", "\t [ 1 ,\r\n 2 ] \n"),
        "fraction-inside": ("3 json", '{"a":[1.5]}'),
    }),
    "prelude": ("", "Map", {
        "map-of-any-or-null": ("root", '{"a":null,"b":[]}'),
        "list": ("4 mismatch", "[]"),
    }),
    "list": ("type L [nullable [Int]]\n", "L", {
        "empty": ("root", "[]"),
        "null-elements": ("root", "[null,[1],[],null]"),
        "24-elements": ("root", "[" + ",".join(["[]"] * 24) + "]"),
        "null-one-level-down": ("4 mismatch", "[[null]]"),
        "map": ("4 mismatch", "{}"),
    }),
    "list-in-itself": ("type L [L]\n", "L", {
        "96-deep": ("root", lists(96)),
        "97-deep": ("7 depth", lists(97)),
    }),
    "copy": ("type C = D\ntype D = E\ntype E [C]\n", "C", {
        "of-a-copy": ("root", "[[],[[]]]"),
        "of-another-form": ("4 mismatch", "[{}]"),
    }),
    "map": ("type M {String:nullable Int}\n", "M", {
        "empty": ("root", "{}"),
        "by-length-of-key": ("root", '{"b":1,"aa":2,"":3,"é":null,"ab":5,"c":6}'),
        "last-of-repeated-keys": ("root", '{"a":"x","a":1}'),
        "slash-beside-another-key": ("root", '{"/":1,"x":2}'),
        "only-key-slash": ("3 json", '{"/":1}'),
        "value-of-another-kind": ("4 mismatch", '{"a":"1"}'),
        "pairs": ("4 mismatch", '[["a",1]]'),
    }),
    "map-listpairs": ("type P {String:Int} representation listpairs\n", "P", {
        "empty": ("root", "{}"),
        "by-length-of-key": ("root", '{"b":1,"aa":2,"a":3}'),
        "pairs": ("4 mismatch", '[["a",1]]'),
    }),
    "map-listpairs-in-itself": ("type P {String:P} representation listpairs\n", "P", {
        "48-deep": ("root", '{"a":' * 47 + "{}" + "}" * 47),
        "49-deep": ("7 depth", '{"a":' * 48 + "{}" + "}" * 48),
    }),
    "map-stringpairs": ("type Q {String:String}" + PAIRS, "Q", {
        "empty": ("root", "{}"),
        "two": ("root", '{"a":"1","b":""}'),
        "empty-key-and-value": ("root", '{"":""}'),
        "inner-in-a-value": ("root", '{"a":"x=y="}'),
        "inner-in-a-key": ("5 delimiter", '{"a=b":"1"}'),
        "entry-in-a-value": ("5 delimiter", '{"a":"1&2"}'),
        "entry-in-a-key": ("5 delimiter", '{"a&":"1"}'),
        "value-of-another-kind": ("4 mismatch", '{"a":1}'),
    }),
    "map-stringpairs-of-long-delimiters": ('type Q {String:String} representation stringpairs { entryDelim "bab" innerDelim "aa" }\n', "Q", {
        "apart": ("root", '{"k":"1","l":"2"}'),
        "key-that-ends-as-the-inner-begins": ("5 delimiter", '{"xa":"1"}'),
        "value-that-begins-as-the-inner-ends": ("root", '{"x":"a1"}'),
        "value-that-is-the-inner": ("root", '{"x":"aa"}'),
        "value-and-entry-overlap": ("5 delimiter", '{"x":"ba","y":"1"}'),
        "key-and-entry-overlap": ("5 delimiter", '{"x":"1","ab":"1"}'),
    }),
    "keys-of-an-enum": ('type M {E:Int}\ntype E enum { | A ("x") | B }\n', "M", {
        "by-text": ("root", '{"x":1,"B":2}'),
        "by-name": ("4 mismatch", '{"A":1}'),
    }),
    "keys-that-are-joined": ("type M {J:Int}\ntype J struct { a String b E }" + JOIN + "type E enum { | A | B }\n", "M", {
        "two-parts": ("root", '{"x:A":1,":B":2}'),
        "one-part": ("4 mismatch", '{"x":1}'),
        "three-parts": ("4 mismatch", '{"x:A:A":1}'),
        "part-of-no-enum": ("4 mismatch", '{"x:C":1}'),
    }),
    "keys-that-are-pairs": ('type M {S:Int}\ntype S struct { a optional String b String (rename "c" implicit "0") }' + PAIRS, "M", {
        "none": ("root", '{"":1}'),
        "both": ("root", '{"a=1&c=2":1}'),
        "implicit-value-written": ("4 mismatch", '{"c=0":1}'),
        "by-field-name": ("4 mismatch", '{"b=2":1}'),
        "in-another-order": ("4 mismatch", '{"c=2&a=1":1}'),
        "twice": ("4 mismatch", '{"a=1&a=1":1}'),
    }),
    "keys-with-prefixes": ('type M {U:Int}\ntype U union { | A "a." | E "e." } representation stringprefix\ntype A string\ntype E enum { | X }\n', "M", {
        "of-each-member": ("root", '{"a.":1,"e.X":2,"a.e.":3}'),
        "of-no-member": ("4 mismatch", '{"b.":1}'),
        "of-no-value": ("4 mismatch", '{"e.Y":1}'),
    }),
    "keys-that-nest": ("type A [A2]\ntype A2 {J:nullable A}\ntype J struct { a Q }" + JOIN + "type Q {String:String}" + PAIRS, "A", {
        "96-levels": ("root", "[" + '{"":[' * 46 + '{"k=v":null}' + "]}" * 46 + "]"),
        "98-levels": ("7 depth", "[" + '{"":[' * 47 + '{"k=v":null}' + "]}" * 47 + "]"),
    }),
    "struct": ('type S struct { a Int b optional String c nullable Bool d optional nullable Int e Int (rename "a2") }\n', "S", {
        "all-fields": ("root", '{"e":5,"a":1,"b":"x","c":true,"d":4}'),
        "optional-ones-left-out": ("root", '{"a":1,"c":null,"e":2}'),
        "null-that-need-not-be-there": ("root", '{"a":1,"c":null,"d":null,"e":2}'),
        "field-missing": ("4 mismatch", '{"a":1,"c":null}'),
        "name-in-a-block": ("4 mismatch", '{"a":1,"c":null,"a2":2}'),
        "another-name": ("4 mismatch", '{"a":1,"c":null,"e":2,"z":0}'),
        "null-where-none-may-be": ("4 mismatch", '{"a":1,"b":null,"c":null,"e":2}'),
        "list": ("4 mismatch", "[1]"),
    }),
    "struct-of-renames-that-cross": ('type S struct { a Int (rename "b") b Int (rename "a") }\n', "S", {
        "both": ("root", '{"a":1,"b":2}'),
    }),
    "struct-of-implicit-values": ('type S struct { n Int (implicit 0) t String (implicit "x") b Bool (implicit true) m nullable Int (implicit 7) }\n', "S", {
        "left-out": ("root", "{}"),
        "given": ("root", '{"n":0,"t":"x","b":true,"m":7}'),
        "others": ("root", '{"n":1,"t":"","b":false,"m":null}'),
        "of-another-kind": ("4 mismatch", '{"b":1}'),
    }),
    "struct-of-no-fields": ("type S struct {}\n", "S", {
        "empty": ("root", "{}"),
    }),
    "struct-in-itself": ("type S struct { s nullable S }\n", "S", {
        "96-deep": ("root", '{"s":' * 96 + "null" + "}" * 96),
        "97-deep": ("7 depth", '{"s":' * 97 + "null" + "}" * 97),
    }),
    "struct-tuple": (TUPLE, "T", {
        "first": ("root", '{"a":1}'),
        "two": ("root", '{"a":1,"b":2}'),
        "all": ("root", '{"a":1,"b":2,"c":3}'),
        "null-at-the-end": ("root", '{"a":1,"b":2,"c":null}'),
        "hole": ("6 hole", '{"a":1,"c":3}'),
        "hole-before-null": ("6 hole", '{"a":1,"c":null}'),
        "as-a-list": ("4 mismatch", "[1]"),
        "first-missing": ("4 mismatch", '{"b":1}'),
    }),
    "struct-listpairs": ('type S struct { a Int b optional String (rename "é") c Bool (implicit false) } representation listpairs\n', "S", {
        "in-order-of-declaration": ("root", '{"c":true,"b":"x","a":1}'),
        "left-out": ("root", '{"a":1,"c":false}'),
        "field-missing": ("4 mismatch", "{}"),
    }),
    "struct-stringjoin": ("type J struct { a String b String }" + JOIN, "J", {
        "two": ("root", '{"a":"x","b":"y"}'),
        "empty-parts": ("root", '{"a":"","b":""}'),
        "delimiter-in-a-part": ("5 delimiter", '{"a":"x:","b":"y"}'),
        "part-missing": ("4 mismatch", '{"a":"x"}'),
        "part-of-another-kind": ("4 mismatch", '{"a":"x","b":1}'),
        "as-a-text": ("4 mismatch", '"x:y"'),
    }),
    "struct-stringjoin-of-a-long-delimiter": ('type J struct { a String b String c String } representation stringjoin { join "aa" }\n', "J", {
        "empty-parts-overlap": ("5 delimiter", '{"a":"","b":"","c":""}'),
        "parts-apart": ("root", '{"a":"b","b":"b","c":"b"}'),
        "part-that-ends-as-it-begins": ("5 delimiter", '{"a":"a","b":"b","c":"b"}'),
        "part-that-begins-as-it-ends": ("5 delimiter", '{"a":"b","b":"ab","c":"b"}'),
    }),
    "struct-stringjoin-of-other-letters": ('type J struct { a String b String } representation stringjoin { join "é" }\n', "J", {
        "letters-that-share-a-byte": ("root", '{"a":"è","b":"ã©"}'),
        "the-delimiter": ("5 delimiter", '{"a":"","b":"é"}'),
    }),
    "struct-stringpairs": ('type S struct { a optional String b String (rename "c" implicit "0") d String }' + PAIRS, "S", {
        "all": ("root", '{"d":"4","b":"2","a":"1"}'),
        "left-out": ("root", '{"d":"","b":"0"}'),
        "inner-in-a-value": ("root", '{"d":"=="}'),
        "entry-in-a-value": ("5 delimiter", '{"d":"&"}'),
        "field-missing": ("4 mismatch", '{"a":"1"}'),
    }),
    "texts-in-texts": ("type O struct { a J b String } representation stringjoin { join \"/\" }\ntype J struct { x String y E }" + JOIN + 'type E enum { | A ("1:") | B }\n', "O", {
        "inner-and-outer": ("root", '{"a":{"x":"p","y":"B"},"b":"q:"}'),
        "outer-in-the-inner": ("5 delimiter", '{"a":{"x":"p/","y":"B"},"b":"q"}'),
        "inner-of-an-enum": ("5 delimiter", '{"a":{"x":"p","y":"A"},"b":"q"}'),
    }),
    "union-keyed": ('type U union { | Dot "dot" | Box "/" | Int "i" | &Dot "link" } representation keyed\n' + SHAPES, "U", {
        "struct": ("root", '{"Dot":{"x":1}}'),
        "under-a-slash": ("root", '{"Box":{"w":2,"h":3}}'),
        "prelude": ("root", '{"Int":3}'),
        "link": ("root", '{"&Dot":%s}' % link(LEAF)),
        "by-discriminant": ("4 mismatch", '{"dot":{"x":1}}'),
        "two": ("4 mismatch", '{"Int":3,"Dot":{"x":1}}'),
        "none": ("4 mismatch", "{}"),
        "member-of-another-kind": ("4 mismatch", '{"Int":"3"}'),
        "member-null": ("4 mismatch", '{"Int":null}'),
    }),
    "union-kinded": (
        "type U union { | N null | Bool bool | Int int | String string | Bytes bytes | L list | Map map | &U link } representation kinded\n"
        "type N unit representation null\ntype L [U]\n", "U", {
            "null": ("root", '{"N":{}}'),
            "bool": ("root", '{"Bool":false}'),
            "int": ("root", '{"Int":-1}'),
            "string": ("root", '{"String":"N"}'),
            "bytes": ("root", '{"Bytes":%s}' % octets("AQI")),
            "list": ("root", '{"L":[{"Int":1},{"L":[]},{"N":{}}]}'),
            "map": ("root", '{"Map":{"Int":null}}'),
            "link": ("root", '{"&U":%s}' % link(RAW)),
            "as-itself": ("4 mismatch", "1"),
            "null-as-itself": ("4 mismatch", "null"),
            "unit-as-null": ("4 mismatch", '{"N":null}'),
            "96-levels": ("root", '{"L":[' * 47 + '{"L":[]}' + "]}" * 47),
            "97-levels": ("7 depth", '{"L":[' * 48 + '{"Int":1}' + "]}" * 48),
        }),
    "union-envelope": (f"type U union {BOXES} representation envelope {{ contentKey \"c\" discriminantKey \"k\" }}\n" + SHAPES, "U", {
        "box": ("root", '{"Box":{"w":2,"h":3}}'),
        "dot": ("root", '{"Dot":{"x":0}}'),
        "as-in-a-block": ("4 mismatch", '{"k":"dot","c":{"x":0}}'),
    }),
    "union-envelope-whose-content-goes-first": ('type U union { | Int "i" } representation envelope { discriminantKey "kind" contentKey "it" }\n', "U", {
        "by-length-of-key": ("root", '{"Int":1}'),
    }),
    "union-inline": (f'type U union {BOXES} representation inline {{ discriminantKey "k" }}\n' + SHAPES, "U", {
        "box": ("root", '{"Box":{"w":2,"h":3}}'),
        "dot": ("root", '{"Dot":{"x":0}}'),
        "discriminant-inside": ("4 mismatch", '{"Dot":{"x":0,"k":"dot"}}'),
    }),
    "union-inline-of-implicit-values": ('type U union { | E "e" | C "c" } representation inline { discriminantKey "kind" }\ntype E struct {}\ntype C = F\ntype F struct { n Int (implicit 1 rename "of") }\n', "U", {
        "no-fields": ("root", '{"E":{}}'),
        "left-out": ("root", '{"C":{"n":1}}'),
        "written": ("root", '{"C":{"n":2}}'),
    }),
    "union-stringprefix": ('type U union { | A "a:" | J "b" } representation stringprefix\ntype A string\ntype J struct { x String y String }' + JOIN, "U", {
        "text": ("root", '{"A":"a:"}'),
        "empty": ("root", '{"A":""}'),
        "joined": ("root", '{"J":{"x":"1","y":"2"}}'),
        "joined-with-the-delimiter": ("5 delimiter", '{"J":{"x":":","y":"2"}}'),
        "as-a-text": ("4 mismatch", '"a:"'),
    }),
    "union-bytesprefix": ('type U union { | Raw "01" | V "Ab00" } representation bytesprefix\ntype Raw bytes\ntype V union { | Bytes "ff" } representation bytesprefix\n', "U", {
        "bytes": ("root", '{"Raw":%s}' % octets("qrs")),
        "empty": ("root", '{"Raw":%s}' % octets("")),
        "in-another": ("root", '{"V":{"Bytes":%s}}' % octets("AA")),
        "text": ("4 mismatch", '{"Raw":"qrs"}'),
    }),
    "enum": ('type E enum { | Yes | No ("n") | Maybe ("Yes2") }\n', "E", {
        "by-name": ("root", '"Yes"'),
        "another-text": ("root", '"No"'),
        "by-text": ("4 mismatch", '"n"'),
        "integer": ("4 mismatch", "0"),
    }),
    "enum-of-integers": ('type E enum { | No ("0") | Yes ("-1") | Top ("18446744073709551615") } representation int\n', "E", {
        "nought": ("root", '"No"'),
        "negative": ("root", '"Yes"'),
        "greatest": ("root", '"Top"'),
        "its-integer": ("4 mismatch", "0"),
    }),
    "unit-null": ("type N unit representation null\n", "N", {
        "empty": ("root", "{}"),
        "null": ("4 mismatch", "null"),
    }),
    "unit-true": ("type N unit representation true\n", "N", {
        "empty": ("root", "{}"),
        "true": ("4 mismatch", "true"),
    }),
    "unit-false": ("type N unit representation false\n", "N", {
        "empty": ("root", "{}"),
    }),
    "unit-emptymap": ("type N unit representation emptymap\n", "N", {
        "empty": ("root", "{}"),
        "with-an-entry": ("4 mismatch", '{"x":1}'),
        "list": ("4 mismatch", "[]"),
    }),
    "order": ('type A struct { t T j J d Any }\n' + TUPLE + 'type J struct { a String }' + JOIN, "A", {
        "mismatch-before-hole": ("4 mismatch", '{"t":{"a":1,"c":3},"j":{"a":1},"d":1}'),
        "hole-before-delimiter": ("6 hole", '{"j":{"a":":"},"t":{"a":1,"c":3},"d":%s}' % lists(96)),
        "delimiter-before-depth": ("5 delimiter", '{"d":%s,"t":{"a":1},"j":{"a":":"}}' % lists(96)),
        "depth-behind-all": ("7 depth", '{"d":%s,"t":{"a":1},"j":{"a":""}}' % lists(96)),
        "json-before-mismatch": ("3 json", '{"t":1,"j":1,"d":1.5}'),
    }),
    "hamt": ("type H {String:nullable Int} representation advanced HAMT\n", "H", {
        "empty": ("root", "{}"),
        "one": ("root", '{"abc":1}'),
        "null": ("root", '{"abc":null}'),
        "three-of-one-index": ("root", entries(alike(3, 1))),
        "four-of-one-index": ("root", entries(alike(4, 1))),
        "five-of-one-index": ("root", entries(alike(5, 1)[::-1])),
        "four-of-two-indices": ("root", entries(alike(4, 2))),
        "300": ("root", entries(f"name {n}" for n in range(300))),
        "3000": ("root", entries((f"k{n}" for n in range(3000)), "null")),
        "empty-key": ("root", '{"":1,"/":2}'),
        "other-letters": ("root", '{"é":1,"鍵":2,"\\u0000":3}'),
        "last-of-repeated-keys": ("root", '{"a":"x","a":1}'),
        "list": ("4 mismatch", "[]"),
        "value-of-another-kind": ("4 mismatch", entries(alike(4, 1), '"1"')),
        "its-root": ("4 mismatch", '{"hamt":[],"hashAlg":18,"bucketSize":3}'),
    }),
    "hamt-in-a-struct": ("type S struct { a Int h optional H i optional H } representation tuple\n" + HAMT, "S", {
        "both": ("root", '{"a":1,"h":%s,"i":%s}' % (entries(alike(4, 1)), entries(alike(5, 1)))),
        "hole-before-all": ("6 hole", '{"a":1,"i":{}}'),
    }),
    "hamt-twice": ("type L [H]\n" + HAMT, "L", {
        "alike": ("root", "[%s,{},%s]" % (entries(alike(4, 1)), entries(alike(4, 1)))),
    }),
    "hamt-in-a-union": ('type U union { | Int "i" | H "h" } representation envelope { discriminantKey "k" contentKey "c" }\n' + HAMT, "U", {
        "hamt": ("root", '{"H":%s}' % entries(alike(6, 1))),
        "integer": ("root", '{"Int":1}'),
    }),
    "hamt-of-kinded-members": ('type U union { | String string | H map } representation kinded\ntype H {String:U} representation advanced HAMT\n', "U", {
        "nested": ("root", '{"H":{"a":{"String":"x"},"b":{"H":%s}}}' % entries(alike(4, 1), '{"H":{}}')),
    }),
    "hamt-of-hamts": ("type G {String:H} representation advanced HAMT\n" + HAMT, "G", {
        "empty-ones": ("root", entries(alike(4, 1), "{}")),
        "children-in-children": ("root", entries(alike(4, 1), entries(alike(4, 1)))),
    }),
    "hamt-of-pairs": ("type H {String:[{String:Int}]} representation advanced HAMT\n", "H", {
        "lists-of-maps": ("root", entries(alike(4, 2), '[{"b":1,"aa":2},{}]')),
    }),
    "hamt-of-joined-keys": ("type M {J:Int} representation advanced HAMT\ntype J struct { a String b E }" + JOIN + "type E enum { | A | B }\n", "M", {
        "two": ("root", '{"x:A":1,":B":2}'),
        "part-of-no-enum": ("4 mismatch", '{"x:C":1}'),
    }),
    "hamt-of-implicit-values": ("type H {String:S} representation advanced HAMT\ntype S struct { n Int (implicit 1) }\n", "H", {
        "left-out-and-written": ("root", '{"a":{},"b":{"n":1},"c":{"n":2}}'),
    }),
    "hamt-in-itself": ("type H {String:H} representation advanced HAMT\n", "H", {
        "19-deep": ("root", '{"a":' * 18 + "{}" + "}" * 18),
        "20-deep": ("7 depth", '{"a":' * 19 + "{}" + "}" * 19),
    }),
    "hamt-of-any": ("type H {String:Any} representation advanced HAMT\n", "H", {
        "91-lists": ("root", '{"a":%s}' % lists(91)),
        "92-lists": ("7 depth", '{"a":%s}' % lists(92)),
        "91-lists-in-a-child": ("root", entries(alike(4, 1), lists(91))),
    }),
    "club": (CLUB, "Club", {
        "empty": ("root", '{"name":"Kite","users":{}}'),
        "two-users": ("root", '{"name":"Kite","users":{"ann":%s,"bob":%s},"motto":"up"}' % (ANN, BOB)),
        "300-users": ("root", '{"name":"Kite","users":%s}' % entries((f"user {n}" for n in range(300)), BOB)),
    }),
    "hamt-behind-a-link": ("type A struct { l &H b [&H] }\ntype H {String:Int} representation advanced HAMT\n", "A", {
        "links": ("root", '{"l":%s,"b":[%s]}' % (link(LEAF), link(RAW))),
    }),
}

# blocks that are written out in docs/values.md: (schema, type, json, the block in hexadecimal)
TWO = "type S struct { a Int b String }"
BOX = '{"Box":{"w":2,"h":3}}'
SPELLED = [
    ("type S struct { n Int (implicit 0) }", "S", '{"n":0}', "a0"),
    (TUPLE, "T", '{"a":1}', "8101"),
    (TWO + " representation listpairs", "S", '{"a":1,"b":"x"}', "82826161018261626178"),
    ("type J struct { a String b String }" + JOIN, "J", '{"a":"x","b":"y"}', "63783a79"),
    ("type M {String:Int}", "M", '{"a":1}', "a1616101"),
    ("type P {String:Int} representation listpairs", "P", '{"b":1,"a":2}', "828261610282616201"),
    ("type Q {String:String}" + PAIRS, "Q", '{"a":"1","b":""}', "66613d3126623d"),
    (f"type U union {BOXES} representation keyed\n{SHAPES}", "U", BOX, "a163626f78a2616803617702"),
    (f'type U union {BOXES} representation envelope {{ discriminantKey "k" contentKey "c" }}\n{SHAPES}', "U", BOX, "a26163a2616803617702616b63626f78"),
    (f'type U union {BOXES} representation inline {{ discriminantKey "k" }}\n{SHAPES}', "U", BOX, "a3616803616b63626f78617702"),
    ('type U union { | Bytes "01" } representation bytesprefix', "U", '{"Bytes":%s}' % octets("qrs"), "4301aabb"),
    ('type E enum { | No ("0") | Yes ("1") } representation int', "E", '"Yes"', "01"),
    ("type N unit representation emptymap", "N", "{}", "a0"),
    ("", "Int", "24", "1818"),
]

WORDS = {
    "unknown-type": ("type A int\n", "B"),
    "inline-type": ("type A [[Int]]\n", ""),
    "member-that-is-a-link": ('type A union { | &A "a" } representation keyed\n', "&A"),
    "lower-case": ("type A int\n", "a"),
    "float": ("type A int\n", "Float"),
    "layout": ("type A int advanced HAMT\n", "HAMT"),
    "inline-list": ("type A [[Int]]\n", "[Int]"),
}


def bytes_of(text):
    return text if isinstance(text, bytes) else text.encode()


def cid_lines(blocks):
    return "".join(sorted({values.cid_text(block) + "\n" for block in blocks}))


def write(name, words, inputs, text, status, blocks=(), held=(), folder="new", only=None):
    case = HERE / folder / name
    case.mkdir(parents=True)
    given = {"words": "".join(word + "\n" for word in words), "stdout": text, "status": f"{status}\n", **inputs}
    if blocks:
        given["must"] = cid_lines(blocks)
    if only is not None:
        given["only"] = cid_lines(only)
    for name, content in given.items():
        (case / name).write_bytes(bytes_of(content))
    for name, content in held:
        (case / "blocks").mkdir(exist_ok=True)
        (case / "blocks" / name).write_bytes(content)


def write_words(front, words_by_name, inputs, folder):
    """Words that have no form, each under its name."""
    for name, words in words_by_name.items():
        write(f"{front}words-{name}", words, inputs, *NO_WORDS, folder=folder)


def write_parts(folder, *parts):
    """The cases of these parts, in a folder made anew."""
    shutil.rmtree(folder, ignore_errors=True)
    for part in parts:
        part(folder)


def write_value(name, source, ty, json, meant):
    text, status, blocks = values.answer(bytes_of(source), ty, bytes_of(json))
    if not text.startswith("root " if meant == "root" else f"fault {meant}\n"):
        raise ValueError(f"{name} is meant to be {meant}, and is told {text}")
    write(name, ["new", "s", ty, "v"], {"s": source, "v": json}, text, status, blocks)


def check_spelled():
    for source, ty, json, spelling in SPELLED:
        _, _, blocks = values.answer(bytes_of(source), ty, bytes_of(json))
        if [block.hex() for block in blocks] != [spelling]:
            raise ValueError(f"{json} under {source} has another block than docs/values.md says")


def main():
    check_spelled()
    shutil.rmtree(HERE / "new", ignore_errors=True)
    for form, (source, ty, cases) in VALUES.items():
        for name, (meant, json) in cases.items():
            write_value(f"{form}-{name}", source, ty, json, meant if meant == "root" else f"9 value {meant}")
    for name, (source, ty) in WORDS.items():
        write_value(f"words-{name}", source, ty, "1", "2 words")
    write_value("schema-at-fault", "type A float\n", "A", "1", "3 schema resolve 3 float at 7")
    write_value("schema-not-accepted", "type A {Int:Int}\n", "B", "1", "3 schema accept 11 mapkey at 8")
    one = {"s": "type A int\n", "v": "1"}
    write_words("", {"a-word-less": ["new", "s", "A"], "a-word-more": ["new", "s", "A", "v", "v"], "upper-case": ["New", "s", "A", "v"]}, one, "new")
    write("schema-absent", ["new", "t", "A", "v"], one, "fault 5 input schema absent\n", 5)
    write("value-absent", ["new", "s", "A", "w"], one, "fault 5 input value absent\n", 5)
    write("type-before-the-value", ["new", "s", "B", "w"], one, "fault 2 words\n", 2)
    text, status, (block,) = values.answer(b"type A int\n", "A", b"1")
    held = values.cid_text(block)
    write("block-that-is-held", ["new", "s", "A", "v"], one, text, status, [block], [(held, block)])
    write("wrong-file-under-the-block", ["new", "s", "A", "v"], one, text, status, [block], [(held, b"other bytes")])


if __name__ == "__main__":
    main()
