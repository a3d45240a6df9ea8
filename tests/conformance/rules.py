"""Schemas under `check` that show the rules of accepted schemas: refused ones by the rule that fails, and accepted ones.

Each refused schema stands beside accepted ones that differ in little. Names are those of the case folders, behind `check-`.
"""
NULL = "type N unit representation null\n"
JOIN = ' representation stringjoin { join ":" }\n'
PAIRS = ' representation stringpairs { innerDelim "=" entryDelim "&" }\n'
INLINE = ' representation inline { discriminantKey "kind" }\n'
ENVELOPE = ' representation envelope { discriminantKey "kind" contentKey "body" }\n'
KINDED = " representation kinded\n"
TEXTS = "type A string\ntype B string\n"
POINT = "type Point struct { x Int y Int }\n"


def struct(fields, form="\n"):
    return f"type S struct {{ {fields} }}" + form


def union(members, form=" representation keyed\n"):
    return f"type U union {{ {members} }}" + form


def enum(members, form="\n"):
    return f"type E enum {{ {members} }}" + form


def tuple_of(fields):
    return struct(fields, " representation tuple\n")


def prefixed(members):
    return union(members, " representation stringprefix\n")


def prefixed_bytes(members):
    return union(members, " representation bytesprefix\n") + "type B bytes\n"


def int_enum(members):
    return enum(members, " representation int\n")


REFUSED = {
    "cycle": {
        "join-of-itself": "# é\n" + struct("a S", JOIN),
        "joins-of-each-other": "type A struct { b B }" + JOIN + "type B struct { a A }" + JOIN,
        "union-of-itself-by-kind": union("| Int int | U map", KINDED),
        "copy-of-a-union-that-holds-it": "type B = U\n" + union("| B map | Int int", KINDED),
        "way-to-a-cycle": "type W = U\n" + union("| U map | Int int", KINDED),
        "cycle-behind-other-faults": "type M {Int:Int}\n" + struct("a S", JOIN),
        "cycle-through-a-member-without-kind": union("| Int int | U", KINDED),
    },
    "nullclash": {
        "elements-null-in-two-ways": NULL + "type L [nullable N]",
        "elements-null-in-two-ways-behind-the-name": "# é\ntype L [ nullable N ]\n" + NULL,
        "values-null-in-two-ways": NULL + "type M {String:nullable N}\n",
        "field-null-in-two-ways": struct("a N b optional nullable C") + "type C = N\n" + NULL,
        "inline-elements-null-in-two-ways": NULL + "type L [[nullable N]]\n",
        "union-by-kind-with-null": "type L [nullable U]\n" + union("| N null | Int int", KINDED) + NULL,
        "union-with-null-and-a-member-without-kind": "type L [nullable U]\n" + union("| N null | Int", KINDED) + NULL,
    },
    "kindclash": {
        "kind-declared-twice": union("| A string | B string", KINDED) + TEXTS,
        "member-of-another-kind": union("| Int int | String bytes", KINDED),
        "any-declared-as-a-map": union("| Any map", KINDED),
        "union-of-two-kinds-in-a-union": union("| V map", KINDED) + "type V union { | Map map | Int int }" + KINDED,
        "pairs-declared-as-a-map": union("| M map", KINDED) + "type M {String:Int} representation listpairs\n",
        "text-behind-a-prefix-of-bytes": prefixed_bytes('| String "ab" | B "cd"'),
        "text-behind-what-is-not-hexadecimal": prefixed_bytes('| String "x" | B "cd"'),
    },
    "prefixclash": {
        "prefix-that-begins-a-later-one": prefixed('| A "a" | B "ab"') + TEXTS,
        "prefix-that-a-later-one-begins": prefixed('| A "ab" | B "a"') + TEXTS,
        "prefix-twice": prefixed('| A "é" | B "é"') + TEXTS,
        "prefix-of-nothing": prefixed('| A "a" | B ""') + TEXTS,
        "prefix-of-no-bytes": prefixed_bytes('| Bytes ""'),
        "prefixes-of-bytes-in-either-case": prefixed_bytes('| Bytes "ab" | B "AB"'),
        "prefix-of-bytes-that-begins-a-later-one": prefixed_bytes('| Bytes "ab" | B "abcd"'),
        "prefix-that-begins-one-two-places-on": prefixed('| A "a" | String "b" | B "ab"') + TEXTS,
    },
    "delim": {
        "joint-of-nothing": "# é\n" + struct("a String b String", JOIN.replace(":", "")),
        "joint-of-nothing-without-fields": struct("", JOIN.replace(":", "")),
        "inner-delimiter-of-nothing": struct("a String", PAIRS.replace("=", "")),
        "entry-delimiter-of-nothing": struct("a String", PAIRS.replace("&", "")),
        "entry-delimiter-in-the-inner-one": "type M {String:String}" + PAIRS.replace("=", "=&="),
        "delimiters-alike": "type M {String:String}" + PAIRS.replace("&", "="),
    },
    "nottext": {
        "join-of-an-integer": struct("a String b Int", JOIN),
        "join-of-an-enum-of-integers": struct("a E", JOIN) + int_enum('| One ("1")'),
        "join-of-null": struct("a nullable String", JOIN),
        "pairs-of-an-integer": struct("a optional String b Int", PAIRS),
        "pairs-of-inline-lists": "# é\ntype M {String:[Int]}" + PAIRS,
        "pairs-of-null": "type M {String:nullable String}" + PAIRS,
        "prefix-before-an-integer": prefixed('| String "s:" | Int "i:"'),
        "prefix-before-an-integer-that-is-missing": prefixed("| Int"),
    },
    "optionalplace": {
        "tuple-with-a-hole": tuple_of("a optional Int b Int"),
        "tuple-with-a-hole-further-on": tuple_of("a Int b optional Int c optional Int d Int e Int"),
        "join-of-an-optional-field": struct("a String b optional String", JOIN),
    },
    "implicit": {
        "implicit-text-for-an-integer": struct('a Int (implicit "1")'),
        "implicit-integer-for-a-truth": struct("a Bool (implicit 1)"),
        "implicit-truth-for-an-integer": struct("a Int (implicit true)"),
        "implicit-text-for-an-enum": struct('e E (implicit "a")') + enum("| a"),
        "implicit-text-for-any": struct('a Any (implicit "a")'),
        "implicit-value-of-an-optional-field": struct("a Int b optional Int (implicit 0)"),
        "implicit-value-of-another-type-in-a-tuple": tuple_of('a Int (implicit "1")'),
    },
    "nameclash": {
        "field-twice": "# é\n" + struct("a Int b Int a Bool"),
        "field-twice-under-other-names-in-a-block": struct('a Int a Int (rename "b")'),
        "rename-to-another-field": struct('a Int b Int (rename "a")'),
        "rename-in-front-of-the-other-field": struct('a Int (rename "b") b Int'),
        "two-renames-alike": struct('a Int (rename "é") b Int (rename "é")'),
        "member-twice": union('| Int "a" | Int "b"'),
        "discriminant-twice": union('| Int "a" | String "a"'),
        "discriminant-twice-in-an-envelope": union('| Int "a" | String "a"', ENVELOPE),
        "discriminant-twice-inline": union('| A "a" | B "a"', INLINE) + "type A struct {}\ntype B struct {}\n",
        "member-twice-behind-prefixes": prefixed('| String "a" | String "b"'),
        "member-twice-behind-prefixes-of-bytes": prefixed_bytes('| B "ab" | B "x"'),
        "enum-name-twice": enum('| A | B | A ("c")'),
        "enum-value-twice": enum('| A ("x") | B ("x")'),
        "enum-value-that-is-another-name": enum('| A | B ("A")'),
        "enum-integer-twice": int_enum('| A ("1") | B ("1")'),
        "enum-name-twice-without-an-integer": int_enum('| X ("x") | X ("1")'),
        "envelope-with-one-key": "# é\n" + union('| Int "a" | Int "b"', ENVELOPE.replace("body", "kind")),
        "inline-key-that-is-a-field": union('| Point "p"', INLINE.replace("kind", "x")) + POINT,
        "inline-key-that-is-a-renamed-field": union('| S "s"', INLINE) + struct('a Int (rename "kind")'),
        "inline-key-that-is-a-field-of-a-copy": union('| S "s" | C "c"', INLINE.replace("kind", "x")) + struct("") + "type C = Point\n" + POINT,
        "inline-key-that-is-a-field-of-a-tuple": union('| S "s"', INLINE) + tuple_of("kind Int"),
    },
    "inlinemember": {
        "inline-map": union('| Map "m"', INLINE),
        "inline-tuple": union('| Point "p" | S "s"', INLINE) + POINT + tuple_of("a Int"),
        "inline-link": union('| &Point "p"', INLINE) + POINT,
        "inline-map-without-text": union("| Map", INLINE),
    },
    "mapkey": {
        "keys-that-are-integers": "# é\ntype M { Int : String }\n",
        "keys-that-are-bytes": "type M {Bytes:Int}\n",
        "keys-that-are-an-enum-of-integers": "type M {E:Int}\n" + int_enum('| One ("1")'),
        "inline-map-with-keys-that-are-integers": "type L [{Int:Int}]\n",
        "keys-without-kinds": "type M {U:Int}\n" + union("| Int", KINDED),
        "keys-of-two-kinds": "type M {U:Int}\n" + union("| String string | Int int", KINDED),
    },
    "strategy": {
        "join-without-fields": "# é\n" + struct("", JOIN),
        "rename-in-a-tuple": tuple_of('a Int b Int (rename "c")'),
        "implicit-in-a-tuple": tuple_of("a Int (implicit 0)"),
        "rename-in-a-join": struct('a String (rename "b")', JOIN),
        "implicit-in-a-join": struct('a String (implicit "b")', JOIN),
        "member-without-text": union('| Int "a" | String'),
        "member-with-a-kind-in-place-of-a-text": union('| Int "a" | String string'),
        "member-without-text-in-an-envelope": union("| Int", ENVELOPE),
        "member-without-text-inline": union("| Point", INLINE) + POINT,
        "member-without-prefix": prefixed("| String"),
        "member-without-prefix-of-bytes": prefixed_bytes("| B"),
        "member-without-kind": union("| Int int | String", KINDED),
        "member-with-a-text-in-place-of-a-kind": union('| Int int | String "string"', KINDED),
        "members-alike-without-text": union("| Int | Int"),
        "prefix-that-is-not-hexadecimal": prefixed_bytes('| B "ax"'),
        "prefix-of-half-a-byte": prefixed_bytes('| B "abc"'),
        "prefixes-alike-that-are-not-hexadecimal": prefixed_bytes('| B "x" | Bytes "x"'),
        "enum-without-an-integer": int_enum('| One ("1") | Two'),
        "enum-names-alike-without-integers": int_enum("| X | X"),
        "enum-texts-alike-that-are-no-integers": int_enum('| X ("x") | Y ("x")'),
        "enum-integer-in-another-spelling": int_enum('| X ("1") | Y ("01")'),
        "enum-integer-minus-zero": int_enum('| X ("0") | Y ("-0")'),
        "enum-integer-with-plus": int_enum('| X ("+1")'),
        "enum-integer-of-no-digits": int_enum('| X ("")'),
        "enum-integer-in-other-digits": int_enum('| X ("١")'),
        "enum-integer-above-the-range": int_enum('| X ("18446744073709551615") | Y ("18446744073709551616")'),
        "enum-integer-below-the-range": int_enum('| X ("-9223372036854775808") | Y ("-9223372036854775809")'),
        "keys-of-one-kind-and-a-member-without": "type M {U:Int}\n" + union("| String string | Int", KINDED),
    },
}

# which of several faults is told: the types one after the other, then the rules, then the parts
REFUSED["mapkey"]["type-before-an-earlier-rule"] = "type M {Int:Int}\ntype L [nullable N]\n" + NULL
REFUSED["nullclash"]["type-before-those-inside-it"] = struct("a {Int:Int} b nullable N") + NULL
REFUSED["nullclash"]["rule-before-an-earlier-part"] = struct("a Int a Int c nullable N") + NULL
REFUSED["mapkey"]["inline-type-before-the-next-declared"] = struct("a Int b {Int:Int}") + enum("| A | A")

ACCEPTED = {
    "join-of-itself-and-another": struct("a S b String", JOIN),
    "struct-of-itself": struct("a nullable S"),
    "union-with-a-link-to-itself": union("| Int int | &U link", KINDED),
    "union-with-lists-of-itself": union("| Int int | L list", KINDED) + "type L [U]\n",
    "elements-that-are-null": NULL + "type L [N]\n",
    "elements-any-or-null": "type L [nullable Any]",
    "elements-null-or-the-empty-map": "type L [nullable N]\n" + NULL.replace("null\n", "emptymap\n"),
    "union-with-a-member-for-each-kind": union("| N null | Bool bool | Int int | String string | Bytes bytes | List list | Map map | &Any link", KINDED) + NULL,
    "union-of-one-kind-in-a-union": union("| V map", KINDED) + "type V union { | Map map }" + KINDED,
    "pairs-declared-as-a-list": union("| M list", KINDED) + "type M {String:Int} representation listpairs\n",
    "bytes-behind-bytes": prefixed_bytes('| Bytes "ab" | B "AC"') + 'type W union { | U "00" }' + " representation bytesprefix\n",
    "prefixes-that-do-not-begin-each-other": prefixed('| A "a" | B "ba"') + TEXTS,
    "prefixes-in-two-cases": prefixed('| A "ab" | B "AB"') + TEXTS,
    "joint-of-a-feed-and-more": struct("a String b String", JOIN.replace(":", " é:")),
    "inner-delimiter-in-the-entry-one": "type M {String:String}" + PAIRS.replace("&", "=&"),
    "join-of-texts": struct("a String b E c P", JOIN) + enum("| X") + "type P {String:String}" + PAIRS,
    "pairs-of-texts-that-need-not-be-there": struct('a optional String b String (rename "é" implicit "x")', PAIRS),
    "pairs-of-no-fields": struct("", PAIRS),
    "prefix-before-a-join": prefixed('| S "s:" | String "t:"') + struct("a String", JOIN),
    "tuple-that-may-end-early": tuple_of("a Int b optional Int c optional nullable Int"),
    "map-with-a-hole": struct("a optional Int b Int"),
    "implicit-values": struct('a Int (implicit -1) b Bool (implicit false) c String (implicit "")'),
    "implicit-value-of-a-copy": struct('a C (implicit "x" rename "b")') + "type C = D\ntype D = String\n",
    "implicit-value-of-a-nullable-field": struct("a nullable Int (implicit 18446744073709551615)"),
    "renames-that-cross": struct('a Int (rename "b") b Int (rename "a")'),
    "field-with-the-old-name-of-another": struct('a Int (rename "c") b Int (rename "a")'),
    "member-and-a-link-to-it": union('| Int "a" | &Int "b"'),
    "member-and-a-copy-of-it": union('| Int "a" | C "b"') + "type C = Int\n",
    "discriminants-in-two-cases": union('| Int "a" | String "A"'),
    "discriminant-that-is-a-key": union('| Int "kind" | String "body"', ENVELOPE),
    "enum-values-that-cross": enum('| A ("B") | B ("A")'),
    "enum-integers": int_enum('| A ("0") | B ("-1") | C ("18446744073709551615") | D ("-9223372036854775808")'),
    "inline-members": union('| Point "p" | C "c"', INLINE) + POINT + "type C = Point\n",
    "inline-key-that-is-the-old-name-of-a-field": union('| S "s"', INLINE) + struct('kind Int (rename "other")'),
    "keys-that-are-texts": "type M {K:{String:Int}}\ntype K = E\n" + enum("| A | B"),
    "keys-that-are-a-join": "type M {S:Int} representation advanced HAMT\n" + struct("a String b String", JOIN),
    "keys-that-are-a-union-of-texts": "type M {U:Int}\n" + union("| E string", KINDED) + enum("| A"),
    "join-of-one-field": struct("a String", JOIN),
    "rename-in-pairs": struct('a Int (rename "b" implicit 0)', " representation listpairs\n"),
    "empty-union-and-empty-enum": union("") + enum("") + "type F enum { } representation int\n",
    "names-in-order-of-the-text": "type Zoo [Yak]\ntype Yak {String:[nullable &Zoo]}\nadvanced HAMT\n"
    + 'type A_9z union { | &Yak "y" | Zoo "z" | Int "i" } representation keyed\ntype B = Link\ntype X__ = A_9z\n',
    "names-like-kinds": "type Null int\ntype Map_ {String:Int}\ntype Type struct { type Int struct Null }\n",
}
