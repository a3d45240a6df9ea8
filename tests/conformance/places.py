"""Schemas under `check` whose first fault shows where it stands, and schemas that are read or accepted.

All places were counted in the texts by hand, in bytes; `schema.py` works them out as well, and `write_cases` asks that both agree.
"""
GIVEN = ["Any", "Bool", "Bytes", "Int", "Link", "List", "Map", "String", "Float"]
MOST_PARTS = 1024

# types of parts: what stands before the parts, a part, what ends the type, and how far the name of a part stands behind its beginning
OF_PARTS = [
    ("type S struct { ", "f Int ", "}", 0),
    ("type E enum { ", "| M ", "}", 2),
    ("type U union { ", '| Int "i" ', "} representation keyed", 2),
    ("type V union { ", '| &Int "i" ', "} representation keyed", 2),
]


def with_parts(count):
    """A type of each kind with so many parts."""
    return [front + part * count + end for front, part, end, _ in OF_PARTS]


def behind_most():
    """Where the name of the first part too many stands, in a type of each kind."""
    return [len(front) + MOST_PARTS * len(part) + name for front, part, _, name in OF_PARTS]


def with_second_marked(count):
    """A type of each kind with so many parts of one name, with a caret before the second name."""
    return [front + part + part[:name] + "^" + part[name:] + part * (count - 2) + end for front, part, end, name in OF_PARTS]


# a fault of each other kind that the resolver tells, and then a struct of as many fields as there may be
FAULTS_BEFORE_PARTS = "type Int = Nope advanced Other type F float type S struct { " + "f Nope " * MOST_PARTS

# what is told of the schema, and for each place the schemas that have their first fault there
FAULTS = {
    "lex 1 char": [
        (0, ";"),
        (2, "a -"),
        (2, "a - 1"),
        (0, "é"),
        (5, "# é\n,"),
        (2, '"a\\n"'),
        (7, "type A ;"),
        (32, "type A struct { a Int (implicit - 1) }"),
        (20, 'type A struct { a "x\\q" }'),
        (9, "type A = -"),
        (12, "# é\ntype A ;"),
        (7, "typo A ;"),
    ],
    "lex 2 unended": [
        (0, '"a'),
        (2, 'a "b\n"'),
        (0, '"a\\'),
        (18, 'type A struct { a "x'),
        (19, 'type A enum { | B ("x\n") }'),
        (7, 'typo A "x'),
    ],
    "parse 1 syntax": [
        (7, "type A strut {}"),
        (5, "type a bool"),
        (6, "type A"),
        (4, "type"),
        (0, "typo A bool"),
        (0, '"é" type'),
        (27, 'type A enum { | B ("é") | "C" }'),
        (12, "# é\ntype A strut"),
        (35, "type A {String:Int} representation tuple"),
        (34, "type A {String:Int} representation"),
        (15, "type A {String Int}"),
        (8, "type A {string:Int}"),
        (34, 'type A struct { a Int (rename "b" rename "c") }'),
        (34, "type A struct { a Int (implicit 1 implicit 2) }"),
        (23, "type A struct { a Int () }"),
        (45, 'type A struct { a Int (rename "b" implicit 1 rename "c") }'),
        (32, "type A struct { a Int (implicit 01) }"),
        (32, "type A struct { a Int (implicit -0) }"),
        (32, "type A struct { a Int (implicit 18446744073709551616) }"),
        (32, "type A struct { a Int (implicit -9223372036854775809) }"),
        (64, 'type A {String:Int} representation stringpairs { innerDelim "=" innerDelim "=" }'),
        (64, 'type A {String:Int} representation stringpairs { innerDelim "=" }'),
        (20, "type A union { | B }"),
        (11, "type A unit"),
        (40, "type A [[[[[[[[[[[[[[[[[[[[[[[[[[[[[[[[[["),
        (11, "type A = B = C"),
        (12, "# é\ntype A strut {}"),
        (20, "type Int = Nope type"),
        (32, "advanced Other type F float type"),
        (15, "type A = A type"),
        (40, "type A " + "[" * 34 + "Int" + "]" * 34),
    ],
    "resolve 1 twice": [
        (17, "type A bool type A int"),
        (17, "type A bool type A int type A int"),
        (29, "type A bool type B bool type B int type A int"),
        (5, "type Float float"),
        (16, "type A = B type Int int"),
        (44, "type A = B type F float advanced Other type A int"),
        (16, "type A = A type A = A"),
        *((5, f"type {name} bool") for name in GIVEN),
    ],
    "resolve 2 unknown": [
        (9, "type A = B"),
        (9, "type A = HAMT advanced HAMT"),
        (8, "type A &B"),
        (8, "type A [B]"),
        (17, "type A [nullable B]"),
        (9, "type A [&B]"),
        (8, "type A {B:Int}"),
        (15, "type A {String:B}"),
        (8, "type A {B:C}"),
        (9, "type A [{B:C}]"),
        (37, "type A struct { f optional nullable [B] }"),
        (17, 'type A union { | B "b" } representation keyed'),
        (18, 'type A union { | &B "b" } representation keyed'),
        (9, "type A = B type F float"),
        (9, "type A = B advanced Other"),
        (15, "type A {String:B} representation advanced Other"),
        (17, "type A union { | B float } representation kinded"),
        (20, "type A = A type B = C"),
    ],
    "resolve 3 float": [
        (7, "type F float"),
        (21, "type A union { | Int float } representation kinded"),
        (9, "type F = Float"),
        (8, "type A &Float"),
        (8, "type A [Float]"),
        (8, "type A {Float:Int}"),
        (24, "type A {String:nullable Float}"),
        (22, "type A struct { Float Float }"),
        (17, 'type A union { | Float "f" } representation keyed'),
        (18, 'type A union { | &Float "f" } representation keyed'),
        (7, "type F float type A = B"),
        (8, "type A {Float:B}"),
        (21, "type A union { | Int float | B int } representation kinded"),
        (18, "type A = A type F float"),
    ],
    "resolve 5 advanced": [
        (9, "advanced Other"),
        (23, "advanced HAMT advanced HAMTS"),
        (21, "type A bool advanced A"),
        (9, "advanced Float"),
        (44, "type A {String:Int} representation advanced Other"),
        (44, "type A {String:Int} representation advanced Float"),
        (9, "advanced Other type A = B"),
        (20, "type A = A advanced Other"),
    ],
    "resolve 6 many": [
        *zip(behind_most(), with_parts(MOST_PARTS + 1)),
        *zip(behind_most(), with_parts(MOST_PARTS + 2)),
        (len(FAULTS_BEFORE_PARTS), FAULTS_BEFORE_PARTS + "f Nope }"),
    ],
    "resolve 4 copycycle": [
        (5, "type A = A"),
        (5, "type A = B type B = A"),
        (5, "type A = B type B = C type C = A"),
        (17, "type A [&A] type B = B"),
        (16, "type A = B type B = B"),
        (16, "type A = B type B = C type C = B"),
        (16, "type A = C type B = D type C = C type D = B"),
        (16, "type A = C type B = C type C = D type D = B"),
    ],
}

# bytes that are no text, and the first of them with which they stop being one: behind a byte with which no token begins as well
BROKEN = [
    (0, b"\xff"),
    (7, b"type A \xff"),
    (2, b"# \xc3"),
    (2, b"# \xed\xa0\x80"),
    (9, b"; type A \xc3\x28"),
    (4, b"\"x\n \xff"),
    (5, b"typo \xff"),
]

# each form of the grammar: no fault of theirs is one of tokens or of the grammar
READ = [
    "# only a comment",
    "type A = B\r\ntype B bool\r\n",
    "type A string type B bytes type C int type D float type E any type F &G",
    "advanced HAMT",
    "type A [nullable B]",
    "type A [[{String:&Any}]]",
    "type A {String:nullable [Int]}",
    "type A {String:Int} representation map",
    "type A {String:Int} representation listpairs",
    'type A {String:Int} representation stringpairs { innerDelim "=" entryDelim "&" }',
    'type A {String:Int} representation stringpairs { entryDelim "&" innerDelim "=" }',
    "type A {String:Int} representation advanced HAMT",
    "type A struct {}",
    "type A struct { optional Int }",
    "type A struct { optional optional nullable Int nullable optional Int rename Int type Int }",
    'type A struct { a Int (rename "b") b Int (implicit 0) c Int (implicit -1 rename "d") }',
    'type A struct { a Bool (implicit true) b Bool (rename "c" implicit false) c String (implicit "x\\"\\\\") }',
    "type A struct { a Int (implicit 18446744073709551615) b Int (implicit -9223372036854775808) }",
    "type A struct {} representation map",
    "type A struct {} representation tuple",
    "type A struct {} representation listpairs",
    'type A struct {} representation stringpairs { innerDelim "=" entryDelim "&" }',
    'type A struct {} representation stringjoin { join ":" }',
    "type A union {} representation keyed",
    'type A union { | B "b" | &C "c" } representation keyed',
    "type A union { | B null | C bool | D int | E float | F string } representation kinded",
    "type A union { | B bytes | C list | D map | &E link } representation kinded",
    'type A union { | B "b:" } representation stringprefix',
    'type A union { | B "00" } representation bytesprefix',
    'type A union { | B "b" } representation envelope { discriminantKey "k" contentKey "v" }',
    'type A union { | B "b" } representation envelope { contentKey "v" discriminantKey "k" }',
    'type A union { | B "b" } representation inline { discriminantKey "k" }',
    "type A union { | B | C } representation kinded",
    "type A enum {}",
    'type A enum { | B | type | c ("x") }',
    "type A enum { | B } representation string",
    'type A enum { | B ("1") } representation int',
    "type A unit representation null",
    "type A unit representation true",
    "type A unit representation false",
    "type A unit representation emptymap",
    "type A struct { a {String:[nullable Int]} b &Any }",
    "type A [[[[[[[[[[[[[[[[[[[[[[[[[[[[[[[[[Int]]]]]]]]]]]]]]]]]]]]]]]]]]]]]]]]]",
    "advanced HAMT advanced HAMT",
    "type HAMT bool advanced HAMT",
    "type A = B type B bool",
    "type A = Any",
    "type A struct { a Any b Bool c Bytes d Int e Link f List g Map h String }",
    "type A {String:&Any}",
    "type A [[[Int]]]",
    "type A &A",
    "type A [A]",
    'type A union { | &A "a" } representation keyed',
    'type A union { | A "a" } representation keyed',
    "type A struct { optional optional Int }",
    "type A struct { Float Int float Int }",
    "type A enum { | Float | float }",
    "type A = B type B = C type C [A]",
    # an example of each form, as the documents give it
    """type Copy = Int                    type Any1 any                       type Link &Any
type List [nullable Int]           type Deep [[{String:&Any}]]         advanced HAMT
type M1 {String:Int}               type M2 {String:Int} representation listpairs
type M3 {String:Int} representation stringpairs { innerDelim "=" entryDelim "&" }
type M4 {String:Int} representation advanced HAMT
type S1 struct { a Int  b optional nullable String  c Int (implicit 0 rename "z") }
type S2 struct { a Int } representation tuple
type S3 struct { a String } representation stringjoin { join ":" }
type U1 union { | Phone "phone" | &Room "room" } representation keyed
type U2 union { | Int int | String string } representation kinded
type U3 union { | Phone "p:" } representation stringprefix
type U4 union { | Phone "01" } representation bytesprefix
type U5 union { | Phone "p" } representation envelope { discriminantKey "tag" contentKey "body" }
type U6 union { | S1 "s" } representation inline { discriminantKey "tag" }
type E1 enum { | Admin ("a") | Guest }
type E2 enum { | One ("1") } representation int
type N1 unit representation emptymap
""",
]

# each rule of accepted schemas, and schemas that it refuses; a caret stands before the place that is told, and is no part of the schema
MARKED = {
    "accept 1 cycle": [
        'type ^A struct { a A } representation stringjoin { join ":" }',
        "type ^U union { | U map } representation kinded",
        "type ^B = U type U union { | B map | Int int } representation kinded",
        "type C [B] type ^B = U type U union { | B map | Int int } representation kinded",
        "type A = B type ^B union { | B map | Int int } representation kinded",
        'type M {Int:Int} type ^A struct { a A } representation stringjoin { join ":" }',
    ],
    "accept 2 nullclash": [
        "type N unit representation null type L [^nullable N]",
        "type M = N type N unit representation null type S struct { a Int ^b nullable M }",
        "type N unit representation null type M {String:^nullable N}",
        "type N unit representation null type L [[^nullable N]]",
        "type N unit representation null type U union { | N null | Int int } representation kinded type L [^nullable U]",
    ],
    "accept 3 kindclash": [
        "type U union { | A string | ^B string } representation kinded type A string type B string",
        "type U union { | ^Int string } representation kinded",
        "type U union { | ^Any map } representation kinded",
        "type U union { | ^V map } representation kinded type V union { | W map | L list } representation kinded type W {String:Int} type L [Int]",
        'type U union { | ^String "ab" } representation bytesprefix',
        'type U union { | ^String "x" } representation bytesprefix',
    ],
    "accept 4 prefixclash": [
        'type U union { | A "a" | ^B "ab" } representation stringprefix type A string type B string',
        'type U union { | A "ab" | ^B "a" } representation stringprefix type A string type B string',
        'type U union { | A "a" | ^B "a" } representation stringprefix type A string type B string',
        'type U union { | ^A "" } representation stringprefix type A string',
        'type U union { | A "b" | B "a" | C "c" | ^D "bx" } representation stringprefix type A string type B string type C string type D string',
        'type U union { | Bytes "ab" | ^B "AB" } representation bytesprefix type B bytes',
        'type U union { | ^Bytes "" } representation bytesprefix',
    ],
    "accept 5 delim": [
        'type ^S struct { a String } representation stringpairs { innerDelim "" entryDelim "&" }',
        'type ^S struct { a String } representation stringpairs { innerDelim "=" entryDelim "" }',
        'type ^M {String:String} representation stringpairs { innerDelim "a&" entryDelim "&" }',
        'type ^S struct { } representation stringjoin { join "" }',
    ],
    "accept 6 nottext": [
        'type S struct { a String ^b Int } representation stringjoin { join ":" }',
        'type S struct { ^a E } representation stringjoin { join ":" } type E enum { | X ("1") } representation int',
        'type S struct { ^a nullable String } representation stringpairs { innerDelim "=" entryDelim "&" }',
        'type M {String:^Int} representation stringpairs { innerDelim "=" entryDelim "&" }',
        'type M {String:^[Int]} representation stringpairs { innerDelim "=" entryDelim "&" }',
        'type U union { | ^Int "a" } representation stringprefix',
    ],
    "accept 7 optionalplace": [
        "type S struct { a optional Int ^b Int } representation tuple",
        'type S struct { ^a optional String } representation stringjoin { join ":" }',
    ],
    "accept 8 implicit": [
        'type S struct { ^a Int (implicit "x") }',
        "type S struct { ^a optional Int (implicit 1) }",
        'type S struct { ^a E (implicit "X") } type E enum { | X }',
        "type S struct { ^a Any (implicit true) }",
    ],
    "accept 9 nameclash": [
        "type S struct { a Int ^a Int }",
        'type S struct { a Int ^b Int (rename "a") }',
        'type S struct { a Int ^b Int (rename "a") } representation tuple',
        'type U union { | A "a" | ^A "b" } representation keyed type A int',
        'type U union { | A "a" | ^B "a" } representation keyed type A int type B int',
        'type E enum { | A | ^A ("b") }',
        'type E enum { | A | ^B ("A") }',
        'type E enum { | A ("1") | ^B ("1") } representation int',
        'type E enum { | X ("x") | ^X ("y") } representation int',
        'type ^U union { | A "k" | A "k" } representation envelope { discriminantKey "k" contentKey "k" } type A int',
        'type U union { | ^A "k" } representation inline { discriminantKey "k" } type A struct { k Int }',
        'type U union { | ^A "k" } representation inline { discriminantKey "k" } type A struct { a Int (rename "k") }',
        'type U union { | ^A "a" } representation inline { discriminantKey "k" } type A struct { k Int } representation tuple',
        *with_second_marked(MOST_PARTS),
    ],
    "accept 10 inlinemember": [
        'type U union { | ^A "k" } representation inline { discriminantKey "t" } type A struct { k Int } representation tuple',
        'type U union { | ^Map "k" } representation inline { discriminantKey "t" }',
    ],
    "accept 11 mapkey": [
        "type M {^U:Int} type U union { | Int } representation kinded",
        "type M {^Int:Int}",
        "type L [{^Int:Int}]",
    ],
    "accept 12 strategy": [
        'type ^S struct { } representation stringjoin { join ":" }',
        'type S struct { ^a Int (rename "b") } representation tuple',
        "type S struct { ^a Int (implicit 1) } representation tuple",
        'type S struct { ^a String (rename "b") } representation stringjoin { join ":" }',
        "type U union { | ^A | A } representation keyed type A int",
        'type U union { | ^A | A "a" } representation keyed type A int',
        "type U union { | ^Int int } representation keyed",
        'type U union { | ^Int "int" } representation kinded',
        "type U union { | ^Bytes } representation bytesprefix",
        'type U union { | Bytes "ab" | ^B "a" } representation bytesprefix type B bytes',
        'type U union { | ^Bytes "x" | B "x" } representation bytesprefix type B bytes',
        "type E enum { | ^X } representation int",
        "type E enum { | ^X | X } representation int",
        'type E enum { | ^X ("x") | Y ("x") } representation int',
        'type E enum { | X ("1") | ^Y ("01") } representation int',
        'type E enum { | X ("0") | ^Y ("-0") } representation int',
        'type E enum { | X ("18446744073709551615") | ^Y ("18446744073709551616") } representation int',
        'type E enum { | X ("-9223372036854775808") | ^Y ("-9223372036854775809") } representation int',
        'type S struct { ^a Int (rename "b") } representation tuple type N unit representation null type L [nullable N]',
    ],
}

# schemas beside them that differ in little, and are accepted
ACCEPTED = [
    'type A struct { a A b String } representation stringjoin { join ":" }',
    "type A struct { a A }",
    "type N unit representation null type L [N]",
    "type L [nullable Any]",
    "type U union { | A string | Int int } representation kinded type A string",
    "type U union { | V map } representation kinded type V union { | W map } representation kinded type W {String:Int}",
    'type U union { | A "a" | B "ba" } representation stringprefix type A string type B string',
    'type U union { | Bytes "ab" | B "AC" } representation bytesprefix type B bytes',
    'type M {String:String} representation stringpairs { innerDelim "&" entryDelim "a&" }',
    'type S struct { a String b E } representation stringjoin { join ":" } type E enum { | X }',
    "type S struct { a Int b optional Int } representation tuple",
    "type S struct { a optional Int b Int }",
    'type S struct { a String (implicit "x") }',
    "type S struct { a T (implicit 1) } type T = Int",
    "type S struct { a Bool (implicit true) }",
    'type S struct { a Int (rename "b") b Int (rename "a") }',
    'type E enum { | A ("B") | B ("A") }',
    'type E enum { | A ("1") | B ("2") } representation int',
    'type U union { | A "k" } representation envelope { discriminantKey "k" contentKey "l" } type A int',
    'type U union { | A "k" } representation inline { discriminantKey "k" } type A struct { k Int (rename "a") }',
    'type U union { | B "k" } representation inline { discriminantKey "t" } type B = A type A struct { k Int }',
    "type M {E:Int} type E enum { | X }",
    'type S struct { a Int (rename "b") } representation listpairs',
    "type N {String:Int}",
]
