#!/usr/bin/env python3
"""Cases of `compat`: two schemas for each rule, one way and the other; copies, recursive types, words and faults.

    python3 tests/conformance/compat_cases.py FOLDER      writes the cases there; `run` writes them anew, beside the project's own cases

What is told of each pair stands in its table, by hand: the lines of which one must be written, without `differ` and without their line feed; none
where the types are compatible. `compat.py` works it out as well, and where the two differ nothing is written, and the script ends. Behind
the two answers stand JSON texts of values of the first schema's type: each is built under that schema, and must be shown alike under the other.
"""
import pathlib
import shutil
import sys

sys.dont_write_bytecode = True
import compat
import new_cases
import values
from new_cases import bytes_of

LINK = '{"/":"bafyreiaaaaaaaaaaaaaaaaaaaaaaaaaaaaaaaaaaaaaaaaaaaaaaaaaaaa"}'
PAIRS = ' representation stringpairs {innerDelim "=" entryDelim ","}'
JOIN = ' representation stringjoin {join ":"}'
HAMT = " representation advanced HAMT"
INLINE = ' representation inline {discriminantKey "t"} '
FORM, STRATEGY, FIELD, MEMBER = ("2 form at 8 8",), ("3 strategy at 8 8",), ("4 field at 8 8",), ("8 member at 8 8",)
IMPLICIT, EXTRA = ("6 implicit at 8 8",), ("7 extra at 8 8",)
SAME = ()

NULLS = [
    ("type T struct {kids [T]}", "type T struct {kids [nullable T]}", SAME, ("1 null at 8 8",), '{"kids":[{"kids":[]}]}'),
    ("type T {String:Int}", "type T {String:nullable Int}", SAME, ("1 null at 3 3",), '{"a":1}', "{}"),
    ("type T struct {x Int}", "type T struct {x nullable Int}", SAME, ("1 null at 3 3",), '{"x":1}'),
    ("type T [[Int]]", "type T [nullable [nullable Int]]", SAME, ("1 null at 9 9", "1 null at 3 3"), "[[1],[]]"),
    ("type T [Any]", "type T [nullable Any]", SAME, ("1 null at 0 0",), '[1,{"a":[null]}]'),
    ("type T [nullable Int]", "type T [nullable Int]", SAME, SAME, "[null,1]"),
    ("type T {String:nullable Int}", "type T {String:Any}", ("1 null at 3 0",), ("2 form at 0 3",)),
]

ANY = [
    (f"type T {body}", "type T any", SAME, FORM, *texts)
    for body, *texts in (
        ("bool", "true"), ("int", "-1"), ("string", '"a"'), ("bytes", '{"/":{"bytes":"AQI"}}'), ("&Int", LINK), ("[Int]", "[1,2]"), ("[T]", "[[],[[]]]"),
        ("{String:[nullable Bytes]}", '{"a":[null,{"/":{"bytes":"AQI"}}]}'), ("{String:Int}", '{"a":1}'),
    )
]

FORMS = ANY + [
    ("type T any", "type T any", SAME, SAME, '{"a":[null,1]}'),
    ("type T = Map", "type T {String:nullable Any}", SAME, SAME, '{"a":null}'),
    ("type T = List", "type T [nullable Any]", SAME, SAME, "[null,[1]]"),
    ("type T &Int", "type T &String", SAME, SAME, LINK),
    ("type T [nullable Int]", "type T [nullable Any]", SAME, ("2 form at 0 3",), "[null,1]"),
    ("type T int", "type T string", FORM, FORM),
    ("type T bool", "type T unit representation true", FORM, FORM),
    ("type T struct {a Int}", "type T {String:Int}", FORM, FORM),
    ("type T struct {x Int}", "type T any", FORM, FORM),
    ('type T union {| Int "i"} representation keyed', "type T any", FORM, FORM),
    ("type T enum {| A}", "type T any", FORM, FORM),
    ("type T unit representation emptymap", "type T any", FORM, FORM),
    ("type T {String:Int} representation listpairs", "type T any", FORM, FORM),
    ("type T {String:String}" + PAIRS, "type T any", FORM, FORM),
    ("type T {String:Int}" + HAMT, "type T any", FORM, FORM),
    ("type T [U] type U unit representation true", "type T any", ("2 form at 9 0",), FORM),
    ("type T {String:U} type U enum {| A}", "type T {String:Any}", ("2 form at 9 0",), ("2 form at 0 9",)),
    ("type T {A:Int} type A string", "type T {A:Int} type A enum {| B}", ("2 form at 9 9",), ("2 form at 9 9",)),
]

STRATEGIES = [
    ("type T struct {x Int}", "type T struct {x Int} representation tuple", STRATEGY, STRATEGY),
    ("type T struct {x Int} representation listpairs", "type T struct {x Int} representation tuple", STRATEGY, STRATEGY),
    ("type T struct {x String}" + PAIRS, "type T struct {x String}" + JOIN, STRATEGY, STRATEGY),
    ("type T struct {x String}" + JOIN, "type T struct {x String}" + JOIN.replace(":", "-"), STRATEGY, STRATEGY),
    ("type T struct {x String}" + PAIRS, "type T struct {x String}" + PAIRS.replace("=", ":"), STRATEGY, STRATEGY),
    ("type T {String:String}" + PAIRS, "type T {String:String}" + PAIRS.replace(",", ";"), STRATEGY, STRATEGY),
    ("type T {String:String}" + PAIRS, "type T {String:String}" + PAIRS, SAME, SAME, '{"b":"1","a":"2"}'),
    ("type T {String:Int}", "type T {String:Int}" + HAMT, STRATEGY, STRATEGY),
    ("type T {String:Int}", "type T {String:Int} representation listpairs", STRATEGY, STRATEGY),
    ("type T {String:Int}" + HAMT, "type T {String:nullable Int}" + HAMT, SAME, ("1 null at 3 3",), '{"a":1,"b":2,"c":3,"d":4,"e":5}', "{}"),
    ("type T unit representation true", "type T unit representation false", STRATEGY, STRATEGY),
    ("type T unit representation null", "type T unit representation emptymap", STRATEGY, STRATEGY),
    ('type T enum {| A ("1")} representation int', 'type T enum {| A ("1")}', STRATEGY, STRATEGY),
    (
        'type T union {| Int "i"} representation envelope {discriminantKey "t" contentKey "c"}',
        'type T union {| Int "i"} representation envelope {discriminantKey "t" contentKey "d"}',
        STRATEGY, STRATEGY,
    ),
    (
        'type T union {| Int "i"} representation envelope {discriminantKey "t" contentKey "c"}',
        'type T union {| Int "i"} representation envelope {discriminantKey "u" contentKey "c"}',
        STRATEGY, STRATEGY,
    ),
    (f'type T union {{| S "s"}}{INLINE}type S struct {{}}', f'type T union {{| S "s"}}{INLINE}type S struct {{}}'.replace('"t"', '"u"'), STRATEGY, STRATEGY),
    ('type T union {| Int "i"} representation keyed', "type T union {| Int int} representation kinded", STRATEGY + MEMBER, STRATEGY + MEMBER),
]

FIELDS = [
    ("type T struct {}", "type T struct {x optional Int}", SAME, FIELD, "{}"),
    ("type T struct {x Int}", "type T struct {x Int y optional Int}", SAME, FIELD, '{"x":1}'),
    ("type T struct {x Int}", 'type T struct {x Int (rename "y")}', FIELD, FIELD),
    ("type T struct {x Int}", 'type T struct {x Int (rename "x")}', SAME, SAME, '{"x":1}'),
    ("type T struct {x Int}", 'type T struct {y Int (rename "x")}', FIELD + EXTRA, FIELD + EXTRA),
    ('type T struct {x Int (rename "y") y Int (rename "x")}', 'type T struct {y Int (rename "x") x Int (rename "y")}', SAME, SAME, '{"x":1,"y":2}'),
    ("type T struct {x Int y Int}", "type T struct {y Int z optional Int x Int}", SAME, FIELD, '{"x":1,"y":2}'),
    ("type T struct {x Int} representation tuple", "type T struct {x Int y optional Int} representation tuple", SAME, FIELD, '{"x":1}'),
    ("type T struct {x Int y Int} representation tuple", "type T struct {y Int x Int} representation tuple", FIELD, FIELD),
    ("type T struct {x optional Int} representation tuple", "type T struct {w optional Int x optional Int} representation tuple", FIELD, FIELD),
    (
        "type T struct {x Int y Int} representation listpairs",
        "type T struct {v optional Int x Int z optional Int y Int} representation listpairs",
        SAME, FIELD, '{"x":1,"y":2}',
    ),
    ("type T struct {x Int y Int} representation listpairs", "type T struct {y Int x Int} representation listpairs", FIELD, FIELD),
    ("type T struct {x String y String}" + PAIRS, "type T struct {x String w optional String y String}" + PAIRS, SAME, FIELD, '{"x":"1","y":"2"}'),
    ("type T struct {x String y String}" + PAIRS, "type T struct {y String x String}" + PAIRS, FIELD, FIELD),
    ("type T struct {x String}" + JOIN, "type T struct {x String y String}" + JOIN, FIELD + EXTRA, FIELD),
    ("type T struct {x String y String}" + JOIN, "type T struct {y String x String}" + JOIN, FIELD, FIELD),
    ("type T struct {x Int}", "type T struct {x String}", ("2 form at 3 7",), ("2 form at 7 3",)),
    ("type T struct {x Int}", 'type T struct {x String (rename "y")}', FIELD + ("2 form at 3 7",), FIELD + ("2 form at 7 3",)),
]

ABSENT = [
    ("type T struct {x Int}", "type T struct {x optional Int}", SAME, ("5 optional at 8 8",), '{"x":1}'),
    ("type T struct {x optional Int}", "type T struct {x nullable Int}", ("5 optional at 8 8",), ("1 null at 3 3",)),
    ("type T struct {x Int (implicit 1)}", "type T struct {x Int}", IMPLICIT, IMPLICIT),
    ("type T struct {x Int (implicit 1)}", "type T struct {x Int (implicit -1)}", IMPLICIT, IMPLICIT),
    ("type T struct {x Bool (implicit true)}", "type T struct {x Bool (implicit false)}", IMPLICIT, IMPLICIT),
    ("type T struct {x String}", 'type T struct {x String (implicit "a")}', IMPLICIT, IMPLICIT),
    ("type T struct {x Int (implicit 1)}", "type T struct {x optional Int}", IMPLICIT, ("5 optional at 8 8",) + IMPLICIT),
    (
        'type T struct {x Int (implicit 1) y Bool (implicit true) z String (implicit "a")}',
        'type T struct {z String (implicit "a") y Bool (implicit true) x Int (implicit 1)}',
        SAME, SAME, '{"x":1,"y":true,"z":"a"}', '{"x":2,"y":false,"z":""}',
    ),
    ("type T struct {x Int}", "type T struct {x Int y Int}", EXTRA, FIELD),
    ("type T struct {x Int}", "type T struct {x Int y nullable Int}", EXTRA, FIELD),
    ("type T struct {x Int}", "type T struct {x Int y Int (implicit 1)}", EXTRA, FIELD),
]

MEMBERS = [
    ("type T enum {| A}", "type T enum {| A | B}", SAME, MEMBER, '"A"'),
    ("type T enum {| A}", 'type T enum {| B | A ("A")}', SAME, MEMBER, '"A"'),
    ('type T enum {| A ("a")}', 'type T enum {| A ("b")}', MEMBER, MEMBER),
    ('type T enum {| A ("a")}', 'type T enum {| B ("a")}', MEMBER, MEMBER),
    ('type T enum {| A ("x") | B ("y")}', 'type T enum {| B ("x") | A ("y")}', MEMBER, MEMBER),
    ('type T enum {| A ("1")} representation int', 'type T enum {| B ("2") | A ("1")} representation int', SAME, MEMBER, '"A"'),
    ('type T enum {| A ("1")} representation int', 'type T enum {| A ("-1")} representation int', MEMBER, MEMBER),
    ('type T union {| Int "i"} representation keyed', 'type T union {| String "s" | Int "i"} representation keyed', SAME, MEMBER, '{"Int":1}'),
    ('type T union {| Int "i"} representation keyed', 'type T union {| Int "j"} representation keyed', MEMBER, MEMBER),
    ('type T union {| A "x" | B "y"} representation keyed type A int type B int', 'type T union {| B "x" | A "y"} representation keyed type A int type B int', MEMBER, MEMBER),
    ("type T union {| Int int} representation kinded", "type T union {| String string | Int int} representation kinded", SAME, MEMBER, '{"Int":1}'),
    ('type T union {| Bytes "0a"} representation bytesprefix', 'type T union {| Bytes "0A"} representation bytesprefix', SAME, SAME, '{"Bytes":{"/":{"bytes":"AQ"}}}'),
    ('type T union {| Bytes "0a"} representation bytesprefix', 'type T union {| Bytes "0b"} representation bytesprefix', MEMBER, MEMBER),
    ('type T union {| String "a:"} representation stringprefix', 'type T union {| String "b:"} representation stringprefix', MEMBER, MEMBER),
    (
        f'type T union {{| S "s"}}{INLINE}type S struct {{x Int}}',
        f'type T union {{| S "s"}}{INLINE}type S struct {{x Int y optional Int}}',
        SAME, ("4 field at 9 9",), '{"S":{"x":1}}',
    ),
    (
        f'type T union {{| S "s"}}{INLINE}type S struct {{x Int}}',
        f'type T union {{| S "s"}}{INLINE}type S struct {{x Int y Int}}',
        ("7 extra at 9 9",), ("4 field at 9 9",),
    ),
    (
        'type T union {| A "a"} representation keyed type A int', 'type T union {| A "a"} representation keyed type A string',
        ("2 form at 9 9",), ("2 form at 9 9",),
    ),
    ('type T union {| &Int "l"} representation keyed', 'type T union {| &String "l"} representation keyed', MEMBER, MEMBER),
    ('type T union {| &Int "l"} representation keyed', 'type T union {| String "s" | &Int "l"} representation keyed', SAME, MEMBER, '{"&Int":%s}' % LINK),
]


def copies_in_a_row(count):
    names = ["T"] + [f"A{n}" for n in range(count)]
    return "".join(f"type {a} = {b}\n" for a, b in zip(names, names[1:])) + f"type {names[-1]} [Int]\n"


def structs_in_a_row(count, last):
    names = ["T"] + [f"A{n}" for n in range(count)]
    return "".join(f"type {a} struct {{n {b}}}\n" for a, b in zip(names, names[1:])) + f"type {names[-1]} {last}\n"


COPIES = [
    ("type T = A type A = B type B int", "type T int", SAME, SAME, "1"),
    ("type T = Int", "type T = A type A int", SAME, SAME, "1"),
    ("type T [A] type A = B type B int", "type T [A] type A string", ("2 form at 9 9",), ("2 form at 9 9",)),
    ("type T struct {x A} type A = B type B = Int", "type T struct {x Int}", SAME, SAME, '{"x":1}'),
    ("type T struct {x A} type A = Int", "type T struct {x String}", ("2 form at 9 7",), ("2 form at 7 9",)),
    ("type T = S type S struct {x Int}", "type T = U type U = S type S struct {x Int y optional Int}", SAME, FIELD, '{"x":1}'),
    (copies_in_a_row(500), "type T = A type A [nullable Int]", SAME, ("1 null at 3 3",), "[1]"),
]

CIRCLES = [
    ("type T struct {l optional T v Int}", "type T struct {l optional T v Int w optional Int}", SAME, FIELD, '{"l":{"v":2},"v":1}'),
    ("type T struct {k [U]} type U struct {p {String:T}}", "type T struct {k [V]} type V struct {p {String:T}}", SAME, SAME, '{"k":[{"p":{"a":{"k":[]}}}]}'),
    ("type T struct {n optional T}", "type T struct {n optional U} type U struct {n optional T}", SAME, SAME, '{"n":{"n":{"n":{}}}}'),
    ("type T struct {n optional T v Int}", "type T struct {n optional U v Int} type U struct {n optional T v String}", ("2 form at 3 7",), ("2 form at 7 3",)),
    ("type T {String:T}" + HAMT, "type T {String:nullable T}" + HAMT, SAME, ("1 null at 8 8",), '{"a":{"b":{}},"c":{}}'),
    ("type T [T]", "type T [U] type U [T]", SAME, SAME, "[[],[[[]]]]"),
    (structs_in_a_row(300, "int"), structs_in_a_row(300, "any"), SAME, ("2 form at 308 308",)),
    (structs_in_a_row(300, "struct {x Int}"), structs_in_a_row(300, "struct {x Int y Int}"), ("7 extra at 308 308",), ("4 field at 308 308",)),
]

# The example of docs/formats.md, with T for the type that is asked for.
NOTE, LEVEL, BOOK = "type %s struct {text String}", "type %s enum {|Draft|Final|Old}", "type %s struct {notes {String:%s} level %s}"
NEW_NOTE, NEW_LEVEL = NOTE.replace("}", " lang optional String}"), LEVEL.replace("|Old", "")


def release(note, level, names):
    return "\n".join((note, level, BOOK)) % (*names, *names[:2])


EXAMPLE = [
    (release(NOTE, LEVEL, names), release(NEW_NOTE, NEW_LEVEL, names), there, back, *texts)
    for names, there, back, *texts in (
        (("T", "Level", "Book"), SAME, FIELD, '{"text":"a"}'),
        (("Note", "T", "Book"), ("8 member at 9 9",), SAME),
        (("Note", "Level", "T"), ("8 member at 9 9",), FIELD),
    )
]

RELEASE = (
    # a field comes in, a level goes, and the authors of a note may be left out
    "type Note struct {text String by [String]} type Level enum {| Draft | Final | Old} type T struct {notes {String:Note} level Level}",
    "type Note struct {text String by optional [String] lang optional String} type Level enum {| Final | Draft} type T struct {notes {String:Note} level Level}",
    ("8 member at 10 10",), ("4 field at 8 8", "5 optional at 8 8"),
)

TABLES = {
    "null": NULLS, "form": FORMS, "strategy": STRATEGIES, "field": FIELDS, "absent": ABSENT, "member": MEMBERS, "copy": COPIES, "circle": CIRCLES,
    "example": EXAMPLE, "release": [RELEASE],
}

GOOD, BAD, OTHER = "type T struct {x Int}\n", "type T {Int:Int}\n", "type T ;\n"
WORDS = {
    "a-word-less": (["compat", "o", "n"], {"o": GOOD, "n": GOOD}, "fault 2 words\n", 2),
    "a-word-more": (["compat", "o", "n", "T", "T"], {"o": GOOD, "n": GOOD}, "fault 2 words\n", 2),
    "upper-case": (["Compat", "o", "n", "T"], {"o": GOOD, "n": GOOD}, "fault 2 words\n", 2),
    "one-schema-twice": (["compat", "o", "o", "T"], {"o": GOOD}, "ok true\n", 0),
    "words-before-inputs": (["compat", "o", "n"], {}, "fault 2 words\n", 2),
}
FAULTS = {
    "both-absent": (None, None, "T", "fault 5 input schema absent\n", 5),
    "next-absent": (GOOD, None, "T", "fault 5 input next absent\n", 5),
    "first-absent-next-faulty": (None, BAD, "T", "fault 5 input schema absent\n", 5),
    "first-faulty-next-absent": (BAD, None, "T", "fault 3 schema accept 11 mapkey at 8\n", 3),
    "first-faulty": (OTHER, GOOD, "T", "fault 3 schema lex 1 char at 7\n", 3),
    "next-faulty": (GOOD, OTHER, "T", "fault 3 schema lex 1 char at 7\n", 3),
    "both-faulty": (BAD, OTHER, "T", "fault 3 schema accept 11 mapkey at 8\n", 3),
    "type-in-neither": (GOOD, GOOD, "U", "fault 2 words\n", 2),
    "type-in-the-first": (GOOD + "type U int\n", GOOD, "U", "fault 2 words\n", 2),
    "type-in-the-next": (GOOD, GOOD + "type U int\n", "U", "fault 2 words\n", 2),
    "type-behind-the-next-schema": (GOOD, BAD, "U", "fault 3 schema accept 11 mapkey at 8\n", 3),
    "type-behind-the-next-input": (GOOD, None, "U", "fault 5 input next absent\n", 5),
    "type-of-the-prelude": ("", GOOD, "Any", "ok true\n", 0),
    "inline-type": ("type T [[Int]]\n", "type T [[Int]]\n", "[Int]", "fault 2 words\n", 2),
}


def agree(name, told, found):
    if told != found:
        raise ValueError(f"{name} is told to be {told}, and is worked out as {found}")


def write_told(folder, name, words, inputs, lines, status):
    first, *others = sorted(lines)
    more = {"alternatives": "".join(others)} if others else {}
    new_cases.write(name, words, {**inputs, **more}, first, status, folder=folder)


def write_way(folder, name, old, new, lines):
    """One way: what is told by hand must be what is worked out."""
    told = ({f"differ {line}\n" for line in lines}, 1) if lines else ({"ok true\n"}, 0)
    agree(name, told, compat.answer(bytes_of(old), bytes_of(new), "T"))
    write_told(folder, name, ["compat", "o", "n", "T"], {"o": old, "n": new}, *told)


def write_value(folder, name, old, new, json):
    """A value of the first schema, which must be shown alike under the other."""
    text, status, blocks = values.answer(bytes_of(old), "T", bytes_of(json))
    if not blocks:
        raise ValueError(f"{name} has no value of {json}: {text}")
    held = {values.cid_text(block): block for block in blocks}
    shown = values.shown_answer(bytes_of(old), "T", bytes_of(json))
    new_cases.write(name, ["show", "n", "T", values.cid_text(blocks[0])], {"n": new}, *shown, held=held.items(), folder=folder)


def write_all(folder):
    shutil.rmtree(folder, ignore_errors=True)
    for table, rows in TABLES.items():
        for place, (old, new, there, back, *texts) in enumerate(rows, 1):
            write_way(folder, f"compat-{table}-{place}", old, new, there)
            write_way(folder, f"compat-{table}-{place}-back", new, old, back)
            write_way(folder, f"compat-{table}-{place}-same", new, new, SAME)
            for number, json in enumerate(texts, 1):
                write_value(folder, f"compat-{table}-{place}-value-{number}", old, new, json)
    for name, (words, inputs, text, status) in WORDS.items():
        new_cases.write(f"compat-words-{name}", words, inputs, text, status, folder=folder)
    for name, (old, new, ty, text, status) in FAULTS.items():
        inputs = {role: source for role, source in (("o", old), ("n", new)) if source is not None}
        agree(name, ({text}, status), compat.answer(*(None if s is None else s.encode() for s in (old, new)), ty))
        new_cases.write(f"compat-fault-{name}", ["compat", "o", "n", ty], inputs, text, status, folder=folder)


if __name__ == "__main__":
    if len(sys.argv) != 2:
        sys.exit(__doc__)
    write_all(pathlib.Path(sys.argv[1]).resolve())
