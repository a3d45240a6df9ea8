"""What `new` and `show` do with big values, with inputs and outputs that fail and with the folder of blocks, as `edges.py` does for `run`.

Each test is a function named for what it shows. It gets the program and a fresh folder, and yields what is wrong. What a run must write
is worked out by `values.py`.
"""
import os
import resource
import subprocess

import edges
import new_cases
import tables
import values


def give(place, source, text, value="v"):
    place.mkdir(parents=True, exist_ok=True)
    (place / "s").write_bytes(source.encode())
    (place / value).write_bytes(text.encode())


def start(program, place, ty, value="v", **how):
    return edges.start(program, place, ["new", "s", ty, value], **how)


def asked(program, place, source, ty, text):
    """What is wrong with a run, what it must write being worked out here."""
    give(place, source, text)
    written, status, blocks = values.answer(source.encode(), ty, text.encode())
    yield from edges.differs(start(program, place, ty), written.encode(), status)
    held = {values.cid_text(block): block for block in blocks}
    if edges.files_in(place) != held:
        yield f"left {sorted(edges.files_in(place))}, and {sorted(held)} is wanted"


def a_text_that_fills_a_block(program, place):
    for length in (4_194_298, 4_194_299, 4_194_300):
        for wrong in asked(program, place / str(length), "type S string\n", "S", f'"{"x" * length}"'):
            yield f"{length}: {wrong}"


def refused_values_leave_the_folder(program, place):
    source = "type S struct { a Int b optional Int c optional Int j optional J } representation tuple\ntype J struct { x String } representation stringjoin { join \":\" }\n"
    for name, text in (("json", "1.5"), ("mismatch", "{}"), ("hole", '{"a":1,"c":1}'), ("delimiter", '{"a":1,"b":1,"c":1,"j":{"x":":"}}')):
        yield from (f"{name}: {wrong}" for wrong in asked(program, place / name, source, "S", text))
        if (place / name / "blocks").exists():
            yield f"{name}: the folder of blocks was made"


def values_that_are_no_inputs(program, place):
    give(place, "type A any\n", "[]")
    (place / "folder").mkdir()
    for name, size in (("limit", 16_777_216), ("long", 16_777_217), ("huge", 1 << 40)):
        edges.zeros(place / name, size)
    for name, text, status in (
        ("limit", "fault 9 value 3 json\n", 9),
        ("long", "fault 5 input value long\n", 5),
        ("huge", "fault 5 input value long\n", 5),
        ("none", "fault 5 input value absent\n", 5),
        ("", "fault 5 input value absent\n", 5),
        ("v/none", "fault 5 input value absent\n", 5),
        ("folder", "fault 5 input value failed\n", 5),
    ):
        yield from (f"{name!r}: {wrong}" for wrong in edges.differs(start(program, place, "A", name), text.encode(), status))


def a_value_at_standard_input(program, place):
    give(place, "type A any\n", "")
    text, status, _ = values.answer(b"type A any\n", "A", b"[1]")
    run = start(program, place, "A", "/dev/stdin", stdin=subprocess.PIPE)
    yield from edges.differs(run, text.encode(), status, b"[1]")


def a_file_in_place_of_the_folder(program, place):
    give(place, "type A any\n", "[]")
    (place / "blocks").write_bytes(b"mine")
    yield from edges.differs(start(program, place, "A"), b"fault 6 store\n", 6)
    if (place / "blocks").read_bytes() != b"mine":
        yield "the file was written"


def a_write_that_is_cut_off_leaves_nothing(program, place):
    give(place, "type A any\n", '"abcdefghijkl"')
    limited = {"preexec_fn": lambda: resource.setrlimit(resource.RLIMIT_FSIZE, (8, 8)), "restore_signals": False}
    yield from edges.differs(start(program, place, "A", **limited), b"fault 6 store\n", 6)
    if edges.files_in(place):
        yield f"left {sorted(edges.files_in(place))}"


def standard_output_that_fails(program, place):
    give(place, "type A any\n", "[]")
    for value in ("v", "none"):
        with open("/dev/full", "wb") as full:
            yield from edges.differs(start(program, place, "A", value, stdout=full), None, 7)
    near, far = os.pipe()
    os.close(near)
    with open(far, "wb") as closed:
        yield from edges.differs(start(program, place, "A", stdout=closed), None, 7)


def two_runs_side_by_side(program, place):
    text, status, (block,) = values.answer(b"type A any\n", "A", b'{"a":[1,2,3]}')
    for number in range(100):
        room = place / str(number)
        give(room, "type A any\n", '{"a":[1,2,3]}')
        for run in [start(program, room, "A") for _ in range(2)]:
            yield from (f"in round {number}: {wrong}" for wrong in edges.differs(run, text.encode(), status))
        if edges.files_in(room) != {values.cid_text(block): block}:
            yield f"in round {number}: left {sorted(edges.files_in(room))}"


HAMT = "type H {String:Int} representation advanced HAMT\n"


def a_hamt_with_a_node_above_a_block(program, place):
    """Four texts of one index stand in a child, three in the root: the sum of their lengths decides."""
    source = "type H {String:String} representation advanced HAMT\n"
    for count in (3, 4):
        for length in (1_000_000, 1_500_000):
            text = "{%s}" % ",".join(f'"{key}":"{"x" * length}"' for key in new_cases.alike(count, 1))
            yield from (f"{count} of {length}: {wrong}" for wrong in asked(program, place / f"{count}-{length}", source, "H", text))


def a_file_that_is_not_its_block(program, place):
    """It counts as missing, and stays as it is."""
    _, _, (block,) = values.answer(b"type A int\n", "A", b"1")
    root = values.cid_text(block)
    give(place, "type A int\n", "")
    (place / "blocks").mkdir()
    (place / "blocks" / root).write_bytes(b"other bytes")
    run = edges.start(program, place, ["show", "s", "A", root])
    yield from edges.differs(run, f"fault 4 root missing {root}\n".encode(), 4)
    if (place / "blocks" / root).read_bytes() != b"other bytes":
        yield "the file was written"


def what_is_no_file_is_no_block(program, place):
    """It counts as missing, is never opened, so that no run waits for it, and stays as it is."""
    _, _, (block,) = values.answer(b"type A int\n", "A", b"1")
    root = values.cid_text(block)
    for name, make in (
        ("pipe", os.mkfifo),
        ("link to a pipe", lambda file: (os.mkfifo(f"{file}.pipe"), file.symlink_to(f"{root}.pipe"))),
        ("folder", lambda file: file.mkdir()),
        ("device", lambda file: file.symlink_to("/dev/zero")),
    ):
        room = place / name
        give(room, "type A int\n", "")
        (room / "blocks").mkdir()
        make(room / "blocks" / root)
        before = sorted((file, os.lstat(room / "blocks" / file).st_mode) for file in os.listdir(room / "blocks"))
        run = edges.start(program, room, ["show", "s", "A", root])
        yield from (f"{name}: {wrong}" for wrong in edges.differs(run, f"fault 4 root missing {root}\n".encode(), 4, seconds=edges.AT_ONCE))
        if sorted((file, os.lstat(room / "blocks" / file).st_mode) for file in os.listdir(room / "blocks")) != before:
            yield f"{name}: it was changed"


def roots_without_a_folder(program, place):
    _, _, (block,) = values.answer(b"type A int\n", "A", b"1")
    root = values.cid_text(block)
    give(place, "type A int\n", "")
    words = ["show", "s", "A", root]
    yield from edges.differs(edges.start(program, place, words), f"fault 4 root missing {root}\n".encode(), 4)
    if (place / "blocks").exists():
        yield "the folder of blocks was made"
    (place / "blocks").write_bytes(b"mine")
    yield from edges.differs(edges.start(program, place, words), b"fault 6 store\n", 6)


def what_is_created_is_shown(program, place):
    """Each value that `new` has a case for is created, and shown from what it left, all in one folder."""
    for form, (source, ty, cases) in new_cases.VALUES.items():
        for name, (meant, json) in cases.items():
            if meant == "root":
                given = new_cases.bytes_of(source), ty, new_cases.bytes_of(json)
                written, _, _ = values.answer(*given)
                (place / "s").write_bytes(given[0])
                (place / "v").write_bytes(given[2])
                yield from (f"{form}-{name}: {wrong}" for wrong in edges.differs(start(program, place, ty), written.encode(), 0))
                run = edges.start(program, place, ["show", "s", ty, written.split()[1]])
                shown, status = values.shown_answer(*given)
                yield from (f"{form}-{name}, shown: {wrong}" for wrong in edges.differs(run, shown.encode(), status))


def big_values_are_shown(program, place):
    numbers = ",".join(f'"k{n}":{n * 4093}' for n in range(20_000))
    for name, source, ty in (("hamt", HAMT, "H"), ("map", "type M {String:Int}\n", "M")):
        room = place / name
        give(room, source, f"{{{numbers}}}")
        _, _, blocks = values.answer(source.encode(), ty, f"{{{numbers}}}".encode())
        (room / "blocks").mkdir()
        for block in blocks:
            (room / "blocks" / values.cid_text(block)).write_bytes(block)
        text, status = values.shown_answer(source.encode(), ty, f"{{{numbers}}}".encode())
        run = edges.start(program, room, ["show", "s", ty, values.cid_text(blocks[0])])
        yield from (f"{name}: {wrong}" for wrong in edges.differs(run, text.encode(), status))


def big_data(program, place):
    """An object of over a megabyte, of 1,200 keys, each with a list of one text of a thousand letters."""
    text = "{%s}" % ",".join(f'"k{n}":["{"abcdefghij" * 100}"]' for n in range(1_000, 2_200))
    _, _, (block,) = values.answer(b"", "Any", text.encode())
    # Behind the head b9 04 b0 each entry has 6 + 1 + 3 + 1,000 bytes.
    if len(block) != 1_212_003 or not block.startswith(b"\xb9\x04\xb0\x65k1000\x81\x79\x03\xe8a"):
        yield "the object has another block than was told by hand"
    yield from asked(program, place, "", "Any", text)
    run = edges.start(program, place, ["show", "s", "Any", values.cid_text(block)])
    yield from edges.differs(run, f"ok {text}\n".encode(), 0)


def each_front_of_a_block(program, place):
    """A block that is cut off at any byte is none."""
    give(place, "", "")
    (place / "blocks").mkdir()
    for length in range(len(tables.ALL)):
        cid = values.cid_text(tables.ALL[:length])
        (place / "blocks" / cid).write_bytes(tables.ALL[:length])
        run = edges.start(program, place, ["show", "s", "Any", cid])
        yield from (f"{length}: {wrong}" for wrong in edges.differs(run, f"fault 4 root cbor {cid}\n".encode(), 4))


def big_values(program, place):
    """Above the sizes at which a call that always gave memory up could be told from one that works."""
    numbers = ",".join(str(n * 4093) for n in range(100_000))
    entries = ",".join(f'"k{n}":{n}' for n in range(20_000))
    fields = " ".join(f"f{n} optional Int" for n in range(1_024))
    given = ",".join(f'"f{n}":{n}' for n in range(0, 1_024, 3))
    # Each type leads to the next one, so that a walk over the types of parts comes to all of them.
    chain = "".join(f"type T{n:05} struct {{ a nullable T{n + 1:05} }}\n" for n in range(12_000))
    for name, source, ty, text in (
        ("list", "type L [Int]\n", "L", f"[{numbers}]"),
        ("map", "type M {String:Int}\n", "M", f"{{{entries}}}"),
        ("pairs in a list", "type M {String:Int} representation listpairs\n", "M", f"{{{entries}}}"),
        ("hamt", HAMT, "H", f"{{{entries}}}"),
        ("hamt of texts above a block together", "type H {String:String} representation advanced HAMT\n", "H", "{%s}" % ",".join(f'"k{n}":"{"x" * 1_000}"' for n in range(10_000))),
        ("struct", f"type S struct {{ {fields} }}\n", "S", f"{{{given}}}"),
        ("text of pairs", 'type Q {String:String} representation stringpairs { innerDelim "=" entryDelim "&" }\n', "Q", "{%s}" % ",".join(f'"k{n}":"{n}"' for n in range(20_000))),
        ("texts of a kind of list", "type L [U]\ntype U union { | String string | Int int } representation kinded\n", "L", "[%s]" % ",".join(['{"String":"x"}', '{"Int":1}'] * 10_000)),
        ("chain of types", chain + "type T12000 int\n", "T00000", '{"a":{"a":null}}'),
        ("chain of types to a HAMT", chain + "type T12000 = H\n" + HAMT, "T00000", '{"a":null}'),
    ):
        yield from (f"{name}: {wrong}" for wrong in asked(program, place / name, source, ty, text))


TESTS = (
    a_text_that_fills_a_block,
    refused_values_leave_the_folder,
    values_that_are_no_inputs,
    a_value_at_standard_input,
    a_file_in_place_of_the_folder,
    a_write_that_is_cut_off_leaves_nothing,
    standard_output_that_fails,
    two_runs_side_by_side,
    big_values,
    big_data,
    each_front_of_a_block,
    a_hamt_with_a_node_above_a_block,
    a_file_that_is_not_its_block,
    what_is_no_file_is_no_block,
    roots_without_a_folder,
    what_is_created_is_shown,
    big_values_are_shown,
)
