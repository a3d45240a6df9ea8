"""What a commit does where the folder of blocks refuses a block, or holds something else under its name, as `edges.py` asks it of edits.

Each test is a function named for what it shows. It gets the program and a fresh folder, and yields what is wrong. What a run must write
is worked out by `scripts.py`, but for the lines that the store refuses.
"""
import os
import resource

import batch_tables
import edges
import killed
import scripts
import values

NESTED = batch_tables.NESTED.encode()
WORDS = ["run", "s", "T", "-", "x"]


def limited(size):
    """How a run is begun in which no file can grow above so many bytes: the system refuses the rest."""
    return {"preexec_fn": lambda: resource.setrlimit(resource.RLIMIT_FSIZE, (size, size)), "restore_signals": False}


def nested_edits():
    """Edits on HAMTs in HAMTs, with nodes beneath each, and the value behind them."""
    keys = batch_tables.FIRST[:5]
    lines = [f"set /{a} {{}}" for a in keys] + [f"set /{a}/{b} {{}}" for a in keys for b in keys[:4]]
    lines += [f"set /{a}/{b}/{c} {n}" for n, a in enumerate(keys[:2]) for b in keys[:2] for c in keys]
    value = {a: {b: {} for b in keys[:4]} for a in keys}
    for n, a in enumerate(keys[:2]):
        value[a].update({b: {c: n for c in keys} for b in keys[:2]})
    return lines, value


def blocks_of(source, ty, value):
    text, status, blocks = values.answer(source, ty, batch_tables.text_of(value).encode())
    if status:
        raise ValueError(text)
    return blocks


def a_refused_commit_leaves_the_batch_open(program, place):
    """Each length of a block in turn is too much for the folder; and then the same commit where nothing is."""
    lines, value = nested_edits()
    empty, blocks = blocks_of(NESTED, "T", {})[0], blocks_of(NESTED, "T", value)
    root, none = values.cid_text(blocks[0]), values.cid_text(empty)
    shown = batch_tables.text_of(value)
    edits, told = "\n".join(lines), "ok null\n" * (1 + len(lines))
    script = f"begin\n{edits}\ncommit\nget .\nroot\ncommit\nbegin\nabort\nroot\n"
    refused = f"{told}no 12 store\nok {shown}\nno 15 batch\nno 12 store\nno 15 batch\nok null\nroot {none}\n"
    for length in sorted({len(block) for block in blocks if len(block) > len(empty)}):
        room = place / str(length)
        edges.give(room, NESTED, script.encode())
        yield from (f"{length}: {it}" for it in edges.differs(edges.start(program, room, WORDS, **limited(length - 1)), refused.encode(), 1))
        strangers = set(edges.files_in(room)) - {none, *map(values.cid_text, blocks)}
        yield from (f"{length}: blocks/{name} came to be there" for name in sorted(strangers))
        yield from (f"{length}: {it}" for it in killed.childless(room))
        (room / "x").write_bytes(f"begin\n{edits}\ncommit\n".encode())
        yield from (f"{length}: {it}" for it in edges.differs(edges.start(program, room, WORDS), f"{told}root {root}\n".encode(), 0))
        if set(edges.files_in(room)) != {none, *map(values.cid_text, blocks)}:
            yield f"{length}: left {len(edges.files_in(room))} files"


def a_commit_goes_on_behind_a_refusal(program, place):
    """What the folder refused is taken out again, and the rest is committed."""
    long, last = "k" * 60, edges.plain.block_of({"b": 2})
    script = f"begin\nset /{long} 1\nset /b 2\ncommit\nhas /{long}\ndel /{long}\ncommit\nroot\n"
    edges.give(place, script=script.encode())
    cid = values.cid_text(last)
    text = f"ok null\nok null\nok null\nno 12 store\nok true\nok null\nroot {cid}\nroot {cid}\n"
    yield from edges.differs(edges.start(program, place, **limited(40)), text.encode(), 1)
    if edges.files_in(place) != {edges.EMPTY: b"\xa0", cid: last}:
        yield f"left {sorted(edges.files_in(place))}"


def what_stands_under_the_name_of_a_block(program, place):
    """A commit puts the block in place of all but a folder, for which it is refused."""
    for name, make in (
        ("nothing", lambda file: None),
        ("block", lambda file: file.write_bytes(edges.ONE_BLOCK)),
        ("front", lambda file: file.write_bytes(edges.ONE_BLOCK[:2])),
        ("other", lambda file: file.write_bytes(b"other")),
        ("long", lambda file: edges.zeros(file, 4_194_305)),
        ("link to nothing", lambda file: file.symlink_to("nothing")),
        ("link to a device", lambda file: file.symlink_to("/dev/zero")),
        ("pipe", os.mkfifo),
        ("folder", os.mkdir),
    ):
        room, is_put = place / name, name != "folder"
        edges.give(room, script=b"begin\nset /a 1\ncommit\n")
        (room / "blocks").mkdir()
        make(room / "blocks" / edges.ONE)
        told = f"root {edges.ONE}" if is_put else "no 12 store"
        run = edges.start(program, room)
        yield from (f"{name}: {it}" for it in edges.differs(run, f"ok null\nok null\n{told}\n".encode(), int(not is_put), seconds=edges.AT_ONCE))
        if edges.files_in(room) != {edges.EMPTY: b"\xa0", edges.ONE: edges.ONE_BLOCK if is_put else None}:
            yield f"{name}: left {sorted(edges.files_in(room))}"


def two_batches_side_by_side(program, place):
    lines, value = nested_edits()
    text = "".join(f"begin\n{line}\ncommit\n" for line in lines)
    answer, status, _ = scripts.answer(NESTED, "T", None, text.encode())
    for number in range(20):
        room = place / str(number)
        edges.give(room, NESTED, text.encode())
        for run in [edges.start(program, room, WORDS) for _ in range(2)]:
            yield from (f"in round {number}: {it}" for it in edges.differs(run, answer.encode(), status))
        yield from (f"in round {number}: {it}" for it in edges.strangers(room))


TESTS = (
    a_refused_commit_leaves_the_batch_open,
    a_commit_goes_on_behind_a_refusal,
    what_stands_under_the_name_of_a_block,
    two_batches_side_by_side,
)
