"""Runs that are killed at random moments, in one folder: every root that was printed is opened afterwards, and shows its value; and each block
that `new` and `gen` left has all beneath it.

Each test gets the program and a fresh folder, and yields what is wrong, as those of `edges.py` do.
"""
import json
import random
import re
import shutil
import subprocess
import time

import edges
import gen_cases
import values

ROUNDS = 30
EDITS = 400
IN_A_BATCH = 20
SCHEMAS = {
    "map": b"type N {String:Int}\n",
    "HAMT": b"type N {String:Int} representation advanced HAMT\n",
}


def edits(dice):
    """A script of sets and removals of few keys, and the values behind its lines, as JSON."""
    lines, shown, value = [], [], {}
    for number in range(EDITS):
        key = f"k{dice.randrange(EDITS // 4)}"
        if key in value and dice.random() < 0.3:
            lines.append(f"del /{key}\n")
            del value[key]
        else:
            lines.append(f"set /{key} {number}\n")
            value[key] = number
        shown.append(json.dumps(dict(sorted(value.items())), separators=(",", ":")))
    return "".join(lines).encode(), shown


def batches(dice):
    """The same in batches that are committed, and the values behind these."""
    script, shown = edits(dice)
    lines = script.splitlines(keepends=True)
    parts = [b"".join(lines[at : at + IN_A_BATCH]) for at in range(0, EDITS, IN_A_BATCH)]
    return b"".join(b"begin\n" + part + b"commit\n" for part in parts), shown[IN_A_BATCH - 1 :: IN_A_BATCH]


def roots_of(text):
    """The roots in whole lines of an output."""
    return re.findall(r"root (\S+)\n", text)


def killed_after(seconds, run):
    """What a run wrote until it was killed, or ended by itself."""
    try:
        return run.communicate(timeout=seconds)[0].decode()
    except subprocess.TimeoutExpired:
        run.kill()
        return run.communicate()[0].decode()


def round_of(program, place, made, dice, seconds):
    """One run that is killed, and what is wrong with the roots that it printed."""
    script, shown = made(dice)
    (place / "x").write_bytes(script)
    roots = roots_of(killed_after(dice.uniform(0, seconds), edges.start(program, place)))
    for at in sorted({len(roots) - 1, *(dice.randrange(len(shown)) for _ in range(4))}):
        if 0 <= at < len(roots):
            run = edges.start(program, place, ["show", "s", "N", roots[at]])
            yield from (f"root {at + 1} of {len(roots)}: {it}" for it in edges.differs(run, f"ok {shown[at]}\n".encode(), 0))


def childless(place):
    """Whole blocks in a folder a link of which leads to nothing, where each link is to a block beneath."""
    held = edges.files_in(place)
    for name, content in held.items():
        whole = content is not None and edges.plain.cid_text(content) == name
        if not whole and not re.fullmatch(r"bafyrei[a-z2-7]{52}\.part[0-9]*", name):
            yield f"blocks/{name} is neither a block nor a part"
        links = re.findall(b"\xd8\x2a\x58\x25\x00(\x01\x71\x12\x20.{32})", content, re.S) if whole else []
        yield from (f"blocks/{name} is there, and not {cid}" for cid in map(values.cid_text_of, links) if cid not in held)


def rounds(program, room, schema, made, dice):
    """Runs that are killed in one folder, and then one that isn't; each script is made with these dice, and has a value for each root."""
    script, shown = made(dice)
    edges.give(room, schema, script)
    begun = time.monotonic()
    run = edges.start(program, room)
    roots = roots_of(run.communicate(timeout=edges.SECONDS)[0].decode())
    seconds = time.monotonic() - begun
    if len(roots) != len(shown):
        yield f"{len(roots)} roots in place of {len(shown)}"
        return
    for number in range(ROUNDS):
        yield from (f"round {number}: {it}" for it in round_of(program, room, made, dice, seconds))
    yield from childless(room)
    (room / "x").write_bytes(script)
    again = edges.start(program, room).communicate(timeout=edges.SECONDS)[0].decode()
    if roots_of(again) != roots:
        yield "the first script has other roots now"
    yield from edges.differs(edges.start(program, room, ["show", "s", "N", roots[-1]]), f"ok {shown[-1]}\n".encode(), 0)


def killed_runs_lose_no_root(program, place):
    """No file under a block's name is ever less than the block; parts may be left; and a run behind all that does its work."""
    dice = random.Random(20)
    for form, schema in SCHEMAS.items():
        yield from (f"{form}: {it}" for it in rounds(program, place / form, schema, edits, dice))


def killed_commits_lose_no_root(program, place):
    """The same where the edits stand in batches."""
    dice = random.Random(21)
    for form, schema in SCHEMAS.items():
        yield from (f"{form}: {it}" for it in rounds(program, place / form, schema, batches, dice))


def made_again(program, room, words, text):
    """Runs of these words that are killed in one folder, and then one that isn't, which writes this text."""
    begun = time.monotonic()
    yield from edges.differs(edges.start(program, room, words), text.encode(), 0)
    seconds, dice = time.monotonic() - begun, random.Random(22)
    for number in range(ROUNDS):
        if number % 3 == 0:
            shutil.rmtree(room / "blocks", ignore_errors=True)
        told = killed_after(dice.uniform(0, seconds), edges.start(program, room, words))
        if not text.startswith(told):
            yield f"round {number}: wrote {told!r}"
        yield from (f"round {number}: {it}" for it in childless(room))
    yield from edges.differs(edges.start(program, room, words), text.encode(), 0)


def a_value_is_made_after_those_that_were_killed(program, place):
    """Of what a killed `new` leaves each block has all beneath it, and the same words make the value."""
    value = {f"k{number}": number for number in range(3_000)}
    text = json.dumps(dict(sorted(value.items())), separators=(",", ":"))
    edges.give(place, SCHEMAS["HAMT"])
    (place / "v").write_text(text)
    told, _, blocks = values.answer(SCHEMAS["HAMT"], "N", text.encode())
    yield from made_again(program, place, ["new", "s", "N", "v"], told)
    yield from edges.differs(edges.start(program, place, ["show", "s", "N", values.cid_text(blocks[0])]), f"ok {text}\n".encode(), 0)


def a_map_is_generated_after_those_that_were_killed(program, place):
    """The same of `gen`."""
    told, blocks = gen_cases.summary(2_000, 7)
    edges.give(place, gen_cases.SOURCE)
    yield from made_again(program, place, ["gen", "2000", "7"], told)
    yield from (f"{cid} isn't held" for cid in map(values.cid_text, blocks) if not (place / "blocks" / cid).is_file())


TESTS = (
    killed_runs_lose_no_root,
    killed_commits_lose_no_root,
    a_value_is_made_after_those_that_were_killed,
    a_map_is_generated_after_those_that_were_killed,
)
