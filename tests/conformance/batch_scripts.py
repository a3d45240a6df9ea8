#!/usr/bin/env python3
"""Cases of `run` on values: scripts in which `begin`, `commit` and `abort` stand at random among reads and edits.

    python3 tests/conformance/batch_scripts.py FOLDER      writes the cases there; `run` writes them anew, beside the project's own cases

Nothing of the program is used: the types are those of `nested_cases.py`, each form in every other, and HAMTs in HAMTs with nodes beneath; each
line is answered on the plain value by `scripts.py`. What must be held at the end, and may be beside what was there, are the blocks of the
values that a commit or an edit outside batches made.
"""
import pathlib
import random
import shutil
import sys

sys.dont_write_bytecode = True
import accept
import batch_tables
import nested_cases
import script_cases
import scripts
import values
from new_cases import bytes_of

SEED = 13
SCRIPTS = 300
HAMT_SCRIPTS = 40
LINES = 40
# what stands in a script, by how often
OUTSIDE = {"begin": 12, "commit": 1, "abort": 1, "root": 4, "": 1, "begin .": 1}
INSIDE = {"begin": 2, "commit": 6, "abort": 4, "root": 1, "": 1, "commit ": 1}
WORDS = {"set": 30, "ins": 10, "del": 12, "get": 6, "rep": 3, "has": 3, "len": 3, "walk": 3}


def line_of(document, others, dice):
    """A line on the value as it stands; the others are values of its type."""
    alone = OUTSIDE if document.begun is None else INSIDE
    (word,) = dice.choices([*alone, *WORDS], [*alone.values(), *WORDS.values()])
    if word in alone:
        return word
    places = script_cases.places_of if word == "ins" or dice.random() < 0.2 else script_cases.paths_in
    path = dice.choice(list(places(document)))
    text = script_cases.path_text(path)
    return f"{word} {text} {json_at(document, others, path, dice)}" if word in scripts.WORDS_WITH_JSON else f"{word} {text}"


def json_at(document, others, path, dice):
    """What stands at the place in another value or this one, or beside it; or what can't stand there."""
    texts = [script_cases.shown_at(each, path) for each in (*others, document)] + script_cases.siblings(document, path)
    found = [text for text in texts if text is not None]
    return dice.choice(found if found and dice.random() < 0.85 else script_cases.STRANGERS)


def script_from(document, others, dice):
    """A script from a value on, and its replies."""
    lines, replies = [], []
    for _ in range(LINES):
        lines.append(line_of(document, others, dice))
        if lines[-1]:
            replies.append(document.reply(bytes_of(lines[-1])))
    return lines, replies


def write_script(writer, name, source, ty, samples, dice):
    found = values.compiled(bytes_of(source))
    number = found.number(ty)
    first, *others = [scripts.Document(found, number, found.shown((number, False), sample)) for sample in samples]
    held = first.blocks()
    lines, replies = script_from(first, others, dice)
    first.end()
    refused = any(reply.startswith("no ") for reply in replies)
    stray = any(reply in ("no 8 exhausted", "no 9 size") for reply in replies)
    words = ["run", "s", ty, values.cid_text(held[0]), "x"]
    given = [(values.cid_text(block), block) for block in held]
    blocks = {*held, *first.stored.values()}
    told = "".join(reply + "\n" for reply in replies)
    writer.write(name, words, {"s": source, "x": "\n".join(lines)}, told, int(refused), held=given, blocks=blocks, only=None if stray else blocks)


def types(dice):
    """Types of forms in forms that are accepted, drawn at random."""
    chains = [*nested_cases.two_deep(), *nested_cases.three_deep()]
    accepted = [(name, whole) for name, chain in chains if accept.fault_of((whole := nested_cases.built(chain)).rows()) is None]
    return dice.sample(accepted, SCRIPTS)


def hamt_samples(dice):
    """Values of HAMTs three deep, with nodes beneath each."""
    keys = batch_tables.FIRST + batch_tables.PAIR[:3]
    leaves = [{key: dice.randrange(100) for key in dice.sample(keys, count)} for count in (0, 3, 5, 6)]
    for _ in range(3):
        inner = [{key: dice.choice(leaves) for key in dice.sample(keys, dice.randrange(7))} for _ in range(3)]
        yield {key: dice.choice(inner) for key in dice.sample(keys, dice.randrange(2, 7))}


def write_all(folder):
    shutil.rmtree(folder, ignore_errors=True)
    writer, dice = nested_cases.Writer(folder), random.Random(SEED)
    for name, whole in types(dice):
        write_script(writer, f"batch-{name}", whole.source, whole.name, whole.samples, dice)
    for number in range(1, HAMT_SCRIPTS + 1):
        write_script(writer, f"batch-hamts-{number}", batch_tables.NESTED, "T", list(hamt_samples(dice)), dice)


if __name__ == "__main__":
    if len(sys.argv) != 2:
        sys.exit(__doc__)
    write_all(pathlib.Path(sys.argv[1]).resolve())
