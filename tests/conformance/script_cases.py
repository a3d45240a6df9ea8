#!/usr/bin/env python3
"""Cases of `run` on values: scripts that read and edit each form in every other, two deep, and a sample of three.

    python3 tests/conformance/script_cases.py FOLDER      writes the cases there; `run` writes them anew, beside the project's own cases

Nothing of the program is used: the types are those of `nested_cases.py`, and each line is answered on the plain value by `scripts.py`. From
the fullest value of a type, a script reads every part and puts into every place what stands there in the other values, takes it out, sets it
again, inserts, and tries what can't stand there: other kinds, texts with delimiters in them, places that aren't there.
"""
import pathlib
import shutil
import sys

sys.dont_write_bytecode = True
import accept
import nested_cases
import new_cases
import scripts
import values
from new_cases import bytes_of
from values import Refused

READS = ("get", "rep", "has", "len", "walk")
STRANGERS = ("null", "false", "0", '"x:y;z,=&~+!^m-"', '{"a":1}', "[]", "{")
DEEPEST_PATH = 3


def path_text(path):
    marks = {"~": "~0", "/": "~1", " ": "~2", "\n": "~3"}
    return "".join("/" + "".join(marks.get(letter, letter) for letter in segment) for segment in path) or "."


def paths_in(document, path=()):
    """The paths to all parts, each before those within it."""
    yield list(path)
    slot, value = document.at(path)
    for segment in segments_of(document, slot, value) if len(path) < DEEPEST_PATH else []:
        yield from paths_in(document, (*path, segment))


def segments_of(document, slot, value):
    if value is not None and value[0] == "union":
        return [document.found.body(slot[0])[1][value[1]][0]]
    try:
        return [str(name) for name, _, _ in document.parts(slot, value)]
    except Refused:
        return []


def places_of(document):
    """The paths to all parts, and to places beside them where a part may come, or none may."""
    for path in paths_in(document):
        yield path
        slot, value = document.at(path)
        yield from ([*path, segment] for segment in new_segments(document, slot, value))


def new_segments(document, slot, value):
    body = document.found.body(slot[0])
    form = None if value is None else value[0]
    if form == "struct":
        return [field[0] for field, part in zip(body[1], value[1]) if part is values.ABSENT] + ["stranger"]
    if form == "union":
        return [name for at, (name, *_) in enumerate(body[1]) if at != value[1]]
    return {"map": ["", "new", "a:b=c"], "list": ["-", "01"], "any": ["new", "-"]}.get(form, ["0"])


def shown_at(document, path):
    """The JSON of what stands at a path, or None."""
    try:
        slot, value = document.at(path)
        return values.json_text(document.get(slot, value))
    except Refused:
        return None


def lines_of(document, others):
    """The lines of a script that begins with this value; the others are values of its type."""
    for path in places_of(document):
        text = path_text(path)
        yield from (f"{word} {text}" for word in READS)
        texts = [found for found in (shown_at(each, path) for each in (*others, document)) if found is not None]
        for json in dict.fromkeys([*texts, *siblings(document, path), *STRANGERS]):
            yield f"set {text} {json}"
            yield f"ins {text} {json}"
        yield f"del {text}"
        yield from (f"{word} {text} {json}" for word in ("ins", "set") for json in texts[-1:])
    yield from ("root", "begin", "get", "get /~4", "set . ", "")


def siblings(document, path):
    """What stands beside a place: for a part that isn't there, what is of its type perhaps."""
    if not path:
        return []
    slot, value = document.at(path[:-1])
    return [found for segment in segments_of(document, slot, value)[:2] if (found := shown_at(document, [*path[:-1], segment])) is not None]


def write_scripts(writer, name, chain):
    whole = nested_cases.built(chain)
    if accept.fault_of(whole.rows()):
        return
    found = values.compiled(bytes_of(whole.source))
    ty = found.number(whole.name)
    read = [found.shown((ty, False), sample) for sample in whole.samples]
    held = values.blocks_of(found, ty, read[0])
    documents = [scripts.Document(found, ty, value) for value in read]
    script = "\n".join(lines_of(documents[0], documents[1:])) + "\n"
    text, status, blocks = scripts.answers(documents[0], script.encode())
    words = ["run", "s", whole.name, values.cid_text(held[0]), "x"]
    given = [(values.cid_text(block), block) for block in held]
    writer.write(f"run-{name}", words, {"s": whole.source, "x": script}, text, status, held=given, blocks=blocks)


def write_all(folder):
    shutil.rmtree(folder, ignore_errors=True)
    writer = nested_cases.Writer(folder)
    for name, chain in (*nested_cases.two_deep(), *nested_cases.three_deep()):
        write_scripts(writer, name, chain)


if __name__ == "__main__":
    if len(sys.argv) != 2:
        sys.exit(__doc__)
    write_all(pathlib.Path(sys.argv[1]).resolve())
