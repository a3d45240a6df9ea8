#!/usr/bin/env python3
"""Writes the cases of batches in `batches/`: what each line is answered was told by hand, and `scripts.py` is asked to agree.

    python3 tests/conformance/batch_cases.py

`batch_tables.py` has for each form of type a value, edits with the value behind each, and lines that are refused; each is edited in a batch
that is committed, in one that is aborted, and in one in which the script ends. `SCRIPTS` there has scripts with a reply to each line; `root V`
is the root of the value V. The blocks that a script stores are those of the values whose roots `commit` and edits outside batches tell, and no
others: `only` lists them. A case that `scripts.py` answers otherwise isn't written, and ends the script.
"""
import pathlib
import shutil
import sys

sys.dont_write_bytecode = True
import batch_tables
import new_cases
import scripts
import values
from new_cases import bytes_of

HERE = pathlib.Path(__file__).resolve().parent


def blocks_of(source, ty, json):
    """The blocks of a value by its JSON, the root first."""
    text, status, blocks = values.answer(bytes_of(source), ty, bytes_of(json))
    if status:
        raise ValueError(f"{json} under {source} is told {text}")
    return blocks


def replies_of(source, ty, rows):
    """The text of replies, each root by its value."""
    for _, reply in rows:
        word, _, json = reply.partition(" ")
        yield f"root {values.cid_text(blocks_of(source, ty, json)[0])}" if word == "root" else reply


def stored_by(source, ty, rows):
    """The blocks of the values whose roots are told by lines that store them."""
    told = [reply[5:] for line, reply in rows if reply.startswith("root ") and line != "root"]
    return {block for json in dict.fromkeys(told) for block in blocks_of(source, ty, json)}


def write_script(name, source, ty, json, rows, blocks=()):
    """A case of a script from a value on, or where there is none from the empty one; `blocks` are files that stand in its folder too."""
    found = values.compiled(bytes_of(source))
    number = found.number(ty)
    first = scripts.empty_value(found, number) if json is None else found.shown((number, False), values.data_of(bytes_of(json)))
    document = scripts.Document(found, number, first)
    held, wanted = document.blocks(), stored_by(source, ty, rows)
    script = "".join(line + "\n" for line, _ in rows)
    text, status, last = scripts.answers(document, bytes_of(script))
    meant = "".join(reply + "\n" for reply in replies_of(source, ty, rows) if reply)
    if text != meant:
        raise ValueError(f"{name} is meant to be told\n{meant}and is told\n{text}")
    if wanted != set(document.stored.values()):
        raise ValueError(f"{name} stores other blocks than those of the roots that are told")
    words = ["run", "s", ty, "-" if json is None else values.cid_text(held[0]), "x"]
    given = [] if json is None else [(values.cid_text(block), block) for block in held]
    must, only = {*held, *wanted, *last}, wanted | set(held)
    new_cases.write(name, words, {"s": source, "x": script}, text, status, must, [*given, *blocks], "batches", only)


def rows_of_edits(edits, inside):
    """Edits, and behind each a look at the value."""
    for line, json in edits:
        yield line, "ok null" if inside else f"root {json}"
        yield "get .", f"ok {json}"


def rows_of_refusals(refused):
    return [(line, f"no {why}") for why, lines in refused.items() for line in lines]


def committed(first, edits, refused):
    last = edits[-1][1]
    yield from (("root", f"root {first}"), ("begin", "ok null"), *rows_of_edits(edits, True))
    yield from (*rows_of_refusals(refused), ("root", "no 15 batch"), ("get .", f"ok {last}"), ("commit", f"root {last}"))
    yield from (*rows_of_refusals(refused), ("root", f"root {last}"), ("get .", f"ok {last}"))
    yield from (("begin", "ok null"), ("abort", "ok null"), ("root", f"root {last}"))


def aborted(first, edits, refused):
    yield from (("begin", "ok null"), *rows_of_edits(edits, True), *rows_of_refusals(refused))
    yield from (("begin", "no 15 batch"), ("abort", "ok null"), ("get .", f"ok {first}"), ("root", f"root {first}"))
    yield from (("begin", "ok null"), *rows_of_edits(edits[:1], True), ("commit", f"root {edits[0][1]}"), *rows_of_edits(edits[1:], False))


def ended_inside(first, edits, refused):
    yield from (*rows_of_edits(edits[:1], False), ("begin", "ok null"), *rows_of_edits(edits[1:], True), *rows_of_refusals(refused))


def check_rows():
    """The blocks of the examples, spelled by hand."""
    abc = b"\xa3\x64hamt\x82\x58\x20" + bytes(23) + b"\x04" + bytes(8) + b"\x81\x81\x82\x43abc\x02\x67hashAlg\x12\x6abucketSize\x03"
    none = b"\xa3\x64hamt\x82\x58\x20" + bytes(32) + b"\x80\x67hashAlg\x12\x6abucketSize\x03"
    for json, block in (('{"abc":2}', abc), ("{}", none)):
        if blocks_of(batch_tables.HAMT, "H", json) != [block]:
            raise ValueError(f"the HAMT {json} has another block than docs/blocks.md says")


def main():
    check_rows()
    shutil.rmtree(HERE / "batches", ignore_errors=True)
    for form, (source, ty, first, edits, refused) in batch_tables.FORMS.items():
        for name, rows in (("committed", committed), ("aborted", aborted), ("ended-inside", ended_inside)):
            write_script(f"{form}-{name}", source, ty, first, list(rows(first, edits, refused)))
    for name, (source, ty, first, rows) in batch_tables.SCRIPTS.items():
        write_script(name, source, ty, first, rows)
    one = blocks_of(batch_tables.MAP, "N", '{"a":1}')[0]
    rows = [("begin", "ok null"), ("set /a 1", "ok null"), ("commit", 'root {"a":1}')]
    for name, content in {"a-block-that-was-there": one, "another-file-under-the-block": b"other", "a-part-that-was-left": one[:2]}.items():
        file = values.cid_text(one) + (".part" if "part" in name else "")
        write_script(name, batch_tables.MAP, "N", None, rows, [(file, content)])


if __name__ == "__main__":
    main()
