#!/usr/bin/env python3
"""Writes the cases of `tables.py` and `texts.py` in `tables/`: blocks that `show` shows or refuses, and JSON texts of which `new` makes a value or not.

    python3 tests/conformance/table_cases.py

What is wanted of each row stands in its table. `values.py` works it out as well, and where the two differ nothing is written of the row, and the
script ends. A case is named after its form, its type and its place in the table.
"""
import shutil
import sys

sys.dont_write_bytecode = True
import new_cases
import tables
import texts
import values
from new_cases import HERE, bytes_of

FOLDER = "tables"


def agree(name, told, found):
    if told != found:
        raise ValueError(f"{name} is told to be {told}, and is worked out as {found}")


def write_show(name, source, ty, blocks, text, status):
    words = ["show", "s", ty, values.cid_text(blocks[0])]
    held = {values.cid_text(block): block for block in blocks}
    new_cases.write(f"show-{name}", words, {"s": source}, text, status, held=held.items(), folder=FOLDER)


def write_new(name, source, ty, json, text, status, blocks=()):
    new_cases.write(f"new-{name}", ["new", "s", ty, "v"], {"s": source, "v": json}, text, status, blocks, folder=FOLDER)


def named(rows):
    """The rows of a form with their types, and a name for each."""
    return [(f"{row[0]}-{place}", *row) for place, row in enumerate(rows, 1)]


def block_row(name, source, ty, block, told, is_only):
    """A block that is shown, and that `new` makes of what is shown, if it is the only one of its value; or one that is refused."""
    if told in (tables.CBOR, tables.SHAPE):
        return write_show(name, source, ty, [block], f"fault 4 root {told} {values.cid_text(block)}\n", 4)
    agree(name, (f"ok {told}\n", 0), values.shown_answer(bytes_of(source), ty, bytes_of(told)))
    write_show(name, source, ty, [block], f"ok {told}\n", 0)
    if is_only:
        root = f"root {values.cid_text(block)}\n"
        agree(name, (root, 0, [block]), values.answer(bytes_of(source), ty, bytes_of(told)))
        write_new(name, source, ty, told, root, 0, [block])


def text_row(name, source, ty, json, told):
    """A text whose value is shown so, or of which `new` makes none."""
    text, status, blocks = values.answer(bytes_of(source), ty, bytes_of(json))
    if not blocks:
        agree(name, told, text.removeprefix("fault 9 value ").rstrip("\n"))
        return write_new(name, source, ty, json, text, status)
    wanted = json if told == texts.SAME else told
    agree(name, (f"ok {wanted}\n", 0), values.shown_answer(bytes_of(source), ty, bytes_of(json)))
    write_new(name, source, ty, json, text, status, blocks)
    write_show(name, source, ty, blocks, f"ok {wanted}\n", 0)


def main():
    shutil.rmtree(HERE / FOLDER, ignore_errors=True)
    for shown, is_only in ((tables.SHOWN, True), (tables.OTHERWISE, False)):
        for form, (source, rows) in shown.items():
            for name, ty, block, told in named(rows):
                block_row(f"{form}-{name}", source, ty, block, told, is_only)
    for form, (source, rows) in texts.MEANT.items():
        for name, ty, json, told in named(rows):
            text_row(f"{form}-{name}", source, ty, json, told)


if __name__ == "__main__":
    main()
