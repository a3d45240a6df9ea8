#!/usr/bin/env python3
"""Writes the cases of `gen` in `gen/`: the generator as a fold over a plain dict, whose root is built from scratch.

    python3 tests/conformance/gen_cases.py

Nothing of the program is used. No step is refused here: with four keys under one hash, or with a block that is too long, `values.py` would say so.
"""
import json
import pathlib
import shutil
import sys

sys.dont_write_bytecode = True
import new_cases
import values

HERE = pathlib.Path(__file__).resolve().parent
SOURCE = b"type G {String:Int} representation advanced HAMT"
MULTIPLIER, INCREMENT = 6364136223846793005, 1442695040888963407

RUNS = ((0, 0), (0, 2**64 - 1), (1, 0), (2, 0), (5, 7), (20, 3), (300, 18446744073709551615), (2000, 7))
EACH_STEP = 300  # up to so many steps the blocks of each are listed
OTHER_WORDS = {
    "alone": ["gen"],
    "no-seed": ["gen", "0"],
    "a-word-more": ["gen", "0", "0", "0"],
    "upper-case": ["GEN", "0", "0"],
    "too-many": ["gen", "20001", "0"],
    "count-of-zeros": ["gen", "00", "0"],
    "count-behind-a-zero": ["gen", "01", "0"],
    "count-with-a-plus": ["gen", "+1", "0"],
    "count-below-zero": ["gen", "-1", "0"],
    "count-empty": ["gen", "", "0"],
    "count-with-a-space": ["gen", " 1", "0"],
    "count-as-hex": ["gen", "0x1", "0"],
    "seed-too-large": ["gen", "0", "18446744073709551616"],
    "seed-behind-a-zero": ["gen", "0", "07"],
    "seed-with-a-plus": ["gen", "0", "+7"],
    "seed-a-word": ["gen", "0", "seven"],
    "seed-below-zero": ["gen", "0", "-1"],
    "seed-empty": ["gen", "0", ""],
    "count-minus-zero": ["gen", "-0", "0"],
    "count-in-other-digits": ["gen", "\u0661", "0"],
    "count-too-large-for-a-number": ["gen", "18446744073709551617", "0"],
}


def steps(count, seed):
    """The entries at first and behind each step, and how many keys were set, deleted, and not there to be deleted."""
    entries, counts, x = {}, {"sets": 0, "dels": 0, "absent": 0}, seed
    yield entries, counts
    for i in range(count):
        x = (x * MULTIPLIER + INCREMENT) % 2**64
        key = f"k{x // 2**40 % 65536}"
        if x // 2**32 % 4:
            entries[key] = i
            counts["sets"] += 1
        elif key in entries:
            del entries[key]
            counts["dels"] += 1
        else:
            counts["absent"] += 1
        yield entries, counts


def blocks_of(entries):
    found = values.compiled(SOURCE)
    ty = found.number("G")
    return values.blocks_of(found, ty, found.shown((ty, False), values.data_of(json.dumps(entries).encode())))


def summary(count, seed):
    """The five lines, and the blocks of the map at the end."""
    *_, (entries, counts) = steps(count, seed)
    blocks = blocks_of(entries)
    lines = [*counts.items(), ("len", len(entries)), ("root", values.cid_text(blocks[0]))]
    return "".join(f"{name} {told}\n" for name, told in lines), blocks


def stored(count, seed):
    """The blocks of the map at first and behind each step, each of which is stored."""
    return {block for entries, _ in steps(count, seed) for block in blocks_of(entries)}


def main():
    shutil.rmtree(HERE / "gen", ignore_errors=True)
    for count, seed in RUNS:
        text, blocks = summary(count, seed)
        only = stored(count, seed) if count <= EACH_STEP else None
        new_cases.write(f"{count}-steps-from-{seed}", ["gen", str(count), str(seed)], {}, text, 0, only or blocks, folder="gen", only=only)
    for name, words in OTHER_WORDS.items():
        new_cases.write(f"words-{name}", words, {}, "fault 2 words\n", 2, folder="gen", only=())


if __name__ == "__main__":
    main()
