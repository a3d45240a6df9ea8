#!/usr/bin/env python3
"""Cases of `prove`: the proof of each path that `verify_cases.py` checks, over the value's blocks; roots at fault, and what comes before a root.

    python3 tests/conformance/prove_cases.py FOLDER      writes the cases there; `run` writes them anew, beside the project's own cases

The proofs are those that `proofs.py` works out, and no block may come to the folder of blocks.
"""
import pathlib
import sys

sys.dont_write_bytecode = True
import new_cases
import proofs
import show_cases
import values
import verify_cases
from new_cases import HAMT, NO_WORDS, bytes_of
from show_cases import node_of, over
from verify_cases import FOUR, NEXT, PATHS

INT = "type A int\n"


def write_case(folder, name, source, ty, root, path, blocks, told):
    inputs = {} if source is None else {"s": source}
    held = {values.cid_text(block): block for block in blocks}
    new_cases.write(f"prove-{name}", ["prove", "s", ty, root, path], inputs, *told, held=held.items(), folder=folder, only=())


def write_proof(folder, name, source, ty, path, blocks, proof):
    """A proof of the value whose root is the first of the blocks."""
    write_case(folder, name, source, ty, values.cid_text(blocks[0]), proofs.path_text(path), blocks, (f"ok {proofs.json_of(proof)}\n", 0))


def is_at_fault(folder, name, source, ty, path, root, blocks, why, at):
    write_case(folder, name, source, ty, values.cid_text(root), proofs.path_text(path), blocks, (f"fault 4 root {why} {values.cid_text(at)}\n", 4))


def paths_of_values(folder):
    for form, (source, ty, json, rows) in PATHS.items():
        found = values.compiled(bytes_of(source))
        number = found.number(ty)
        value = found.shown((number, False), values.data_of(bytes_of(json)))
        blocks = values.blocks_of(found, number, value)
        stray = values.spelled(["stray"])
        for place, (path, _) in enumerate(rows, 1):
            proof, _ = proofs.proof(found, number, value, path)
            write_proof(folder, f"{form}-{place}", source, ty, path, blocks, proof)
            if len(source) > 100_000:
                continue
            write_proof(folder, f"{form}-{place}-beside-another-block", source, ty, path, [*blocks, stray], proof)
            for n, block in enumerate(blocks, 1):
                left = [each for each in blocks if each != block]
                is_at_fault(folder, f"{form}-{place}-without-block-{n}", source, ty, path, blocks[0], left, "missing", block)


def whole_values(folder):
    """The empty path, and values as deep as they may be."""
    write_proof(folder, "whole-scalar", INT, "A", [], [values.spelled(1)], [values.spelled(1)])
    tree = [over(values.spelled(node_of(FOUR, 1))), values.spelled(node_of(FOUR, 1))]
    write_proof(folder, "whole-hamt", HAMT, "H", [], tree, tree[:1])
    deep = b"\x81" * 95 + b"\x80"
    write_proof(folder, "root-of-96-lists", "type A any\n", "A", ["0"] * 95, [deep], [deep])
    reserved = values.spelled({"/": 1})
    write_proof(folder, "reserved", "type M {String:Int}\n", "M", [], [reserved], [reserved])
    long = values.spelled("x" * 4_194_299)
    write_proof(folder, "root-as-long-as-may-be", "type S string\n", "S", [], [long], [long])


def no_roots(folder):
    """Roots under which no value of the type stands: the whole tree is read, on the path's way and beside it."""
    one = values.spelled(1)
    is_at_fault(folder, "root-missing", INT, "A", [], one, [], "missing", one)
    is_at_fault(folder, "root-beside-another", INT, "A", [], one, [values.spelled(2)], "missing", one)
    for name, spelling in {"empty": b"", "longer-head": b"\x18\x01", "bytes-behind": b"\x01\x01", "too-deep": b"\x81" * 96 + b"\x80"}.items():
        is_at_fault(folder, f"root-{name}", "type A any\n", "A", [], spelling, [spelling], "cbor", spelling)
    for name, (source, ty, path, data) in {
        "another-type": (INT, "A", [], "x"), "null": (INT, "A", [], None), "wrong-beside-the-path": ("type M {String:Int}\n", "M", ["a"], {"a": 1, "b": "x"}),
        "hamt-of-another-hash": (HAMT, "H", [FOUR[0]], show_cases.root_map(node_of(FOUR[:1], 0), hash_alg=17)),
    }.items():
        root = values.spelled(data)
        is_at_fault(folder, f"root-{name}", source, ty, path, root, [root], "shape", root)
    for name, spelling in {"integer": one, "of-three": values.spelled(node_of(FOUR[:3], 1)), "wrong-value": values.spelled(node_of(FOUR, 1, "x"))}.items():
        for place, key in {"on-the-way": FOUR[0], "where-nothing-is": NEXT, "beside-the-way": "abc"}.items():
            is_at_fault(folder, f"child-{name}-{place}", HAMT, "H", [key], over(spelling), [over(spelling), spelling], "shape", spelling)


def before_roots(folder):
    block = values.spelled(1)
    root = values.cid_text(block)
    for name, path in verify_cases.NO_PATHS.items():
        write_case(folder, f"path-{name}", INT, "A", root, path, [block], NO_WORDS)
    for name, text in verify_cases.no_root_texts(root).items():
        write_case(folder, f"root-text-{name}", INT, "A", text, ".", [block], NO_WORDS)
    write_case(folder, "type-that-is-none", INT, "B", root, ".", [block], NO_WORDS)
    write_case(folder, "type-before-the-root", INT, "B", root, ".", [], NO_WORDS)
    write_case(folder, "path-before-the-schema", None, "A", root, "a", [block], NO_WORDS)
    write_case(folder, "schema-absent", None, "A", root, ".", [block], ("fault 5 input schema absent\n", 5))
    write_case(folder, "schema-at-fault", "type A float\n", "A", root, ".", [], ("fault 3 schema resolve 3 float at 7\n", 3))
    words = {"a-word-less": ["prove", "s", "A", root], "a-word-more": ["prove", "s", "A", root, ".", "p"], "upper-case": ["Prove", "s", "A", root, "."], "of-show": ["show", "s", "A", root, "."]}
    new_cases.write_words("prove-", words, {"s": INT}, folder)


def write_all(folder):
    new_cases.write_parts(folder, paths_of_values, whole_values, no_roots, before_roots)


if __name__ == "__main__":
    if len(sys.argv) != 2:
        sys.exit(__doc__)
    write_all(pathlib.Path(sys.argv[1]).resolve())
