#!/usr/bin/env python3
"""Cases of `run ROOT SCRIPT`: scripts on the value under a root that names its schema.

    python3 tests/conformance/named_scripts.py FOLDER      writes the cases there; `run` writes them anew, beside the project's own cases

Each line is answered on the plain value by `scripts.py`, and each root is built from scratch: the map of the type's name, the value and the
link to the schema's text. The types are those of `script_cases.py` and `batch_scripts.py`, each form in every other.
"""
import pathlib
import random
import sys

sys.dont_write_bytecode = True
import accept
import batch_scripts
import named_cases
import nested_cases
import new_cases
import script_cases
import scripts
import values
from named_cases import ANY, MAP, held, named
from new_cases import HAMT, bytes_of, lists

SEED = 29
EVERY = 5
BATCHES = 60
NO_LINES = ["get", "get ", "get  /a", "get .x", "get ./a", "get value", "get /~4", "set /a", "set /a ", "set . ", "set /value/a 1", "set  /a 1", "x /a", "root .", " ", "get /a\r", "set /a\t1", "ins ", "del /a 1", "begin ."]


def document(source, ty, value):
    """A document under the root that names this type of this schema, with what stands beside its value."""
    found = values.compiled(bytes_of(source))
    number = found.number(ty)
    block = named_cases.text_block(source)
    made = scripts.Document(found, number, found.shown((number, False), value))
    made.frame = {"room": 95, "over": lambda data: {"type": ty, "value": data, "schema": values.link_to(block)}}
    return made, block


def write(folder, name, root, script, told, blocks, given, only=None):
    new_cases.write(f"named-run-{name}", ["run", values.cid_text(root), "x"], {"x": script}, *told, blocks=blocks, held=held(given), folder=folder, only=only)


def write_lines(folder, name, source, ty, value, script):
    made, block = document(source, ty, value)
    root, *nodes = made.blocks()
    given = [root, block, *nodes]
    text, status, blocks = scripts.answers(made, bytes_of(script))
    write(folder, name, root, script, (text, status), [*given, *blocks], given)


def drawn():
    dice = random.Random(SEED)
    chains = [*nested_cases.two_deep(), *nested_cases.three_deep()]
    return dice, [(name, whole) for name, chain in chains if accept.fault_of((whole := nested_cases.built(chain)).rows()) is None]


def each_form_in_others(folder):
    for name, whole in drawn()[1][::EVERY]:
        others = [document(whole.source, whole.name, sample)[0] for sample in whole.samples]
        script = "\n".join(script_cases.lines_of(others[0], others[1:])) + "\n"
        write_lines(folder, name, whole.source, whole.name, whole.samples[0], script)


def batches(folder):
    dice, accepted = drawn()
    for name, whole in dice.sample(accepted, BATCHES):
        first, *others = [document(whole.source, whole.name, sample)[0] for sample in whole.samples]
        lines, _ = batch_scripts.script_from(first, others, dice)
        write_lines(folder, f"batch-{name}", whole.source, whole.name, whole.samples[0], "\n".join(lines))
    for number, samples in enumerate((list(batch_scripts.hamt_samples(dice)) for _ in range(8)), 1):
        first, *others = [document(batch_scripts.batch_tables.NESTED, "T", sample)[0] for sample in samples]
        lines, _ = batch_scripts.script_from(first, others, dice)
        write_lines(folder, f"hamts-{number}", batch_scripts.batch_tables.NESTED, "T", samples[0], "\n".join(lines))


def edges_of_values(folder):
    whole = "get .\nrep .\nhas .\nlen .\nwalk .\nins . {}\ndel .\nset . {\"b\":2}\nset . 1\nset . null\nget /value\nset /value 3\nset /type 4\nset /schema 5\nget .\nroot\n"
    write_lines(folder, "the-whole", MAP, "N", {"a": 1}, whole)
    for count in (94, 95):
        lines = [f"set . {lists(95)}", f"set . {lists(96)}", "set /0 [[]]", f"set . {lists(97)}", "begin", f"set . {lists(96)}", "commit", "root"]
        write_lines(folder, f"{count}-levels", ANY, "A", values.data_of(bytes_of(lists(count))), "\n".join(lines))
    # `type` and its text, `value`, `schema` and its link, and the head of the map are 62 bytes around a value of this type, whose head has 5.
    longest = named_cases.LONGEST - 5 - 62
    script = "".join('set . "%s"\n' % ("x" * length) for length in (longest, longest + 1))
    write_lines(folder, "longest-root", "type T string\n", "T", "x", script)
    many = "".join(f"set /k{n} {n}\n" for n in range(40)) + "walk .\nbegin\n" + "".join(f"del /k{n}\n" for n in range(0, 40, 2)) + "commit\nlen .\n"
    write_lines(folder, "a-hamt", HAMT, "H", {}, many)
    write_lines(folder, "no-lines", MAP, "N", {"a": 1}, "")
    write_lines(folder, "empty-lines", MAP, "N", {"a": 1}, "\n\nget /a\n\n")
    write_lines(folder, "lines-outside", MAP, "N", {"a": 1}, "\n".join(NO_LINES))
    made, block = document(MAP, "N", {"a": 1})
    (root,) = made.blocks()
    text, status, _ = scripts.answers(made, b"get /\xff\nset /a \"\xff\"\nget /a")
    write(folder, "lines-of-no-text", root, b"get /\xff\nset /a \"\xff\"\nget /a", (text, status), [root, block], [root, block], only=[])


def set_by_hand(folder):
    """The root of {"a": 1}, and that of {"a": 2}, which differs in one byte."""
    root, block = named("N", MAP, {"a": 1})
    other = bytes.fromhex(root.hex().replace("a161610166", "a161610266"))
    told = (f"root {values.cid_text(other)}\n", 0)
    write(folder, "one-byte", root, "set /a 2\n", told, [root, block, other], [root, block], only=[other])


def faults(folder):
    root, block = named("N", MAP, {"a": 1})
    bare, at = values.spelled({"a": 1}), values.cid_text
    shape = lambda spelling: (f"fault 4 root shape {at(spelling)}\n", 4)
    for name, start, given, told in (
        ("bare-root", bare, [bare], shape(bare)), ("missing", root, [block], (f"fault 4 root missing {at(root)}\n", 4)), ("schema-missing", root, [root], (f"fault 4 root missing {at(block)}\n", 4)),
    ):
        write(folder, name, start, "get .\n", told, given, given, only=[])
    for name, ty, source, data in (("schema-at-fault", "N", "type N float\n", 1), ("no-type", "M", MAP, {"a": 1}), ("no-value", "N", MAP, {"a": "x"})):
        start, text = named(ty, source, data)
        write(folder, name, start, "get .\n", shape(text if name == "schema-at-fault" else start), [start, text], [start, text], only=[])
    for name, start, inputs, told in (
        ("script-absent", root, {}, ("fault 5 input script absent\n", 5)), ("script-long", root, {"x": "\n" * 16_777_217}, ("fault 5 input script long\n", 5)),
        ("root-before-the-script", bare, {}, shape(bare)), ("script-before-the-value", named("N", MAP, {"a": "x"})[0], {}, ("fault 5 input script absent\n", 5)),
    ):
        new_cases.write(f"named-run-{name}", ["run", at(start), "x"], inputs, *told, held=held([start, block]), folder=folder, only=[])
    words = {"a-dash": ["run", "-", "x"], "no-script": ["run", at(root)], "upper-case": ["Run", at(root), "x"], "no-root": ["run", "x", at(root)], "a-type": ["run", "N", at(root), "x"]}
    new_cases.write_words("named-run-", words, {"x": "get .\n"}, folder)


def write_all(folder):
    new_cases.write_parts(folder, each_form_in_others, batches, edges_of_values, set_by_hand, faults)


if __name__ == "__main__":
    if len(sys.argv) != 2:
        sys.exit(__doc__)
    write_all(pathlib.Path(sys.argv[1]).resolve())
