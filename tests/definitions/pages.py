"""The page docs/definitions/run.md: each definition to which the theorem of the program leads, with the comment before it, or else with its first line.

These are what the clauses of `ild_run::run` name, what those of the traits name over which it is generic, and what these definitions name in turn.
"""
import functools
import re

from clauses import public_clauses
from specs import CRATES, TOP, Names, definition_of, led_to

TOP_CALL = CRATES / "ild_run/src/top.rt"
FOLDER = TOP / "docs/definitions"


@functools.cache
def way():
    """The crates of which the program is made, each before those on which it stands."""
    stands_on = {crate: others.split() for crate, _, others in (line.partition(": ") for line in (TOP / "crates.txt").read_text().splitlines())}
    found, left = set(), ["ild_main"]
    while left:
        crate = left.pop()
        if crate in stands_on and crate not in found:
            found.add(crate)
            left += stands_on[crate]
    return [crate for crate in reversed(stands_on) if crate in found]


def named(source, text):
    """What the clauses in a piece of a source name."""
    return set(Names(source).named_in("\n".join(public_clauses(text))))


@functools.cache
def named_by_run():
    """What the clauses of `run` name, and those of the traits over which it is generic."""
    source = TOP_CALL.read_text()
    head = source[source.index("pub fn run<") :].partition("\n{\n")[0]
    keys = named(source, head)
    for bound in re.findall(r"\w: (\w+)", head[: head.index("(")]):
        for file in (CRATES / "ild_edges/src").glob("*.rt"):
            text = file.read_text()
            keys |= named(text, "".join(re.findall(rf"^pub trait {bound}\b.*?^}}", text, re.M | re.S)))
    return {key for key in keys if definition_of(*key)}


def code_of(key):
    """The crate, the file and the name of a type or a constant of code."""
    _, crate, _, _, *path = key[0].split(".")
    if path[-1] == "TheConstants":
        return crate, tuple(path[:-1]), key[1]
    path = path[:-1] if path[-1] == "TheVariants" else path
    return crate, tuple(path[:-1]), path[-1]


def named_by_type(crate, path, name):
    """What the ghost members of a type of code name."""
    file = (CRATES / crate / "src").joinpath(*path).with_suffix(".rt")
    text = file.read_text() if file.exists() else ""
    return named(text, "".join(re.findall(rf"^pub (?:struct|enum) {name}\b[^;{{]*{{$.*?^}}", text, re.M | re.S)))


@functools.cache
def led_to_by_run():
    """The definitions to which `run` leads, the types and constants of code that they name, and the crates of the kit."""
    keys, typed = named_by_run(), set()
    while True:
        found, others = led_to(keys)
        code = {code_of(key) for key in others if key[0].startswith("Rattle.ild_")}
        if code == typed:
            return found, code, {key[0].split(".")[1] for key in others if not key[0].startswith("Rattle.ild_")}
        keys, typed = keys.union(*(named_by_type(*place) for place in code)), code


def plain(comment):
    """A comment as Markdown: what stands between backticks as it is, the rest without signs that mean something there."""
    pieces = comment.split("`")
    return "`".join(piece if n % 2 else re.sub(r"([*<\[\]]|(?<!\w)_|_(?!\w))", r"\\\1", piece) for n, piece in enumerate(pieces))


def line_of(definition):
    if definition.comment:
        return f"- `{definition.name}`: {plain(' '.join(definition.comment))}"
    return f"- `{re.sub(r'( : Type 0)? where$', '', definition.head)}`"


def listed(definitions, code):
    """Sections of crates, with a paragraph for each file and a line for each definition, and a last line for what stands in code."""
    kept = set(definitions)
    modules = {definition.module for definition in kept}
    for crate in way():
        own = sorted((module for module in modules if module.crate == crate), key=lambda module: module.file)
        types = sorted(name for place, _, name in code if place == crate)
        if own or types:
            yield f"\n## `{crate}`\n"
        for module in own:
            yield f"`{module.file.relative_to(CRATES / crate / 'specs')}`. {plain(module.about)}\n"
            yield from (line_of(definition) for definition in module.definitions.values() if definition in kept)
            yield ""
        if types:
            yield f"Of its code: {', '.join(f'`{name}`' for name in types)}.\n"


def joined(lines):
    return re.sub(r"\n{3,}", "\n\n", "\n".join(lines)).rstrip() + "\n"


def pages():
    """The text of each page by its file."""
    found, code, kit = led_to_by_run()
    hint = "`tests/definitions/run --write` writes this page and `tests/definitions/run` compares it: change nothing by hand."
    yield FOLDER / "run.md", joined([
        "# All definitions of the program's theorem\n",
        f"The {len(found)} definitions to which the contract of `ild_run::run` leads: those that its clauses and those of `Inputs`, `Store` and `Sink` name, those",
        "that these name, and so on to the end. Whoever believes the theorem believes that they say what they should; no other definition of this repository bears on it.",
        "[believe.md](../believe.md) begins with the few that say it, and [definitions.md](../definitions.md) tells the main ones in plain words.\n",
        "Each has the comment before it in its file, or, where it has none, its first line. A crate stands before those on which it is built, so that names are mostly told",
        "further down. \"Of its code\" are the types and constants of a crate's code that definitions name; they name no function of code. Besides",
        f"they stand on what the kit has of {', '.join(f'`{name}`' for name in sorted(kit))}. What leads where is told by names, so that a bound name counts as the definition",
        f"that has it. {hint}",
        *listed(found.values(), code),
    ])


def write():
    for file, text in pages():
        file.parent.mkdir(exist_ok=True)
        file.write_text(text)
