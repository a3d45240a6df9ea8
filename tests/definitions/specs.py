"""Reads the definitions of crates/*/specs, and what each of them names."""
import functools
import pathlib
import re

TOP = pathlib.Path(__file__).resolve().parents[2]
CRATES = TOP / "crates"

USE = re.compile(r"^\s*(?:ghost |pub )*use (Rattle\.(\w+)\.specs\.[\w.]+?)(?:\.\{([^}]*)\}| as (\w+))?;?\s*$", re.M)
WORDS = re.compile(r"[^\s(){}\[\],;.]+(?:\.[^\s(){}\[\],;.]+)*")
HEAD = re.compile(r"(?:(?:abbrev |unfoldable )+(?:pub )?|pub )((?:record |data )?([^\s:({]+).*)")
BLOCK = re.compile(r"(?:abbrev |unfoldable )*mutual$|module _ .*where$")


class Definition:
    """A definition: its module, its name, how far it is indented, the comment before it, its first line, and its lines without comments."""

    def __init__(self, module, name, indent, comment, head):
        self.module, self.name, self.indent, self.comment, self.head, self.lines = module, name, indent, comment, head, []
        self.has_parts = head.startswith(("record ", "data "))

    @property
    def key(self):
        return self.module.name, self.name

    @functools.cached_property
    def leads(self):
        """The definitions that it names, and the types and constants of code: (module, name) of each."""
        return {key for key in self.module.named_in("\n".join(self.lines)) if key != self.key}


class Names:
    """By what words a source names what it imports."""

    def __init__(self, text):
        self.names, self.modules = {}, {}
        for module, _, names, other in USE.findall(text):
            if other or not names:
                self.modules[other or module.rpartition(".")[2]] = module
            for name in filter(None, map(str.strip, names.split(","))):
                name, _, other = name.partition(" as ")
                self.names[other or name] = module, name

    @functools.cached_property
    def with_places(self):
        return [name for name in self.names if "◌" in name]

    def key_of(self, word):
        head, _, rest = word.partition(".")
        if head in self.modules and rest:
            return self.modules[head], rest.partition(".")[0]
        return self.names.get(head)

    def named_in(self, text):
        """What a text names. A name with places for arguments is there where what stands between the places is."""
        words = set(WORDS.findall(text))
        for name in self.with_places:
            if all(part in words for part in name.split("◌") if part):
                yield resolved(*self.names[name])
        for word in words:
            key = self.key_of(word)
            if key:
                yield resolved(*key)


class Module(Names):
    """A file of specs. A constructor is named as its data are; what a block's head names, each definition in the block does."""

    def __init__(self, name, file):
        text = file.read_text()
        super().__init__(text)
        self.name, self.crate, self.file, self.definitions = name, name.split(".")[1], file, {}
        self.about = " ".join(re.findall(r"^-- ?(.*)", re.match(r"(?:--.*\n)*", text)[0], re.M))
        comment, current, blocks = [], None, []
        for line in text.splitlines():
            short = line.strip()
            if short.startswith("--"):
                comment.append(short[2:].strip())
                continue
            indent = len(line) - len(line.lstrip())
            if short:
                blocks = [block for block in blocks if block[0] < indent]
            head = short.startswith(("abbrev ", "unfoldable ", "pub ")) and HEAD.match(short)
            is_part = current and current.has_parts and indent > current.indent
            if short.startswith(("use ", "pub use ", "pub mod ", "infix")):
                current = None
            elif short.endswith(("mutual", "where")) and BLOCK.match(short):
                blocks.append((indent, short))
                current = None
            elif head and not is_part:
                current = Definition(self, head[2], indent, [said for said in comment if not said.startswith("----")], head[1])
                current.lines += (block for _, block in blocks)
                self.definitions[head[2]] = current
                self.names.setdefault(head[2], current.key)
            elif is_part and current.head.startswith("data ") and " : " in short:
                self.names.setdefault(short.partition(" : ")[0].removeprefix("pub "), current.key)
            if current:
                current.lines.append(line.partition(" -- ")[0])
            comment = []


@functools.cache
def module_of(name):
    """The file of a module of a crate, or nothing where it is none of `specs`: a type of code, or std's."""
    _, crate, _, *path = name.split(".")
    file = (CRATES / crate / "specs").joinpath(*path).with_suffix(".antt")
    return Module(name, file) if crate.startswith("ild_") and path and "declared" not in path and file.exists() else None


@functools.cache
def resolved(module, name):
    """Where a definition stands that a module has or hands on."""
    found = module_of(module)
    while found and name not in found.definitions and found.names.get(name, (module, name)) != (module, name):
        module, name = found.names[name]
        found = module_of(module)
    return module, name


def definition_of(module, name):
    found = module_of(module)
    return found.definitions.get(name) if found else None


def led_to(keys):
    """All definitions to which these lead, and what else is named on the way: types and constants of code, and what std and others have."""
    found, others, left = {}, set(), list(keys)
    while left:
        key = left.pop()
        if key in found or key in others:
            continue
        definition = definition_of(*key)
        if definition:
            found[key] = definition
            left += definition.leads
        else:
            others.add(key)
    return found, others
