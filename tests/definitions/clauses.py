"""What public clauses lead to: no definition of `specs/inside`, which holds what a crate's code notes for itself.

A public clause is one of a function that is `pub`, of a trait or of an impl of one, or a ghost member of a type. It leads to the definitions
that it names, and those lead to the definitions that their files import.
"""
import re

USE = re.compile(r"^\s*(?:ghost |pub )*use (Rattle\.(ild_\w+)\.specs\.[\w.]+?)(?:\.\{([^}]*)\}| as (\w+))?;?\s*$", re.M)
HEAD = re.compile(r"\s*(pub(?:\(\w+\))? )?(?:const |unsafe )*fn \w")
CLAUSE = re.compile(r"\s*(?:requires|ensures)\b")
GHOST = re.compile(r"\s*(?:pub )?ghost (?!use\b)")


def imports(source):
    """Each module that a source imports, its crate, and the words by which the source names what it takes of it."""
    for module, crate, names, other in USE.findall(source):
        yield module, crate, [name.split(" as ")[-1].strip() for name in names.split(",") if name.strip()] + ([other] if other else [])


def told_lines(source):
    """The lines of heads with public clauses, each with whether it belongs to a clause that the outside sees: not to a signature, and not to
    a type or a trait that is the crate's own. The head of a function ends where its body begins, or in a trait at a semicolon."""
    of_trait = of_own = is_shown = is_clause = False
    for line in source.splitlines():
        if line[:1].islower():
            of_trait = bool(re.match(r"(pub )?trait\b|impl\b.* for ", line))
            of_own = bool(re.match(r"(pub\(\w+\) )?(struct|enum|trait)\b", line))
        head = "fn " in line and HEAD.match(line)
        ghost = "ghost " in line and GHOST.match(line)
        if head:
            is_shown = head[1] == "pub " or (of_trait and not head[1])
            is_clause = False
        is_shown = is_shown or bool(ghost)
        if is_shown:
            is_clause = is_clause or bool(ghost or CLAUSE.match(line))
            yield line, is_clause and not of_own
            if line.endswith(("{", "{}", ";")):
                is_shown = is_clause = False


def public_lines(source):
    """The lines of public functions' heads, of traits, of impls of traits, and of the ghost members of types."""
    return (line for line, _ in told_lines(source))


def public_clauses(source):
    """The lines of the clauses among them that the outside sees."""
    return (line for line, is_clause in told_lines(source) if is_clause)


def named_in(text, names):
    return [name for name in names if re.search(rf"(?<![\w'-]){re.escape(name)}(?![\w'-])", text)]


def led_inside(crates):
    """Each public clause and each file of `specs` that leads to `specs/inside`, as a line."""
    for source in sorted(crates.glob("ild_*/src/**/*.rt")):
        whole = source.read_text()
        clauses = "\n".join(public_lines(whole))
        for module, _, names in imports(whole):
            if ".specs.inside." in module:
                yield from (f"{source.relative_to(crates.parent)}: a public clause names {name} of {module}" for name in named_in(clauses, names))
    for source in sorted(crates.glob("ild_*/specs/**/*.antt")):
        if "inside" not in source.parts:
            yield from (f"{source.relative_to(crates.parent)} imports {module}" for module, _, _ in imports(source.read_text()) if ".specs.inside." in module)
