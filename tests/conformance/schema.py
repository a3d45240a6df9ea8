"""A plain compiler of schemas, by docs/schema-language.md: it works out what the cases must write.

Nothing of the program is used. `compiled(source)` answers the rows of the table of these bytes, each a name, what the
type is and its place, or raises `Fault` with the first fault, as in `resolve 2 unknown at 9`. Each part of a type ends
with its place, or begins with its name and then has it.
"""
import re

TOKEN = re.compile(
    rb"(?P<gap>[ \t\r\n]+|#[^\n]*)|(?P<word>[A-Za-z_][A-Za-z0-9_]*)|(?P<number>-?[0-9]+)|(?P<mark>[{}\[\]():=|&])"
)
QUOTED = re.compile(rb'"(?:[^"\\\n]|\\["\\])*')
SCALARS = {"bool", "string", "bytes", "int", "any"}
KINDS = {"null", "bool", "int", "float", "string", "bytes", "list", "map", "link"}
SETTINGS = {
    "stringpairs": ("innerDelim", "entryDelim"),
    "stringjoin": ("join",),
    "envelope": ("discriminantKey", "contentKey"),
    "inline": ("discriminantKey",),
}
PRELUDE = [
    ("Any", ("any",), 0), ("Bool", ("bool",), 0), ("Bytes", ("bytes",), 0), ("Int", ("int",), 0), ("Link", ("link", 0), 0),
    ("List", ("list", (0, True, 0)), 0), ("Map", ("map", (7, 0), (0, True, 0), ("map",)), 0), ("String", ("string",), 0),
]


class Fault(Exception):
    def __init__(self, flaw, at):
        super().__init__(f"{flaw} at {at}")


# ---- bytes to tokens, each (kind, text, offset)


def tokens(source):
    try:
        source.decode()
    except UnicodeDecodeError as error:
        raise Fault("lex 1 char", error.start) from error
    found, at = [], 0
    while at < len(source):
        match = TOKEN.match(source, at)
        if match is None:
            match = quoted(source, at)
            found.append(("text", re.sub(rb"\\(.)", rb"\1", match[1:]).decode(), at))
            at += len(match) + 1
            continue
        if match.lastgroup != "gap":
            found.append((match.lastgroup, match.group().decode(), at))
        at = match.end()
    return found + [("end", "", len(source))]


def quoted(source, at):
    """The text at this place, without its last quote."""
    match = QUOTED.match(source, at)
    if match is None:
        raise Fault("lex 1 char", at)
    stop = match.end()
    if source[stop : stop + 1] == b'"':
        return match.group()
    if source[stop : stop + 1] == b"\\" and source[stop + 1 : stop + 2] not in (b"", b"\n"):
        raise Fault("lex 1 char", stop)
    raise Fault("lex 2 unended", at)


# ---- tokens to declarations: a method for each rule of the grammar


class Reader:
    def __init__(self, found):
        self.left = found[::-1]

    def refuse(self):
        raise Fault("parse 1 syntax", self.left[-1][2])

    def sees(self, *words):
        kind, text, _ = self.left[-1]
        return kind in ("word", "mark") and text in words

    def take(self, *words):
        return self.left.pop()[1] if self.sees(*words) else self.refuse()

    def may_take(self, word):
        return self.sees(word) and bool(self.left.pop())

    def name(self):
        """A word and its offset."""
        return self.left.pop()[1:] if self.left[-1][0] == "word" else self.refuse()

    def type(self):
        return self.name() if self.left[-1][1][:1].isupper() else self.refuse()

    def text(self):
        return self.left.pop()[1] if self.left[-1][0] == "text" else self.refuse()

    def implicit(self):
        kind, text, _ = self.left[-1]
        if kind == "text":
            return self.text()
        if kind != "number":
            return self.take("true", "false") == "true"
        if not re.fullmatch("0|-?[1-9][0-9]{0,19}", text) or not -(2**63) <= int(text) < 2**64:
            self.refuse()
        return int(self.left.pop()[1])

    def schema(self):
        decls = []
        while self.left[-1][0] != "end":
            if self.take("type", "advanced") == "advanced":
                decls.append((None, ("advanced", self.type())))
            else:
                decls.append((self.type(), self.body()))
        return decls

    def body(self):
        if self.may_take("="):
            return ("copy", self.type())
        if self.sees("&", "[", "{"):
            body = self.reference(-1)[1]
            return body + (self.form("map", "listpairs", "stringpairs", "advanced"),) if body[0] == "map" else body
        at = self.left[-1][2]
        word = self.take("struct", "union", "enum", "unit", "float", *SCALARS)
        if word == "float":
            return ("float", at)
        return (word,) if word in SCALARS else getattr(self, word)()

    def reference(self, depth):
        """Whether it is nullable, the type, its offset, and that of the first token, which may be `nullable`.

        So many inline types surround it; -1 is for a declared type.
        """
        begun = self.left[-1][2]
        nullable = depth >= 0 and self.may_take("nullable")
        at = self.left[-1][2]
        if depth == 32 and self.sees("&", "[", "{"):
            self.refuse()
        if self.may_take("&"):
            return nullable, ("link", self.type()), at, begun
        if self.may_take("["):
            element = self.reference(depth + 1)
            self.take("]")
            return nullable, ("list", element), at, begun
        if self.may_take("{"):
            key = self.type()
            self.take(":")
            value = self.reference(depth + 1)
            self.take("}")
            return nullable, ("map", key, value), at, begun
        return nullable, ("named", self.type()), at, begun

    def form(self, *words):
        """One of these words behind `representation`, with its settings. Where none stands, it is the first."""
        if not self.may_take("representation"):
            return (words[0],)
        word = self.take(*words)
        if word == "advanced":
            return (word, self.type())
        return (word,) + self.settings(*SETTINGS[word]) if word in SETTINGS else (word,)

    def settings(self, *names):
        given = {}
        self.take("{")
        while len(given) < len(names):
            word = self.take(*(n for n in names if n not in given))
            given[word] = self.text()
        self.take("}")
        return tuple(given[n] for n in names)

    def struct(self):
        fields = []
        self.take("{")
        while not self.may_take("}"):
            name, at = self.name()
            optional = self.may_take("optional")
            reference = self.reference(0)
            fields.append((name, at, optional, reference, self.opts() if self.may_take("(") else {}))
        return ("struct", fields, self.form("map", "tuple", "listpairs", "stringpairs", "stringjoin"))

    def opts(self):
        given = {}
        while not given or not self.may_take(")"):
            word = self.take(*(n for n in ("rename", "implicit") if n not in given))
            given[word] = self.text() if word == "rename" else self.implicit()
        return given

    def union(self):
        members = []
        self.take("{")
        while not self.may_take("}"):
            self.take("|")
            at = self.left[-1][2]
            link = self.may_take("&")
            target, mark = self.type(), None
            if self.left[-1][0] == "text":
                mark = ("text", self.text())
            elif self.sees(*KINDS):
                mark = ("kind",) + self.name()
            members.append((at, link, target, mark))
        if not self.sees("representation"):
            self.refuse()
        return ("union", members, self.form("keyed", "kinded", "stringprefix", "bytesprefix", "envelope", "inline"))

    def enum(self):
        members = []
        self.take("{")
        while not self.may_take("}"):
            self.take("|")
            name, at = self.name()
            text = None
            if self.may_take("("):
                text = self.text()
                self.take(")")
            members.append((name, at, text))
        return ("enum", members, self.form("string", "int"))

    def unit(self):
        self.take("representation")
        return ("unit", self.take("null", "true", "false", "emptymap"))


# ---- declarations to the table


class Table:
    """The rows, and the events in which faults are sought, in the order of the text. `numbers` has those of the names."""

    def __init__(self, decls, numbers):
        self.numbers, self.events, self.rows = numbers, [], list(PRELUDE)
        for declared, body in decls:
            if declared is None:
                self.events.append(("advanced",) + body[1])
            else:
                self.begin(*declared, "declared", body)

    def begin(self, name, at, event, body):
        """Appends a row, and behind it those of the inline types in it."""
        number = len(self.rows)
        self.events.append((event, name, at))
        self.rows.append(None)
        self.rows[number] = (name, getattr(self, body[0], lambda *_: body)(*body[1:]), at)
        return number

    def use(self, name, at):
        self.events.append(("used", name, at))
        return self.numbers.get(name, 0)

    def slot(self, nullable, body, at, begun):
        """The type of a reference, whether it is nullable, and its place."""
        return (self.use(*body[1]) if body[0] == "named" else self.begin("", at, "inline", body)), nullable, begun

    def copy(self, target):
        return ("copy", self.use(*target))

    def float(self, at):
        self.events.append(("used", "Float", at))

    def link(self, target):
        return ("link", self.use(*target))

    def list(self, element):
        return ("list", self.slot(*element))

    def map(self, key, value, form=("map",)):
        made = ("map", (self.use(*key), key[1]), self.slot(*value))
        if form[0] != "advanced":
            return made + (form,)
        self.events.append(("advanced",) + form[1])
        return made + (("HAMT",),)

    def struct(self, fields, form):
        made = []
        for before, (name, at, optional, reference, opts) in enumerate(fields):
            self.events.append(("part", before, at))
            made.append((name, at, optional, self.slot(*reference), opts))
        return ("struct", made, form)

    def union(self, members, form):
        made = []
        for before, (at, link, target, mark) in enumerate(members):
            self.events.append(("part", before, at))
            name = "&" + target[0] if link else target[0]
            made.append((name, at, self.begin(name, at, "inline", ("link", target)) if link else self.use(*target), mark))
            if mark and mark[:2] == ("kind", "float"):
                self.float(mark[2])
        return ("union", made, form)

    def enum(self, members, form):
        self.events += [("part", before, at) for before, (_, at, _) in enumerate(members)]
        return ("enum", members, form)


def check_limits(events):
    types = 0
    for event, before, at in events:
        types += event in ("declared", "inline")
        if event in ("declared", "inline") and types > 65535 or event == "part" and before >= 1024:
            raise Fault("resolve 6 many", at)


def check_words(events):
    known = {name for name, _, _ in PRELUDE}
    for event, name, at in events:
        if event == "declared":
            if name in known | {"Float"}:
                raise Fault("resolve 1 twice", at)
            known.add(name)
    for event, name, at in events:
        if event == "used" and name == "Float":
            raise Fault("resolve 3 float", at)
        if event == "used" and name not in known:
            raise Fault("resolve 2 unknown", at)
        if event == "advanced" and name != "HAMT":
            raise Fault("resolve 5 advanced", at)


def check_copies(rows):
    for number in range(len(rows)):
        seen, at = set(), number
        while rows[at][1][0] == "copy" and at not in seen:
            seen.add(at)
            at = rows[at][1][1]
        if at == number and seen:
            raise Fault("resolve 4 copycycle", rows[number][2])


def compiled(source):
    decls = Reader(tokens(source)).schema()
    first = Table(decls, {})
    check_limits(first.events)
    check_words(first.events)
    table = Table(decls, {name: n for n, (name, _, _) in reversed(list(enumerate(first.rows))) if name})
    check_copies(table.rows)
    return table.rows


def is_plain_map(rows):
    """Whether the one declared type is N, a plain map from String to Int without null: the schemas that `run` takes."""
    if [name for name, _, _ in rows[8:]] != ["N"] or rows[8][1][0] != "map":
        return False
    _, key, value, form = rows[8][1]
    return (key[0], value[:2], form) == (7, (3, False), ("map",))


def declared_names(rows):
    """The names of the declared types, in order: those of the prelude, of inline types and of members `&T` aren't among them."""
    return [name for name, _, _ in rows[8:] if name and not name.startswith("&")]
