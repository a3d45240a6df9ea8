"""What `run SCHEMA TYPE ROOT SCRIPT` and `run SCHEMA TYPE - SCRIPT` must write, worked out on plain Python values by docs/formats.md and
docs/values.md: each line on the value as a whole, of which each root is built from scratch.

Nothing of the program is used, and nothing is spliced: values are those of `values.py`, and an edit makes another value. `answer(source,
type, value, script)` gives the text, the status, and the blocks of the value at the end, the root first; `value` is the DAG-JSON of the
value at the beginning, or None for the empty map or list. A batch is the value that stood at its `begin`, to which `abort` and the end of
the script go back; `Document.stored` are the blocks that a script stores, those of a batch at its `commit` alone.
"""
import re

import accept
import schema
import values
from values import ABSENT, Refused

WORDS_WITH_PATH = ("get", "rep", "has", "len", "walk", "del")
WORDS_WITH_JSON = ("set", "ins")
WORDS_ALONE = ("root", "begin", "commit", "abort")


# ---- lines


def command(line):
    """The word, the path and the json of a line, or None where it is outside the grammar."""
    try:
        text = line.decode()
    except UnicodeDecodeError:
        return None
    word, space, rest = text.partition(" ")
    if text in WORDS_ALONE:
        return text, [], None
    if word in WORDS_WITH_PATH and space:
        path = path_of(rest)
        return None if path is None else (word, path, None)
    if word in WORDS_WITH_JSON and space:
        front, behind, json = rest.partition(" ")
        path = path_of(front)
        return None if path is None or not json else (word, path, json.encode())
    return None


def path_of(text):
    if text == ".":
        return []
    if not text.startswith("/") or " " in text or re.search("~(?![0-3])", text):
        return None
    return [re.sub("~[0-3]", lambda mark: "~/ \n"[int(mark[0][1])], segment) for segment in text[1:].split("/")]


# ---- parts


class Document:
    """A value of a type, on which lines are answered."""

    def __init__(self, found, ty, value):
        self.found, self.ty, self.value = found, ty, value
        self.any = found.number("Any")
        self.begun = None  # inside a batch, the value at its begin
        self.stored = {}  # the blocks that lines have stored, by their CIDs
        self.frame = {}  # what stands around the value in its root, as `values.blocks_of` takes it

    def of_any(self, data):
        return None if data is None else ("any", data)

    def part(self, slot, value, segment):
        """The slot and the value of the part at a segment, or None."""
        if value is None:
            return None
        return getattr(self, "part_of_" + value[0], lambda *_: None)(self.found.body(slot[0]), value, segment)

    def part_of_struct(self, body, value, segment):
        for field, part in zip(body[1], value[1]):
            if field[0] == segment and part is not ABSENT:
                return field[3], part
        return None

    def part_of_union(self, body, value, segment):
        name, _, ty, _ = body[1][value[1]]
        return ((ty, False), value[2]) if name == segment else None

    def part_of_map(self, body, value, segment):
        return next(((body[2], part) for key, part in value[1] if key == segment), None)

    def part_of_list(self, body, value, segment):
        at = index(segment)
        return (body[1], value[1][at]) if at is not None and at < len(value[1]) else None

    def part_of_any(self, body, value, segment):
        data = value[1]
        if isinstance(data, dict) and segment in data:
            return (self.any, True), self.of_any(data[segment])
        at = index(segment)
        if isinstance(data, list) and at is not None and at < len(data):
            return (self.any, True), self.of_any(data[at])
        return None

    def at(self, path):
        """The slot and the value of the part to which a path leads; path where it leads nowhere."""
        here = ((self.ty, False), self.value)
        for segment in path:
            here = self.part(*here, segment)
            if here is None:
                raise Refused("2 path")
        return here

    # ---- reads

    def get(self, slot, value):
        return self.found.data_shown(slot[0], value)

    def rep(self, slot, value):
        return self.found.represented(slot[0], value)

    def len(self, slot, value):
        return len(self.parts(slot, value))

    def walk(self, slot, value):
        return [[name, self.found.data_shown(of[0], part)] for name, of, part in self.parts(slot, value)]

    def parts(self, slot, value):
        """The name, key or index of each part, with its slot and value."""
        form = None if value is None else value[0]
        body = self.found.body(slot[0])
        anything = (self.any, True)
        if form == "struct":
            return [(field[0], field[3], part) for field, part in zip(body[1], value[1]) if part is not ABSENT]
        if form == "map":
            return [(key, body[2], part) for key, part in value[1]]
        if form == "list":
            return [(at, body[1], part) for at, part in enumerate(value[1])]
        if form == "any" and isinstance(value[1], dict):
            return [(key, anything, self.of_any(value[1][key])) for key in sorted(value[1], key=values.key_order)]
        if form == "any" and isinstance(value[1], list):
            return [(at, anything, self.of_any(part)) for at, part in enumerate(value[1])]
        raise Refused("2 path")

    # ---- edits

    def edited(self, word, path, json):
        """The value that an edit makes, or its first refusal of path, json and mismatch."""
        if path:
            return self.edited_in((self.ty, False), self.value, word, path, json)
        if word == "set":
            return self.found.shown((self.ty, False), values.data_of(json))
        raise Refused("4 mismatch" if word == "del" else "2 path")

    def edited_in(self, slot, value, word, path, json):
        segment, rest = path[0], path[1:]
        body = self.found.body(slot[0])
        if not rest:
            if value is None:
                raise Refused("2 path")
            return getattr(self, f"{word}_in_{value[0]}", no_place)(body, value, segment, json)
        found = self.part(slot, value, segment)
        if found is None:
            raise Refused("2 path")
        return self.with_part(body, value, segment, self.edited_in(*found, word, rest, json))

    def with_part(self, body, value, segment, part):
        """The value with another part at a segment that leads to one."""
        form = value[0]
        if form == "struct":
            return ("struct", [part if field[0] == segment else old for field, old in zip(body[1], value[1])])
        if form == "union":
            return ("union", value[1], part)
        if form == "map":
            return ("map", [(key, part if key == segment else old) for key, old in value[1]])
        if form == "list":
            return ("list", [part if at == index(segment) else old for at, old in enumerate(value[1])])
        data = None if part is None else part[1]
        if isinstance(value[1], dict):
            return ("any", {**value[1], segment: data})
        return ("any", [data if at == index(segment) else old for at, old in enumerate(value[1])])

    def meant(self, slot, json):
        return self.found.shown(slot, values.data_of(json))

    def set_in_struct(self, body, value, segment, json):
        for at, field in enumerate(body[1]):
            if field[0] == segment:
                return ("struct", value[1][:at] + [self.meant(field[3], json)] + value[1][at + 1 :])
        raise Refused("2 path")

    def ins_in_struct(self, body, value, segment, json):
        for field, part in zip(body[1], value[1]):
            if field[0] == segment and part is ABSENT:
                return self.set_in_struct(body, value, segment, json)
        raise Refused("2 path")

    def del_in_struct(self, body, value, segment, json):
        for at, (field, part) in enumerate(zip(body[1], value[1])):
            if field[0] == segment and part is not ABSENT:
                values.need(field[2])
                return ("struct", value[1][:at] + [ABSENT] + value[1][at + 1 :])
        raise Refused("2 path")

    def set_in_map(self, body, value, segment, json):
        part = self.meant(body[2], json)
        values.need(self.found.text_value(body[1][0], segment) is not None)
        if any(key == segment for key, _ in value[1]):
            return ("map", [(key, part if key == segment else old) for key, old in value[1]])
        pairs = value[1] + [(segment, part)]
        if body[3][0] not in ("listpairs", "stringpairs"):
            pairs.sort(key=lambda pair: values.key_order(pair[0]))
        return ("map", pairs)

    def ins_in_map(self, body, value, segment, json):
        if any(key == segment for key, _ in value[1]):
            raise Refused("2 path")
        return self.set_in_map(body, value, segment, json)

    def del_in_map(self, body, value, segment, json):
        if all(key != segment for key, _ in value[1]):
            raise Refused("2 path")
        return ("map", [pair for pair in value[1] if pair[0] != segment])

    def set_in_list(self, body, value, segment, json):
        at = index_below(segment, len(value[1]))
        return ("list", value[1][:at] + [self.meant(body[1], json)] + value[1][at + 1 :])

    def ins_in_list(self, body, value, segment, json):
        at = len(value[1]) if segment == "-" else index_below(segment, len(value[1]) + 1)
        return ("list", value[1][:at] + [self.meant(body[1], json)] + value[1][at:])

    def del_in_list(self, body, value, segment, json):
        at = index_below(segment, len(value[1]))
        return ("list", value[1][:at] + value[1][at + 1 :])

    def set_in_union(self, body, value, segment, json):
        for number, member in enumerate(body[1]):
            if member[0] == segment:
                return ("union", number, self.meant((member[2], False), json))
        raise Refused("2 path")

    def del_in_union(self, body, value, segment, json):
        raise Refused("4 mismatch" if body[1][value[1]][0] == segment else "2 path")

    def set_in_any(self, body, value, segment, json):
        data = value[1]
        if isinstance(data, dict):
            return ("any", {**data, segment: values.data_of(json)})
        at = index_below(segment, len(elements(data)))
        return ("any", data[:at] + [values.data_of(json)] + data[at + 1 :])

    def ins_in_any(self, body, value, segment, json):
        data = value[1]
        if isinstance(data, dict):
            if segment in data:
                raise Refused("2 path")
            return ("any", {**data, segment: values.data_of(json)})
        at = len(elements(data)) if segment == "-" else index_below(segment, len(elements(data)) + 1)
        return ("any", data[:at] + [values.data_of(json)] + data[at:])

    def del_in_any(self, body, value, segment, json):
        data = value[1]
        if isinstance(data, dict):
            if segment not in data:
                raise Refused("2 path")
            return ("any", {key: part for key, part in data.items() if key != segment})
        at = index_below(segment, len(elements(data)))
        return ("any", data[:at] + data[at + 1 :])

    # ---- replies

    def reply(self, line):
        """The reply to a line that isn't empty."""
        asked = command(line)
        if asked is None:
            return "no 1 line"
        try:
            return self.obey(*asked)
        except Refused as refused:
            return f"no {refused}"

    def obey(self, word, path, json):
        if word in WORDS_ALONE:
            return getattr(self, word)()
        if word in ("set", "ins", "del"):
            changed = self.edited(word, path, json)
            blocks = self.blocks_of(changed)
            self.value = changed
            return self.stores(blocks) if self.begun is None else "ok null"
        if word == "has":
            return f"ok {str(self.leads(path)).lower()}"
        written = values.json_text(getattr(self, word)(*self.at(path)))
        return "no 10 reserved" if written is None else f"ok {written}"

    def blocks(self):
        return self.blocks_of(self.value)

    def blocks_of(self, value):
        return values.blocks_of(self.found, self.ty, value, **self.frame)

    def stores(self, blocks):
        """The reply to a line that stores the blocks of the value."""
        self.stored.update((values.cid_text(block), block) for block in blocks)
        return "root " + values.cid_text(blocks[0])

    # ---- batches

    def outside(self):
        if self.begun is not None:
            raise Refused("15 batch")

    def inside(self):
        if self.begun is None:
            raise Refused("15 batch")

    def root(self):
        self.outside()
        return "root " + values.cid_text(self.blocks()[0])

    def begin(self):
        self.outside()
        self.begun = self.value
        return "ok null"

    def commit(self):
        self.inside()
        self.begun = None
        return self.stores(self.blocks())

    def abort(self):
        self.inside()
        self.end()
        return "ok null"

    def end(self):
        """A batch that is open is abandoned."""
        if self.begun is not None:
            self.value, self.begun = self.begun, None

    def leads(self, path):
        try:
            self.at(path)
            return True
        except Refused:
            return False


def no_place(*_):
    raise Refused("2 path")


def elements(data):
    if not isinstance(data, list):
        raise Refused("2 path")
    return data


def index(segment):
    return int(segment) if re.fullmatch("0|[1-9][0-9]*", segment, re.A) else None


def index_below(segment, count):
    at = index(segment)
    if at is None or at >= count:
        raise Refused("2 path")
    return at


# ---- the command


def empty_value(found, ty):
    """The empty map or list of a type, or None where it is neither."""
    form = found.body(ty)[0]
    return (form, []) if form in ("map", "list") else None


def answer(source, name, text, script):
    """What `run` writes, the status, and the blocks of the value at the end."""
    try:
        found = values.compiled(source)
    except schema.Fault as fault:
        return f"fault 3 schema {fault}\n", 3, []
    ty = found.number(name)
    if ty is None:
        return "fault 2 words\n", 2, []
    value = empty_value(found, ty) if text is None else found.shown((ty, False), values.data_of(text))
    if value is None:
        return "fault 9 value 4 mismatch\n", 9, []
    return answers(Document(found, ty, value), script)


def answers(document, script):
    replies = [document.reply(line) for line in script.split(b"\n") if line]
    refused = any(reply.startswith("no ") for reply in replies)
    document.end()
    return "".join(reply + "\n" for reply in replies), int(refused), document.blocks()
