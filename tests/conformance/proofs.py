"""What stands at a path of a value, and the proof of it, worked out on the plain values of `values.py`, by docs/formats.md.

`proof(found, ty, value, path)` gives the blocks of the proof and what they say: `("here", data)`, with the data that represent the part, of a HAMT
its root map alone, or `("absent",)`. `path` is the list of its segments.
"""
import values
from values import ABSENT

ESCAPES = {"~": "~0", "/": "~1", " ": "~2", "\n": "~3"}


def path_text(path):
    """How a line of a script, or the words, write a path."""
    return "".join("/" + "".join(ESCAPES.get(letter, letter) for letter in segment) for segment in path) or "."


def proof(found, ty, value, path):
    found.nodes = []
    blocks = [values.spelled(found.represented(ty, value))]
    for segment in path:
        step = value_step(found, ty, value, segment, blocks)
        if step is None:
            return blocks, ("absent",)
        ty, value = step
    return blocks, ("here", data_at(found, ty, value))


def data_at(found, ty, value):
    return value if ty is None else found.represented(ty, value)


def value_step(found, ty, value, segment, blocks):
    """The part at a segment with its type, which is None inside an Any, or None. Nodes on the way of a key come to the blocks."""
    if ty is None:
        return data_step(value, segment)
    if value is None:
        return None
    body = found.body(ty)
    if value[0] == "any":
        return data_step(value[1], segment)
    if value[0] == "struct":
        return next(((field[3][0], part) for field, part in zip(body[1], value[1]) if field[0] == segment and part is not ABSENT), None)
    if value[0] == "union":
        name, _, member, _ = body[1][value[1]]
        return (member, value[2]) if name == segment else None
    if value[0] == "list":
        place = index_of(segment, value[1])
        return None if place is None else (body[1][0], value[1][place])
    if value[0] == "map":
        if body[3][0] == "HAMT":
            blocks += way(found, [(key, found.represented(body[2][0], part)) for key, part in value[1]], segment)
        return next(((body[2][0], part) for key, part in value[1] if key == segment), None)
    return None


def data_step(data, segment):
    if isinstance(data, dict) and segment in data:
        return None, data[segment]
    place = index_of(segment, data) if isinstance(data, list) else None
    return None if place is None else (None, data[place])


def index_of(segment, parts):
    return int(segment) if segment in map(str, range(len(parts))) else None


def way(found, pairs, key):
    """The blocks of the nodes beneath a HAMT's root on the way of a key."""
    level, there = 0, pairs
    while True:
        there = [pair for pair in there if values.hash_of(pair[0])[level] == values.hash_of(key)[level]]
        if len(there) <= values.BUCKET_SIZE:
            return
        level += 1
        yield values.spelled(found.node(there, level))


def json_of(blocks):
    """The DAG-JSON of a proof: the list of its blocks, each as bytes."""
    return "[%s]" % ",".join('{"/":{"bytes":"%s"}}' % values.json_form(block)["/"]["bytes"] for block in blocks)


def told(says):
    """What `verify` writes of what a proof says, and the status."""
    if says[0] == "absent":
        return "absent\n", 0
    text = values.json_text(says[1])
    return ("no 10 reserved\n", 1) if text is None else (f"ok {text}\n", 0)
