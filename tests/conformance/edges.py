"""What the folder of blocks, standard output and big inputs do, where a case of files can't say it.

Each test is a function named for what it shows. It gets the program and a fresh folder, and yields what is wrong. What
a run must write is worked out by `write_cases`, on plain Python values.
"""
import ctypes
import importlib.machinery
import importlib.util
import os
import pathlib
import re
import resource
import subprocess
import time

HERE = pathlib.Path(__file__).resolve().parent


def loaded(name):
    loader = importlib.machinery.SourceFileLoader(name, str(HERE / name))
    module = importlib.util.module_from_spec(importlib.util.spec_from_loader(name, loader))
    loader.exec_module(module)
    return module


plain = loaded("write_cases")
SCHEMA = plain.SCHEMA.encode() + b"\n"
WORDS = ["run", "s", "N", "-", "x"]
# A run that takes longer is ended, and has failed.
SECONDS = 300
# What waits for nobody has ended after so many, also where much other work is done beside.
AT_ONCE = 60
EMPTY = plain.cid_text(plain.block_of({}))
ONE_BLOCK = plain.block_of({"a": 1})
ONE = plain.cid_text(ONE_BLOCK)


def give(place, schema=SCHEMA, script=b"set /a 1\n"):
    place.mkdir(parents=True, exist_ok=True)
    (place / "s").write_bytes(schema)
    (place / "x").write_bytes(script)


def start(program, place, words=None, **how):
    how = {"stdin": subprocess.DEVNULL, "stdout": subprocess.PIPE, "stderr": subprocess.PIPE, **how}
    return subprocess.Popen([program, *(WORDS if words is None else words)], cwd=place, **how)


def differs(run, text, status, given=None, seconds=SECONDS):
    """What is wrong with how a run ended."""
    try:
        out, _ = run.communicate(given, timeout=seconds)
    except subprocess.TimeoutExpired:
        run.kill()
        run.communicate()
        yield f"no end after {seconds} seconds"
        return
    if run.returncode != status:
        yield f"status {run.returncode}, and {status} is wanted"
    if out != text:
        yield f"wrote {out[:200]!r} .. ({len(out)} bytes), and {text[:200]!r} .. ({len(text)} bytes) is wanted"


def zeros(file, size):
    """A file of so many zeros, which takes no disk."""
    with open(file, "wb") as made:
        made.truncate(size)


def files_in(place):
    """The bytes of the files in the folder of blocks; None for what is no plain file."""
    folder = place / "blocks"
    names = sorted(os.listdir(folder)) if folder.is_dir() else []
    return {n: None if (folder / n).is_symlink() or not (folder / n).is_file() else (folder / n).read_bytes() for n in names}


def strangers(place, left=()):
    """Files of the folder that aren't blocks under their names, but for those that were left there before."""
    for name, content in files_in(place).items():
        if name not in left and (content is None or plain.cid_text(content) != name):
            yield f"blocks/{name} isn't the block of its name"


def two_runs_side_by_side(program, place):
    script = "".join(f"set /k{i} {i}\n" for i in range(12)) + "".join(f"del /k{i}\n" for i in range(12)) + "root\n"
    text, status, _ = plain.run(script.encode())
    for number in range(200):
        room = place / str(number)
        give(room, script=script.encode())
        for run in [start(program, room) for _ in range(2)]:
            yield from (f"in round {number}: {wrong}" for wrong in differs(run, text.encode(), status))
        yield from (f"in round {number}: {wrong}" for wrong in strangers(room))


def a_link_in_the_way_is_not_followed(program, place):
    give(place)
    (place / "blocks").mkdir()
    (place / "other").write_bytes(b"mine")
    for cid in (EMPTY, ONE):
        (place / "blocks" / f"{cid}.part").symlink_to("../other")
    yield from differs(start(program, place), f"root {ONE}\n".encode(), 0)
    if (place / "other").read_bytes() != b"mine":
        yield "the file behind the link was written"
    yield from strangers(place, [f"{EMPTY}.part", f"{ONE}.part"])
    if files_in(place).get(ONE) != ONE_BLOCK:
        yield "the block isn't held"


def what_a_crash_left_does_no_harm(program, place):
    give(place)
    (place / "blocks" / f"{ONE}.part1").mkdir(parents=True)
    left = {f"{ONE}.part": b"half", f"{ONE}.part2": b"", f"{EMPTY}.part": b"x" * 9}
    for name, content in left.items():
        (place / "blocks" / name).write_bytes(content)
    yield from differs(start(program, place), f"root {ONE}\n".encode(), 0)
    held = files_in(place)
    wanted = {**left, f"{ONE}.part1": None, EMPTY: b"\xa0", ONE: ONE_BLOCK}
    if held != wanted:
        yield f"left {sorted(held)}, and {sorted(wanted)} is wanted"


def what_stands_under_the_name_of_a_block(program, place):
    fault = b"no 12 store\n"
    for name, make, text, status in (
        ("nothing", lambda file: None, None, 0),
        ("block", lambda file: file.write_bytes(ONE_BLOCK), None, 0),
        ("front", lambda file: file.write_bytes(ONE_BLOCK[:2]), None, 0),
        ("other", lambda file: file.write_bytes(b"other"), None, 0),
        ("long", lambda file: zeros(file, 4_194_305), None, 0),
        ("link to nothing", lambda file: file.symlink_to("nothing"), None, 0),
        ("link to a device", lambda file: file.symlink_to("/dev/zero"), None, 0),
        ("pipe", os.mkfifo, None, 0),
        ("folder", lambda file: file.mkdir(), fault, 1),
    ):
        room = place / name
        give(room)
        (room / "blocks").mkdir()
        make(room / "blocks" / ONE)
        for wrong in differs(start(program, room), text or f"root {ONE}\n".encode(), status, seconds=AT_ONCE):
            yield f"{name}: {wrong}"
        held = files_in(room)
        if held != {EMPTY: b"\xa0", ONE: None if text else ONE_BLOCK}:
            yield f"{name}: left {held}"


def what_a_folder_under_the_name_of_a_block_holds_stays(program, place):
    give(place)
    (place / "blocks" / ONE).mkdir(parents=True)
    (place / "blocks" / ONE / "mine").write_bytes(b"mine")
    yield from differs(start(program, place), b"no 12 store\n", 1)
    if files_in(place) != {EMPTY: b"\xa0", ONE: None} or (place / "blocks" / ONE / "mine").read_bytes() != b"mine":
        yield f"left {files_in(place)}"


LIBC = ctypes.CDLL(None)
NO_SUCH_RIGHT = 77


def by_the_modes():
    """From the program's start on modes of files count for root too: of its rights it loses the one to pass over them (CAP_DAC_OVERRIDE)."""
    if os.geteuid() == 0 and LIBC.prctl(24, 1, 0, 0, 0) != 0:
        os._exit(NO_SUCH_RIGHT)


def a_folder_that_may_not_be_written(program, place):
    """What is held is read, nothing is put, and the fault is told; neither a block nor a part comes."""
    for name, held, script, text, status in (
        ("nothing held", {}, b"root\n", b"fault 6 store\n", 6),
        ("the empty value held", {EMPTY: b"\xa0"}, b"set /a 1\nroot\n", f"no 12 store\nroot {EMPTY}\n".encode(), 1),
        ("all held", {EMPTY: b"\xa0", ONE: ONE_BLOCK}, b"set /a 1\nget /a\n", f"root {ONE}\nok 1\n".encode(), 0),
    ):
        room = place / name
        give(room, script=script)
        (room / "blocks").mkdir()
        for cid, block in held.items():
            (room / "blocks" / cid).write_bytes(block)
        (room / "blocks").chmod(0o555)
        yield from (f"{name}: {wrong}" for wrong in differs(start(program, room, preexec_fn=by_the_modes), text, status))
        (room / "blocks").chmod(0o755)
        if files_in(room) != held:
            yield f"{name}: left {files_in(room)}"


def old_parts_are_removed_as_the_document_says(program, place):
    """The command that docs/formats.md shows takes parts that are older than an hour, and nothing else."""
    commands = re.findall(r"^    (find blocks .*)$", (HERE.parents[1] / "docs/formats.md").read_text(), re.M)
    give(place)
    (place / "blocks").mkdir()
    for name, minutes in ((f"{ONE}.part", 61), (f"{ONE}.part7", 100_000), (f"{EMPTY}.part", 59), (f"{EMPTY}.part1", 0), (EMPTY, 100_000), ("mine.part", 100_000)):
        (place / "blocks" / name).write_bytes(b"\xa0")
        os.utime(place / "blocks" / name, (time.time() - 60 * minutes,) * 2)
    for command in commands:
        subprocess.run(["sh", "-c", command], cwd=place, check=True)
    if len(commands) != 1 or sorted(files_in(place)) != sorted([f"{EMPTY}.part", f"{EMPTY}.part1", EMPTY, "mine.part"]):
        yield f"{commands} left {sorted(files_in(place))}"
    yield from differs(start(program, place), f"root {ONE}\n".encode(), 0)


def a_file_in_place_of_the_folder(program, place):
    give(place)
    (place / "blocks").write_bytes(b"mine")
    yield from differs(start(program, place), b"fault 6 store\n", 6)
    if (place / "blocks").read_bytes() != b"mine":
        yield "the file was written"


def a_write_that_is_cut_off_leaves_nothing(program, place):
    script = b"set /a 1\nset /abcdefgh 2\nget /abcdefgh\nroot\n"
    give(place, script=script)
    # A file can't grow above 8 bytes: the system takes the first of them, and refuses the rest.
    limited = {"preexec_fn": lambda: resource.setrlimit(resource.RLIMIT_FSIZE, (8, 8)), "restore_signals": False}
    text = f"root {ONE}\nno 12 store\nno 2 path\nroot {ONE}\n"
    yield from differs(start(program, place, **limited), text.encode(), 1)
    if sorted(files_in(place)) != sorted([EMPTY, ONE]):
        yield f"left {sorted(files_in(place))}"


def inputs(program, place):
    give(place, script=b"root\n")
    (place / "folder").mkdir()
    for name, size in (("limit", 16_777_216), ("long", 16_777_217), ("huge", 1 << 40)):
        zeros(place / name, size)
    root = f"root {EMPTY}\n"
    for name, text, status in (
        ("x", root, 0),
        ("limit", "no 1 line\n", 1),
        ("long", "fault 5 input script long\n", 5),
        ("huge", "fault 5 input script long\n", 5),
        ("none", "fault 5 input script absent\n", 5),
        ("", "fault 5 input script absent\n", 5),
        ("none/x", "fault 5 input script absent\n", 5),
        ("x/none", "fault 5 input script absent\n", 5),
        ("folder", "fault 5 input script failed\n", 5),
        (".", "fault 5 input script failed\n", 5),
    ):
        for wrong in differs(start(program, place, ["run", "s", "N", "-", name]), text.encode(), status):
            yield f"{name!r}: {wrong}"


def standard_input_is_a_file(program, place):
    give(place)
    run = start(program, place, ["run", "s", "N", "-", "/dev/stdin"], stdin=subprocess.PIPE)
    yield from differs(run, f"root {ONE}\nok 1\n".encode(), 0, b"set /a 1\nget /a")


def words(program, place):
    give(place)
    for given in ([], [*WORDS, ""], ["run", "s", "N", "", "x"], ["", *WORDS], [b"\xff", *WORDS[1:]], [*WORDS[:4], b"\xff"], ["--help"], ["--version"]):
        for wrong in differs(start(program, place, given), b"fault 2 words\n", 2):
            yield f"{given}: {wrong}"
    if (place / "blocks").exists():
        yield "the folder of blocks was made"


def a_check_leaves_the_folder(program, place):
    give(place)
    yield from differs(start(program, place, ["check", "s"]), b'ok ["N"]\n', 0)
    yield from differs(start(program, place, ["check", "/dev/stdin"], stdin=subprocess.PIPE), b"ok []\n", 0, b"# no types\n")
    if sorted(os.listdir(place)) != ["s", "x"]:
        yield f"left {sorted(os.listdir(place))}"


def standard_output_that_fails(program, place):
    give(place)
    for given in (WORDS, ["check", "s"]):
        with open("/dev/full", "wb") as full:
            yield from differs(start(program, place, given, stdout=full), None, 7)
    near, far = os.pipe()
    os.close(near)
    with open(far, "wb") as closed:
        yield from differs(start(program, place, stdout=closed), None, 7)


def a_long_reply_reaches_a_slow_reader(program, place):
    """A reply of over 100,000 bytes, which is more than a pipe holds."""
    names = [f"T{i:05}" for i in range(20_000)]
    give(place, "".join(f"type {name} [{name}]\n" for name in names).encode())
    run = start(program, place, ["check", "s"])
    time.sleep(1)
    listed = ",".join(f'"{name}"' for name in names)
    yield from differs(run, f"ok [{listed}]\n".encode(), 0)


def a_long_text_reaches_a_slow_reader(program, place):
    script = b"root\n" * 4000
    give(place, script=script)
    run = start(program, place)
    time.sleep(0.3)
    text, status, _ = plain.run(script)
    yield from differs(run, text.encode(), status)


def sessions(text):
    """The sessions that a document shows: the files that `cat` shows, and each run with its words, output and status."""
    for block in re.findall(r"^```\n(\$ .*?)^```$", text, re.M | re.S):
        files, runs = {}, []
        for step in block.split("$ ")[1:]:
            command, _, shown = step.partition("\n")
            verb, *given = command.split()
            if verb == "cat":
                files[given[0]] = shown
            elif verb.endswith("ild"):
                runs.append([given, shown, 0])
            elif command == "echo $?":
                runs[-1][2] = int(shown)
        yield files, runs


def documents_show_what_comes(program, place):
    top, number = HERE.parents[1], 0
    for document in (top / "README.md", *sorted(top.glob("examples/*/README.md"))):
        for files, runs in sessions(document.read_text()):
            room = place / str(number := number + 1)
            room.mkdir()
            for file in document.parent.iterdir() if document.parent != top else []:
                if file.is_file():
                    (room / file.name).write_bytes(file.read_bytes())
            for name, content in files.items():
                (room / name).write_text(content)
            for given, shown, status in runs:
                for wrong in differs(start(program, room, given), shown.encode(), status):
                    yield f"{document.relative_to(top)}: ild {' '.join(given)}: {wrong}"
    if number < 2:
        yield "the documents show no sessions"


BIG_KEY = "k" * 70_000
LONG_CID = "b" + plain.base64.b32encode(b"\x01\xff\xff\xff\xff\xff\xff\xff\xff\x7f\xff\xff\xff\xff\xff\xff\xff\xff\x7f\x40" + b"\x5a" * 64).decode().lower().rstrip("=")


def big_inputs(program, place):
    """Above the sizes at which a call that always gave memory up could be told from one that works."""
    numbers = ",".join(["4294967295"] * 100_000)
    many = "".join(f"set /key{i} {i}\n" for i in range(1_200))
    for name, schema, script in (
        ("line of over 65,536 bytes", SCHEMA, f"set /{BIG_KEY} 1\nget /{BIG_KEY}\nroot\n"),
        ("map of over 1,000 entries", SCHEMA, many + "get /key7\ndel /key1199\nroot\n"),
        ("JSON of over 1 MB", SCHEMA, f'set /a [{numbers}]\nset /a {{"x":[{numbers}],"y":1.5}}\nset /a [{numbers}\n'),
        ("schema of over 4 MiB", SCHEMA + b"# one more line of a comment, of sixty-four letters in all..\n" * 70_000, "set /a 1\n"),
    ):
        room = place / name
        give(room, schema, script.encode())
        text, status, _ = plain.run(script.encode())
        for wrong in differs(start(program, room), text.encode(), status):
            yield f"{name}: {wrong}"
    room = place / "CID of over 109 letters"
    give(room, script=f'set /a {{"/":"{LONG_CID}"}}\nset /a {{"/":"{LONG_CID}a"}}\n'.encode())
    # A link is no integer, and what is no CID is no link.
    yield from differs(start(program, room), b"no 4 mismatch\nno 3 json\n", 1)
    types = "".join(f"type T{i:05} struct {{ first Int second optional String third nullable T{i:05} }}\n" for i in range(60_000)).encode()
    room = place / "schema of many types"
    give(room, types + b"type End = Nowhere\n")
    for wrong in differs(start(program, room, ["check", "s"]), f"fault 3 schema resolve 2 unknown at {len(types) + 11}\n".encode(), 3):
        yield f"schema of many types: {wrong}"
    for length, text, status in ((4_194_299, b'ok ["S"]\n', 0), (4_194_300, b"fault 3 schema accept 8 implicit at 16\n", 3)):
        room = place / f"implicit text of {length} bytes"
        implicit = "é" + "x" * (length - 2)
        give(room, f'type S struct {{ a String (implicit "{implicit}") }}\n'.encode())
        for wrong in differs(start(program, room, ["check", "s"]), text, status):
            yield f"{room.name}: {wrong}"


TESTS = (
    two_runs_side_by_side,
    a_link_in_the_way_is_not_followed,
    what_a_crash_left_does_no_harm,
    what_stands_under_the_name_of_a_block,
    what_a_folder_under_the_name_of_a_block_holds_stays,
    a_folder_that_may_not_be_written,
    old_parts_are_removed_as_the_document_says,
    a_file_in_place_of_the_folder,
    a_write_that_is_cut_off_leaves_nothing,
    inputs,
    standard_input_is_a_file,
    words,
    a_check_leaves_the_folder,
    standard_output_that_fails,
    a_long_reply_reaches_a_slow_reader,
    a_long_text_reaches_a_slow_reader,
    documents_show_what_comes,
    big_inputs,
)
