#!/usr/bin/env python3
"""Cases of `heads`: sessions over named heads, side by side and one after another; lines, roots and words that are refused.

    python3 tests/conformance/heads_cases.py FOLDER      writes the cases there; `run` writes them anew, beside the project's own cases

What is due on each line stands behind it, by hand, and the lines at the end behind all; the CIDs are worked out from the values that they name.
"""
import pathlib
import sys

sys.dont_write_bytecode = True
import new_cases
import values
from new_cases import HAMT, NO_WORDS

MAP = "type N {String:Int}\n"


def block_of(data):
    return values.spelled(data)


def cid_of(data):
    return values.cid_text(block_of(data))


E, X, Y, Z = ({}, {"a": 1}, {"b": 2}, {"a": 1, "b": 2})
LINKED = values.answer(b"type A {String:&Int}\n", "A", b'{"a":{"/":"%s"}}' % new_cases.LEAF.encode())[0].rstrip("\n")
HASHED = values.answer(HAMT.encode(), "H", b'{"abc":1}')

# Lines, each with what is due on it, or None where that is nothing; then the lines at the end, and the data whose blocks are there before.
SESSIONS = {
    "of-two": (
        MAP, "N",
        [
            ("head h -", "ok null"), ("1 begin h", "1 ok null"), ("2 begin h", "2 ok null"), ("1 set /a 1", f"1 root {cid_of(X)}"), ("2 set /b 2", f"2 root {cid_of(Y)}"),
            ("1 commit", f"1 root {cid_of(X)}"), ("2 commit", f"2 no 17 moved {cid_of(X)}"), ("2 replay", "2 ok null"), ("2 commit", f"2 root {cid_of(Z)}"),
        ],
        [f"head h {cid_of(Z)}"], [], 1,
    ),
    "none-open": (
        MAP, "N",
        [
            ("1 commit", "1 no 19 session"), ("1 begin g", "1 no 18 head"), ("head g -", "ok null"), ("head g -", "no 18 head"), ("1 begin g", "1 ok null"), ("1 begin g", "1 no 19 session"),
            ("1 begin", "no 1 line"),
        ],
        [f"head g {cid_of(E)}"], [], 1,
    ),
    "nothing": (MAP, "N", [], [], [], 0),
    "blank-lines": (MAP, "N", [("", None), ("", None), ("head h -", "ok null"), ("", None)], [f"head h {cid_of(E)}"], [], 0),
    "root": (
        MAP, "N",
        [(f"head h {cid_of(Z)}", "ok null"), ("7 begin h", "7 ok null"), ("7 get /b", "7 ok 2"), ("7 walk .", '7 ok [["a",1],["b",2]]'), ("7 del /a", f"7 root {cid_of(Y)}"), ("7 commit", f"7 root {cid_of(Y)}")],
        [f"head h {cid_of(Y)}"], [Z], 0,
    ),
    "root-again": (MAP, "N", [(f"head h {cid_of(X)}", "ok null"), (f"head h {cid_of(Z)}", "no 18 head"), (f"head i {cid_of(Z)}", "ok null")], [f"head h {cid_of(X)}", f"head i {cid_of(Z)}"], [X, Z], 1),
    "abort": (
        MAP, "N",
        [
            ("head h -", "ok null"), ("1 begin h", "1 ok null"), ("1 set /a 1", f"1 root {cid_of(X)}"), ("1 abort", "1 ok null"), ("1 root", "1 no 19 session"), ("1 abort", "1 no 19 session"),
            ("1 replay", "1 no 19 session"), ("1 begin h", "1 ok null"), ("1 root", f"1 root {cid_of(E)}"),
        ],
        [f"head h {cid_of(E)}"], [], 1,
    ),
    "left-open": (MAP, "N", [("head h -", "ok null"), ("1 begin h", "1 ok null"), ("1 set /a 1", f"1 root {cid_of(X)}")], [f"head h {cid_of(E)}"], [], 0),
    "replay-without-need": (
        MAP, "N",
        [("head h -", "ok null"), ("1 begin h", "1 ok null"), ("1 replay", "1 ok null"), ("1 set /a 1", f"1 root {cid_of(X)}"), ("1 replay", "1 ok null"), ("1 root", f"1 root {cid_of(X)}"), ("1 commit", f"1 root {cid_of(X)}")],
        [f"head h {cid_of(X)}"], [], 0,
    ),
    "replay-of-a-line-refused-then": (
        MAP, "N",
        [
            (f"head h {cid_of(Z)}", "ok null"), ("1 begin h", "1 ok null"), ("2 begin h", "2 ok null"), ("1 del /a", f"1 root {cid_of(Y)}"), ("2 del /a", f"2 root {cid_of(Y)}"), ("2 get /b", "2 ok 2"),
            ("1 commit", f"1 root {cid_of(Y)}"), ("2 commit", f"2 no 17 moved {cid_of(Y)}"), ("2 commit", f"2 no 17 moved {cid_of(Y)}"), ("2 replay", "2 ok null"), ("2 root", f"2 root {cid_of(Y)}"), ("2 commit", f"2 root {cid_of(Y)}"),
        ],
        [f"head h {cid_of(Y)}"], [Z], 1,
    ),
    "moved-and-back": (
        MAP, "N",
        [
            ("head h -", "ok null"), ("1 begin h", "1 ok null"), ("2 begin h", "2 ok null"), ("1 set /a 1", f"1 root {cid_of(X)}"), ("1 commit", f"1 root {cid_of(X)}"), ("2 commit", f"2 no 17 moved {cid_of(X)}"),
            ("1 begin h", "1 ok null"), ("1 del /a", f"1 root {cid_of(E)}"), ("1 commit", f"1 root {cid_of(E)}"), ("2 set /b 2", f"2 root {cid_of(Y)}"), ("2 commit", f"2 root {cid_of(Y)}"),
        ],
        [f"head h {cid_of(Y)}"], [], 1,
    ),
    "of-heads-apart": (
        MAP, "N",
        [
            ("head h -", "ok null"), ("head g -", "ok null"), ("1 begin h", "1 ok null"), ("2 begin g", "2 ok null"), ("1 set /a 1", f"1 root {cid_of(X)}"), ("2 set /b 2", f"2 root {cid_of(Y)}"), ("1 commit", f"1 root {cid_of(X)}"),
            ("2 commit", f"2 root {cid_of(Y)}"),
        ],
        [f"head g {cid_of(Y)}", f"head h {cid_of(X)}"], [], 0,
    ),
    "numbers": (
        MAP, "N",
        [("0 root", "0 no 19 session"), ("10 root", "10 no 19 session"), ("head h -", "ok null"), ("0 begin h", "0 ok null"), ("999 begin h", "999 ok null"), ("99 root", "99 no 19 session"), ("999 root", f"999 root {cid_of(E)}")],
        [f"head h {cid_of(E)}"], [], 1,
    ),
    "names": (
        MAP, "N",
        [
            ("head \N{LATIN SMALL LETTER E WITH ACUTE} -", "ok null"), ("head ~0 -", "ok null"), ("head a~2b -", "ok null"), ("head - -", "ok null"), ("head head -", "ok null"), ("head ~3~1 -", "ok null"), ("1 begin a~2b", "1 ok null"),
            ("2 begin -", "2 ok null"), ("3 begin a", "3 no 18 head"),
        ],
        [f"head {name} {cid_of(E)}" for name in ("~3~1", "-", "a~2b", "head", "~0", "\N{LATIN SMALL LETTER E WITH ACUTE}")], [], 1,
    ),
    "refused-edits": (
        MAP, "N",
        [
            ("head h -", "ok null"), ("1 begin h", "1 ok null"), ('1 set /a "x"', "1 no 4 mismatch"), ("1 set /a 1.5", "1 no 3 json"), ("1 get /a", "1 no 2 path"), ("1 set /a 1", f"1 root {cid_of(X)}"), ("1 del /b", "1 no 2 path"),
            ("1 commit", f"1 root {cid_of(X)}"),
        ],
        [f"head h {cid_of(X)}"], [], 1,
    ),
    "lists": ("type L [Int]\n", "L", [("head h -", "ok null"), ("1 begin h", "1 ok null"), ("1 ins /- 5", f"1 root {cid_of([5])}"), ("1 commit", f"1 root {cid_of([5])}")], [f"head h {cid_of([5])}"], [], 0),
    "scalar": ("type A int\n", "A", [("head h -", "no 4 mismatch"), (f"head h {cid_of(1)}", "ok null"), ("1 begin h", "1 ok null"), ("1 get .", "1 ok 1")], [f"head h {cid_of(1)}"], [1], 1),
    "links-stay-unread": ("type A {String:&Int}\n", "A", [("head h -", "ok null"), ("1 begin h", "1 ok null"), ('1 set /a {"/":"%s"}' % new_cases.LEAF, "1 " + LINKED), ("1 get /a/x", "1 no 2 path"), ("1 commit", "1 " + LINKED)], ["head h " + LINKED.split()[1]], [], 1),
    "hamt": (
        HAMT, "H",
        [("head h -", "ok null"), ("1 begin h", "1 ok null"), ("1 set /abc 1", "1 " + HASHED[0].rstrip("\n")), ("1 len .", "1 ok 1"), ("1 commit", "1 " + HASHED[0].rstrip("\n"))],
        ["head h " + HASHED[0].split()[1]], [], 0,
    ),
}

NO_LINES = [
    "head", "head ", "head h", "head h ", "head  -", "head a/b -", "head /a -", "head a~ -", "head a~9 -", "head h -x", "head h - ", "head h bafy", f"head h {cid_of(X)} ", f"head h {cid_of(X)[:-1]}", "Head h -", "heads h -", "begin h",
    "set /a 1", "get .", "root", "commit", "01 root", "00 root", "1000 root", "-1 root", "+1 root", "x root", "1", "1 ", "1  root", " 1 root", "1 begin", "1 begin ", "1 begin a b", "1 begin a/b", "1 begin ~", "1 commit ", "1 commit x", "1 Commit",
    "1 replay ", "1 abort x", "1 set /a", "1 head h -", "1 1 root", "1\troot", "1 root\r", "1 commit\r", " ", "\r",
]


def script_of(lines):
    return "".join(line + "\n" for line, _ in lines)


def write_script(folder, name, source, ty, script, due, data, status, must=()):
    held = [(cid_of(each), block_of(each)) for each in data]
    text = "".join(line + "\n" for line in due)
    new_cases.write(f"heads-{name}", ["heads", "s", ty, "x"], {"s": source, "x": script}, text, status, must, held, folder=folder)


def sessions(folder):
    for name, (source, ty, lines, ends, data, status) in SESSIONS.items():
        due = [reply for _, reply in lines if reply is not None] + ends
        write_script(folder, name, source, ty, script_of(lines), due, data, status)
        if lines:
            write_script(folder, f"{name}-without-the-last-line-feed", source, ty, script_of(lines)[:-1], due, data, status)
    for name in ("of-two", "of-heads-apart"):
        source, ty, lines, ends, data, status = SESSIONS[name]
        due = [reply for _, reply in lines] + ends
        blocks = [block_of(each) for each in ((E, X, Y, Z) if name == "of-two" else (E, X, Y))]
        write_script(folder, f"{name}-blocks", source, ty, script_of(lines), due, data, status, blocks)


def no_lines(folder):
    end = f"head h {cid_of(E)}"
    for place, line in enumerate(NO_LINES, 1):
        write_script(folder, f"line-{place}", MAP, "N", f"head h -\n{line}\n", ["ok null", "no 1 line", end], [X], 1)
    write_script(folder, "line-no-utf8", MAP, "N", b"head h -\nhead \xff -\n1 begin \xff\n", ["ok null", "no 1 line", "no 1 line", end], [], 1)
    both = "".join(f"{line}\n" for line in NO_LINES)
    write_script(folder, "lines-in-a-session", MAP, "N", f"head h -\n1 begin h\n{both}1 root\n", ["ok null", "1 ok null"] + ["no 1 line"] * len(NO_LINES) + [f"1 root {cid_of(E)}", end], [X], 1)


def no_roots(folder):
    """Roots under which no value of the type stands, as far as they can be told."""
    for name, (source, ty, spelling) in {
        "other-type": (MAP, "N", values.spelled("x")), "other-value": (MAP, "N", values.spelled({"a": "x"})), "longer-head": ("type A int\n", "A", b"\x18\x01"), "empty-block": (MAP, "N", b""),
    }.items():
        root = values.cid_text(spelling)
        lines = f"head h {root}\n1 begin h\n"
        new_cases.write(f"heads-root-{name}", ["heads", "s", ty, "x"], {"s": source, "x": lines}, "no 11 block\n1 no 18 head\n", 1, (), [(root, spelling)], folder=folder)
    write_script(folder, "root-missing", MAP, "N", f"head h {cid_of(X)}\nhead h -\n", ["no 11 block", "ok null", f"head h {cid_of(E)}"], [], 1)
    write_script(folder, "root-missing-of-a-head-that-is", MAP, "N", f"head h -\nhead h {cid_of(X)}\n", ["ok null", "no 11 block", f"head h {cid_of(E)}"], [], 1)


def before_scripts(folder):
    good = "head h -\n"
    for name, (source, ty, script, told) in {
        "type-that-is-none": (MAP, "M", good, NO_WORDS), "type-before-the-script": (MAP, "M", None, NO_WORDS), "schema-absent": (None, "N", good, ("fault 5 input schema absent\n", 5)),
        "schema-at-fault": ("type A float\n", "A", None, ("fault 3 schema resolve 3 float at 7\n", 3)), "script-absent": (MAP, "N", None, ("fault 5 input script absent\n", 5)),
        "script-long": (MAP, "N", "\n" * 16_777_217, ("fault 5 input script long\n", 5)), "type-of-the-prelude": ("", "Map", good, (f"ok null\nhead h {cid_of(E)}\n", 0)),
    }.items():
        inputs = {role: text for role, text in (("s", source), ("x", script)) if text is not None}
        new_cases.write(f"heads-{name}", ["heads", "s", ty, "x"], inputs, *told, folder=folder)
    words = {"a-word-less": ["heads", "s", "N"], "a-word-more": ["heads", "s", "N", "x", "x"], "a-start": ["heads", "s", "N", "-", "x"], "upper-case": ["Heads", "s", "N", "x"], "head": ["head", "s", "N", "x"]}
    new_cases.write_words("heads-", words, {"s": MAP, "x": good}, folder)


def write_all(folder):
    new_cases.write_parts(folder, sessions, no_lines, no_roots, before_scripts)


if __name__ == "__main__":
    if len(sys.argv) != 2:
        sys.exit(__doc__)
    write_all(pathlib.Path(sys.argv[1]).resolve())
