#!/usr/bin/env python3
"""A plain HAMT from its entries (IPLD HashMap, eight bits a level, three entries a bucket), which prints the blocks that the tests of
ild_hamt_tests expect: python3 tests/hamt/trie.py. It is written from the standard and from the block form alone."""
import base64
import hashlib


def head(major, n):
    for extra, size in ((24, 1), (25, 2), (26, 4), (27, 8)):
        if n < 24:
            return bytes([32 * major + n])
        if n < 256**size:
            return bytes([32 * major + extra]) + n.to_bytes(size, "big")
    raise ValueError(n)


def string(major, b):
    return head(major, len(b)) + b


def link(block):
    return b"\xd8\x2a" + string(2, b"\x00\x01\x71\x12\x20" + hashlib.sha256(block).digest())


def node(entries, hashed, depth, blocks):
    """The block of the node of entries (key to spelled value) at a depth; the blocks beneath it are appended to blocks."""
    if depth == 32:
        raise ValueError("exhausted")
    ones, elements = 0, []
    for index in range(256):
        here = {k: v for k, v in entries.items() if hashed(k)[depth] == index}
        if not here:
            continue
        ones |= 1 << index
        if len(here) <= 3:
            elements.append(head(4, len(here)) + b"".join(head(4, 2) + string(2, k) + here[k] for k in sorted(here)))
        else:
            child = node(here, hashed, depth + 1, blocks)
            blocks.append(child)
            elements.append(link(child))
    return head(4, 2) + string(2, ones.to_bytes(32, "little")) + head(4, len(elements)) + b"".join(elements)


def sha256(key):
    return hashlib.sha256(key).digest()


def padded(key):
    return key[:32] + bytes(32 - len(key[:32]))


def cid(block):
    text = base64.b32encode(b"\x01\x71\x12\x20" + hashlib.sha256(block).digest()).decode().lower()
    return "b" + text.rstrip("=")


def pseudo_random(count):
    """Rising keys of eight letters: four that count, and four of a linear congruential generator."""
    entries, state = {}, 1
    for n in range(count):
        state = (state * 1103515245 + 12345) % 2**31
        letters = [(n >> shift) % 16 for shift in (12, 8, 4, 0)] + [(state >> shift) % 16 for shift in (28, 24, 20, 16)]
        entries[bytes(97 + letter for letter in letters)] = head(0, n)
    return entries


def edited(count):
    """What is left of so many edits of keys of six letters a and b: each sets a key to a byte, or removes it where it is there."""
    entries, state = {}, 1
    for _ in range(count):
        state = (state * 1103515245 + 12345) % 2**31
        key = bytes(97 + (state >> shift) % 2 for shift in (21, 20, 19, 18, 17, 16))
        if (state >> 24) % 8 < 5:
            entries[key] = head(0, (state >> 27) % 16)
        else:
            entries.pop(key, None)
    return entries


def show(name, entries, hashed):
    blocks = []
    root = node(entries, hashed, 0, blocks)
    print(name, cid(root), len(blocks), "blocks beneath", root.hex() if len(root) < 200 else f"{len(root)} bytes")
    for block in blocks[:3]:
        print("  ", block.hex())


if __name__ == "__main__":
    show("none", {}, sha256)
    show("abc", {b"abc": b"\x01"}, sha256)
    show("four", {bytes([0, n]): bytes([n]) for n in (1, 2, 3, 4)}, padded)
    show("three", {bytes([0, n]): bytes([n]) for n in (1, 2, 3)}, padded)
    show("two children", {bytes([m, n]): bytes([n]) for m in (1, 2) for n in (1, 2, 3, 4)}, padded)
    for count in (50, 200, 400):
        show(f"{count} edits, padded", edited(count), padded)
        show(f"{count} edits, hashed", edited(count), sha256)
    for count in (100, 1000, 10000):
        show(f"{count} keys", pseudo_random(count), sha256)
