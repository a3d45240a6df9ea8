#!/usr/bin/env python3
"""The blocks of the proofs that the tests of ild_inclusion_tests check, from the plain HAMT of trie.py: python3 tests/hamt/proofs.py. What each proof says was worked out by hand from the rules."""
from trie import head, link, node, padded, sha256, string

HASH_ALG = string(3, b"hashAlg") + head(0, 18)
BUCKET_SIZE = string(3, b"bucketSize") + head(0, 3)


def root(block):
    """The root map over a root node."""
    return head(5, 3) + string(3, b"hamt") + block + HASH_ALG + BUCKET_SIZE


def narrow_root(block):
    """The same of a HAMT of three bits a level and one entry a bucket."""
    return head(5, 3) + string(3, b"hamt") + block + HASH_ALG + string(3, b"bucketSize") + head(0, 1)


def one_link(block, size=32):
    """The node, with a map of so many bytes, whose first slot is the link to a block."""
    return head(4, 2) + string(2, b"\x01" + bytes(size - 1)) + head(4, 1) + link(block)


def two_buckets(one, two):
    """The node of three bits a level with an entry in its first slot and another in its third."""
    buckets = [head(4, 1) + head(4, 2) + string(2, key) + value for key, value in (one, two)]
    return head(4, 2) + string(2, b"\x05") + head(4, 2) + b"".join(buckets)


def show(name, block):
    text = "".join("\\x%02x" % b for b in block)
    print(f'pub const {name}: &[u8] =\n    b"{text}";\n')


def main():
    four = {bytes([0, i]): head(0, i) for i in range(1, 5)}
    beneath = []
    top = node(four, padded, 0, beneath)
    show("FOUR", root(top))
    show("FOUR_CHILD", beneath[0])
    outer = {bytes([0, i]): root(top) for i in range(1, 5)}
    under = []
    show("NESTED", root(node(outer, padded, 0, under)))
    show("NESTED_CHILD", under[0])
    texts = dict(four)
    texts[bytes([0, 2])] = string(3, b"x")
    wrong = []
    show("WRONG", root(node(texts, padded, 0, wrong)))
    show("WRONG_CHILD", wrong[0])
    show("TO_LIST", root(one_link(b"\x80")))
    show("TO_LONG_HEAD", root(one_link(b"\x18\x17")))
    show("ABC", root(node({b"abc": head(0, 1)}, sha256, 0, [])))
    last = two_buckets((b"\0", head(0, 1)), (b"\x01", head(0, 2)))
    narrow = one_link(last, 1)
    show("NARROW", narrow_root(one_link(narrow, 1)))
    show("NARROW_CHILD", narrow)
    show("NARROW_LAST", last)
    show("TO_WIDE", narrow_root(one_link(beneath[0], 1)))


main()
