#!/usr/bin/env python3
"""Writes the files that crates/compare_cases is run on, with the line that each is to give."""

import pathlib
import struct

from pcd import LOWERING, NIL, PARALLEL, PREFIX, RAISING, RENAMING, RESTRICTION, SUM, Reader

CRATE = pathlib.Path(__file__).parent.parent / "crates" / "compare_cases"


def node(kind, code=0, left=0, right=0, first=0, second=0):
    return struct.pack(">BHHHQQ", kind, code, left, right, first, second)


def file(first, second):
    return b"PCD" + struct.pack(">H", 1) + b"".join(struct.pack(">H", len(d)) + b"".join(d) for d in (first, second))


def read(text):
    return Reader(text).whole()


NOTHING = [node(NIL)]
ONE = read("i_.0")


def expressions(first, second):
    return file(read(first), read(second))


def chain(start, step, length):
    """A chain of operators, each over the node before it."""
    nodes = list(start)
    while len(nodes) < length:
        nodes.append(step(len(nodes) - 1))
    return nodes


def wide(summands):
    """A sum of so many prefixes."""
    nodes = [node(NIL), node(PREFIX, code=4, left=0)]
    for _ in range(summands - 1):
        nodes.append(node(SUM, left=len(nodes) - 1, right=1))
    return nodes


def prefixes(count):
    return chain([node(NIL)], lambda i: node(PREFIX, code=4, left=i), count + 1)


FOUR = read("a.0 + b_.0 + c'.0 + 4_.0")
EVERY = (1 << 61) - 2
CASES = {
    # worked examples
    "inner": (expressions("a.0 + i_.0", "i_.0"), "equal 2 4"),
    "visible": (expressions("a.0 + b_.0", "b_.0"), "different 2 1"),
    "restricted": (expressions("(a.0 + b_.0)\\{b_}", "(b_.0)\\{b_}"), "different 2 1"),
    "synchronised": (expressions("(a_.0 | a_'.0)\\{a_}", "i_.0"), "equal 2 4"),
    "raised": (expressions("(a.0 + i_.0)^{a}", "i_.0"), "equal 2 4"),
    "raised-patient": (expressions("(a.0)^{a}", "a_.0"), "equal 2 2"),
    "lowered": (expressions("(a_.0 + i_.0)~{a}", "a_.0 + i_.0"), "equal 2 6"),
    "lowered-patient": (expressions("(a_.0)~{a}", "a.0"), "equal 2 2"),
    "branching": (expressions("a.(b.0 + c.0)", "a.b.0 + a.c.0"), "different 3 2"),
    "renamed": (expressions("(a.0)[b/a]", "b.0"), "equal 2 2"),
    "renamed-other-class": (expressions("(a_.0)[b/a]", "a_.0"), "equal 2 2"),
    "raised-co-name": (expressions("(a'.0)^{a'}", "a'_.0"), "equal 2 2"),
    "raised-name-only": (expressions("(a'.0)^{a}", "a'.0"), "equal 2 2"),
    "word-by-class": (expressions("(a.0)\\{a_}", "a.0"), "equal 2 2"),
    "co-name-dropped": (expressions("(a'.0)\\{a}", "0"), "equal 1 2"),
    "classes-apart": (expressions("(a.0 | a_'.0)\\{a, a_}", "0"), "equal 1 4"),
    # the file's questions
    "empty": (b"", "refused 28 0 0"),
    "short-mark": (b"PC", "refused 28 0 0"),
    "other-mark": (b"PCE" + file(NOTHING, NOTHING)[3:], "refused 28 0 0"),
    "long-other-mark": (b"QCD" + bytes(20000), "refused 28 0 0"),
    "short-version": (b"PCD\0", "refused 29 0 0"),
    "other-version": (b"PCD\0\2" + file(NOTHING, NOTHING)[5:], "refused 29 0 0"),
    "version-low-byte-first": (b"PCD\1\0" + file(NOTHING, NOTHING)[5:], "refused 29 0 0"),
    "no-counts": (b"PCD\0\1", "refused 30 0 0"),
    "one-byte-short": (file(ONE, ONE)[:-1], "refused 30 0 0"),
    "one-byte-long": (file(ONE, ONE) + b"\0", "refused 30 0 0"),
    "longest": (file(NOTHING * 256, NOTHING * 256), "equal 1 1"),
    "too-long": (file(NOTHING * 256, NOTHING * 257), "refused 30 0 0"),
    # the nodes' questions
    "no-nodes": (file([], ONE), "refused 5 1 0"),
    "no-nodes-second": (file(ONE, []), "refused 5 2 0"),
    "nodes-257": (file(NOTHING * 257, ONE), "refused 5 1 0"),
    "nodes-300": (file(NOTHING * 200, NOTHING * 300), "refused 5 2 0"),
    "nodes-512": (file(NOTHING * 512, []), "refused 5 1 0"),
    "other-kind": (file(ONE + [node(8)], ONE), "refused 6 1 2"),
    "own-child": (file([node(NIL), node(PREFIX, code=4, left=1)], ONE), "refused 7 1 1"),
    "right-child": (file([node(NIL), node(SUM, left=0, right=1)], ONE), "refused 7 1 1"),
    "child-before-code": (file([node(PREFIX, code=2, left=0)], ONE), "refused 7 1 0"),
    "code-3": (file([node(NIL), node(PREFIX, code=3, left=0)], ONE), "refused 8 1 1"),
    "code-243": (file([node(NIL), node(PREFIX, code=243, left=0)], [node(NIL), node(PREFIX, code=243, left=0)]), "equal 2 2"),
    "code-244": (file([node(NIL), node(PREFIX, code=244, left=0)], ONE), "refused 8 1 1"),
    "bit-0": (file([node(NIL), node(RESTRICTION, left=0, first=1)], ONE), "refused 8 1 1"),
    "bit-61": (file([node(NIL), node(RAISING, left=0, second=1 << 61)], ONE), "refused 8 1 1"),
    "class-2": (file([node(NIL), node(RENAMING, code=2, left=0, first=1, second=2)], ONE), "refused 8 1 1"),
    "channel-61": (file([node(NIL), node(RENAMING, code=0, left=0, first=61, second=2)], ONE), "refused 8 1 1"),
    "unused-fields": (file([node(NIL, code=2, left=9, right=9, first=1, second=1)], NOTHING), "equal 1 1"),
    "second-node": (file(ONE, [node(NIL), node(9), node(NIL)]), "refused 6 2 1"),
    "first-design-first": (file([node(9)], [node(NIL), node(8)]), "refused 6 1 0"),
    "unreached-outsize": (file(prefixes(39)[:33] + [node(PARALLEL, left=32, right=31), node(NIL)], NOTHING), "equal 1 1"),
    "outsize": (file(prefixes(32) + [node(PARALLEL, left=32, right=31)], ONE), "refused 9 1 33"),
    "outsize-second": (file(ONE, prefixes(32) + [node(PARALLEL, left=32, right=31)]), "refused 9 2 33"),
    "parallel-1024": (file(prefixes(31) + [node(PARALLEL, left=31, right=31)], NOTHING), "different 2 1"),
    "too-wide": (file(wide(64)[:-1] + [node(SUM, left=63, right=1), node(PARALLEL, left=64, right=63)], ONE), "refused 9 1 65"),
    "cells-16384": (file(prefixes(127), prefixes(127)), "equal 128 128"),
    "few-cells": (file(prefixes(127), prefixes(128)), "refused 11 0 0"),
    # hard to work out if a node is asked twice
    "restrictions": (file(chain(FOUR, lambda i: node(RESTRICTION, left=i, first=1 << 9), 256), FOUR), "equal 2 23"),
    "raisings": (file(chain(FOUR, lambda i: node(RAISING, left=i, first=EVERY), 256), FOUR), "different 2 1"),
    "lowerings": (file(chain(FOUR, lambda i: node(LOWERING, left=i, second=EVERY), 256), FOUR), "equal 2 23"),
    "parallels": (file(chain(NOTHING, lambda i: node(PARALLEL, left=i, right=i), 256), NOTHING), "equal 1 1"),
    "mixed": (file(chain(FOUR, lambda i: node(PARALLEL, left=i, right=0) if i % 2 else node(RAISING, left=i, first=EVERY), 256), NOTHING), "different 2 1"),
    "wide": (file(wide(255), wide(2)), "equal 2 2037"),
}


def main():
    data = CRATE / "data"
    data.mkdir(exist_ok=True)
    for old in data.iterdir():
        old.unlink()
    for name, (content, _) in CASES.items():
        (data / name).write_bytes(content)
    (CRATE / "args").write_text("".join(f"{name}\n" for name in CASES))
    (CRATE / "stdout").write_text("".join(f"{name} {line}\n" for name, (_, line) in CASES.items()))


if __name__ == "__main__":
    main()
