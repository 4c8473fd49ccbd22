#!/usr/bin/env python3
"""Turns two written expressions into a file of two designs, for the program `compare`.

    tools/pcd.py 'a.0 + i_.0' 'i_.0' > two.pcd

docs/expressions.md has the grammar. The file is not checked here: `compare` does that."""

import struct
import sys

NIL, PREFIX, SUM, PARALLEL, RESTRICTION, RENAMING, RAISING, LOWERING = range(8)
NAMES = "abcdefghjklmnopqrstuvwxyz"  # i is the inner action


class Malformed(Exception):
    pass


class Reader:
    """Reads one expression and lists its nodes, children first."""

    def __init__(self, text):
        self.text = text
        self.place = 0
        self.nodes = []

    def peek(self):
        while self.place < len(self.text) and self.text[self.place].isspace():
            self.place += 1
        return self.text[self.place] if self.place < len(self.text) else ""

    def take(self, what):
        if self.peek() != what:
            raise Malformed(f"expected {what!r} at {self.place} of {self.text!r}")
        self.place += 1

    def accept(self, what):
        if self.peek() == what:
            self.place += 1
            return True
        return False

    def node(self, kind, code=0, left=0, right=0, first=0, second=0):
        self.nodes.append(struct.pack(">BHHHQQ", kind, code, left, right, first, second))
        return len(self.nodes) - 1

    def whole(self):
        self.sum()
        if self.peek():
            raise Malformed(f"unexpected {self.peek()!r} at {self.place} of {self.text!r}")
        return self.nodes

    def sum(self):
        left = self.parallel()
        while self.accept("+"):
            left = self.node(SUM, left=left, right=self.parallel())
        return left

    def parallel(self):
        left = self.prefix()
        while self.accept("|"):
            left = self.node(PARALLEL, left=left, right=self.prefix())
        return left

    def prefix(self):
        if self.peek() in "(0":
            return self.postfix()
        code = self.action()
        self.take(".")
        return self.node(PREFIX, code=code, left=self.prefix())

    def postfix(self):
        below = self.primary()
        while True:
            if self.accept("\\"):
                first, second = self.channels(by_class=True)
                below = self.node(RESTRICTION, left=below, first=first, second=second)
            elif self.accept("^"):
                first, second = self.channels(by_class=False)
                below = self.node(RAISING, left=below, first=first, second=second)
            elif self.accept("~"):
                first, second = self.channels(by_class=False)
                below = self.node(LOWERING, left=below, first=first, second=second)
            elif self.accept("["):
                to, upper = self.channel(), self.accept("_")
                self.take("/")
                origin, lower = self.channel(), self.accept("_")
                self.take("]")
                if upper != lower:
                    raise Malformed("both channels of a renaming are of one class")
                below = self.node(RENAMING, code=int(upper), left=below, first=origin, second=to)
            else:
                return below

    def primary(self):
        if self.accept("("):
            inner = self.sum()
            self.take(")")
            return inner
        self.take("0")
        return self.node(NIL)

    def channel(self):
        mark = self.peek()
        if mark and mark in NAMES:
            self.place += 1
            return ord(mark) - ord("a") + 1
        digits = ""
        while self.peek().isdigit():
            digits += self.peek()
            self.place += 1
        if not digits:
            raise Malformed(f"expected a channel at {self.place} of {self.text!r}")
        return int(digits)

    def marks(self):
        """A quote for a co-name and an underscore for a prioritised action, in either order."""
        co_name = prioritised = False
        while self.peek() and self.peek() in "'_":
            co_name = co_name or self.peek() == "'"
            prioritised = prioritised or self.peek() == "_"
            self.place += 1
        return co_name, prioritised

    def action(self):
        if self.accept("i"):
            return int(self.accept("_"))
        channel = self.channel()
        co_name, prioritised = self.marks()
        return 4 * channel + 2 * co_name + prioritised

    def channels(self, by_class):
        """Two words of channels, chosen by class for a restriction and by polarity for raising and lowering."""
        self.take("{")
        words = [0, 0]
        while not self.accept("}"):
            channel = self.channel()
            co_name, prioritised = self.marks()
            words[prioritised if by_class else co_name] |= 1 << channel
            self.accept(",")
        return words


def pcd(expressions):
    parts = [b"PCD", struct.pack(">H", 1)]
    for text in expressions:
        nodes = Reader(text).whole()
        parts += [struct.pack(">H", len(nodes)), *nodes]
    return b"".join(parts)


def main():
    if len(sys.argv) != 3:
        sys.exit("usage: pcd.py EXPRESSION EXPRESSION > FILE")
    try:
        sys.stdout.buffer.write(pcd(sys.argv[1:]))
    except (Malformed, struct.error) as fault:
        sys.exit(f"pcd.py: {fault}")


if __name__ == "__main__":
    main()
