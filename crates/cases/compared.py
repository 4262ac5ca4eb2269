#!/usr/bin/env python3
"""Writes data/compared.bin: the calls that document 01 lists under "Run and compared", in the layout that src/case.rt describes."""
import os
import struct

EIGHT = 8


def record(kind, *fields):
    return (kind, *fields, *(0,) * (7 - len(fields)))


class Book:
    """Records, each put after those that it points at."""

    def __init__(self):
        self.records = []

    def put(self, kind, *fields):
        self.records.append(record(kind, *fields))
        return len(self.records) - 1

    def links(self, targets):
        """A run of links; its first is 0 when it is empty."""
        return [self.put(3, t) for t in targets][0] if targets else 0

    def compound(self, kind, symbol, arguments):
        first = self.links(arguments)
        return self.put(kind, symbol, len(arguments), first)

    def question(self, clauses, goal):
        first = self.links(clauses)
        self.put(10, first, len(clauses), goal)
        return b"".join(struct.pack("<8H", *r) for r in self.records)


def endless(variables):
    """`p :- p` with that many variables; question `p`."""
    b = Book()
    clause = b.put(8, variables, 0, 0, b.put(4, 1), 1, b.put(4, 1))
    return b.question([clause], b.put(4, 1))


def nested(depth):
    """The ground atom of eight arguments whose first nests `depth` terms of eight arguments through their first, as a fact and as the question."""
    b = Book()

    def atom():
        first = b.put(2, 1)
        for _ in range(depth):
            first = b.compound(2, 2, [first] + [b.put(2, 1) for _ in range(EIGHT - 1)])
        return b.compound(4, 3, [first] + [b.put(2, 1) for _ in range(EIGHT - 1)])

    fact = b.put(8, 0, 0, 0, atom())
    return b.question([fact], atom())


def case(book, budget, kind, a, b, c=0, d=0):
    return struct.pack("<10I", len(book), 64, budget, 4096, kind, a, b, c, d, 0) + book


CASES = [
    case(endless(0), 1025, 1, 3, 0, 0, 1024),
    case(endless(0), 1024, 1, 2, 0, 0, 1024),
    case(endless(64), 1000000, 1, 4, 0, 0, 65),
    # a goal, an entry, 8 pairs of the atoms and 8 of each of the 35 terms, an answer
    case(nested(35), 1000000, 1, 0, 1, 0, 291),
    # a goal, an entry, the pairs of the atoms' and 34 terms' first arguments; the next unit meets the limit and is not counted
    case(nested(36), 1000000, 1, 5, 0, 0, 37),
    case(struct.pack("<8H", *record(10)), 1000000, 0, 4, 0),
]

with open(os.path.join(os.path.dirname(os.path.abspath(__file__)), "data", "compared.bin"), "wb") as f:
    f.write(b"".join(CASES))
