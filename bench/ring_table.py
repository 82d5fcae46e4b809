#!/usr/bin/env python3
"""The table of crates/nm_tests/src/ring.rt: which heads and curs a ring of 2, 3 or 4 slots accepts.

Worked out by walking round the ring slot by slot, with no arithmetic of distances. Each row has the
size, the accepted head, the tail, the number of user slots, and one letter for each head and, within
it, each cur, both from 0 to the size: '.' accepted, 'h' head refused, 'c' cur refused.
"""


def walk(size, start, end):
    """The positions from start to end, both included, going round."""
    at, passed = start, [start]
    while at != end:
        at = 0 if at == size - 1 else at + 1
        passed.append(at)
    return passed


def answer(size, accepted, tail, head, cur):
    if head not in walk(size, accepted, tail):
        return "h"
    if cur not in walk(size, head, tail):
        return "c"
    return "."


for size in (2, 3, 4):
    for accepted in range(size):
        for tail in range(size):
            user = len(walk(size, accepted, tail)) - 1
            letters = "".join(
                answer(size, accepted, tail, head, cur)
                for head in range(size + 1)
                for cur in range(size + 1)
            )
            print(f'    ({size}, {accepted}, {tail}, {user}, b"{letters}"),')
