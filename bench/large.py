#!/usr/bin/env python3
"""Writes a large legal strategy to standard output.

    large.py KIND COPIES

KIND is one of these:

- adversary: the game 2 3 4, with 4 * COPIES + 1 nodes: COPIES copies of each node but the root of the strategy of five
  nodes in examples/adversary-2-3-4.txt, where a reference names any copy of the node that it named there. Which copy
  that is goes by a simple rule: for the reference in node i it is copy (7919 * i) mod COPIES, and the root leads to the
  node before it. With one copy it is that strategy itself.
- algorithm: the game 2 2 3, made in the same way of examples/algorithm-2-2-3.txt.
- items: the game 8 120 240 of the algorithm, with COPIES nodes of 800 items each and the root.
"""

import sys


def adversary(copies):
    """The lines of the strategy of the adversary, in their order."""

    def copy(node):
        return node * 7919 % copies

    yield "game 2 3 4"
    yield "side adversary"
    yield f"nodes {4 * copies + 1}"
    for i in range(copies):
        yield f"{i} loads 2 2 items 1 1 2 send 2 pack 1 2 / 1 2 on 2 over"
    for i in range(copies, 2 * copies):
        yield f"{i} loads 2 0 items 1 1 send 2 pack 1 2 / 1 on 2 over on 0 to {copy(i)}"
    for i in range(2 * copies, 3 * copies):
        yield f"{i} loads 1 1 items 1 1 send 3 pack 3 / 1 1 on 1 over"
    for i in range(3 * copies, 4 * copies):
        yield (
            f"{i} loads 1 0 items 1 send 1 pack 1 1 / -"
            f" on 1 to {copies + copy(i)} on 0 to {2 * copies + copy(i)}"
        )
    root = 4 * copies
    yield f"{root} loads 0 0 items - send 1 pack 1 / - on 0 to {root - 1}"


def algorithm(copies):
    """The lines of the strategy of the algorithm, in their order."""

    def copy(node):
        return node * 7919 % copies

    yield "game 2 2 3"
    yield "side algorithm"
    yield f"nodes {4 * copies + 1}"
    for i in range(copies):
        yield f"{i} loads 2 0 items 1 1 finish"
    for i in range(copies, 2 * copies):
        yield f"{i} loads 2 1 items 1 2 finish"
    for i in range(2 * copies, 3 * copies):
        yield f"{i} loads 1 0 items 1 reply 1 on 1 to {copy(i)} 2 on 0 to {copies + copy(i)}"
    for i in range(3 * copies, 4 * copies):
        yield f"{i} loads 2 0 items 2 finish"
    root = 4 * copies
    yield (
        f"{root} loads 0 0 items - reply"
        f" 1 on 0 to {2 * copies + copy(root)} 2 on 0 to {root - 1}"
    )


def items(copies):
    """The lines of a strategy of the algorithm with many items a node, in their order."""
    yield "game 8 120 240"
    yield "side algorithm"
    yield f"nodes {copies + 1}"
    loads = " ".join(["100"] * 8)
    ones = " ".join(["1"] * 800)
    for i in range(copies):
        yield f"{i} loads {loads} items {ones} finish"
    yield f"{copies} loads 0 0 0 0 0 0 0 0 items - finish"


KINDS = {"adversary": adversary, "algorithm": algorithm, "items": items}


def lines(kind, copies):
    """All lines of the strategy, without their line feeds."""
    yield "stretch 1"
    yield from KINDS[kind](copies)
    yield "end"


def main():
    kind, copies = sys.argv[1], int(sys.argv[2])
    if copies < 1:
        sys.exit("COPIES is at least 1")
    for line in lines(kind, copies):
        sys.stdout.write(line + "\n")


if __name__ == "__main__":
    main()
