#!/usr/bin/env python3
"""`flowask` where its answers fill the room that there is for them, and where they take one byte more.

  long_answers.py PROGRAM

Node 0 of the listing is an `(any)` of 1,024 lines, every other node falls to the next one: the answers are known without a graph.
The program runs on a stack of 8 MiB, as most systems give it.
"""

import resource
import subprocess
import sys

ROOM, LINES, STACK = 2097152, 1024, 8 << 20


def listing():
    rows = (f"(line {n}\n({'any' if n == 0 else 'plain'})\n)\n" for n in range(LINES))
    return f"(module 0\n{''.join(rows)})\n"


def answer(node):
    """An `any` goes to every line's entry; the last statement falls nowhere."""
    ids = range(LINES) if node == 0 else range(node + 1, min(node + 2, LINES))
    return f"({' '.join(['successors', *map(str, ids)])})\n"


def filling(room):
    """Nodes to ask for, whose answers take so many bytes together."""
    long, short, none = (len(answer(node)) for node in (0, 1, LINES - 1))
    rest = room % long
    empty = next(k for k in range(rest // none + 1) if (rest - none * k) % short == 0)
    return [0] * (room // long) + [1] * ((rest - none * empty) // short) + [LINES - 1] * empty


def run(program, nodes):
    text = listing() + "(questions\n" + "".join(f"(successors {node})\n" for node in nodes) + ")\n"
    stack = lambda: resource.setrlimit(resource.RLIMIT_STACK, (STACK, resource.getrlimit(resource.RLIMIT_STACK)[1]))  # noqa: E731
    return subprocess.run([program], input=text.encode("ascii"), stdout=subprocess.PIPE, check=True, preexec_fn=stack).stdout.decode("ascii")


def main(program):
    full = filling(ROOM)
    due = "".join(map(answer, full))
    assert len(due) == ROOM
    wrong = 0
    for nodes, expected in ((full, due), (filling(ROOM + 1), f"(refused 28 {ROOM})\n")):
        found = run(program, nodes)
        if found != expected:
            wrong += 1
            print(f"{len(nodes)} questions: {len(found)} bytes, {found[:60]!r}; due {len(expected)} bytes, {expected[:60]!r}")
    print(f"answers of {ROOM} bytes and of one more: {wrong} wrong")
    return 1 if wrong else 0


if __name__ == "__main__":
    sys.exit(main(sys.argv[1]))
