#!/usr/bin/env python3
"""Checks of the harness itself: corners, stand-ins, generators, damage.

usage: self_check.py ORACLE
"""

import collections
import io
import re
import subprocess
import sys

sys.dont_write_bytecode = True
from second_reading import framed, holders, judge  # noqa: E402

# The corners of document 01, and document 02's long names and holders, as the directed list has them first: lists, and further rows.
CORNERS = [
    ("C1", "", ["(graph 0 0", "(returns)"]),
    ("C2", "[]", ["(entry 10 0)", "(entry 20 0)"]),
    ("C3", "[1] [2] [1]", []),
    ("C4 exit", "[] []", []),
    ("C4 until", "[] []", []),
    ("C4 endloop", "[] []", []),
    ("C4 else", "[] []", []),
    ("C4 exitif", "[1] []", []),
    ("C4 done", "[1] []", []),
    ("C5", "[1] [3] [1 3] []", []),
    ("C6", "[1] [2 3] [1] []", []),
    ("C7", "[1 3] [2] [5] [4] [5] []", []),
    ("C8", "[1] [2] [3] [4] []", []),
    ("C9", "[1] [1 2] [3] [4 1] []", []),
    ("C10", "[1 2] [5] [5] [4] [] [3 4]", ["(returns 4 3)", "(back 1 4)", "(back 2 3)"]),
    ("C10 H 1", "[1 2] [5] [5] [4] [] [4 3]", ["(returns 4 3)"]),
    ("C11", "[0]", ["(returns)"]),
    ("C12", "[3] [2] [] [2 4] [1]", ["(returns 1)", "(back 0 1)"]),
    ("L2 COUNT COUNTER (stop)", "[1] [1 2] []", []),
    ("L2 COUNT COUNTER", "[1] [1]", []),
    ("L2 COUNT COUNTER%", "[1] [2] []", []),
    ("L2 COUNT% CO%", "[1] [1 2] []", []),
    ("L2 AB% AC%", "[1] [2] []", []),
    ("L2 A AB", "[1] [2] []", []),
    ("L2 A1B2 A2B2", "[1] [2] []", []),
    ("L2 COUNTERS$ CO1$", "[1] [1 2] []", []),
    ("L2 as C8", "[1] [2] [3] [4] []", []),
    ("L2 as C9", "[1] [1 2] [3] [4 1] []", []),
    ("L5 nested", "[1] [2 3] [] []", []),
    ("L5 doif", "[1] [2] []", []),
    ("L5 second branch", "[0 1] []", []),
    ("L5 jumps", "[0] []", []),
    ("L5 two lines", "[1 2] [2] [3 5] [4] [5] []", []),
    ("L5 loops", "[1] [2 5] [3] [4] [7] [4 6] [3 7] []", []),
    ("L5 after an IF", "[1 5] [2] [3 4] [4] [5] []", []),
    ("L5 of three words", "[1 5] [2 0] [3 4] [] [] [6] []", []),
    ("L5 two digits", "[1] [2] [3] [4] [5] [6] [7] [8] [9] [10] [11] []", []),
]
# What holds each of their nodes, by hand; in a corner that is not here, nothing holds any.
HELD = {
    "C10": "- 0 0 0 - -", "C10 H 1": "- 0 0 0 - -", "L5 nested": "- 0 1 1", "L5 second branch": "- 0", "L5 two lines": "- 0 - 2 2 -",
    "L5 loops": "- - 1 1 1 1 1 -", "L5 after an IF": "- 0 0 2 0 -", "L5 of three words": "- 0 1 2 0 0 5",
    "L5 two digits": "- - - - - - - - - - - 10",
}
# How often a row of that opening word stands in the graph.
COUNTS = {"C2": ("(entry ", 2), "C11": ("(back ", 0), "C12": ("(entry ", 3)}


class Harness:
    def __init__(self, oracle):
        self.oracle = oracle

    def run(self, *command, data=b""):
        done = subprocess.run([self.oracle, *map(str, command)], input=data, stdout=subprocess.PIPE)
        if done.returncode != 0:
            sys.exit(f"oracle {' '.join(map(str, command))} failed")
        return done.stdout

    def texts(self, *command, data=b""):
        return list(framed(io.BytesIO(self.run(*command, data=data))))


def due(condition, message):
    if not condition:
        sys.exit(f"WRONG: {message}")


def corners(harness):
    graphs = harness.texts("graph", data=harness.run("gen", "directed", 0, 0))
    for (name, lists, rows), graph in zip(CORNERS, graphs):
        graph = graph.decode()
        found = " ".join(f"[{ids.strip()}]" for ids in re.findall(r"\(succ([^)]*)\)", graph))
        due(found == lists, f"{name}: {found}")
        due(all(row in graph.split("\n") for row in rows), f"{name}: {graph}")
        word, count = COUNTS.get(name, ("(graph ", 1))
        due(graph.count(word) == count, f"{name}: {graph}")
        held = held_in(graph)
        shown = " ".join("-" if id is None else str(id) for id in held)
        due(shown == HELD.get(name, " ".join("-" * len(held))), f"{name}: held by {shown}")
    print(f"corners: {len(CORNERS)} as documents 01 and 02 have them")


def held_in(graph):
    """The holders in a printed graph, by node; every node row has one or none."""
    found = re.findall(r"^\(node [0-9]+ [0-9]+ [0-9]+ \([0-9 ]+\) \(in(?: ([0-9]+))?\) \(succ", graph, re.M)
    due(len(found) == graph.count("(node "), f"node rows of another form: {graph[:300]}")
    return [int(id) if id else None for id in found]


def holder_paths(harness):
    """The oracle finds holders by the original's paths, the second reading by the listing's brackets."""
    nodes, held = 0, collections.Counter()
    for kind, number in (("directed", 0), ("small", 20000), ("medium", 300), ("limit", 40)):
        data = harness.run("gen", kind, 5, number)
        for text, graph in zip(framed(io.BytesIO(data)), harness.texts("graph", data=data), strict=True):
            if graph.startswith(b"(graph"):
                found, second = held_in(graph.decode()), holders(text)
                due(found == second, f"{kind}: held by {found}, by brackets {second}: {text[:300]!r}")
                nodes += len(found)
                held.update((kind, depth(found, id)) for id in range(len(found)))
    for kind in ("directed", "small"):
        due(all(held[kind, n] for n in range(4)), f"{kind}: no node in so many IFs: {held}")
    print(f"holders: {nodes} nodes, {sum(n for (_, deep), n in held.items() if deep)} of them held; paths and brackets give the same")


def depth(found, id):
    """How many hold this node, one in the other; each stands before what it holds."""
    count = 0
    while found[id] is not None:
        due(found[id] < id, f"holder {found[id]} of {id}")
        id, count = found[id], count + 1
    return count


def frame_names(harness):
    """A frame question's name is cut, that of the listing too."""
    listing = b"(module 0\n(line 10\n(for COUNT static)\n(plain)\n)\n)\n"
    rows = harness.texts("frames", data=b"%d\n" % len(listing) + listing)[0].decode().split("\n")
    for row in ("(frame 0 0 COUNT 0 ())", "(frame 0 0 CO 0 ())", "(frame 0 0 COABCDEF 1 ())", "(frame 0 0 COUNT% 0 (1))"):
        due(row in rows, f"{row} is not among {rows}")
    print("frame questions: cut names, and one of another kind")


def stand_ins(harness):
    """Which original statement stands for a word changes no answer."""
    count = 0
    for kind, number in (("directed", 0), ("small", 3000), ("medium", 30)):
        data = harness.run("gen", kind, 5, number)
        commands = ["graph"] if kind == "medium" else ["graph", "frames"]
        for command in commands:
            first = harness.run(command, data=data)
            for salt in range(1, 6):
                due(harness.run(command, "--salt", salt, data=data) == first, f"{kind}: salt {salt}")
                count += len(list(framed(io.BytesIO(data))))
    print(f"stand-ins: {count} listings answered the same with other statements")


def generators(harness):
    """Valid kinds are accepted, and the oracle reads them back as they are (`stats` asserts it)."""
    for kind, number in (("directed", 0), ("small", 20000), ("medium", 300), ("limit", 40)):
        data = harness.run("gen", kind, 1, number)
        due(data == harness.run("gen", kind, 1, number), f"{kind} hangs on more than its seed")
        texts = list(framed(io.BytesIO(data)))
        refused = [t for t in texts if judge(t)]
        due(not refused, f"{kind}: refused {refused[:1]}")
        if kind in ("directed", "small"):
            coverage(harness.run("stats", data=data).decode(), kind)
        print(f"generator {kind}: {len(texts)} listings, all accepted")


def coverage(stats, kind):
    """A kind that misses a word or a sort of list cannot test it."""
    counts = {what: int(n) for n, what in (row.split(None, 1) for row in stats.splitlines())}
    words = [what for what in counts if what.startswith("word ")]
    due(len(words) == 24, f"{kind}: {len(words)} of 24 statement words")
    for what in ("listings with H 0", "listings with H 1", "lines empty", "branches to",
                 "branches empty", "targets missed", "listings with edges by orphan NEXT",
                 "listings with H 0, longest RETURN list of two or more",
                 "listings with H 1, longest RETURN list of two or more",
                 "listings with a list that is not ascending", "listings with two names of one cut",
                 "listings with another graph if names were not cut"):
        due(counts.get(what, 0) > 0, f"{kind}: no {what}")


def damage(harness):
    """Every refusal occurs, and the oracle reads exactly what the second reading accepts."""
    data = harness.run("gen", "damaged", 1, 40000)
    texts = list(framed(io.BytesIO(data)))
    seen = collections.Counter()
    for text, graph in zip(texts, harness.texts("graph", data=data)):
        found = judge(text)
        seen[found[0] if found else "accepted"] += 1
        due((found is not None) == graph.startswith(b"(unread"), f"read or refused: {text[:300]!r}")
    due(all(seen[n] for n in range(1, 9)), f"not every refusal occurs: {seen}")
    parts = ", ".join(f"{n}: {seen[n]}" for n in [*range(1, 9), "accepted"])
    print(f"generator damaged: {len(texts)} texts, by refusal {parts}")


def collisions(harness):
    rows = harness.run("collisions").decode().splitlines()
    shown = harness.texts("graph", data=harness.run("gen", "collide", 0, 0))
    due(all(b"(node 1 10 0 (1) (in) (succ 1 2)" in g for g in shown), "a known pair does not collide")
    print(f"colliding names in the original: {' '.join(rows)}")


def main():
    if len(sys.argv) != 2:
        sys.exit(__doc__)
    harness = Harness(sys.argv[1])
    for part in (corners, holder_paths, frame_names, stand_ins, generators, damage, collisions):
        part(harness)


if __name__ == "__main__":
    main()
