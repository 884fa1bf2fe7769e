#!/usr/bin/env python3
"""Runs a program on generated texts and matches what it prints.

usage: compare.py ORACLE PROGRAM KIND SEED COUNT   (the kinds of `oracle gen`, or `points`)
The program reads one text on standard input. Graphs are due from the original, refusals
from the second reading, for `points` as written by hand.
"""

import io
import subprocess
import sys
from concurrent.futures import ThreadPoolExecutor

sys.dont_write_bytecode = True
import reader_points  # noqa: E402
from second_reading import framed, judge, written  # noqa: E402


def texts_of(oracle, kind, seed, count):
    if kind == "points":
        return [text for _, text, _ in reader_points.points()]
    made = subprocess.run([oracle, "gen", kind, seed, count], stdout=subprocess.PIPE, check=True)
    return list(framed(io.BytesIO(made.stdout)))


def due_answers(oracle, texts):
    """A refusal where there is one, else the original's graph."""
    good = [t for t in texts if judge(t) is None]
    data = b"".join(b"%d\n" % len(t) + t for t in good)
    out = subprocess.run([oracle, "graph"], input=data, stdout=subprocess.PIPE, check=True).stdout
    graphs = dict(zip(good, framed(io.BytesIO(out))))
    return [graphs.get(t) or written(t) for t in texts]


def main():
    if len(sys.argv) != 6:
        sys.exit(__doc__)
    _, oracle, program, kind, seed, count = sys.argv
    texts = texts_of(oracle, kind, seed, count)
    due = due_answers(oracle, texts)

    def run(text):
        return subprocess.run([program], input=text, stdout=subprocess.PIPE).stdout

    wrong = refused = 0
    with ThreadPoolExecutor() as pool:
        for text, answer, found in zip(texts, due, pool.map(run, texts)):
            refused += answer.startswith(b"(refused")
            if found != answer:
                wrong += 1
                if wrong <= 5:
                    print(f"{text[:600]!r}\n  due   {answer[:600]!r}\n  found {found[:600]!r}")
    print(f"{kind}: {len(texts)} texts, {refused} of them refused, {wrong} different")
    sys.exit(1 if wrong or not texts else 0)


if __name__ == "__main__":
    main()
