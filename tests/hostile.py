#!/usr/bin/env python3
"""Damaged and random texts at full speed through the library; every answer against the second reading.

usage: hostile.py SEED COUNT [--valgrind]
With --valgrind the library runs under valgrind, and any fault that it sees fails the run; the original is then not compared.
FLOWGRAPH_ARCHIVE names another archive than crates/flowgraph/out/libflowgraph.a.
"""

import os
import subprocess
import sys
from collections import Counter

HERE = os.path.dirname(os.path.abspath(__file__))
sys.path.insert(0, os.path.join(HERE, "oracle"))
sys.dont_write_bytecode = True
from second_reading import judge  # noqa: E402

RUST = os.path.join(HERE, "..", "rust")
PROGRAM = os.path.join(HERE, "..", "target", "cargo", "release", "examples", "hostile")
VALGRIND = ["valgrind", "--quiet", "--error-exitcode=9", "--main-stacksize=8388608"]


def answers(command):
    """Each text with the row that the program wrote for it."""
    with subprocess.Popen(command, stdout=subprocess.PIPE) as run:
        while count := run.stdout.readline():
            text = run.stdout.read(int(count))
            yield text, run.stdout.readline()
    if run.returncode != 0:
        sys.exit(f"{' '.join(command)}: status {run.returncode}")


def right(text, row):
    """Too many edges (23) are judged where the original is at hand: the text is accepted."""
    found = judge(text)
    if found is None:
        return row == b"accepted\n" or row.startswith(b"(refused 23 ")
    return row == b"(refused %d %d)\n" % found


def main():
    seed, count, *more = sys.argv[1:] if len(sys.argv) > 2 else sys.exit(__doc__)
    subprocess.run(["cargo", "build", "--quiet", "--offline", "--locked", "--release", "--example", "hostile"], cwd=RUST, check=True)
    command = [PROGRAM, seed, count]
    if more == ["--valgrind"]:
        command = VALGRIND + command + ["alone"]
    elif more:
        sys.exit(__doc__)
    texts = wrong = 0
    seen = Counter()
    for text, row in answers(command):
        texts += 1
        seen[row.split()[1].decode() if row.startswith(b"(") else "accepted"] += 1
        if not right(text, row):
            wrong += 1
            if wrong <= 5:
                print(f"{text[:600]!r}\n  due   {judge(text)}\n  found {row!r}")
    shown = ", ".join(f"{n}: {seen[n]}" for n in sorted(seen, key=lambda n: (len(n), n)))
    print(f"hostile {seed}{' under valgrind' if more else ''}: {texts} texts, by answer {shown}; {wrong} different")
    return 1 if wrong or texts != int(count) else 0


if __name__ == "__main__":
    sys.exit(main())
