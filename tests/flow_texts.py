#!/usr/bin/env python3
"""What the program `flowlists` is run on in the gate, and what it must write.

  flow_texts.py write FOLDER   stdin and stdout of the program, made anew
  flow_texts.py judge FOLDER   the stored stdout against the original and the second reading
  flow_texts.py compare PROGRAM KIND SEED COUNT   a run of the program on fresh texts against both

Graphs are the original's, refusals the second reading's. The stored texts: the reader points, the directed
listings, and small, medium and damaged texts of a fixed seed.
"""

import io
import os
import subprocess
import sys
from collections import Counter

HERE = os.path.dirname(os.path.abspath(__file__))
sys.path.insert(0, os.path.join(HERE, "oracle"))
sys.dont_write_bytecode = True
import reader_points  # noqa: E402
from compare import due_answers  # noqa: E402
from second_reading import framed, judge, written  # noqa: E402
from vectors import find_oracle, generated  # noqa: E402

SEED = 1983


def frame(texts):
    return b"".join(b"%d\n" % len(text) + text for text in texts)


def write(folder):
    oracle = find_oracle() or sys.exit(3)
    texts = [text for _, text, _ in reader_points.points()]
    texts += generated(oracle, "directed", SEED, 1) + generated(oracle, "small", SEED, 1500)
    texts += generated(oracle, "damaged", SEED, 1000) + generated(oracle, "medium", SEED, 10)
    texts = [text for text in texts if len(text) < 2000 or judge(text) is None and len(text) < 20000]
    with open(os.path.join(folder, "stdin"), "wb") as out:
        out.write(frame(texts))
    with open(os.path.join(folder, "stdout"), "wb") as out:
        out.write(frame(due_answers(oracle, texts)))
    print(f"{len(texts)} texts")


def stored(folder, name):
    with open(os.path.join(folder, name), "rb") as file:
        return list(framed(io.BytesIO(file.read())))


def check(folder):
    texts, answers = stored(folder, "stdin"), stored(folder, "stdout")
    oracle = find_oracle()
    if oracle:
        due = due_answers(oracle, texts)
    else:
        print("the original is not at hand: the stored graphs are not asked of it again")
        due = [answer if judge(text) is None else written(text) for text, answer in zip(texts, answers, strict=True)]
    wrong = sum(a != b for a, b in zip(due, answers, strict=True))
    graphs = sum(answer.startswith(b"(graph") for answer in answers)
    print(f"flow texts: {len(texts)}, {graphs} of them graphs, {wrong} wrong")
    return 1 if wrong or not graphs else 0


def compare(program, kind, seed, count):
    oracle = find_oracle() or sys.exit(3)
    texts = generated(oracle, kind, int(seed), int(count))
    out = subprocess.run([program], input=frame(texts), stdout=subprocess.PIPE, check=True).stdout
    due = due_answers(oracle, texts)
    found = list(framed(io.BytesIO(out)))
    wrong = [(t, a, b) for t, a, b in zip(texts, due, found, strict=True) if a != b]
    for text, right, answer in wrong[:5]:
        print(f"{text[:600]!r}\n  due   {right[:600]!r}\n  found {answer[:600]!r}")
    numbers = Counter(int(answer.split()[1]) for answer in due if answer.startswith(b"(refused"))
    shown = ", ".join(f"{n}: {c}" for n, c in sorted(numbers.items())) or "none"
    print(f"{kind} {seed}: {len(texts)} texts, refused {shown}; {len(wrong)} different")
    return 1 if wrong or not texts else 0


if __name__ == "__main__":
    match sys.argv[1:]:
        case ["write", folder]:
            write(folder)
        case ["judge", folder]:
            sys.exit(check(folder))
        case ["compare", program, kind, seed, count]:
            sys.exit(compare(program, kind, seed, count))
        case _:
            sys.exit(__doc__)
