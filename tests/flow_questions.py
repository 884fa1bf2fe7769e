#!/usr/bin/env python3
"""What the program `flowask` is run on in the gate, and what it must write.

  flow_questions.py write FOLDER   stdin and stdout of the program, made anew
  flow_questions.py judge FOLDER   the stored stdout against the original's answers
  flow_questions.py compare PROGRAM KIND SEED COUNT   a run of the program for each of so many fresh listings

Lists, entries, words and frame lists are the original's; the refusals at the end are document 01's, by hand, and so are the frame
lists of long names (document 02, L2).
"""

import os
import re
import subprocess
import sys

HERE = os.path.dirname(os.path.abspath(__file__))
sys.path.insert(0, os.path.join(HERE, "oracle"))
sys.dont_write_bytecode = True
from vectors import ask, falls_together, find_oracle, generated, some  # noqa: E402

SEED, MOST_NODES, MOST_FRAMES = 1983, 60, 600
# The stored listing's first line: its FOR is node 0 and falls to node 1. What is asked of it by long names.
FIRST_LINE = b"(line 0\n(for COUNT static)\n(plain)\n)\n"
LONG_NAMES = [("(frame 0 0 COUNTER 0)", "(frame)"), ("(frame 0 0 COUNTER% 0)", "(frame 1)"), ("(frame 0 0 CO 1)", "(frame)"),
              ("(frame 0 0 C 1)", "(frame 1)"), ("(frame 0 0 CP 0)", "(frame 1)"), ("(frame 0 0 COUNTERS 1)", "(frame)")]


def spaced(word, ids):
    return f"({' '.join([word, *ids])})"


def graph_rows(graph):
    """Questions about nodes, paths and lines, with their answers; paths are answered by their node alone."""
    for node, line, path, succ, pred in re.findall(r"^\(node (\d+) \d+ (\d+) \(([\d ]*)\) \(in[\d ]*\) \(succ([\d ]*)\) \(pred([\d ]*)\)\)$", graph, re.M):
        yield f"(successors {node})", spaced("successors", succ.split())
        yield f"(predecessors {node})", spaced("predecessors", pred.split())
        yield f"(path {line} {path})", node
    for number, node in re.findall(r"^\(entry (\d+) (\d+)\)$", graph, re.M):
        yield f"(entry {number})", f"(entry {node})"


def frame_rows(answers):
    frames = re.findall(r"^\(frame (\d+) (\d+) (\S+) ([01]) \(([\d ]*)\)\)$", answers, re.M)
    for header, node, name, flag, ids in some(frames, MOST_FRAMES):
        yield f"(frame {header} {node} {name} {flag})", spaced("frame", ids.split())


def refused_rows(count, missing, at):
    """Rows that are refused, the first of them row `at` of the questions, and a line number that no line has."""
    rows = [
        (f"(successors {count})", f"(refused 24 {count})"), (f"(statement {count})", f"(refused 24 {count})"),
        (f"(frame {count + 1} {count} I 0)", f"(refused 24 {count + 1})"), (f"(frame {count} {count} i 1)", "(refused 3 0)"),
        ("(frame 9 9 COUNTERSX 0)", "(refused 3 0)"), (f"(frame {count} {count} COUNTERSX% 1)", "(refused 3 0)"),
        (f"(frame {count} {count} COunt 0)", "(refused 3 0)"), (f"(frame {count} {count} COUNTERS% 0)", f"(refused 24 {count})"),
        ("(path 0)", "(refused 26 0)"), ("(path 65535 0)", "(refused 26 0)"), (f"(entry {missing})", "(entry)"),
    ]
    bad = ["(successors)", "(successors 0 1)", "(entries 1)", "(entry x)", "(frame 0 0 I 2)", "(questions", "successors 0", ""]
    rows += [(row, f"(refused 2 {at + len(rows) + k})") for k, row in enumerate(bad)]
    rows += [(row, f"(refused 3 {at + len(rows) + k})") for k, row in enumerate(["(successors 007)", "(path 0 65536)"])]
    return rows + [(f"(path 0{' 0' * 65})", f"(refused 8 {at + len(rows)})")]


def asked(listing, graph, answers):
    """The question rows of one listing, and what is due."""
    numbers = set(re.findall(rb"^\(line (\d+)$", listing, re.M))
    missing = next(n for n in range(65536) if b"%d" % n not in numbers)
    words = dict(re.findall(r"^\(stmt (\d+) (\S+)\)$", answers, re.M))
    rows = [(q, a if a.startswith("(") else f"(statement {a} {words[a]})") for q, a in graph_rows(graph)]
    rows += [(f"(statement {node})", f"(statement {node} {word})") for node, word in words.items()]
    rows += list(frame_rows(answers))
    rows += LONG_NAMES if listing[len(b"(module 0\n"):].startswith(FIRST_LINE) else []
    return rows + refused_rows(len(words), missing, len(rows))


def texts_and_due(oracle, listings):
    graphs = ask(oracle, ["graph"], listings)
    for listing, graph, answers in zip(listings, graphs, ask(oracle, ["frames"], listings), strict=True):
        rows = asked(listing, graph.decode("ascii"), answers.decode("ascii"))
        text = listing + "".join(f"{row}\n" for row in ["(questions", *(q for q, _ in rows), ")"]).encode("ascii")
        yield text, "".join(f"{answer}\n" for _, answer in rows).encode("ascii")


def write(folder):
    oracle = find_oracle() or sys.exit(3)
    listings = [t for t in generated(oracle, "medium", SEED, 100) if 40 <= t.count(b"(") <= MOST_NODES * 2 and falls_together(t)]
    head, rest = max(listings, key=lambda t: t.count(b"(for ")).split(b"\n", 1)
    text, due = next(texts_and_due(oracle, [head + b"\n" + FIRST_LINE + rest]))
    for name, data in (("stdin", text), ("stdout", due)):
        with open(os.path.join(folder, name), "wb") as out:
            out.write(data)
    print(f"{due.count(10)} questions")


def judge(folder):
    with open(os.path.join(folder, "stdin"), "rb") as file:
        text = file.read()
    with open(os.path.join(folder, "stdout"), "rb") as file:
        stored = file.read()
    oracle = find_oracle()
    if not oracle:
        print("the original is not at hand: the stored answers are not asked of it again")
        return 0
    due_text, due = next(texts_and_due(oracle, [text[: text.index(b"(questions\n")]]))
    wrong = sum(a != b for a, b in zip(due.split(b"\n"), stored.split(b"\n")))
    wrong += due_text != text or due.count(10) != stored.count(10)
    print(f"flow questions: {stored.count(10)}, {wrong} wrong")
    return 1 if wrong or not stored else 0


def compare(program, kind, seed, count):
    oracle = find_oracle() or sys.exit(3)
    questions = different = 0
    for text, due in texts_and_due(oracle, generated(oracle, kind, int(seed), int(count))):
        found = subprocess.run([program], input=text, stdout=subprocess.PIPE, check=True).stdout
        questions += due.count(10)
        if found != due:
            different += 1
            print(f"{text[:600]!r}\n  due   {due[:600]!r}\n  found {found[:600]!r}")
    print(f"{kind} {seed}: {count} listings, {questions} questions; {different} listings different")
    return 1 if different or not questions else 0


if __name__ == "__main__":
    match sys.argv[1:]:
        case ["write", folder]:
            write(folder)
        case ["judge", folder]:
            sys.exit(judge(folder))
        case ["compare", program, kind, seed, count]:
            sys.exit(compare(program, kind, seed, count))
        case _:
            sys.exit(__doc__)
