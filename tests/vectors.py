#!/usr/bin/env python3
"""Tables of outside vectors: texts with what the port must write.

Graphs are the original's (tests/oracle), refusals those of the second reading.

  vectors.py make-stored FOLDER               the stored tables, from fixed seeds
  vectors.py fresh SEED LISTINGS DAMAGED DIR  further tables
  vectors.py read FILE..                      each vector as two framed texts
  vectors.py judge FILE..                     answers every stored text again and compares
A folder stands for the tables in it.
"""

import io
import os
import random
import re
import subprocess
import sys

HERE = os.path.dirname(os.path.abspath(__file__))
sys.path.insert(0, os.path.join(HERE, "oracle"))
sys.dont_write_bytecode = True
import reader_points  # noqa: E402
from second_reading import framed, judge, written  # noqa: E402

SEED = 6375
PER_TABLE = 60
# The checker computes every vector, so they are kept small.
MOST_NODES, MOST_BYTES, MOST_DAMAGED_BYTES = 12, 400, 600
# Listings with questions, and how many frame lists of each.
ASKED_LISTINGS, MOST_FRAMES = 60, 40
# Of so many listings to choose from one has two names that are one once they are cut.
TOGETHER = 3
# How often each refusal stands among 240 damaged texts; 1, 5 and 6 need long texts.
SHARES = {2: 120, 3: 50, 4: 30, 7: 15, 8: 25}

# The one place where a table's frame is written down. Bytes other than printable ASCII and
# byte 10 cannot stand in a string, so such texts are lists of numbers, in tables of their own.
TABLE = """\
-- {comment}. Assumes nothing.
use Rattle.std.specs.Prelude.{{List, [], ◌∷◌, true, false, T}}
use Rattle.vectors.specs.Vector.{{{vector}, {right}, opened{more}}}

table : List {vector}
table =
{rows}    []

right-table : T ({right} table)
unfolding opened {right} table
right-table = tt
"""
STRINGS = {"vector": "Vector", "right": "right", "more": ""}
BYTES = {"vector": "BytesVector", "right": "right_bytes", "more": ""}
ASKS = {"vector": "AskVector", "right": "right_asks", "more": ", word, frame"}

ROW = re.compile(r'    record \{ text = (.*); writes = "((?:[^"\\]|\\.)*)" \} ∷$')


def printable(text):
    return all(b == 10 or 32 <= b <= 126 for b in text)


def quoted(text):
    body = text.decode("ascii").replace("\\", "\\\\").replace('"', '\\"').replace("\n", "\\n")
    return f'"{body}"'


def unquoted(body):
    plain = re.sub(r"\\(.)", lambda m: "\n" if m[1] == "n" else m[1], body)
    return plain.encode("ascii")


def row(text, answer):
    if printable(text):
        shown = quoted(text)
    else:
        shown = " ∷ ".join([str(b) for b in text] + ["[]"])
    return f"    record {{ text = {shown}; writes = {quoted(answer)} }} ∷\n"


def write_tables(folder, name, comment, vectors):
    """One file for every sixty vectors; texts with odd bytes apart."""
    os.makedirs(folder, exist_ok=True)
    strings = [v for v in vectors if printable(v[0])]
    numbers = [v for v in vectors if not printable(v[0])]
    for suffix, kind, part in (("", STRINGS, strings), ("Bytes", BYTES, numbers)):
        for start in range(0, len(part), PER_TABLE):
            rows = "".join(row(*v) for v in part[start:start + PER_TABLE])
            path = os.path.join(folder, f"{name}{suffix}{start // PER_TABLE + 1}.antt")
            with open(path, "w", encoding="utf-8") as out:
                out.write(TABLE.format(comment=comment, rows=rows, **kind))
            print(f"{os.path.basename(path)}: {len(part[start:start + PER_TABLE])} vectors")


def some(rows, most):
    """At most so many of the rows, in their order. By chance: a fixed step can meet one name alone."""
    chosen = random.Random(len(rows)).sample(range(len(rows)), min(most, len(rows)))
    return [rows[at] for at in sorted(chosen)]


def ask_rows(answers, most):
    """The questions of one listing: every opening word, and at most so many frame lists, spread over all of them."""
    words = re.findall(r"^\(stmt (\d+) (\S+)\)$", answers, re.M)
    frames = re.findall(r"^\(frame (\d+) (\d+) (\S+) ([01]) \(([\d ]*)\)\)$", answers, re.M)
    if len(words) + len(frames) != answers.count("\n"):
        raise SystemExit(f"an answer that is no question's: {answers[:200]!r}")
    for node, word in words:
        yield f'word {node} "{word}"'
    for header, node, name, flag, ids in some(frames, most):
        listed = " ∷ ".join(ids.split() + ["[]"])
        yield f'frame {header} {node} "{name}" {("false", "true")[int(flag)]} ({listed})'


def write_asks(folder, name, oracle, texts):
    rows = ""
    for text, answers in zip(texts, ask(oracle, ["frames"], texts)):
        asks = " ∷ ".join([*ask_rows(answers.decode("ascii"), MOST_FRAMES), "[]"])
        rows += f"    record {{ text = {quoted(text)}; asks = {asks} }} ∷\n"
    path = os.path.join(folder, f"{name}1.antt")
    with open(path, "w", encoding="utf-8") as out:
        out.write(TABLE.format(comment="Random listings with the original's opening words and frame lists", rows=rows, **ASKS))
    print(f"{os.path.basename(path)}: {len(texts)} listings, {rows.count(' frame ')} frame lists")


def read_table(path):
    """The (text, writes) pairs of a table file."""
    with open(path, encoding="utf-8") as table:
        for line in table:
            if not line.startswith("    record {") or "; asks = " in line:
                continue
            found = ROW.match(line.rstrip("\n"))
            if not found:
                raise SystemExit(f"{path}: a row that is no vector: {line[:80]}")
            text, answer = found.groups()
            if text.startswith('"'):
                yield unquoted(text[1:-1]), unquoted(answer)
            else:
                yield bytes(int(n) for n in text.split(" ∷ ")[:-1]), unquoted(answer)


def read_asks(path):
    """The (text, questions) pairs of a table file."""
    with open(path, encoding="utf-8") as table:
        for line in table:
            if "; asks = " in line:
                text, asks = line.strip()[len('record { text = "'):-len(" } ∷")].split('"; asks = ')
                yield unquoted(text), re.findall(r'(?:word \d+ "\w+"|frame [^()]*\([^()]*\))', asks)


def judge_asks(oracle, paths):
    """How many stored questions the original answers otherwise, of how many."""
    stored = [pair for path in tables(paths) for pair in read_asks(path)]
    wrong = 0
    for (text, asks), answers in zip(stored, ask(oracle, ["frames"], [text for text, _ in stored])):
        found = set(ask_rows(answers.decode("ascii"), 10**9))
        for row in asks:
            if row not in found:
                wrong += 1
                print(f"{text!r}\n  stored {row}")
    return wrong, sum(len(asks) for _, asks in stored)


def tables(paths):
    for path in paths:
        if os.path.isdir(path):
            names = sorted(n for n in os.listdir(path) if n.endswith(".antt"))
            yield from (os.path.join(path, n) for n in names)
        else:
            yield path


def find_oracle():
    """The built oracle, or None with the reason printed."""
    built = subprocess.run([os.path.join(HERE, "oracle", "build")], capture_output=True, text=True)
    if built.returncode == 0:
        return built.stdout.strip()
    if built.returncode != 3:
        raise SystemExit(built.stderr or "the oracle was not built")
    print(f"the original cannot be asked: {built.stderr.strip()}")
    return None


def ask(oracle, command, texts):
    data = b"".join(b"%d\n" % len(t) + t for t in texts)
    out = subprocess.run([oracle, *command], input=data, stdout=subprocess.PIPE, check=True).stdout
    return list(framed(io.BytesIO(out)))


def generated(oracle, kind, seed, count):
    return ask(oracle, ["gen", kind, str(seed), str(count)], [])


def listings(oracle, texts, count):
    """Small listings with the original's graphs, none twice."""
    texts = list(dict.fromkeys(t for t in texts if len(t) <= MOST_BYTES))
    chosen = []
    for text, graph in zip(texts, ask(oracle, ["graph"], texts)):
        nodes = int(graph.split(b"\n", 1)[0].split()[2])
        if nodes <= MOST_NODES and len(chosen) < count:
            chosen.append((text, graph))
    return chosen


def falls_together(text):
    """Has the listing two names that are one once they are cut?"""
    names = set(re.findall(rb"(?<= )([A-Z][A-Z0-9]?)([A-Z0-9]*)([%$]?)(?=[ )])", text))
    return len({(two, kind) for two, _, kind in names}) < len(names)


def mixed(texts):
    """The same texts, with those whose names fall together at fixed places, as long as there are any."""
    together = [text for text in texts if falls_together(text)]
    others = [text for text in texts if not falls_together(text)]
    while together and others:
        yield together.pop(0)
        yield from others[:TOGETHER - 1]
        del others[:TOGETHER - 1]
    yield from together + others


def damaged(texts, count):
    """Refused texts, each refusal with its share, none twice."""
    left = {n: -(-share * count // 240) for n, share in SHARES.items()}
    chosen = []
    for text in dict.fromkeys(texts):
        found = judge(text)
        if found is None or len(text) > MOST_DAMAGED_BYTES or len(chosen) == count:
            continue
        if left.get(found[0], 0) > 0:
            left[found[0]] -= 1
            chosen.append((text, written(text)))
    return chosen


def enough(vectors, count, what):
    if len(vectors) != count:
        raise SystemExit(f"only {len(vectors)} of {count} {what}")
    return vectors


def random_tables(oracle, seed, n_listings, n_damaged, folder):
    texts = generated(oracle, "small", seed, 3 * n_listings + 100)
    chosen = enough(listings(oracle, mixed(texts), n_listings), n_listings, "listings")
    comment = "Random listings with the original's graphs"
    write_tables(folder, "Listings", comment, chosen)
    print(f"names fall together in {sum(falls_together(text) for text, _ in chosen)} of {len(chosen)} listings")
    write_asks(folder, "Frames", oracle, [text for text, _ in chosen[:ASKED_LISTINGS]])
    texts = generated(oracle, "damaged", seed, 60 * n_damaged + 2000)
    chosen = enough(damaged(texts, n_damaged), n_damaged, "damaged texts")
    comment = "Damaged texts with the refusals of a second reading of document 01"
    write_tables(folder, "Damaged", comment, chosen)


def hand_written(oracle):
    """The short reader points: refusals as written by hand, graphs for the rest."""
    for _, text, answer in reader_points.points():
        if len(text) <= MOST_DAMAGED_BYTES:
            if answer is None:
                yield text, ask(oracle, ["graph"], [text])[0]
            else:
                yield text, b"(refused %d %d)\n" % answer


def make_stored(folder):
    oracle = find_oracle() or sys.exit(3)
    random_tables(oracle, SEED, 240, 240, folder)
    texts = generated(oracle, "directed", 0, 0)
    cases = list(zip(texts, ask(oracle, ["graph"], texts)))
    write_tables(folder, "Directed", "Directed listings with the original's graphs", cases)
    points = list(dict(hand_written(oracle)).items())
    write_tables(folder, "Points", "Reader rows with their answers by hand", points)


def fresh(seed, n_listings, n_damaged, folder):
    oracle = find_oracle() or sys.exit(3)
    random_tables(oracle, int(seed), int(n_listings), int(n_damaged), folder)


def read(paths):
    for path in tables(paths):
        for pair in read_table(path):
            for part in pair:
                sys.stdout.buffer.write(b"%d\n" % len(part) + part)


def judge_tables(paths):
    vectors = [(path, *pair) for path in tables(paths) for pair in read_table(path)]
    refusals = [(p, t, a, written(t)) for p, t, a in vectors if judge(t)]
    accepted = [v for v in vectors if not judge(v[1])]
    oracle = find_oracle() if accepted else None
    compared = list(refusals)
    if oracle:
        graphs = ask(oracle, ["graph"], [t for _, t, _ in accepted])
        compared += [(p, t, a, g) for (p, t, a), g in zip(accepted, graphs)]
    else:
        # Without the original, this much can still be seen: such a text must have a graph.
        compared += [(p, t, a, b"a graph") for p, t, a in accepted if not a.startswith(b"(graph")]
    wrong = [c for c in compared if c[2] != c[3]]
    for path, text, stored, found in wrong:
        print(f"{path}: {text!r}\n  stored {stored!r}\n  found  {found!r}")
    graphs = f"{len(accepted)} graphs" if oracle else f"{len(accepted)} graphs NOT compared"
    print(f"vectors: {len(refusals)} refusals, {graphs}, {len(wrong)} different")
    other, asks = judge_asks(oracle, paths) if oracle else (0, "no")
    print(f"questions: {asks} compared, {other} different")
    if not vectors:
        raise SystemExit("no vectors found")
    return 1 if wrong or other else 0


def main():
    match sys.argv[1:]:
        case ["make-stored", folder]:
            make_stored(folder)
        case ["fresh", seed, n_listings, n_damaged, folder]:
            fresh(seed, n_listings, n_damaged, folder)
        case ["read", *paths] if paths:
            read(paths)
        case ["judge", *paths] if paths:
            sys.exit(judge_tables(paths))
        case _:
            sys.exit(__doc__)


if __name__ == "__main__":
    main()
