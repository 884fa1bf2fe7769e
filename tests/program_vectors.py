#!/usr/bin/env python3
"""Tables of outside vectors of program files for the proof checker: files with what they mean, by the second reading.

  program_vectors.py make-stored FOLDER      the stored tables, from a fixed seed
  program_vectors.py fresh SEED COUNT FOLDER further tables of so many random files
  program_vectors.py read FILE..             each vector as two framed texts: the file, the listing or the row of its refusal
  program_vectors.py judge FILE..            every stored answer again, by both readings
A folder stands for the tables in it.
"""

import os
import re
import sys
from collections import Counter

HERE = os.path.dirname(os.path.abspath(__file__))
sys.path.insert(0, os.path.join(HERE, "oracle"))
sys.dont_write_bytecode = True
import program_machine  # noqa: E402
import second_program  # noqa: E402
from program_checks import counted, kind_of, limit_cases, random_cases  # noqa: E402
from second_program import written  # noqa: E402
from vectors import quoted, tables, unquoted  # noqa: E402

SEED, PER_TABLE, MOST_BYTES = 6375, 40, 160
# How often each answer stands among 280 random files; 7 and 8 come with the files at the limits, 1, 5 and 6 need long ones.
SHARES = {"graph": 140, "33": 35, "34": 30, "35": 60, "4": 15}

# The one place where a table's frame is written down.
TABLE = """\
-- {comment}. Assumes nothing.
use Rattle.std.specs.Prelude.{{List, [], ◌∷◌, T}}
use Rattle.program_vectors.specs.Vector.{{Vector, right, opened}}

table : List Vector
table =
{rows}    []

right-table : T (right table)
unfolding opened right table
right-table = tt
"""
ROW = re.compile(r'    record \{ saved = "([0-9A-F]*)"; means = "((?:[^"\\]|\\.)*)" \} ∷$')


def row(data, meant):
    return f'    record {{ saved = "{data.hex().upper()}"; means = {quoted(meant)} }} ∷\n'


def write_tables(folder, name, comment, cases):
    os.makedirs(folder, exist_ok=True)
    for start in range(0, len(cases), PER_TABLE):
        part = cases[start:start + PER_TABLE]
        path = os.path.join(folder, f"{name}{start // PER_TABLE + 1}.antt")
        with open(path, "w", encoding="utf-8") as out:
            out.write(TABLE.format(comment=comment, rows="".join(row(case.data, case.meant) for case in part)))
        print(f"{os.path.basename(path)}: {len(part)} files, {sum(len(case.data) for case in part)} bytes")


def read_table(path):
    """The (file, answer) pairs of a table file."""
    with open(path, encoding="utf-8") as table:
        for line in table:
            if line.startswith("    record {"):
                found = ROW.match(line.rstrip("\n"))
                if not found:
                    raise SystemExit(f"{path}: a row that is no vector: {line[:80]}")
                yield bytes.fromhex(found[1]), unquoted(found[2])


def chosen(seed, count):
    """Random files, each answer with its share, none twice."""
    left = Counter({answer: -(-share * count // sum(SHARES.values())) for answer, share in SHARES.items()})
    found = {}
    for case in random_cases(seed, 60 * count):
        answer = kind_of(case.meant)
        if len(found) < count and left[answer] > 0 and len(case.data) <= MOST_BYTES and case.data not in found:
            left[answer] -= 1
            found[case.data] = case
    if len(found) < count:
        raise SystemExit(f"only {len(found)} of {count} files")
    return list(found.values())


COMMENT = "Random saved programs with the listings that they mean or their refusals, by a second reading of document 02"


def make_stored(folder):
    write_tables(folder, "Files", COMMENT, chosen(SEED, sum(SHARES.values())))
    limits = {case.data: case for case in limit_cases() if len(case.data) <= MOST_BYTES}
    write_tables(folder, "Limits", "Saved programs beside a limit, with their answers by hand", list(limits.values()))


def fresh(seed, count, folder):
    write_tables(folder, "Files", COMMENT, chosen(int(seed), int(count)))


def read(paths):
    for path in tables(paths):
        for pair in read_table(path):
            for part in pair:
                sys.stdout.buffer.write(b"%d\n" % len(part) + part)


def judge(paths):
    vectors = [(path, *pair) for path in tables(paths) for pair in read_table(path)]
    wrong = [v for v in vectors if {written(reading.program(v[1])) for reading in (second_program, program_machine)} != {v[2]}]
    for path, data, stored in wrong[:9]:
        print(f"{path}: {data.hex(' ')}\n  stored {stored!r}\n  found  {written(second_program.program(data))!r}")
    print(f"program vectors: {len(vectors)} files, by answer {counted(answer for _, _, answer in vectors)}; {len(wrong)} different")
    if not vectors:
        raise SystemExit("no vectors found")
    return 1 if wrong else 0


if __name__ == "__main__":
    match sys.argv[1:]:
        case ["make-stored", folder]:
            make_stored(folder)
        case ["fresh", seed, count, folder]:
            fresh(seed, count, folder)
        case ["read", *paths] if paths:
            read(paths)
        case ["judge", *paths] if paths:
            sys.exit(judge(paths))
        case _:
            sys.exit(__doc__)
