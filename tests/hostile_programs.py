#!/usr/bin/env python3
"""Random and damaged saved programs through the library; every answer against both readings.

usage: hostile_programs.py SEED COUNT [--valgrind]
With --valgrind the library runs under valgrind, and any fault that it sees fails the run.
FLOWGRAPH_ARCHIVE names another archive than crates/flowgraph/out/libflowgraph.a.
"""

import os
import subprocess
import sys
import tempfile

HERE = os.path.dirname(os.path.abspath(__file__))
sys.path.insert(0, os.path.join(HERE, "oracle"))
sys.dont_write_bytecode = True
from hostile import RUST, VALGRIND  # noqa: E402
from program_checks import counted, is_refusal, random_cases  # noqa: E402

PROGRAM = os.path.join(HERE, "..", "target", "cargo", "release", "examples", "saved")


def main():
    seed, count, *more = sys.argv[1:] if len(sys.argv) > 2 else sys.exit(__doc__)
    if more not in ([], ["--valgrind"]):
        sys.exit(__doc__)
    subprocess.run(["cargo", "build", "--quiet", "--offline", "--locked", "--release", "--example", "saved"], cwd=RUST, check=True)
    cases = list(random_cases(int(seed), int(count)))
    with tempfile.TemporaryFile() as files:
        for case in cases:
            files.write(b"%d\n" % len(case.data) + case.data)
        files.seek(0)
        run = subprocess.run((VALGRIND if more else []) + [PROGRAM], stdin=files, stdout=subprocess.PIPE, check=True)
    rows = run.stdout.splitlines(keepends=True)
    wrong = 0
    for case, row in zip(cases, rows, strict=True):
        # Too many edges (23) are judged where the original is at hand: the file is accepted.
        due = case.meant if is_refusal(case.meant) else b"accepted\n"
        if row != due and not (due == b"accepted\n" and row.startswith(b"(refused 23 ")):
            wrong += 1
            if wrong <= 5:
                print(f"{case.what}: {case.data[:300]!r}\n  due   {due!r}\n  found {row!r}")
    print(f"saved programs {seed}{' under valgrind' if more else ''}: {len(cases)} files, by answer {counted(case.meant for case in cases)}; {wrong} different")
    return 1 if wrong else 0


if __name__ == "__main__":
    sys.exit(main())
