#!/usr/bin/env python3
"""What the programs `flowprg` and `prglist` are run on, and what they must print: a program file's graph, the listing that it means.

  program_checks.py store                     the stored cases, made anew (needs the original)
  program_checks.py stored                    the stored answers again by both readings, the graphs by the original if it is at hand
  program_checks.py judge FLOWPRG PRGLIST     both programs on each stored case, on the files at the limits, on long and slow input
  program_checks.py compare FLOWPRG PRGLIST SEED COUNT   both programs on so many fresh files (the graphs need the original)
  program_checks.py stand-ins                 wrong programs in the place of the two: each has to be found out

Listings and refusals are the second reading's, those of the files at the limits written by hand; graphs are the original's.
"""

import fcntl
import hashlib
import io
import itertools
import os
import random
import re
import resource
import subprocess
import sys
import tempfile
import termios
import time
from array import array
from collections import Counter, namedtuple
from concurrent.futures import ThreadPoolExecutor
from functools import partial

HERE = os.path.dirname(os.path.abspath(__file__))
sys.path.insert(0, os.path.join(HERE, "oracle"))
sys.dont_write_bytecode = True
import program_files  # noqa: E402
import program_machine  # noqa: E402
import second_program  # noqa: E402
from second_program import written  # noqa: E402
from second_reading import framed  # noqa: E402
from tokenizer import linked, saved  # noqa: E402
from vectors import ask, find_oracle  # noqa: E402

STORED, SUMS = os.path.join(HERE, "programs.framed"), os.path.join(HERE, "programs.sums")
SEED = 1983
# How often each answer stands among the stored random files, how long a file and its graph may be, and of how many of each kind they
# are chosen. 1 and 5 to 8 need long files: those at the limits have them.
SHARES, STORED_BYTES, STORED_GRAPH, CHOSEN_OF = {"graph": 190, "33": 60, "34": 50, "35": 110, "4": 15}, 300, 2500, 500
KINDS = list(program_files.KINDS)
MOST_EDGES = 32768
# A run that lasts longer has hung; one that takes its input in pieces has read them all by then.
SECONDS, READING = 60, 5
# What a run in little memory gets: the stack that most systems give, and all together.
STACK, MEMORY = 8 << 20, 64 << 20
BATCH = 64

# A file, what `prglist` prints for it and what `flowprg` prints; None where the original is needed for that and is missing.
Case = namedtuple("Case", "what data meant graph")


def is_refusal(answer):
    return answer.startswith(b"(refused")


def kind_of(answer):
    return answer[1:-2].split()[1].decode("ascii", "replace") if is_refusal(answer) else "graph"


def counted(answers):
    seen = Counter(map(kind_of, answers))
    return ", ".join(f"{n}: {seen[n]}" for n in sorted(seen, key=lambda n: (n != "graph", len(n), n)))


# Graphs.

def graphs(oracle, meant):
    """What `flowprg` prints for each of these answers of `prglist`: the refusal as it is, else the original's graph."""
    texts = [text for text in dict.fromkeys(meant) if not is_refusal(text)]
    found = dict(zip(texts, ask(oracle, ["graph", "--long"], texts) if oracle else [None] * len(texts), strict=True))
    return [text if is_refusal(text) else found[text] for text in meant]


def with_graphs(oracle, cases):
    cases = list(cases)
    return [case._replace(graph=graph) for case, graph in zip(cases, graphs(oracle, [case.meant for case in cases]), strict=True)]


# The files at the limits. What they mean is written by hand; of their graphs a sum is stored, so that no original is needed.

def calls_file(calls, returns, further):
    """Line 4 calls line 5 so many times; behind it stand so many RETURNs, each in an IF, and as many further statements.

    Each call goes to line 5, each RETURN behind each call, each IF to its RETURN and, but for the last statement, on.
    """
    rows = [(4, b"\x8D5" + b":\x8D5" * (calls - 1))] + [(5 + n, b"\x8BA\xA7\x8E") for n in range(returns)]
    lines = [(4, [("gosub", 5)] * calls)] + [(5 + n, [("if", [("return",)])]) for n in range(returns)]
    last = 5 + returns
    rows += [(last, b"A" + b":A" * (further - 1))] if further else []
    lines += [(last, [("plain",)] * further)] if further else []
    edges = calls + calls * returns + returns + (returns - 1) + further
    return linked(rows), program_files.listing(lines), edges


def edge_limits():
    """(what it is, the file, the answer, its edges) at the limit of 23 and beyond."""
    for calls, returns, further in ((179, 180, 9), (179, 180, 10), (179, 180, 11), (180, 180, 0), (181, 181, 0), (3, 800, 800), (1000, 10, 1000)):
        data, meant, edges = calls_file(calls, returns, further)
        yield f"{calls} calls, {returns} RETURNs, {edges} edges", data, meant, edges


def more_limits():
    """Further files beside limits, with their answers by hand: (what it is, the file, the answer)."""
    plain = ("plain",)
    # The last byte that is read is the 65,536th, or the zero before it; a link that would be the 65,537th.
    yield "65,536 bytes, the second zero of the link last", linked([(10, b"A" * 65527)]), program_files.listing([(10, [plain])])
    yield "65,536 bytes, ended long before", linked([(10, b"A")]) + b"\x64" * (65536 - 10), program_files.listing([(10, [plain])])
    yield "65,537 bytes, ended long before", linked([(10, b"A")]) + b"\x64" * (65537 - 10), (1, 0)
    yield "a line's zero is byte 65,536", b"\x01\x08\x01\x08\x0A\x00" + b"A" * 65529 + b"\x00", (33, 65536)
    yield "half a link is byte 65,536", b"\x01\x08\x01\x08\x0A\x00" + b"A" * 65528 + b"\x00\x01", (33, 65536)
    yield "35 on the last zero, statements before it", linked([(10, b"A:" * 32763 + b"\x89")]), (35, 65533)
    yield "35 on the last zero", b"\x01\x08\x01\x08\x0A\x00" + b":" * 65526 + b"\x89\x00\x00\x00", (35, 65533)
    for depth in (14, 15, 16):
        for word, body in (("to", b"1"), ("if", b":")):
            form = ("to", 1) if word == "to" else ("if", [])
            yield f"{depth} IFs and one more, {word}", linked([(10, program_files.nested(depth + 1, body))]), \
                program_files.listing([(10, program_files.if_tree(depth, [form]))])
    for count in (63, 64):
        yield f"NEXT with {count} names", linked([(10, b"\x82" + b",".join([b"LONGER%"] * count))]), \
            program_files.listing([(10, [("next", *["LO%"] * count)])])
        # Zeros make a digit string longer than any number.
        yield f"ON with {count} numbers of 300 digits", linked([(10, b"\x91\x89" + b",".join([b"0" * 295 + b"63999"] * count))]), \
            program_files.listing([(10, [("ongoto", *[63999] * count)])])
    # One thousand and twenty-four lines, each of four statements: both limits at once.
    yield "1,024 lines of 4 statements", linked([(n, b"A:\x82:\x8B\xA7:\x895") for n in range(1024)]), \
        program_files.listing([(n, [plain, ("next", "*"), ("if", [("goto", 5)])]) for n in range(1024)])
    # Every list full: what the tables hold at most.
    wide = b"\x91\x8D" + b",".join([b"%d" % n for n in range(64)])
    yield "500 lines of 64 calls", linked([(n, wide[:2] + b",".join([b"%d" % (n % 64)] * 41)) for n in range(500)]), \
        program_files.listing([(n, [("ongosub", *[n % 64] * 41)]) for n in range(500)])
    yield "300 lines of 64 names", linked([(n, b"\x82" + b",".join([b"A%d" % (k % 10) for k in range(64)])) for n in range(300)]), \
        program_files.listing([(n, [("next", *[f"A{k % 10}" for k in range(64)])]) for n in range(300)])


def limit_cases():
    found, seen = [], Counter()
    for what, data, answer, *edges in itertools.chain(program_files.limits(), more_limits(), edge_limits()):
        meant = written(answer)
        graph = meant if is_refusal(meant) else b"(refused 23 %d)\n" % edges[0] if edges and edges[0] > MOST_EDGES else None
        seen[what] += 1
        found.append(Case(what if seen[what] == 1 else f"{what}, once more {seen[what] - 1}", data, meant, graph))
    return found


def sum_of(data):
    return hashlib.sha256(data).hexdigest()


def stored_sums():
    with open(SUMS, encoding="ascii") as file:
        return dict(line.rstrip("\n").rsplit(" ", 1) for line in file)


# The random files.

def examples():
    """Each point of the reading on document 02, by hand."""
    for point, example, short in second_program.EXAMPLES:
        yield Case(f"point {point}, {example}", second_program.file_of(example), written(second_program.in_full(example, short)), None)


def shared_programs():
    """Their graphs are in the form of before L5."""
    for path in second_program.shared_programs():
        yield Case(path.name, path.read_bytes(), path.with_suffix(".listing").read_bytes(), path.with_suffix(".graph").read_bytes())


def without_holders(graph):
    return re.sub(rb" \(in[0-9 ]*\)", b"", graph)


# Typed programs whose graphs show what others show in the listing alone: which names and slots are one, what CLR forgets.
DIRECTED = [
    "10 FORABCDIJKLQX%=1TO2:PRINT:NEXTAB%:END\n20 NEXTAB:END",
    "10 FORABCDIJKLQX=1TO2:PRINT:NEXTABZ:END\n20 NEXTAB%:END",
    "10 FORAB%=1TO2:PRINT:NEXTAB:END\n20 NEXTAB%:END",
    "10 FORAB$=1TO2:PRINT:NEXTAB%:END\n20 NEXTAB$:END",
    "10 FORABC%=1TO2:PRINT:NEXTAB%:END",
    "10 FORA%=1TO2:PRINT:NEXTA:NEXTA%:END",
    "10 FORAB=1TO2:FORAC=1TO2:PRINT:NEXTAB:END\n20 NEXTAC:END",
    "10 FORA1=1TO2:FORA2=1TO2:PRINT:NEXTA1:END",
    "10 FORAZ=1TO2:PRINT:NEXTAZQ:END",
    "10 FORA=1TO2:FORB=1TO2:PRINT:NEXT,:END",
    "10 FORA=1TO2:FORB=1TO2:PRINT:NEXTB,A:END",
    "10 FORA=1TO2:FORB=1TO2:PRINT:NEXTA,B:END",
    "10 FORA=1TO2:FORB=1TO2:PRINT:NEXT:NEXT:END",
    "10 FORA=1TO2:FORB=1TO2:FORC=1TO2:NEXTC,B,A:END",
    "10 FORA=1TO2:CLR:NEXTA:END",
    "10 FORA=1TO2:PRINT:NEXTA:END\n20 CLR:NEXTA",
    "10 GOSUB100:PRINT:END\n100 CLR:RETURN",
    "10 GOSUB100:PRINT:END\n100 IFATHENCLR:RETURN\n110 RETURN",
    "10 GOSUB100:PRINT:END\n100 RUN\n110 RETURN",
    "10 ONAGOSUB100,200,300:PRINT:END\n100 RETURN\n200 IFATHENRETURN\n300 GOSUB100:RETURN",
    "10 ONAGOTO20,30,20,40\n20 PRINT\n30 END\n40 STOP",
    "10 IFATHEN30:GOTO20\n20 END\n30 IFBTHENPRINT:IFCTHEN20\n40 RUN20",
]


def directed():
    for typed in DIRECTED:
        data = saved(typed.encode("ascii"))
        yield Case(f"typed {typed!r}", data, written(program_files.both(typed, data)), None)


def random_cases(seed, count):
    """So many files, of each kind in turn; both readings give the same, and what is due from the making of a file."""
    for at in range(count):
        kind = KINDS[at % len(KINDS)]
        name = f"{kind} {seed} {at}"
        data, due = program_files.KINDS[kind](random.Random(name))
        yield Case(name, data, written(program_files.both(name, data, due)), None)


# The stored cases: three framed texts each, the file, what `prglist` prints, what `flowprg` prints.

def store():
    oracle = find_oracle() or sys.exit(3)
    left, chosen = Counter(SHARES), with_graphs(oracle, [*examples(), *directed()])
    for case in shared_programs():
        graph = graphs(oracle, [case.meant])[0]
        if case.graph != without_holders(graph):
            sys.exit(f"{case.what}: its graph beside the repository is not the original's")
        chosen.append(case._replace(graph=graph))
    made = list({case.data: case for case in random_cases(SEED, CHOSEN_OF * len(KINDS))}.values())
    for case in with_graphs(oracle, made):
        if left[kind_of(case.meant)] > 0 and len(case.data) <= STORED_BYTES and len(case.graph) <= STORED_GRAPH:
            left[kind_of(case.meant)] -= 1
            chosen.append(case)
    if +left:
        sys.exit(f"too few files: {+left} are missing")
    with open(STORED, "wb") as out:
        out.write(b"".join(b"%d\n" % len(part) + part for case in chosen for part in case[1:]))
    limits = limit_cases()
    with open(SUMS, "w", encoding="ascii") as out:
        for by_hand, case in zip(limits, with_graphs(oracle, limits), strict=True):
            if by_hand.graph not in (None, case.graph):
                sys.exit(f"{case.what}: not the original's edges: {case.graph[:60]}")
            if not is_refusal(case.meant):
                out.write(f"{case.what} {sum_of(case.graph)}\n")
    print(f"{len(chosen)} stored files, by answer {counted(case.meant for case in chosen)}; {len(limits)} at the limits")


def stored_cases():
    with open(STORED, "rb") as file:
        parts = list(framed(io.BytesIO(file.read())))
    if len(parts) % 3 or not parts:
        raise SystemExit(f"{STORED}: {len(parts)} texts are no files with their answers")
    return [Case(f"stored file {at}", *part) for at, part in enumerate(zip(*[iter(parts)] * 3))]


def stored():
    """The stored answers again; the examples and the four programs stand among them."""
    cases, oracle, sums = stored_cases(), find_oracle(), stored_sums()
    limits = limit_cases()
    due = with_graphs(oracle, limits)
    if not oracle:
        print("the original is not at hand: the stored graphs are not asked of it again")
    wrong = []
    for case, graph in zip(cases, graphs(oracle, [case.meant for case in cases]), strict=True):
        again = [written(reading.program(case.data)) for reading in (second_program, program_machine)]
        if again != [case.meant] * 2 or graph not in (None, case.graph):
            wrong.append(case.what)
    there = {(case.data, case.meant) for case in cases}
    wrong += [case.what for case in [*examples(), *directed(), *shared_programs()] if (case.data, case.meant) not in there]
    for case, by_original in zip(limits, due, strict=True):
        again = [written(reading.program(case.data)) for reading in (second_program, program_machine)]
        accepted = not is_refusal(case.meant)
        if again != [case.meant] * 2 or accepted != (case.what in sums):
            wrong.append(case.what)
        elif accepted and by_original.graph and sums[case.what] != sum_of(by_original.graph):
            wrong.append(case.what)
    if set(sums) - {case.what for case in limits}:
        wrong.append("sums of other files")
    print(f"stored program files: {len(cases)}, by answer {counted(case.meant for case in cases)}, and {len(limits)} at the limits; {len(wrong)} wrong")
    print("".join(f"  {what}\n" for what in wrong[:9]), end="")
    return 1 if wrong else 0


# Runs. A program is a function from standard input to what was printed, what was said on standard error, and the status.

def run(program, folder, data, before=None, seconds=SECONDS):
    try:
        done = subprocess.run([os.path.abspath(program)], input=data, capture_output=True, timeout=seconds, cwd=folder, preexec_fn=before)
    except subprocess.TimeoutExpired:
        return b"", b"did not end", -1
    return done.stdout, done.stderr, done.returncode


def is_read(pipe):
    """Has the other end taken all that was written?"""
    left = array("i", [0])
    fcntl.ioctl(pipe, termios.FIONREAD, left)
    return left[0] == 0


def slow_run(program, folder, data, pieces, seconds=SECONDS):
    """The same, the input in pieces: each is given when the one before it has been read."""
    # One that prints before it has read all may stop reading; the rest is then given at once.
    size, end = max(1, -(-len(data) // pieces)), time.monotonic() + min(seconds, READING)
    with subprocess.Popen([os.path.abspath(program)], stdin=subprocess.PIPE, stdout=subprocess.PIPE, stderr=subprocess.PIPE, cwd=folder) as process:
        try:
            for at in range(0, len(data), size):
                process.stdin.write(data[at:at + size])
                process.stdin.flush()
                while not is_read(process.stdin) and process.poll() is None and time.monotonic() < end:
                    time.sleep(0.0005)
            out, message = process.communicate(timeout=seconds)
        except (BrokenPipeError, subprocess.TimeoutExpired):
            process.kill()
            return b"", b"did not read, or did not end", -1
    return out, message, process.returncode


def little_memory():
    for what, most in ((resource.RLIMIT_STACK, STACK), (resource.RLIMIT_AS, MEMORY)):
        resource.setrlimit(what, (most, resource.getrlimit(what)[1]))


class Tally:
    """Both programs on cases, and what differs."""

    def __init__(self, flowprg, prglist, sums=(), shown=5):
        self.flowprg, self.prglist, self.sums, self.shown = flowprg, prglist, sums, shown
        self.wrong, self.compared = Counter(), Counter()

    def differs(self, program, what, due, found):
        self.wrong[program] += 1
        if self.wrong.total() <= self.shown:
            parts = tuple(part[:600] if isinstance(part, bytes) else part for part in found)
            print(f"{program}: {what}\n  due   {due[:600]}\n  found {parts}")

    def right(self, case, found):
        """Is this what `flowprg` prints? A graph at the limits is known by its sum."""
        if case.graph is None:
            out, *rest = found
            return rest == [b"", 0] and sum_of(out) == self.sums[case.what]
        return found == (case.graph, b"", 0)

    def one(self, case, flowprg, prglist):
        listed, graphed = prglist(case.data), flowprg(case.data)
        return case, listed, graphed

    def told(self, case, listed, graphed):
        self.compared["prglist"] += 1
        if listed != (case.meant, b"", 0):
            self.differs("prglist", f"{case.what} {case.data[:80].hex(' ')}", case.meant, listed)
        if case.graph is None and case.what not in self.sums:
            return
        self.compared["flowprg"] += 1
        if not self.right(case, graphed):
            self.differs("flowprg", f"{case.what} {case.data[:80].hex(' ')}", case.graph or b"another graph", graphed)

    def cases(self, cases, pool=None, flowprg=None, prglist=None):
        """A run of both programs for each case, several at a time where there is a pool."""
        before = self.compared["prglist"]
        each = partial(self.one, flowprg=flowprg or self.flowprg, prglist=prglist or self.prglist)
        cases = iter(cases)
        while batch := list(itertools.islice(cases, BATCH)):
            for result in (pool.map if pool else map)(each, batch):
                self.told(*result)
        return self.compared["prglist"] - before

    def shown_wrong(self):
        return f"flowprg {self.wrong['flowprg']}, prglist {self.wrong['prglist']} different"


def long_cases():
    """Input past 65,536 bytes, as long as it may be: 1 at 0 whatever stands in it, an ended program too."""
    ended = linked([(10, b"A")])
    for size in (65538, 65537 + 65536, 1 << 20, 10_000_000):
        for what, piece in (("zeros", b"\x00"), ("foreign bytes", b"\x64"), ("an ended program", ended + b"\x00" * 6)):
            data = (piece if what != "an ended program" else piece + b"\x00" * size)
            yield Case(f"{size} bytes, {what}", (data * (size // len(data) + 1))[:size], b"(refused 1 0)\n", b"(refused 1 0)\n")


def judge(flowprg, prglist):
    start = time.monotonic()
    with tempfile.TemporaryDirectory() as folder, ThreadPoolExecutor() as pool:
        tally = Tally(partial(run, flowprg, folder), partial(run, prglist, folder), stored_sums())
        cases, limits = stored_cases(), limit_cases()
        found, at_limits = tally.cases(cases, pool), tally.cases(limits, pool)
        long = tally.cases(long_cases(), pool)
        largest = sorted(limits, key=lambda case: len(case.meant))[-4:] + limits[-5:] + limits[:2]
        little = tally.cases(largest, None, partial(run, flowprg, folder, before=little_memory), partial(run, prglist, folder, before=little_memory))
        slow = tally.cases([*cases[:5], *[case for case in cases if len(case.data) > 250][:10], limits[0]], pool,
                           partial(slow_run, flowprg, folder, pieces=23), partial(slow_run, prglist, folder, pieces=23))
        left = os.listdir(folder)
    if left:
        print(f"files after the runs: {left}")
    print(f"program files: {found} stored, {at_limits} at the limits, {long} too long, {little} in {MEMORY >> 20} MiB, {slow} in pieces; "
          f"{tally.shown_wrong()} ({time.monotonic() - start:.0f} s)")
    return 1 if tally.wrong or left else 0


def compare(flowprg, prglist, seed, count):
    start, oracle = time.monotonic(), find_oracle()
    cases = with_graphs(oracle, random_cases(int(seed), int(count)))
    with tempfile.TemporaryDirectory() as folder, ThreadPoolExecutor() as pool:
        tally = Tally(partial(run, flowprg, folder), partial(run, prglist, folder))
        tally.cases(cases, pool)
    back = sum(case.what.split()[0] in ("meant", "typed", "named") for case in cases)
    print(f"program files {seed}: {tally.compared['prglist']} listings, {back} of them written and read back, {tally.compared['flowprg']} graphs, "
          f"by answer {counted(case.meant for case in cases)}; {tally.shown_wrong()} ({time.monotonic() - start:.0f} s)")
    if tally.wrong or not cases:
        return 1
    if not oracle:
        print("the original is missing: the graphs of fresh files are not compared")
        return 3
    return 0


if __name__ == "__main__":
    match sys.argv[1:]:
        case ["store"]:
            store()
        case ["stored"]:
            sys.exit(stored())
        case ["judge", flowprg, prglist]:
            sys.exit(judge(flowprg, prglist))
        case ["compare", flowprg, prglist, seed, count]:
            sys.exit(compare(flowprg, prglist, seed, count))
        case ["stand-ins"]:
            from program_stand_ins import stand_ins
            sys.exit(stand_ins())
        case _:
            sys.exit(__doc__)
