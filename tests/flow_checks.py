#!/usr/bin/env python3
"""What the program `flowcheck LISTING GRAPH` is run on, and what it must print.

  flow_checks.py write             the stored pairs of listing and graph, made anew (needs the original)
  flow_checks.py stored            the stored answers again by the second reading, the graphs by the original if it is at hand
  flow_checks.py judge PROGRAM     a run of the program for each stored pair, for the points by hand, for long files and for bad arguments
  flow_checks.py large PROGRAM     files of 100 MB, and the longest listing, in little memory
  flow_checks.py compare PROGRAM SEED COUNT   a run of the program for each of so many fresh pairs (needs the original)

Right graphs are the original's or written by hand, refusals the second readings'. Of fresh pairs about one graph in ten is right,
the others are damaged.
"""

import io
import os
import random
import re
import resource
import subprocess
import sys
import tempfile
from collections import Counter
from concurrent.futures import ThreadPoolExecutor
from functools import wraps
from itertools import islice

HERE = os.path.dirname(os.path.abspath(__file__))
sys.path.insert(0, os.path.join(HERE, "oracle"))
sys.dont_write_bytecode = True
from compare import due_answers  # noqa: E402
from second_check import C12_LISTING, EMPTY_LISTING, G, RIGHT, edges_listing, listing_refusal, points, printed, text, verdict  # noqa: E402
from second_reading import framed, judge, written  # noqa: E402
from vectors import find_oracle, generated  # noqa: E402

SEED, STORED = 1983, os.path.join(HERE, "checks.framed")
# How often each answer stands among the stored pairs, and how long a pair may be; 1 and 5 to 8 need long texts.
SHARES, STORED_BYTES = {"right": 40, "31": 150, "32": 160, "2": 25, "3": 12, "4": 3}, 1300
LONGEST, SECONDS = 2000000, 60
# The program reads a graph in pieces of so many bytes.
PIECE = 65536
# A large file, and the memory that the program gets for it: the stack that most systems give, and all together.
LARGE, STACK, MEMORY = 100000000, 8 << 20, 64 << 20
# Pairs that wait for their runs.
BATCH = 64

# Damage. Each takes a source of random numbers, a graph and the graph of another listing.

ROWS = re.compile(rb"[^\n]*\n|[^\n]+")
NUMBER = re.compile(rb"[0-9]+")
LIST = re.compile(rb"\((in|succ|pred|returns|)([0-9 ]*)\)")
HOLDER = re.compile(rb" \(in[0-9 ]*\)")
ODD_BYTES = b"\n\r\t\0 \x7f\x80\xff()0159:/x-+AGRgr"
# Rows that may stand where another is due; those of before L5, of later requests and of a refusal are in no form.
FURTHER_ROWS = [b"\n", b")\n", b"(returns)\n", b"(graph 0 0\n", b"(graph 65535 65535\n", b"(back 7 9)\n", b"(entry 10 0)\n",
                b"(entry 0)\n", b"(node 0 10 0 () (in) (succ) (pred))\n", b"(node 0 10 (0) (in) (succ) (pred))\n", b"(returns 007)\n",
                b"(refused 2 0)\n", b"(right)\n", b"(module 0\n", b"(node 0 10 0 (0) (succ) (pred))\n", b"(entry 10 0 own)\n",
                b"(node 65535 0 0 (1 2) (in 65535) (succ 0) (pred 0))\n", b"(node 0 10 0 (0) (in 1 2) (succ) (pred))\n"]


def somewhere(rng, text):
    """A position in the text; every fourth among its last bytes."""
    return max(0, len(text) - 1 - rng.randrange(4)) if rng.random() < 0.25 else rng.randrange(len(text) or 1)


def byte_changed(rng, graph, other):
    at = somewhere(rng, graph)
    return graph[:at] + bytes([rng.choice([rng.choice(ODD_BYTES), rng.randrange(256)])]) + graph[at + 1:]


def byte_dropped(rng, graph, other):
    at = somewhere(rng, graph)
    return graph[:at] + graph[at + 1:]


def byte_inserted(rng, graph, other):
    at = somewhere(rng, graph)
    return graph[:at] + bytes([rng.choice(ODD_BYTES)]) + graph[at:]


def in_a_row(change):
    """Damage to one row, its byte 10 apart; the row may be the last one that lacks it."""
    @wraps(change)
    def damage(rng, graph, other):
        rows = ROWS.findall(graph) or [b"\n"]
        at = rng.randrange(len(rows))
        end = b"\n" if rows[at].endswith(b"\n") else b""
        rows[at] = change(rng, rows[at].removesuffix(b"\n")) + end
        return b"".join(rows)
    return damage


def other_number(rng, word):
    """Neighbours, bounds, numbers that are the same in 16, 32 or 64 bits, and words that are no numbers."""
    n = int(word) if len(word) < 20 else 0
    numbers = [n + 1, max(0, n - 1), 0, 1, 9, 10, 65535, 65536, 99999, 100000, n + 65536, n + 2**32, n + 2**64, 10 * n,
               rng.randrange(20), rng.randrange(65536)]
    words = [b"0" + word, b"00" + word, b"00", b"", b"-" + word, b"+" + word, word + b"x", b"x", b"0x" + word, word + word]
    return b"%d" % rng.choice(numbers) if rng.random() < 0.7 else rng.choice(words)


@in_a_row
def number_changed(rng, row):
    found = list(NUMBER.finditer(row))
    if not found:
        return row + b" 0"
    at = rng.choice(found)
    return row[:at.start()] + other_number(rng, at[0]) + row[at.end():]


@in_a_row
def word_count_changed(rng, row):
    words = row.split(b" ")
    at = rng.randrange(len(words))
    words[at:at + 1] = rng.choice([[], [words[at]] * 2, [words[at], b"0"], [b"0", words[at]]])
    return b" ".join(words)


def other_list(rng, words):
    """Emptied, shortened or lengthened, also beyond 64 and 4,096 numbers; what is put in may be no number."""
    way = rng.randrange(7)
    if way < 3:
        return ([], words[:-1], words[1:])[way]
    at = rng.randrange(len(words) + 1)
    more = rng.choice([1, 1, 2, 65, 300] + ([5000] if rng.random() < 0.1 else []))
    number = rng.choice([b"%d" % rng.randrange(20), b"%d" % rng.randrange(65536), *words])
    last = other_number(rng, number) if way == 3 else number
    return words[:at] + [number] * (more - 1) + [last] + words[at:]


@in_a_row
def list_changed(rng, row):
    found = list(LIST.finditer(row))
    if not found:
        return row.replace(b" ", b" (", 1) + b")"
    at = rng.choice(found)
    words = other_list(rng, at[2].split())
    return row[:at.start()] + b"(" + b" ".join([at[1]] * bool(at[1]) + words) + b")" + row[at.end():]


def holder_changed(rng, graph, other):
    """Another holder, none, two of them, one that is no number, or no place for one; in a row that has one."""
    found = list(HOLDER.finditer(graph))
    if not found:
        return list_changed(rng, graph, other)
    at = rng.choice(found)
    near, old = b"%d" % rng.randrange(8), at[0][len(b" (in"):-1]
    number = other_number(rng, rng.choice([*old.split(), near]))
    in_form = [held for held in (b" (in)", b" (in %b)" % near, rng.choice(found)[0], b" (in 10)") if held != at[0]]
    odd = [b" (in %b)" % number, b" (in %b %b)" % (number, near), b" (in%b %b)" % (old, near), b" (in )", b"", b" ()", b" (%b)" % near,
           b" (in%b)" % near, b" (In%b)" % old, b" (in) (in%b)" % old]
    return graph[:at.start()] + rng.choice(in_form if rng.random() < 0.6 else odd) + graph[at.end():]


def order_changed(rng, graph, other):
    """The same numbers in another order, in a list that has one."""
    found = [at for at in LIST.finditer(graph) if len(set(at[2].split())) > 1]
    if not found:
        return list_changed(rng, graph, other)
    at = rng.choice(found)
    words = at[2].split()
    mixed = rng.choice([words[::-1], rng.sample(words, len(words)), sorted(words, key=lambda word: (len(word), word)), words[1:] + words[:1]])
    return graph[:at.start()] + b"(" + b" ".join([at[1]] * bool(at[1]) + mixed) + b")" + graph[at.end():]


@in_a_row
def byte_added(rng, row):
    """CR, a space, a tab, a capital, brackets."""
    way = rng.randrange(8)
    if way < 4:
        return row + (b"\r", b" ", b"\t", b")")[way]
    if way < 6:
        return (b" ", b"\t")[way - 4] + row
    if way == 6:
        return row.replace(b" ", rng.choice([b"  ", b"\t", b" \t", b"(", b""]), rng.randrange(1, 4))
    return rng.choice([row.upper(), row.title(), row[:1] + row[1:2].upper() + row[2:]])


@in_a_row
def row_cut(rng, row):
    return row[:rng.randrange(len(row) + 1)]


def everywhere(rng, graph, other):
    """A change of every row: ends or blanks that other systems write."""
    old, new = rng.choice([(b"\n", b"\r\n"), (b"\n", b" \n"), (b"\n", b"\r"), (b"\n", b"\n\n"), (b" ", b"  "), (b" ", b"\t"), (b")\n", b")")])
    return graph.replace(old, new)


def holders_changed(rng, graph, other):
    """Of every row: as it was before L5, in another order, without a holder, or its holder one too many."""
    # Where nothing is held, two of these change nothing.
    way = rng.randrange(4 if b" (in " in graph else 2)
    if way == 0:
        return HOLDER.sub(b"", graph)
    if way == 1:
        return re.sub(rb"( \([0-9 ]*\))( \(in[0-9 ]*\))", rb"\2\1", graph)
    if way == 2:
        return HOLDER.sub(b" (in)", graph)
    return re.sub(rb"\(in ([0-9]+)\)", lambda at: b"(in %d)" % (int(at[1]) + 1), graph)


def rows_changed(rng, graph, other):
    """A row dropped, doubled, swapped with another, moved, put in from elsewhere or instead of one."""
    rows = ROWS.findall(graph) or [b"\n"]
    a, b = rng.randrange(len(rows)), rng.randrange(len(rows))
    further = rng.choice([rng.choice(FURTHER_ROWS), rng.choice(ROWS.findall(other) or [b"\n"]), rows[b]])
    way = rng.randrange(7)
    if way == 0:
        del rows[a]
    elif way == 1:
        rows.insert(a, rows[a])
    elif way == 2:
        rows[a], rows[b] = rows[b], rows[a]
    elif way == 3:
        rows.insert(b, rows.pop(a))
    elif way == 4:
        rows.insert(a, further)
    elif way == 5:
        rows[a] = further
    else:
        rows[a:] = reversed(rows[a:])
    return b"".join(rows)


def cut(rng, graph, other):
    if rng.random() < 0.5:
        return graph[:somewhere(rng, graph)]
    rows = ROWS.findall(graph)
    return b"".join(rows[:rng.randrange(len(rows) + 1)])


def ends_changed(rng, graph, other):
    """The last bytes dropped, or something after the last row."""
    further = [b")", b" ", b"\r", b"(returns", graph, other, *FURTHER_ROWS]
    return graph[:-rng.randrange(1, 4)] if rng.random() < 0.4 else graph + rng.choice(further)


def of_another(rng, graph, other):
    """Another listing's graph, whole, or this one from some row on."""
    rows, others = ROWS.findall(graph), ROWS.findall(other)
    at = rng.choice([0, rng.randrange(len(rows) + 1)])
    return b"".join(rows[:at] + others[at:])


def long_row(rng, graph, other):
    """A list, a number or a blank so long that the row's end stands at a chosen byte of the file; the last word may be bad."""
    rows = ROWS.findall(graph) or [b"\n"]
    at = rng.randrange(len(rows))
    before, node = b"".join(rows[:at]), b"(node 0 10 0 (0) (in) (succ) (pred))"
    opening = rng.choice([b"(returns", *(node[:node.index(word) + len(word)] for word in (b"(0", b"(in", b"(succ", b"(pred"))])
    closing = node[len(opening):] if node.startswith(opening) else b")"
    last = rng.choice([b"", b" 65535", b" 65536", b" 00", b" x", b" ", b")"]) + closing + rng.choice([b"\n", b"\n", b"\n", b"", b" \n", b"\r\n"])
    end = rng.choice([1 << rng.randrange(9, 21), LONGEST]) + rng.randrange(-3, 4)
    room = max(0, end - len(before) - len(opening) - len(last))
    fill = rng.choice([b" 0", b" 7", b" 65535", b" 12", b"0", b"1", b" ", b"("] if rng.random() < 0.3 else [b" 0", b" 65535", b" 123"])
    body = (fill * (room // len(fill) + 1))[:room]
    # What was cut off inside a word is made good, so that the filling of a list is in form.
    body = body[:-1] + b"0" if body.endswith(b" ") and fill != b" " else body
    rest = rows[at + 1:] if rng.random() < 0.7 else []
    return before + opening + body + last + b"".join(rest)


DAMAGES = [(byte_changed, 7), (byte_dropped, 5), (byte_inserted, 5), (number_changed, 22), (word_count_changed, 6), (list_changed, 16),
           (order_changed, 8), (byte_added, 8), (row_cut, 3), (everywhere, 2), (rows_changed, 20), (cut, 6), (ends_changed, 9), (of_another, 5),
           (holder_changed, 14), (holders_changed, 4)]
ONE_LONG_IN = 250


def damaged(rng, graph, other):
    """The damaged graph and what was done to it; seldom more than one thing."""
    if rng.randrange(ONE_LONG_IN) == 0:
        return long_row(rng, graph, other), ["long_row"]
    ways, weights = zip(*DAMAGES)
    chosen = rng.choices(ways, weights, k=rng.choices([1, 2, 3], [75, 18, 7])[0])
    for way in chosen:
        graph = way(rng, graph, other)
    return graph, [way.__name__ for way in chosen]


# Pairs.

def damaged_listing(rng, listing, other):
    ways = [byte_changed, byte_dropped, byte_inserted, number_changed, byte_added, rows_changed, cut, ends_changed]
    return rng.choice(ways)(rng, listing, other)


def listings(oracle, rng, seed, count):
    """A listing for each pair, and the one that it was before its damage, mostly the same."""
    numbers = {"small": count, "medium": 2 + count // 40, "damaged": 2 + count // 15, "limit": 60, "directed": 1}
    texts = {kind: generated(oracle, kind, seed, number) for kind, number in numbers.items()}
    # The original takes its time for those at the limits.
    texts["limit"] = [edges_listing(9), *rng.sample(texts["limit"], min(count // 300, numbers["limit"]))]
    for at in range(count):
        kind = rng.choices(["small", "medium", "damaged", "limit", "directed"], [72, 5, 5, 1, 17])[0]
        listing = texts["small"][at] if kind == "small" else rng.choice(texts[kind])
        changed = damaged_listing(rng, listing, rng.choice(texts["small"])) if rng.random() < 0.06 else listing
        yield changed, listing


def pairs(oracle, seed, count):
    """Listing, what flowlist prints for it, graph file, and what was done, for each pair; the same for the same seed."""
    rng = random.Random(seed)
    chosen = list(listings(oracle, rng, seed, count))
    texts = list(dict.fromkeys([C12_LISTING, *(text for both in chosen for text in both)]))
    prints = dict(zip(texts, due_answers(oracle, texts), strict=True))
    graphs = [text for text in texts if prints[text].startswith(b"(graph")]
    for listing, before in chosen:
        right, other = prints[listing], prints[rng.choice(graphs)]
        # Beside a listing that is refused stands its refusal, or the graph that there was before the damage.
        graph = rng.choice([right, prints[before]])
        done = ["listing"] if listing != before else []
        if rng.random() >= (0.5 if done else 0.1):
            graph, more = damaged(rng, graph, other)
            done += more
        yield listing, right, graph, done


def due(listing, right, graph):
    return printed(verdict(listing_refusal(listing, right), right, graph))


def kind_of(answer):
    """`right`, or the refusal's number."""
    return answer[1:-2].split()[answer.startswith(b"(refused")].decode("ascii", "replace")


def counted(answers):
    seen = Counter(map(kind_of, answers))
    return ", ".join(f"{n}: {seen[n]}" for n in sorted(seen, key=lambda n: (n != "right", len(n), n)))


# Long files.

def listed(word, ids):
    return f"({' '.join([word, *map(str, ids)])})"


def wide_pair():
    """A listing at the limits and its graph, by hand: 1,024 lines of four statements each. The last 28 lines begin with an `any`,
    which goes to the first statement of every line; any other statement falls to the next one."""
    lines, each, anys = 1024, 4, 28
    nodes, entries = range(each * lines), range(0, each * lines, each)
    jumps = set(entries[-anys:])
    succ = [entries if id in jumps else nodes[id + 1:id + 2] for id in nodes]
    pred = [[] for _ in nodes]
    for id in nodes:
        for to in succ[id]:
            pred[to].append(id)
    listing, graph = ["(module 0"], [f"(graph 0 {len(nodes)}"]
    for line, entry in enumerate(entries):
        body = nodes[entry:entry + each]
        listing += [f"(line {line}", *("(any)" if id in jumps else "(plain)" for id in body), ")"]
        graph += [f"(node {id} {line} {line} ({id - entry}) (in) {listed('succ', succ[id])} {listed('pred', pred[id])})" for id in body]
    graph += [f"(entry {line} {entry})" for line, entry in enumerate(entries)]
    return text(" / ".join([*listing, ")"])), text(" / ".join([*graph, "(returns)", ")"]))


def returns_row(size, last):
    """A row of so many bytes, `(returns 0 0 .. ` and a last word."""
    room = size - len(b"(returns )\n") - len(last)
    return b"(returns" + b" 10" * (room % 2) + b" 0" * ((room - 3 * (room % 2)) // 2) + b" " + last + b")\n"


def long_rows():
    """Against G: a row that ends beside the end of a piece, some pieces in, or at two million bytes, and there the file may end.
    Only the row's last bytes tell 31 from 32."""
    head, end = text("(graph 0 0"), text(")")
    for size in [PIECE * n + more for n in (1, 2, 16) for more in (-1, 0, 1)] + [LONGEST]:
        rows = [(last, returns_row(size - len(head), last) + end) for last in (b"7", b"65536", b"00", b"x")]
        rows += [(b"7", rows[0][1].removesuffix(end)), (b"", rows[0][1].removesuffix(b"\n" + end))]
        for last, row in rows:
            yield f"a row to byte {size}", EMPTY_LISTING, text(G), head + row, printed((32 if last == b"7" else 31, 1))


def held_rows():
    """Against G: a node row whose holder stands across the end of a piece; its path is as long as that takes."""
    head, end = text("(graph 0 0"), text(")")
    for size in [PIECE * n - back for n in (1, 2) for back in range(11)]:
        room = size - len(head) - len(b"(node 0 10 0 (0")
        path = b"(node 0 10 0 (0" + b" 10" * (room % 2) + b" 0" * ((room - 3 * (room % 2)) // 2)
        for held, number in ((b"", 32), (b" 7", 32), (b" 65535", 32), (b" 65536", 31), (b" 7 7", 31), (b" 07", 31), (b" ", 31)):
            yield f"a holder from byte {size}", EMPTY_LISTING, text(G), head + path + b") (in" + held + b") (succ) (pred))\n" + end, printed((number, 1))


def wide_files():
    """Against the wide listing: its graph, more than one of them, cut or changed beside the end of a piece."""
    listing, right = wide_pair()
    rows, row = right.count(b"\n"), returns_row(LONGEST, b"7")
    by_hand = [("", right, RIGHT), ("three times", 3 * right, (32, rows)), ("and a long row", right + row, (32, rows)),
               ("and a long row without its end", right + row[:-1], (31, rows)), ("without its end", right[:-1], (31, rows - 1)),
               ("without its last row", right[:-2], (32, rows - 1))]
    for what, graph, answer in by_hand:
        yield f"the wide graph {what}", listing, right, graph, printed(answer)
    for end in range(PIECE, len(right), PIECE):
        graphs = [right[:at] for at in (end - 1, end, end + 1)]
        graphs += [right[:at] + byte + right[at + 1:] for at, byte in ((end - 1, b"7"), (end, b"7"), (end, b"\n"), (end, b"x"))]
        for graph in graphs:
            yield f"the wide graph changed near byte {end}", listing, right, graph, due(listing, right, graph)


# Runs of the program.

def little_memory():
    for what, most in ((resource.RLIMIT_STACK, STACK), (resource.RLIMIT_AS, MEMORY)):
        resource.setrlimit(what, (most, resource.getrlimit(what)[1]))


class Runs:
    """Runs a program on pairs, in a folder that goes with them, and counts what differs."""

    def __init__(self, program, folder):
        self.program = os.path.abspath(program)
        self.folder = folder
        self.count = self.wrong = 0

    def path(self, name, data):
        path = os.path.join(self.folder, name)
        with open(path, "wb") as out:
            out.write(data)
        return path

    def output(self, *arguments, before=None):
        """What it printed, what it said on standard error and its status; a program that does not end fails here."""
        done = subprocess.run([self.program, *arguments], cwd=self.folder, preexec_fn=before, stdin=subprocess.DEVNULL,
                              capture_output=True, timeout=SECONDS)
        return done.stdout, done.stderr, done.returncode

    def differs(self, what, right, found):
        self.wrong += 1
        if self.wrong <= 5:
            print(f"{what}\n  due   {right}\n  found {found}")

    def same(self, what, found, answer):
        """The answer alone was printed, and the program ended by itself."""
        self.count += 1
        if found != (answer, b"", 0):
            self.differs(what, answer, tuple(part[:600] if isinstance(part, bytes) else part for part in found))

    def answer(self, at, pair):
        """A run in files of its own, so that others can go on beside it. A name is used once: to write a file anew takes its time."""
        paths = self.path(f"listing{at}", pair[1]), self.path(f"graph{at}", pair[3])
        found = self.output(*paths)
        for path in paths:
            os.remove(path)
        return found

    def pairs(self, pairs):
        """A run for each: what it is, listing, what flowlist prints for it, graph, answer. Nothing may be left in the folder."""
        pairs, before = iter(pairs), self.count
        with ThreadPoolExecutor() as pool:
            while batch := list(islice(pairs, BATCH)):
                names = range(self.count, self.count + len(batch))
                for pair, found in zip(batch, pool.map(self.answer, names, batch), strict=True):
                    what, listing, right, graph, answer = pair
                    shown = f"{listing[:600]!r}\n{right[:600]!r}\n{graph[:600]!r} ({len(graph)} bytes)"
                    self.same(f"{what}\n{shown}", found, answer)
        if left := os.listdir(self.folder):
            self.differs("files after the runs", "none", left)
        return self.count - before

    def content(self):
        """Every file of the folder."""
        found = {}
        for name in os.listdir(self.folder):
            with open(os.path.join(self.folder, name), "rb") as file:
                found[name] = file.read()
        return found

    def bad_arguments(self):
        """Not two names, or a name of no file that can be read: nothing printed, and on standard error the usage, or the name as it
        was given."""
        listing, graph = self.path("listing", EMPTY_LISTING), self.path("graph", text(G))
        refused = self.path("refused", EMPTY_LISTING[:-1])
        usage = b"flowcheck LISTING GRAPH"
        tried = [((), usage), ((listing,), usage), ((listing, graph, graph), usage)]
        # No file; a folder, which opens and cannot be read; a file as a folder; names that no file can have.
        names = [os.path.join(self.folder, "missing"), "missing", self.folder, ".", os.path.join(graph, "graph"), "", 300 * "n", 5000 * "n"]
        # A file is there, and std opens no name that is not UTF-8.
        odd = os.fsdecode(b"\xff")
        names += [self.path(odd, EMPTY_LISTING), odd]
        for bad in names:
            # A name longer than any file's may be left out of the message.
            said = os.fsencode(bad) if len(bad) < 4096 else b""
            # Both files are asked for before anything is judged: the listing may be one that is refused.
            tried += [((bad, graph), said), ((listing, bad), said), ((refused, bad), said), ((bad, bad), said)]
        before = self.content()
        for arguments, said in tried:
            found, message, status = self.output(*arguments)
            if found or not message or said not in message or status < 0:
                self.differs(f"arguments {arguments}", ("nothing", said), (found[:600], message[:600], status))
        if self.content() != before:
            self.differs("the files after bad arguments", sorted(before), sorted(self.content()))
        for name in before:
            os.remove(os.path.join(self.folder, name))
        return len(tried)

    def names(self):
        """Files by odd names, the folder's or as they stand in it; one file twice."""
        tried = ["listing", "a listing", "-", "--", "(right)", "\u00e4", 200 * "n"]
        for name in tried:
            listing, graph = self.path(name, EMPTY_LISTING), self.path(name + "2", text(G))
            self.same(f"name {name!r}", self.output(listing, graph), printed(RIGHT))
            self.same(f"name {name!r}, in its folder", self.output(name, name + "2"), printed(RIGHT))
            self.same(f"name {name!r}, twice", self.output(name, name), printed((31, 0)))
            os.remove(listing)
            os.remove(graph)
        return len(tried)


def compare(program, seed, count):
    oracle = find_oracle() or sys.exit(3)
    answers, ways = [], Counter()

    def fresh():
        for listing, right, graph, done in pairs(oracle, int(seed), int(count)):
            answers.append(due(listing, right, graph))
            ways.update(done or ["unchanged"])
            yield f"pair {len(answers) - 1}: {' '.join(done) or 'unchanged'}", listing, right, graph, answers[-1]

    with tempfile.TemporaryDirectory() as folder:
        runs = Runs(program, folder)
        runs.pairs(fresh())
    print(", ".join(f"{way} {n}" for way, n in ways.most_common()))
    print(f"checks {seed}: {len(answers)} pairs, by answer {counted(answers)}; {runs.wrong} different")
    return 1 if runs.wrong or not answers else 0


def large(program):
    """Each run has little memory: a graph file that is never held whole, a listing that is not read to its end, a listing at the limits."""
    with tempfile.TemporaryDirectory() as folder:
        runs = Runs(program, folder)
        listing, graph = runs.path("listing", EMPTY_LISTING), runs.path("graph", text("(graph 0 0") + b"(returns")
        with open(graph, "ab") as out:
            for _ in range(LARGE // LONGEST):
                out.write(b" 0" * (LONGEST // 2))
            size = out.tell()
        # The same row, with another last word.
        for last, number in ((b" 7", 32), (b" 07", 31)):
            os.truncate(graph, size)
            with open(graph, "ab") as out:
                out.write(last + b")\n)\n")
            runs.same(f"a row of {LARGE} bytes", runs.output(listing, graph, before=little_memory), printed((number, 1)))
        os.truncate(runs.path("graph", text(G)), LARGE)
        runs.same(f"{LARGE} bytes, nearly all of them 0", runs.output(listing, graph, before=little_memory), printed((31, 3)))
        runs.path("graph", text(G))
        os.truncate(listing, LARGE)
        runs.same(f"a listing of {LARGE} bytes", runs.output(listing, graph, before=little_memory), printed((1, 0)))
        listing, graph = map(runs.path, ("listing", "graph"), wide_pair())
        runs.same("the wide graph", runs.output(listing, graph, before=little_memory), printed(RIGHT))
    print(f"flowcheck with {MEMORY >> 20} MiB: {runs.count} long files; {runs.wrong} different")
    return 1 if runs.wrong else 0


# The stored pairs: four framed texts each, the listing, what flowlist prints for it, the graph file, the answer.

def write():
    oracle = find_oracle() or sys.exit(3)
    chosen, left = [], Counter(SHARES)
    for listing, right, graph, _ in pairs(oracle, SEED, 10 * left.total()):
        kind = kind_of(answer := due(listing, right, graph))
        if left[kind] > 0 and len(listing) + len(right) + len(graph) <= STORED_BYTES:
            left[kind] -= 1
            chosen.append((listing, right, graph, answer))
    with open(STORED, "wb") as out:
        out.write(b"".join(b"%d\n" % len(part) + part for pair in chosen for part in pair))
    print(f"{len(chosen)} pairs, by answer {counted(pair[3] for pair in chosen)}")


def stored_pairs():
    with open(STORED, "rb") as file:
        parts = list(framed(io.BytesIO(file.read())))
    if len(parts) % 4 or not parts:
        raise SystemExit(f"{STORED}: {len(parts)} texts are no pairs with their answers")
    return list(zip(*[iter(parts)] * 4))


def stored():
    found = stored_pairs()
    # The graphs by hand of the points and of the wide listing are the original's too.
    by_hand = dict.fromkeys([*((listing, right) for _, listing, right, _, _ in points()), wide_pair()])
    texts = [listing for listing, _, _, _ in found]
    oracle = find_oracle()
    if oracle:
        prints = due_answers(oracle, texts)
        again_by_hand = due_answers(oracle, [listing for listing, _ in by_hand])
    else:
        print("the original is not at hand: the stored graphs are not asked of it again")
        prints = [right if judge(listing) is None else written(listing) for listing, right, _, _ in found]
        again_by_hand = [written(listing) or right for listing, right in by_hand]
    wrong = 0
    for (listing, right), again in zip(by_hand, again_by_hand, strict=True):
        if right != again:
            wrong += 1
            print(f"a graph by hand is not the original's: {listing[:300]!r}\n  by hand {right[:300]!r}\n  due     {again[:300]!r}")
    for (listing, right, graph, answer), again in zip(found, prints, strict=True):
        if right != again or answer != due(listing, right, graph):
            wrong += 1
            print(f"{listing!r}\n{graph!r}\n  stored {right!r} {answer!r}\n  due    {again!r} {due(listing, again, graph)!r}")
    seen = Counter(kind_of(answer) for _, _, _, answer in found)
    lacking = [kind for kind in SHARES if seen[kind] != SHARES[kind]]
    print(f"stored checks: {len(found)} pairs, by answer {counted(answer for _, _, _, answer in found)}; {wrong} wrong")
    if lacking:
        print(f"not the due share of {', '.join(lacking)} among them")
    return 1 if wrong or lacking else 0


def judge_program(program):
    with tempfile.TemporaryDirectory() as folder:
        runs = Runs(program, folder)
        by_hand = runs.pairs((f"point {point}", *pair, printed(answer)) for point, *pair, answer in points())
        found = runs.pairs(("a stored pair", *pair) for pair in stored_pairs())
        long = runs.pairs(long_rows()) + runs.pairs(held_rows()) + runs.pairs(wide_files())
        names, bad = runs.names(), runs.bad_arguments()
    print(f"flowcheck: {by_hand} points by hand, {found} stored pairs, {long} long files, {names} odd names, "
          f"{bad} times bad arguments; {runs.wrong} different")
    return 1 if runs.wrong else 0


if __name__ == "__main__":
    match sys.argv[1:]:
        case ["write"]:
            write()
        case ["stored"]:
            sys.exit(stored())
        case ["judge", program]:
            sys.exit(judge_program(program))
        case ["large", program]:
            sys.exit(large(program))
        case ["compare", program, seed, count]:
            sys.exit(compare(program, seed, count))
        case _:
            sys.exit(__doc__)
