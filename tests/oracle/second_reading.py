#!/usr/bin/env python3
"""A second reading of document 01's refusals 1 to 8, from its text alone.

`judge(text)` answers None for a listing in form, else (number, place).
`holders(text)` says which IF holds each statement of a listing in form (document 02, L5), by its brackets alone.
As a program it reads framed texts (a row with the byte count, then the bytes) and writes
one row each: `accepted` or `(refused NUMBER PLACE)`.
"""

import re
import sys
from functools import lru_cache

BYTES, LINES, STATEMENTS, DEPTH, WORDS = 65536, 1024, 4096, 16, 64

NAME = re.compile(rb"[A-Z][A-Z0-9]{0,7}[%$]?")
# A word after the opening one: no space, no byte 10, no bracket.
WORD = re.compile(rb"[^ \n()]+")
DIGITS = re.compile(rb"[0-9]+")

BARE = {
    b"return", b"repeat", b"loop", b"until", b"endloop", b"exit", b"exitif",
    b"doif", b"else", b"done", b"clr", b"stop", b"any", b"plain",
}
TIERS = {b"static", b"framed", b"dispatched"}
MARKS = {b"plain", b"orphan"}
# How many branches each may hold.
BRANCHES = {b"if": (1, 1), b"ifelse": (2, 2), b"rcomp": (1, 2)}


class Row:
    """One row in form: its opening word, and what 3 to 8 ask about it."""

    __slots__ = ("word", "bad3", "value", "listed")

    def __init__(self, word, bad3=False, value=None, listed=0):
        self.word = word      # the opening word, or b")"
        self.bad3 = bad3      # some number or name in it is bad
        self.value = value    # the number of a line
        self.listed = listed  # how many numbers or slots


def bad_number(word):
    """Above 65535 or with a leading zero; the word is all digits."""
    return len(word) > 1 and word[:1] == b"0" or len(word) > 5 or int(word) > 65535


def bad_slot(word):
    return word != b"*" and not NAME.fullmatch(word)


def numbers_row(word, numbers, value=None, listed=0):
    """A row whose further words are numbers; one that is not all digits is 2."""
    if not all(DIGITS.fullmatch(n) for n in numbers):
        return None
    return Row(word, any(bad_number(n) for n in numbers), value, listed)


def held_row(word, rest):
    """A form that opens on its row without its closing bracket."""
    if word == b"module":
        return Row(word) if rest in ([b"0"], [b"1"]) else None
    if word == b"line":
        if len(rest) != 1:
            return None
        row = numbers_row(word, rest)
        if row and not row.bad3:
            row.value = int(rest[0])
        return row
    if word == b"stmts" or word in BRANCHES:
        return None if rest else Row(word)
    return None


def closed_row(word, rest):
    """A form that is whole on its row."""
    if word in BARE:
        return None if rest else Row(word)
    if word in (b"goto", b"gosub", b"to"):
        return numbers_row(word, rest) if len(rest) == 1 else None
    if word == b"run":
        return numbers_row(word, rest) if len(rest) <= 1 else None
    if word in (b"ongoto", b"ongosub"):
        return numbers_row(word, rest, listed=len(rest))
    if word == b"for":
        if len(rest) != 2 or rest[1] not in TIERS:
            return None
        return Row(word, not NAME.fullmatch(rest[0]))
    if word == b"next":
        if not rest or rest[0] not in MARKS:
            return None
        slots = rest[1:]
        return Row(word, any(bad_slot(s) for s in slots), listed=len(slots))
    return None


@lru_cache(maxsize=100000)
def form_of(row):
    """The row as a form, wherever it stands; None if it is no form (then it is 2)."""
    if row == b")":
        return Row(row)
    if row[:1] != b"(":
        return None
    closed = row[-1:] == b")"
    word, *rest = (row[1:-1] if closed else row[1:]).split(b" ")
    if not all(WORD.fullmatch(w) for w in rest):
        return None
    return closed_row(word, rest) if closed else held_row(word, rest)


class Open:
    """A form that is open: what it is, its depth if it holds statements, its branches."""

    __slots__ = ("word", "depth", "branches")

    def __init__(self, word, depth=0):
        self.word = word
        self.depth = depth    # of the statements held, or of the IF itself
        self.branches = 0


def allowed(form, top):
    """Is this form allowed here? `top` is the innermost open form."""
    if top.word == b"module":
        return form.word in (b")", b"line")
    if top.word in BRANCHES:
        least, most = BRANCHES[top.word]
        if form.word == b")":
            return top.branches >= least
        return form.word in (b"to", b"stmts") and top.branches < most
    # A line or a branch with statements.
    return form.word not in (b"module", b"line", b"to", b"stmts")


class Reading:
    def __init__(self):
        self.open = []
        self.ended = False
        self.last = -1
        self.lines = 0
        self.statements = 0

    def row(self, row):
        """The number of the row's refusal, the lowest that applies; None if it is good."""
        form = form_of(row)
        if form is None or self.ended:
            return 2
        if not self.open:
            if form.word != b"module":
                return 2
            self.open.append(Open(b"module"))
            return None
        top = self.open[-1]
        if not allowed(form, top):
            return 2
        if form.bad3:
            return 3
        if form.word == b")":
            self.open.pop()
            self.ended = not self.open
        elif form.word == b"line":
            return self.line(form)
        elif form.word in (b"to", b"stmts"):
            top.branches += 1
            if form.word == b"stmts":
                self.open.append(Open(form.word, top.depth + 1))
        else:
            return self.statement(form, top.depth)
        return None

    def line(self, form):
        if form.value <= self.last:
            return 4
        if self.lines == LINES:
            return 5
        self.last = form.value
        self.lines += 1
        self.open.append(Open(form.word, 0))
        return None

    def statement(self, form, depth):
        if self.statements == STATEMENTS:
            return 6
        if depth > DEPTH:
            return 7
        if form.listed > WORDS:
            return 8
        self.statements += 1
        if form.word in BRANCHES:
            self.open.append(Open(form.word, depth))
        return None


def judge(text):
    if len(text) > BYTES:
        return 1, 0
    rows = text.split(b"\n")
    rest = rows.pop()  # what stands after the last byte 10
    reading = Reading()
    for place, row in enumerate(rows):
        number = reading.row(row)
        if number is not None:
            return number, place
    if rest or not reading.ended:
        return 2, len(rows)
    return None


def holders(text):
    """For each statement in reading order the id of the nearest IF, IFELSE or RCOMP that is open where it stands, or None."""
    found, held = [], []
    for row in text.split(b"\n")[:-1]:
        word = form_of(row).word
        if word == b")":
            held.pop()
            continue
        around = held[-1] if held else None
        if word not in (b"module", b"line", b"to", b"stmts"):
            found.append(around)
        if row[-1:] != b")":
            held.append(len(found) - 1 if word in BRANCHES else around)
    return found


def written(text):
    """The refusal as a program prints it, or None."""
    found = judge(text)
    return None if found is None else b"(refused %d %d)\n" % found


def framed(stream):
    """The texts of a framed stream."""
    while count := stream.readline():
        yield stream.read(int(count))


def main():
    out = sys.stdout.buffer
    for text in framed(sys.stdin.buffer):
        out.write(written(text) or b"accepted\n")


if __name__ == "__main__":
    main()
