#!/usr/bin/env python3
"""A second reading of the program file (document 02, L3), from the papers' text alone.

`program(data)` answers the listing that the file means, as bytes in the bracket form, else (number, place).

    second_program.py [check]   hold it against the examples below and the programs of ../shared/programs
    second_program.py answers   framed files to framed answers: the listing, or a row `(refused NUMBER PLACE)`
"""

import pathlib
import re
import sys

sys.dont_write_bytecode = True
from second_reading import framed  # noqa: E402

BYTES, LINES, STATEMENTS, DEPTH, WORDS, NUMBER = 65536, 1024, 4096, 16, 64, 63999

END, FOR, NEXT, GOTO, RUN, IF, GOSUB = 0x80, 0x81, 0x82, 0x89, 0x8A, 0x8B, 0x8D
RETURN, STOP, ON, CLR, TO, THEN, GO = 0x8E, 0x90, 0x91, 0x9C, 0xA4, 0xA7, 0xCB
ZERO, COMMA, COLON, FOREIGN = 0x00, 0x2C, 0x3A, 0x64

# What covers bytes, each from its first byte, which is met bare itself:
# "Quoted bytes are no tokens"; "DATA runs to its colon", a colon outside quotes; "REM takes the rest of the line".
# Quotes left open run to the line's end. The leftmost piece wins: "of REM and DATA .. the first counts".
COVERS = re.compile(rb'"[^"]*"?|\x83(?:"[^"]*"?|[^":])*|\x8f.*', re.DOTALL)

# Where a statement ends, and what ends an expression after IF and ON: the first of these, or the statement's end without one.
# "GO then TO is GOTO", here too.
STATEMENT_END = re.compile(rb"[:\x00]")
IF_JUMP = re.compile(rb"\xa7|\x89|\xcb\xa4|[:\x00]")
ON_JUMP = re.compile(rb"\x89|\x8d|\xcb\xa4|[:\x00]")
DIGITS = re.compile(rb"[0-9]+")
# "Names start with a capital, may be of any length"; capitals and digits, then perhaps a kind (document 01).
NAME = re.compile(rb"([A-Z][A-Z0-9]*)([%$]?)")

ALONE = {END: b"(stop)", STOP: b"(stop)", RETURN: b"(return)", CLR: b"(clr)"}


class Lacking(Exception):
    """35: what is due does not stand at this index of the seen bytes."""

    def __init__(self, index):
        self.index = index


def seen_bytes(body, place):
    """The bytes that count, with their places: bare and no space ("Spaces outside quotes are skipped").

    A piece that is covered counts as its first byte, so the colon that ends DATA counts too.
    """
    bare = COVERS.sub(lambda piece: piece[0][:1].ljust(len(piece[0])), body)
    kept = [(place + index, byte) for index, byte in enumerate(bare) if byte != 0x20]
    return bytes(byte for _, byte in kept), [where for where, _ in kept]


def number(seen, index):
    """A line number from here, and where it ends. Its place is its first digit, or the byte found instead."""
    digits = DIGITS.match(seen, index)
    if not digits:
        raise Lacking(index)
    value = digits[0].lstrip(b"0") or b"0"
    if len(value) > 5 or int(value) > NUMBER:
        raise Lacking(index)
    return value, digits.end()


def name(seen, index):
    """A name from here, "cut to two characters", with its `%` or `$`, and where it ends."""
    word = NAME.match(seen, index)
    if not word:
        raise Lacking(index)
    return word[1][:2] + word[2], word.end()


def items(item, seen, index):
    """"a comma brings ON a further number and NEXT a further name": right after the one before."""
    found, index = item(seen, index)
    all_found = [found]
    while seen[index] == COMMA:
        found, index = item(seen, index + 1)
        all_found.append(found)
    return all_found


def jump_of(ends, seen, index):
    """The jump after an expression, and where it ends. Without one the place is "after an expression the statement's colon or zero"."""
    jump = ends.search(seen, index)
    if jump[0] in b":\x00":
        raise Lacking(jump.start())
    return jump[0], jump.end()


def row_of(seen, index):
    """A statement other than IF as its row, and how many numbers or slots it lists. Its rest is passed over."""
    first, after = seen[index], index + 1
    if first in ALONE:
        return ALONE[first], 0
    if first == FOR:
        return b"(for %s static)" % name(seen, after)[0], 0
    if first == NEXT:
        # "NEXT with no name first has the one slot `*`".
        slots = items(name, seen, after) if NAME.match(seen, after) else [b"*"]
        return b"(next plain %s)" % b" ".join(slots), len(slots)
    if first == GOTO or first == GO and seen[after] == TO:
        return b"(goto %s)" % number(seen, after + (first == GO))[0], 0
    if first == GOSUB:
        return b"(gosub %s)" % number(seen, after)[0], 0
    if first == RUN:
        # 35 does not speak of a RUN without a number.
        return (b"(run %s)" % number(seen, after)[0] if DIGITS.match(seen, after) else b"(run)"), 0
    if first == ON:
        # "ON has GOTO or GOSUB after its expression".
        jump, after = jump_of(ON_JUMP, seen, after)
        numbers = items(number, seen, after)
        return b"(%s %s)" % (b"ongosub" if jump[0] == GOSUB else b"ongoto", b" ".join(numbers)), len(numbers)
    return b"(plain)", 0


def statements(seen):
    """A line's statements in order: (depth, rows, numbers or slots listed). `seen` ends in the line's zero.

    An IF holds the rest of its line or kills it, so depths never fall.
    """
    found, depth, index = [], 0, 0
    while seen[index] != ZERO:
        if seen[index] == COLON:
            # "an empty statement makes no node".
            index += 1
        elif seen[index] != IF:
            row, listed = row_of(seen, index)
            found.append((depth, [row], listed))
            index = STATEMENT_END.search(seen, index).start()
        else:
            jump, index = jump_of(IF_JUMP, seen, index + 1)
            if jump[0] != THEN or DIGITS.match(seen, index):
                # "IF with THEN or GOTO and a number is a jump branch; the rest of that line makes no node".
                target, _ = number(seen, index)
                found.append((depth, [b"(if", b"(to %s)" % target, b")"], 0))
                return found
            if seen[index] == ZERO:
                # "or has only spaces after it to the line's end".
                raise Lacking(index)
            # "Any other THEN holds the rest of its line."
            found.append((depth, [b"(if", b"(stmts"], 0))
            depth += 1
    return found


def line_rows(value, found):
    """The line as the listing has it; every branch left open ends with the line."""
    rows = [b"(line %d" % value] + [row for _, rows, _ in found for row in rows]
    held = sum(rows[-1] == b"(stmts" for _, rows, _ in found)
    return rows + [b")", b")"] * held + [b")"]


def program(data):
    if len(data) > BYTES:
        return 1, 0
    rows, last, lines, count = [b"(module 0"], -1, 0, 0
    link = 2  # after the load address, which is not judged
    while True:
        # "A link of 0 ends the reading": a word, low byte first; both words have to be there.
        if len(data) < link + 2:
            return 33, len(data)
        if data[link:link + 2] == b"\x00\x00":
            return b"\n".join(rows + [b")", b""])
        if len(data) < link + 4:
            return 33, len(data)
        value = data[link + 2] + 256 * data[link + 3]

        # "The first offending byte decides", on one byte the lowest number: the least of (place, number).
        offences = []
        zero = data.find(b"\x00", link + 4)
        if zero < 0:
            zero = len(data)
            offences.append((zero, 33))
        if value > NUMBER:
            offences.append((link + 2, 35))
        seen, places = seen_bytes(data[link + 4:zero], link + 4)
        offences += [(place, 34) for place, byte in zip(places, seen) if byte == FOREIGN]
        try:
            found = statements(seen + b"\x00")
        except Lacking as lacking:
            offences.append(((places + [zero])[lacking.index], 35))
        if offences:
            place, refusal = min(offences)
            return refusal, place

        # "within a line 4 to 8 come after 33 to 35, lowest first, with the line index as place".
        count += len(found)
        if value <= last:
            return 4, lines
        if lines == LINES:
            return 5, lines
        if count > STATEMENTS:
            return 6, lines
        if any(depth > DEPTH for depth, _, _ in found):
            return 7, lines
        if any(listed > WORDS for _, _, listed in found):
            return 8, lines
        rows += line_rows(value, found)
        last, lines, link = value, lines + 1, zero + 1


def written(answer):
    """The answer as bytes: the listing, or the row that a program prints."""
    return b"(refused %d %d)\n" % answer if isinstance(answer, tuple) else answer


# Examples by hand, as the paper on reading L3 has them: its point, the bytes, the answer.
# Without "file" they are the bytes of line 10. An answer `35 at 8` is a refusal with its place; else it is the meant listing in
# short, after "file" with the line number first.
EXAMPLES = [
    ("1", "file 64 64 00 00", ""),
    ("2", "file 01 08 01 00 0A 00 41 00 00 00", "10 p"),
    ("2", "file 01 08 00 01 0A 00 41 00 00 00", "10 p"),
    ("3", "file 01 08 00 00 64 01 08", ""),
    ("4", "file 01", "33 at 1"),
    ("4", "file 01 08", "33 at 2"),
    ("4", "file 01 08 00", "33 at 3"),
    ("4", "file 01 08 01 08 0A", "33 at 5"),
    ("4", "file 01 08 01 08 0A 00 41", "33 at 7"),
    ("4", "file 01 08 01 08 0A 00 41 00", "33 at 8"),
    ("4", "file", "33 at 0"),
    ("5", "file 01 08 01 08 0A 00 22 00 00 00", "10 p"),
    ("6", "file 01 08 01 08 FF F9 00 00 00", "63999"),
    ("6", "file 01 08 01 08 00 FA 00 00 00", "35 at 4"),
    ("6", "file 01 08 01 08 00 FA", "35 at 4"),
    ("6", "file 01 08 01 08 00", "33 at 5"),
    ("7", "file 01 08 64 64 64 64 41 00 00 00", "25700 p"),
    ("10", "22 3A 22 3A 41", "p p"),
    ("10", "22 3A 41", "p"),
    ("11", "41 8F 3A 41", "p"),
    ("11", "89 31 30 8F 3A 41", "goto:10"),
    ("11", "8F 22 3A 41 22 3A 41", "p"),
    ("12", "83 22 3A 22 3A 41", "p p"),
    ("12", "83 22 3A 41", "p"),
    ("12", "41 83 22 3A 22 3A 41", "p p"),
    ("13", "83 8F 3A 41", "p p"),
    ("13", "8F 83 3A 41", "p"),
    ("14", "89 8F 31", "35 at 7"),
    ("14", "89 83 31", "35 at 7"),
    ("14", "81 22 41 22", "35 at 7"),
    ("14", "82 41 22 22 2C 42", "next:A"),
    ("15", "A0", "p"),
    ("15", "01", "p"),
    ("16", "89 20 31 20 30", "goto:10"),
    ("16", "81 41 20 42 20 25", "for:AB%"),
    ("16", "CB 20 A4 31", "goto:1"),
    ("16", "89 36 20 34 30 30 30", "35 at 7"),
    ("17", "20 3A 20 3A", ""),
    ("17", "8F", "p"),
    ("17", "83", "p"),
    ("17", "22", "p"),
    ("17", "3A 3A 41 3A", "p"),
    ("18", "99 89 31 30", "p"),
    ("18", "41 8E", "p"),
    ("18", "88 8B", "p"),
    ("19", "80 31", "stop"),
    ("19", "9A", "p"),
    ("19", "A2", "p"),
    ("20", "CB", "p"),
    ("20", "CB 31 30", "p"),
    ("20", "CB 3A A4 31", "p p"),
    ("20", "CB CB A4 31", "p"),
    ("20", "CB 41 A4 31", "p"),
    ("20", "8B 41 CB CB A4 31", "if:1"),
    ("20", "91 41 CB CB A4 31", "ongoto:1"),
    ("20", "CB A4", "35 at 8"),
    ("21", "89 30 30 31 30", "goto:10"),
    ("21", "89 31 2E 35", "goto:1"),
    ("21", "89 31 41 32", "goto:1"),
    ("21", "89 31 2C 32", "goto:1"),
    ("21", "89 36 33 39 39 39", "goto:63999"),
    ("21", "89 36 34 30 30 30", "35 at 7"),
    ("21", "89 20 30 36 34 30 30 30", "35 at 8"),
    ("21", "89 36 35 35 34 36", "35 at 7"),
    ("22", "89", "35 at 7"),
    ("22", "89 20 20", "35 at 9"),
    ("22", "89 41", "35 at 7"),
    ("22", "8D 3A", "35 at 7"),
    ("22", "89 2C 31", "35 at 7"),
    ("23", "8A", "run"),
    ("23", "8A 41", "run"),
    ("23", "8A 22 41 22", "run"),
    ("23", "8A 31 20 30", "run:10"),
    ("23", "8A 36 34 30 30 30", "35 at 7"),
    ("24", "81 43 4F 55 4E 54 25", "for:CO%"),
    ("24", "81 41 31 42 32", "for:A1"),
    ("24", "81 41 25 25", "for:A%"),
    ("24", "81 41 28 31 29", "for:A"),
    ("24", "81 41 C1", "for:A"),
    ("24", "81 61", "35 at 7"),
    ("24", "81 C1", "35 at 7"),
    ("24", "81 31", "35 at 7"),
    ("24", "81 A4 54 41 4C", "35 at 7"),
    ("24", "81 53 43 B0 45", "for:SC"),
    ("25", "82", "next:*"),
    ("25", "82 31", "next:*"),
    ("25", "82 2C 41", "next:*"),
    ("25", "82 2C", "next:*"),
    ("26", "82 41 25 2C 42", "next:A%,B"),
    ("26", "82 41 2C", "35 at 9"),
    ("26", "82 41 2C 2C 42", "35 at 9"),
    ("26", "82 41 2C 8F", "35 at 9"),
    ("26", "82 41 28 31 29 2C 42", "next:A"),
    ("26", "82 41 3B 2C", "next:A"),
    ("26", "82 41 20 42", "next:AB"),
    ("27", "91 89 31", "ongoto:1"),
    ("27", "91 41 8D 31 2C 32", "ongosub:1,2"),
    ("27", "91 22 8D 22 89 31", "ongoto:1"),
    ("27", "91 41 A7 89 31", "ongoto:1"),
    ("27", "91 41 89 31 8D 32", "ongoto:1"),
    ("28", "91 41 31 30", "35 at 10"),
    ("28", "91 41 3A 89 31", "35 at 8"),
    ("28", "91 41 8F 89 31", "35 at 11"),
    ("28", "91 41 83 89 3A 41", "35 at 10"),
    ("28", "91 41 89 42", "35 at 9"),
    ("28", "91 41 89 2C 31", "35 at 9"),
    ("28", "91 41 89 31 2C 3A", "35 at 11"),
    ("28", "91 41 89 31 2C 2C 32", "35 at 11"),
    ("29", "91 41 89 31 3B 2C", "ongoto:1"),
    ("29", "91 41 89 31 41 2C 32", "ongoto:1"),
    ("30", "8B 41 89 31 A7 32", "if:1"),
    ("30", "8B 41 CB A7 31", "if:1"),
    ("30", "8B A7 31", "if:1"),
    ("30", "8B 22 A7 3A 22 A7 31", "if:1"),
    ("30", "8B 41 8B 42 A7 31", "if:1"),
    ("30", "8B 41", "35 at 8"),
    ("30", "8B 41 3A A7 31", "35 at 8"),
    ("30", "8B 41 8D 31", "35 at 10"),
    ("30", "8B 41 8F A7 31", "35 at 11"),
    ("30", "8B 41 83 A7 3A 41", "35 at 10"),
    ("31", "8B 41 A7 31 30", "if:10"),
    ("31", "8B 41 89 31", "if:1"),
    ("31", "8B 41 A7 89 31", "if[ goto:1 ]"),
    ("31", "8B 41 A7 CB A4 31 3A 41", "if[ goto:1 p ]"),
    ("32", "8B 41 A7 31 3A 41 3A 89", "if:1"),
    ("32", "8B 41 A7 31 3A 64", "34 at 11"),
    ("32", "8B 41 A7 31 22 64", "if:1"),
    ("32", "8B 41 A7 31 83 64 3A 64", "34 at 13"),
    ("32", "8B 41 A7 31 8F 3A 64", "if:1"),
    ("32", "8B 41 A7 31 3A 89 3A 64", "34 at 13"),
    ("33", "8B 41 A7 41 3A 8E", "if[ p return ]"),
    ("33", "41 3A 8B 41 A7 8B 42 A7 31 3A 41", "p if[ if:1 ]"),
    ("33", "8B 41 A7 2D 31", "if[ p ]"),
    ("33", "8B 41 A7 22 31 22", "if[ p ]"),
    ("34", "8B 41 A7", "35 at 9"),
    ("34", "8B 41 A7 20 20", "35 at 11"),
    ("34", "8B 41 A7 3A", "if[ ]"),
    ("34", "8B 41 A7 3A 31", "if[ p ]"),
    ("34", "8B 41 A7 8F", "if[ p ]"),
    ("34", "8B 41 89 3A", "35 at 9"),
    ("34", "8B 41 89 42", "35 at 9"),
    ("35", "41 A7 31 3A 41", "p p"),
    ("35", "A7 31", "p"),
    ("35", "8B 41 A7 A7 31", "if[ p ]"),
    ("36", "41 64", "34 at 7"),
    ("36", "22 64 22 64", "34 at 9"),
    ("36", "83 64", "p"),
    ("36", "83 64 3A 64", "34 at 9"),
    ("36", "8F 64", "p"),
    ("36", "CB 64 A4 31", "34 at 7"),
    ("37", "8B 41 3A 64", "35 at 8"),
    ("37", "8B 41 64 3A", "34 at 8"),
    ("37", "89 36 34 30 30 30 64", "35 at 7"),
    ("37", "89 36 34 30 30 64 30", "34 at 11"),
    ("37", "89 41 64", "35 at 7"),
    ("37", "81 64", "34 at 7"),
    ("37", "89 64", "34 at 7"),
    ("37", "82 41 2C 64", "34 at 9"),
    ("38", "file 01 08 01 08 0A 00 89 41", "35 at 7"),
    ("38", "file 01 08 01 08 0A 00 89", "33 at 7"),
    ("38", "file 01 08 01 08 0A 00 8B 41 A7", "33 at 9"),
    ("38", "file 01 08 01 08 0A 00 89 36 34 30 30 30", "35 at 7"),
    ("38", "file 01 08 01 08 0A 00 89 36 34 30 30", "33 at 11"),
    ("39", "file 01 08 01 08 0A 00 00 01 08 09 00 41 00", "4 at 1"),
    ("39", "file 01 08 01 08 0A 00 00 01 08 09 00 41", "33 at 12"),
    ("39", "file 01 08 01 08 0A 00 00 01 08 09 00 64 00 00 00", "34 at 11"),
]


def file_of(example):
    if example.startswith("file"):
        return bytes.fromhex(example[4:])
    return bytes.fromhex("01 08 01 08 0A 00" + example + "00 00 00")


def row_in_full(word):
    """A statement in short, its row in full."""
    form, _, rest = word.partition(":")
    rest = rest.replace(",", " ")
    return {"p": "(plain)", "for": f"(for {rest} static)", "next": f"(next plain {rest})"}.get(form) or f"({form} {rest})".replace(" )", ")")


def in_full(example, short):
    """The answer in short as `program` gives it."""
    refusal = re.fullmatch("([0-9]+) at ([0-9]+)", short)
    if refusal:
        return int(refusal[1]), int(refusal[2])
    words = short.split()
    if not example.startswith("file"):
        words.insert(0, "10")
    rows = ["(module 0"]
    for index, word in enumerate(words):
        if index == 0:
            rows.append(f"(line {word}")
        elif word == "if[":
            rows += ["(if", "(stmts"]
        elif word == "]":
            rows += [")", ")"]
        elif word.startswith("if:"):
            rows += ["(if", f"(to {word[3:]})", ")"]
        else:
            rows.append(row_in_full(word))
    rows += [")"] if words else []
    return "\n".join(rows + [")", ""]).encode("ascii")


def check_examples(read):
    """Does this reading give every example's answer?"""
    for point, example, short in EXAMPLES:
        found, due = read(file_of(example)), in_full(example, short)
        if found != due:
            sys.exit(f"point {point}, {example}: {written(found)} instead of {short}")
    return len(EXAMPLES)


def shared_programs():
    """The programs beside the repository, sorted, or none."""
    folder = pathlib.Path(__file__).resolve().parents[3] / "shared" / "programs"
    return sorted(folder.glob("*.prg"))


def check():
    print(f"program files: {check_examples(program)} examples by hand")
    saved = shared_programs()
    for path in saved:
        if program(path.read_bytes()) != path.with_suffix(".listing").read_bytes():
            sys.exit(f"{path.name}: not its listing")
    print(f"program files: {len(saved)} saved programs, each its listing" if saved
          else "program files: no saved programs beside the repository, none read")


def main():
    command = sys.argv[1:]
    if command in ([], ["check"]):
        check()
    elif command == ["answers"]:
        out = sys.stdout.buffer
        for data in framed(sys.stdin.buffer):
            answer = written(program(data))
            out.write(b"%d\n%s" % (len(answer), answer))
    else:
        sys.exit(__doc__)


if __name__ == "__main__":
    main()
