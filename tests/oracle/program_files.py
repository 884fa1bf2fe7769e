#!/usr/bin/env python3
"""Random program files (document 02, L3), the same for the same seed.

    program_files.py KIND SEED COUNT      framed files
    program_files.py check [SEED COUNT]   both readings, second_program.py and program_machine.py, on COUNT files of each kind

Kinds: `meant` (a random listing that BASIC V2 can write, spelled in bytes with all that a file may hold besides), `typed` (one typed
and tokenized), `named` (one with names of up to eight characters, by either way), `soup` (tokens and other telling bytes at random), `damaged` (files of the other kinds cut, flipped, with bytes put in
or taken out), `limits` (fixed files beside each limit; seed and count are not read). What `meant`, `typed` and `named`
files mean is known from their making, what `limits` give is written by hand.
"""

import collections
import random
import re
import sys

sys.dont_write_bytecode = True
import program_machine  # noqa: E402
import second_program  # noqa: E402
from tokenizer import linked, saved  # noqa: E402

UNKNOWN = None

# A statement is (word, item ..): ("plain",), ("goto", 10), ("ongosub", 1, 2), ("for", "AB%"), ("next", "A", "B"), ("run",), ("run", 5),
# ("to", 10) for an IF that jumps, ("if", [statements]) for one that holds the rest of its line. A line is (number, [statements]).


def rows_of(statement):
    word, *rest = statement
    if word == "to":
        return ["(if", f"(to {rest[0]})", ")"]
    if word == "if":
        return ["(if", "(stmts", *(row for inner in rest[0] for row in rows_of(inner)), ")", ")"]
    if word == "for":
        return [f"(for {rest[0]} static)"]
    return ["(" + " ".join([word, *(["plain"] if word == "next" else []), *map(str, rest)]) + ")"]


def listing(lines):
    rows = ["(module 0"]
    for number, statements in lines:
        rows += [f"(line {number}", *(row for statement in statements for row in rows_of(statement)), ")"]
    return "\n".join(rows + [")", ""]).encode("ascii")


# Random listings of the shape that a file can mean: IFs stand last.

# Letters of which no keyword is made, alone or with one after them, so that the names can be typed too.
LETTERS, DIGITS = "ABCDIJKLQXYZ", "0123456789"
SIMPLE = ["plain", "plain", "plain", "goto", "gosub", "return", "run", "runto", "ongoto", "ongosub", "for", "for", "next", "next", "clr", "stop"]


def some_name(rng):
    return rng.choice(LETTERS) + rng.choice(["", rng.choice(LETTERS + DIGITS)]) + rng.choice(["", "", "%", "$"])


def some_statement(rng, numbers):
    def number():
        return rng.choice([rng.choice(numbers), rng.choice(numbers), rng.randrange(64000), 63999, 0])

    word = rng.choice(SIMPLE)
    if word in ("goto", "gosub"):
        return word, number()
    if word == "runto":
        return "run", number()
    if word in ("ongoto", "ongosub"):
        return word, *(number() for _ in range(rng.choice([1, 1, 2, 3, 5])))
    if word == "for":
        return word, some_name(rng)
    if word == "next":
        return word, *([some_name(rng) for _ in range(rng.choice([0, 1, 1, 2, 4]))] or ["*"])
    return (word,)


def some_statements(rng, numbers, depth=0):
    found = [some_statement(rng, numbers) for _ in range(rng.choice([0, 1, 1, 2, 3]))]
    if rng.random() < 0.35:
        if rng.random() < 0.4 or depth >= 16:
            found.append(("to", rng.choice(numbers)))
        else:
            found.append(("if", some_statements(rng, numbers, depth + 1)))
    return found


def some_lines(rng):
    numbers = sorted(rng.sample(rng.choice([range(12), range(1000), range(64000)]), rng.choice([1, 1, 2, 3, 5, 8])))
    return [(number, some_statements(rng, numbers)) for number in numbers]


# Spelled in bytes. What is passed over is any byte that does not end it.

TOKENS = {"goto": b"\x89", "gosub": b"\x8D", "run": b"\x8A", "for": b"\x81", "next": b"\x82", "return": b"\x8E", "clr": b"\x9C"}
GO_TO = b"\xCB\xA4"
# First bytes of a statement that is plain: neither one of the tokens that count nor a space, a colon or the foreign byte.
PLAIN = bytes(sorted(set(range(1, 256)) - set(b" :\x64\x80\x81\x82\x89\x8A\x8B\x8D\x8E\x90\x91\x9C\xCB\x22\x83\x8F")))
# Bytes that go on: not those that cover others, the colon and the foreign byte.
PASSED = bytes(sorted(set(range(1, 256)) - set(b':\x64"\x83\x8F')))
CAPITALS, NAME_BYTES = b"ABCDEFGHIJKLMNOPQRSTUVWXYZ", b"ABCDEFGHIJKLMNOPQRSTUVWXYZ0123456789"
# Often met, so that what is passed over looks like more than noise.
TELLING = b"\x89\x8D\xA7\xCB\xA4\x8B\x91\x82\x2C\x30\x35\x41\x25\x24\x20\x2E"


def byte_of(rng, allowed, never=b""):
    """One of the bytes allowed and none of `never`, every other time one of the telling ones."""
    while True:
        byte = rng.choice(TELLING if rng.random() < 0.5 else allowed)
        if byte in allowed and byte not in never:
            return bytes([byte])


def quoted(rng, last=False):
    inner = bytes(rng.choice(b'\x64:\x89\xA7\x8F\x83 A1,\xFF\x01') for _ in range(rng.randrange(4)))
    return b'"' + inner + (b"" if last and rng.random() < 0.3 else b'"')


def data_part(rng, last):
    parts = [rng.choice([b"\x64", b"\x8F", b"\x83", b"1", b",", b"\x89", b" ", b"\xA7", quoted(rng)]) for _ in range(rng.randrange(4))]
    return b"\x83" + b"".join(parts) + (quoted(rng, True) if last and rng.random() < 0.2 else b"")


def remark(rng):
    return b"\x8F" + bytes(rng.choice(b'\x64:"\x83\x89A1 \xA7') for _ in range(rng.randrange(5)))


def rest(rng, last, not_first=b""):
    """What is passed over to the statement's end; its first seen byte is none of `not_first`."""
    out, first = b"", True
    for _ in range(rng.choice([0, 0, 0, 1, 2, 5])):
        kind = rng.random()
        if kind < 0.75:
            out += byte_of(rng, PASSED, not_first + b" " if first else b"")
        elif kind < 0.9:
            out += quoted(rng)
        else:
            return out + data_part(rng, last)
        first = False
    if last and rng.random() < 0.15:
        out += remark(rng)
    elif last and rng.random() < 0.05:
        out += quoted(rng, True)
    return out


def expression(rng, never):
    """Bytes between IF or ON and its jump: none of `never`, no TO after GO."""
    out, after_go = b"", False
    for _ in range(rng.choice([0, 1, 1, 2, 4])):
        if rng.random() < 0.2:
            out, after_go = out + quoted(rng), False
            continue
        byte = byte_of(rng, PASSED, never + b"\xA4" if after_go else never)
        out += byte
        if byte != b" ":
            after_go = byte == b"\xCB"
    return out


def spelled_number(rng, number):
    return b"0" * rng.choice([0, 0, 0, 0, 1, 3]) + b"%d" % number


def spelled_name(rng, name):
    kind = name[len(name.rstrip("%$")):]
    letters = name[:len(name) - len(kind)].encode("ascii")
    if len(letters) == 2:
        letters += bytes(rng.choice(NAME_BYTES) for _ in range(rng.choice([0, 0, 1, 3, 9])))
    return letters + kind.encode("ascii")


def spelled_list(rng, spell, found):
    return b",".join(spell(rng, item) for item in found)


def spelled_goto(rng):
    return rng.choice([b"\x89", b"\x89", GO_TO])


def after_name(name):
    """What cannot follow a name at once without being part of it."""
    return b"" if name[-1] in "%$" else NAME_BYTES + b"%$"


def spelled_plain(rng, last):
    kind = rng.random()
    if kind < 0.6:
        return byte_of(rng, PLAIN) + rest(rng, last)
    if kind < 0.7:
        return quoted(rng, last) if last else quoted(rng) + rest(rng, last)
    if kind < 0.8:
        return data_part(rng, last)
    if kind < 0.9 or not last:
        return b"\xCB" + rest(rng, last, not_first=b"\xA4")
    return remark(rng)


def spelled(rng, statement, last):
    """A statement other than IF, without its colon; `last` where the line ends after it."""
    word, *found = statement
    if word == "plain":
        return spelled_plain(rng, last)
    if word == "stop":
        return rng.choice([b"\x80", b"\x90"]) + rest(rng, last)
    if word in ("return", "clr"):
        return TOKENS[word] + rest(rng, last)
    if word in ("goto", "gosub", "run") and found:
        token = spelled_goto(rng) if word == "goto" else TOKENS[word]
        return token + spelled_number(rng, found[0]) + rest(rng, last, b"0123456789")
    if word == "run":
        return TOKENS[word] + rest(rng, last, b"0123456789")
    if word == "for":
        return TOKENS[word] + spelled_name(rng, found[0]) + rest(rng, last, after_name(found[0]))
    if word == "next":
        if found == ["*"]:
            return TOKENS[word] + rest(rng, last, CAPITALS)
        return TOKENS[word] + spelled_list(rng, spelled_name, found) + rest(rng, last, after_name(found[-1]) + b",")
    token = spelled_goto(rng) if word == "ongoto" else TOKENS["gosub"]
    return (b"\x91" + expression(rng, b"\x89\x8D") + token + spelled_list(rng, spelled_number, found)
            + rest(rng, last, b"0123456789,"))


def dead_rest(rng):
    """After a jump branch anything may stand but the foreign byte; statements that would be refused elsewhere."""
    if rng.random() < 0.5:
        return rest(rng, True, b"0123456789")
    parts = [rng.choice([b"\x89", b"\x8B", b"\x91A", b"\x81", b"\x82A,", b"\x8964000", b"A", b"\xA7", quoted(rng), data_part(rng, False)])
             for _ in range(rng.randrange(3))]
    return b":" + b":".join(parts) + (b":" + rest(rng, True) if rng.random() < 0.3 else b"")


def colons(rng):
    return b":" * rng.choice([0, 0, 0, 0, 1, 2])


def spelled_statements(rng, statements, after_then=False):
    """Statements to the line's end. After THEN a digit would be a number, and nothing at all is refused: a colon keeps them off."""
    parts = []
    for index, statement in enumerate(statements):
        last = index == len(statements) - 1
        if statement[0] == "to":
            then = rng.choice([b"\xA7", b"\xA7", spelled_goto(rng)])
            parts.append(b"\x8B" + expression(rng, b"\x89\xA7") + then + spelled_number(rng, statement[1]) + dead_rest(rng))
        elif statement[0] == "if":
            parts.append(b"\x8B" + expression(rng, b"\x89\xA7") + b"\xA7" + spelled_statements(rng, statement[1], True))
        else:
            ending = last and rng.random() < 0.7
            parts.append(spelled(rng, statement, ending) + (b"" if ending or not last else b":"))
    out = colons(rng) + b"".join((b":" + colons(rng) if index else b"") + part for index, part in enumerate(parts))
    if after_then and (not out or out[:1] in b"0123456789"):
        out = b":" + out
    return out


def spaced(rng, body):
    """Spaces anywhere: outside quotes they are skipped, inside they are covered."""
    if rng.random() < 0.5:
        return body
    return b"".join(bytes([byte]) + b" " * (rng.random() < 0.15) for byte in b" " * rng.randrange(2) + body)


def kept_lines(rng, lines):
    return [(number, spaced(rng, spelled_statements(rng, statements))) for number, statements in lines]


def strange_file(rng, kept):
    """Load address, links and what follows the end do not matter."""
    out = rng.randbytes(2)
    for number, body in kept:
        out += rng.choice([b"\x01\x08", b"\x00\x01", b"\x01\x00", b"\x64\x64", b"\xFF\xFF"])
        out += number.to_bytes(2, "little") + body + b"\x00"
    return out + b"\x00\x00" + rng.choice([b"", b"", b"\x00", b"\x64\x01", rng.randbytes(5)])


def spelled_file(rng, lines):
    """These lines, spelled in bytes."""
    kept = kept_lines(rng, lines)
    return linked(kept) if rng.random() < 0.5 else strange_file(rng, kept)


def meant(rng):
    lines = some_lines(rng)
    return spelled_file(rng, lines), listing(lines)


# Typed.

TYPED_PLAIN = ['PRINT "TO: ";A$', "?", 'A$="GOTO 10:"+B$', "LET Q=1", "POKE 53280,0", 'DATA 1,"A:B",REM', "READ A,B", "GET K$", "INPUT#1,A$",
               "PRINT#1,X", "DEF FNA(X)=X*2", "OPEN 1,8,1", "CLOSE 1", "X=X+1", "A(I)=-1", "WAIT 1,2", "SYS 64738", "RESTORE", "CONT", "DATA",
               "DATA THEN,{41}", "L%=3", 'PRINT "{93}{64}";']
TYPED_LAST = ["REM", "REM A:GOTO 10", 'PRINT "OPEN', 'DATA "OPEN:A']
TYPED_EXPRESSION = ["A", "A=1", 'A$="THEN:"', "A<>B ANDX>2", "NOT Q", "LEFT$(A$,1)=CHR$(34)", "(A+B)/2", "PEEK(1)=0OR-X"]


def typed_name(rng, name):
    kind = name[len(name.rstrip("%$")):]
    letters = name[:len(name) - len(kind)]
    return letters + ("".join(rng.choice(LETTERS + DIGITS) for _ in range(rng.choice([0, 0, 2, 6]))) if len(letters) == 2 else "") + kind


def typed_statement(rng, statement):
    word, *found = statement
    joined = ",".join(str(item) if isinstance(item, int) else typed_name(rng, item) for item in found if item != "*")
    if word == "plain":
        return rng.choice(TYPED_PLAIN)
    if word == "for":
        return f"FOR {joined}=" + rng.choice(["1 TO 10", "A TO B STEP -1", "0 TO X*2"])
    if word in ("ongoto", "ongosub"):
        jump = rng.choice(["GOTO", "GO TO"]) if word == "ongoto" else "GOSUB"
        return f"ON {rng.choice(TYPED_EXPRESSION)} {jump} {joined}"
    if word == "goto":
        word = rng.choice(["GOTO", "GO TO"])
    return f"{rng.choice(['END', 'STOP']) if word == 'stop' else word.upper()} {joined}"


def typed_statements(rng, statements, after_then=False):
    parts = []
    for statement in statements:
        if statement[0] in ("to", "if"):
            condition = f"IF {rng.choice(TYPED_EXPRESSION)} "
            if statement[0] == "to":
                parts.append(f"{condition}{rng.choice(['THEN', 'GOTO', 'GO TO'])} {statement[1]}" + rng.choice(["", ":PRINT", ":GOTO", "REM"]))
            else:
                parts.append(f"{condition}THEN " + typed_statements(rng, statement[1], True))
        elif statement[0] == "plain" and statement is statements[-1] and rng.random() < 0.3:
            parts.append(rng.choice(TYPED_LAST))
        else:
            parts.append(typed_statement(rng, statement))
    return ":".join(parts) or (":" if after_then else "")


def closed_up(text):
    """Typed without spaces outside quotes."""
    return '"'.join(part if index % 2 else part.replace(" ", "") for index, part in enumerate(text.split('"')))


def typed_file(rng, lines):
    """These lines, typed and tokenized."""
    rows = []
    for number, statements in lines:
        # A number alone would delete its line.
        row = typed_statements(rng, statements) or ":"
        rows.append(f"{number} {closed_up(row) if rng.random() < 0.4 else row}")
    if rng.random() < 0.3:
        rng.shuffle(rows)
    return saved("\n".join(rows).encode("ascii"))


def typed(rng):
    lines = some_lines(rng)
    return typed_file(rng, lines), listing(lines)


# Listings whose names are cut on the way: written as files and read back.

def long_name(rng):
    letters = [rng.choice(LETTERS)] + [rng.choice(LETTERS + DIGITS) for _ in range(rng.choice([0, 1, 2, 4, 7]))]
    return "".join(letters) + rng.choice(["", "", "%", "$"])


def renamed(rng, statement):
    word, *found = statement
    if word == "if":
        return word, [renamed(rng, inner) for inner in found[0]]
    if word in ("for", "next"):
        return word, *(item if item == "*" else long_name(rng) for item in found)
    return statement


def cut(text):
    """A listing's text, its names cut to two characters and their kind (document 02, L2)."""
    return re.sub(rb"(?<= )([A-Z][A-Z0-9]?)[A-Z0-9]*([%$]?)(?=[ )])", rb"\1\2", text)


def named(rng):
    lines = [(number, [renamed(rng, statement) for statement in statements]) for number, statements in some_lines(rng)]
    return rng.choice([spelled_file, typed_file])(rng, lines), cut(listing(lines))


# Soup and damage.

# Pieces, parted by spaces, in hexadecimal: tokens, beginnings of statements, and what else tells.
SOUP = [bytes.fromhex(piece) for piece in """
80 81 82 83 89 8A 8B 8D 8E 8F 90 91 9C A4 A7 CB CBA4 CBCB
8B41A7 8B41A7 8B4189 914189 91418D 893130 8141 8241 822C 8F22
22 3A 3A 3A 3A 2C 2C 20 20 25 24 41 4231 5A 30 31 39 3130 3633393939 36343030 3634303030
2E 28 01 40 5B 2F 3B 61 C1 99 B2""".split()]


def soup_body(rng):
    pieces = SOUP + [b"\x64"] * rng.choice([0, 0, 1, 4])
    return b"".join(rng.choice(pieces) for _ in range(rng.choice([1, 2, 3, 4, 5, 6, 8, 12, 20])))


def soup(rng):
    numbers = [rng.choice([5, 9, 10, 256, 63999, 64000 - (rng.random() < 0.7)]) for _ in range(rng.choice([1, 1, 1, 2, 3]))]
    if rng.random() < 0.8:
        numbers = sorted(set(numbers))
    return linked((number, soup_body(rng)) for number in numbers), UNKNOWN


def damaged(rng):
    data = bytearray(rng.choice([meant, meant, typed, soup])(rng)[0])
    for _ in range(rng.choice([1, 1, 1, 2, 3])):
        kind, at = rng.randrange(6), rng.randrange(len(data) + 1)
        if kind == 0:
            del data[at:]
        elif kind == 1 and at < len(data):
            data[at] ^= 1 << rng.randrange(8)
        elif kind == 2 and at < len(data):
            data[at] = rng.choice(SOUP + [b"\x00", b"\x64"])[0]
        elif kind == 3:
            data[at:at] = rng.choice(SOUP + [b"\x00", b"\x64"])
        elif kind == 4:
            del data[at:at + rng.choice([1, 1, 2, 5])]
        else:
            data[at:at] = data[rng.randrange(len(data) + 1):][:rng.choice([1, 4, 12])]
    return bytes(data), UNKNOWN


# At the limits. Answers by hand.

def body_of(size, piece=b"A", head=b""):
    return (head + piece * size)[:size]


def repeated(count, number_from=0, body=b""):
    return [(number_from + index, body) for index in range(count)]


def nested(count, inner):
    return b"\x8BA\xA7" * count + inner


def if_tree(count, inner):
    for _ in range(count):
        inner = [("if", inner)]
    return inner


def limits():
    """(what it is, the file, the answer)."""
    plain, hundred = ("plain",), b"A" + b":A" * 99
    forty = [(number, hundred) for number in range(40)]          # 4,000 statements
    to_the_limit = forty + [(40, b"A" + b":A" * 95)]             # 4,096
    full = repeated(1024)

    # 2 + 4 + body + 1 + 2 bytes.
    yield "65,536 bytes, one remark", linked([(10, body_of(65527, b":", b"\x8F"))]), listing([(10, [plain])])
    yield "65,537 bytes", linked([(10, body_of(65528, b":", b"\x8F"))]), (1, 0)
    yield "65,537 bytes, a foreign byte first", linked([(10, body_of(65528, b"\x64"))]), (1, 0)
    yield "65,537 zeros", bytes(65537), (1, 0)
    yield "65,536 zeros", bytes(65536), listing([])
    yield "65,536 bytes without an end", b"\x01\x08\x01\x08\x0A\x00" + body_of(65530), (33, 65536)
    yield "one byte short of its end, 65,536 bytes", linked([(10, body_of(65528))])[:-1], (33, 65536)
    yield "the foreign byte last, 65,536 bytes", linked([(10, body_of(65526) + b"\x64")]), (34, 65532)
    yield "a number of 65,500 digits", linked([(10, b"\x89" + b"0" * 65495 + b"63999")]), listing([(10, [("goto", 63999)])])
    yield "a number of 65,500 digits, too large", linked([(10, b"\x89" + b"0" * 65495 + b"64000")]), (35, 7)
    yield "a name of 65,000 letters", linked([(10, b"\x81" + body_of(65000, b"A1B") + b"%")]), listing([(10, [("for", "A1%")])])
    yield "65,000 colons", linked([(10, b":" * 65000)]), listing([(10, [])])

    yield "1,024 lines", linked(full), listing((number, []) for number, _ in full)
    yield "1,025 lines", linked(full + [(1024, b"")]), (5, 1024)
    yield "1,025 lines, no end", linked(full + [(1024, b"")])[:-2], (5, 1024)
    yield "line 1,025 cut", linked(full + [(1024, b"A")])[:-3], (33, 2 + 1024 * 5 + 5)
    yield "line 1,025 with the foreign byte", linked(full + [(1024, b"A\x64")]), (34, 2 + 1024 * 5 + 5)
    yield "line 1,025 without its number", linked(full + [(1024, b"\x89")]), (35, 2 + 1024 * 5 + 5)
    yield "line 1,025 not above the last", linked(full + [(1023, b"")]), (4, 1024)
    yield "line 1,025 with statement 4,097", linked(repeated(1024, body=b"A:A:A:A") + [(1024, b"A")]), (5, 1024)
    yield "lines after the end", linked(full) + linked([(2000, b"\x64")]), listing((number, []) for number, _ in full)

    yield "4,096 statements", linked(to_the_limit), listing([(n, [plain] * (100 if n < 40 else 96)) for n in range(41)])
    yield "4,097 statements", linked(to_the_limit + [(41, b""), (42, b"A")]), (6, 42)
    yield "4,096 statements in a line", linked([(7, b"A" + b":A" * 4095)]), listing([(7, [plain] * 4096)])
    yield "4,097 statements in a line", linked([(7, b"A" + b":A" * 4096)]), (6, 0)
    yield "4,097 statements and no more", linked([(7, b"A" + b":A" * 4096)])[:-2], (6, 0)
    yield "4,097 statements, then the foreign byte", linked([(7, b"A" + b":A" * 4096 + b"\x64")]), (34, 6 + 2 * 4096 + 1)
    yield "4,096 statements and empty ones", linked([(7, b"A" + b":A" * 4095 + b": :" * 50)]), listing([(7, [plain] * 4096)])
    yield "4,096 statements, the last a jump with a dead rest", linked([(7, b"A:" * 4095 + b"\x8BA\xA71" + b":A" * 5000)]), \
        listing([(7, [plain] * 4095 + [("to", 1)])])
    yield "4,097 statements of which the last is held", linked([(7, b"A:" * 4095 + b"\x8BA\xA7A")]), (6, 0)
    yield "4,096 statements, a held jump", linked([(7, b"A:" * 4094 + b"\x8BA\xA7\x8BA\xA75")]), \
        listing([(7, [plain] * 4094 + [("if", [("to", 5)])])])
    yield "too many and not above the last", linked(to_the_limit + [(40, b"A")]), (4, 41)

    for depth in (15, 16):
        yield f"depth {depth}", linked([(10, nested(depth, b"A:\x8E"))]), listing([(10, if_tree(depth, [plain, ("return",)]))])
    yield "depth 17", linked([(10, nested(17, b"A"))]), (7, 0)
    yield "depth 17 in the second line", linked([(10, b""), (20, b"A:" + nested(17, b"\x82"))]), (7, 1)
    yield "17 IFs, the last with an empty branch", linked([(10, nested(17, b":"))]), listing([(10, if_tree(17, []))])
    yield "17 IFs, the last a jump", linked([(10, nested(17, b"1"))]), listing([(10, if_tree(16, [("to", 1)]))])
    yield "18 IFs, the last a jump", linked([(10, nested(18, b"1"))]), (7, 0)
    yield "17 IFs, the last without anything", linked([(10, nested(17, b" "))]), (35, 6 + 51 + 1)
    yield "depth 17, then the foreign byte", linked([(10, nested(17, b"A:\x64"))]), (34, 6 + 51 + 2)
    yield "depth 17, cut", linked([(10, nested(17, b"A"))])[:-3], (33, 6 + 52)
    yield "4,096 IFs", linked([(10, nested(4096, b":"))]), (7, 0)
    yield "4,097 IFs", linked([(10, nested(4097, b":"))]), (6, 0)
    yield "21,000 IFs", linked([(10, nested(21000, b":"))]), (6, 0)
    yield "depth 17 and 4,096 statements", linked([(10, nested(17, b"A:" * 4078 + b"A"))]), (7, 0)
    yield "depth 17 first, statement 4,097 last", linked([(10, nested(17, b"A:" * 4079 + b"A"))]), (6, 0)

    for word, token, item, items in (("ongoto", b"\x91A\x89", b"5", 5), ("ongoto", b"\x91A\xCB\xA4", b"63999", 63999),
                                     ("ongosub", b"\x91A\x8D", b"0", 0), ("next", b"\x82", b"AB%", "AB%")):
        head = len(token) + 6
        yield f"{word} with 64", linked([(10, token + b",".join([item] * 64))]), listing([(10, [(word, *[items] * 64)])])
        yield f"{word} with 65", linked([(9, b""), (10, token + b",".join([item] * 65))]), (8, 1)
        yield f"{word} with 64 and a comma", linked([(10, token + (item + b",") * 64)]), (35, head + 64 * (len(item) + 1))
        yield f"{word} with 65 and the foreign byte", linked([(10, token + (item + b",") * 64 + item + b"\x64")]), \
            (34, head + 65 * (len(item) + 1) - 1)
    yield "a number past the 64th too large", linked([(10, b"\x91A\x89" + b"1," * 70 + b"64000")]), (35, 9 + 140)
    yield "65 slots in a dead rest", linked([(10, b"\x8BA\xA71:\x82" + b",".join([b"A"] * 65))]), listing([(10, [("to", 1)])])
    yield "depth 17 and 65 numbers", linked([(10, b"\x91A\x89" + b",".join([b"1"] * 65) + b":" + nested(17, b"A"))]), (7, 0)
    yield "65 slots at depth 16", linked([(10, nested(16, b"\x82" + b",".join([b"A"] * 65)))]), (8, 0)
    yield "NEXT with 65 commas", linked([(10, b"\x82" + b"," * 65)]), listing([(10, [("next", "*")])])

    for number, answer in ((63999, listing([(63999, [plain])])), (64000, (35, 4)), (65535, (35, 4))):
        yield f"line {number}", linked([(number, b"A")]), answer
    for number in (0, 63999, 64000, 65535, 65536, 65536 + 10, 2 ** 32 + 10, 2 ** 64 + 10, 2 ** 128 + 10):
        for word, token in (("goto", b"\x89"), ("gosub", b"\x8D"), ("run", b"\x8A"), ("ongoto", b"\x91\x89"), ("to", b"\x8B\xA7"),
                            ("to", b"\x8B\x89")):
            yield f"{word} {number}", linked([(10, token + b"%d" % number)]), \
                (35, 6 + len(token)) if number > 63999 else listing([(10, [(word, number)])])

    # 15,364 bytes that mean a listing of 73,654: its text is not judged.
    three = [(number, nested(3, b"\x82")) for number in range(1024)]
    yield "a listing of more than 65,536 bytes", linked(three), listing((number, if_tree(3, [("next", "*")])) for number, _ in three)
    # 23 comes later, with the graph: 181 calls of one region with 181 RETURNs.
    returns = range(5, 5 + 181)
    yield "more than 32,768 edges", linked([(4, b"\x8D5:" * 181)] + [(number, nested(1, b"\x8E")) for number in returns]), \
        listing([(4, [("gosub", 5)] * 181)] + [(number, if_tree(1, [("return",)])) for number in returns])


KINDS = {"meant": meant, "typed": typed, "named": named, "soup": soup, "damaged": damaged}


def files(kind, seed, count):
    """(name, file, answer due or UNKNOWN) .."""
    if kind == "limits":
        yield from limits()
        return
    for index in range(count):
        # Each file has its own generator, so that it can be made again alone.
        yield f"{kind} {seed} {index}", *KINDS[kind](random.Random(f"{kind} {seed} {index}"))


def both(name, data, due=UNKNOWN):
    """The answer, if both readings give it and it is the one due."""
    found, again = second_program.program(data), program_machine.program(data)
    if found != again or due is not UNKNOWN and found != due:
        rows = [("in passes", found), ("in one pass", again)] + ([("due", due)] if due is not UNKNOWN else [])
        sys.exit("\n".join([f"{name}: {data[:200].hex(' ')}"] + [f"{by} {second_program.written(answer)[:300]}" for by, answer in rows]))
    return found


def check_laws(rng, data, meaning):
    """Of an accepted file: what does not matter, and that nothing before its end is enough."""
    link = 2
    while data[link:link + 2] != b"\x00\x00":
        link = data.index(b"\x00", link + 4) + 1
    end = link + 2
    cut = rng.randrange(end)
    both("a proper prefix of the read part", data[:cut], (33, cut))
    both("other bytes after the end", data[:end] + rng.randbytes(3), meaning)
    both("another load address", rng.randbytes(2) + data[2:], meaning)
    if link > 2:
        # A space anywhere among the bytes of the first line, another link of it.
        at = rng.randrange(6, data.index(b"\x00", 6) + 1)
        both("a space more", data[:at] + b" " + data[at:], meaning)
        both("another link", data[:2] + bytes([rng.randrange(1, 256), rng.randrange(256)]) + data[4:], meaning)


def check(seed, count):
    examples = second_program.check_examples(program_machine.program)
    print(f"in one pass: {examples} examples by hand")
    for path in second_program.shared_programs():
        both(path.name, path.read_bytes(), path.with_suffix(".listing").read_bytes())
    refusals = set()
    for kind in [*KINDS, "limits"]:
        answers, laws = collections.Counter(), 0
        for name, data, due in files(kind, seed, count):
            found = both(name, data, due)
            answers[found[0] if isinstance(found, tuple) else "accepted"] += 1
            # The laws on a tenth of the accepted files.
            if not isinstance(found, tuple) and kind != "limits" and random.Random(name).random() < 0.1:
                check_laws(random.Random(name), data, found)
                laws += 1
        refusals |= set(answers)
        told = ", ".join(f"{answer}: {times}" for answer, times in sorted(answers.items(), key=str))
        print(f"{kind}: {sum(answers.values())} files, both readings agree ({told})" + (f"; laws on {laws}" if laws else ""))
    if refusals != {"accepted", 1, 33, 34, 35, 4, 5, 6, 7, 8}:
        sys.exit(f"not every answer was met: {refusals}")


def main():
    command = sys.argv[1:]
    if command[:1] == ["check"] and len(command) in (1, 3):
        check(*(map(int, command[1:]) if len(command) == 3 else (1, 2000)))
    elif len(command) == 3 and command[0] in [*KINDS, "limits"]:
        for _, data, _ in files(command[0], int(command[1]), int(command[2])):
            sys.stdout.buffer.write(b"%d\n%s" % (len(data), data))
    else:
        sys.exit(__doc__)


if __name__ == "__main__":
    main()
