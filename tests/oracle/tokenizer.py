#!/usr/bin/env python3
"""Typed BASIC V2 programs to the files that the machine saves, so that tests type programs and do not write them in hexadecimal.

`saved(text)` takes the typed lines as bytes, each ended by byte 10 or the text's end, and answers the file. Letters are capitals
as the machine's keyboard gives them; `{93}` stands for the byte 93 hexadecimal, anywhere. Nothing of a line is folded or trimmed
but for the spaces around its number.

    tokenizer.py [check]   hold it against pairs by hand and the programs of ../shared/programs
    tokenizer.py save      a typed program on standard input to its file on standard output
"""

import re
import sys

sys.dont_write_bytecode = True
from second_program import shared_programs  # noqa: E402

LOAD = 0x0801
DATA, REM, PRINT, PI = 0x83, 0x8F, 0x99, 0xFF

# The ROM's table, in its order from 80 hexadecimal on. The first that matches is taken: so INPUT# and PRINT# stand before INPUT and
# PRINT, GOTO and GOSUB before GO.
KEYWORDS = b"""END FOR NEXT DATA INPUT# INPUT DIM READ LET GOTO RUN IF RESTORE GOSUB RETURN REM STOP ON WAIT LOAD SAVE VERIFY DEF POKE
PRINT# PRINT CONT LIST CLR CMD SYS OPEN CLOSE GET NEW TAB( TO FN SPC( THEN NOT STEP + - * / ^ AND OR > = < SGN INT ABS USR FRE POS SQR
RND LOG EXP COS SIN TAN ATN PEEK LEN STR$ VAL ASC CHR$ LEFT$ RIGHT$ MID$ GO""".split()
# As the ROM stores them: the last letter of each has its high bit set.
TABLE = [word[:-1] + bytes([word[-1] | 0x80]) for word in KEYWORDS]


def keyword(line, at):
    """The token of the first keyword from here and its length, or None.

    As the ROM compares: letters are equal until their difference is 80 hexadecimal. That is so at the keyword's last letter, and at
    a shifted letter before it: the abbreviations.
    """
    for index, word in enumerate(TABLE):
        if word[0] & 0x7F != line[at]:
            continue
        for length, letter in enumerate(word, 1):
            typed = line[at + length - 1] if at + length <= len(line) else 0
            difference = (typed - letter) & 0xFF
            if difference == 0x80:
                return 0x80 + index, length
            if difference:
                break
    return None


def crunch(line):
    """A line's bytes after its number as the machine keeps them (the ROM's routine CRUNCH)."""
    out, at, in_data = bytearray(), 0, False
    while at < len(line):
        byte = line[at]
        if byte == 0x22:
            # Quoted to the next quote or the line's end.
            end = line.find(b'"', at + 1) + 1 or len(line)
            out += line[at:end]
            at = end
            continue
        if byte >= 0x80 and byte != PI:
            # A shifted letter that begins a word is dropped.
            at += 1
            continue
        token, length = byte, 1
        if not in_data and byte == 0x3F:
            token = PRINT
        elif not in_data and byte != 0x20 and byte != PI and not 0x30 <= byte < 0x3C:
            token, length = keyword(line, at) or (byte, 1)
        out.append(token)
        at += length
        if token == 0x3A:
            in_data = False
        elif token == DATA:
            in_data = True
        elif token == REM:
            # The rest as it is, shifted letters too.
            out += line[at:]
            at = len(line)
    return bytes(out)


def petscii(text):
    return re.sub(rb"\{([0-9A-Fa-f]{2})\}", lambda code: bytes.fromhex(code[1].decode("ascii")), text)


def numbered(typed):
    """A typed line as its number and the bytes after it. Spaces are skipped around the number and in it."""
    digits = re.match(rb"[0-9 ]*", typed)[0]
    value = digits.replace(b" ", b"")
    if not value or int(value) > 63999:
        raise ValueError(f"no program line: {typed!r}")
    return int(value), typed[len(digits):]


def linked(lines, load=LOAD):
    """The file of lines (number, bytes kept): each link is the address of the next line, the last link 0."""
    out, address = bytearray(load.to_bytes(2, "little")), load
    for number, kept in lines:
        address += len(kept) + 5
        out += (address & 0xFFFF).to_bytes(2, "little") + number.to_bytes(2, "little") + kept + b"\x00"
    return bytes(out + b"\x00\x00")


def saved(text):
    """The file of a typed program. Lines are kept by number: one typed later takes the place of one before, a bare number deletes."""
    kept = {}
    for typed in text.split(b"\n"):
        if typed.strip(b" "):
            number, rest = numbered(petscii(typed))
            kept[number] = crunch(rest)
    return linked((number, kept[number]) for number in sorted(kept) if kept[number])


# By hand: what is typed after the number, what is kept.
PAIRS = [
    ("PRINT", "99"),
    ("?", "99"),
    ("PRINT#1,A", "98 31 2C 41"),
    ("INPUT#1", "84 31"),
    ("INPUTA", "85 41"),
    ("GOTO10", "89 31 30"),
    ("GO TO 10", "CB 20 A4 20 31 30"),
    ("GOSUB", "8D"),
    ("GOSU", "CB 53 55"),
    ("FORI=1TOTAL", "81 49 B2 31 A4 54 41 4C"),
    ("FORSCORE=1", "81 53 43 B0 45 B2 31"),
    ("G{CF}10", "89 31 30"),
    ("G{CF}", "89"),
    ("N{C5}", "82"),
    ("{CE}A", "41"),
    ("{FF}", "FF"),
    ('"?GOTO', "22 3F 47 4F 54 4F"),
    ('"{C1}"{C1}?', "22 C1 22 99"),
    ('DATAGOTO,"A:B",?:?', "83 47 4F 54 4F 2C 22 41 3A 42 22 2C 3F 3A 99"),
    ('DATA"A:?', "83 22 41 3A 3F"),
    ("DATAREM:REM:?{C1}", "83 52 45 4D 3A 8F 3A 3F C1"),
    ('REM"?:?', "8F 22 3F 3A 3F"),
    ("REMDATA:?", "8F 44 41 54 41 3A 3F"),
    ("A$=LEFT$(B$,1)", "41 24 B2 C8 28 42 24 2C 31 29"),
    ("PRINTTAB(3)SPC(2)", "99 A3 33 29 A6 32 29"),
    ("RESTORE:RETURN:RUN", "8C 3A 8E 3A 8A"),
    ("IFA<>BANDC^2>=-1THEN5", "8B 41 B3 B1 42 AF 43 AE 32 B1 B2 AB 31 A7 35"),
    ("EN", "45 4E"),
    ("?:;<", "99 3A 3B B3"),
    ("A\\d", "41 5C 64"),
]
# Whole programs by hand.
PROGRAMS = [
    ("", "01 08 00 00"),
    ("10 A", "01 08 07 08 0A 00 41 00 00 00"),
    ("20 B\n10 A\n30 C\n30", "01 08 07 08 0A 00 41 00 0D 08 14 00 42 00 00 00"),
    (" 1 0  A \n10  :\n", "01 08 07 08 0A 00 3A 00 00 00"),
    ("63999 END", "01 08 07 08 FF F9 80 00 00 00"),
]


def check():
    for typed, due in PAIRS:
        if crunch(petscii(typed.encode("latin-1"))) != bytes.fromhex(due):
            sys.exit(f"{typed}: {crunch(petscii(typed.encode('latin-1'))).hex(' ')} instead of {due}")
    for typed, due in PROGRAMS:
        if saved(typed.encode("latin-1")) != bytes.fromhex(due):
            sys.exit(f"{typed!r}: {saved(typed.encode('latin-1')).hex(' ')} instead of {due}")
    print(f"tokenizer: {len(PAIRS)} lines and {len(PROGRAMS)} programs by hand")
    paths = shared_programs()
    for path in paths:
        if saved(path.with_suffix(".bas").read_bytes()) != path.read_bytes():
            sys.exit(f"{path.name}: not the file of its typed lines")
    print(f"tokenizer: {len(paths)} typed programs, each its saved file" if paths
          else "tokenizer: no programs beside the repository, none compared")


def main():
    command = sys.argv[1:]
    if command in ([], ["check"]):
        check()
    elif command == ["save"]:
        sys.stdout.buffer.write(saved(sys.stdin.buffer.read()))
    else:
        sys.exit(__doc__)


if __name__ == "__main__":
    main()
