#!/usr/bin/env python3
"""Rows by hand: every example of the points on the reader, with its refusal and place.

`check` holds them against second_reading.py; `texts` writes them framed; `answers` writes
what each must give, one row a text.
"""

import sys

sys.dont_write_bytecode = True
import second_reading  # noqa: E402

FINE = None


def at_statement(row):
    """The row where a statement is due; it is row 2."""
    return b"(module 0\n(line 10\n" + row + b"\n)\n)\n"


def holding(*rows):
    """Rows inside a line; the first is row 2."""
    return at_statement(b"\n".join(rows))


def lines(*numbers):
    return b"(module 0\n" + b"".join(b"(line %d\n)\n" % n for n in numbers) + b")\n"


def statements(count, last=b"(plain)"):
    """So many statements in one line; the last is row count + 1."""
    return holding(*[b"(clr)"] * (count - 1), last)


def nested(depth, inner):
    """IFs until the inner rows hold statements of that depth; they begin at row 2 + 2 * depth."""
    return holding(*[b"(if", b"(stmts"] * depth, *inner, *[b")", b")"] * depth)


def listed(word, count, last):
    return word + b" " + b" ".join([b"1"] * (count - 1) + [last]) + b")"


def slots(count, last=b"*"):
    return b"(next plain " + b" ".join([b"*"] * (count - 1) + [last]) + b")"


def of_length(count):
    """A listing of exactly so many bytes: rows of 8 and of 9 bytes fill it up."""
    wide = [b"(ongoto " + b" ".join([b"0"] * 64) + b")"] * 430
    left = count - len(holding(*wide))
    nines = left % 8
    rows = [b"(return)"] * nines + [b"(plain)"] * ((left - 9 * nines) // 8)
    return holding(*wide, *rows)


# Statement rows: the refusal's number, and the rows that get it (place 2).
ROWS = {
    # Point 1: the whole row is judged for 2 first.
    "1": [(2, [b"(ongoto 01 x)", b"(for 1 bogus)", b"(goto 007 1)", b"(goto 65536 1)", b"(for a)",
               b"(return 007)", b"(run 01 02)", b"(next plain a"])],
    "2": [(3, [b"(goto 007)", b"(goto 00)", b"(goto 65536)", b"(goto " + b"1" * 40 + b")",
               b"(goto " + b"0" * 40 + b")", b"(goto 99999)", b"(goto 100000)", b"(run 007)",
               b"(goto 18446744073709551616)", b"(goto 4294967297)", b"(gosub 01)",
               b"(ongoto 1 2 03)", b"(ongosub 65536)"]),
          (2, [b"(goto 1x)", b"(goto A)", b"(goto *)", b"(goto -1)", b"(goto)", b"(goto )",
               b"(goto  1)", b"(goto 1 )", b"(goto 1 2)", b"(goto +1)", b"(goto 1.0)",
               b"( goto 1)", b" (goto 1)", b"(goto 1) ", b"(goto 1))", b"((goto 1)", b"(goto (1)",
               b"goto 1", b"(goto 1", b"", b"()", b"(", b"(GOTO 1)", b"(got 1)", b"(gotoo 1)"]),
          (FINE, [b"(goto 0)", b"(goto 65535)", b"(gosub 10)", b"(run)", b"(run 0)",
                  b"(ongoto 1)", b"(ongosub 1 1 1)"])],
    "3": [(2, [b"(goto I)", b"(ongoto 1 I)", b"(run I)", b"(for static)", b"(for A)"]),
          (3, [b"(for 1 static)", b"(for * static)", b"(for ABCDEFGHI static)",
               b"(for A%$ static)", b"(next plain a)", b"(next plain **)", b"(for ABCDEFGHI% static)",
               b"(next plain 1)", b"(next orphan A B c)", b"(for % static)", b"(for A%% framed)",
               b"(for A- static)", b"(for 1A static)", b"(for Aa static)", b"(for A%B static)"]),
          (FINE, [b"(for A static)", b"(for ABCDEFGH% framed)", b"(for A1$ dispatched)",
                  b"(for Z9999999 static)", b"(next plain ABCDEFGH$ * I%)"])],
    "4": [(2, [b"(for A bogus)", b"(for A Static)", b"(next)", b"(next foo A)", b"(next A)",
               b"(next *)", b"(ongoto )", b"(run )", b"(next plain )", b"(next )",
               b"(next Plain)", b"(for A static )", b"(for A  static)", b"(for A static framed)"]),
          (FINE, [b"(next plain)", b"(next orphan)", b"(ongoto)", b"(ongosub)"])],
    "5": [(8, [listed(b"(ongoto", 65, b"1"), listed(b"(ongosub", 65, b"1"), slots(65),
               listed(b"(ongoto", 200, b"1"), slots(65, b"I")]),
          (2, [listed(b"(ongoto", 65, b"x"), listed(b"(ongosub", 66, b"-")]),
          (3, [listed(b"(ongoto", 65, b"007"), slots(65, b"a"), listed(b"(ongosub", 99, b"65536")]),
          (FINE, [listed(b"(ongoto", 64, b"1"), listed(b"(ongosub", 64, b"65535"), slots(64)])],
    # Point 7: only round brackets, space and byte 10 are no word bytes.
    "7": [(3, [b"(for A\r static)", b"(for A\t static)", b"(for \x00 static)", b"(for \xc4 static)",
               b"(next plain A\r)", b"(for [A] static)", b"(for \xff\xfe static)"]),
          (2, [b"(plain)\r", b"(plain\r)", b"(goto 1\r)", b"(goto\t1)", b"(goto \t1)",
               b"(for A static\r)", b"\t(plain)", b"(plain)\x00", b"(pl\xe4in)", b"(goto 1\x00)",
               b"(goto \xb2)", b"(next plain\x00 A)",
               b"(for A( static)", b"(for (A static)", b"(next plain A))", b"(next plain (A)"])],
    "10": [(2, [b"(if)", b"(line 10)", b"(line 20", b"(ifelse)", b"(rcomp)", b"(stmts)", b"(stmts",
                b"(to 10)", b"(to 007)", b"(to", b"(plain", b"(return", b"(if 1", b"(if ",
                b"(line 007", b"(module 0", b"(stmts 1", b"(else", b"[plain]"])],
    # Document 02, L2: a name is judged whole, before it is cut.
    "L2": [(3, [b"(for COUNTERSX static)", b"(for COUNTERSX% static)", b"(next plain COunt)", b"(for CO%UNT static)",
                b"(for COUNT%$ framed)", b"(next orphan * COUNT*)", b"(for CO\x00 static)", b"(next plain COUNT CO- CO)",
                b"(for CCCCCCCCCCCCCCCCCC dispatched)"]),
           (FINE, [b"(for COUNTERS% static)", b"(for COUNTERS static)", b"(for CO0 dispatched)",
                   b"(next plain COUNT COUNTER CO% C$ COUNT)"])],
}


def row_points():
    for point, groups in ROWS.items():
        for number, rows in groups:
            for row in rows:
                answer = FINE if number is FINE else (number, 2)
                yield point, at_statement(row), answer


def head_points():
    """Point 6 and the first rows."""
    for h in (b"00", b"01", b"2", b"65536", b"x", b"", b"0 ", b"0 1", b"0)", b"\r", b"1\r"):
        yield "6", b"(module " + h + b"\n)\n", (2, 0)
    for h in (b"0", b"1"):
        yield "6", b"(module " + h + b"\n)\n", FINE
    for row in (b"(module", b"module 0", b"(line 10", b")", b"(plain)", b"", b"(modul 0"):
        yield "6", row + b"\n)\n", (2, 0)


def end_points():
    """Point 8: where the text ends."""
    good = at_statement(b"(plain)")
    yield "8", b"", (2, 0)
    yield "8", b"\n", (2, 0)
    yield "8", b"(module 0", (2, 0)
    yield "8", b"(module 0\n", (2, 1)
    yield "8", b"(module 0\n)", (2, 1)
    yield "8", b"(module 0\n(line 10\n", (2, 2)
    yield "8", b"(module 0\n(line 10\n(goto 007)", (2, 2)
    yield "8", b"(module 0\n(line 10\n(goto 007)\n", (3, 2)
    yield "8", b"(module 0\n(line 10\n)\n(line 5", (2, 3)
    yield "8", b"(module 2\n(line", (2, 0)
    yield "8", good[:-1], (2, 4)
    yield "8", good[:-2], (2, 4)
    for after in (b"\n", b")\n", b" ", b"(plain)\n", b"x", b"\r\n", b"(module 0\n)\n", b"\x00"):
        yield "8", good + after, (2, 5)
    yield "8", good, FINE


def length_points():
    """Point 9: bytes."""
    full = of_length(65536)
    yield "9", full, FINE
    yield "9", full + b"\n", (1, 0)
    yield "9", of_length(65537), (1, 0)
    yield "9", b"x" * 65536, (2, 0)
    yield "9", b"x" * 65537, (1, 0)
    yield "9", b"\n" * 65537, (1, 0)


def branch_points():
    """Point 10: branches."""
    to, empty, end = b"(to 10)", [b"(stmts", b")"], b")"
    yield "10", holding(b"(if", end), (2, 3)
    yield "10", holding(b"(rcomp", end), (2, 3)
    yield "10", holding(b"(ifelse", end), (2, 3)
    yield "10", holding(b"(ifelse", to, end), (2, 4)
    yield "10", holding(b"(ifelse", *empty, end), (2, 5)
    yield "10", holding(b"(if", to, to, end), (2, 4)
    yield "10", holding(b"(if", *empty, *empty, end), (2, 5)
    yield "10", holding(b"(ifelse", to, to, to, end), (2, 5)
    yield "10", holding(b"(rcomp", to, to, b"(to 007)", end), (2, 5)
    yield "10", holding(b"(if", b"(plain)", end), (2, 3)
    yield "10", holding(b"(if", b"(goto 007)", end), (2, 3)
    yield "10", holding(b"(if", b"(line 20", end), (2, 3)
    yield "10", holding(b"(if", b"(to 007)", end), (3, 3)
    yield "10", holding(b"(if", b"(to 65536)", end), (3, 3)
    yield "10", holding(b"(if", b"(to x)", end), (2, 3)
    yield "10", holding(b"(if", b"(to)", end), (2, 3)
    yield "10", holding(b"(if", b"(to 1 2)", end), (2, 3)
    yield "10", holding(b"(if", b"(stmts)", end), (2, 3)
    yield "10", holding(b"(if", b"(stmts", b"(to 10)", end, end), (2, 4)
    yield "10", holding(b"(if", b"(stmts", b"(stmts", end, end, end), (2, 4)
    yield "10", b"(module 0\n(plain)\n)\n", (2, 1)
    yield "10", b"(module 0\n(to 10)\n)\n", (2, 1)
    yield "10", b"(module 0\n(module 0\n)\n)\n", (2, 1)
    for rows in ([b"(if", to], [b"(if", *empty], [b"(rcomp", to], [b"(rcomp", *empty],
                 [b"(ifelse", to, to], [b"(ifelse", *empty, to], [b"(rcomp", to, *empty]):
        yield "10", holding(*rows, end), FINE


def line_points():
    """Point 11: the order of tests in a line row and in a statement row."""
    def second(row):
        return b"(module 0\n(line 10\n)\n" + row + b"\n)\n)\n"

    for row in (b"(line", b"(line ", b"(line x", b"(line 5 6", b"(line 007 1", b"(line 20)",
                b"(line  20", b"(line 20 ", b"(line -1", b"(line 5x"):
        yield "11", second(row), (2, 3)
    for row in (b"(line 007", b"(line 65536", b"(line 010", b"(line 00"):
        yield "11", second(row), (3, 3)
    for row in (b"(line 10", b"(line 9", b"(line 0"):
        yield "11", second(row), (4, 3)
    for row in (b"(line 11", b"(line 65535"):
        yield "11", second(row), FINE
    yield "11", lines(0), FINE
    yield "11", lines(0, 0), (4, 3)
    yield "11", lines(*range(1024)), FINE
    yield "11", lines(*range(1025)), (5, 2049)
    yield "11", lines(*range(1024), 1023), (4, 2049)
    yield "11", lines(*range(1024), 65536), (3, 2049)
    yield "11", lines(*range(1024))[:-2] + b"(line 5 5\n)\n)\n", (2, 2049)
    yield "11", statements(4096), FINE
    yield "11", statements(4097), (6, 4098)
    yield "11", statements(4097, b"(goto 007)"), (3, 4098)
    yield "11", statements(4097, b"(goto x)"), (2, 4098)
    yield "11", statements(4097, slots(65)), (6, 4098)
    yield "11", statements(4096, slots(65)), (8, 4097)


def depth_points():
    """Point 12: depth belongs to statements."""
    wide = slots(65)
    yield "12", nested(16, [b"(plain)"]), FINE
    yield "12", nested(17, [b"(plain)"]), (7, 36)
    yield "12", nested(17, []), FINE
    yield "12", nested(16, [b"(if", b"(to 10)", b")"]), FINE
    yield "12", nested(16, [b"(ifelse", b"(stmts", b")", b"(to 10)", b")"]), FINE
    yield "12", nested(16, [b"(rcomp", b"(stmts", b")", b"(stmts", b"(plain)", b")", b")"]), (7, 38)
    yield "12", nested(17, [b"(if", b"(stmts", b")", b")"]), (7, 36)
    yield "12", nested(17, [b"(goto 007)"]), (3, 36)
    yield "12", nested(17, [b"(goto x)"]), (2, 36)
    yield "12", nested(17, [b"(to 10)"]), (2, 36)
    yield "12", nested(17, [wide]), (7, 36)
    yield "12", nested(16, [wide]), (8, 34)
    # 4,079 statements and 17 IFs around the next one: 6 comes before 7.
    deep = [b"(if", b"(stmts"] * 17 + [b"(plain)"] + [b")", b")"] * 17
    yield "12", holding(*[b"(clr)"] * 4079, *deep), (6, 4115)
    yield "12", holding(*[b"(clr)"] * 4078, *deep), (7, 4114)


def points():
    for part in (row_points, head_points, end_points, length_points, branch_points,
                 line_points, depth_points):
        yield from part()


def shown(answer):
    return "accepted" if answer is None else "(refused %d %d)" % answer


def check():
    count = wrong = 0
    for point, text, answer in points():
        count += 1
        found = second_reading.judge(text)
        if found != answer:
            wrong += 1
            print(f"point {point}: {text[:120]!r}: due {shown(answer)}, found {shown(found)}")
    print(f"reader points: {count} texts, {wrong} wrong")
    return wrong


def main():
    command = sys.argv[1] if len(sys.argv) > 1 else "check"
    if command == "check":
        sys.exit(1 if check() else 0)
    for _, text, answer in points():
        if command == "texts":
            sys.stdout.buffer.write(b"%d\n" % len(text) + text)
        else:
            print(shown(answer))


if __name__ == "__main__":
    main()
