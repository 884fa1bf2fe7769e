#!/usr/bin/env python3
"""A second reading of the graph check (document 02, L1 and L5), from its text alone.

`verdict(listing_verdict, right_graph, graph)` answers None for a right graph, else (number, place).
`listing_verdict` is None for an accepted listing, else its refusal, 23 included, as (number, place);
`right_graph` are the bytes that the definition prints for an accepted listing, `graph` those of the file.

As a program it holds itself against examples whose answers stand here by hand.
"""

import re
import sys

sys.dont_write_bytecode = True
from second_reading import judge  # noqa: E402

RIGHT = None

# The rows that a graph prints, N for a number and L for a list of numbers of any length, each with the space before it.
# The path's first number has none before it, P. The holder is none or one number, O.
GRAPH_ROWS = ["(graph N N", "(node N N N (P) (inO) (succL) (predL))", "(entry N N)", "(returnsL)", "(back N N)", ")"]
PARTS = {"N": "[0-9]+", "L": "(?: [0-9]+)*", "P": "(?:[0-9]+(?: [0-9]+)*)?", "O": "(?: [0-9]+)?"}
FORMS = [re.compile("".join(PARTS.get(c, re.escape(c)) for c in row).encode("ascii")) for row in GRAPH_ROWS]
WORD = re.compile(rb"[0-9]+")


def number_of_document_01(word):
    """Decimal without leading zeros, 0 to 65535; the word is all digits."""
    return word == b"0" or word[:1] != b"0" and len(word) <= 5 and int(word) <= 65535


def in_form(row):
    """Does some graph print this row, whichever numbers stand in it and however many in its lists? Without its byte 10."""
    return any(form.fullmatch(row) for form in FORMS) and all(map(number_of_document_01, WORD.findall(row)))


def rows_of(graph):
    """Each row without its byte 10, and whether it has that byte."""
    *ended, rest = graph.split(b"\n")
    return [(row, True) for row in ended] + ([(rest, False)] if rest else [])


def verdict(listing_verdict, right_graph, graph):
    if listing_verdict is not None:
        return listing_verdict
    due = [row for row, _ in rows_of(right_graph)]
    rows = rows_of(graph)
    for place, (row, ended) in enumerate(rows):
        if not in_form(row) or not ended:
            return 31, place
        if place >= len(due) or row != due[place]:  # one too many, or wrong
            return 32, place
    return (32, len(rows)) if len(rows) < len(due) else RIGHT


def printed(answer):
    """What the program prints."""
    return b"(right)\n" if answer is RIGHT else b"(refused %d %d)\n" % answer


def listing_refusal(listing, right):
    """The listing's refusal, or None. `right` is what `flowlist` has to print: over 32,768 edges that is a row `(refused 23 EDGES)`."""
    found = judge(listing)
    edges = re.fullmatch(rb"\(refused 23 ([0-9]+)\)\n", right)
    return (23, int(edges[1])) if found is None and edges else found


# Examples by hand. Rows are parted by " / " and each is ended by byte 10.

def text(rows):
    return "".join(f"{row}\n" for row in rows.split(" / ")).encode("latin-1")


EMPTY_LISTING = text("(module 0 / )")
G = "(graph 0 0 / (returns) / )"
C12_LISTING = text("(module 0 / (line 10 / (gosub 100) / (plain) / ) / (line 20 / (stop) / ) / "
                   "(line 100 / (if / (to 20) / ) / (return) / ) / )")
C12 = ("(graph 0 5 / (node 0 10 0 (0) (in) (succ 3) (pred)) / (node 1 10 0 (1) (in) (succ 2) (pred 4)) / "
       "(node 2 20 1 (0) (in) (succ) (pred 1 3)) / (node 3 100 2 (0) (in) (succ 2 4) (pred 0)) / "
       "(node 4 100 2 (1) (in) (succ 1) (pred 3)) / (entry 10 0) / (entry 20 2) / (entry 100 3) / (returns 1) / (back 0 1) / )")
C10_LISTING = text("(module 0 / (line 10 / (ifelse / (stmts / (gosub 50) / ) / (stmts / (gosub 50) / (plain) / ) / ) / (stop) / ) / "
                   "(line 50 / (return) / ) / )")
C10 = ("(graph 0 6 / (node 0 10 0 (0) (in) (succ 1 2) (pred)) / (node 1 10 0 (0 0) (in 0) (succ 5) (pred 0)) / "
       "(node 2 10 0 (0 1) (in 0) (succ 5) (pred 0)) / (node 3 10 0 (0 2) (in 0) (succ 4) (pred 5)) / "
       "(node 4 10 0 (1) (in) (succ) (pred 3 5)) / (node 5 50 1 (0) (in) (succ 3 4) (pred 1 2)) / "
       "(entry 10 0) / (entry 50 5) / (returns 4 3) / (back 1 4) / (back 2 3) / )")
# Point 30: an IF that holds an IFELSE that holds a plain in each branch.
NESTED_LISTING = text("(module 0 / (line 10 / (if / (stmts / (ifelse / (stmts / (plain) / ) / (stmts / (plain) / ) / ) / ) / ) / ) / )")
NESTED = ("(graph 0 4 / (node 0 10 0 (0) (in) (succ 1) (pred)) / (node 1 10 0 (0 0) (in 0) (succ 2 3) (pred 0)) / "
          "(node 2 10 0 (0 0 0) (in 1) (succ) (pred 1)) / (node 3 10 0 (0 0 1) (in 1) (succ) (pred 1)) / (entry 10 0) / (returns) / )")
# Point 31: what is no IF holds nothing, and a branch that is a jump neither.
DOIF_LISTING = text("(module 0 / (line 10 / (doif) / (plain) / (done) / ) / )")
DOIF = ("(graph 0 3 / (node 0 10 0 (0) (in) (succ 1) (pred)) / (node 1 10 0 (1) (in) (succ 2) (pred 0)) / "
        "(node 2 10 0 (2) (in) (succ) (pred 1)) / (entry 10 0) / (returns) / )")
SECOND_LISTING = text("(module 0 / (line 10 / (rcomp / (to 10) / (stmts / (plain) / ) / ) / ) / )")
SECOND = ("(graph 0 2 / (node 0 10 0 (0) (in) (succ 0 1) (pred 0)) / (node 1 10 0 (0 0) (in 0) (succ) (pred 0)) / "
          "(entry 10 0) / (returns) / )")


def edges_listing(plains):
    """181 lines with an `any` in each, 32,761 edges; the last line goes on with so many plain statements, one edge each but the last."""
    lines = "".join(f"(line {n} / (any) / ) / " for n in range(180))
    return text(f"(module 0 / {lines}(line 180 / (any) / {'(plain) / ' * plains}) / )")


# Against G: the point, the graph file's rows, its last bytes dropped, the answer.
AGAINST_G = [
    ("1", G, 0, RIGHT),
    ("2", "(graph 0 1 / (returns / )", 0, (32, 0)),
    ("2", "(graph 1 00 / (returns) / )", 0, (31, 0)),
    ("2", "(graph 0 0 / (returns / (returns 1) / )", 0, (31, 1)),
    ("3", ")", 0, (32, 0)),
    ("3", ") / (returns) / )", 0, (32, 0)),
    ("3", "(graph 0 0 / (graph 0 0 / )", 0, (32, 1)),
    ("3", "(graph 0 0 / (back 7 9) / )", 0, (32, 1)),
    ("4", "(graph 65535 65535 / (returns) / )", 0, (32, 0)),
    ("4", "(graph 0 65536 / (returns) / )", 0, (31, 0)),
    ("4", "(graph 0 4294967296 / (returns) / )", 0, (31, 0)),
    ("4", "(graph 0 18446744073709551616 / (returns) / )", 0, (31, 0)),
    ("4", f"(graph 0 {2 ** 128} / (returns) / )", 0, (31, 0)),
    ("4", "(graph 0 00 / (returns) / )", 0, (31, 0)),
    ("4", "(graph 0 x / (returns) / )", 0, (31, 0)),
    ("5", f"(graph 0 0 / (returns{' 7' * 5000}) / )", 0, (32, 1)),
    ("5", f"(graph 0 0 / (returns{' 7' * 5000} 65536) / )", 0, (31, 1)),
    ("5", "(graph 0 0 / (node 0 10 0 () (in) (succ) (pred)) / )", 0, (32, 1)),
    ("5", "(graph 0 0 / (node 0 10 0 ( ) (in) (succ) (pred)) / )", 0, (31, 1)),
    ("5", "(graph 0 0 / (node 0 10 0 (0) (in) (succ ) (pred)) / )", 0, (31, 1)),
    ("5", "(graph 0 0 / (node 0 10 0 (0) (in) (succ 1  2) (pred)) / )", 0, (31, 1)),
    ("5", "(graph 0 0 / (returns 1 ) / )", 0, (31, 1)),
    ("6", "(graph 0 / (returns) / )", 0, (31, 0)),
    ("6", "(graph 0 0 0 / (returns) / )", 0, (31, 0)),
    ("6", "(graph 0 0) / (returns) / )", 0, (31, 0)),
    ("6", "(graph 0 0 / (entry 10) / )", 0, (31, 1)),
    ("6", "(graph 0 0 / (node 0 10 (0) (in) (succ) (pred)) / )", 0, (31, 1)),
    ("6", "(graph 0 0 / (back 1) / )", 0, (31, 1)),
    ("6", "(graph 0 0 / (back 1 2 3) / )", 0, (31, 1)),
    ("7", "(graph 0 0", 0, (32, 1)),
    ("7", "(graph 0 0 / (returns)", 0, (32, 2)),
    ("8", "(graph 0 0 / )", 0, (32, 1)),
    ("8", "(returns) / )", 0, (32, 0)),
    ("8", "(graph 0 0 / (returns) / (returns) / )", 0, (32, 2)),
    ("9", f"{G} / )", 0, (32, 3)),
    ("9", f"{G} / ", 0, (31, 3)),
    ("9", f"{G} / {G}", 0, (32, 3)),
    ("10", G, 1, (31, 2)),
    ("10", G, 2, (32, 2)),
    ("10", "(graph 0 0", 1, (31, 0)),
    ("10", f"{G} / )", 1, (31, 3)),
    ("10", "(graph 1 0 / (returns)", 1, (32, 0)),
    ("11", "(graph 0 0\r / (returns)\r / )\r", 0, (31, 0)),
    ("11", "(graph 0 0 / (returns)\r / )", 0, (31, 1)),
    ("11", "(graph 0 0 / (returns) / )\r", 0, (31, 2)),
    ("11", "(graph 0 0  / (returns) / )", 0, (31, 0)),
    ("11", "(graph 0 0 / (returns)  / )", 0, (31, 1)),
    ("11", "(graph 0 0 / (returns) / ) ", 0, (31, 2)),
    ("11", "(graph 0\t0 / (returns) / )", 0, (31, 0)),
    ("11", "(graph 0 0 / \t(returns) / )", 0, (31, 1)),
    ("11", "(GRAPH 0 0 / (returns) / )", 0, (31, 0)),
    ("11", "(graph 0 0 / (Returns) / )", 0, (31, 1)),
    ("11", "(refused 2 0)", 0, (31, 0)),
    ("13", "(graph 0 0 / (node 0 10 0 (0) (succ) (pred)) / )", 0, (31, 1)),
    ("14", "(graph 0 0 / (node 0 10 0 (0) (in) (succ) (pred)) / )", 0, (32, 1)),
    ("14", "(graph 0 0 / (node 0 10 0 (0) (in 0) (succ) (pred)) / )", 0, (32, 1)),
    ("14", "(graph 0 0 / (node 0 10 0 (0) (in 65535) (succ) (pred)) / )", 0, (32, 1)),
    ("14", "(graph 0 0 / (node 0 10 0 (0) (in 65536) (succ) (pred)) / )", 0, (31, 1)),
    ("14", f"(graph 0 0 / (node 0 10 0 (0) (in {2 ** 32}) (succ) (pred)) / )", 0, (31, 1)),
    ("14", "(graph 0 0 / (node 0 10 0 (0) (in 00) (succ) (pred)) / )", 0, (31, 1)),
    ("14", "(graph 0 0 / (node 0 10 0 (0) (in x) (succ) (pred)) / )", 0, (31, 1)),
    ("14", "(graph 0 0 / (node 0 10 0 (0) (in ) (succ) (pred)) / )", 0, (31, 1)),
    ("14", "(graph 0 0 / (node 0 10 0 (0) (in 7 ) (succ) (pred)) / )", 0, (31, 1)),
    ("14", "(graph 0 0 / (node 0 10 0 (0) (in  7) (succ) (pred)) / )", 0, (31, 1)),
    ("14", "(graph 0 0 / (node 0 10 0 (0) (in 1 2) (succ) (pred)) / )", 0, (31, 1)),
    ("14", f"(graph 0 0 / (node 0 10 0 (0) (in{' 7' * 5000}) (succ) (pred)) / )", 0, (31, 1)),
    ("14", "(graph 0 0 / (node 0 10 0 (0) in (succ) (pred)) / )", 0, (31, 1)),
    ("14", "(graph 0 0 / (node 0 10 0 (0) 7 (succ) (pred)) / )", 0, (31, 1)),
    ("14", "(graph 0 0 / (node 0 10 0 (0) (IN) (succ) (pred)) / )", 0, (31, 1)),
    ("14", "(graph 0 0 / (node 0 10 0 (0) (in) (in) (succ) (pred)) / )", 0, (31, 1)),
    ("14", "(graph 0 0 / (in) / )", 0, (31, 1)),
    ("32", "(graph 0 0 / (node 0 10 0 (in) (0) (succ) (pred)) / )", 0, (31, 1)),
    ("32", "(graph 0 0 / (node 0 10 0 (0) (succ) (in) (pred)) / )", 0, (31, 1)),
    ("32", "(graph 0 0 / (node 0 10 0 (0) (succ) (pred) (in)) / )", 0, (31, 1)),
    ("O1", f"(graph 0 0 / (returns{' 0' * 999995}) / )", 0, (32, 1)),
    ("O1", f"(graph 0 0 / (returns{' 0' * 999995} 00) / )", 0, (31, 1)),
    ("O1", f"(graph 0 0 / (returns{' 0' * 999995} x) / )", 0, (31, 1)),
]
# Against the graph of that listing: a piece of it, what stands there instead, the answer.
AGAINST_C12 = [
    ("12", "(pred 1 3)", "(pred 3 1)", (32, 3)),
    ("12", "(succ 2 4)", "(succ 4 2)", (32, 4)),
    # 13: the rows of earlier requests are in no form, and those of later ones not yet.
    ("13", "(0) (in) (succ 3)", "(0) (succ 3)", (31, 1)),
    ("13", "(1) (in) (succ 1)", "(1) (succ 1)", (31, 5)),
    ("13", "(entry 10 0)", "(entry 10 0 own)", (31, 6)),
    ("14", "(0) (in) (succ 3)", "(0) (in 0) (succ 3)", (32, 1)),
    ("14", "(0) (in) (succ 3)", "(0) (in 0 1) (succ 3)", (31, 1)),
    ("14", "(0) (in) (succ 3)", "(0) (in 65536) (succ 3)", (31, 1)),
    ("14", "(1) (in) (succ 1)", "(1) (in 3) (succ 1)", (32, 5)),
]
AGAINST_C10 = [
    ("12", "(returns 4 3)", "(returns 3 4)", (32, 9)),
    # 30: holder 0 is not none, and a holder is its id, not one more.
    ("30", "(0 0) (in 0)", "(0 0) (in)", (32, 2)),
    ("30", "(0 0) (in 0)", "(0 0) (in 1)", (32, 2)),
    ("30", "(0 2) (in 0)", "(0 2) (in 00)", (31, 4)),
]
AGAINST_NESTED = [
    # 30: the nearest one, not the outermost, nor all of them, nor the node itself.
    ("30", "(0 0 0) (in 1)", "(0 0 0) (in 0)", (32, 3)),
    ("30", "(0 0 0) (in 1)", "(0 0 0) (in 2)", (32, 3)),
    ("30", "(0 0 1) (in 1)", "(0 0 1) (in 0)", (32, 4)),
    ("30", "(0 0 1) (in 1)", "(0 0 1) (in 0 1)", (31, 4)),
    ("30", "(0 0 1) (in 1)", "(0 0 1) (in 1 0)", (31, 4)),
    ("30", "(0 0) (in 0)", "(0 0) (in 1)", (32, 2)),
    ("30", "(0) (in) (succ 1)", "(0) (in 0) (succ 1)", (32, 1)),
    ("32", "(0 0) (in 0) (succ 2 3)", "(in 0) (0 0) (succ 2 3)", (31, 2)),
    ("32", "(0 0) (in 0) (succ 2 3)", "(0 0) (succ 2 3) (in 0)", (31, 2)),
]
AGAINST_DOIF = [("31", "(1) (in)", "(1) (in 0)", (32, 2)), ("31", "(2) (in)", "(2) (in 0)", (32, 3))]
AGAINST_SECOND = [("31", "(0 0) (in 0)", "(0 0) (in)", (32, 2))]
BY_PIECES = [("12", C12_LISTING, C12, AGAINST_C12), ("12", C10_LISTING, C10, AGAINST_C10), ("30", NESTED_LISTING, NESTED, AGAINST_NESTED),
             ("31", DOIF_LISTING, DOIF, AGAINST_DOIF), ("31", SECOND_LISTING, SECOND, AGAINST_SECOND)]


def points():
    """The point, the listing, what flowlist prints for it, the graph file, the answer by hand."""
    unended, refusal = EMPTY_LISTING[:-1], (2, 1)
    for graph in (text(G), text("(refused 2 1)"), b"", b"x"):
        yield "1", unended, printed(refusal), graph, refusal
    crowded, edges = edges_listing(9), (23, 32769)
    for graph in (b"x", text("(refused 23 32769)"), b""):
        yield "1", crowded, printed(edges), graph, edges
    yield "7", EMPTY_LISTING, text(G), b"", (32, 0)
    for point, rows, dropped, answer in AGAINST_G:
        graph = text(rows)
        yield point, EMPTY_LISTING, text(G), graph[:len(graph) - dropped], answer
    for point, listing, right, against in BY_PIECES:
        yield point, listing, text(right), text(right), RIGHT
        for point, piece, instead, answer in against:
            assert right.count(piece) == 1, piece
            yield point, listing, text(right), text(right.replace(piece, instead)), answer
    # 13: the print of before L5, and that of L7.
    yield "13", C12_LISTING, text(C12), text(C12.replace(" (in)", "")), (31, 1)
    later = C12
    for entry in ("(entry 10 0", "(entry 20 2", "(entry 100 3"):
        later = later.replace(entry + ")", entry + " own)")
    yield "13", C12_LISTING, text(C12), text(later), (31, 6)


def check():
    count = wrong = 0
    for point, listing, right, graph, answer in points():
        count += 1
        found = verdict(listing_refusal(listing, right), right, graph)
        if found != answer:
            wrong += 1
            print(f"point {point}: {graph[:120]!r}: due {printed(answer)}, found {printed(found)}")
    print(f"points of the graph check: {count} graphs, {wrong} wrong")
    return wrong


if __name__ == "__main__":
    sys.exit(1 if check() else 0)
