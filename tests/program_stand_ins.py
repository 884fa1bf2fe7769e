"""Wrong programs in the place of `flowprg` and `prglist`, for `program_checks.py stand-ins`: each has to be found out.

Most are the second reading with one rule changed, by a part of its text that stands there once; they answer the stored files and those
at the limits. The others are programs that are run, so that the runs are tried too.
"""

import os
import pickle
import signal
import sys
import tempfile
import time
from concurrent.futures import ProcessPoolExecutor
from functools import partial

import second_program
from program_checks import Tally, graphs, limit_cases, run, slow_run, stored_cases, sum_of, with_graphs
from second_program import written
from vectors import find_oracle

FOUND = '''                found.append((depth, [b"(if", b"(to %s)" % target, b")"], 0))
                return found'''
JUMP = '''                found.append((depth, [b"(if", b"(to %s)" % target, b")"], 0))
'''
LACKING = "offences.append(((places + [zero])[lacking.index], 35))"
QUOTED, DATA = r'''rb'"[^"]*"?|''', r'''\x83(?:"[^"]*"?|[^":])*|'''
LETTERS = r'NAME = re.compile(rb"([A-Z][A-Z0-9]*)'
CUT = "return word[1][:2] + word[2], word.end()"
LAST = "last, lines, link = value, lines + 1, zero + 1"
WHOLE = r'''            return b"\n".join(rows + [b")", b""])'''
LINK = r'''if data[link:link + 2] == b"\x00\x00":'''

RULES = [
    # What covers a byte.
    ("colon in quotes parts", QUOTED, r'''rb'"[^":]*"?|'''),
    ("quotes left open end at a colon", QUOTED, r'''rb'"(?:[^"]*"|[^":]*)|'''),
    ("DATA takes the line", DATA, r"\x83.*|"),
    ("no quotes in DATA", DATA, r"\x83[^:]*|"),
    ("DATA is nothing", DATA, ""),
    ("quotes left open in DATA end at a colon", DATA, r'''\x83(?:"[^"]*"|[^:])*|'''),
    ("REM in DATA counts", DATA, r'''\x83(?:"[^"]*"?|[^":\x8f])*|'''),
    ("DATA counts at a statement's start alone", DATA, r'''(?:^|(?<=:))\x83(?:"[^"]*"?|[^":])*|'''),
    ("REM ends at a colon", r"\x8f.*'", r"\x8f[^:]*'"),
    ("REM ends at a quote", r"\x8f.*'", r'''\x8f[^"]*' '''),
    ("REM is nothing", r"|\x8f.*'", "'"),
    ("A0 is a space", "if byte != 0x20]", "if byte not in (0x20, 0xA0)]"),
    ("control bytes are spaces", "if byte != 0x20]", "if byte > 0x20]"),
    ("spaces count", "if byte != 0x20]", "]"),
    # Numbers, names, items.
    ("64000 is a number", "int(value) > NUMBER:", "int(value) > 64000:"),
    ("63999 is none", "int(value) > NUMBER:", "int(value) > 63998:"),
    ("numbers to 65535", "int(value) > NUMBER:", "int(value) > 65535:"),
    ("numbers wrap at 65536", "if len(value) > 5 or int(value) > NUMBER:", "value = b'%d' % (int(value[-50:]) % 65536)\n    if int(value) > NUMBER:"),
    ("numbers wrap at 2 to the 64th", "if len(value) > 5 or int(value) > NUMBER:", "value = b'%d' % (int(value[-50:]) % 2 ** 64)\n    if int(value) > NUMBER:"),
    ("numbers have five digits", "if len(value) > 5 or", "if len(digits[0]) > 5 or"),
    ("leading zeros are kept", 'value = digits[0].lstrip(b"0") or b"0"', "value = digits[0]"),
    ("no number is 0", "digits = DIGITS.match(seen, index)\n    if not digits:\n", "digits = DIGITS.match(seen, index)\n    if not digits:\n        return b'0', index\n"),
    ("a number too large at its end", "if len(value) > 5 or int(value) > NUMBER:\n", "if len(value) > 5 or int(value) > NUMBER:\n        index = digits.end()\n"),
    ("small letters in names", LETTERS, r'NAME = re.compile(rb"([A-Za-z][A-Z0-9]*)'),
    ("shifted letters in names", LETTERS, r'NAME = re.compile(rb"([A-Z][A-Z0-9\xC1-\xDA]*)'),
    ("shifted letters begin names", LETTERS, r'NAME = re.compile(rb"([A-Z\xC1-\xDA][A-Z0-9]*)'),
    ("a digit begins a name", LETTERS, r'NAME = re.compile(rb"([A-Z0-9][A-Z0-9]*)'),
    ("no digits in names", LETTERS, r'NAME = re.compile(rb"([A-Z][A-Z]*)'),
    ("no Z in names", LETTERS, r'NAME = re.compile(rb"([A-Y][A-Y0-9]*)'),
    ("names have eight characters", LETTERS, r'NAME = re.compile(rb"([A-Z][A-Z0-9]{0,7})'),
    ("names have two characters", LETTERS, r'NAME = re.compile(rb"([A-Z][A-Z0-9]?)'),
    ("two kinds", "([%$]?)", "([%$]*)"),
    ("no kind", CUT, "return word[1][:2], word.end()"),
    ("the kind behind two characters at most", CUT, "return (word[1] + word[2])[:3], word.end()"),
    ("names are not cut", CUT, "return word[1] + word[2], word.end()"),
    ("names are cut to one character", CUT, "return word[1][:1] + word[2], word.end()"),
    ("second number or name dropped", "return all_found\n", "return all_found[:1] + all_found[2:]\n"),
    ("last number or name dropped", "return all_found\n", "return all_found[:-1] or all_found\n"),
    ("numbers or names turned round", "return all_found\n", "return all_found[::-1]\n"),
    ("no comma", "while seen[index] == COMMA:", "while False:"),
    ("a comma at the end is passed over", "while seen[index] == COMMA:", "while seen[index] == COMMA and seen[index + 1] not in (0, 0x3A):"),
    ("a 65th item is dropped", "return all_found\n", "return all_found[:64]\n"),
    # Statements.
    ("END goes on", 'ALONE = {END: b"(stop)", STOP', "ALONE = {STOP"),
    ("STOP goes on", ', STOP: b"(stop)"', ""),
    ("CLR is plain", ', CLR: b"(clr)"}', "}"),
    ("RETURN is plain", ', RETURN: b"(return)"', ""),
    ("GO TO is no GOTO", "if first == GOTO or first == GO and seen[after] == TO:", "if first == GOTO:"),
    ("GO is GOTO", "first == GO and seen[after] == TO:", "first == GO:"),
    ("IF has no GO TO", r'IF_JUMP = re.compile(rb"\xa7|\x89|\xcb\xa4|', r'IF_JUMP = re.compile(rb"\xa7|\x89|'),
    ("IF has no GOTO", r'IF_JUMP = re.compile(rb"\xa7|\x89|', r'IF_JUMP = re.compile(rb"\xa7|'),
    ("IF has GOSUB", r'IF_JUMP = re.compile(rb"\xa7|\x89|', r'IF_JUMP = re.compile(rb"\xa7|\x89|\x8d|'),
    ("ON has no GO TO", r'ON_JUMP = re.compile(rb"\x89|\x8d|\xcb\xa4|', r'ON_JUMP = re.compile(rb"\x89|\x8d|'),
    ("ON GOSUB is ON GOTO", "if jump[0] == GOSUB else", "if False else"),
    ("a GO before GO TO takes it, in ON", r'ON_JUMP = re.compile(rb"\x89|\x8d|\xcb\xa4|', r'ON_JUMP = re.compile(rb"\x89|\x8d|(?<!\xcb)\xcb\xa4|'),
    ("a GO before GO TO takes it, in IF", r'IF_JUMP = re.compile(rb"\xa7|\x89|\xcb\xa4|', r'IF_JUMP = re.compile(rb"\xa7|\x89|(?<!\xcb)\xcb\xa4|'),
    ("RUN needs a number", 'if DIGITS.match(seen, after) else b"(run)"), 0', 'if True else b"(run)"), 0'),
    ("RUN has none", 'if DIGITS.match(seen, after) else b"(run)"), 0', 'if False else b"(run)"), 0'),
    ("NEXT needs a name", 'if NAME.match(seen, after) else [b"*"]', "if True else []"),
    ("NEXT with a comma has two slots", 'if NAME.match(seen, after) else [b"*"]', 'if NAME.match(seen, after) else [b"*"] * (1 + (seen[after] == COMMA))'),
    ("an empty statement is plain", '            # "an empty statement makes no node".\n            index += 1\n',
     "            index += 1\n            if seen[index] == COLON:\n                found.append((depth, [b'(plain)'], 0))\n"),
    ("a REM is no node", "elif seen[index] != IF:", "elif seen[index] == 0x8F:\n            index = STATEMENT_END.search(seen, index).start()\n        elif seen[index] != IF:"),
    ("a DATA is no node", "elif seen[index] != IF:", "elif seen[index] == 0x83:\n            index = STATEMENT_END.search(seen, index).start()\n        elif seen[index] != IF:"),
    ("GOTO and no number is an empty branch", "if jump[0] != THEN or DIGITS.match(seen, index):", "if DIGITS.match(seen, index):"),
    ("35 behind THEN and a number", FOUND, JUMP + "                end = STATEMENT_END.search(seen, index).start()\n                statements(b':' * end + seen[end:])\n                return found"),
    ("nodes behind THEN and a number", FOUND, JUMP + "                index = STATEMENT_END.search(seen, index).start()\n                continue"),
    ("THEN GOTO jumps itself", "            if jump[0] != THEN or DIGITS.match(seen, index):",
     "            if seen[index] == GOTO and jump[0] == THEN:\n                index, jump = index + 1, (GOTO,)\n            if jump[0] != THEN or DIGITS.match(seen, index):"),
    ("THEN holds one statement", "            depth += 1\n", ""),
    ("THEN and a colon lack a statement", "if seen[index] == ZERO:\n                # ", "if seen[index] in (ZERO, COLON):\n                # "),
    ("THEN and nothing is an empty branch", "if seen[index] == ZERO:\n                # ", "if False:\n                # "),
    ("THEN in other statements is an IF's", "elif seen[index] != IF:", "elif seen[index] != IF and THEN not in seen[index:STATEMENT_END.search(seen, index).start()]:"),
    # The file and its places.
    ("links followed", LAST, "last, lines, link = value, lines + 1, 2 + data[link] + 256 * data[link + 1] - data[0] - 256 * data[1]"),
    ("a link with a high byte of 0 ends", LINK, "if data[link + 1] == 0:"),
    ("a link with a low byte of 0 ends", LINK, "if data[link] == 0:"),
    ("numbers high byte first", "value = data[link + 2] + 256 * data[link + 3]", "value = data[link + 3] + 256 * data[link + 2]"),
    ("the load address is judged", "    while True:\n", "    if data[:2] != b'\\x01\\x08':\n        return 33, len(data)\n    while True:\n"),
    ("a file may end without a link", "        if len(data) < link + 2:\n", "        if len(data) == link > 2:\n            return b'\\n'.join(rows + [b')', b''])\n        if len(data) < link + 2:\n"),
    ("33 at the link", "        if len(data) < link + 2:\n            return 33, len(data)", "        if len(data) < link + 2:\n            return 33, link"),
    ("33 a byte early", "offences.append((zero, 33))", "offences.append((zero - 1, 33))"),
    ("33 a byte late, behind half a number", "        if len(data) < link + 4:\n            return 33, len(data)", "        if len(data) < link + 4:\n            return 33, len(data) + 1"),
    ("33 before all else", "offences.append((zero, 33))", "return 33, zero"),
    ("34 after 35", "place, refusal = min(offences)", "place, refusal = min(offences, key=lambda o: (o[0], -o[1]))"),
    ("the lowest number, not the first place", "place, refusal = min(offences)", "place, refusal = min(offences, key=lambda o: o[::-1])"),
    ("the last place", "place, refusal = min(offences)", "place, refusal = max(offences)"),
    ("34 nowhere", "if byte == FOREIGN]", "if False]"),
    ("34 for 65 too", "if byte == FOREIGN]", "if byte in (FOREIGN, 0x65)]"),
    ("34 not in the line of a jump branch", "        if offences:\n",
     "        if not any(n == 35 for _, n in offences):\n            offences = [o for o in offences if o[1] != 34 or not found or len(found[-1][1]) != 3]\n        if offences:\n"),
    ("34 in quotes, REM and DATA too", "offences += [(place, 34) for place, byte in zip(places, seen) if byte == FOREIGN]",
     "offences += [(link + 4 + at, 34) for at, byte in enumerate(data[link + 4:zero]) if byte == FOREIGN]"),
    ("34 in quotes too", QUOTED, r'''rb'"[^"\x64]*"?|'''),
    ("34 in a REM too", r"\x8f.*'", r"\x8f[^\x64]*'"),
    ("34 in DATA too", DATA, r'''\x83(?:"[^"]*"?|[^":\x64])*|'''),
    ("34 among the number's bytes", "        offences = []\n", "        offences = [(link + 2, 34)] if FOREIGN in data[link + 2:link + 4] else []\n"),
    ("34 among the link's bytes", "        offences = []\n", "        offences = [(link, 34)] if FOREIGN in data[link:link + 2] else []\n"),
    ("35 a byte late", LACKING, "offences.append(((places + [zero])[lacking.index] + 1, 35))"),
    ("35 at the byte before", LACKING, "offences.append(((places + [zero])[lacking.index - 1], 35))"),
    ("35 at the line's zero", LACKING, "offences.append((zero, 35))"),
    ("places a byte late", "[(place + index, byte)", "[(place + index + 1, byte)"),
    ("places without spaces", "return bytes(byte for _, byte in kept), [where for where, _ in kept]",
     "return bytes(byte for _, byte in kept), [place + n for n, _ in enumerate(kept)]"),
    ("places in the line", "seen, places = seen_bytes(data[link + 4:zero], link + 4)", "seen, places = seen_bytes(data[link + 4:zero], 0)"),
    ("the line's own number at its high byte", "offences.append((link + 2, 35))", "offences.append((link + 3, 35))"),
    ("the line's own number is not judged", "if value > NUMBER:\n            offences.append((link + 2, 35))", "if False:\n            pass"),
    ("the line's own number after its bytes", "offences.append((link + 2, 35))", "offences.append((zero, 35))"),
    # The limits and their order.
    ("65,537 bytes", "if len(data) > BYTES:", "if len(data) > BYTES + 1:"),
    ("65,535 bytes", "if len(data) > BYTES:", "if len(data) >= BYTES:"),
    ("what follows the end is not counted", "if len(data) > BYTES:", "if len(data.rstrip(b'\\x64')) > BYTES:"),
    ("1 at the length", "        return 1, 0", "        return 1, len(data)"),
    ("equal numbers ascend", "if value <= last:", "if value < last:"),
    ("lines need not ascend", "if value <= last:", "if False:"),
    ("line 0 is refused", "b\"(module 0\"], -1, 0, 0", "b\"(module 0\"], 0, 0, 0"),
    ("1,025 lines", "if lines == LINES:", "if lines == LINES + 1:"),
    ("1,023 lines", "if lines == LINES:", "if lines == LINES - 1:"),
    ("4,097 statements", "if count > STATEMENTS:", "if count > STATEMENTS + 1:"),
    ("4,095 statements", "if count > STATEMENTS:", "if count >= STATEMENTS:"),
    ("IFs are not counted", "count += len(found)", "count += sum(rows[0] != b'(if' for _, rows, _ in found)"),
    ("depth 17", "depth > DEPTH for", "depth > DEPTH + 1 for"),
    ("depth 15", "depth > DEPTH for", "depth >= DEPTH for"),
    ("an empty branch has a depth", "any(depth > DEPTH for depth, _, _ in found)", "any(depth + (rows[-1] == b'(stmts') > DEPTH for depth, rows, _ in found)"),
    ("a jump has a depth", "any(depth > DEPTH for depth, _, _ in found)", "any(depth + (len(rows) == 3) > DEPTH for depth, rows, _ in found)"),
    ("65 numbers or slots", "listed > WORDS for", "listed > WORDS + 1 for"),
    ("63 numbers or slots", "listed > WORDS for", "listed >= WORDS for"),
    ("commas anywhere count for 8", "            return 8, lines\n", "            return 8, lines\n        if seen.count(b',') > 64:\n            return 8, lines\n"),
    ("5 before 4", "        if value <= last:\n", "        if lines == LINES:\n            return 5, lines\n        if value <= last:\n"),
    ("6 before 5", "        if lines == LINES:\n", "        if count > STATEMENTS:\n            return 6, lines\n        if lines == LINES:\n"),
    ("7 before 6", "        if count > STATEMENTS:\n", "        if any(depth > DEPTH for depth, _, _ in found):\n            return 7, lines\n        if count > STATEMENTS:\n"),
    ("8 before 7", "        if any(depth > DEPTH for depth, _, _ in found):\n",
     "        if any(listed > WORDS for _, _, listed in found):\n            return 8, lines\n        if any(depth > DEPTH for depth, _, _ in found):\n"),
    ("4 before 33 to 35", "        if offences:\n", "        if value <= last:\n            return 4, lines\n        if offences:\n"),
    ("5 before 33 to 35", "        if offences:\n", "        if lines == LINES:\n            return 5, lines\n        if offences:\n"),
    ("4 at the line's number", "return 4, lines", "return 4, value"),
    ("6 at the statement", "return 6, lines", "return 6, count - 1"),
    ("7 at an index from 1", "return 7, lines", "return 7, lines + 1"),
    ("8 at an index from 1", "return 8, lines", "return 8, lines + 1"),
    ("empty lines are not counted", LAST, "last, lines, link = value, lines + bool(found), zero + 1"),
    ("the meant listing's text is judged", WHOLE, WHOLE.replace("return ", "text = ") + "\n            return text if len(text) <= BYTES else (1, 0)"),
]
# In a graph CLR is a plain statement; `prglist` alone shows it.
LISTING_ALONE = {"CLR is plain"}


def changed_reading(old, new):
    """The second reading with a part of its text changed."""
    with open(second_program.__file__, encoding="utf-8") as file:
        text = file.read()
    if text.count(old) != 1:
        sys.exit(f"the second reading has {text.count(old)} times what a stand-in changes: {old}")
    names = {"__name__": "stand_in", "__file__": second_program.__file__}
    exec(compile(text.replace(old, new), "stand_in", "exec"), names)  # noqa: S102
    return names["program"]


def shown_by(reading, data):
    """What a stand-in prints for a file, or how it fails."""
    signal.alarm(SECONDS)
    try:
        return written(reading(data))
    except Exception as failed:  # noqa: BLE001
        return repr(failed)
    finally:
        signal.alarm(0)


def no_end(number, frame):
    raise TimeoutError


def answered(data, answers):
    """As a run of a program that answers so."""
    answer = answers[data]
    return (answer, b"", 0) if isinstance(answer, bytes) else (b"", answer.encode(), 1)


def judged(cases, oracle, reading):
    """How often `flowprg` and `prglist` by this reading are found out."""
    listed = {case.data: shown_by(reading, case.data) for case in cases}
    known = {case.data: case for case in cases}
    # Of a listing that is the one due the graph is known; of another one it is the original's, or none that is due.
    other = list({text for data, text in listed.items() if isinstance(text, bytes) and text != known[data].meant})
    others = dict(zip(other, graphs(oracle, other), strict=True))

    def graph(data, text):
        if not isinstance(text, bytes):
            return text
        return known[data].graph if text == known[data].meant else others[text] or b"(graph of another listing)\n"

    graphed = {data: graph(data, text) for data, text in listed.items()}
    tally = Tally(partial(answered, answers=graphed), partial(answered, answers=listed), shown=0)
    tally.cases(cases)
    return tally.wrong["flowprg"], tally.wrong["prglist"]


GIVEN, SECONDS = [], 10


def judged_rule(rule):
    """Its name, and how often it is found out by the stored files; those at the limits are asked where one of the two never is."""
    name, *change = rule
    cases, limits, oracle = GIVEN
    reading = changed_reading(*change) if change else second_program.program
    by_stored = judged(cases, oracle, reading)
    return name, by_stored, judged(limits, oracle, reading) if 0 in by_stored else (0, 0)


# Stand-ins that are programs, with the right answers and one fault: a change of the answer or of what else a run shows.

FAULTS = {
    "no fault": "",
    "the last byte lost": "out = out[:-1]",
    "a byte in the middle lost": "out = out[:len(out) // 2] + out[len(out) // 2 + 1:]",
    "a byte more": "out += b'\\n'",
    "nothing printed": "out = b''",
    "a word on standard error": "os.write(2, b'x')",
    "a status": "status = 3",
    "ended by a signal": "os.kill(os.getpid(), 11)",
    "no end": "time.sleep(1000)",
    "one read alone": "out = answer(first)",
    "a file left": "open('left', 'w').close()",
}
PROGRAM = """#!{python}
import hashlib, os, pickle, time
first = data = os.read(0, 1 << 20)
while more := os.read(0, 1 << 20):
    data += more
with open({answers!r}, "rb") as file:
    known = pickle.load(file)
def answer(data):
    return known.get(hashlib.sha256(data).hexdigest(), b"(refused 33 %d)\\n" % len(data))
out, status = answer(data), 0
{fault}
while out:
    out = out[os.write(1, out):]
os._exit(status)
"""


def stand_in_program(folder, name, answers, fault):
    path = os.path.join(folder, name)
    with open(path + ".answers", "wb") as file:
        pickle.dump(answers, file)
    with open(path, "w", encoding="ascii") as file:
        file.write(PROGRAM.format(python=sys.executable, answers=path + ".answers", fault=fault))
    os.chmod(path, 0o755)
    return path


def judged_fault(cases, fault):
    """How often two programs with this fault are found out, by whole input and by pieces, and how many files they leave."""
    with tempfile.TemporaryDirectory() as programs, tempfile.TemporaryDirectory() as folder:
        answers = [{sum_of(case.data): text for case, text in zip(cases, texts)} for texts in ([c.graph for c in cases], [c.meant for c in cases])]
        both = [stand_in_program(programs, name, known, FAULTS[fault]) for name, known in zip(("flowprg", "prglist"), answers)]
        wrong = 0
        for way in (partial(run, seconds=2), partial(slow_run, pieces=3, seconds=2)):
            tally = Tally(*(partial(way, program, folder) for program in both), shown=0)
            tally.cases(cases)
            wrong += min(tally.wrong["flowprg"], tally.wrong["prglist"])
        return wrong + len(os.listdir(folder))


def stand_ins():
    start, oracle = time.monotonic(), find_oracle()
    signal.signal(signal.SIGALRM, no_end)
    known_by_sum = b"(graph known by its sum)\n"
    limits = [case if case.graph else case._replace(graph=known_by_sum) for case in with_graphs(oracle, limit_cases())]
    cases, missed = stored_cases(), []
    with ProcessPoolExecutor(initializer=GIVEN.extend, initargs=([cases, limits, oracle],)) as pool:
        for name, by_stored, by_limits in pool.map(judged_rule, [("the rules as they are",), *RULES]):
            found = [stored + limit for stored, limit in zip(by_stored, by_limits)]
            print(f"{name}: flowprg found out {found[0]} times, prglist {found[1]}" + (", at the limits too" if any(by_limits) else ""))
            # Without the original a graph of another listing counts as another graph.
            due = [False] * 2 if name == "the rules as they are" else [not oracle or name not in LISTING_ALONE, True]
            if list(map(bool, found)) != due:
                missed.append(name)
    few = [case for case in cases if case.graph != case.meant and len(case.data) > 100][:4]
    for fault in FAULTS:
        times = judged_fault(few[:1] if fault == "no end" else few, fault)
        print(f"{fault}: found out {times} times")
        if (fault == "no fault") != (times == 0):
            missed.append(fault)
    print(f"stand-ins: {len(RULES)} wrong rules and {len(FAULTS) - 1} faults; not found out, or taken for wrong: {', '.join(missed) or 'none'} "
          f"({time.monotonic() - start:.0f} s)")
    return 1 if missed else 0
