#!/usr/bin/env python3
"""Holds include/flowgraph.h and rust/src/ffi.rs to the sources of the library.

  header.py [ROOT]    compares; a status other than 0 and a row for each difference
  header.py damage    the same on damaged copies, each of which must show a difference

Calls: names, order and types of parameters and results, from the functions that the crate flowgraph exports.
Constants: limits, entries of each table, the page's bytes, columns, opening words and refusals, from the Rattle sources and
docs/DECISIONS.md.
"""

import math
import os
import re
import sys

HERE = os.path.dirname(os.path.abspath(__file__))
HEADER, RUST, WORDS = "include/flowgraph.h", "rust/src/ffi.rs", "rust/src/word.rs"
LIBRARY = "crates/flowgraph/src"
CHECK = "crates/flowgraph/src/check.rt"
PROGRAM_LINES = "crates/basic/src/lines.rt"
DECISIONS, ROOM, SIZES = "docs/DECISIONS.md", "crates/wiring/src/room.rt", "crates/printing/src/list.rt"
LENT = "crates/at_limits/src/lent.rt"
COLUMNS, LIMIT_CONSTANTS, OPENING = "crates/layout/src/columns.rt", "crates/layout/src/limits.rt", "crates/tokens/src/words.rt"
LIMITS = {"MAX_BYTES": "MAX_BYTES", "MAX_LINES": "MAX_LINES", "MAX_STATEMENTS": "MAX_STMTS", "MAX_EDGES": "MAX_EDGES", "MAX_DEPTH": "MAX_DEPTH"}
TABLES = ["lines", "stmts", "args", "entries", "falls", "links", "lists", "returns", "succ", "pred"]
# What has entries of its own in a table, other than a statement.
PER = {"lines": "MAX_LINES", "entries": "MAX_LINES", "succ": "MAX_EDGES", "pred": "MAX_EDGES"}
C_TYPES = {"u8": "uint8_t", "u16": "uint16_t", "u32": "uint32_t", "u64": "uint64_t", "usize": "size_t", "bool": "bool"}
CRATES = ["tokens", "basic", "reader", "walks", "wiring", "adjacency", "statements", "frame_slices", "frame_lists", "comparing"]

REASONS = "crates/layout/src/refusals.rt"


class Files:
    """The repository's texts by path, some of them replaced for a trial."""

    def __init__(self, root, replaced=None):
        self.root, self.replaced = root, replaced or {}

    def __getitem__(self, path):
        if path not in self.replaced:
            with open(os.path.join(self.root, path), encoding="utf-8") as file:
                self.replaced[path] = file.read()
        return self.replaced[path]

    def sources(self, folder):
        names = sorted(n for n in os.listdir(os.path.join(self.root, folder)) if n.endswith(".rt"))
        return [(f"{folder}/{n}", self[f"{folder}/{n}"]) for n in names]


# ---- calls: {name: (result, [(parameter, C type), ..])}


def c_param(files, name, kind):
    """A Rattle parameter as C has it: a slice is a pointer and a length."""
    shared = re.fullmatch(r"&(?:'\w+ )?(mut )?(.*)", kind)
    if not shared:
        return [(name, C_TYPES[kind])]
    const = "" if shared[1] else "const "
    array = re.fullmatch(r"\[(\w+)(?:; (\w+))?\]", shared[2])
    if not array:
        return [(name, f"{const}{C_TYPES[shared[2]]} *")]
    if array[2]:
        return [(name, f"{const}{C_TYPES[array[1]]} [{value(files, array[2])}]")]
    return [(name, f"{const}{C_TYPES[array[1]]} *"), (f"{name}_len", "size_t")]


def split_params(text):
    return [p.strip() for p in re.split(r",(?![^\[]*\])", text) if p.strip()]


def rattle_calls(files):
    found = {}
    for path, text in files.sources(LIBRARY):
        text = re.sub(r"//.*", "", text)
        exported = re.findall(r'(#\[unsafe\(no_mangle\)\]\s*)?pub extern "C" fn (\w+)\s*\(([^)]*)\)\s*(?:->\s*(\w+))?', text)
        for mangled, name, params, result in exported:
            if not mangled:
                raise SystemExit(f"{path}: {name} is not marked #[unsafe(no_mangle)]")
            params = [c for p in split_params(params) for c in c_param(files, *re.split(r"\s*:\s*", p, maxsplit=1))]
            found[name] = (C_TYPES[result] if result else "void", params)
    return found


def header_calls(text):
    text = re.sub(r"/\*.*?\*/", "", text, flags=re.S)
    found = {}
    for result, name, params in re.findall(r"^(\w+) (\w+)\(([^)]*)\);", text, flags=re.M):
        listed = []
        for param in split_params(params):
            kind, star, own, size = re.fullmatch(r"((?:const )?\w+) (\*?)(\w+)(\[\d+\])?", " ".join(param.split())).groups()
            listed.append((own, f"{kind} {star or size}" if star or size else kind))
        found[name] = (result, listed)
    return found


def rust_param(name, kind):
    pointer = re.fullmatch(r"\*(mut|const) (?:\[(\w+); (\d+)\]|(\w+))", kind)
    if not pointer:
        return (name, C_TYPES[kind])
    const = "const " if pointer[1] == "const" else ""
    return (name, f"{const}{C_TYPES[pointer[2]]} [{pointer[3]}]" if pointer[2] else f"{const}{C_TYPES[pointer[4]]} *")


def rust_calls(text):
    declared = re.search(r'extern "C" \{(.*?)^\}', text, flags=re.S | re.M)[1]
    found = {}
    for name, params, result in re.findall(r"pub fn (\w+)\(([^)]*)\)(?: -> (\w+))?;", declared):
        listed = [rust_param(*re.split(r"\s*:\s*", p, maxsplit=1)) for p in split_params(params)]
        found[name] = (C_TYPES[result] if result else "void", listed)
    return found


# ---- constants: {name without FLOW_: number}


def header_constants(text):
    return {name: int(n) for name, n in re.findall(r"^#define FLOW_(\w+) (\d+)\b", text, flags=re.M)}


def rust_constants(text):
    return {name: int(n) for name, n in re.findall(r"^pub const (\w+): \w+ = (\d+);", text, flags=re.M)}


def constant(text, name):
    return int(re.search(rf"const {name}: \w+ = (\d+);", text)[1])


def value(files, name):
    """A number, or a constant of the sources: a number, or a product of such."""
    if name.isdigit():
        return int(name)
    for path in (LIMIT_CONSTANTS, COLUMNS, SIZES):
        found = re.search(rf"const {name}: \w+ = ([^;]+);", files[path])
        if found:
            return math.prod(value(files, factor) for factor in found[1].split(" * "))
    return None


def entries_by_room(files):
    """Entries for each line or statement, as the wiring divides by them; an edge table has one for each edge."""
    found = {"succ": 1, "pred": 1}
    for row in re.findall(r"^.*\.min\(.*$", files[ROOM], flags=re.M):
        for table, by in re.findall(r"\b([a-z]+)(?: / (\w+))?", row):
            if table in TABLES:
                found[table] = value(files, by) if by else 1
    return found


def decided_tables(files):
    """The layout as docs/DECISIONS.md has it: table to (entries, type)."""
    found = {}
    for names, entries, kind in re.findall(r"^\| (`[^|]*`) \| (\d+) [^|`]*\(`(\w+)`\) \|", files[DECISIONS], flags=re.M):
        for name in re.findall(r"`(\w+)`", names):
            found[name] = (int(entries), kind)
    return found


def page_size(files):
    """The room that programs lend for a printed graph, which is proved to suffice."""
    return constant(files[SIZES], "MAX_PRINTED")


def opening_words(files):
    table = re.search(r"static FORMS: .*? = \[(.*?)\];", files[OPENING], flags=re.S)[1]
    return re.findall(r'b"(\w+)"', table)


def given_refusals(files):
    """The numbers of the reasons that the sources give."""
    numbers = {name: int(n) for name, n in re.findall(r"^    (\w+) = (\d+),", files[REASONS], flags=re.M)}
    given = set()
    for crate in CRATES:
        for _, text in files.sources(f"crates/{crate}/src"):
            given.update(re.findall(r"\bReason::(\w+)", re.sub(r"//.*", "", text)))
    return {numbers[name] for name in given}


def due_constants(files):
    """What the header must define, from the sources."""
    due = {name: constant(files[LIMIT_CONSTANTS], source) for name, source in LIMITS.items()}
    decided = decided_tables(files)
    for table in TABLES:
        each = decided[table][0]
        due[f"{table.upper()}_EACH"] = each
        due[f"{table.upper()}_SIZE"] = each * due[PER.get(table, "MAX_STATEMENTS")]
    due["PAGE_SIZE"] = page_size(files)
    due["COUNTS"] = decided["counts"][0]
    kept = re.search(r"^\| `counts` .*?\| ([^|]*) \| [^|]* \|$", files[DECISIONS], flags=re.M)[1]
    for i, what in enumerate(re.split(r"[,;] ", kept)):
        due["COUNT_" + {"return targets": "RETURNS", "entry rows": "ENTRIES"}.get(what, what.upper())] = i
    columns = ["WORD", "LINE", "HOLDER", "INDEX", "END", "SECOND", "FORM1", "NUMBER1", "FORM2", "NUMBER2", "COUNT", "DETAIL"]
    due.update({f"STMT_{c}": constant(files[COLUMNS], c) for c in columns})
    due.update({c: constant(files[COLUMNS], c) for c in ("ENTRY_NUMBER", "ENTRY_NODE")})
    due["FALL_NEXT"] = 0
    words = opening_words(files)
    due["WORDS"] = len(words)
    due.update({f"WORD_{word.upper()}": i for i, word in enumerate(words)})
    return due


def compare_constants(files, say):
    found, due = header_constants(files[HEADER]), due_constants(files)
    refusals = {name: n for name, n in found.items() if name not in due and name != "OK"}
    for name in due:
        if found.get(name) != due[name]:
            say(f"{HEADER}: FLOW_{name} is {found.get(name)}, {due[name]} in the sources")
    if found.get("OK") != 0:
        say(f"{HEADER}: FLOW_OK is not 0")
    given = given_refusals(files)
    for n in sorted(given ^ set(refusals.values())):
        say(f"{HEADER}: refusal {n} is {'given and not named' if n in given else 'named and not given'}")
    if len(set(refusals.values())) != len(refusals):
        say(f"{HEADER}: a refusal has two names")
    for name, n in rust_constants(files[RUST]).items():
        if found.get(name) != n:
            say(f"{RUST}: {name} is {n}, {found.get(name)} in {HEADER}")
    words = re.findall(r'^    \w+ "(\w+)",$', files[WORDS], flags=re.M)
    if words != opening_words(files):
        say(f"{WORDS}: the opening words differ")


def compare_tables(files, say):
    """The layout in words, in the code and in the program that lends tables at all limits."""
    decided, room = decided_tables(files), entries_by_room(files)
    lent = {table: f"[{kind}; {value(files, n)}]" for table, kind, n in re.findall(r"pub (\w+): \[(u\d+); (\w+)\],", files[LENT])}
    found = header_constants(files[HEADER])
    for table in TABLES:
        entries, kind = decided[table]
        if room.get(table) != entries:
            say(f"{DECISIONS}: {table} has {entries} entries, {room.get(table)} in {ROOM}")
        size = f"[{kind}; {found.get(table.upper() + '_SIZE')}]"
        if lent.get(table) != size:
            say(f"{LENT}: {table} is {lent.get(table)}, {size} by {HEADER}")
    if lent.get("counts") != f"[{decided['counts'][1]}; {found.get('COUNTS')}]":
        say(f"{LENT}: counts are {lent.get('counts')}")
    pages = {dict(params)["page"] for _, params in rattle_calls(files).values() if "page" in dict(params)}
    if pages != {f"uint8_t [{found.get('PAGE_SIZE')}]"}:
        say(f"{LIBRARY}: a lent page is {pages}, of {found.get('PAGE_SIZE')} bytes by {HEADER}")


def compare_calls(files, say):
    due = rattle_calls(files)
    if not due:
        say(f"{LIBRARY}: nothing is exported")
    for path, found in ((HEADER, header_calls(files[HEADER])), (RUST, rust_calls(files[RUST]))):
        for name in sorted(due.keys() | found.keys()):
            if due.get(name) != found.get(name):
                say(f"{path}: {name} is\n  {found.get(name)}\n{LIBRARY} has\n  {due.get(name)}")


def differences(files):
    found = []
    for part in (compare_constants, compare_tables, compare_calls):
        part(files, found.append)
    return found


# ---- damaged copies

DAMAGE = [
    (HEADER, r"uint8_t flow_entry\(", "uint16_t flow_entry("),
    (HEADER, r"uint8_t flow_path\(", "uint8_t flow_paths("),
    (HEADER, r"const uint16_t \*lists, size_t lists_len,\n    const uint16_t \*succ, size_t succ_len,\n    size_t node",
     "const uint16_t *succ, size_t succ_len,\n    const uint16_t *lists, size_t lists_len,\n    size_t node"),
    (HEADER, r"size_t header,\n    size_t node,", "size_t node,\n    size_t header,"),
    (HEADER, r"uint16_t number,", "uint32_t number,"),
    (HEADER, r"const uint64_t \*args", "const uint16_t *args"),
    (HEADER, r"    uint16_t \*out, size_t out_len,", "    const uint16_t *out, size_t out_len,"),
    (HEADER, r"    bool flag,\n", ""),
    (HEADER, r"size_t place\[1\]", "size_t place[2]"),
    (HEADER, r"FLOW_LINKS_EACH 64", "FLOW_LINKS_EACH 65"),
    (HEADER, r"FLOW_LISTS_SIZE 16384", "FLOW_LISTS_SIZE 16385"),
    (HEADER, r"FLOW_MAX_EDGES 32768", "FLOW_MAX_EDGES 32767"),
    (HEADER, r"FLOW_COUNT_EDGES 3", "FLOW_COUNT_EDGES 4"),
    (HEADER, r"FLOW_STMT_HOLDER 2", "FLOW_STMT_HOLDER 3"),
    (HEADER, r"FLOW_WORD_GOSUB 8", "FLOW_WORD_GOSUB 9"),
    (HEADER, r"#define FLOW_WORD_CLR 24\n", ""),
    (HEADER, r"FLOW_OUTSIDE 25", "FLOW_OUTSIDE 29"),
    (HEADER, r"#define FLOW_TOO_WIDE 8 .*\n", ""),
    (HEADER, r"#define FLOW_NOT_A_ROW 31 .*\n", ""),
    (HEADER, r"FLOW_WRONG_ROW 32", "FLOW_WRONG_ROW 33"),
    (HEADER, r"FLOW_PAGE_SIZE 1048576", "FLOW_PAGE_SIZE 1048575"),
    (HEADER, r"uint8_t page\[1048576\]", "uint8_t page[1048577]"),
    (HEADER, r"uint8_t page\[1048576\]", "const uint8_t page[1048576]"),
    (HEADER, r"    const uint8_t \*text, size_t text_len,\n    const uint8_t \*graph, size_t graph_len,",
     "    const uint8_t *graph, size_t graph_len,\n    const uint8_t *text, size_t text_len,"),
    (HEADER, r"uint8_t flow_build_program\(", "uint8_t flow_build_file("),
    (HEADER, r"    const uint8_t \*program, size_t program_len,", "    size_t program_len, const uint8_t *program,"),
    (HEADER, r"#define FLOW_ENDS_EARLY 33 .*\n", ""),
    (HEADER, r"FLOW_FOREIGN_BYTE 34", "FLOW_FOREIGN_BYTE 35"),
    (HEADER, r"FLOW_LACKING 35", "FLOW_LACKING 36"),
    (RUST, r"pub const STMTS_EACH: usize = 12", "pub const STMTS_EACH: usize = 13"),
    (RUST, r"\*const u8, name_len", "*const u16, name_len"),
    (RUST, r"program: \*const u8, program_len: usize,\n        counts: \*mut",
     "program: *const u8, program_len: usize,\n        counts: *const"),
    (RUST, r"        header: usize,\n        node: usize,", "        node: usize,\n        header: usize,"),
    (RUST, r"counts: \*mut \[u32; 6\]", "counts: *mut [u32; 5]"),
    (RUST, r"pub const PAGE_SIZE: usize = 1048576", "pub const PAGE_SIZE: usize = 1048577"),
    (RUST, r"page: \*mut \[u8; 1048576\]", "page: *mut [u8; 1048575]"),
    (CHECK, r"page: &mut \[u8; MAX_PRINTED\]", "page: &mut [u8; MAX_BYTES]"),
    (CHECK, r"    graph: &\[u8\],\n", ""),
    (REASONS, r"WrongRow = 32,", "WrongRow = 36,"),
    (REASONS, r"EndsEarly = 33,", "EndsEarly = 36,"),
    (PROGRAM_LINES, r"Reason::ForeignByte\.", "Reason::Lacking."),
    (WORDS, r'    For "for",\n    Next "next",', '    Next "next",\n    For "for",'),
    (ROOM, r"falls / FALL_ENTRIES", "falls / LIST_ENTRIES"),
    (LENT, r"\[u16; FALLS_LENGTH\]", "[u16; LISTS_LENGTH]"),
    (SIZES, r"MAX_PRINTED: usize = 1048576", "MAX_PRINTED: usize = 1048577"),
    (DECISIONS, r"\| `lists` \| 4 a", "| `lists` | 5 a"),
    (OPENING, r'\(b"if", Kind', '(b"ig", Kind'),
    (COLUMNS, r"const INDEX: usize = 3", "const INDEX: usize = 4"),
    (COLUMNS, r"const ENTRY_NODE: usize = 1", "const ENTRY_NODE: usize = 0"),
    (COLUMNS, r"const ENTRY_ENTRIES: usize = 2", "const ENTRY_ENTRIES: usize = 3"),
]


def try_damage(root):
    missed = 0
    for path, old, new in DAMAGE:
        text = Files(root)[path]
        damaged, times = re.subn(old, new, text, count=1)
        if times != 1 or damaged == text or not differences(Files(root, {path: damaged})):
            missed += 1
            print(f"{path}: {new!r} shows no difference")
    print(f"header: {len(DAMAGE)} damaged copies, {missed} unseen")
    return 1 if missed else 0


def main():
    root = os.path.join(HERE, "..")
    if sys.argv[1:] == ["damage"]:
        return try_damage(root)
    files = Files(sys.argv[1] if len(sys.argv) == 2 else root)
    found = differences(files)
    for row in found:
        print(row)
    print(f"header: {len(rattle_calls(files))} calls, {len(header_constants(files[HEADER]))} constants, {len(found)} different")
    return 1 if found else 0


if __name__ == "__main__":
    sys.exit(main())
