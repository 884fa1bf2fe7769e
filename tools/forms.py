#!/usr/bin/env python3
"""Counts, in the code of every crate, the places where an older form stands that today's language has a better one for.

usage: forms.py [ROOT]            one row for each point: how many places, and how many of them have a reason beside them
       forms.py [ROOT] POINT..    each place of these points, with file and line (POINT: 1a, 1b, .. 7b)
       forms.py [ROOT] kept       each reason, as a row of a table: its file, the item that it stands at, the reason's words

A place is kept where the comment above its item, or above its line, holds the word `Kept:`, which a reason follows; for constants the comment at the head
of their file says it for all, and for calls of a conversion the comment above the conversion.
What this cannot see (a fact that many contracts say, twins in shape only) docs/DESIGN-PASS.md counts by hand.
"""

import itertools
import os
import re
import sys
from collections import defaultdict

TABLES = {"counts", "lines", "stmts", "args", "entries", "falls", "links", "lists", "returns", "succ", "pred"}
POINTS = {
    "1a": "own enums with a variant that refuses or has nothing",
    "1b": "a flag, or a number that says whether, in a field beside the value",
    "1c": "functions that answer a refusal's number, 0 for none",
    "1d": "numbers for kinds: constants that name a kind, a position or a form",
    "2": "twins: functions that are the same but for types, numbers and their own names",
    "3": "`while` loops that count an index by hand",
    "4a": "conversions written by hand: a function whose body is one cast",
    "4b": "calls of such functions",
    "4c": "arms that take an enum apart and make the same of it",
    "5": "functions that take four or more of the tables one by one",
    "6a": "functions that take a part to write and where in it",
    "6b": "constant rows with zeros past their ends, and their lengths beside",
    "6c": "a node or none as one more than its number, or 0, taken apart by hand",
    "7a": "functions that choose by three or more `if`s on one value",
    "7b": "flags that choose what a function does",
}
NONE = r"Refused|Lacks|Bad|Wrong|Nothing|Nowhere|NotFour|NoQuestion|End"
ITEM = re.compile(r"^\s*(?:pub(?:\([a-z]+\))? )?(?:(?:unsafe )?extern \"C\" )?(fn|enum|struct|const|impl|trait) (\w+)")
CAST = re.compile(r"\{\s*(?:\(?\w+(?:[.+ \w]*)\)?) as \w+\s*\}\s*$")


class Item:
    """A function, type or constant of one file, with the line that it begins at and the comment above it."""

    def __init__(self, path, line, kind, name, text, comment, head):
        self.path, self.line, self.kind, self.name, self.text, self.comment = path, line, kind, name, text, comment
        self.kept = "Kept:" in comment or kind == "const" and "Kept:" in head

    def where(self, line=None):
        return f"{self.path}:{self.line if line is None else line} {self.name}"


def items_of(root, path):
    lines = open(os.path.join(root, path), encoding="utf-8").read().split("\n")
    found, i, comment = [], 0, []
    head = "\n".join(itertools.takewhile(lambda row: row.startswith("//"), lines))
    while i < len(lines):
        row = lines[i]
        if row.strip().startswith("//"):
            comment.append(row)
        elif m := ITEM.match(row):
            end, depth, seen = i, 0, False
            while end < len(lines):
                code = re.sub(r"//.*|b?'(?:\\.|[^'\\])'|b?\"(?:\\.|[^\"\\])*\"", "", lines[end])
                for c in code:
                    depth += c in "{[(" and 1 or c in "}])" and -1 or 0
                    seen = seen or c == "{"
                # a body begins on a line of its own
                if depth == 0 and (code.rstrip().endswith(";") or code.rstrip().endswith("}") and code.strip()[0] in "}pcsi" and seen):
                    if m[1] != "fn" or code.startswith("}") or code.startswith("    }"):
                        break
                end += 1
            if m[1] in ("impl", "trait"):
                i += 1
                comment = []
                continue
            found.append(Item(path, i + 1, m[1], m[2], "\n".join(lines[i:end + 1]), "\n".join(comment), head))
            i, comment = end, []
        elif not row.strip().startswith("#["):
            comment = []
        i += 1
    return found


def body(text):
    """A function's code, without its clauses and comments."""
    rows = [r for r in text.split("\n") if not re.match(r"\s+(requires|ensures)\b", r)]
    return re.sub(r"//[^\n]*", "", "\n".join(rows))


def shape(item):
    """What is left of a function without types, numbers, its own name and what it calls by."""
    text = re.sub(r"\b(u8|u16|u32|u64|usize)\b", "T", body(item.text))
    text = re.sub(r"\b" + item.name + r"\b", "SELF", text)
    text = re.sub(r"\b\d+\b", "N", text)
    text = re.sub(r"b?\"[^\"]*\"", "S", text)
    text = re.sub(r"pub(\([a-z]+\))? ", "", text)
    return re.sub(r"\s+", " ", text)


def places(root):
    out = defaultdict(list)
    items = []
    for folder in sorted(os.listdir(os.path.join(root, "crates"))):
        src = os.path.join("crates", folder, "src")
        for name in sorted(os.listdir(os.path.join(root, src))):
            items += items_of(root, os.path.join(src, name))
    # the `from` of an `impl From`, and an enum's own number, are the forms that are wanted
    casts = {
        i.name: i.kept
        for i in items
        if i.kind == "fn" and i.name != "from" and CAST.search(body(i.text)) and not re.search(r"\bself as ", body(i.text))
    }
    shapes = defaultdict(list)

    def put(point, item, line=None, kept=False):
        out[point].append((item.where(line), item.kept or kept))

    for item in items:
        text = item.text
        code = body(text)
        if item.kind == "enum" and re.search(r"^\s+(" + NONE + r")\b", text, re.M):
            put("1a", item)
        if item.kind == "struct" and re.search(r"\b(refusal|number|written): (u8|bool)", text):
            put("1b", item)
        if item.kind == "const" and re.search(r"const \w+: u(8|16) =", text):
            put("1d", item)
        if item.kind == "const" and re.search(r"\[\[u8; \d+\]; \d+\] =|LENGTHS: \[", text):
            put("6b", item)
        if item.kind != "fn":
            continue
        if re.search(r"-> u8\b", text) and re.search(r"refusal|no_statement|row_number|offence", item.name):
            put("1c", item)
        if item.name in casts:
            put("4a", item)
        else:
            for name, kept in casts.items():
                for m in re.finditer(r"(?<![\w.:])" + name + r"\(", code):
                    put("4b", item, kept=kept)
        for m in re.finditer(r"(\w+)::(\w+) \{ ([\w, ]+) \} => (?:return )?(\w+)::(\w+) \{ \3 \}", code):
            if m[2] == m[5]:
                put("4c", item)
        head = text.split("\n{")[0]
        if len({n for n in re.findall(r"(\w+): &", head)} & TABLES) >= 4 and "extern" not in head:
            put("5", item)
        if re.search(r"(?:out|part): &mut \[u8\],\s+at: usize", head):
            put("6a", item)
        if re.search(r"if (\w+) == 0 \{\s+return\b[^}]*\}[^}]*?(\1\)?) - 1", code, re.S):
            put("6c", item)
        for value in set(re.findall(r"if (\w+(?:\.\w+)?) == [\w:]+ \{", code)):
            if len(re.findall(r"if " + re.escape(value) + r" == [\w:]+ \{\s+return\b", code)) >= 3:
                put("7a", item)
        if re.search(r"\b(program|names|slots|nexts|closed|second|handlers|found): bool", head):
            put("7b", item)
        for m in re.finditer(r"^( *)while [^\n{]*\{\n(.*?)^\1\}", text, re.S | re.M):
            if re.search(r"\b(\w+) [+-]= 1;", m[2]):
                line = item.line + text[:m.start()].count("\n")
                above = text[:m.start()].rstrip("\n").rsplit("\n", 1)[-1]
                put("3", item, line, "Kept:" in above)
        # an enum's own number is one line, of one shape for each enum
        if not re.search(r"\bself as ", code):
            shapes[shape(item)].append(item)
    for group in shapes.values():
        if len(group) > 1 and len(body(group[0].text).split("\n")) > 2:
            for item in group:
                put("2", item)
    return out


def reasons(root):
    """Each comment's part behind the word `Kept:`, with its file and the item at which it stands."""
    for folder in sorted(os.listdir(os.path.join(root, "crates"))):
        src = os.path.join("crates", folder, "src")
        for name in sorted(os.listdir(os.path.join(root, src))):
            lines = open(os.path.join(root, src, name), encoding="utf-8").read().split("\n")
            last = "the file"
            for i, row in enumerate(lines):
                if m := re.match(r"\s*(?:pub(?:\([a-z]+\))? )?(?:extern \"C\" )?(?:fn|enum|struct|const|static|trait|mod) (\w+)", row):
                    last = m[1]
                if "Kept:" not in row:
                    continue
                words, j = [row.split("Kept:", 1)[1].strip()], i + 1
                while j < len(lines) and re.match(r"\s*//", lines[j]) and "Kept:" not in lines[j]:
                    words.append(lines[j].strip().lstrip("/").strip())
                    j += 1
                while j < len(lines) and re.match(r"\s*(//|#)", lines[j]):
                    j += 1
                ahead = ITEM.match(lines[j]) if j < len(lines) else None
                yield f"{folder}/src/{name}", ahead[2] if ahead else last, " ".join(words)


def main():
    args = sys.argv[1:]
    root = args.pop(0) if args and os.path.isdir(args[0]) else os.path.join(os.path.dirname(os.path.abspath(__file__)), "..")
    if args == ["kept"]:
        for path, item, words in reasons(root):
            print(f"| `{path}` | `{item}` | {words} |")
        return
    found = places(root)
    for point, words in POINTS.items():
        rows = found[point]
        if args and point not in args:
            continue
        print(f"{point:3} {len(rows):4} found, {sum(k for _, k in rows):3} kept with a reason: {words}")
        if args:
            for where, kept in rows:
                print("    ", where, "(kept)" if kept else "")


main()
