#!/usr/bin/env python3
"""Respells the repository's own names by the table beside this script: words in snake case, a dash only where it joins the names of two definitions.

usage: respell.py ROOT          turns crates/ below ROOT (definitions, proofs, clauses, must-fail edits) and the code spans of README.md and docs/
       respell.py --check ROOT  writes nothing and names each file that would change

A row of respell.tsv is a scope, the old name and the new one. Scope '-' is everywhere; a row with crates, joined by commas, holds in their definitions and proofs,
where no dot stands beside the name: of lemmas that had, in snake case already, the name that their function gets, and of one name that stood for two functions.
A lemma that would have its function's name gets `_lem`, a local name that would meet another gets `_here`.
Strings keep what they say, and so do functions of src/, names that the proof tool makes, and words of prose outside code spans,
but in comments of code for those with a capital inside, which only a name can be.
It is run once: where no old name is left it stops, since a row with crates would turn what an earlier run made.
"""

import os
import re
import sys

HERE = os.path.dirname(os.path.abspath(__file__))
WORD = re.compile(r"[^\s(){}.;,@\"«»]+")
# In code a path is joined by two colons.
RUST_WORD = re.compile(r"[^\s(){}.;:,@\"«»]+")
SPAN = re.compile(r"`[^`\n]+`")
STRING = r'"(?:[^"\\\n]|\\.)*"'
ANTT = re.compile(STRING + r"|(?<![^\s(){};,])--[^\n]*|\{-.*?-\}", re.S)
RUST = re.compile(r"//[^\n]*|b?" + STRING + r"|b?'(?:\\.[^']*|[^'\\])'")
# Names of places in a proof, which the tool makes from the code: behind a dot they are never ours.
MADE = re.compile(r".*-is|(?:predecessors|successors)-part")


def table():
    everywhere, scoped = {}, {}
    with open(os.path.join(HERE, "respell.tsv"), encoding="utf-8") as f:
        for line in f:
            scope, old, new = line.rstrip("\n").split("\t")
            if scope == "-":
                everywhere[old] = new
            else:
                for crate in scope.split(","):
                    scoped.setdefault(crate, {})[old] = new
    return everywhere, scoped


def humped(word):
    return bool(re.search(r"[a-z0-9'][A-Z]", word))


class Respeller:
    def __init__(self):
        self.everywhere, self.scoped = table()

    def words(self, text, crate=None, proof=False, word_of=WORD):
        """The code part of a file, each whole word looked up."""
        bound = self.scoped.get(crate, {})

        def turn(m):
            word = m.group(0)
            behind_dot = text[m.start() - 1 : m.start()] == "."
            before_dot = text[m.end() : m.end() + 1] == "."
            if proof and behind_dot and MADE.fullmatch(word):
                return word
            if word in bound and not behind_dot and not before_dot:
                return bound[word]
            return self.everywhere.get(word, word)

        return word_of.sub(turn, text)

    def spans(self, text):
        """The code spans of prose."""
        return SPAN.sub(lambda m: "`" + self.words(m.group(0)[1:-1]) + "`", text)

    def comment(self, text):
        """Code spans, and bare words that only a name can be."""
        turned = self.spans(text)
        return WORD.sub(lambda m: self.everywhere.get(m.group(0), m.group(0)) if humped(m.group(0)) else m.group(0), turned)

    def code(self, text, quiet, *how):
        # Words never reach over a string or a comment, so what lies between them can stand alone.
        out, at = [], 0
        for m in quiet.finditer(text):
            out.append(self.words(text[at : m.start()], *how))
            said = m.group(0)
            out.append(self.comment(said) if said.startswith(("--", "//", "{-")) else said)
            at = m.end()
        out.append(self.words(text[at:], *how))
        return "".join(out)

    def edit(self, text):
        lines, word_of = [], WORD
        for line in text.splitlines(keepends=True):
            head, colon, rest = line.partition(": ")
            if head == "file":
                word_of = RUST_WORD if rest.strip().endswith(".rt") else WORD
            lines.append(head + colon + self.words(rest, word_of=word_of) if head in ("old", "new") else line)
        return "".join(lines)

    def left(self, path):
        """Whether a definition file still has a name of the table."""
        if os.sep + "specs" + os.sep not in path or not path.endswith(".antt"):
            return False
        with open(path, encoding="utf-8") as f:
            return any(w in self.everywhere for w in WORD.findall(ANTT.sub(" ", f.read())))

    def file(self, path, crate):
        with open(path, encoding="utf-8") as f:
            old = f.read()
        if path.endswith(".antt"):
            new = self.code(old, ANTT, crate, os.sep + "proofs" + os.sep in path)
        elif path.endswith(".rt"):
            new = self.code(old, RUST, None, False, RUST_WORD)
        elif path.endswith(".edit"):
            new = self.edit(old)
        else:
            new = self.spans(old)
        return old, new


def files(root):
    for folder, dirs, names in os.walk(os.path.join(root, "crates")):
        dirs[:] = sorted(d for d in dirs if d not in ("out", "target"))
        parts = os.path.relpath(folder, os.path.join(root, "crates")).split(os.sep)
        for name in sorted(names):
            if name.endswith((".antt", ".rt", ".edit")):
                yield os.path.join(folder, name), parts[0]
    for name in ["README.md"] + [os.path.join("docs", n) for n in sorted(os.listdir(os.path.join(root, "docs")))]:
        # The page of the port has old names beside new ones.
        if name.endswith(".md") and name != os.path.join("docs", "PORT.md"):
            yield os.path.join(root, name), None


def main(argv):
    if not argv or argv[0] in ("-h", "--help") or len(argv) > 2 or (len(argv) == 2 and argv[0] != "--check"):
        print(__doc__)
        return 2
    check, root = argv[0] == "--check", argv[-1]
    if not os.path.isdir(os.path.join(root, "crates")):
        print(f"no crates/ below {root}", file=sys.stderr)
        return 2
    respeller, changed = Respeller(), 0
    if not any(respeller.left(path) for path, _ in files(root)):
        print("no old name is left: nothing to do")
        return 0
    for path, crate in files(root):
        old, new = respeller.file(path, crate)
        if old == new:
            continue
        changed += 1
        if check:
            print(os.path.relpath(path, root))
        else:
            with open(path, "w", encoding="utf-8") as f:
                f.write(new)
    print(f"{changed} files {'would change' if check else 'changed'}")
    return 0


if __name__ == "__main__":
    raise SystemExit(main(sys.argv[1:]))
