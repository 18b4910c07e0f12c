#!/usr/bin/env python3
"""Brings the words of this repository to snake case: definitions, lemmas, fields, constructors and variables of .antt files, and where clauses,
must-fail edits and pages speak of them. Types and modules keep their camel case, functions of src/ and strings their names.

usage: tools/port_names.py [--look]     at the top, once and no more, after port.py; --look only tells which names would fall together
"""
import collections
import os
import re
import sys

LOOK = "--look" in sys.argv[1:]
WORD = re.compile(r"[A-Za-z_][A-Za-z0-9_']*")
DASHED = re.compile(r"(?<![\w'.-])[a-z][a-z0-9_']*(?:-[a-z0-9_']+)+(?![\w'-])|(?<=\.)[a-z][a-z0-9_']*(?:-[a-z0-9_']+)+(?![\w'-])")
FIELD = re.compile(r"(?m)^\s+(?:pub )?([a-z][a-z0-9_']*(?:-[a-z0-9_']+)+) :")
HUMP = re.compile(r"(?<=[a-z0-9'])([A-Z])")
ANTT = r"(?m)(?<![^\s(){}])--(?=\s|$)[^\n]*"
RT = r"(?m)//[^\n]*"
# Words with a minus that got an underscore, since a library's word has one, and would fall together with a word of this repository.
APART = {"node_row": "node-row", "no_pairs": "no-pairs", "runs_of": "runs-of"}


def turned(word):
    """The word in snake case. A word that begins with a capital keeps its humps: it is a type, a module, or made from one."""
    if not word[0].islower():
        return word
    return HUMP.sub(lambda m: "_" + m.group(1).lower(), word)


def word(m):
    return turned(m.group(0))


def apart(m):
    return APART.get(m.group(0), turned(m.group(0)))


def quoted(m):
    return WORD.sub(word, m.group(0))


def files(ends, roots):
    for root in roots:
        if os.path.isfile(root):
            yield root
        for folder, dirs, names in os.walk(root):
            dirs[:] = sorted(d for d in dirs if d not in ("out", ".git", "target"))
            for name in sorted(names):
                if name.endswith(ends):
                    yield os.path.join(folder, name)


def pieces(text, comment):
    """The text in pieces: (is code, piece). Comments and strings are not code."""
    at = 0
    for m in re.finditer(comment + r'|b?"(?:[^"\\\n]|\\.)*"', text):
        yield True, text[at : m.start()]
        yield False, m.group(0)
        at = m.end()
    yield True, text[at:]


def read(path):
    with open(path, encoding="utf-8") as f:
        return f.read()


def put(path, text, old):
    if text != old:
        with open(path, "w", encoding="utf-8") as f:
            f.write(text)


def fields():
    """The fields and constructors of specs/ that have a minus: words, and not lemmas."""
    found = set()
    for path in files(".antt", ["crates"]):
        if "/specs/" in path:
            found |= set(FIELD.findall(read(path)))
    return found - set(APART.values()) - {"leaf-row"}


def with_fields(found):
    return lambda text: DASHED.sub(lambda m: m.group(0).replace("-", "_") if m.group(0) in found else m.group(0), text)


def look():
    dashed = fields()
    for path in files((".antt", ".rt"), ["crates"]):
        here = collections.defaultdict(set)
        for code, piece in pieces(read(path), RT if path.endswith(".rt") else ANTT):
            for m in WORD.finditer(piece if code else ""):
                here[turned(m.group(0))].add(m.group(0))
            for m in DASHED.finditer(piece if code else ""):
                if m.group(0) in dashed:
                    here[m.group(0).replace("-", "_")].add(m.group(0))
        for new, olds in sorted(here.items()):
            if len(olds) > 1:
                print(f"together: {path}: {' '.join(sorted(olds))}")


def sources():
    turn = with_fields(fields())
    for path in files((".antt", ".rt"), ["crates"]):
        old = read(path)
        out = []
        for code, piece in pieces(old, RT if path.endswith(".rt") else ANTT):
            if code:
                out.append(turn(WORD.sub(word if path.endswith(".rt") else apart, piece)))
            elif piece.startswith(("--", "//")):
                out.append(re.sub(r"`[^`\n]*`", lambda m: turn(quoted(m)), piece))
            else:
                out.append(piece)
        put(path, "".join(out), old)


def edits():
    turn = with_fields(fields())
    for path in files(".edit", ["crates"]):
        old = read(path)
        put(path, re.sub(r"(?m)^(?:old|new): .*", lambda m: m.group(0)[:5] + turn(WORD.sub(word, m.group(0)[5:])), old), old)


def pages():
    turn = with_fields(fields())
    for path in files(".md", ["README.md", "docs"]):
        old = read(path)
        put(path, re.sub(r"`[^`\n]*`", lambda m: turn(quoted(m)), old), old)


if __name__ == "__main__":
    if LOOK:
        look()
    else:
        edits()
        pages()
        sources()
