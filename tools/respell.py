#!/usr/bin/env python3
"""Respells this repository's own names, once, after the kit's port.py: definitions, facts, lemmas and fields of specs/ and proofs/ are in snake
case. tools/respelled.txt has a line for each, the old name and the new one; the functions of src/ keep their names.

    python3 tools/respell.py [FOLDER]      at the top of a checkout that port.py has turned
"""
import pathlib
import re
import sys

here = pathlib.Path(__file__).resolve().parent
root = pathlib.Path(sys.argv[1] if len(sys.argv) > 1 else ".")
names = dict(line.split() for line in (here / "respelled.txt").read_text().splitlines())
TOKEN = re.compile(r"[A-Za-z0-9_'≤₀₁₂-]+")
# English words that are spelled as a name is
ENGLISH = {"in-range"}


def turned(text, prose):
    def one(m):
        word = m[0]
        if prose and word in ENGLISH:
            return word
        return names.get(word, word)

    return TOKEN.sub(one, text)


def code(text):
    """All but the comments, whose hyphens are mostly English."""
    out = []
    for line in text.splitlines(keepends=True):
        m = re.match(r"(.*?)((?:--|//) .*\n?)$", line, re.S)
        out.append(turned(m[1], False) + turned(m[2], True) if m else turned(line, False))
    return "".join(out)


count = 0
for file in sorted(root.glob("crates/**/*")) + sorted(root.glob("frauds/**/*.edit")) + sorted(root.glob("docs/*.md")):
    if not file.is_file() or "out" in file.parts:
        continue
    prose = file.suffix in (".md", ".edit")
    if file.suffix not in (".antt", ".rt", ".md", ".edit"):
        continue
    old = file.read_text()
    new = old
    if file == root / "crates/golay/proofs/Near.antt":
        # a lemma that would have the name of its definition
        new = re.sub(r"\bis_word\b", "is_word_lem", new)
    new = turned(new, True) if prose else code(new)
    if new != old:
        file.write_text(new)
        count += 1
print(f"respell: {count} files")
