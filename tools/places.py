#!/usr/bin/env python3
"""Counts, in the sources of the crates, the places that docs/DESIGN-PASS.md speaks of: tools/places.py [--list] [POINT..]

What it looks for, point by point:
1  enums of two cases of which one says no, structs that hold an answer or a flag beside a value, and numbers that stand for a kind
2  functions whose code is the same but for names, numbers and types
3  `while` loops, and `for` loops over a range whose body indexes by it
4  functions that only convert, compare, copy or print: a cast, a match from cases to literals or back, a loop that copies
5  facts that stand in the requires of three or more functions, and parameters that stand together in three or more
6  fields and variables that hold a length beside a buffer, and arrays of the same length beside each other
7  matches of three or more arms that each call a function of their own with the same arguments
8  proof files of the crates

Behind each count stands how many of the places have a reason beside them: a line with `kept:` at the head of their file, over or in their function or
type, or at the head of their crate. --list names the places; --left only those without a reason.
"""
import collections
import pathlib
import re
import sys

ROOT = pathlib.Path(__file__).resolve().parent.parent
if not (ROOT / "crates.txt").exists():
    ROOT = pathlib.Path.cwd()
SOURCES = sorted((ROOT / "crates").glob("*/src/**/*.rt"))
NO = {"Refused", "End", "NotYet", "Nothing", "Invalid", "None"}


def stripped(text):
    """The text without comments, line for line."""
    return "\n".join(re.sub(r"//.*", "", line) for line in text.splitlines())


class Fn:
    def __init__(self, file, line, head, clauses, body):
        self.file, self.line, self.head, self.clauses, self.body = file, line, head, clauses, body
        self.name = re.search(r"\bfn (\w+)", head)[1]
        inside = re.search(r"\((.*)\)", head, re.S)
        depth, part, self.params = 0, "", []
        for c in inside[1] if inside else "":
            if c in "<([":
                depth += 1
            if c in ">)]":
                depth -= 1
            if c == "," and depth == 0:
                self.params.append(" ".join(part.split()))
                part = ""
            else:
                part += c
        if part.strip():
            self.params.append(" ".join(part.split()))

    def where(self):
        return f"{self.file}:{self.line} {self.name}"


def functions(path):
    text = stripped(path.read_text())
    lines, found, i = text.splitlines(), [], 0
    while i < len(lines):
        if re.match(r"\s*(pub )?(const )?(extern \"C\" )?fn \w+", lines[i]):
            start, indent = i, len(lines[i]) - len(lines[i].lstrip())
            close = " " * indent
            while i < len(lines) and not lines[i].rstrip().endswith(("{", ";")) or i > start and re.match(r"\s*(requires|ensures|ghost)\b", lines[i]) and lines[i].rstrip() != close + "{":
                i += 1
            opened = i
            while i < len(lines) and lines[i].rstrip() != close + "}":
                i += 1
            whole = lines[start:opened]
            cut = next((k for k, l in enumerate(whole) if re.match(r"\s*(requires|ensures|ghost)\b", l)), len(whole))
            head = " ".join(l.strip() for l in whole[:cut]) or lines[start]
            if lines[opened].strip() != "{":
                head = " ".join(l.strip() for l in lines[start:opened + 1])
            found.append(Fn(path.relative_to(ROOT / "crates"), start + 1, head, "\n".join(whole[cut:]), "\n".join(["{"] + lines[opened + 1:i + 1])))
        i += 1
    return found


FNS = [f for p in SOURCES for f in functions(p)]


def one():
    for p in SOURCES:
        text = stripped(p.read_text())
        for m in re.finditer(r"enum (\w+)[^{]*\{(.*?)\n\}", text, re.S):
            cases = [c for c in re.findall(r"^    (\w+)", m[2], re.M)]
            if len(cases) == 2 and NO & set(cases) or len(cases) == 2 and "NextBit" == m[1]:
                yield f"{p.relative_to(ROOT / 'crates')}:{text[:m.start()].count(chr(10)) + 1} enum {m[1]} ({', '.join(cases)})"
        for m in re.finditer(r"struct (\w+)[^{;]*\{(.*?)\n\}", text, re.S):
            flag = re.search(r"^    (?:pub )?(answer|found|said): (\w+)", m[2], re.M)
            if flag and flag[2] != "Result":
                yield f"{p.relative_to(ROOT / 'crates')}:{text[:m.start()].count(chr(10)) + 1} struct {m[1]} ({flag[1]}: {flag[2]})"
    for f in FNS:
        for a in f.params:
            if re.fullmatch(r"(\w*kind|setter|phase|mode|data_type|encryption_type|final_frame): u8", a):
                yield f"{f.where()} ({a})"


def shape(f):
    names = {}
    def name(m):
        word = m[0]
        if re.fullmatch(r"[iuf](8|16|32|64|size)|usize|bool", word):
            return "T"
        if word in {"let", "mut", "if", "else", "match", "return", "for", "in", "while", "as", "self", "Ok", "Err", "Some", "None"}:
            return word
        return names.setdefault(word, f"v{len(names)}")
    text = re.sub(r'b?"[^"]*"', "S", f.body)
    text = re.sub(r"0x[0-9A-Fa-f_]+|\b\d[\d_]*(?:u8|u16|u32|u64|usize)?\b", "N", text)
    text = re.sub(r"[A-Za-z_]\w*", name, text)
    return re.sub(r"\s+", " ", text)


def two():
    groups = collections.defaultdict(list)
    for f in FNS:
        if len(re.findall(r"\w+", f.body)) > 8:
            groups[shape(f)].append(f)
    for g in groups.values():
        if len(g) > 1:
            yield " = ".join(f.where() for f in g)


def three():
    for f in FNS:
        for k, line in enumerate(f.body.splitlines()):
            if re.match(r"\s*while\b", line):
                yield f"{f.where()}: {line.strip()}"
            m = re.match(r"\s*(?:'\w+: )?for (\w+) in (.*\.\..*) \{", line)
            if m:
                rest = "\n".join(f.body.splitlines()[k + 1:])
                if m[1] == "turn" or re.search(r"\[[^\]]*\b%s\b[^\]]*\]" % m[1], rest):
                    yield f"{f.where()}: {line.strip()}"


def arms(body):
    """What the arms of a function that is one match of one-line arms answer."""
    lines = [line.strip() for line in body.strip().strip("{}").splitlines() if line.strip()]
    if len(lines) < 4 or not re.fullmatch(r"match \*?\w+ \{", lines[0]) or lines[-1] != "}" or not all("=>" in line for line in lines[1:-1]):
        return []
    return [line.split("=>", 1)[1].strip().rstrip(",") for line in lines[1:-1]]


def four():
    for f in FNS:
        body = " ".join(f.body.strip().strip("{}").split())
        in_trait = f.name in ("from", "try_from", "fmt", "eq", "cmp", "clone")
        if re.fullmatch(r"\*?\w+ as \w+", body):
            yield f"{f.where()}: a cast"
        values = arms(f.body)
        if values and not in_trait and all(re.fullmatch(r"\d+|(Ok\()?[A-Z]\w*::\w+(\(\w+\))?\)?", v) for v in values):
            yield f"{f.where()}: a match from one to the other"
        elif len(values) > 1 and not in_trait and all(re.match(r"(line\.text|text\(out|out\.write|write!)", v) for v in values):
            yield f"{f.where()}: a match that prints"
        if re.search(r"(\w+)\[[^\]]*\] = \w+\[[^\]]*\];\s*(\w+ \+= 1;)?\s*\}", body) and len(body) < 200:
            yield f"{f.where()}: a loop that copies"
        if re.fullmatch(r"if \w+ \{ (return )?1;? \} (else \{ )?0( \})?", body) or re.fullmatch(r"if \w+ < \w+ \{ \w+ \} else \{ \w+ \}", body):
            yield f"{f.where()}: a choice of two"


def five():
    facts, sets = collections.defaultdict(set), collections.defaultdict(set)
    for f in FNS:
        for r in re.findall(r"requires[^{]*\{(.*?)\}\s*$", f.clauses, re.M):
            for fact in re.split(r" × ", r):
                fact = fact.strip().strip("()").strip()
                facts[(f.file.parts[0], fact)].add(f.where())
        ps = sorted(p for p in f.params if ":" in p and not p.startswith(("out:", "rt:", "alloc:")))
        for i, a in enumerate(ps):
            for b in ps[i + 1:]:
                sets[(f.file.parts[0], a, b)].add(f.where())
    for key, where in sorted(facts.items()):
        if len(where) > 2:
            yield f"{key[0]}: `{key[1]}` in {len(where)} contracts"
    for key, where in sorted(sets.items()):
        if len(where) > 2:
            yield f"{key[0]}: {key[1]}, {key[2]} in {len(where)} functions"


def six():
    for p in SOURCES:
        text = stripped(p.read_text())
        for m in re.finditer(r"struct (\w+)[^{;]*\{(.*?)\n\}", text, re.S):
            where = f"{p.relative_to(ROOT / 'crates')}:{text[:m.start()].count(chr(10)) + 1} struct {m[1]}"
            if re.search(r"\b(len|count|n): usize", m[2]) and "[" in m[2]:
                yield f"{where}: a length beside a buffer"
            arrays = collections.Counter(re.findall(r": \[(\w+; \d+)\]", m[2]))
            for a, n in arrays.items():
                if n > 1:
                    yield f"{where}: {n} arrays [{a}] beside each other"


def seven():
    for f in FNS:
        for m in re.finditer(r"match \w+(?:\.\w+)? \{(.*?)\n\s*\}", f.body, re.S):
            calls = re.findall(r"=> (?:\w+::)*(\w+)\(([^()]*)\)", m[1])
            calls = [c for c in calls if not c[0][0].isupper()]
            if len(calls) > 2 and len({c[0] for c in calls}) == len(calls) and len({c[1] for c in calls}) == 1:
                yield f"{f.where()}: {len(calls)} arms"


def eight():
    for c in sorted({p.relative_to(ROOT / "crates").parts[0] for p in (ROOT / "crates").glob("*/proofs/**/*.antt")}):
        files = list((ROOT / "crates" / c / "proofs").rglob("*.antt"))
        lines = sum(len(f.read_text().splitlines()) for f in files)
        answers = [f for f in files if f.name in ("Answers.antt", "Invariants.antt")]
        yield f"{c}: {len(answers)} files of answers and invariants, {len(files) - len(answers)} of lemmas, {lines} lines"


def reasoned(place):
    """Whether a place has a line with `kept:` beside it."""
    m = re.match(r"([\w/.]+\.rt):(\d+)", place)
    if not m:
        crate = place.split(":")[0]
        return any(re.search(r"//.*\bkept:", p.read_text()) for p in SOURCES if p.relative_to(ROOT / "crates").parts[0] == crate)
    lines = (ROOT / "crates" / m[1]).read_text().splitlines()
    at = int(m[2]) - 1
    start = max(at - 8, 0)
    end = at
    indent = len(lines[at]) - len(lines[at].lstrip())
    while end + 1 < len(lines) and lines[end].rstrip() != " " * indent + "}":
        end += 1
    head = [line for line in lines[:12] if line.startswith("//")]
    crate_head = (ROOT / "crates" / m[1].split("/")[0] / "src/lib.rt")
    heads = crate_head.read_text().splitlines()[:12] if crate_head.exists() else []
    return any(re.search(r"//.*\bkept:", line) for line in lines[start:end + 1] + head + [line for line in heads if line.startswith("//")])


POINTS = {"1": one, "2": two, "3": three, "4": four, "5": five, "6": six, "7": seven, "8": eight}
args = [a for a in sys.argv[1:] if not a.startswith("--")] or list(POINTS)
for point in args:
    places = list(POINTS[point]())
    left = [p for p in places if point != "8" and not reasoned(p)]
    print(f"point {point}: {len(places)}" + (f", {len(places) - len(left)} with a reason beside them" if point != "8" else ""))
    for p in places if "--list" in sys.argv else left if "--left" in sys.argv else []:
        print("   ", p)
