#!/usr/bin/env python3
"""Counts, for each point of docs/DESIGN-PASS.md, the places of the older forms in src/.

    python3 tools/count_places.py [ROOT] [--list] [--point N]

ROOT is the top of a checkout, this one if none is given. With --list each place is printed.
"""
import re
import sys
from collections import defaultdict
from pathlib import Path

WORDS = re.compile(r"[A-Za-z_][A-Za-z0-9_]*|\d[\d_xXa-fA-F]*|'[a-z_]+|->|=>|::|[^\s]")
KEEP = set("fn pub mut for in if else match while let return self Self impl where true false Ok Err Some None Result Option".split())


def sources(root):
    for path in sorted(root.glob("crates/*/src/*.rt")):
        yield path.relative_to(root), path.read_text()


def lines(root, pattern):
    """The lines that hold a pattern, but for comments and imports."""
    found = []
    for path, text in sources(root):
        for number, line in enumerate(text.split("\n"), 1):
            if re.search(pattern, line) and not re.match(r"\s*//|ghost use|use ", line):
                found.append(f"{path}:{number}: {line.strip()[:100]}")
    return found


def functions(text):
    """Each function's name, header, clauses and body."""
    for found in re.finditer(r"^( *)(?:pub(?:\(crate\))? )?fn (\w+)", text, re.M):
        indent = found.group(1)
        end = re.search(rf"^{indent}(?:\}}|\{{\}}|.*;)$|^{indent}[^ \n].*\}}$", text[found.end():], re.M)
        whole = text[found.start(): found.end() + (end.end() if end else 0)]
        clauses = re.findall(r"^\s*(?:requires|ensures) ?\w* ?\{ (.*) \}$", whole, re.M)
        code = re.sub(r"^\s*(?:requires|ensures).*$", "", whole, flags=re.M)
        code = re.sub(r"//.*$", "", code, flags=re.M)
        yield found.group(2), whole, clauses, code


def shape(code):
    """A function's tokens, every name and number by the place where it first stood."""
    names = {}
    out = []
    for word in WORDS.findall(code):
        if (word[0].isalpha() or word[0] in "_'" or word[0].isdigit()) and word not in KEEP:
            out.append(str(names.setdefault(word, len(names))))
        else:
            out.append(word)
    return " ".join(out)


def twins(root):
    """Functions of one shape: alike but for names, types and numbers."""
    groups = defaultdict(list)
    for path, text in sources(root):
        for name, _, _, code in functions(text):
            body = code[code.find("{"):]
            if len(WORDS.findall(body)) >= 12:
                groups[shape(code)].append(f"{path}: {name}")
    return [" ~ ".join(g) for g in groups.values() if len(g) > 1]


def repeated_facts(root):
    """Parts of clauses, of 40 signs or more in brackets or whole, in three or more functions."""
    where = defaultdict(set)
    for path, text in sources(root):
        for name, _, clauses, _ in functions(text):
            for clause in clauses:
                parts = {clause}
                stack = []
                for i, sign in enumerate(clause):
                    if sign == "(":
                        stack.append(i)
                    elif sign == ")" and stack:
                        parts.add(clause[stack.pop(): i + 1])
                for part in parts:
                    if len(part) >= 40:
                        where[part].add(f"{path}: {name}")
    full = {p: w for p, w in where.items() if len(w) >= 3}
    tops = [p for p in full if not any(p != q and p in q and full[q] == full[p] for q in full)]
    return [f"{len(full[p])} functions: {p[:110]}" for p in sorted(tops, key=lambda p: -len(full[p]))]


def travellers(root):
    """Two or more parameters side by side, with names and types, in three or more functions."""
    where = defaultdict(set)
    for path, text in sources(root):
        for name, whole, _, _ in functions(text):
            head = re.search(r"\((.*?)\)\s*(?:->|$|where|\{|requires)", whole, re.S)
            if not head:
                continue
            given = [re.sub(r"\s+", " ", p).strip() for p in re.split(r",\s*(?![^<]*>)", head.group(1))]
            given = [p for p in given if re.match(r"(?:mut )?\w+: ", p)]
            for i in range(len(given)):
                for j in range(i + 2, len(given) + 1):
                    where[", ".join(given[i:j])].add(f"{path}: {name}")
    full = {p: w for p, w in where.items() if len(w) >= 3}
    tops = [p for p in full if not any(p != q and p in q and full[q] == full[p] for q in full)]
    return [f"{len(full[p])} functions: {p}" for p in sorted(tops, key=lambda p: -len(full[p]))]


def proofs(root):
    found = []
    for path in sorted(root.glob("crates/*/proofs/**/*.antt")):
        count = path.read_text().count("\n")
        found.append((path.relative_to(root), count))
    return found


POINTS = [
    (1, "a refusal beside a view, as a pair", lambda r: lines(r, r"-> \(Result<\(\), \w+>, ")),
    (1, "such a pair taken apart", lambda r: lines(r, r"let \((made|_), \w+\) = ")),
    (1, "an answer that is a code or means nothing", lambda r: lines(r, r"-> u8\b")),
    (1, "an enum of the library's own", lambda r: lines(r, r"^(pub )?enum ")),
    (1, "a flag that says whether the bytes beside it are a mask", lambda r: lines(r, r"^\s*(pub )?masked: bool,$")),
    (1, "a number that stands for none", lambda r: lines(r, r"places: Vec<usize>")),
    (2, "functions of one shape", twins),
    (3, "a loop over a range of numbers, or `while`", lambda r: lines(r, r"\bfor \w+ in [^{]*\.\.[^{]*\{|\bwhile\b")),
    (4, "an impl of std's equality, order, copying, conversion or printing", lambda r: lines(r, r"^impl.*\b(Display|Debug|PartialEq|Eq|PartialOrd|Ord|Clone|Copy|Default|Hash|From(<.*>)?|TryFrom(<.*>)?|FromStr) for ")),
    (4, "a comparison or a number of a case written out", lambda r: lines(r, r"fn is\(self|=> \d+,$|\.\w+ == \w+\.\w+ &&|number\}, \{refusal|\.0\.number\(\)")),
    (5, "a fact of 40 signs or more in three or more contracts", repeated_facts),
    (5, "parameters side by side in three or more functions", travellers),
    (6, "a length, a start or a count beside what it measures", lambda r: lines(r, r"^\s*(pub )?(len|start|from|kept|nulls): usize,$")),
    (6, "lists side by side in one struct", lambda r: lines(r, r"^\s*(pub )?\w+: Vec<.*>,$")),
    (7, "a match over two values, a function pointer or a `dyn`", lambda r: lines(r, r"match \(|: fn\(|\bdyn\b")),
]


def main():
    args = sys.argv[1:]
    listed = "--list" in args
    point = int(args[args.index("--point") + 1]) if "--point" in args else None
    roots = [a for i, a in enumerate(args) if not a.startswith("--") and (i == 0 or args[i - 1] != "--point")]
    root = Path(roots[0]) if roots else Path(__file__).resolve().parent.parent
    for number, what, find in POINTS:
        if point in (None, number):
            found = find(root)
            print(f"{number}  {len(found):4}  {what}")
            for place in found if listed else []:
                print(f"         {place}")
    if point in (None, 8):
        all_proofs = proofs(root)
        answers = [p for p in all_proofs if p[0].name in ("Answers.antt", "Invariants.antt")]
        lemmas = [p for p in all_proofs if p not in answers]
        print(f"8  {len(answers):4}  files of answers and invariants, {sum(n for _, n in answers)} lines")
        print(f"8  {len(lemmas):4}  files of lemmas, {sum(n for _, n in lemmas)} lines")


main()
