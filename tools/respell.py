#!/usr/bin/env python3
"""Respells the definitions and lemmas of this repository: words in snake case, types in camel case.

usage: python3 tools/respell.py [FOLDER]      FOLDER: the top of a checkout in which the toolchain's port.py has run
       python3 tools/respell.py --names [FOLDER]    prints old and new names and writes nothing

It reads the names that specs/ and proofs/ declare, and turns each whole word of them in .antt files, in the ghost
lines and clauses of .rt files, and nowhere else. Names that Rattle makes (goals, steps) are left alone.
"""
import os
import re
import sys

NAME = r"[^\s(){}.,;:\"λ⟨⟩]+"
DECLARED = re.compile(r"^(\s*)((?:(?:abbrev|unfoldable|opaque|data|record|pub)\s+)*)(" + NAME + r")((?:\s+[({][^:]*:[^)}]*[)}])*)\s*:(?=\s|$)")
WORD = re.compile(NAME)

# Names that would fall together with another one where both are in scope: the lemma gives way to the definition.
APART = {"round-changes": "changing_round", "position_from": "position_found_from", "opened_rows": "rows_opened", "bit-and": "bit_of_and", "bit-or": "bit_of_or"}
# Fields and lemmas of different crates that may have one name.
SHARED = {"few_nonterminals", "few_references", "few_terminals", "some_nonterminal"}


def files(root, *endings):
    for folder, dirs, names in os.walk(os.path.join(root, "crates")):
        dirs[:] = sorted(d for d in dirs if d not in ("out", "target"))
        for n in sorted(names):
            if n.endswith(endings):
                yield os.path.join(folder, n)


def read(path):
    with open(path, encoding="utf-8") as f:
        return f.read()


def is_answer(path):
    return os.sep + "proofs" + os.sep in path and os.path.basename(path) in ("Answers.antt", "Invariants.antt")


def declared(root):
    """Each declared name, and whether one of its declarations is a field of a record."""
    names = {}
    for p in files(root, ".antt"):
        in_record = None
        for line in read(p).splitlines():
            if not line.strip() or line.lstrip().startswith("--"):
                continue
            indent = len(line) - len(line.lstrip())
            if in_record is not None and indent <= in_record:
                in_record = None
            m = DECLARED.match(line)
            if not m:
                continue
            rest = line[m.end():]
            if is_answer(p) and re.match(r"(goal|need|given)\." + re.escape(m.group(3)) + r"\b", rest.strip()):
                continue
            field = in_record is not None
            if "record" in m.group(2).split():
                in_record = indent
            names[m.group(3)] = names.get(m.group(3), False) or field
    return names


def respelled(name):
    if name in APART:
        return APART[name]
    if name[0].isupper():
        return "".join(w[:1].upper() + w[1:] for w in name.split("-"))
    t = name.replace("-", "_")
    t = re.sub(r"(?<=[a-z0-9])([A-Z])", lambda m: "_" + m.group(1).lower(), t)
    return t[:1] + t[1:].lower() if t.isascii() else t


def table(root):
    names = declared(root)
    turned = {n: respelled(n) for n in names if respelled(n) != n}
    back = {}
    for n, t in turned.items():
        back.setdefault(t, []).append(n)
    bad = [f"{t}: {', '.join(ns)}" for t, ns in sorted(back.items()) if (len(ns) > 1 or (t in names and t not in turned)) and t not in SHARED]
    return names, turned, bad


def turn_text(text, turned, fields):
    """Turns whole words of text. A word right behind a dot is a field or a name by its path."""

    def word(m):
        w = m.group(0)
        if w not in turned:
            return w
        if m.start() and text[m.start() - 1] == "." and w not in fields and not re.search(r"(?:^|[\s({])[\w.]*[A-Z]\w*\.$", text[max(0, m.start() - 120):m.start()]):
            return w
        return turned[w]

    return WORD.sub(word, text)


def turn_antt(text, turned, fields):
    lines = []
    for line in text.split("\n"):
        code, dash, comment = line.partition("-- ") if line.lstrip().startswith("-- ") or " -- " in line else (line, "", "")
        lines.append(turn_text(code, turned, fields) + dash + comment)
    return "\n".join(lines)


def turn_rt(text, turned, fields):
    """Turns the braces of ghost items and of clauses alone."""
    out, at = [], 0
    head = re.compile(r"ghost use [^;]*;|(?:\b(?:requires|ensures)\b[^{;]*|\bghost(?: \w+)?:? ?(?:\w+)?: |\bghost \w+ = )\{")
    while True:
        m = head.search(text, at)
        if not m:
            out.append(text[at:])
            return "".join(out)
        out.append(text[at:m.start()])
        if m.group(0).startswith("ghost use"):
            out.append(turn_text(m.group(0), turned, fields))
            at = m.end()
            continue
        depth, i = 1, m.end()
        while depth:
            depth += {"{": 1, "}": -1}.get(text[i], 0)
            i += 1
        out.append(m.group(0) + turn_text(text[m.end():i], turned, fields))
        at = i


def main(argv):
    show = argv[:1] == ["--names"]
    root = (argv[1:] if show else argv) or ["."]
    names, turned, bad = table(root[0])
    for b in bad:
        print("falls together: " + b, file=sys.stderr)
    if bad:
        return 1
    if show:
        for n, t in sorted(turned.items()):
            print(f"{n} {t}")
        return 0
    fields = {n for n, f in names.items() if f}
    for p in files(root[0], ".antt", ".rt"):
        old = read(p)
        new = (turn_antt if p.endswith(".antt") else turn_rt)(old, turned, fields)
        if new != old:
            with open(p, "w", encoding="utf-8") as f:
                f.write(new)
    return 0


sys.exit(main(sys.argv[1:]))
