#!/usr/bin/env python3
"""Spells the repository's own definitions and lemmas as today's Rattle does, once, after the kit's port.py.

usage: python3 tools/respell.py [--check]      at the top of the repository

A word that specs/ or proofs/ declare with a dash or in mixed case turns to snake case, as `one-way` to `one_way`.
A dash stays where the whole name is names of functions in a row, as in `length-append`, since a dash joins names there.
Types, modules and the names that the check makes (goals, invariants, and what follows `c.`, `w.`, `l.`, `g.` and `goal.`) stay,
and so does everything in src/ but clauses and `ghost use` items. It prints each name that turns, and `meets:` where
a new spelling stood in a file already. --check writes nothing.
"""
import os
import re
import sys

WORD = re.compile(r'[^\s(){}.;,@"«»\[\]|]+')
DECLARED = re.compile(
    r"(?m)^[ \t]*(?:abbrev |unfoldable |pub |record |data )*(?P<name>[^\s:(){}.;,]+)"
    r"(?:[ \t]+(?:\{[^{}\n]*\}|\((?:[^()\n]|\([^()\n]*\))*\)))*[ \t]*:(?![:=])[ \t]*(?P<type>[^\n]*)"
)
CLAUSE = re.compile(r"(?:requires|ensures|ghost|law)\s*\*?\s*(?:\w+\s*[:=]?\s*)?\{")
GHOST_USE = re.compile(r"ghost\s+use\b[^;]*;")
HEADS = ("c", "w", "l", "g", "goal")
# Functions of std and of the logic whose names a lemma's name is put together from.
LIBRARY = """append length take drop map get_or count_by count set reverse cond replicate sum flat_map slice_get
option_map put_mid cons nil""".split()
# Names that would meet a function of src/ in a file that says both.
OTHERS = {
    "nan-count": "nan_count_of",
    "boundary-order": "boundary_order_of",
    "level-size": "level_size_of",
    "lead-length": "lead_length_of",
    # Fields, a definition and names of modules, which have no dash.
    "bytes-above": "bytes_above",
    "levels-coded": "levels_coded",
    "largest-one": "largest_one",
    "smallest-one": "smallest_one",
    "upper-above": "upper_above",
    "two-pages": "two_pages",
    "order-laws": "order_laws",
    "text-laws": "text_laws",
}
OLD = {"getD": "get_or", "countBy": "count_by", "putMid": "put_mid"}


def texts(ending):
    for folder, dirs, files in os.walk("crates"):
        dirs[:] = sorted(d for d in dirs if d != "out")
        for f in sorted(files):
            if f.endswith(ending):
                yield os.path.join(folder, f)


def read(path):
    with open(path, encoding="utf-8") as f:
        return f.read()


def generated(path):
    return os.path.basename(path) in ("Answers.antt", "Invariants.antt")


def snake(word):
    word = OLD.get(word, word)
    return re.sub(r"(?<=[a-z0-9])([A-Z])(?=[a-z]|$)", lambda m: "_" + m[1].lower(), word)


def declared():
    found, functions = set(), set(LIBRARY)
    for path in texts(".antt"):
        for m in DECLARED.finditer(read(path)):
            name, type_ = m["name"], m["type"]
            if generated(path) and (type_.startswith("goal.") or re.match(r"(invariant|decreases)-", name)):
                continue
            if name.startswith("--"):
                continue
            found.add(name)
            if "/specs/" in path and "→" in type_ and "≡" not in type_ and not name[0].isupper():
                functions.add(respelled(name, ()))
    return found, functions


def respelled(name, functions):
    if name in OTHERS:
        return OTHERS[name]
    if "-" not in name and not (name[0].islower() and re.search(r"[a-z0-9][A-Z]", name)):
        return name
    parts = [p if p[:1].isupper() else snake(p) for p in name.split("-")]

    def rows(at):
        if at == len(parts):
            yield []
        for end in range(at + 1, len(parts) + 1):
            word = "_".join(parts[at:end])
            if word in functions:
                for rest in rows(end):
                    yield [word] + rest

    best = min(rows(0), key=len, default=[])
    return "-".join(best) if len(best) > 1 else "_".join(parts)


def turned(code, names):
    def one(m):
        word = m[0]
        if word not in names:
            return word
        before = code[: m.start()]
        head = re.search(r"(?<![\w.])(\w+)\.$", before[-40:])
        if head and head[1] in HEADS:
            return word
        return names[word]

    return WORD.sub(one, code)


def antt(text, names):
    out, at = [], 0
    for m in re.finditer(r'(?<![^\s(){}.;,@"])--[^\n]*|"[^"\n]*"', text):
        out += [turned(text[at : m.start()], names), m[0]]
        at = m.end()
    return "".join(out) + turned(text[at:], names)


def rattle(text, names):
    spans = [m.span() for m in GHOST_USE.finditer(text)]
    for m in CLAUSE.finditer(text):
        depth, end = 1, m.end()
        while depth and end < len(text):
            depth += {"{": 1, "}": -1}.get(text[end], 0)
            end += 1
        spans.append((m.end(), end - 1))
    out, at = [], 0
    for start, end in sorted(spans):
        if start < at:
            continue
        out += [text[at:start], turned(text[start:end], names)]
        at = end
    return "".join(out) + text[at:]


def page(text, names):
    return re.sub(r"`[^`\n]+`", lambda m: turned(m[0][1:-1], names).join("``"), text)


def main():
    if sys.argv[1:] not in ([], ["--check"]):
        sys.exit(__doc__)
    found, functions = declared()
    names = {n: respelled(n, functions) for n in found}
    names.update((n, s) for n, s in OTHERS.items() if n.endswith("-laws"))
    names = {n: s for n, s in names.items() if n != s}
    taken = {}
    for n, s in names.items():
        taken.setdefault(s, []).append(n)
    for s, ns in sorted(taken.items()):
        if len(ns) > 1:
            print("meets:", s, "from", *sorted(ns))
    turns = [(".antt", antt), (".rt", rattle)]
    for path in [p for ending, _ in turns for p in texts(ending)]:
        words = set(WORD.findall(read(path)))
        for n in sorted(words & names.keys()):
            if names[n] in words:
                print("meets:", path, n, names[n])
    for n in sorted(names):
        print(n, "->", names[n])
    if sys.argv[1:]:
        return
    for ending, turn in turns:
        for path in list(texts(ending)):
            text = read(path)
            new = turn(text, names)
            if new != text:
                with open(path, "w", encoding="utf-8") as f:
                    f.write(new)
    pages = ["README.md"] + sorted(os.path.join("docs", f) for f in os.listdir("docs") if f.endswith(".md"))
    for path in pages:
        text = read(path)
        new = page(text, names)
        if new != text:
            with open(path, "w", encoding="utf-8") as f:
                f.write(new)


main()
