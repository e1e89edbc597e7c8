#!/usr/bin/env python3
"""Spells the labels that the check makes from names of src/ as those names are, once, after respell.py.

usage: python3 tools/relabel.py      at the top of the repository

A label joins names of the source by dashes, and a name keeps its underscores: `returns-then-is_open`, `c.copy_from_slice`.
The older files have dashes there too. This turns them in Answers.antt and Invariants.antt, by the names of the crate's src/,
and leaves what a file imports from anywhere but its own Goals and Given.
"""
import os
import re

WORD = re.compile(r'[^\s(){}.;,@"«»\[\]|]+')
# Words of the check's own that had a dash.
MADE = """type_inv invariant_of slice_bounds offset_bounds in_default in_ok in_err overflow_add overflow_sub overflow_mul
overflow_cast overflow_shl overflow_shr overflow_step nonzero_div nonzero_rem""".split()
USE = re.compile(r"(?m)^use ([^\s{;]+)\.\{([^}]*)\}")


def read(path):
    with open(path, encoding="utf-8") as f:
        return f.read()


def relabelled(word, names):
    for name in names:
        word = re.sub(rf"(?<![^-]){re.escape(name.replace('_', '-'))}(?![^-])", name, word)
    return word


def main():
    for crate in sorted(os.listdir("crates")):
        src = os.path.join("crates", crate, "src")
        names = set(MADE)
        for f in os.listdir(src):
            if f.endswith(".rt"):
                names.update(w for w in re.findall(r"\b[a-zA-Z]\w*\b", read(os.path.join(src, f))) if "_" in w.strip("_"))
        names = sorted(names, key=len, reverse=True)
        for folder, _, files in os.walk(os.path.join("crates", crate, "proofs")):
            for f in files:
                if f not in ("Answers.antt", "Invariants.antt", "Choices.antt"):
                    continue
                path = os.path.join(folder, f)
                text = read(path)
                kept = set()
                for m in USE.finditer(text):
                    if m[1].split(".")[-1] not in ("Goals", "Given"):
                        kept.update(re.split(r"[,\s]+", m[2]))
                new = WORD.sub(lambda m: m[0] if "-" not in m[0] or m[0] in kept or m[0].startswith("--") else relabelled(m[0], names), text)
                if new != text:
                    with open(path, "w", encoding="utf-8") as it:
                        it.write(new)


main()
