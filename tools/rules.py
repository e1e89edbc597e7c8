#!/usr/bin/env python3
"""Checks docs/ledger.md against docs/RULES.md and the definitions: `python3 tools/rules.py`, at the top of the repository.

Each row names a section of docs/RULES.md, words that must stand there, and definitions that must exist. Every public definition of
the ledger's crates must be named. The refusals' numbers, layers and positions, and the order in which calls test for them, which
is proved of the tests, are read off the definitions and compared with section 9. It prints what fails and ends with status 1, or says how much it checked.
"""
import os
import re
import sys

CRATES = ["refusals", "columns", "ledger", "intake", "metrics"]
DEFINES = r"(?m)^(?:abbrev )?pub (?:record |data )?%s(?= |$)"
# one that stands in a block with parameters
WITHIN = r"(?m)^  (?:abbrev pub|pub record) %s(?= |$)"
errors = []


def read(*path):
    with open(os.path.join(*path), encoding="utf-8") as f:
        return f.read()


def flat(text):
    return re.sub(r"\s+", " ", text)


def need(holds, what):
    if not holds:
        errors.append(what)


def specs(crate):
    folder = os.path.join("crates", crate, "specs")
    return [f[:-5] for f in sorted(os.listdir(folder)) if f.endswith(".antt") and f != "Lib.antt"]


def defined(crate, file, name):
    if file == "src":
        folder = os.path.join("crates", crate, "src")
        return any(re.search(rf"\bpub (struct|enum|trait|fn) {name}\b", read(folder, f)) for f in os.listdir(folder))
    path = os.path.join("crates", crate, "specs", file + ".antt")
    return os.path.exists(path) and any(re.search(form % re.escape(name), read(path)) for form in (DEFINES, WITHIN))


def body(crate, file, name):
    """The text of a definition: its clauses, up to the next blank line or declaration."""
    return "\n".join(re.findall(rf"(?m)^{name} [^\n]*(?:\n [^\n]*)*", read("crates", crate, "specs", file + ".antt")))


def sections():
    parts = re.split(r"(?m)^## (\d+)\. ", read("docs", "RULES.md"))
    return {int(n): flat(text) for n, text in zip(parts[1::2], parts[2::2])}


def rows(rules):
    named, count = set(), 0
    for line in read("docs", "ledger.md").splitlines():
        if not line.startswith("| ") or "::" not in line and "*the chunk*" not in line:
            continue
        cells = [c.strip().replace(r"\|", "|") for c in re.split(r"(?<!\\)\|", line)[1:-1]]
        where = cells[2] if cells[0].isdigit() else cells[0]
        if cells[0].isdigit():
            count += 1
            need(cells[1] in rules.get(int(cells[0]), ""), f"section {cells[0]} does not say: {cells[1]}")
        for crate, file, name in re.findall(r"`(\w+)::(\w+)::(\w+)`", where):
            need(defined(crate, file, name), f"no such definition: {crate}::{file}::{name}")
            named.add((crate, file, name))
        need("`" in where or where == "*the chunk*", f"no definition: {line}")
    for crate in CRATES:
        for file in specs(crate):
            for name in re.findall(DEFINES % r"(?!mod )(\S+)", read("crates", crate, "specs", file + ".antt")):
                need((crate, file, name) in named, f"not in docs/ledger.md: {crate}::{file}::{name}")
    return count, len(named)


def refusals(rules):
    """The numbers, layers and positions of the faults, as the three definitions have them, against the table of section 9."""
    said = {}
    for crate, name, layer in [("refusals", "said_chunk", "chunk"), ("pages", "said_page", "page"), ("sinks", "said", "sink")]:
        for at, number in re.findall(rf"(?m)^{name} [^=]*= by_{layer}(_at)? (\d+)", read("crates", crate, "specs", "Refusals.antt")):
            said[int(number)] = (layer, bool(at))
    table = {int(n): (layer, bool(at)) for n, layer, at in re.findall(r"\| (\d+) \| (\w+) \| [^|]*\| ([^|]*?) ?(?=\|)", rules[9])}
    need(said == table, f"the refusals differ: {sorted(set(said.items()) ^ set(table.items()))}")
    return {n: layer for n, (layer, _) in said.items()}


def order(rules, layers):
    """The order of refusals, which is proved of each call's tests, against the last paragraph of section 9."""
    def refused(crate, file, name):
        found = []
        for layer, number, other in re.findall(r"\bby_(\w+?)(?:_at)? (\d+)|\b(intake_order)\b", body(crate, file, name)):
            if other == name:
                continue
            if not other:
                need(layers.get(int(number)) == layer, f"{name} has {number} of the layer {layer}")
            found += [n for n in ([int(number)] if number else refused(crate, file, other)) if n not in found]
        return found

    said = {
        "`check`": refused("columns", "Columns", "check_order"),
        "`batch`": refused("ledger", "Numbers", "batch_order"),
        "`cut` and `close`": refused("ledger", "Numbers", "end_order"),
        "not empty": refused("ledger", "Numbers", "write_order"),
        "`read`": refused("ledger", "Numbers", "read_order"),
        "`entry`": refused("ledger", "Numbers", "entry_order"),
        "`record`": refused("ledger", "Numbers", "record_order"),
    }
    text = rules[9][rules[9].index("The order in which"):]
    for call, wanted in said.items():
        m = re.search(re.escape(call) + r" ([\d, ]+)", text)
        need(m and [int(n) for n in re.findall(r"\d+", m[1])] == wanted, f"{call} tests {wanted}, and docs/RULES.md has {m and m[1]}")


def main():
    rules = sections()
    count, names = rows(rules)
    order(rules, refusals(rules))
    for error in errors:
        print(error)
    if errors:
        sys.exit(1)
    print(f"{count} rules, {names} definitions: all found")


if __name__ == "__main__":
    main()
