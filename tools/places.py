#!/usr/bin/env python3
"""Lists the places in src/ where an older form may stand: `python3 tools/places.py [-l] [FOLDER]`.

For each point of docs/DESIGN-PASS.md a few patterns, and how many places each finds in FOLDER/crates/*/src (FOLDER is the
repository by default); with -l every place by file and line. A pattern finds candidates: the page says which of them are
places, and what became of each.
"""
import os
import re
import sys

RETURN = r"-> *"
PATTERNS = {
    1: [
        ("absence passed on by hand", r"else \{\s*return None;\s*\}|None => None\b|Err\((\w+)\) => Err\("),
        ("a test, then `return None`", r"if [^{]*\{\s*return None;\s*\}"),
        ("`Some` of a tested value, else `None`", r"if [^{}]*\{\s*Some\([^{}]*\)\s*\} else \{\s*None\s*\}"),
        ("a bool that says whether something was changed", r"fn \w+(<[^{]*?>)?\([^)]*&mut [^)]*\) " + RETURN + r"bool\b"),
        ("a length, a place or a count with 0 for none", r"//[^\n]*\bor 0\b[^\n]*|//[^\n]*, 0 (where|for|behind)[^\n]*|if n == 0 \{"),
        ("1 or 0 for a test", r"\{\s*1\s*\} else \{\s*0\s*\}|\{\s*0\s*\} else \{\s*1\s*\}"),
        ("a number for a kind, an order, a refusal", r"(fn [a-z_]*(number|order)[a-z_]*\([^)]*\)|const NUMBER:|const ENCODING:|waiting:|version:) *(-> )?u8"),
        ("a number as an error", r"Result<[^<>]*, *(usize|u8|u32)>"),
        ("an enum of one's own", r"\benum \w+"),
        ("a flag with a value beside it", r"-> \(usize, bool\)"),
    ],
    2: [
        ("functions named by a width", r"\bfn (\w*[a-z_](2|4|8|16|32|64))\b"),
        ("impls of one trait for several types", r"impl(<[^>]*>)? (Kind|LevelCoder|BodyCoder|ValueOf<\w+>|PageStore|PageSink) for"),
        ("mirror pairs", r"\bfn (\w*(min|max|low|high|smaller|larger|rise|fall|longer|shorter|ascending|descending)\w*)\b"),
        ("the same steps for both level lists", r"max_rep_level"),
    ],
    3: [
        ("a loop that counts by hand", r"\bwhile \w+ [<>]"),
        ("a loop over indices", r"\bfor \w+ in (\w+|\d+)\.\.[\w.()]+"),
        ("a loop that finds, tests or counts", r"\bfor \w+ in \w+ \{"),
    ],
    4: [
        ("public data without Debug, PartialEq, Eq", r"#\[derive\((?![^)]*Debug)[^)]*\)\]\s*pub (struct|enum) \w+"),
        ("bytes of a number by division", r"% 256\)|/ 256|/ 65536"),
        ("conversions by hand", r"impl(<[^>]*>)? (From|TryFrom|FromStr|PartialEq|Eq|PartialOrd|Ord|Clone|Copy|Default|(\w+::)?Display|(\w+::)?Debug)\b"),
        ("a cast", r"\bas (u8|u16|u32|u64|usize|i16)\b"),
        ("a struct that is only taken apart or built", r"\blet \w+ \{[^}]*\} = self;"),
        ("one value read from a text", r"\bfn (read_row|read_hold|limit|degrees)\b"),
    ],
    5: [
        ("a fact that a function asks for", r"\brequires\b"),
        ("out and a place in it", r"out: &mut \[u8\],\s*at: usize"),
        ("a version and a maximum", r"version: u8,\s*max: u8"),
        ("both level lists", r"reps: (&|LevelDataRef)[^,]*,\s*defs: (&|LevelDataRef)|defs: LevelDataRef,\s*reps: LevelDataRef"),
        ("an order of bits and a width", r"order: BitOrder"),
        ("an area or a table and a count", r"(table|area): &(mut )?\[\w+\], count: usize|size: usize, (count|i): usize"),
        ("a column and its settings", r"column: Column,\s*settings: Settings"),
        ("a maximum and levels", r"max: u8, (count: usize, )?levels: "),
    ],
    6: [
        ("an array with a length beside it", r": \[[^\]]*; *\w+\],\s*(pub(\(crate\))? )?(len|used|count): usize"),
        ("lent memory with a count beside it", r"'a mut \[\w+\],\s*(pub(\(crate\))? )?count: usize"),
        ("parallel arrays", r"let mut (reps|rs) = \[[^\n]*\n\s*let mut (defs|ds) = \["),
        ("a constant table", r"const \w+: \[\w+; \w+\]"),
    ],
    7: [
        ("a match on which step to run", r"match (order|version|mode)\b"),
        ("a function pointer, dyn or boxed closure", r"\bdyn \w+|: fn\(|Box<"),
    ],
}


def main():
    args = [a for a in sys.argv[1:] if a != "-l"]
    listed = "-l" in sys.argv
    top = args[0] if args else os.path.join(os.path.dirname(os.path.abspath(__file__)), "..")
    files = []
    for folder, dirs, names in os.walk(os.path.join(top, "crates")):
        dirs[:] = sorted(d for d in dirs if d != "out")
        if os.sep + "src" in folder:
            files += [os.path.join(folder, n) for n in sorted(names) if n.endswith(".rt")]
    texts = {f: open(f, encoding="utf-8").read() for f in sorted(files)}
    for point, patterns in PATTERNS.items():
        total = 0
        lines = []
        for what, pattern in patterns:
            found = []
            for name, text in texts.items():
                for m in re.finditer(pattern, text):
                    line = text.count("\n", 0, m.start()) + 1
                    found.append(f"      {os.path.relpath(name, top)}:{line}: {' '.join(m.group(0).split())[:90]}")
            total += len(found)
            lines.append(f"  {len(found):4}  {what}")
            if listed:
                lines += found
        print(f"point {point}: {total} candidates")
        print("\n".join(lines))
    answers = holes = 0
    for folder, dirs, names in os.walk(os.path.join(top, "crates")):
        dirs[:] = [d for d in dirs if d != "out"]
        if "Answers.antt" in names and os.sep + "proofs" in folder:
            text = open(os.path.join(folder, "Answers.antt"), encoding="utf-8").read()
            answers += len(re.findall(r"^pub [^\n]* : goal\.", text, re.M))
    print(f"point 8: {answers} answers in proof files")


main()
