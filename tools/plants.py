#!/usr/bin/env python3
"""Plants one small bug at a time into a crate's code, and says which of them the proof lets through.

    python3 tools/plants.py CRATE [--list] [--only TEXT] [--most N] [--seed S] [--time-limit SECONDS] [--table] [--all]

Run it in the repository, after `rt check` in the crate's folder. It works on a copy of the crate and of those that it rests on, and
changes nothing here. A bug is one small change in the body of a function of src/*.rt, or in a constant or a name for a type: an order or
an equation turned, a number moved by one, + for -, && for ||, true for false, a negation dropped or added, a statement or an early return
left out, two arguments exchanged, one parameter for another of its type, min for max, first for last, the answers of two match arms
exchanged, a slice's front for its back. Clauses, ghost code, comments, texts, tests and tables stay as they are.

Each bug ends as one of these:
  proof       refused: a fact fails at src/
  proof file  refused, but only where a file of proofs/ no longer fits the code
  compiler    the changed code does not compile, so it is no bug
  undecided   the prover gave no verdict within the time limit (for each bug, 300 seconds unless told otherwise)
  survivor    still proved: printed with its file, line, old and new text

A bug in one function changes no other function's proof. So several bugs are tried in one check: one of each function in its place, and
others in copies of the function; whatever seems to survive is tried once more alone, in its place. --list prints the bugs and tries
none. --only keeps those whose file, function, line or rule has TEXT. --most takes N of them, picked by the seed. --all prints how each
bug ended. --table prints a row for docs/PLANTS.md at the end.
"""
import argparse
import bisect
import os
import random
import re
import shutil
import signal
import subprocess
import sys
import tempfile
import time

TOKEN = re.compile(
    r"""(?P<comment>//[^\n]*)|(?P<str>b?"(?:\\.|[^"\\])*")|(?P<char>b?'(?:\\(?:x[0-9A-Fa-f]{2}|u\{[^}]*\}|.)|[^'\\\n])')|(?P<life>'[A-Za-z_]\w*)"""
    r"""|(?P<id>[^\W\d]\w*)|(?P<num>0x[0-9A-Fa-f_]+(?:[ui](?:8|16|32|64|size))?|\d[\d_]*(?:\.\d[\d_]*)?(?:[uif](?:8|16|32|64|size))?)"""
    r"""|(?P<punct>\.\.=|\.\.\.|<<=|>>=|\.\.|::|->|=>|==|!=|<=|>=|&&|\|\||\+=|-=|\*=|/=|%=|\|=|&=|\^=|<<|>>|[^\w\s])"""
)
CLAUSES = {"requires", "ensures", "ghost", "decreases", "invariant"}
OPEN, CLOSE = {"(": ")", "[": "]", "{": "}"}, {")", "]", "}"}
SPACED = {
    "<": ["<=", ">"], "<=": ["<", ">="], ">": [">=", "<"], ">=": [">", "<="], "==": ["!="], "!=": ["=="],
    "+": ["-"], "-": ["+"], "*": ["+"], "/": ["*"], "%": ["/"], "&": ["|"], "|": ["&"], "^": ["&"], "<<": [">>"], ">>": ["<<"],
    "&&": ["||"], "||": ["&&"], "+=": ["-="], "-=": ["+="], "*=": ["+="], "|=": ["&="], "&=": ["|="], "<<=": [">>="], ">>=": ["<<="],
}
WORDS = [
    ("min", "max"), ("MIN", "MAX"), ("first", "last"), ("low", "high"), ("lower", "upper"), ("below", "above"), ("rep", "def"),
    ("reps", "defs"), ("start", "end"), ("head", "tail"), ("head", "rest"), ("le", "be"), ("ascending", "descending"), ("smallest", "largest"),
    ("smaller", "larger"), ("position", "rposition"), ("all", "any"), ("take", "skip"), ("nulls", "nans"), ("rows", "levels"),
    ("offset", "len"), ("offset", "size"), ("is_some", "is_none"), ("is_ok", "is_err"), ("checked_add", "checked_sub"), ("next", "next_back"),
]
METHODS = {"min", "max", "MIN", "MAX", "first", "last", "split_first", "split_last", "all", "any", "position", "rposition", "take", "skip",
           "is_some", "is_none", "is_ok", "is_err", "from_le_bytes", "from_be_bytes", "to_le_bytes", "to_be_bytes", "next", "next_back",
           "checked_add", "checked_sub", "start", "end"}
SWAP = {}
for one, other in WORDS:
    SWAP.setdefault(one, []).append(other)
    SWAP.setdefault(other, []).append(one)
KEYWORDS = {"if", "while", "for", "match", "return", "let", "in", "else", "mut", "move", "ref", "as", "break", "continue", "loop", "unsafe", "fn"}
TESTS = {"all", "any", "position", "rposition", "filter", "is_some_and", "is_none_or", "take_while", "skip_while"}
DROPPED = {"rev", "skip", "take", "step_by", "filter", "map"}


class Text:
    """The tokens of a file that are code, with brackets paired."""

    def __init__(self, text):
        self.text = text
        tokens = [(m.lastgroup, m.start(), m.end(), m.group()) for m in TOKEN.finditer(text) if m.lastgroup != "comment"]
        self.tests, self.attributes = [], {}
        self.toks = self.without_clauses(tokens)
        self.pair, self.opens = {}, set()
        stack = []
        for i, (_, _, _, s) in enumerate(self.toks):
            before = self.toks[i - 1][3] if i else ""
            if s in OPEN or s == "<" and (before == "::" or stack and self.toks[stack[-1]][3] == "<"):
                stack.append(i)
            elif s == ">>" and len(stack) > 1 and self.toks[stack[-1]][3] == "<" and self.toks[stack[-2]][3] == "<":
                for j in (stack.pop(), stack.pop()):
                    self.pair[j], self.pair[i] = i, j
                    self.opens.add(j)
            elif s == "|" and stack and self.toks[stack[-1]][3] == "|" or (s in CLOSE or s == ">") and stack and (s == ">") == (self.toks[stack[-1]][3] == "<"):
                j = stack.pop()
                self.pair[j], self.pair[i] = i, j
                self.opens.add(j)
            elif s == "|" and before in ("(", ",", "=", "move") and "|" in (x[3] for x in self.toks[i + 1:i + 40]):
                stack.append(i)
        self.lines = [0] + [m.end() for m in re.finditer("\n", text)]

    @staticmethod
    def past(tokens, i):
        """The place behind the bracket that opens at i."""
        depth = 0
        while i < len(tokens):
            depth += (tokens[i][3] in OPEN) - (tokens[i][3] in CLOSE)
            i += 1
            if not depth:
                break
        return i

    def without_clauses(self, tokens):
        kept, i = [], 0
        while i < len(tokens):
            kind, _, _, s = tokens[i]
            if s == "#" and i + 1 < len(tokens) and tokens[i + 1][3] in ("[", "!"):
                at = i + 1 if tokens[i + 1][3] == "[" else i + 2
                j = self.past(tokens, at)
                said = "".join(t[3] for t in tokens[at:j])
                self.attributes[tokens[j - 1][2]] = tokens[i][1]
                if said in ("[test]", "[cfg(test)]"):
                    self.tests.append(tokens[j - 1][2])
                i = j
            elif kind == "id" and s in CLAUSES:
                if s == "ghost" and tokens[i + 1][3] == "use":
                    while tokens[i][3] != ";":
                        i += 1
                    i += 1
                    continue
                while i < len(tokens) and tokens[i][3] not in ("{", ";"):
                    i += 1
                i = self.past(tokens, i)
                if i < len(tokens) and tokens[i][3] == ";" and s == "ghost":
                    i += 1
            else:
                kept.append(tokens[i])
                i += 1
        return kept

    def line(self, at):
        return bisect.bisect_right(self.lines, at)

    def until(self, i, stops, end):
        """The first token from i on that is one of stops and stands in no bracket."""
        while i < end:
            s = self.toks[i][3]
            if s in stops:
                return i
            i = self.pair[i] + 1 if i in self.opens else i + 1
        return end

    def span(self, i, j):
        return self.text[self.toks[i][1]:self.toks[j - 1][2]] if i < j else ""


class Whole:
    """A function's text: where it begins with its attributes, its name, its end, and the header of the impl around it."""

    def __init__(self, t, i, close):
        toks = t.toks
        k = i
        while toks[k - 1][3] in ("pub", "const", "unsafe", ")") and k > 0:
            k = t.pair[k - 1] if toks[k - 1][3] == ")" else k - 1
        self.start, self.name, self.end = toks[k][1], toks[i + 1], toks[close][2]
        while True:
            behind = len(re.sub(r"(\s*//[^\n]*\n)*\s*$", "", t.text[:self.start]))
            if behind not in t.attributes:
                break
            self.start = t.attributes[behind]
        self.around, self.free = "", True
        for k in range(len(toks)):
            if k in t.opens and toks[k][3] == "{" and k < i and t.pair[k] > close:
                j = k - 1
                while j >= 0 and toks[j][3] not in ("}", ";", "impl", "trait", "mod"):
                    j -= 1
                header = [x[3] for x in toks[j:k]]
                self.free = self.free and not self.around and header[0] == "impl" and "for" not in header
                self.around = t.text[toks[j][1]:toks[k][2]]

    def copy(self, text, bug, name):
        """The function under another name, with the bug in it."""
        a, b = self.name[1], self.name[2]
        one = text[self.start:a] + name + text[b:bug.start] + bug.new + text[bug.end:self.end]
        return f"\n{self.around}\n{one}\n}}\n" if self.around else f"\n{one}\n"


class Bugs:
    """The bugs of one file: (function, its first and last line, start, end, new text, rule, its text if it may be copied)."""

    def __init__(self, path, text):
        self.path, self.t, self.found, self.seen = path, Text(text), [], set()
        self.names = {x[3] for x in self.t.toks if x[0] == "id"}
        self.functions()

    def put(self, start, end, new, rule):
        old = self.t.text[start:end]
        if new != old and (start, end, new) not in self.seen:
            self.seen.add((start, end, new))
            # as many lines as before, so that nothing behind it moves
            new += "\n" * (old.count("\n") - new.count("\n"))
            self.found.append((self.name, self.first, self.last, start, end, new, rule, self.whole))

    def functions(self):
        t, toks = self.t, self.t.toks
        tested = iter(t.tests + [len(t.text) + 1])
        next_test = next(tested)
        i, self.whole = 0, None
        while i < len(toks):
            kind, start, _, s = toks[i]
            if start >= next_test:
                # a test or an item for tests alone: to the end of its block or to its semicolon
                j = t.until(i, {"{", ";"}, len(toks))
                i = (t.pair.get(j, j) if j < len(toks) else j) + 1
                while next_test <= start:
                    next_test = next(tested)
                continue
            if kind == "id" and s == "fn" and toks[i + 1][0] == "id":
                j = t.until(i + 2, {"{", ";"}, len(toks))
                if j < len(toks) and toks[j][3] == "{":
                    self.name, self.first, self.last = toks[i + 1][3], t.line(start), t.line(toks[t.pair[j]][1])
                    if self.name != "fmt":
                        whole = Whole(t, i, t.pair[j])
                        self.whole = whole if whole.free else None
                        self.body(i, j, t.pair[j])
                        self.whole = None
                    i = t.pair[j]
            elif kind == "id" and s in ("const", "static", "type") and toks[i - 1][3] not in ("<", ",", "*") and toks[i + 1][0] == "id":
                j = t.until(i + 1, {"=", ";"}, len(toks))
                k = t.until(i + 1, {";"}, len(toks))
                if j < k and not any(x[3] == "[" for x in toks[j:k]):
                    self.name, self.first, self.last = toks[i + 1][3], t.line(start), t.line(toks[k][1])
                    self.tokens(j + 1, k, set())
                i = k
            elif kind == "id" and s == "enum":
                j = t.until(i, {"{", ";"}, len(toks))
                self.name, self.first, self.last = toks[i + 1][3], t.line(start), t.line(toks[t.pair.get(j, j)][1])
                self.tokens(j, t.pair.get(j, j), set())
                i = t.pair.get(j, j)
            i += 1

    def body(self, fn, i, end):
        """The body between the braces i and end of the function whose word `fn` stands at fn."""
        t, toks = self.t, self.t.toks
        headers = self.conditions(i + 1, end)
        self.tokens(i + 1, end, headers)
        self.lists(i + 1, end, headers)
        self.arms(i + 1, end)
        self.same_types(fn, i, end)
        blocks = [i] + [k for k in range(i + 1, end) if toks[k][3] == "{" and self.is_block(k, headers)]
        for k in blocks:
            self.statements(k, t.pair[k])
        answer = [x[3] for x in toks[fn:i]]
        if "->" in answer and answer[len(answer) - answer[::-1].index("->"):][:1] == ["bool"]:
            a, b = self.tail(i, end)
            if a < b and toks[a][3] not in ("!", "true", "false", "if", "match"):
                self.put(toks[a][1], toks[b - 1][2], "!(" + t.span(a, b) + ")", "negation added")

    def conditions(self, i, end):
        """Turns each condition round, and answers the braces that open behind a header."""
        t, toks = self.t, self.t.toks
        braces = set()
        for k in range(i, end):
            kind, _, _, s = toks[k]
            if kind != "id" or s not in ("if", "while", "match", "for"):
                continue
            stop = t.until(k + 1, {"{", "=>"}, end)
            if stop < end and toks[stop][3] == "{":
                braces.add(stop)
            if s in ("if", "while") and stop > k + 1 and not any(x[3] == "let" for x in toks[k + 1:stop]):
                flat = []
                m = k + 1
                while m < stop:
                    flat.append(toks[m][3])
                    m = t.pair[m] + 1 if m in t.opens else m + 1
                if not (flat[0] == "!" and not {"&&", "||", "==", "!="} & set(flat)):
                    self.put(toks[k + 1][1], toks[stop - 1][2], "!(" + t.span(k + 1, stop) + ")", "negation added")
        return braces

    def is_struct(self, k):
        toks = self.t.toks
        before, a, b = toks[k - 1], toks[k + 1], toks[min(k + 2, len(toks) - 1)]
        return before[0] == "id" and before[3][:1].isupper() and (a[3] == ".." or (a[0] == "id" and b[3] in (":", ",", "}")))

    def is_block(self, k, headers):
        toks = self.t.toks
        if k in headers:
            j = k - 1
            while j >= 0 and not (toks[j][0] == "id" and toks[j][3] in ("if", "while", "match", "for")):
                j -= 1
            return toks[j][3] != "match"
        return not self.is_struct(k)

    def tokens(self, i, end, headers):
        t, toks = self.t, self.t.toks
        for k in range(i, end):
            kind, start, stop, s = toks[k]
            before, after = toks[k - 1][3], toks[k + 1][3] if k + 1 < len(toks) else ""
            spaced = t.text[start - 1:start].isspace() and t.text[stop:stop + 1].isspace()
            if s in SPACED and kind == "punct" and spaced:
                for new in SPACED[s]:
                    self.put(start, stop, new, "operator")
            elif s == "..=" and after not in ("]", ")", ",", "}"):
                self.put(start, stop, "..", "range")
            elif s == ".." and after not in ("]", ")", ",", "}", "=>", "|") and before not in ("{", ",") and not (before in ("[", "(")):
                self.put(start, stop, "..=", "range")
            if s == ".." and before in ("[", "(") and after not in ("]", ")"):
                close = t.pair.get(k - 1)
                if close and t.until(k, {","}, close) == close and (toks[k - 2][0] == "id" or toks[k - 2][3] in (")", "]")):
                    self.put(start, toks[close - 1][2], t.span(k + 1, close) + "..", "slice")
            if s == ".." and after in ("]", ")") and before not in ("[", "(", ",", "@") and toks[t.pair.get(k + 1, 0) - 1][3] not in ("=", "let"):
                opened = t.pair.get(k + 1)
                if opened and t.until(opened + 1, {","}, k) == k:
                    self.put(toks[opened + 1][1], stop, ".." + t.span(opened + 1, k), "slice")
            if kind == "id" and s in ("true", "false"):
                self.put(start, stop, "false" if s == "true" else "true", "truth")
            elif kind == "id" and s == "Some" and after == "(" and before not in ("let", "(", "|", ","):
                close = t.pair[k + 1]
                if toks[min(close + 1, len(toks) - 1)][3] not in ("=", "=>", "if", "|"):
                    self.put(start, toks[close][2], "None", "answer left out")
            elif kind == "id" and s not in KEYWORDS:
                key = after == ":" and before in ("{", ",")
                if before not in ("let", "mut", "fn", "ref") and not key:
                    parts = s.split("_")
                    others = list(SWAP.get(s, []))
                    for n, part in enumerate(parts):
                        others += ["_".join(parts[:n] + [x] + parts[n + 1:]) for x in SWAP.get(part, [])]
                    for other in others:
                        if other in (METHODS if before in (".", "::") else set()) or other in self.names:
                            self.put(start, stop, other, "name")
            if kind == "id" and s in DROPPED and before == "." and after == "(":
                self.put(toks[k - 1][1], toks[t.pair[k + 1]][2], "", "call left out")
            if kind == "num" and before != ".":
                self.number(start, stop, s)
            if s in TESTS and kind == "id" and before == "." and after == "(" and toks[k + 2][3] == "|":
                a, b = t.pair[k + 2] + 1, t.pair[k + 1]
                if toks[a][3] not in ("!", "{", "->") and not any(x[3] in ("==", "!=", "<", "<=", ">", ">=") for x in toks[a:b]):
                    self.put(toks[a][1], toks[b - 1][2], "!(" + t.span(a, b) + ")", "negation added")
            if s == "!" and kind == "punct" and not (toks[k - 1][0] == "id" and before not in KEYWORDS and toks[k - 1][2] == start):
                self.put(start, stop, "", "negation dropped")

    def number(self, start, stop, s):
        m = re.fullmatch(r"(0x[0-9A-Fa-f_]+|\d[\d_]*(?:\.\d[\d_]*)?)([ui](?:8|16|32|64|size)|f64)?", s)
        digits, suffix = m[1], m[2] or ""
        if digits.startswith("0x"):
            value, width = int(digits.replace("_", ""), 16), len(digits.replace("_", "")) - 2
            for new in (value + 1, value - 1):
                if new >= 0:
                    self.put(start, stop, "0x%0*X%s" % (width, new, suffix), "number")
        elif "." in digits:
            self.put(start, stop, str(float(digits) + 1) + suffix, "number")
        else:
            value = int(digits.replace("_", ""))
            for new in (value + 1, value - 1):
                if new >= 0:
                    self.put(start, stop, str(new) + suffix, "number")

    def lists(self, i, end, headers):
        """Two neighbours of a list of arguments, of a tuple or of an array exchanged, and the values of two fields."""
        t, toks = self.t, self.t.toks
        for k in range(i, end):
            s = toks[k][3]
            if k in t.opens and s in ("(", "[", "|") and toks[k - 1][3] != "!":
                close = t.pair[k]
            elif s == "{" and k not in headers and self.is_struct(k):
                close = t.pair[k]
            else:
                continue
            parts, a = [], k + 1
            while a < close:
                b = t.until(a, {","}, close)
                if b > a:
                    parts.append((a, b))
                a = b + 1
            if s == "{":
                parts = [(a + 2, b) for a, b in parts if b > a + 2 and toks[a + 1][3] == ":"]
            for (a, b), (c, d) in zip(parts, parts[1:]):
                if ".." in (toks[a][3], toks[c][3]) or "@" in (toks[min(a + 1, b)][3], toks[min(c + 1, d)][3]):
                    continue
                kinds = [(toks[x][3] in ("true", "false"), toks[x][3] == "|", toks[x][3] == "*", toks[x][3] == "&") for x in (a, c)]
                if kinds[0] != kinds[1] and (kinds[0][:2] != kinds[1][:2] or "*" in (toks[a][3], toks[c][3])):
                    continue
                start, stop = toks[a][1], toks[d - 1][2]
                between = t.text[toks[b - 1][2]:toks[c][1]]
                self.put(start, stop, t.span(c, d) + between + t.span(a, b), "exchanged")

    def arms(self, i, end):
        t, toks = self.t, self.t.toks
        for k in range(i, end):
            if toks[k][0] != "id" or toks[k][3] != "match":
                continue
            brace = t.until(k + 1, {"{"}, end)
            if brace == end:
                continue
            close, a, answers = t.pair[brace], brace + 1, []
            while a < close:
                arrow = t.until(a, {"=>"}, close)
                if arrow == close:
                    break
                if toks[arrow + 1][3] == "{":
                    stop = t.pair[arrow + 1] + 1
                else:
                    stop = t.until(arrow + 1, {","}, close)
                answers.append((arrow + 1, stop))
                a = stop + 1 if stop < close and toks[stop][3] == "," else stop
            for (a, b), (c, d) in zip(answers, answers[1:]):
                one, other = t.span(a, b), t.span(c, d)
                if one != other:
                    between = t.text[toks[b - 1][2]:toks[c][1]]
                    self.put(toks[a][1], toks[d - 1][2], other + between + one, "arms")

    def same_types(self, fn, i, end):
        """A parameter in the place of another of the same type."""
        t, toks = self.t, self.t.toks
        k = t.until(fn + 2, {"("}, i)
        if k == i:
            return
        params, a, close = [], k + 1, t.pair[k]
        while a < close:
            b = t.until(a, {","}, close)
            c = a + 1 if toks[a][3] == "mut" else a
            if b > c + 1 and toks[c][0] == "id" and toks[c + 1][3] == ":":
                params.append((toks[c][3], "".join(x[3] for x in toks[c + 2:b] if x[0] != "life")))
            a = b + 1
        for name, kind in params:
            others = [o for o, other in params if other == kind and o != name]
            for k in range(i + 1, end):
                if others and toks[k][3] == name and toks[k][0] == "id" and toks[k - 1][3] not in (".", "let", "mut", "::") and toks[k + 1][3] not in (":", "::"):
                    for other in others:
                        self.put(toks[k][1], toks[k][2], other, "parameter")

    def split(self, i, end):
        """The statements between the braces i and end, as (first, behind the last, whether one), and where the answer begins."""
        t, toks = self.t, self.t.toks
        found, a = [], i + 1
        while a < end:
            s = toks[a][3]
            if s in ("if", "while", "for", "match", "loop", "unsafe", "{"):
                b = a if s == "{" else t.until(a + 1, {"{"}, end)
                while b < end:
                    b = t.pair[b] + 1
                    if b < end and toks[b][3] == "else":
                        b = t.until(b + 1, {"{"}, end)
                    else:
                        break
                if b >= end:
                    return found, a
                if toks[b][3] in (".", "?", "as", "==", "&&", "||", "+", "-", "<", ">", "*"):
                    b = t.until(b, {";"}, end)
                    if b >= end:
                        return found, a
                    b += 1
                elif toks[b][3] == ";":
                    b += 1
            else:
                b = t.until(a, {";"}, end)
                if b >= end:
                    return found, a
                b += 1
            found.append((a, b))
            a = b
        return found, end

    def statements(self, i, end):
        t, toks = self.t, self.t.toks
        if toks[i - 1][3] == "else" and toks[i - 2][3] != "}":
            # what a `let` falls back to has to leave the function
            return
        found, a = self.split(i, end)
        if a < end and toks[a][3] in ("if", "while", "for") and toks[end - 1][3] == "}" and not self.is_answer(i):
            found.append((a, end))
        for a, b in found:
            s = toks[a][3]
            if s in ("let", "use", "const", "fn", "assert"):
                continue
            if s == "if":
                brace = t.until(a + 1, {"{"}, b)
                inner, rest = self.split(brace, t.pair[brace])
                if t.pair[brace] == b - 1 and len(inner) == 1 and rest == t.pair[brace] and toks[inner[0][0]][3] not in ("let", "if", "while", "for", "match"):
                    continue
            self.put(toks[a][1], toks[b - 1][2], "", "left out")

    def is_answer(self, i):
        """Whether the block that opens at i gives a value: a body behind `->`."""
        k = i - 1
        while k > 0 and self.t.toks[k][3] not in ("fn", "{", "}", ";"):
            if self.t.toks[k][3] == "->":
                return True
            k -= 1
        return False

    def tail(self, i, end):
        found, a = self.split(i, end)
        return a, end


def test_files(src):
    """Files that lib.rt has for tests alone."""
    names = set()
    for folder, _, files in os.walk(src):
        for name in files:
            if name.endswith(".rt"):
                text = open(os.path.join(folder, name), encoding="utf-8").read()
                names |= {m + ".rt" for m in re.findall(r"#\[cfg\(test\)\]\s*(?:pub )?mod (\w+);", text)}
    return names


def bugs_of(folder):
    src, every = os.path.join(folder, "src"), []
    skipped = test_files(src)
    for at, dirs, files in os.walk(src):
        dirs.sort()
        for name in sorted(files):
            if name.endswith(".rt") and name not in skipped:
                path = os.path.join(at, name)
                text = open(path, encoding="utf-8").read()
                bugs = Bugs(path, text)
                order = sorted(bugs.found, key=lambda b: (b[3], b[4]))
                every += [Bug(os.path.relpath(path, folder), text, *b) for b in order]
    return every


class Bug:
    def __init__(self, path, text, name, first, last, start, end, new, rule, whole):
        self.path, self.name, self.first, self.last, self.whole = path, name, first, last, whole
        self.start, self.end, self.new, self.rule = start, end, new, rule
        self.old, self.line = text[start:end], text.count("\n", 0, start) + 1
        self.ended = None

    def __str__(self):
        one = lambda s: " ".join(s.split()) or "(nothing)"
        return f"{self.path}:{self.line}: {self.name}: {self.rule}: {one(self.old)} => {one(self.new)}"


def below(top, crate):
    """The crate and those that it rests on, by crates.txt."""
    rests = {}
    for line in open(os.path.join(top, "crates.txt"), encoding="utf-8"):
        line = line.split("#")[0].strip()
        if ":" in line:
            name, _, on = line.partition(":")
            rests[name.split()[0]] = on.split()
    found, todo = [], [crate]
    while todo:
        c = todo.pop()
        if c not in found and c in rests:
            found.append(c)
            todo += rests[c]
    return found


class Copy:
    def __init__(self, top, crate):
        self.room = tempfile.mkdtemp(prefix="plants-")
        os.makedirs(os.path.join(self.room, "crates"))
        needed = below(top, crate)
        if os.path.isfile(os.path.join(top, "HANDLES")):
            shutil.copy2(os.path.join(top, "HANDLES"), self.room)
        with open(os.path.join(top, "crates.txt"), encoding="utf-8") as it, open(os.path.join(self.room, "crates.txt"), "w", encoding="utf-8") as to:
            to.writelines(line for line in it if line.split(":")[0].split() and line.split(":")[0].split()[0] in needed)
        for c in needed:
            shutil.copytree(os.path.join(top, "crates", c), os.path.join(self.room, "crates", c), symlinks=True,
                            ignore=shutil.ignore_patterns("must-fail"))
        self.folder = os.path.join(self.room, "crates", crate)

    def check(self, limit):
        """The exit status of a check and what it said, None where the time ran out."""
        p = subprocess.Popen(["rt", "check", "--jobs", "1"], cwd=self.folder, stdin=subprocess.DEVNULL, stdout=subprocess.PIPE,
                             stderr=subprocess.STDOUT, text=True, errors="replace", start_new_session=True)
        try:
            said, _ = p.communicate(timeout=limit)
            return p.returncode, said
        except subprocess.TimeoutExpired:
            os.killpg(p.pid, signal.SIGKILL)
            p.communicate()
            return None, ""

    def with_bugs(self, bugs, limit):
        """Tries the bugs in one check: the first of each function in its place, and others in copies of it at the end of the file."""
        self.at, files, made, taken = {}, {}, [], set()
        for n, b in enumerate(sorted(bugs, key=lambda b: -b.start)):
            path = os.path.join(self.folder, b.path)
            if path not in files:
                text = open(path, encoding="utf-8").read()
                files[path] = [text, text, ""]
            it = files[path]
            if (b.path, b.first) not in taken:
                taken.add((b.path, b.first))
                it[1] = it[1][:b.start] + b.new + it[1][b.end:]
                self.at[b] = (b.name, b.first, b.last)
            else:
                name = f"{b.name}_plant{n}"
                one = b.whole.copy(it[0], b, name)
                first = it[0].count("\n") + it[2].count("\n") + 1
                it[2] += one
                self.at[b] = (name, first, first + one.count("\n"))
                made += self.answers(b, name)
        try:
            for path, (_, new, behind) in files.items():
                open(path, "w", encoding="utf-8").write(new + behind)
            return self.check(limit)
        finally:
            for path, (old, _, _) in files.items():
                open(path, "w", encoding="utf-8").write(old)
            for folder in made:
                shutil.rmtree(folder)

    def answers(self, b, name):
        """Copies the proof files of the bug's function for a copy of it."""
        made = []
        for at in self.proofs(b):
            to = os.path.join(os.path.dirname(at), name)
            shutil.copytree(at, to)
            made.append(to)
            for inner, _, files in os.walk(to):
                for f in files:
                    path = os.path.join(inner, f)
                    text = open(path, encoding="utf-8").read()
                    text = re.sub(rf"(proofs\.[\w.]*?\b){re.escape(b.name)}(?=\.(?:Goals|Given|Statement|Invariants|fn)\b)", rf"\g<1>{name}", text)
                    open(path, "w", encoding="utf-8").write(text)
        return made

    def proofs(self, b):
        stem = os.path.splitext(b.path.split(os.sep, 1)[1])[0]
        top = os.path.join(self.folder, "proofs", stem)
        return [os.path.join(at, b.name) for at, dirs, _ in os.walk(top) if b.name in dirs]


PLACE = re.compile(r"(?P<note>note: )?(?:\./)?(?P<path>(?:src|proofs|specs)/\S+?):(?P<line>\d+):\d+:(?P<said>.*)")


def places(said):
    """What the check points at: (whether an error of the compiler, path, line)."""
    found = []
    for line in said.split("\n"):
        m = PLACE.match(line)
        if m:
            compiler = bool(re.match(r" error\[[\w-]+\]", m["said"]))
            if compiler or m["note"] or ": error" in ":" + m["said"]:
                found.append((compiler, m["path"], int(m["line"])))
    return found


def judged(bugs, at, status, said):
    """How each bug of one check ended; one that is not in the answer has to be tried again. `at` has each bug's name and lines."""
    if status is None:
        return {bugs[0]: "undecided"} if len(bugs) == 1 else {}
    found = places(said)
    alone = len(bugs) == 1
    inside = lambda b, path, line: path == b.path and at[b][1] <= line <= at[b][2]
    if status == 0:
        return {b: "survivor" for b in bugs}
    if any(c for c, _, _ in found) or "logic=" not in said:
        if alone:
            return {bugs[0]: "compiler" if status in (1, 2) else "undecided"}
        return {b: "compiler" for b in bugs if any(c and inside(b, p, n) for c, p, n in found)}
    ended = {}
    for b in bugs:
        own = f"/{at[b][0]}/"
        if any(inside(b, p, n) for _, p, n in found) or (alone and any(p.startswith("src/") for _, p, _ in found)):
            ended[b] = "proof"
        elif any(p.startswith("proofs/") and (own in p or alone) for _, p, _ in found):
            ended[b] = "proof file"
        elif alone:
            ended[b] = "proof" if status == 1 else "undecided"
        elif not re.search(rf"::{re.escape(at[b][0])}\b[^\n]*: (?!proved)", said):
            ended[b] = "survivor"
    return ended


def batches(bugs, most=14):
    """What may be tried in one check: any bugs of functions that can be copied, and of every other function one; of constants one of each,
    and no function's beside them."""
    left, found = list(bugs), []
    while left:
        batch, taken = [], set()
        for b in left:
            here, constant = (b.path, b.name, b.first), b.name[:1].isupper()
            if batch and constant != batch[0].name[:1].isupper():
                continue
            if len(batch) < most and (b.whole or here not in taken):
                batch.append(b)
                taken.add(here)
        found.append(batch)
        left = [b for b in left if b not in batch]
    return found


def main():
    ask = argparse.ArgumentParser(description=__doc__, formatter_class=argparse.RawDescriptionHelpFormatter)
    ask.add_argument("crate")
    ask.add_argument("--list", action="store_true")
    ask.add_argument("--only", default="")
    ask.add_argument("--most", type=int, default=0)
    ask.add_argument("--seed", type=int, default=1)
    ask.add_argument("--time-limit", type=int, default=300)
    ask.add_argument("--table", action="store_true")
    ask.add_argument("--all", action="store_true")
    a = ask.parse_args()
    top = os.path.abspath(os.getcwd())
    while not os.path.isfile(os.path.join(top, "crates.txt")):
        if top == os.path.dirname(top):
            sys.exit("plants: no crates.txt here or above")
        top = os.path.dirname(top)
    folder = os.path.join(top, "crates", a.crate)
    if not os.path.isdir(os.path.join(folder, "src")):
        sys.exit(f"plants: no crates/{a.crate}/src")
    bugs = [b for b in bugs_of(folder) if a.only in str(b)]
    if a.most and len(bugs) > a.most:
        keep = set(random.Random(a.seed).sample(range(len(bugs)), a.most))
        bugs = [b for n, b in enumerate(bugs) if n in keep]
    if a.list:
        print("\n".join(map(str, bugs)))
        print(f"{a.crate}: {len(bugs)} bugs")
        return
    # so that a run that is ended leaves no copy behind
    signal.signal(signal.SIGTERM, lambda *_: sys.exit("plants: ended"))
    copy = Copy(top, a.crate)
    try:
        status, said = copy.check(3600)
        if status != 0:
            sys.exit(f"plants: {a.crate} is not proved as it stands\n{said[-2000:]}")
        began, done = time.time(), 0

        def end(b, how):
            b.ended = how
            if a.all or how in ("survivor", "undecided"):
                print(f"{how:10}  {b}", flush=True)

        todo = batches(bugs)
        while todo:
            batch = todo.pop(0)
            status, said = copy.with_bugs(batch, a.time_limit * len(batch))
            ended = judged(batch, copy.at, status, said)
            again = []
            for b in batch:
                if b not in ended or (ended[b] == "survivor" and len(batch) > 1):
                    again.append(b)
                else:
                    end(b, ended[b])
            if len(again) == len(batch) > 1 and not ended:
                half = len(again) // 2
                todo = [again[:half], again[half:]] + todo
            elif again:
                alone = [[b] for b in again if ended.get(b) == "survivor"]
                rest = [b for b in again if ended.get(b) != "survivor"]
                todo = alone + ([rest] if rest else []) + todo
            done = sum(b.ended is not None for b in bugs)
            print(f"  {done} of {len(bugs)}, {time.time() - began:.0f} s", file=sys.stderr, flush=True)
    finally:
        shutil.rmtree(copy.room, ignore_errors=True)
    count = lambda how: sum(b.ended == how for b in bugs)
    compiler = count("compiler")
    n = len(bugs) - compiler
    print(f"{a.crate}: {n} bugs: {count('proof')} refused by the proof, {count('proof file')} only at a proof file, {count('survivor')} survivors, "
          f"{count('undecided')} undecided; {compiler} more refused by the compiler")
    if a.table:
        print(f"| `{a.crate}` | {n} | {count('proof')} | {count('proof file')} | {compiler} | {count('survivor')} |")


if __name__ == "__main__":
    main()
