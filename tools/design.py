#!/usr/bin/env python3
"""Finds the places in src/ where an older form of the language stands: the eight points of docs/DESIGN-PASS.md.

usage: python3 tools/design.py 1        the places of point 1, one a line: crate/file:line, the function or type, its form; and how many they are
       python3 tools/design.py 1 2 3    those of some points
       python3 tools/design.py          those of all eight
       -C DIR before the points         in another checkout than this one

It goes by text: it strips comments, splits a file into its types and functions, and looks at those. A place is somewhere to look and no verdict. It always exits 0.
"""

import difflib
import glob
import os
import re
import sys

POINTS = {
    1: "own enums of the shape of Option or Result, flags with a value beside, numbers for kinds and refusals, values that say `none`",
    2: "twins: functions and types that differ in a type, a size or a constant",
    3: "loops that move a counter or a place by hand",
    4: "conversion, comparison, order, copying and printing by hand",
    5: "facts in three or more contracts of a crate, and parameters that travel together",
    6: "a slice with its length or a place beside it, parallel arrays, a row of numbers with named places, a sorted table searched by hand",
    7: "choices of which function of one shape to call",
    8: "proofs: old walks, and answers that the check may find alone",
}

# Variants by which a value says that something is refused.
REFUSALS = {"Alarm", "Bad", "Fault", "Outside", "Refused", "Stop", "Stopped", "Unknown", "Unread", "Unreadable"}
# Fields that say whether another field of the struct means anything.
FLAGS = re.compile(r"^(has_\w+|stops|faulty|lawful|wrong)$")
# Names of numbers that stand for an alarm, a refusal, a kind, a flag of a record, or a tag of words.
NUMBERS = {"alarm", "why", "kind", "flag", "flags", "tag", "hand"}
ANSWERS = re.compile(r"^(alarm_\w+|flag_of|flag_if|arc_kind|hand_\w+|motion_tag|kept_tag|answer|judge|read|read_judged|tm02_start|tm02_judge|tm02_read\w*)$")
SMALL = {"u8", "u32"}
# How a comment tells of a value that stands for none.
NOTHING = re.compile(r"\b0 for (?:none|one\b)|\b0 where (?:none|no|it|there|the l)|\bNONE\b|\bor the (?:end(?:\.| of all)|tape's length)|the answer is 0|no program has this number|0 or the refusal")
# What makes an index or a length of a parameter beside a slice.
LENGTHS = {"count", "filled", "n", "bytes", "size"}
PLACES = {"at", "from", "first", "behind", "end", "stop"}

KEPT = set("fn pub let mut if else match while loop for in return break as true false crate Self self const".split())


def blank(text):
    """The text with comments, strings and letters as spaces, so that every place stays where it is."""
    return re.sub(r'//[^\n]*|b?"(?:[^"\\\n]|\\.)*"|b?\'(?:[^\'\\\n]|\\.)\'', lambda m: re.sub(r"[^\n]", " ", m.group()), text)


def close(text, i):
    """The place of the bracket that closes the one at i."""
    depth = 0
    for j in range(i, len(text)):
        if text[j] in "({[":
            depth += 1
        elif text[j] in ")}]":
            depth -= 1
            if depth == 0:
                return j
    return len(text) - 1


def parts(text, sign=","):
    """What stands between commas (or another sign) that are in no brackets."""
    out, depth, now = [], 0, ""
    for c in text:
        depth += (c in "([{") - (c in ")]}")
        if c == sign and depth == 0:
            out.append(now)
            now = ""
        else:
            now += c
    return [" ".join(p.split()) for p in out + [now] if p.strip()]


class Type:
    """An enum with its variants or a struct with its fields."""

    def __init__(self, kind, name, line, members, above, inside):
        self.kind, self.name, self.line, self.members, self.above, self.inside = kind, name, line, members, above, inside

    def fields(self):
        told = (re.sub(r"^(?:#\[[^\]]*\] *)*(?:pub(?:\([^)]*\))? )?", "", m) for m in self.members if ":" in m and not m.startswith("ghost "))
        return [tuple(p.strip() for p in m.split(":", 1)) for m in told]


class Function:
    """Its parameters, result and clauses; its body as it stands without comments, and as `code` without letters and strings, from the line `first` on."""

    def __init__(self, name, line, params, result, clauses, body, code, first, above):
        self.name, self.line, self.params, self.result, self.clauses = name, line, params, result, clauses
        self.body, self.code, self.first, self.above = body, code, first, above

    def flat(self):
        return " ".join(self.body.split())


class File:
    def __init__(self, path, shown):
        with open(path, encoding="utf-8") as f:
            self.raw = f.read()
        self.shown = shown
        self.crate = shown.split("/")[0]
        self.text = blank(self.raw)
        self.lines = self.raw.split("\n")
        self.types = [self.type(m) for m in re.finditer(r"\b(enum|struct) (\w+)(?:<[^{};()]*>)? *\{", self.text)]
        self.functions = [g for g in (self.function(m) for m in re.finditer(r"\bfn (\w+) *(?=[<(])", self.text)) if g]

    def line(self, i):
        return self.text.count("\n", 0, i) + 1

    def above(self, line):
        """The comment over a line, past the attributes."""
        out, i = [], line - 2
        while i >= 0 and (self.lines[i].startswith("//") or self.lines[i].startswith("#[")):
            out.insert(0, self.lines[i])
            i -= 1
        return "\n".join(out)

    def type(self, m):
        e = close(self.text, m.end() - 1)
        line = self.line(m.start())
        return Type(m.group(1), m.group(2), line, parts(self.text[m.end():e]), self.above(line), self.raw[m.end():e])

    def function(self, m):
        i = m.end()
        if self.text[i] == "<":
            depth = 0
            while True:
                depth += (self.text[i] == "<") - (self.text[i] == ">" and self.text[i - 1] != "-")
                i += 1
                if depth == 0:
                    break
        if self.text[i] != "(":
            return None
        j = close(self.text, i)
        params = []
        for p in parts(self.text[i + 1:j]):
            name, _, kind = p.partition(":")
            params.append((re.sub(r"^mut ", "", name.strip()), kind.strip()) if kind else ("self", p))
        k, result = j + 1, ""
        r = re.compile(r"\s*->\s*((?:\[(?:[^\[\]]|\[[^\]]*\])*\]|[^\[])*?)\s*(?=\n\s*(?:requires|ensures|where)\b|\bwhere\b|[{;])", re.S).match(self.text, k)
        if r:
            result, k = " ".join(r.group(1).split()), r.end()
        w = re.compile(r"\s*where\b.*?(?=\n\s*(?:requires|ensures)\b|[{;])", re.S).match(self.text, k)
        if w:
            k = w.end()
        clauses = []
        while True:
            c = re.compile(r"\s*(requires|ensures)(?: +\w+)? *\{").match(self.text, k)
            if not c:
                break
            e = close(self.text, c.end() - 1)
            clauses.append((c.group(1), " ".join(self.raw[c.end():e].split())))
            k = e + 1
        line = self.line(m.start())
        b = re.compile(r"\s*\{").match(self.text, k)
        if not b:
            # a trait's function without a body
            return Function(m.group(1), line, params, result, clauses, "", "", line, self.above(line))
        b = b.end() - 1
        e = close(self.text, b)
        body = re.sub(r"b'[(){}\[\]]'", "b'_'", re.sub(r"//[^\n]*", "", self.raw[b + 1:e]))
        return Function(m.group(1), line, params, result, clauses, body, self.text[b + 1:e], self.line(b), self.above(line))


def read(top):
    files = []
    for path in sorted(glob.glob(os.path.join(top, "crates", "*", "src", "**", "*.rt"), recursive=True)):
        rest = os.path.relpath(path, os.path.join(top, "crates")).split(os.sep)
        files.append(File(path, rest[0] + "/" + "/".join(rest[2:])))
    return files


def plain(kind):
    """A type without the paths in it."""
    return re.sub(r"\b\w+::", "", kind)


# ---- point 1

def shape(t):
    """What an enum of two or three variants (or a larger one that carries an alarm) is like."""
    names = [re.match(r"\w+", v).group() for v in t.members]
    paid = [n for n, v in zip(names, t.members) if "(" in v]
    refused = [n for n in names if n in REFUSALS and (n != "Stop" or n in paid)]
    if len(names) == 2 and len(paid) == 1:
        return "shape of Option"
    if refused and paid:
        return "shape of Result (%s)" % ", ".join(refused)
    if len(names) == 3 and len(paid) in (1, 2):
        return "an Option of one of two"
    return ""


def number_runs(f):
    """Constants of one small type that follow each other with the values 0, 1, 2 .. or 1, 2, 4 ..: numbers for kinds; and single ones with the name of a tag."""
    found, runs = [], []
    for m in re.finditer(r"(?m)^ *(?:pub )?const (\w+): (u8|u32|u64|i64) = (-?[\d_]+);", f.text):
        found.append((m.group(1), m.group(2), int(m.group(3).replace("_", "")), f.line(m.start())))
    for c in found:
        last = runs[-1] if runs else None
        if last and last[-1][1] == c[1] and c[2] > last[-1][2] and (c[2] - last[-1][2] <= 2 or c[2] == 2 * last[-1][2]) and c[3] - last[-1][3] <= 8:
            last.append(c)
        else:
            runs.append([c])
    out = []
    for r in runs:
        if len(r) > 1 and r[0][2] in (0, 1) or len(r) == 2 and r[0][2] == 1 << 40:
            out.append((r[0][3], "%s .. %s" % (r[0][0], r[-1][0]), "%d numbers of type %s" % (len(r), r[0][1])))
        else:
            for c in r:
                if re.match(r"(TAG|YES|NONE|NOT_\w+|TOO_FEW_\w+|NO_\w+)$", c[0]) and c[0] != "NO_PROGRAM" or c[0] == "NO_PROGRAM" and c[2] > 255:
                    out.append((c[3], c[0], "a number of type %s" % c[1]))
    return out


def point1(files):
    """What is found of one type, constant or function is one place."""
    found = {}
    for f, line, name, form in point1_forms(files):
        found.setdefault((f.shown, line, name), (f, []))[1].append(form)
    for (_, line, name), (f, forms) in found.items():
        yield f, line, name, "; ".join(dict.fromkeys(forms))


def point1_forms(files):
    for f in files:
        for t in f.types:
            if t.kind == "enum":
                s = shape(t)
                if s:
                    yield f, t.line, t.name, s
                for v in t.members:
                    m = re.match(r"(\w+)\((\w+)", v)
                    if m and m.group(1) in REFUSALS and m.group(2) in SMALL:
                        yield f, t.line, "%s::%s" % (t.name, m.group(1)), "a refusal's number of type %s" % m.group(2)
            else:
                for name, kind in t.fields():
                    if kind == "bool" and FLAGS.match(name):
                        yield f, t.line, "%s.%s" % (t.name, name), "a flag with a value beside it"
                    if kind in SMALL and name in NUMBERS:
                        yield f, t.line, "%s.%s" % (t.name, name), "a number of type %s" % kind
            numbered = t.kind == "struct" and any(n in NUMBERS for n, _ in t.fields())
            if not numbered and (NOTHING.search(t.above) or NOTHING.search("\n".join(re.findall(r"//[^\n]*", t.inside)))):
                yield f, t.line, t.name, "a value that says none"
        for line, name, form in number_runs(f):
            yield f, line, name, form
        for i, text in enumerate(f.lines, 1):
            m = re.match(r"(?:pub )?const (\w+): usize = ", text)
            if m and (m.group(1) == "NONE" or re.search(r"as a place", f.above(i), re.I)):
                yield f, i, m.group(1), "a place that is none"
        for g in f.functions:
            for name, kind in g.params:
                if name in NUMBERS and kind in SMALL:
                    yield f, g.line, g.name, "takes the number `%s`" % name
            if g.result in SMALL and ANSWERS.match(g.name):
                yield f, g.line, g.name, "answers a number of type %s" % g.result
            if NOTHING.search(g.above):
                yield f, g.line, g.name, "a value that says none"
            if g.result == "bool" and any(k.startswith("&mut") for _, k in g.params):
                yield f, g.line, g.name, "does something and answers whether"


# ---- point 2

def tokens(text):
    return re.findall(r"b?'(?:[^'\\]|\\.)'|b?\"(?:[^\"\\]|\\.)*\"|[A-Za-z_]\w*|\d\w*|->|=>|[^\s\w]", text)


def renamed(text):
    """The text with each name as a number by its first use, and every literal as 0."""
    names, out = {}, []
    for t in tokens(text):
        if re.match(r"b?['\"]", t) or t[0].isdigit():
            out.append("0")
        elif t in KEPT or not re.match(r"[A-Za-z_]", t):
            out.append(t)
        else:
            out.append("n%d" % names.setdefault(t, len(names)))
    return out


def shape_of(g):
    params = ", ".join("%s: %s" % (n, plain(k)) for n, k in g.params)
    return renamed("(%s) -> %s { %s }" % (params, plain(g.result), re.sub(r"\b\w+::(?=\w)", "", g.body)))


def grouped(pairs):
    """Groups of what belongs together by twos."""
    root = {}

    def find(x):
        while root.setdefault(x, x) != x:
            x = root[x]
        return x

    for a, b in pairs:
        root[find(a)] = find(b)
    groups = {}
    for x in root:
        groups.setdefault(find(x), []).append(x)
    return sorted(sorted(g) for g in groups.values() if len(g) > 1)


def signature(g):
    return [plain(k) for _, k in g.params] + [plain(g.result)]


def bare(name):
    """A name without the size or the axis in it."""
    return re.sub(r"\d+|_[xz]\b|(?<=_)[xz]_", "", name)


def twins(a, b):
    """Whether two functions are one but for types, sizes, constants or the functions of such twins that they call."""
    (fa, ga, ta), (fb, gb, tb) = a, b
    calls_a, calls_b = (sorted(re.findall(r"\b([a-z]\w*)\(", g.code)) for g in (ga, gb))
    if ta == tb and len(ta) >= 12:
        if fa is fb or ga.name == gb.name or calls_a and calls_a == calls_b:
            return True
        if not calls_a and not calls_b and all(re.match(r"[ui](?:8|16|32|64|size)$|\[", k) for k in signature(ga) + signature(gb)):
            return True
    if fa is not fb and ga.name == gb.name and signature(ga) == signature(gb) and ga.name != "main":
        return difflib.SequenceMatcher(None, ta, tb, False).ratio() >= 0.6
    if fa is fb and bare(ga.name) == bare(gb.name) and re.search(r"\d", ga.name):
        return True
    if min(len(ta), len(tb)) < 20 or len(ga.params) != len(gb.params):
        return False
    named = bare(ga.name) == bare(gb.name)
    short = min(len(ta), len(tb)) / max(len(ta), len(tb))
    if named and short > 0.6 or fa is fb and short > 0.9:
        m = difflib.SequenceMatcher(None, ta, tb, False)
        least = 0.8 if named else 0.95
        return m.quick_ratio() >= least and m.ratio() >= least
    return False


def point2(files):
    # a door for C calls the function of its name in `board`: that is no twin
    every = [(f, g, shape_of(g)) for f in files if f.crate != "board_c" for g in f.functions]
    pairs = []
    for i, a in enumerate(every):
        for b in every[i + 1:]:
            if twins(a, b):
                pairs.append(tuple((f.shown, g.line, g.name) for f, g, _ in (a, b)))
    for g in grouped(pairs):
        yield g, "functions"
    types = [(f.shown, t.line, t.name, t) for f in files for t in f.types]
    pairs = []
    for i, a in enumerate(types):
        for b in types[i + 1:]:
            if a[3].kind != b[3].kind:
                continue
            same = a[3].members == b[3].members
            if a[3].kind == "struct":
                mine, other = a[3].fields(), b[3].fields()
                named = [n for n, _ in mine] == [n for n, _ in other]
                kinds = [k for _, k in mine] == [k for _, k in other]
                same = same or named and len(mine) > 1 or kinds and a[2] == b[2] or {n for n, _ in mine} <= {n for n, _ in other} and a[2] == b[2] or mine[:-1] == other and len(other) > 1
            elif a[3].kind == "enum":
                paid = [sorted(re.sub(r"^\w+", "", v) for v in x.members) for x in (a[3], b[3])]
                same = same or paid[0] == paid[1] and len(paid[0]) == 2 and any(paid[0])
            if same:
                pairs.append(((a[0], a[1], a[2]), (b[0], b[1], b[2])))
    for g in grouped(pairs):
        yield g, "types"


# ---- point 3

def loops(g):
    """The loops of a function: their line, their head and their body."""
    for m in re.finditer(r"\b(while|loop|for)\b([^{]*)\{", g.code):
        yield g.first + g.code.count("\n", 0, m.start()), (m.group(1) + m.group(2)).strip(), g.code[m.end():close(g.code, m.end() - 1)]


def point3(files):
    for f in files:
        for g in f.functions:
            for line, head, body in loops(g):
                if head.startswith("for"):
                    continue
                moved = []
                for m in re.finditer(r"(?m)^\s*(?:[\w:|(), ]+=>\s*)?(\w+) ([-+/*]?=) ([^;]*);", body):
                    name, sign, value = m.groups()
                    if re.search(r"\blet (?:mut )?%s\b" % name, body) or not re.search(r"\blet mut %s\b" % name, g.code):
                        continue
                    if sign != "=" or re.match(r"%s [-+*/]" % name, value):
                        step = "%s %s %s" % (name, sign, ".." if "  " in value else value)
                    else:
                        step = "%s = %s" % (name, value if len(value) < 24 else "..")
                    if step not in moved:
                        moved.append(step)
                yield f, line, g.name, "`%s`: %s" % (" ".join(head.split()), "; ".join(moved))


# ---- point 4

LITERAL = r"(?:true|false|-?[\d_]+|b?'[^']*'|(?:\w+::)*[A-Z][A-Z0-9_]*|(?:\w+::)*[A-Z]\w*::[A-Z]\w*|\[0; \w+\])"


def arms(body):
    """The arms of a body that is one match: pattern and result."""
    m = re.match(r"^(?:let \w+ = [\w.:]+; )*match ([\w.]+) \{(.*)\}$", body)
    if not m:
        return []
    out = []
    for arm in parts(re.sub(r"\} (?=[A-Z_b\d][\w:' ().|=,&]*=>)", "}, ", m.group(2))):
        a = re.match(r"(.*?) => (.*)$", arm)
        if a:
            out.append((a.group(1), a.group(2)))
    return out


def by_hand(f, g):
    body = g.flat()
    if re.match(r"^\(?[\w.]+(?: [%/] [\d_]+)?\)? as \w+$", body):
        return "converts a number"
    if re.match(r"^(?:\w+::)*(\w+)\((?:\w+::)*(\w+)\(\w+\)\)$", body) and re.search(r"(?:bytes_of|of_bytes|word_of)", body):
        return "converts a number, through its bytes"
    a = arms(body)
    if len(a) > 1 and all(re.match(LITERAL + "$", r) for _, r in a):
        if all(r in ("true", "false") for _, r in a):
            return "compares: a match of %d arms that says yes or no" % len(a)
        if re.search(r"word|tag$|^hand_|_here$", g.name):
            return "converts: a match of %d arms from one value to another" % len(a)
    flat = [r for _, r in a if r in ("true", "false")]
    if g.result == "bool" and len(a) > 3 and 2 * len(flat) > len(a):
        return "compares: a match of %d arms, of which %d say yes or no" % (len(a), len(flat))
    chain = re.findall(r"if \w+ == (?:\w+::)*[A-Z]\w* \{ return [^;{}]*; \}", body)
    if len(chain) > 1 and body.count("{") == len(chain) and f.crate != "cyclehand":
        return "converts: %d comparisons with numbers" % len(chain)
    if g.result[:1] in "ui" and re.match(r"^if (\w+) \{ (?:return )?%s;? \} (?:else \{ )?%s(?: \})?$" % (LITERAL, LITERAL), body) or re.match(r"^if (\w+) \{ \w+ \} else \{ 0 \}$", body):
        return "converts a flag"
    if re.match(r"^\w+\[\w+\] == [A-Z]\w*$", body):
        return "converts a word to a flag"
    if re.match(r"^\(\w+\[\w+\] % [\d_]+\) as \w+$", body):
        return "converts a number"
    m = re.match(r"^(?:let \w+ = [^;]*; )*if ([\w.]+) < ([\w.]+) \{ return ([\w.]+); \} ([^{};]+)$", body) or re.match(r"^(?:let \w+ = [^;]*; )*if ([\w.]+) < ([\w.]+) \{ ([\w.]+) \} else \{ ([^{};]+) \}$", body)
    if m and {m.group(3), m.group(4)} == {m.group(1), m.group(2)}:
        return "orders: the %s of two" % ("smaller" if m.group(3) == m.group(1) else "greater")
    if m and m.group(3) == "0" and m.group(4) == "%s - %s" % (m.group(1), m.group(2)):
        return "orders: a difference, no less than 0"
    if re.match(r"^if \w+ < \w+ \{ \(\(\w+ as i64\) - \(\w+ as i64\)\) as u32", body):
        return "orders: how far apart two numbers are"
    if re.match(r"^if (\w+) < (\w+) \{ return (\w+)::\w+; \} if \2 < \1 \{ return \3::", body):
        return "orders: which of two is greater"
    if re.match(r"^\(([\w.:]+) <=? ([\w.]+)\) & \(\2 <=? [\w.:]+\)$", body) or re.match(r"^\(([\w.]+) < [\w.]+\) \| \([\w.]+ < \1\)$", body):
        return "compares: whether a number is in a range"
    if re.match(r"^\((\w+) == [^()]+\) \| \(*\1 == ", body):
        return "compares with some values"
    if re.search(r"\bdistance\([^()]*\) == 0\) & \(", body):
        return "compares two structs, field by field"
    if re.search(r"\[0\] (?:==|!=)|\[[\w:]*\] != \w+\[0\]|\w+\[2\] != ", body) and g.result == "bool":
        return "compares some elements one by one"
    if re.search(r"\ba\[i\] != b\[i\]", body):
        return "compares two slices, byte by byte"
    if re.search(r"b'a'..=b'z' => \w+ - 32|b'A'..=b'Z' => true|\w+ - b'a' \+ 10", body):
        return "asks of a byte what its methods tell"
    if re.match(r"^if \w+ \{ 0 - \(", body) or re.match(r"^\(\w+ - 1\) / \w+ \+ 1$", body):
        return "a number's own method"
    copied = copies(f, g)
    if copied:
        return copied
    stored = re.findall(r"\b\w+\[[^\]]+\] = \w+\[\d\];", body)
    if len(stored) > 2:
        return "copies an array into a slice, element by element"
    if re.match(r"^\[(\w+)\[\w+\], \1\[\w+ \+ 1\]", body):
        return "copies a slice into an array, element by element"
    if re.match(r"^let \w+ = v / 256;", body) or re.search(r"\+ 256 \* ", body):
        return "converts a number to bytes or back"
    m = re.match(r"^if (\w+) (?:< 0|< [\d_]{13}) \{", body)
    if m and "4_294_967_296" in body:
        return "converts between signed and unsigned"
    if re.match(r"^wide(?:64)?\(", body):
        return "converts two words to one number"
    if ("W: Write" in f.lines[g.line - 1] or any(k == "&mut W" for _, k in g.params)) and len(g.params) == 2 and plain(g.params[1][1])[:1].isupper():
        return "prints a value"
    if re.match(r"^print", g.name) and any(k == "&mut W" for _, k in g.params) or "entry" in g.name and any(k == "&mut W" for _, k in g.params) and len(g.params) == 2:
        return "prints a value"
    if f.crate in ("decimal", "listing") and g.name.startswith("put_") and any(k == "&mut [u8]" for _, k in g.params):
        return "prints a value into a slice"
    return ""


def copies(f, g):
    """Where a function makes a struct anew from one of its own type: how many fields are copied."""
    body = g.flat()
    for name, kind in g.params:
        kind = plain(kind)
        if not re.match(r"[A-Z]\w*$", kind):
            continue
        lets = {m.group(1): m.group(2) for m in re.finditer(r"let (\w+) = (\w+\.\w+);", body)}
        for m in re.finditer(r"\b%s \{" % kind, body):
            inner = body[m.end():close(body, m.end() - 1)]
            same = 0
            fields = parts(inner)
            for p in fields:
                field, _, value = (x.strip() for x in p.partition(":"))
                value = value or field
                if value == "%s.%s" % (name, field) or lets.get(value) == "%s.%s" % (name, field):
                    same += 1
            if same >= 2 or same == 1 and len(fields) == 2:
                return "copies %d of the %d fields of a %s" % (same, len(fields), kind)
    return ""


def point4(files):
    for f in files:
        for g in f.functions:
            form = by_hand(f, g)
            if form:
                yield f, g.line, g.name, form


# ---- point 5

def facts(clause):
    """The facts of a clause: what stands between its outermost ×."""
    out = []
    for p in parts(clause, "×"):
        while p.startswith("(") and close(p, 0) == len(p) - 1:
            p = p[1:-1].strip()
        out.append(p)
    return out


def point5(files):
    by = {}
    for f in files:
        for g in f.functions:
            for kind, clause in g.clauses:
                for fact in set(facts(clause)):
                    by.setdefault((f.crate, kind, fact), []).append("%s:%d %s" % (f.shown, g.line, g.name))
    for (crate, kind, fact), where in sorted(by.items()):
        where = sorted(set(where))
        if len(where) >= 3 and len(fact) > 3:
            yield "fact", crate, "%s { %s }" % (kind, fact), where
    sets = {}
    every = [(frozenset((n, plain(k)) for n, k in g.params), "%s:%d %s" % (f.shown, g.line, g.name)) for f in files for g in f.functions if f.crate != "board_c"]
    for i, a in enumerate(every):
        for b in every[i:]:
            both = a[0] & b[0]
            if len(both) >= 3:
                sets.setdefault(both, None)
    found = []
    for s in sets:
        where = [w for params, w in every if s <= params]
        if len(where) >= 3:
            found.append((s, where))
    for s, where in sorted(found, key=lambda x: (-len(x[1]), sorted(x[0]))):
        if any(s < other for other, _ in found):
            continue
        yield "parameters", "", ", ".join("%s: %s" % p for p in sorted(s)), where


# ---- point 6

def point6(files):
    for f in files:
        for t in f.types:
            if t.kind == "struct":
                rows = [(n, k) for n, k in t.fields() if k.startswith("[")]
                sizes = [k.split(";")[1] for _, k in rows]
                for size in sorted(set(sizes)):
                    if sizes.count(size) > 1:
                        yield f, t.line, t.name, "parallel arrays: %s" % ", ".join(n for n, k in rows if k.split(";")[1] == size)
                for n, k in rows:
                    if sizes.count(k.split(";")[1]) == 1:
                        yield f, t.line, t.name, "an array `%s` of which a part counts" % n
        consts = [(m.group(1), f.line(m.start())) for m in re.finditer(r"(?m)^(?:pub )?const (\w+): usize = (?:\d+|\w+ \+ [\w:]+);", f.text)]
        runs = []
        for name, line in consts:
            if runs and line - runs[-1][-1][1] <= 3:
                runs[-1].append((name, line))
            else:
                runs.append([(name, line)])
        for r in runs:
            if len(r) > 4:
                yield f, r[0][1], "%s .. %s" % (r[0][0], r[-1][0]), "a row with named places: %d of them" % len(r)
        for g in f.functions:
            slices = [n for n, k in g.params if re.match(r"&(?:mut )?\[", k)]
            rows = [n for n, k in g.params if re.match(r"&(?:mut )?\[", k) and n not in ("tape", "settings")] or slices
            written = [n for n, k in g.params if k.startswith("&mut [")]
            for n, k in g.params:
                # a number that is printed is no length
                if k != "usize" or not slices or n == "n" and written or g.name == "print":
                    continue
                if n in LENGTHS:
                    yield f, g.line, g.name, "`%s`, and how many of it count, `%s`" % ("places" if "places" in rows else rows[0], n)
                if n in PLACES:
                    looked = [x for x in slices if x not in written] if n in ("from", "behind", "end", "stop") else written
                    yield f, g.line, g.name, "`%s`, and a place `%s` in it" % ("tape" if "tape" in slices else (looked or slices)[0], n)
            body = g.flat()
            if re.search(r"\(high - low\) / 2", body):
                yield f, g.line, g.name, "a sorted table searched by hand"
            if re.match(r"^\(\w+\[0\] == \w+\) \| ", body):
                yield f, g.line, g.name, "an array searched by hand"


# ---- point 7

def calls(results):
    """Of the results of some arms those that are one call: the function, and its arguments but for the names that the arm binds."""
    out = []
    for names, r in results:
        m = re.match(r"((?:\w+::)*)(\w+)\((.*)\)(?: & [^()]*)?$", r)
        if not m:
            continue
        outer, inner = m.group(1) + m.group(2), m.group(3)
        if m.group(2)[0].isupper():
            m = re.match(r"((?:\w+::)*)([a-z]\w*)\((.*)\)$", inner)
            if not m:
                continue
            outer, inner = m.group(1) + m.group(2), m.group(3)
        for n in names:
            inner = re.sub(r"\b%s\b" % n, "_", inner)
        out.append((outer, inner))
    return out


def point7(files):
    for f in files:
        for g in f.functions:
            body = " ".join(g.code.split())
            results = []
            for m in re.finditer(r"\bmatch [\w.]+ \{", body):
                inner = body[m.end():close(body, m.end() - 1)]
                rows = []
                for arm in parts(re.sub(r"\} (?=[A-Z_][\w:]*(?:\([\w, ]*\))? =>)", "}, ", inner)):
                    a = re.match(r"([^=]*?) => (.*)$", arm)
                    if a:
                        result = re.sub(r"^\{ (.*) \}$", r"\1", a.group(2))
                        first = re.match(r"let \w+ = ([^;]*);", result)
                        rows.append((re.findall(r"\b[a-z]\w*\b", re.sub(r"\w+::", "", a.group(1))), first.group(1) if first else result))
                results.append(("a match", rows))
            chain = re.findall(r"if (?:\w+ == [\w:]+|[\w.:()]+) \{ return ([^;{}]*); \}", body)
            if len(chain) > 1:
                results.append(("a row of ifs", [([], r) for r in chain]))
            m = re.match(r"^(?:let \w+ = [\w.]+; )*if [^{}]+ \{ return (\w+\([^{};]*\)); \} (\w+\([^{};]*\))$", body)
            if m:
                results.append(("an if", [([], m.group(1)), ([], m.group(2))]))
            for kind, rows in results:
                found = calls(rows)
                best = {}
                for name, args in found:
                    best.setdefault(args, set()).add(name)
                n = max([len(v) for v in best.values()] or [0])
                if n >= 2:
                    yield f, g.line, g.name, "%s that chooses one of %d functions" % (kind, n)


# ---- point 8

def point8(top):
    rows, sums = [], {}
    for crate in sorted(os.listdir(os.path.join(top, "crates"))):
        proofs = os.path.join(top, "crates", crate, "proofs")
        c = dict.fromkeys(("folders", "walks", "Answers", "Invariants", "lemma files", "lines of walks", "goals", "found"), 0)
        for folder, _, names in os.walk(proofs):
            for n in names:
                if not n.endswith(".antt"):
                    continue
                with open(os.path.join(folder, n), encoding="utf-8") as f:
                    text = re.sub(r"(?m)--[^\n]*", "", f.read())
                if folder == proofs:
                    c["lemma files"] += n != "Lib.antt"
                    continue
                c["walks"] += n == "Proof.antt"
                c["Answers"] += n == "Answers.antt"
                c["Invariants"] += n == "Invariants.antt"
                if n == "Proof.antt":
                    c["lines of walks"] += text.count("\n")
                if n != "Invariants.antt":
                    c["goals"] += len(re.findall(r"(?m)^(?:pub )?[\w-]+ : (?:tie\.Need|goal\.)", text))
                    # an answer that is only that, with nothing unfolded for it
                    c["found"] += len(re.findall(r"(?m)^(?!unfolding)[^\n]*\n(?:[\w-]+(?: \w+)? c(?: \S+)? =\s*(?:search rules|omega arith))$", text))
            if folder != proofs and any(n.endswith(".antt") for n in names):
                c["folders"] += 1
        if any(c.values()):
            rows.append((crate, c))
            for k, v in c.items():
                sums[k] = sums.get(k, 0) + v
    return rows + [("all", sums)]


def same_lemmas(top):
    """Lemmas of one statement that stand in two or more proof files. A statement that speaks of a walk's own steps (`tie.`) is that walk's."""
    found = {}
    for folder, _, names in sorted(os.walk(os.path.join(top, "crates"))):
        if not re.search(r"/proofs(/|$)", folder):
            continue
        for n in sorted(names):
            if n.endswith(".antt"):
                with open(os.path.join(folder, n), encoding="utf-8") as f:
                    text = f.read()
                where = os.path.relpath(os.path.join(folder, n), os.path.join(top, "crates")).replace("/proofs/", "/")
                for m in re.finditer(r"(?m)^ *(?:pub )?([a-z]\w*) : (.*→.*(?:\n {4,}.*)*)", text):
                    said = " ".join(m.group(2).split())
                    if "tie." not in said and "goal." not in said:
                        found.setdefault(said, []).append((where, m.group(1)))
    return sorted((said, where) for said, where in found.items() if len({w for w, _ in where}) > 1 and "Type 1" not in said)


# ---- printing

def show(point, top, files):
    print("point %d: %s" % (point, POINTS[point]))
    if point == 8:
        rows = point8(top)
        keys = list(rows[0][1])
        print("%-14s %s" % ("crate", "  ".join(keys)))
        for crate, c in rows:
            print("%-14s %s" % (crate, "  ".join(("%%%dd" % len(k)) % c[k] for k in keys)))
        same = same_lemmas(top)
        for said, where in same:
            print("lemma %s: %s" % (said, "; ".join("%s %s" % p for p in where)))
        print("point 8: %d walks, %d goals answered alone, %d statements in two or more files" % (rows[-1][1]["walks"], rows[-1][1]["found"], len(same)))
        return
    if point == 2:
        n = members = 0
        for g, kind in point2(files):
            n += 1
            members += len(g)
            print("%d %s: %s" % (len(g), kind, "; ".join("%s:%d %s" % p for p in g)))
        print("point 2: %d groups, %d functions and types" % (n, members))
        return
    if point == 5:
        n = {"fact": 0, "parameters": 0}
        for kind, crate, what, where in point5(files):
            n[kind] += 1
            print("%s%s: %s: %d: %s" % (kind, " of " + crate if crate else "", what, len(where), "; ".join(where)))
        print("point 5: %d facts, %d groups of parameters" % (n["fact"], n["parameters"]))
        return
    n = 0
    for f, line, name, form in {1: point1, 3: point3, 4: point4, 6: point6, 7: point7}[point](files):
        n += 1
        print("%s:%d  %s  %s" % (f.shown, line, name, form))
    print("point %d: %d places" % (point, n))


def main():
    args = sys.argv[1:]
    top = os.path.join(os.path.dirname(os.path.abspath(__file__)), "..")
    if args[:1] == ["-C"]:
        top, args = args[1], args[2:]
    files = read(top)
    for point in [int(a) for a in args] or sorted(POINTS):
        show(point, top, files)


if __name__ == "__main__":
    main()
