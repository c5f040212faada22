#!/usr/bin/env python3
"""Brings the repository's own definitions and lemmas to one spelling: words in snake case, types and modules in upper camel case.

usage: python3 tools/spell.py        once, at the top, right after the kit's port.py

A name is the repository's own where a file of specs/ or proofs/ declares it. Functions of src/, what the check itself makes (goals and steps), strings,
inputs and outputs keep their names. It stops, and writes nothing, where two names of one file would fall together.
"""

import os
import re
import sys

WORD = r"[^\s.,;(){}\[\]:=λ@\"`|]+"
TOKEN = re.compile(WORD)
PROJECTION = re.compile(r"(?<=[\w)»'])\.(" + WORD + ")")
CAMEL = re.compile(r"^[a-z][a-z0-9_']*[A-Z]")
DECLARED = re.compile(r"^\s*(?:(?:abbrev|unfoldable|pub|ruleset)\s+)*(" + WORD + r")\s+[:=]")
MADE = ("Rattle.std", "Rattle.core", "Rattle.io", "Rattle.libc", "Rattle.os")
TACTICS = {"search", "assumption", "ground", "omega", "grind", "simp", "rw", "cc", "hlevel", "first_of", "rules", "arith", "ints", "subst", "record", "ruleset", "data", "open"}


# Names of one file that stand beside what they speak of. (FIELDS: these fall together only with a field of a record, which is another name.)
BESIDE = {
    "addresses/proofs/Within.antt": {"number_word": "number_word_lem"},
    "alarmed/proofs/Alarmed.antt": {"lines_of": "line_laws"},
    "alarmed/proofs/Blocks.antt": {"own_first": "own_first_lem"},
    "block/proofs/read_line/Proof.antt": {"line-by": "line_by_lem"},
    "places/proofs/Walks.antt": {"block_here": "block_here_lem"},
    "plunges/proofs/Cursors.antt": {"after_first": "after_first_lem"},
    "roots/proofs/Rooting.antt": {"root_in": "root_in_lem"},
    "threading/proofs/Threaded.antt": {"from_first": "from_first_lem"},
}
FIELDS = {"other_count", "empty_cuts", "x_target", "z_target"}


def snake(word):
    return re.sub(r"(?<=[a-z0-9A-Z'_])([A-Z])", lambda m: "_" + m.group(1).lower(), word).replace("-", "_").replace("__", "_")


def lines_of(path):
    with open(path, encoding="utf-8") as f:
        return f.read().split("\n")


def texts(root):
    for folder, dirs, files in os.walk(os.path.join(root, "crates")):
        dirs[:] = sorted(d for d in dirs if d not in ("out", "data"))
        for f in sorted(files):
            if f.endswith((".rt", ".antt", ".edit")):
                yield os.path.join(folder, f)


def is_made(path):
    return not path.startswith("Rattle.") or path.startswith(MADE)


def imported(lines):
    """The names that a file takes from the kit."""
    out = set()
    for l in lines:
        m = re.match(r"(?:ghost )?use ([^{]*)\.\{(.*)\}", l)
        if m and is_made(m.group(1)):
            for n in m.group(2).split(","):
                out.update(w.strip() for w in n.split(" as "))
    return out


def functions(root):
    out = set()
    for p in texts(root):
        if p.endswith(".rt"):
            for l in lines_of(p):
                out.update(n.replace("_", "-") for n in re.findall(r"\bfn (\w+)", l))
    return out


def collect(root):
    words, fields = {}, {}
    for p in texts(root):
        if not p.endswith(".antt"):
            continue
        lines = lines_of(p)
        kit = imported(lines)
        record = False
        for l in lines:
            if l.startswith("use ") or l.lstrip().startswith("--"):
                continue
            m = DECLARED.match(l)
            if re.match(r"\s*(pub )?record \S", l):
                record = True
            elif l and not l[0].isspace():
                record = False
            for w in TOKEN.findall(re.sub(r'"[^"]*"', "", l)):
                if CAMEL.match(w) and w not in kit and not re.search(r"_[A-Z][a-z]|-[A-Z]", w):
                    words[w] = snake(w)
            if m and "-" in m.group(1) and re.match(r"[a-z]", m.group(1)) and m.group(1) not in kit:
                w = m.group(1)
                words[w] = snake(w)
                if record and l[0].isspace():
                    fields[w] = snake(w)
            # numbers and facts bound in a term
            for w in re.findall(r"\blet (" + WORD + r")(?: :| =)", l) + re.findall(r"[λ(] ?\(?(" + WORD + r")(?: :|\.)", l):
                if "-" in w and re.match(r"[a-z]", w) and w not in kit and "." not in w:
                    words[w] = snake(w)
    # a lemma that would have the name of what it speaks of ends in _lem
    taken = {n for w, n in words.items() if CAMEL.match(w)}
    for p in texts(root):
        if p.endswith(".antt"):
            for l in lines_of(p):
                if l.startswith("use ") or l.lstrip().startswith("--"):
                    continue
                taken.update(w for w in TOKEN.findall(PROJECTION.sub("", l)) if re.match(r"[a-z]\w*$", w))
    for w, n in words.items():
        if not CAMEL.match(w) and w not in fields and n in taken:
            words[w] = n + "_lem"
    return words, fields


def turn(text, words, fields, kit, steps):
    """A line of antt: words as declared; a projection only where a record of the repository has the field. Texts between quotes stay."""
    if '"' in text:
        return "".join(t if i % 2 else turn(t, words, fields, kit, steps) for i, t in enumerate(re.split(r'("[^"]*")', text)))

    def projected(m):
        w = m.group(1)
        plain = re.sub(r"\d+$", "", w)
        if w in fields and not (plain in steps or w in steps):
            return "." + fields[w]
        if CAMEL.match(w) and w in words:
            return "." + words[w]
        return m.group(0)

    out, at = [], 0
    for m in re.finditer(r"(?<=[\w)»'])\." + "(" + WORD + ")|" + WORD, text):
        out.append(text[at:m.start()])
        if m.group(1) is not None:
            out.append(projected(re.match(r"\.(" + WORD + ")", m.group(0))) if True else "")
        else:
            w = m.group(0)
            out.append(words[w] if w in words and w not in kit else w)
        at = m.end()
    out.append(text[at:])
    return "".join(out)


def in_ticks(text, words):
    return re.sub(r"`([^`]*)`", lambda m: "`" + TOKEN.sub(lambda t: words.get(t.group(0), t.group(0)), m.group(1)) + "`", text)


def in_comment(text, words):
    """Words of a comment: what reads as a name and not as English, and whatever stands between ticks."""
    text = TOKEN.sub(lambda t: words[t.group(0)] if CAMEL.match(t.group(0)) and t.group(0) in words else t.group(0), text)
    return in_ticks(text, words)


def qualified(text):
    """Goals and steps that the check makes, cited through their module, stay."""
    return re.sub(r"\b(tie|lts|goal|kinds)\.(" + WORD + ")", lambda m: m.group(1) + "\0" + m.group(2).replace("-", "\1"), text)


def unqualified(text):
    return text.replace("\0", ".").replace("\1", "-")


def main():
    root = os.getcwd()
    steps = functions(root)
    words, fields = collect(root)
    words = {w: n for w, n in words.items() if w != n}
    every = words
    bad = [f"{w} would be a word of the language: {n}" for w, n in words.items() if n in TACTICS]
    made = {}
    for p in texts(root):
        lines = lines_of(p)
        kit = imported(lines)
        words = every | BESIDE.get(os.path.relpath(p, os.path.join(root, "crates")), {})
        new = []
        seen = {}
        for l in lines:
            if p.endswith(".antt"):
                if l.lstrip().startswith("--"):
                    t = in_comment(l, words)
                else:
                    code, sep, said = l.partition(" -- ")
                    module = None
                    if re.match(r"use ", code) and "{" in code:
                        head, tail = code.split("{", 1)
                        if is_made(head[4:]):
                            t = code
                        elif ".proofs." in head and head.rstrip(".").endswith(("Tie", "Statement", "Lts", "Kinds", "Given", "Goals")):
                            t = code
                        else:
                            t = head + "{" + turn(tail, words, {}, set(), steps)
                    elif re.match(r"use ", code):
                        t = code
                    else:
                        t = unqualified(turn(qualified(code), words, fields, kit, steps))
                        for w in TOKEN.findall(PROJECTION.sub("", qualified(code))):
                            if w in words and w not in kit:
                                seen.setdefault(words[w], set()).add(w)
                            elif re.match(r"[a-z]", w):
                                seen.setdefault(w, set()).add(w)
                    t += sep + in_comment(said, words) if sep else ""
            elif p.endswith(".edit"):
                m = re.match(r"(old:|new:)( ?)(.*)$", l)
                t = m.group(1) + m.group(2) + unqualified(turn(qualified(m.group(3)), words, fields, set(), steps)) if m else in_comment(l, words)
            else:
                code = l.lstrip()
                if code.startswith("//"):
                    t = in_comment(l, words)
                elif re.match(r"ghost use ", code):
                    head, _, tail = l.partition("{")
                    t = l if is_made(head.strip()[10:]) else head + "{" + turn(tail, words, {}, set(), steps)
                elif re.match(r"(requires|ensures|ghost)\b|[^\"]*[≡×→≤]", code):
                    body, sep, said = l.partition(" // ")
                    t = turn(body, words, fields, kit, steps) + (sep + in_comment(said, words) if sep else "")
                else:
                    body, sep, said = l.partition(" // ")
                    t = body + (sep + in_comment(said, words) if sep else "")
                    for w in TOKEN.findall(body):
                        if CAMEL.match(w) and w in words and "\"" not in body:
                            t = turn(body, words, fields, kit, steps) + (sep + in_comment(said, words) if sep else "")
            new.append(t)
        for n, ws in seen.items():
            if len(ws) > 1 and n not in FIELDS:
                bad.append(f"{os.path.relpath(p, root)}: {', '.join(sorted(ws))} would all be {n}")
        made[p] = "\n".join(new)
    for b in bad:
        print(b)
    if bad and "--anyway" not in sys.argv:
        print(f"spell: {len(bad)} names fall together; nothing was written")
        return 1
    for p, t in made.items():
        with open(p, encoding="utf-8") as f:
            had = f.read()
        if had != t:
            with open(p, "w", encoding="utf-8") as f:
                f.write(t)
    with open(os.path.join("/tmp", "spelled.txt"), "w") as f:
        f.writelines(f"{w} {n}\n" for w, n in sorted(words.items()))
    print(f"spell: {len(words)} names")
    return 0


if __name__ == "__main__":
    raise SystemExit(main())
