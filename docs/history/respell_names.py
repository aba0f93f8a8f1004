#!/usr/bin/env python3
"""Turns the repository's own definitions and lemmas from an older spelling, words-with-dashes, to snake_case, and its own
types of specs/ and proofs/ to CamelCase.

usage: python3 docs/history/respell_names.py      at the top of the repository, once, right after port.py

Names that the check makes (goals, steps of a function) and names of the library keep their spelling. It prints each name
that would fall together with another one, and leaves it as it is.
"""
import os
import re
import sys

ROOT = "crates"
PIECE = r"[A-Za-z_◌][A-Za-z0-9_'◌]*(?:-[A-Za-z0-9_'◌]+)*"
TOKEN = re.compile(PIECE)
HEAD = re.compile(r"^(?:  )?((?:abbrev|unfoldable|pub|record|data|axiom)\s+)*(" + PIECE + r")\s*(?:$|[({:])")
FIELD = re.compile(r"^\s+(?:\|\s*)?(?:pub\s+)?(" + PIECE + r")\s*:\s")
STRING = re.compile(r'"(?:[^"\\]|\\.)*"')
NOT_OURS = {"in-Some", "in-None", "in-Ok", "in-Err"}


def files():
    for folder, dirs, names in os.walk(ROOT):
        dirs[:] = sorted(d for d in dirs if d not in ("out", "target"))
        for n in sorted(names):
            p = os.path.join(folder, n)
            if n.endswith(".antt") or n.endswith(".rt"):
                yield p


def is_answers(p):
    return os.path.basename(p) in ("Answers.antt", "Invariants.antt", "Choices.antt", "Proof.antt")


def own_names():
    """Names that files of specs/ and proofs/ define, and fields of their records."""
    own, fields = set(), set()
    for p in files():
        if not p.endswith(".antt"):
            continue
        inside = False
        for line in open(p, encoding="utf-8"):
            own.update(m.group(1) for m in re.finditer(r"\bas (" + PIECE + r")(?=[,}])", line) if "-" in m.group(1))
            if line.startswith("--") or line.startswith("use ") or line.startswith("pub use "):
                continue
            m = HEAD.match(line)
            if m:
                inside = bool(re.match(r"^(?:pub\s+)?(?:abbrev\s+)?(?:pub\s+)?(record|data)\s", line))
                if is_answers(p) and re.search(r":\s*goal\.", line):
                    continue
                if "-" in m.group(2) and re.search(r"(:\s|[({]|$)", line[m.end(2):]) and " = " not in line.split(":")[0]:
                    own.add(m.group(2))
            elif inside:
                m = FIELD.match(line)
                if m and "-" in m.group(1):
                    fields.add(m.group(1))
    return own, fields


def respelt(name):
    parts = name.split("-")
    if name[0].isupper():
        return "".join(w[0].upper() + w[1:] for w in parts)
    return "_".join(parts)


def clauses(text):
    """The spans of an .rt file that are ghost: 'ghost ..;' lines, and the braces behind ghost, requires and ensures."""
    spans = []
    for m in re.finditer(r"^\s*ghost use [^;]*;", text, re.M):
        spans.append((m.start(), m.end()))
    for m in re.finditer(r"\b(?:requires|ensures|ghost)\*?\s*(?:[\w']+\s*)?[:=]?\s*\{", text):
        depth, i = 1, m.end()
        while depth and i < len(text):
            depth += {"{": 1, "}": -1}.get(text[i], 0)
            i += 1
        spans.append((m.end(), i))
    return sorted(spans)


def turn(text, names, fields):
    def one(m):
        t = m.group(0)
        at = m.start()
        before = m.string[at - 1] if at else ""
        if before == "." and t not in fields:
            # a path's last part, as Books.find-from, or a step of a function: only an own name behind a module's name
            j = at - 1
            while j > 0 and re.match(r"[\w'·.]", m.string[j - 1]):
                j -= 1
            head = m.string[j:at - 1].split(".")[-1]
            if not (head[:1].isupper() and t in names):
                return t
        return names.get(t, t)

    out, last = [], 0
    for m in STRING.finditer(text):
        out.append(TOKEN.sub(one, text[last:m.start()]))
        out.append(m.group(0))
        last = m.end()
    out.append(TOKEN.sub(one, text[last:]))
    return "".join(out)


def main():
    own, fields = own_names()
    own |= fields
    own -= NOT_OURS
    goals = set()
    texts = {p: open(p, encoding="utf-8").read() for p in files()}
    for p, text in texts.items():
        if is_answers(p):
            goals |= {m.group(1) for m in re.finditer(r"^(?:abbrev )?pub (" + PIECE + r") : goal\.", text, re.M)}
    names = {n: respelt(n) for n in own if n not in goals}
    for n in sorted(own & goals):
        print("kept, a goal has this name:", n)
    # names that would fall together with one that stands in a file where the old one stands
    clash = {}
    for p, text in texts.items():
        bare = STRING.sub('""', re.sub(r"(?m)^\s*(--|//).*$", "", text))
        if p.endswith(".rt"):
            bare = "\n".join(bare[a:b] for a, b in clauses(bare))
        words = set(TOKEN.findall(bare))
        for n in words & set(names):
            if names[n] in words:
                clash.setdefault(n, []).append(p)
    for n in sorted(clash):
        print("falls together:", n, "->", names[n], "in", ", ".join(clash[n][:3]))
    two = {}
    for n, t in names.items():
        two.setdefault(t, []).append(n)
    for t in sorted(two):
        if len(two[t]) > 1:
            print("two names become", t, ":", two[t])
    if "--dry" in sys.argv:
        print(len(names), "names")
        return
    changed = 0
    for p, text in texts.items():
        if p.endswith(".antt"):
            new = turn(text, names, fields)
        else:
            new, last = [], 0
            for a, b in clauses(text):
                if a < last:
                    continue
                new.append(text[last:a])
                new.append(turn(text[a:b], names, fields))
                last = b
            new.append(text[last:])
            new = "".join(new)
        if new != text:
            open(p, "w", encoding="utf-8").write(new)
            changed += 1
    print(len(names), "names,", changed, "files")


main()
