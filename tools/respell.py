#!/usr/bin/env python3
"""Brings this repository's own names in specs/ and proofs/ to today's spelling, once, after port.py.

Definitions, lemmas, record fields and local names that have a dash, and camel-case words, become snake case; types that
have a dash become camel case. Left as they are: names of goals and steps, which Rattle makes, names imported from other
libraries, functions and types of src/, texts in quotes. Backquoted names in README.md and docs/ follow.
Usage, at the top of the repository: python3 tools/respell.py [--dry]"""

import glob
import re
import sys

NAME = r"[^\s(){}\[\];,.:λ=]+"
TOKEN = re.compile(r"(?<![\w'.-])[A-Za-z][\w']*(?:-[\w']+)+(?![\w'-])|(?<=\.)[A-Za-z][\w']*(?:-[\w']+)+(?![\w'-])|(?<![\w'-])pairsOf(?![\w'-])")
MODIFIERS = r"(?:abbrev |unfoldable |pub |record |data )*"
# words of the library that an old name was made of
WORDS = {"getD": "get_or"}


def antt_files():
    return sorted(glob.glob("crates/*/specs/**/*.antt", recursive=True) + glob.glob("crates/*/proofs/**/*.antt", recursive=True))


def code_of(line):
    """The line without its comment."""
    at = line.find("-- ")
    if line.startswith("--"):
        return ""
    return line if at < 0 else line[:at]


def defined(text):
    """The names that a file declares: at the head of a signature, left of a clause, in a let, as a parameter or a field."""
    names = set()
    for line in text.split("\n"):
        code = code_of(line)
        if re.match(r"\s*(use|mod|pub mod|unfolding)\b", code):
            continue
        head = re.match(r"^\s*" + MODIFIERS + r"(" + NAME + r"(?: " + NAME + r")*?)\s*(?:[({].*)?:\s", code)
        if head and "goal." not in code.split(":", 1)[1][:8] and "given." not in code.split(":", 1)[1][:8]:
            names.update(head[1].split())
        clause = re.match(r"^\s*(" + NAME + r"(?: " + NAME + r")*) =(?: |$)", code)
        if clause and "." not in clause[1]:
            names.update(clause[1].split()[1:])
        for m in re.finditer(r"\blet (" + NAME + r")", code):
            names.add(m[1])
        for m in re.finditer(r"[({]((?:" + NAME + r" )*" + NAME + r") :", code):
            names.update(m[1].split())
    return {n for n in names if re.fullmatch(r"[A-Za-z][\w']*(?:-[\w']+)+", n) or n == "pairsOf"}


def imported(text):
    """The names that a file takes from other libraries."""
    names = set()
    for m in re.finditer(r"use (\S+?)\.\{([^}]*)\}", text):
        path = m[1]
        own = re.match(r"Rattle\.(%s)\." % "|".join(CRATES), path)
        if not own:
            for item in m[2].split(","):
                names.update(w for w in item.split() if w != "as")
    return names


def goals(text):
    """The names of goals that a file answers."""
    return set(re.findall(r"^\s*(?:pub |abbrev )*([^\s:]+)\s*:\s*(?:goal|given)\.", text, re.M))


def turned(name):
    parts = [WORDS.get(p, p) for p in name.split("-")]
    if name == "pairsOf":
        return "pairs_of"
    if name[0].isupper() and name in TYPES:
        return "".join(p[0].upper() + p[1:] for p in parts)
    return "_".join(parts)


def is_type(name, texts):
    pattern = re.compile(r"^\s*" + MODIFIERS + re.escape(name) + r"\b[^\n]*: [^\n]*Type 0( where)?$", re.M)
    return any(pattern.search(t) for t in texts)


CRATES = [line.split(":")[0].split()[0] for line in open("crates.txt") if line.strip() and not line.startswith("#")]
FILES = {f: open(f).read() for f in antt_files()}
OWN = set()
for f, t in FILES.items():
    OWN |= defined(t) - imported(t)
TYPES = {n for n in OWN if n[0].isupper() and is_type(n, FILES.values())}


def main():
    dry = "--dry" in sys.argv
    answered = set()
    for t in FILES.values():
        answered |= goals(t)
    names = {n: turned(n) for n in OWN if n not in answered}
    left = {n for n in OWN if n in answered}
    back = {}
    for n, s in sorted(names.items()):
        if s in back:
            print(f"fall together: {n} and {back[s]} as {s}")
        back[s] = n
    words = set()
    for t in FILES.values():
        words |= set(re.findall(r"[A-Za-z][\w']*", t))
    for n, s in sorted(names.items()):
        if s in words:
            print(f"taken: {s}, for {n}")
    print(f"{len(names)} names turned; names of goals, left: {sorted(left)}")

    def respell(text, skip, where):
        def one(m):
            n = m[0]
            if n in skip or n not in names:
                return n
            return names[n]
        return TOKEN.sub(one, text)

    for f, t in FILES.items():
        new = respell(t, imported(t), f)
        if new != t and not dry:
            open(f, "w").write(new)
    for f in sorted(glob.glob("crates/*/src/**/*.rt", recursive=True)):
        t = open(f).read()
        parts = re.split(r'("(?:[^"\\\n]|\\.)*")', t)
        new = "".join(p if p.startswith('"') else respell(p, imported(t), f) for p in parts)
        if new != t and not dry:
            open(f, "w").write(new)
    for f in ["README.md"] + sorted(glob.glob("docs/*.md")):
        t = open(f).read()
        new = re.sub(r"`[^`\n]*`", lambda m: respell(m[0], set(), f), t)
        if new != t and not dry:
            open(f, "w").write(new)


if __name__ == "__main__":
    main()
