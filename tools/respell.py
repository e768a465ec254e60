#!/usr/bin/env python3
"""Brings the repository's own definitions and lemmas to the spelling of today's Rattle: words in snake case.

usage: python3 tools/respell.py [--check]

Run it once at the top of the repository, after the kit's port.py. A name with a dash that specs/ or proofs/ define is written with
an underscore instead, wherever it stands in a proof file, in a contract, or between backquotes in README.md and docs/.
Goals, which Rattle names itself, keep their dashes, and so do the names of the standard library.
With --check nothing is written. Names that would fall together are printed either way.
"""

import collections
import os
import re
import sys

NAME = r"[A-Za-z_][\w']*(?:-[\w']+)*'*"
TOKEN = re.compile(r"(?<![\w'◌-])" + NAME + r"(?![\w'◌-])")
SIGNATURE = re.compile(r"(?:pub |abbrev |unfoldable |opaque )*((?:[\w'-]+\s+)*[\w'-]+)\s*:\s+(.*)")
HEAD = re.compile(r"(?:pub |abbrev )*(?:data|record)\s+(?:pub )?([\w'-]+)")
QUIET = re.compile(r'//[^\n]*|b?\x27(?:\\[^\x27\n]*|[^\x27\\\n])\x27|b?"(?:\\.|[^"\\])*"')
CAMEL = re.compile(r"[a-z]+(?:[A-Z][a-z]+)+")


def files(top, ending):
    for folder, inside, names in os.walk(top):
        inside[:] = sorted(i for i in inside if i != "out")
        for name in sorted(names):
            if name.endswith(ending):
                yield os.path.join(folder, name)


def read(path):
    with open(path, encoding="utf-8") as f:
        return f.read()


def defined(text):
    """The names that a file of definitions or lemmas defines, its goals left out."""
    for line in text.split("\n"):
        line = line.strip()
        if line.startswith(("use ", "--", "ghost use")):
            continue
        head = HEAD.match(line)
        if head:
            yield head.group(1)
            continue
        signature = SIGNATURE.match(line)
        if signature and not signature.group(2).startswith("goal."):
            yield from signature.group(1).split()


def imported(text):
    """The names that a file takes from the standard library."""
    for names in re.findall(r"use Rattle\.std\.[\w.]*\.\{([^}]*)\}", text):
        for name in names.split(","):
            yield name.strip().split(" as ")[0]


def plain(name):
    if CAMEL.fullmatch(name):
        return re.sub(r"[A-Z]", lambda m: "_" + m.group(0).lower(), name)
    return name.replace("-", "_")


def main(check):
    proofs = list(files("crates", ".antt"))
    sources = list(files("crates", ".rt"))
    pages = ["README.md"] + list(files("docs", ".md"))
    texts = {p: read(p) for p in proofs + sources + pages}
    kept = {name for p in proofs + sources for name in imported(texts[p])}
    own = {name for p in proofs for name in defined(texts[p])}
    aliases = {a for p in proofs + sources for a in re.findall(r" as «?([\w'-]+)»?", texts[p])}
    turned = {n: plain(n) for n in own | aliases if n not in kept and plain(n) != n and ("-" in n or CAMEL.fullmatch(n))}

    there = collections.defaultdict(set)
    for p in proofs:
        for word in TOKEN.findall(texts[p]):
            there[word].add(p)
    for old, new in sorted(turned.items()):
        both = there[old] & there[new]
        if new in own or new in kept or both:
            print(f"look: {old} falls together with {new}: {' '.join(sorted(both)[:3]) or 'elsewhere'}")

    def turn(text, hidden=()):
        """The text with each name in its new spelling; a hidden one, which is also a function of the file, by another name."""

        def new(word):
            name = turned.get(word, word)
            return name + "_of" if word in turned and name in hidden else name

        def new_import(match):
            names = [n.strip() for n in match.group(2).split(",")]
            named = [f"{turned[n]} as {new(n)}" if n in turned and new(n) != turned[n] else n for n in names]
            return match.group(1) + ", ".join(named) + "}"

        text = re.sub(r"(ghost use [\w.'-]+\.\{)([^}]*)\}", new_import, text)
        text = re.sub(r"«([\w'-]+)»", lambda m: new(m.group(1)) if m.group(1) in turned else m.group(0), text)
        return TOKEN.sub(lambda m: new(m.group(0)), text)

    def turn_code(text):
        hidden = set(re.findall(r"\bfn (\w+)", text))
        parts, at = [], 0
        for quiet in QUIET.finditer(text):
            parts += [turn(text[at : quiet.start()], hidden), quiet.group(0)]
            at = quiet.end()
        return "".join(parts) + turn(text[at:], hidden)

    changed = 0
    for p, text in texts.items():
        if p.endswith(".antt"):
            new = "\n".join(l if l.lstrip().startswith("--") else turn(l) for l in text.split("\n"))
        elif p.endswith(".rt"):
            new = turn_code(text)
        else:
            new = re.sub(r"`[^`\n]+`", lambda m: turn(m.group(0)), text)
        if new != text:
            changed += 1
            if not check:
                with open(p, "w", encoding="utf-8") as f:
                    f.write(new)
    print(f"{len(turned)} names, {changed} files")


main("--check" in sys.argv[1:])
