#!/usr/bin/env python3
"""Brings the repository's own definitions and lemmas to today's spelling: names in snake case, modules in camel case.

usage: python3 tools/respell.py [TOP]

Run once, after port.py, over crates/, README.md and docs/. In specs/ and proofs/ it respells each name that is declared there with a dash; in the files
proofs/F/Proof.antt, whose answers have names that the check makes, only names declared elsewhere. In comments and pages it respells a name only between
backquotes. Strings, names of src/, exported names, inputs and outputs stay. It prints each pair of names that
fall together in a file and goes on: whoever runs it looks whether they mean one thing there.
"""
import os
import re
import subprocess
import sys

top = sys.argv[1] if len(sys.argv) > 1 else "."
os.chdir(top)

# the characters of a name; `◌` stands in operators, which are left alone
NAME = re.compile(r"[A-Za-z0-9_'\u0370-\u03ff\u2080-\u2089-]+")
DECLARED = re.compile(r"^\s*(?:(?:abbrev|unfoldable|pub|data|record|ruleset)\s+)*([A-Za-z][^\s:{}()\[\],;.`]*)(?=\s|:)[^:=`]*:")
MODULES = {"inner": "Inner"}
# names that only a `use` line or a local block gives
LOCAL = """at-0 call-link conflict-by earlier-rules from-f from-o gate-demand is-a is-p is-r is-s long-cycle next-call no-calls plain-all-kept plain-not-declared plain-was-withdrawn refused-by-number same-contents take-back-call test-last to-f to-o withdraw-call yes-all""".split()
# names whose new spelling the library has for something else, and two that port.py splits
OWN = {"bit-and": "bit_of_and", "bit-or": "bit_of_or", "get_d-front": "get_or_front", "get_d-any": "get_or_any"}


def files(*ends):
    for folder, dirs, names in os.walk("crates"):
        dirs[:] = sorted(d for d in dirs if d not in ("out", "must-fail"))
        for f in sorted(names):
            if f.endswith(ends):
                yield os.path.join(folder, f)


def read(path):
    with open(path, encoding="utf-8") as f:
        return f.read()


def respelled(name):
    return OWN.get(name) or name.replace("getD", "get_or").replace("-", "_")


def by_check(path):
    """Whether the check makes the names of this file's answers."""
    return os.path.basename(path) == "Proof.antt"


def imported():
    """Names that come from the kit."""
    found = set()
    for p in files(".antt", ".rt"):
        for m in re.finditer(r"use (?!Rattle\.(?!std))[\w.]+\.\{([^}]*)\}", read(p)):
            found |= {part.strip().split(" as ")[0] for part in m.group(1).split(",")}
    return found


def declared():
    found = set()
    for p in files(".antt"):
        if by_check(p):
            continue
        for line in read(p).split("\n"):
            m = DECLARED.match(line)
            if m and ("-" in m.group(1) or "getD" in m.group(1)):
                found.add(m.group(1))
    return found


def in_text(text, names, quoted):
    """The text with these names respelled; where `quoted`, only between backquotes."""
    def swap(m):
        return respelled(m.group(0)) if m.group(0) in names else m.group(0)
    if not quoted:
        return NAME.sub(swap, text)
    return re.sub(r"`[^`\n]*`", lambda m: NAME.sub(swap, m.group(0)), text)


def in_code(text, names, comment):
    """The same of a file of code: its comments only between backquotes, its strings not at all."""
    lines = []
    for line in text.split("\n"):
        at = line.find(comment) if comment == "//" else (0 if line.lstrip().startswith("--") else line.find(" -- "))
        code, rest = (line, "") if at < 0 else (line[:at], line[at:])
        parts = re.split(r'("(?:[^"\\]|\\.)*")', code) if comment == "//" else [code]
        code = "".join(x if i % 2 else in_text(x, names, False) for i, x in enumerate(parts))
        lines.append(code + in_text(rest, names, True))
    return "\n".join(lines)


def moved(text):
    for old, new in MODULES.items():
        text = re.sub(r"(?<=specs[./])" + old + r"(?=[./`])", new, text)
        text = re.sub(r"(?m)^(pub mod )" + old + "$", r"\g<1>" + new, text)
    return text


names = (declared() | set(LOCAL)) - imported()
texts = {}
for p in files(".antt", ".rt"):
    old = read(p)
    comment = "//" if p.endswith(".rt") else "--"
    new = moved(in_code(old, names, comment))
    seen = {}
    for m in NAME.finditer(old):
        if m.group(0) in names or "-" not in m.group(0):
            to = respelled(m.group(0)) if m.group(0) in names else m.group(0)
            if p.endswith(".antt") and seen.setdefault(to, m.group(0)) != m.group(0):
                print(f"together: {p}: {seen[to]} and {m.group(0)}")
                seen[to] = m.group(0)
    texts[p] = new
pages = ["README.md"] + [os.path.join(d, f) for d, _, fs in os.walk("docs") for f in sorted(fs) if f.endswith(".md") and f != "PORT.md"]
known = {m.group(0) for p, t in texts.items() if not by_check(p) for m in NAME.finditer(t)}


def page(text):
    """A page cites names as they were before port.py too: one that stands in no file any more takes today's spelling where that stands in one."""
    def swap(m):
        name = m.group(0).replace("′", "'")
        to = respelled(name)
        return to if "-" in name and name not in known and to in known else m.group(0)
    return moved(re.sub(r"`[^`\n]*`", lambda m: NAME.sub(swap, m.group(0)), text))


for p in pages:
    texts[p] = page(read(p))
count = 0
for p, new in texts.items():
    if new != read(p):
        count += 1
        with open(p, "w", encoding="utf-8") as f:
            f.write(new)
for folder, dirs, fs in list(os.walk("crates")):
    if os.path.basename(folder) == "specs":
        for old, new in MODULES.items():
            for name in (old, old + ".antt"):
                here = os.path.join(folder, name)
                if os.path.exists(here):
                    subprocess.run(["git", "mv", here, os.path.join(folder, name.replace(old, new))], check=True)
print(f"{len(names)} names, {count} files")
