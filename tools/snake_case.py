#!/usr/bin/env python3
"""Brings this repository's own names in specs/, proofs/ and ghost text to today's spelling.

usage: python3 tools/snake_case.py        at the top of the repository, once, after port.py

A definition, a lemma, a field or a variable with dashes gets underscores; a type or a fact (with a capital) becomes camel case.
Names that the toolchain makes (of goals, of steps) and names of its libraries stay. Comments and strings stay.
"""
import collections
import os
import re
import subprocess
import sys

KIT = "/opt/rattle/rattle"
TOKEN = re.compile(r"[A-Za-zℕℤα-ωκ₀-₉0-9_'′◌·-]+")
GOAL_FILES = ("Answers.antt", "Invariants.antt", "Choices.antt", "Proof.antt")
WORD = re.compile(r"[A-Za-z][A-Za-z0-9_'₀-₉-]*-[A-Za-z0-9_'₀-₉-]*$")


def files(top):
    for folder, dirs, names in os.walk(os.path.join(top, "crates")):
        dirs[:] = sorted(d for d in dirs if d != "out")
        for name in sorted(names):
            if name.endswith((".antt", ".rt")):
                yield os.path.join(folder, name)


def read(path):
    with open(path, encoding="utf-8") as f:
        return f.read()


def code_of(text):
    """The text without antt's comments."""
    return re.sub(r"(?m)(^|\s)--(?=\s|$).*$", r"\1", text)


def declared(path):
    """The names with dashes that a file declares or binds."""
    text = code_of(read(path))
    made = os.path.basename(path) in GOAL_FILES
    found = set()
    for m in re.finditer(r"(?m)^[ ]*((?:pub|abbrev|unfoldable|record|data|ruleset)[ ]+)*([^\s(){}.,;]+)[ ]*(?::(?![=])|\(|\{|where)(.*)$", text):
        name, rest = m.group(2), m.group(3)
        if made and re.match(r"\s*(goal|need)\.", rest):
            continue
        found.add(name)
    for m in re.finditer(r"(?:\blet|λ|\()\s*\(?([A-Za-z][\w'₀-₉-]*)(?=[ ,)]*[:=.,) ])", text):
        if "let" in m.group(0) or "λ" in m.group(0):
            found.add(m.group(1))
    for m in re.finditer(r"λ ([^.]*)\.", text):
        found.update(m.group(1).split())
    for m in re.finditer(r"\blet \(([^)]*)\)", text):
        found.update(x.strip() for x in m.group(1).split(","))
    for m in re.finditer(r"\(([a-z][\w'₀-₉ -]*) : ", text):
        found.update(m.group(1).split())
    for m in re.finditer(r"(?m)^ghost use .*$", text):
        for x in re.findall(r" as ([^\s,}]+)", m.group(0)):
            found.add(x)
    if path.endswith(".antt"):
        for m in re.finditer(r"(?m)^use .*$", text):
            for x in re.findall(r" as ([^\s,}]+)", m.group(0)):
                found.add(x)
    return {n for n in found if WORD.match(n)}


def library_names():
    out = subprocess.run(["grep", "-rhoE", "^ *((pub|abbrev|unfoldable|record|data|ruleset) +)*[^ (){}.,;]+ *(:|\\(|\\{)", KIT, "--include=*.antt"], capture_output=True, text=True).stdout
    names = set()
    for line in out.splitlines():
        words = re.sub(r"[:({]", " ", line).split()
        if words:
            names.add(words[-1])
    return names


def new_name(name):
    if name[0].isupper():
        return "".join(w[:1].upper() + w[1:] for w in name.split("-"))
    return name.replace("-", "_")


def turn_tokens(text, table):
    return TOKEN.sub(lambda m: turn_token(m.group(0), table), text)


def turn_token(token, table):
    return table.get(token, token)


def turn_antt(text, table):
    out = []
    for line in text.split("\n"):
        m = re.search(r"(^|\s)--(?=\s|$)", line)
        cut = m.start() if m else len(line)
        out.append(turn_tokens(line[:cut], table) + line[cut:])
    return "\n".join(out)


def turn_rt(text, table):
    out = []
    for line in text.split("\n"):
        if re.match(r"\s*//", line):
            out.append(line)
            continue
        parts = re.split(r'("(?:[^"\\]|\\.)*")', line)
        out.append("".join(p if p.startswith('"') else turn_tokens(p, table) for p in parts))
    return "\n".join(out)


def main():
    top = os.getcwd()
    own = collections.Counter()
    for path in files(top):
        own.update(declared(path))
    library = library_names()
    both = sorted(n for n in own if n in library)
    table = {n: new_name(n) for n in own if n not in library}
    table = {n: t for n, t in table.items() if n != t}
    turned = collections.defaultdict(list)
    for n, t in table.items():
        turned[t].append(n)
    print("names:", len(table))
    print("stay, a library has them:", ", ".join(both))
    print("fall together:", [v for v in turned.values() if len(v) > 1])
    print("a library has the new name:", sorted(t for t in turned if t in library))
    present = collections.defaultdict(set)
    for path in files(top):
        for token in TOKEN.findall(read(path)):
            if token in turned:
                present[token].add(os.path.relpath(path, top))
    print("stand already:")
    for t in sorted(present):
        print("  ", t, sorted(present[t])[:6])
    if "--dry" in sys.argv:
        return
    for path in files(top):
        text = read(path)
        new = turn_antt(text, table) if path.endswith(".antt") else turn_rt(text, table)
        if new != text:
            with open(path, "w", encoding="utf-8") as f:
                f.write(new)


if __name__ == "__main__":
    main()
