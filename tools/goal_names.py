#!/usr/bin/env python3
"""Brings the names of goals and steps in Answers.antt and Invariants.antt to today's spelling.

usage: python3 tools/goal_names.py        at the top of the repository, after snake_case.py

A name from src/ keeps its underscores, and the toolchain's own words of two parts are joined by one.
"""
import os
import re

from snake_case import GOAL_FILES, TOKEN, code_of, files, library_names, read

WORDS = [r"overflow-(add|sub|mul|shl|shr|cast|neg|step)", r"offset-(bounds)", r"slice-(bounds)", r"nonzero-(div|rem)", r"in-(err|ok|default)", r"invariant-(of)", r"type-(inv)"]


def source_names(top):
    names = set()
    for path in files(top):
        if path.endswith(".rt"):
            for name in re.findall(r"[A-Za-z][A-Za-z0-9]*(?:_[A-Za-z0-9]+)+", read(path)):
                names.add(name)
    return sorted(names, key=len, reverse=True)


def turned(token, names):
    for name in names:
        token = re.sub(r"(^|-)" + re.escape(name.replace("_", "-")) + r"(?=$|-)", lambda m: m.group(1) + name, token)
    for word in WORDS:
        token = re.sub(r"(^|-)" + word + r"(?=$|-)", lambda m: m.group(0)[: len(m.group(0)) - len(m.group(2)) - 1] + "_" + m.group(2), token)
    return token


def main():
    top = os.getcwd()
    names, library = source_names(top), library_names()
    for path in files(top):
        if os.path.basename(path) not in GOAL_FILES:
            continue
        text = read(path)
        table = {t: turned(t, names) for t in set(TOKEN.findall(text)) if "-" in t and t not in library and not t.startswith("-")}
        new = TOKEN.sub(lambda m: table.get(m.group(0), m.group(0)), text)
        if new != text:
            for t in sorted(table):
                if table[t] != t:
                    print(os.path.relpath(path, top), t, table[t])
            with open(path, "w", encoding="utf-8") as f:
                f.write(new)


if __name__ == "__main__":
    main()
