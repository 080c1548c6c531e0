#!/usr/bin/env python3
"""Respells this repository's own definitions and lemmas: words in snake case, types in camel case.

usage: python3 tools/respell.py [--list]     at the top; --list writes nothing and prints old and new names

Only names that a file of specs/ or proofs/ defines are turned; names that Rattle makes of the
code (goals, steps) and those of its library stay. Comments and texts in quotes stay too.
"""
import os
import re
import sys

NAME = r"[^\W\d][\w']*(?:-[\w'≤≈+·]+)*"
TOKEN = re.compile(r"[\w'≤≈+·]+(?:-[\w'≤≈+·]+)+")
SIGNED = re.compile(r"^\s*(?:(?:abbrev|unfoldable|pub|axiom)\s+)*(" + NAME + r"(?:\s+" + NAME + r")*)\s+:(?=\s|$)")
HEADED = re.compile(r"^\s*(?:pub\s+)?(?:record|data|module|ruleset)\s+(" + NAME + r")")
ALIAS = re.compile(r"\bas\s+(" + NAME + r")\s*[,}]")
MADE = re.compile(r"\b(?:goal|given)\.(" + NAME + r")")


def files(root, ends):
    for folder, dirs, names in os.walk(os.path.join(root, "crates")):
        dirs[:] = sorted(d for d in dirs if d not in ("out", ".git"))
        for n in sorted(names):
            if n.endswith(ends):
                yield os.path.join(folder, n)


def code(line, mark):
    """The line's code, and the comment after it."""
    m = re.search(r"(?:^|\s)" + mark, line)
    return (line[: m.start()], line[m.start():]) if m else (line, "")


def turned(name):
    parts = name.split("-")
    if parts[0][:1].isupper():
        return parts[0] + "".join(p[:1].upper() + p[1:] for p in parts[1:])
    return "_".join(parts)


def names(root):
    found, made = set(), set()
    for path in files(root, (".antt",)):
        for line in open(path, encoding="utf-8"):
            text = code(line, "--")[0]
            made.update(MADE.findall(text))
            if re.match(r"\s*(?:pub\s+)?use\b", text):
                found.update(ALIAS.findall(text))
                continue
            m = HEADED.match(text)
            if m:
                found.add(m.group(1))
                continue
            m = SIGNED.match(text)
            if m and not re.match(r"\s*let\b", text):
                found.update(m.group(1).split())
    return {n for n in found - made if "-" in n}


def respell(text, names):
    return TOKEN.sub(lambda m: names.get(m.group(0), m.group(0)), text)


def outside_quotes(text, names):
    return "".join(p if i % 2 else respell(p, names) for i, p in enumerate(re.split(r'("(?:[^"\\]|\\.)*")', text)))


def main(argv):
    root = os.getcwd()
    turn = {n: turned(n) for n in sorted(names(root))}
    back = {}
    for old, new in turn.items():
        back.setdefault(new, []).append(old)
    for new, olds in sorted(back.items()):
        if len(olds) > 1:
            print("fall together:", new, olds)
    if "--list" in argv:
        for old, new in turn.items():
            print(old, new)
        return 0
    for path in files(root, (".antt", ".rt")):
        mark = "--" if path.endswith(".antt") else "//"
        lines = open(path, encoding="utf-8").read().split("\n")
        new = []
        for line in lines:
            text, comment = code(line, mark)
            new.append(outside_quotes(text, turn) + comment)
        if new != lines:
            with open(path, "w", encoding="utf-8") as f:
                f.write("\n".join(new))
    return 0


if __name__ == "__main__":
    raise SystemExit(main(sys.argv[1:]))
