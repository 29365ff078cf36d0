#!/usr/bin/env python3
"""Respells the repository's own definitions and lemmas: words in snake case, types in camel case.

usage: python3 tools/respell.py        at the top of the repository, once, after the toolchain's own scripts

It reads which names the files of specs/ and proofs/ declare, and turns each that has a dash, at every place that is
no comment, text or import of another library. Names of src/, generated names and local variables stay. Names that
would fall together are told and left.
"""
import re
import sys
from pathlib import Path

NAME = r"[A-Za-z_][\w'\u2032]*(?:-[\w'\u2032]+)+"
TOKEN = re.compile(r"(?<![\w'\u2032-])" + NAME + r"(?![\w'\u2032-])")
WORD = re.compile(r"(?<![\w'\u2032-])[A-Za-z_][\w'\u2032-]*")
DECLARED = re.compile(r"^\s*(?:(?:pub|abbrev|unfoldable|single|private|opaque|instance)\s+)*((?:[A-Za-z_][\w'\u2032-]*\s+)*[A-Za-z_][\w'\u2032-]*)\s+:(?=\s|$)(?P<type>.*)$")
HEAD = re.compile(r"^\s*(?:(?:pub|abbrev|unfoldable|single|private)\s+)*(?:record|data)\s+(" + NAME + ")")
FOREIGN = re.compile(r"^\s*(?:pub\s+)?(?:ghost\s+)?use\s+(?!Rattle\.(?:OWN)\b)")


def snake(name):
    if name[0].isupper():
        return "".join(part[0].upper() + part[1:] for part in name.split("-"))
    return name.replace("-", "_")


def files(root):
    for path in sorted(root.glob("crates/*/**/*")):
        if path.suffix in (".antt", ".rt") and "out" not in path.parts:
            yield path


def declared(path, text):
    for line in text.split("\n"):
        if line.lstrip().startswith("--"):
            continue
        head = HEAD.match(line)
        if head:
            yield head.group(1)
        m = DECLARED.match(line)
        if m and not re.match(r"\s*(?:goal|need)\.", m.group("type")):
            yield from m.group(1).split()


def turned(line, names, comment):
    at = line.find(comment)
    code, rest = (line, "") if at < 0 else (line[:at], line[at:])
    parts = re.split(r'("(?:[^"\\]|\\.)*")', code)
    code = "".join(p if i % 2 else TOKEN.sub(lambda m: names.get(m.group(0), m.group(0)), p) for i, p in enumerate(parts))
    rest = re.sub(r"`[^`]*`", lambda m: TOKEN.sub(lambda k: names.get(k.group(0), k.group(0)), m.group(0)), rest)
    return code + rest


def main():
    root = Path.cwd()
    own = "|".join(sorted(p.name for p in (root / "crates").iterdir()))
    foreign = re.compile(FOREIGN.pattern.replace("OWN", own))
    texts = {p: p.read_text(encoding="utf-8") for p in files(root)}
    found, every = set(), set()
    for path, text in texts.items():
        if path.suffix == ".antt":
            every.update(declared(path, text))
    words = set()
    for text in texts.values():
        words.update(WORD.findall(text))
    names, taken = {}, {}
    for name in sorted(n for n in every if "-" in n):
        to = snake(name)
        if to in taken:
            print(f"falls together, left: {name} and {taken[to]}")
            continue
        if to in words:
            print(f"stands already as {to}: {name}")
        taken[to] = name
        names[name] = to
    for path, text in texts.items():
        lines = []
        theirs = set()
        for line in text.split("\n"):
            if foreign.match(line):
                theirs.update(n for n in TOKEN.findall(line) if n in names)
        here = {k: v for k, v in names.items() if k not in theirs}
        if theirs:
            print(f"{path.relative_to(root)}: of another library here, left: {', '.join(sorted(theirs))}")
        for line in text.split("\n"):
            lines.append(line if foreign.match(line) else turned(line, here, "--" if path.suffix == ".antt" else "//"))
        new = "\n".join(lines)
        if new != text:
            path.write_text(new, encoding="utf-8")
    print(f"{len(names)} names")


main()
