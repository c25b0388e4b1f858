#!/usr/bin/env python3
"""Brings the names of this repository's own definitions and lemmas to today's spelling: words in snake case.

usage: python3 tools/respell.py [LIBRARY]      once, at the top, right after the kit's port.py; LIBRARY is the kit's library, by default the one beside the
page that `rt doc` names

A name in lower camel case (`faultOf`) becomes snake case (`fault_of`), and so does one with dashes between words (`valid-fits`), in definitions,
lemmas, fields, local names, contracts and must-fail edits. A name that begins with a capital or a Greek letter keeps its dashes, names of goals
that the checker makes are left alone, and so is a name that the library declares too. A lemma that would get the name of something else gets
`_lem`. Names that still fall together are printed.
"""
import collections
import glob
import os
import re
import subprocess
import sys

LIBRARY = sys.argv[1] if len(sys.argv) > 1 and sys.argv[1] != "--list" else os.path.join(os.path.dirname(subprocess.run(["rt", "doc"], capture_output=True, text=True, check=True).stdout.strip()), "rattle")
TOKEN = re.compile(r"[^\s(){}\[\],;.:\"@`]+")
DECLARES = re.compile(r"^\s*(?:(?:abbrev|unfoldable|pub|opaque|record|data|let|in|where) )*([^\s:(){}∷λ;=.,]+) (?::(?!:)|\(|\{|=(?!=))(.*)$")
INNER = re.compile(r"(?:\blet|λ|,) \(?([^\s:(){}∷λ;=.,]+)(?: :| =|\.)")
CAMEL = re.compile(r"^[a-z][a-z0-9_]*[A-Z]")
GOAL = re.compile(r"\btie\.|\bgoal\.|\bNeed-|\bstatement M\b|\bgiven\.")


def antt(root):
    return sorted(glob.glob(os.path.join(root, "**", "*.antt"), recursive=True))


def text(path):
    with open(path, encoding="utf-8") as f:
        return f.read()


def declared(paths, goals):
    names = set()
    for path in paths:
        for line in text(path).split("\n"):
            if line.startswith("use ") or line.lstrip().startswith("--"):
                continue
            m = DECLARES.match(line)
            if m and (goals or not GOAL.search(m.group(2))):
                names.add(m.group(1))
            names.update(INNER.findall(line))
            m = re.match(r"^use \S+ as (\S+)$", line)
            if m:
                names.add(m.group(1))
    return names


def snake(name):
    name = name.replace("-", "_")
    name = re.sub(r"([a-z0-9])([A-Z])(?=[a-z]|$|['_])", lambda m: m.group(1) + "_" + m.group(2).lower(), name)
    return re.sub(r"([a-z0-9])([A-Z])", lambda m: m.group(1) + "_" + m.group(2).lower(), name).lower()


def main():
    ours = antt("crates")
    made = {m.group(1) for p in ours for l in text(p).split("\n") if (m := DECLARES.match(l)) and GOAL.search(m.group(2))}
    own = declared([p for p in ours if "/specs/" in p or "/proofs/" in p], False)
    theirs = set()
    for path in antt(LIBRARY):
        for line in text(path).split("\n"):
            m = re.match(r"^\s*(?:(?:abbrev|unfoldable|pub|opaque|record|data) )*([^\s:(){}∷λ;=.,]+) (?::(?!:)|\(|\{)", line)
            if m:
                theirs.add(m.group(1))
    names = {}
    for path in ours:
        for token in TOKEN.findall(text(path)):
            if CAMEL.match(token) and "-" not in token:
                names[token] = snake(token)
    for name in own:
        if "-" in name.strip("-") and re.match(r"^[a-z]", name) and name not in theirs and name not in made:
            names[name] = snake(name)
    taken = {token for path in ours for token in TOKEN.findall(text(path))} | {new for old, new in names.items() if "-" not in old}
    for old, new in list(names.items()):
        if "-" in old and new in taken:
            names[old] = new + "_lem"
    for path in ours:
        if not path.endswith("/Proof.antt"):
            here = collections.defaultdict(set)
            for token in set(TOKEN.findall(text(path))):
                here[names.get(token, token)].add(token)
            for new, olds in here.items():
                if len(olds) > 1 and new in olds and new in own:
                    names[new] = new + "_lem"
                elif len(olds) > 1:
                    print(f"falls together: {path}: {', '.join(sorted(olds))} -> {new}")
    if "--list" in sys.argv:
        for old, new in sorted(names.items()):
            print(old, new)
        return 0
    changed = 0
    edits = sorted(glob.glob("crates/*/must-fail/*.edit"))
    sources = sorted(glob.glob("crates/*/src/**/*.rt", recursive=True))
    for path in ours + sources + edits:
        old = text(path)
        new = TOKEN.sub(lambda m: names.get(m.group(0), m.group(0)), old) if path.endswith(".antt") else turned(old, names)
        if new != old:
            with open(path, "w", encoding="utf-8") as f:
                f.write(new)
            changed += 1
    print(f"{len(names)} names, {changed} files changed")
    return 0


def turned(source, names):
    """A source file or an edit: every name but those in strings."""
    parts = re.split(r'("(?:[^"\\]|\\.)*")', source)
    return "".join(p if i % 2 else TOKEN.sub(lambda m: names.get(m.group(0), m.group(0)), p) for i, p in enumerate(parts))


if __name__ == "__main__":
    raise SystemExit(main())
