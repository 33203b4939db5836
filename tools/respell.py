#!/usr/bin/env python3
"""Brings the repository's own names in specs/ and proofs/ to today's spelling.

usage: python3 tools/respell.py [FOLDER]     (run once, after /opt/rattle/port/port.py, on the repository in FOLDER or here)

Types, records and facts are in upper camel case. Every other name is in snake case; a dash stays only between two names
of functions, as in `readings-append`. Names of src/ (functions, types, fields, clauses) and names that Rattle makes in
proof files stay as they are. Comments stay too. Names that fall together are printed, and then nothing is written.
"""

import collections
import os
import re
import sys

# Words of the library that a lemma's name may join to one of ours by a dash.
LIBRARY = {"append", "take", "drop", "set", "length", "map", "filter", "reverse"}
HEAD = re.compile(r"^(?:(abbrev pub|unfoldable pub|abbrev|unfoldable|pub)\s+)?([^\s(){}:;,.]+)\s*:\s*(.*)$")
BLOCK = re.compile(r"^(?:pub )?(?:open )?(record|data) ([^\s(){}:]+)")
MEMBER = re.compile(r"^  (?:pub )?([^\s:{}()]+(?: [^\s:{}()]+)*)\s*:")
TOKEN = re.compile(r"[^\s(){}\[\],;.:∷λ⌜⌝⟦⟧|\\]+")


def files(root, *endings):
    for folder, dirs, names in os.walk(os.path.join(root, "crates")):
        dirs[:] = sorted(d for d in dirs if d != "out")
        for name in sorted(names):
            if name.endswith(endings):
                yield os.path.join(folder, name)


def declared(root):
    """Each name that a file of specs/ or proofs/ declares, with what it is: type, function, lemma or member."""
    kinds = collections.defaultdict(set)
    for path in files(root, ".antt"):
        with open(path, encoding="utf-8") as f:
            lines = f.read().split("\n")
        block = None
        for i, line in enumerate(lines):
            m = BLOCK.match(line)
            if m:
                block = m.group(1)
                kinds[m.group(2)].add("type")
            elif line and not line.startswith(" "):
                block = None
                m = HEAD.match(line)
                if not m or line.startswith(("--", "use ")):
                    continue
                what = m.group(3)
                if what.startswith("goal."):
                    continue
                for more in lines[i + 1:]:
                    if not more.startswith(" "):
                        break
                    what += " " + more.strip()
                fact = re.search(r"Type 0\s*$", what)
                made = (m.group(1) or "").startswith(("abbrev", "unfoldable"))
                kinds[m.group(2)].add("type" if fact else "function" if made else "lemma")
            elif block:
                m = MEMBER.match(line)
                for name in m.group(1).split() if m else []:
                    kinds[name].add("member")
    return kinds


def camel(name):
    return "".join(part[:1].upper() + part[1:] for part in name.split("-"))


def snake(name, functions):
    parts = name.split("-")
    for cut in range(1, len(parts)):
        left, right = "_".join(parts[:cut]), "_".join(parts[cut:])
        if left in functions and right in functions:
            return left + "-" + right
    return "_".join(parts)


def respelled(kinds):
    functions = LIBRARY | {n.replace("-", "_") for n, ks in kinds.items() if "function" in ks}
    new = {}
    for name, ks in kinds.items():
        if "-" not in name:
            continue
        if "type" in ks:
            new[name] = camel(name)
        elif ks == {"lemma"}:
            new[name] = snake(name, functions)
        else:
            new[name] = name.replace("-", "_")
    return {a: b for a, b in new.items() if a != b}


def turned(line, new, kinds, comment):
    """A line with its names turned; text after a comment's mark stays."""
    at = line.find(comment)
    while at > 0 and not line[:at].endswith((" ", "\t")):
        at = line.find(comment, at + 1)
    code, rest = (line, "") if at < 0 else (line[:at], line[at:])

    def one(m):
        name = m.group(0)
        if name not in new:
            return name
        before = code[: m.start()]
        if before.endswith(".") and "member" not in kinds[name]:
            # a lemma behind a module's path, and no step of a proof, which only has the name in common
            owner = re.search(r"([^\s(){}\[\],;:]*)\.$", before).group(1).split(".")[-1]
            if not owner[:1].isupper():
                return name
        return new[name]

    return TOKEN.sub(one, code) + rest


def main(argv):
    root = argv[0] if argv else "."
    kinds = declared(root)
    new = respelled(kinds)
    back = collections.defaultdict(set)
    for name in kinds:
        back[new.get(name, name)].add(name)
    met = {b: a for b, a in back.items() if len(a) > 1}
    if met:
        for b, a in sorted(met.items()):
            print(f"fall together: {', '.join(sorted(a))} would all be {b}")
        return 1
    n = 0
    for path in files(root, ".antt", ".rt", ".edit"):
        with open(path, encoding="utf-8") as f:
            text = f.read()
        comment = "--" if path.endswith(".antt") else "//"
        after = "\n".join(turned(line, new, kinds, comment) for line in text.split("\n"))
        if after != text:
            n += 1
            with open(path, "w", encoding="utf-8") as f:
                f.write(after)
    print(f"{len(new)} names respelled in {n} files")
    return 0


if __name__ == "__main__":
    raise SystemExit(main(sys.argv[1:]))
