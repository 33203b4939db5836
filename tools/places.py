#!/usr/bin/env python3
"""Lists the places in crates/*/src that a newer form of the language might say better, a count for each kind of place.

usage: tools/places.py [ROOT] [-v]      (-v prints each place)

It goes by text, so a place it lists is one to look at, not one to change: docs/DESIGN-PASS.md says what became of each.
"""
import glob, os, re, sys
from collections import defaultdict

verbose = "-v" in sys.argv
roots = [a for a in sys.argv[1:] if a != "-v"]
root = roots[0] if roots else os.path.join(os.path.dirname(__file__), "..")
files = sorted(glob.glob(os.path.join(root, "crates/*/src/*.rt")))
lines = [(os.path.relpath(f, os.path.join(root, "crates")).replace("/src/", "/"), n, line.rstrip("\n"))
         for f in files for n, line in enumerate(open(f), 1)]
code = [(f, n, l) for f, n, l in lines if not l.lstrip().startswith("//")]


def show(kind, found):
    print(f"{len(found):4}  {kind}")
    if verbose:
        for f, n, l in found:
            print(f"        {f}:{n}: {l.strip()[:110]}")


def grep(kind, pattern, without=None):
    show(kind, [(f, n, l) for f, n, l in code if re.search(pattern, l) and not (without and re.search(without, l))])


def functions():
    """Each function as (file, line, name, head): the head is all from `fn` to its body or `;`."""
    for f in files:
        text = open(f).read()
        for m in re.finditer(r"\bfn (\w+)", text):
            end = re.compile(r"\n\s*(ensures|requires|\{)|;\n|\{\n").search(text, m.end())
            yield (os.path.relpath(f, os.path.join(root, "crates")).replace("/src/", "/"),
                   text.count("\n", 0, m.start()) + 1, m.group(1), text[m.start():end.start() if end else m.end()])


KEYWORDS = set("as break const continue else enum fn for if impl in let loop match mut pub ref return self Self struct trait type use where while true false Ok Err Some None".split())


def bodies():
    """Each function with a body as (file, line, name, the body's tokens); clauses are left out."""
    for f in files:
        text = open(f).read()
        short = os.path.relpath(f, os.path.join(root, "crates")).replace("/src/", "/")
        for m in re.finditer(r"^( *)(?:pub(?:\(crate\))? )?(?:final )?fn (\w+)", text, re.M):
            rest = text[m.end():]
            end = re.search(rf"^{m.group(1)}\}}", rest, re.M)
            head = re.search(rf"^{m.group(1)}\{{$|\{{$", rest, re.M)
            if not end or not head or head.start() > end.start() or re.search(r";\n|\{\}\n", rest[:head.start()]):
                continue  # declared without a body, or with an empty one
            body = re.sub(r"//[^\n]*", "", rest[head.end():end.start()])
            yield short, text.count("\n", 0, m.start()) + 1, m.group(2), re.findall(r"\w+|[^\w\s]", body)


def twins(exact=False):
    groups = defaultdict(list)
    for f, n, name, tokens in bodies():
        if len(tokens) < (8 if exact else 20):
            continue
        shape = tokens if exact else [t if not re.match(r"\w", t) or t in KEYWORDS else "x" for t in tokens]
        groups[" ".join(shape)].append((f, n, name))
    return [place for _, places in sorted(groups.items(), key=lambda g: g[1]) if len(places) > 1 for place in places]


print("point 1: enums, flags, numbers")
grep("enums declared", r"^\s*(pub(\(crate\))? )?enum ")
show("functions that answer with a u8, or a tuple that begins with one",
     [(f, n, name) for f, n, name, head in functions() if re.search(r"-> \(?u8\b", head)])
show("functions on &mut self that answer with a bool",
     [(f, n, name) for f, n, name, head in functions() if "&mut self" in head and "-> bool" in head])
grep("casts of an enum to u8", r"\bas u8\b")
print("point 2: twins")
show("functions whose body has another's shape (the same tokens but for names, types, numbers), of 20 tokens or more", twins())
show("functions whose body is another's, word for word", twins(exact=True))
print("point 3: loops that count")
grep("while loops", r"^\s*while ")
grep("for loops over a range", r"\bfor \w+ in .*\.\.")
grep("steps by one", r"\+= 1;|= \w+ \+ 1;|saturating_add\(1\)")
print("point 4: equality, order, conversion, printing")
grep("functions that compare, number or put in words", r"\bfn (same\w*|compare|number|words_of|write_fault|\w+_text|comes_before|is_row)\b")
grep("arms that only pass None, Ok or Err on", r"None => None|None => Ok\(None\)|None => false|Ok\(\(\)\) => Ok|Some\((\w+)\) => Some\(\1|None => Err\(|Err\(_\) =>|None => return None")
grep("faults built with place 0", r"^\s*place: 0,")
print("point 5: parameters that travel together, facts said again")
pairs = defaultdict(set)
for f, n, name, head in functions():
    ps = re.findall(r"(\w+): ([^,()]+?)\s*[,)]", head)
    ps = sorted({p for p, _ in ps})
    for i, a in enumerate(ps):
        for b in ps[i + 1:]:
            pairs[(a, b)].add((f, n, name))
together = sorted(((len(v), k) for k, v in pairs.items() if len(v) >= 6), reverse=True)
print(f"{len(together):4}  pairs of parameters in six or more functions: " + ", ".join(f"{a}+{b} {c}" for c, (a, b) in together))
for head in ["Went", "Overran", "Sent", "Missed", "Handled"]:
    c = sum(len(re.findall(rf"\b{head} ", l)) for _, _, l in code)
    print(f"{c:4}  times `{head}` in clauses")
print(f"{sum(len(l) for _, _, l in code if len(l) > 300):4}  characters in lines longer than 300")
print("point 6: tables with a length, parallel tables, hand-made searches")
grep("fields that are tables", r"^\s*(pub(\(crate\))? )?\w+: \[[A-Za-z]\w*; \w+\],")
grep("fields that count the places in use", r"^\s*(pub(\(crate\))? )?(len|rows): (usize|u8),")
grep("searches by halving", r"/ 2;")
print("point 7: steps and tables of functions")
grep("dyn, function pointers", r"\bdyn \b|: fn\(")
grep("matches on a flag", r"match (flag|step|phase|mode)\b")
print("point 8: proofs")
for kind, pattern in [("answers and invariants", "crates/*/proofs/**/[AI]n*.antt"), ("lemma files in proofs/", "crates/*/proofs/*.antt"), ("files in specs/", "crates/*/specs/*.antt")]:
    found = glob.glob(os.path.join(root, pattern), recursive=True)
    print(f"{len(found):4}  {kind}, {sum(open(f).read().count(chr(10)) for f in found)} lines")
