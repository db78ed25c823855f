#!/usr/bin/env python3
"""Counts the places of docs/DESIGN-PASS.md in the sources of a tree.

usage: tools/design.py [FOLDER] [-v]

FOLDER holds crates/ (the folder at hand if none is given); for a commit: git worktree add FOLDER COMMIT. With -v each place is printed.
"""
import collections
import pathlib
import re
import sys

argv = [a for a in sys.argv[1:] if a != "-v"]
verbose = "-v" in sys.argv
top = pathlib.Path(argv[0] if argv else ".") / "crates"


def sources():
    for path in sorted(top.glob("*/src/**/*.rt")):
        yield path, path.read_text()


def functions():
    """Each function: file, name, signature, clauses, body."""
    head = re.compile(r"^( *)(?:pub(?:\([a-z]+\))? )?(?:const )?fn ([a-z_0-9]+)", re.M)
    for path, text in sources():
        found = list(head.finditer(text))
        for m in found:
            end = re.compile(r"^%s\}" % m[1], re.M).search(text, m.end())
            whole = text[m.start(): end.end() if end else len(text)]
            parts = re.split(r"\n%s\{\n|\) \{\n|[a-zA-Z0-9>\]] \{\n" % m[1], whole, maxsplit=1)
            clauses = re.findall(r"^ *(requires|ensures)(?: [a-z_0-9]+)? \{ (.*) \}$", parts[0], re.M)
            yield path, m[2], parts[0], clauses, parts[1] if len(parts) > 1 else ""


def show(point, what, places):
    print(f"{point} {what}: {len(places)}")
    if verbose:
        for p in places:
            print("    ", p)


def lines(pattern):
    out = []
    for path, text in sources():
        for n, line in enumerate(text.split("\n"), 1):
            if re.search(pattern, line) and not line.lstrip().startswith(("//", "requires", "ensures", "ghost")):
                out.append(f"{path.relative_to(top)}:{n}: {line.strip()[:110]}")
    return out


all_functions = list(functions())

# 1: a number that says what is refused, where none is said by 0; a flag with a value beside it; enums without derives
show("1a", "fields and results that hold a refusal's number", lines(r"^\s*(pub )?(refusal|place): (u64|usize|u32),|fn .*-> u64 *$|let mut refusal\b|refusal != 0|number != 0\b"))
show("1b", "flags with a value beside them in structs", lines(r"^\s*pub (sees|found|set|is_some|has_[a-z]+): bool,"))
enums = []
for path, text in sources():
    for m in re.finditer(r"(#\[derive\([^)]*\)\]\n)?^(pub )?enum ([A-Za-z]+)", text, re.M):
        if not m[1] or "PartialEq" not in m[1]:
            enums.append(f"{path.relative_to(top)}: {m[3]}")
show("1c", "enums without derived equality", enums)

# 2: functions of one body, when numbers, widths and the names of types and of the functions themselves are left aside
bodies = collections.defaultdict(list)
for path, name, head, clauses, body in all_functions:
    plain = re.sub(r"\b(u8|u16|u32|u64|usize|i32|i64|Vector|Table|Basis|VectorRow|TableRow|WIDTH|[0-9]+)\b", "#", body)
    plain = re.sub(r"\s+", " ", plain)
    if len(plain) > 60:
        bodies[plain].append(f"{path.relative_to(top)}: {name}")
show("2", "functions whose body stands elsewhere too", [p for ps in bodies.values() if len(ps) > 1 for p in ps])

# 3: loops that count by hand
show("3a", "while loops with a count of their own", lines(r"^\s*while .*[<>]"))
show("3b", "for loops over a range of indices", lines(r"^\s*for [a-z_]+ in .*\.\."))
show("3c", "for loops over things", [p for p in lines(r"^\s*for .* in ") if ".." not in p.split(" in ", 1)[1] or "[.." in p or "]" in p.split(" in ", 1)[1]])

# 4: comparing, copying and converting by hand
show("4a", "copies into a name before a use", lines(r"^\s*let ([a-z_]+) = [a-z_]+\.\1;"))
show("4b", "rows taken out one by one", lines(r"^\s*\[?[a-z]+\[0\](\.at)?, [a-z]+\[1\]|at: [a-z]+\[0\] \}"))
show("4c", "casts that could be From", lines(r" as (u64|u32|usize|i64)\b"))

# 5: facts that three or more contracts repeat, in one crate
facts = collections.defaultdict(list)
for path, name, head, clauses, body in all_functions:
    crate = path.relative_to(top).parts[0]
    for kind, text in clauses:
        if kind == "requires":
            facts[crate, text].append(name)
show("5a", "requires clauses that stand in three or more functions of a crate", [f"{c}: {t} ({len(n)})" for (c, t), n in sorted(facts.items()) if len(n) > 2])
show("5b", "clauses that tell the length of an array", [f"{path.relative_to(top)}: {name}" for path, name, head, clauses, body in all_functions for k, t in clauses if re.fullmatch(r"length [a-z_.]+ ≡ (4|8|[a-z_]+)", t)])

# 6: an array with a count beside it
counted = []
for path, name, head, clauses, body in all_functions:
    first = head.split("\n    requires")[0].split("\n    ensures")[0]
    if re.search(r"\b(count|len|n): usize", first) and re.search(r": &?(mut )?\[", first):
        counted.append(f"{path.relative_to(top)}: {name}")
show("6", "functions that take an array and a count", counted)

# 7: a switch on which step to run
show("7", "parameters that choose a step", lines(r"fn .*\b(which|mode|kind|step): (u64|usize|u8|bool)"))

# 8: proofs
answers = list(top.glob("*/proofs/**/Answers.antt"))
print("8 files of answers:", len(answers), "lines:", sum(len(p.read_text().split("\n")) for p in answers))
print("  lines of sources:", sum(len(t.split("\n")) for _, t in sources()), "lines of specs/:", sum(len(p.read_text().split("\n")) for p in top.glob("*/specs/**/*.antt")))
