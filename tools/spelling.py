#!/usr/bin/env python3
"""Brings the repository's own definitions and lemmas to today's spelling: words in snake case, a dash only where it joins two names.

usage: python3 tools/spelling.py [--check]      at the top of the repository; --check writes nothing and prints the table

The names are those that specs/ and the lemma files of proofs/ declare. A name in lower camel case turns to snake case (`mostVectors` to
`most_vectors`). A dash stays where both its sides are names of definitions or hold a symbol (`length-vectors_of`), and else becomes `_`
(`first_kept`). Types, facts and modules keep their capitals, functions of src/ keep their names. A name whose new spelling is declared
already keeps its dashes. A second run changes nothing."""
import collections
import os
import re
import sys

WORD = re.compile(r"[^\s(){}\[\].;,@\"«»`]+")
DECLARED = re.compile(r"^( *)((?:abbrev |pub |unfoldable |opaque )*)(record |data |enum )?((?:[^\s(){}:;,.\"]+ )*?[^\s(){}:;,.\"]+) : ")
STD = set(
    "take drop map append length get_or replicate set sets reverse slice zero suc pos negsuc sum nat_abs min max filter concat all any not and or "
    "cond size index get insert remove fold zip dot nth at add mul sub neg div mod pow lt_z le_z".split())
# a lemma that would have its function's name gets `_lem`: the crates where it stands or is cited
LEMMAS = [
    ("isMember", "is_member", "is_member_lem", ["successive_minima", "greedy_reduction", "lattice_membership"]),
    ("firstAlike", "first_alike", "first_alike_lem", ["catalogue_standing"]),
    ("zeroRow", "zero_row", "zero_row_lem", ["engine"]),
    ("headIn", "head_in", "head_in_lem", ["catalogue_rules"]),
    ("atHead", "at_head", "at_head_lem", ["catalogue_rules"]),
]
CAMEL = re.compile(r"(?<=[a-z0-9])(?=[A-Z])|(?<=[a-zA-Z])(?=ℤ$)")
PLAIN = re.compile(r"^[A-Za-z0-9_']+$")


def files(top):
    for root, folders, names in os.walk(os.path.join(top, "crates")):
        folders[:] = sorted(f for f in folders if f not in ("out", "must-fail"))
        for name in sorted(names):
            if name.endswith((".antt", ".rt")):
                yield os.path.join(root, name)


def pages(top):
    """The pages, the list of definitions, and the must-fail edits, whose lines old: and new: turn as a file of clauses does."""
    yield os.path.join(top, "README.md")
    for root, folders, names in os.walk(os.path.join(top, "docs")):
        for name in sorted(names):
            if name.endswith((".md", ".txt")):
                yield os.path.join(root, name)
    for root, folders, names in os.walk(os.path.join(top, "crates")):
        for name in sorted(names):
            if name.endswith(".edit"):
                yield os.path.join(root, name)


# lines of a page that is no prose
TURNS = re.compile(r"(old|new):| *[0-9]+ crates?|\s*[0-9]+ [a-z_]+/specs/")


def is_lemma_file(path):
    """specs/, and the files of proofs/ that are no function's."""
    if not path.endswith(".antt") or os.path.basename(path) == "Lib.antt":
        return False
    return os.sep + "specs" + os.sep in path or os.path.basename(path) not in ("Proof.antt", "Answers.antt", "Invariants.antt")


def code_of(line):
    return re.split(r"(?<![^\s(){};,])--", line, 1)[0]


def declarations(top):
    found = collections.defaultdict(set)
    for path in files(top):
        if not is_lemma_file(path):
            continue
        with open(path, encoding="utf-8") as f:
            for line in f:
                hit = DECLARED.match(code_of(line))
                if hit:
                    for name in hit.group(4).split():
                        found[name].add(path)
    return found


def snake(word):
    """A word without dashes, in snake case; a capital at the head stays (types and facts)."""
    if not PLAIN.match(word) or word[:1].isupper():
        return word
    parts = CAMEL.split(word)
    return "_".join(p[:1].lower() + p[1:] if p[1:2].islower() or len(p) == 1 else p.lower() for p in parts)


def foreign(top):
    """Names that some file takes from a module outside of the repository: they are not the repository's to spell."""
    own = set(os.listdir(os.path.join(top, "crates")))
    found = set()
    for path in files(top):
        with open(path, encoding="utf-8") as f:
            for module, group in re.findall(r"use ([^\s{;]+)\.\{([^}]*)\}", f.read()):
                if not (module.startswith("Rattle.") and module.split(".")[1] in own):
                    found |= {item.strip().split(" as ")[0].strip() for item in group.split(",")}
    return found


def table(top):
    found = declarations(top)
    for name in foreign(top):
        found.pop(name, None)
    plain = {snake(n) for n in found if "-" not in n} | STD
    rows = {}
    for name in found:
        if name[:1].isupper() and "-" not in name:
            continue
        parts = name.split("-")
        if "" in parts:
            continue
        new = snake(parts[0])
        for left, right in zip(parts, parts[1:]):
            a, b = snake(left), snake(right)
            names = all(w in plain or not PLAIN.match(w) or w[:1].isupper() for w in (a, b))
            new += ("-" if names else "_") + b
        if new != name:
            rows[name] = new
    # names that would fall together keep their dashes
    taken = collections.defaultdict(set)
    for name in found:
        taken[rows.get(name, name)].add(name)
    for new, olds in taken.items():
        if len(olds) > 1:
            for old in olds:
                if "-" in old:
                    rows[old] = "-".join(snake(p) for p in old.split("-"))
                    if rows[old] == old:
                        del rows[old]
    return rows, found


def in_clauses(text):
    """The spans of a source file that hold names of specs: ghost use items, and the braces of clauses."""
    spans = []
    for hit in re.finditer(r"ghost use [^;]*;", text):
        spans.append(hit.span())
    for hit in re.finditer(r"(?:^|\s)(?:requires|ensures|ghost)\s*\*?\s*(?:\w+\s*:?\s*)?\{", text):
        depth, i = 1, hit.end()
        while i < len(text) and depth:
            depth += {"{": 1, "}": -1}.get(text[i], 0)
            i += 1
        spans.append((hit.end(), i))
    for hit in re.finditer(r"//[^\n]*", text):
        for span in re.finditer(r"`[^`\n]*`", hit.group()):
            spans.append((hit.start() + span.start(), hit.start() + span.end()))
    return sorted(spans)


def turned(text, rows):
    return WORD.sub(lambda m: rows.get(m.group(), m.group()), text)


def turned_antt(text, rows):
    out = []
    for line in text.split("\n"):
        code = code_of(line)
        rest = line[len(code):]
        rest = re.sub(r"`[^`]*`", lambda m: turned(m.group(), rows), rest)
        rest = WORD.sub(lambda m: rows[m.group()] if m.group() in rows and re.search(r"[a-z][A-Z]", m.group()) else m.group(), rest)
        pieces = re.split(r'("(?:[^"\\]|\\.)*")', code)
        out.append("".join(p if i % 2 else turned(p, rows) for i, p in enumerate(pieces)) + rest)
    return "\n".join(out)


def turned_rt(text, rows):
    out, last = [], 0
    for a, b in in_clauses(text):
        if a < last:
            continue
        out += [text[last:a], turned(text[a:b], rows)]
        last = b
    return "".join(out) + text[last:]


def main():
    top = os.getcwd()
    rows, found = table(top)
    if "--check" in sys.argv:
        for old in sorted(rows):
            print(old, rows[old])
        return
    count = 0
    for path in files(top):
        with open(path, encoding="utf-8") as f:
            text = f.read()
        crate = path.split(os.sep + "crates" + os.sep)[1].split(os.sep)[0]
        here = dict(rows)
        here.update({old: new for first, old, new, crates in LEMMAS if first in found and crate in crates})
        new = turned_antt(text, here) if path.endswith(".antt") else turned_rt(text, here)
        if new != text:
            count += 1
            with open(path, "w", encoding="utf-8") as f:
                f.write(new)
    for path in pages(top):
        with open(path, encoding="utf-8") as f:
            text = f.read()
        if path.endswith(".md"):
            new = re.sub(r"`[^`\n]*`", lambda m: m.group() if " = " in m.group() else turned(m.group(), rows), text)
        else:
            new = "\n".join(turned(line, rows) if TURNS.match(line) else line for line in text.split("\n"))
        if new != text:
            count += 1
            with open(path, "w", encoding="utf-8") as f:
                f.write(new)
    print(f"spelling: {len(rows)} names, {count} files")


if __name__ == "__main__":
    main()
