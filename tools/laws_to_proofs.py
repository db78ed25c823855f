#!/usr/bin/env python3
"""Writes the paths of the theorems that moved from specs/ to proofs/ of the crates of rules, in every crate. A second run changes nothing."""
import os
import re
import sys

CRATES = "catalogue_rules fold_rules separation_rules merge_rules".split()
PATH = re.compile(r"Rattle\.(%s)\.specs\.(Laws|Demand|Moved)(?![\w])" % "|".join(CRATES))

for root, folders, names in os.walk(os.path.join(sys.argv[1] if len(sys.argv) > 1 else ".", "crates")):
    folders[:] = [f for f in folders if f != "out"]
    for name in names:
        if name.endswith((".antt", ".rt", ".edit")):
            path = os.path.join(root, name)
            with open(path, encoding="utf-8") as f:
                text = f.read()
            new = PATH.sub(lambda m: f"Rattle.{m[1]}.proofs.{m[2]}", text)
            if new != text:
                with open(path, "w", encoding="utf-8") as f:
                    f.write(new)
