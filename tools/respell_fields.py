#!/usr/bin/env python3
"""Spells the last fields and constructors of specs/ as today's Rattle does, once, after respell.py, which kept a dash between two names of definitions: a
field has none. And the field `goes_on` of `Between` (crate run), which had met the definition `goes_on`, gets `_lem`, as a lemma of a definition's name.

usage: respell_fields.py    at the top of the repository
"""
import os
import re

NAMES = """same-marks none-past made-turns its-nodes its-choices its-bytes left-right right-left row-places same-places nodes-lent bytes-lent row-lent
comes-to""".split()
WORD = re.compile(r"(?<![^\s(){}.;,@\"«»])(" + "|".join(NAMES) + r")(?=['’]*(?![^\s(){}.;,@\"«»']))")
FIELD = re.compile(r"\.goes_on(?![\w'-])|(?<=pub )goes_on(?= : turns)|(?<![\w.'-])goes_on(?= =\s)")

n = 0
for d, ds, fs in os.walk("crates"):
    ds[:] = sorted(x for x in ds if x not in ("out", ".git"))
    for f in sorted(fs):
        if not f.endswith((".antt", ".rt", ".edit")):
            continue
        p = os.path.join(d, f)
        with open(p, encoding="utf-8") as it:
            old = it.read()
        new = WORD.sub(lambda m: m[1].replace("-", "_"), old)
        if d.startswith("crates/run/") and f.endswith(".antt"):
            new = FIELD.sub(lambda m: m[0] + "_lem", new)
        if new != old:
            n += 1
            with open(p, "w", encoding="utf-8") as it:
                it.write(new)
print(f"respell_fields: {n} files")
