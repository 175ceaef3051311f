#!/usr/bin/env python3
"""Spells the repository's own names as today's Rattle does, once, after port.py.

usage: respell.py [--table FILE]    in the repository, on the tree that port.py left (or, with the table that an earlier run printed, on a copy)

- a name in lower camel case, as isHeading, goes into snake case, as is_heading: definitions, fields and variables alike;
- a dash stays where it joins two names of definitions, as in node_fits-same, and is '_' before a plain word, as in book_back;
- a name keeps its dash where the new spelling stands already in a file that has it ("names that fall together"), and these are printed.
Names of Rust, what Rattle makes (goals, steps, fields behind c., l., tie., goal.) and quoted text stay. The table is written to tools/respelled.tsv.
"""
import collections
import os
import re
import sys

KIT = "/opt/rattle/rattle"
WORD = re.compile(r'[^\s(){}.;,@"«»]+')
DECL = re.compile(r"^( *)(?:abbrev pub |pub abbrev |unfoldable pub |pub data |pub record |pub |abbrev |unfoldable |data |record )?([^\s:(){}\[\],;.]+)(?: \{[^{}\n]*\})*(?: \([^()\n]*\))* :(?: |$)")
CAMEL = re.compile(r"[a-z][^\sA-Z]*[a-z0-9][A-Z]")
PART = re.compile(r"[^`]+")
MADE = ("c", "w", "l", "g", "goal", "tie", "at", "start")


def snake(word):
    if word == "getD":
        return "get_or"
    word = re.sub(r"(?<=[a-z0-9])(?=[A-Z])", "_", word)
    word = re.sub(r"(?<=[a-z])(?=[0-9])", "_", word) if "_" in word else word
    word = re.sub(r"_([A-Z])(?=[A-Z])", lambda m: "_" + m[1] + "_", word)
    return re.sub(r"(?<=_)[A-Z]", lambda m: m[0].lower(), word)


def files(kinds):
    for top in ("crates",):
        for d, ds, fs in os.walk(top):
            ds[:] = sorted(x for x in ds if x not in ("out", ".git"))
            for f in sorted(fs):
                if f.endswith(kinds):
                    yield os.path.join(d, f)


def of_a_function(path):
    return re.search(r"/proofs/.*/", path) is not None


def read(p):
    with open(p, encoding="utf-8") as f:
        return f.read()


def code_words(text):
    quiet = re.sub(r'"(?:[^"\\\n]|\\.)*"|(?<![^\s(){}.;,@"«»])--[^\n]*', " ", text)
    return set(WORD.findall(quiet))


def table_of():
    declared, functions, words = set(), set(), {}
    for p in files((".antt",)):
        t = read(p)
        words[p] = code_words(t)
        if of_a_function(p):
            continue
        for line in t.split("\n"):
            m = DECL.match(line)
            if m:
                declared.add(m[2])
                if "/specs/" in p:
                    functions.add(m[2])
    kit, kit_names = set(), set()
    for d, ds, fs in os.walk(KIT):
        for f in fs:
            if f.endswith(".antt"):
                t = read(os.path.join(d, f))
                kit.update(w for w in WORD.findall(t) if CAMEL.match(w))
                if os.path.join(d, f).endswith(("/std/specs/Prelude.antt", "/core/specs/Prelude.antt", "/std/specs/List.antt", "/core/specs/List.antt")):
                    kit_names.update(w for w in WORD.findall(t) if re.fullmatch(r"[a-z_]+", w))
    kit_names -= {"use", "pub", "from", "in", "and", "the", "of", "at", "more", "as", "is", "where", "data", "record", "not", "some", "each", "one", "no"}
    names = {f for f in functions if "-" not in f} | kit_names
    all_words = set().union(*words.values())
    rows = {}
    for w in sorted(all_words | declared):
        base = w.rstrip("'")
        if CAMEL.match(base) and (base in declared or base not in kit) and "-" not in base:
            rows[base] = snake(base)
    for w in sorted(declared):
        if "-" not in w or w.startswith(("Need-", "Inv-")):
            continue
        parts = w.split("-")
        if "" in parts:
            continue
        new = snake(parts[0])
        for a, b in zip(parts, parts[1:]):
            stem = w.split("-" + b)[0]
            joins = (a in names or stem in names) and b in names
            new += ("-" if joins else "_") + snake(b)
        if new != w:
            rows[w] = new
    # names that fall together: a lemma that would have its function's name gets '_lem'; a word that stands free in one file with the other
    taken = collections.defaultdict(set)
    for p in words:
        free = re.sub(r'"(?:[^"\\\n]|\\.)*"|(?<![^\s(){}.;,@"«»])--[^\n]*', " ", read(p))
        for w in re.findall(r'(?<![^\s(){};,@"«»])[^\s(){}.;,@"«»]+', free):
            taken[w].add(p)
    left = []
    for old, new in list(rows.items()):
        others = [o for o, n in rows.items() if n == new and o != old]
        meets = sorted(p for p in taken[new] if p in taken[old])
        both = sorted(p for o in others for p in taken[o] if p in taken[old])
        if "-" in old and (new in declared or others or meets):
            rows[old] = new + "_lem"
            left.append((old, new, "a function has it: " + " ".join(others + meets[:1])))
        elif meets or both:
            left.append((old, new, (meets + both)[0]))
    # a lemma that port.py had spelled as a definition is spelled now
    for old, new in list(rows.items()):
        if new in declared and "-" not in old and new not in functions:
            rows[new] = new + "_lem"
            left.append((new, new, "a lemma, and " + old + " a definition"))
    return rows, left, declared


def turned(text, rows, local, rust):
    def word(m, line):
        w, at = m[0], m.start()
        if w in local:
            return w
        base = w.rstrip("'")
        key = w if w in rows else base if base in rows else None
        if key is None or key.islower() and "-" not in key and (rust or line[at - 1 : at] == "."):
            return w
        if "-" in key and line[at - 1 : at] == ".":
            head = re.search(r'[^\s(){};,@"«»]*$', line[:at])[0].split(".")[0]
            if head.rstrip("0123456789'") in MADE or head == "":
                if key not in FIELDS:
                    return w
        return rows[key] + w[len(key) :]

    def piece(s):
        return WORD.sub(lambda m: word(m, s), s)

    quoted = re.compile(r'"(?:[^"\\\n]|\\.)*"|//[^\n]*' if rust else r'"(?:[^"\\\n]|\\.)*"|(?<![^\s(){}.;,@"«»])--[^\n]*')
    out, at = [], 0
    for m in quoted.finditer(text):
        out.append(piece(text[at : m.start()]))
        q = m[0]
        if q[0] != '"':
            q = re.sub(r"`[^`\n]+`", lambda s: "`" + piece(s[0][1:-1]) + "`", q)
            q = re.sub(r"(?<![\w`-])[a-z][\w]*[a-z0-9][A-Z]\w*", lambda s: rows.get(s[0], s[0]), q)
        out.append(q)
        at = m.end()
    out.append(piece(text[at:]))
    return "".join(out)


FIELDS = set()


def main(argv):
    if argv[:1] == ["--table"]:
        rows = dict(line.rstrip("\n").split("\t") for line in open(argv[1], encoding="utf-8"))
        left = []
    else:
        rows, left, _ = table_of()
        with open("tools/respelled.tsv", "w", encoding="utf-8") as f:
            f.writelines(f"{a}\t{b}\n" for a, b in sorted(rows.items()))
    for p in files((".antt",)):
        if "/specs/" in p or not of_a_function(p):
            for line in read(p).split("\n"):
                m = DECL.match(line)
                if m and m[1] and "-" in m[2]:
                    FIELDS.add(m[2])
    FIELDS.intersection_update(rows)
    n = 0
    for p in files((".antt", ".rt", ".edit", ".edit.wip")):
        t = read(p)
        local = set()
        if of_a_function(p) and p.endswith(".antt"):
            local = {m[2] for m in map(DECL.match, t.split("\n")) if m and "-" in m[2]}
        new = turned(t, rows, local, p.endswith((".rt", ".edit", ".wip")))
        if new != t:
            n += 1
            with open(p, "w", encoding="utf-8") as f:
                f.write(new)
    for old, new, why in left:
        print(f"falls together: {old} -> {new} ({why}); it is {rows.get(old, old)} now")
    print(f"respell: {len(rows)} names, {n} files")


if __name__ == "__main__":
    main(sys.argv[1:])
