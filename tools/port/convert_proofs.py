#!/usr/bin/env python3
"""Turns walks of an older Rattle (Proof.antt, "Tie as tie") into Invariants.antt and Answers.antt: for the port alone, run by step.sh.

usage: convert_proofs.py CRATE OLD NAMES OUT    OLD and OUT are folders proofs/, NAMES is the names.json that `rt check --generated DIR --old-names` wrote
"""
import json, os, re, sys

crate, OLD, NAMES, OUT = sys.argv[1:5]
names = json.load(open(NAMES))
TOK = re.compile(r'[^\s(){};,@"«»\[\]\\]+')
canon = lambda s: re.sub(r"[-_·]", "", s).lower()
PRE = ("overflow-", "nonzero-", "overflow_", "nonzero_")

def blocks(text):
    """(uses, items): items are (comment, signature lines, rest lines)"""
    lines = text.split("\n")
    uses, items, cur, comment = [], [], None, []
    for l in lines:
        if re.match(r"use ", l):
            uses.append(l); continue
        if l.startswith("--"):
            if cur: items.append(cur); cur = None
            comment.append(l); continue
        if not l.strip():
            if cur: items.append(cur); cur = None
            continue
        if cur is None:
            cur = [comment, [l]]; comment = []
        else:
            cur[1].append(l)
    if cur: items.append(cur)
    return uses, items

def head_comment(text):
    out = []
    for l in text.split("\n"):
        if l.startswith("--"): out.append(l)
        else: break
    return out

class Fn:
    def __init__(self, j):
        self.j = j
        self.place = {}
        arms = j.get("arms") or []
        self.renames = {}
        for i, (name, parent, step, callee, ren) in enumerate(j["places"]):
            self.place[name] = (parent, step[0], step[1], callee)
            self.renames[name] = dict(ren or [])
        self.allren = {}
        for n, (pa, o, nw, ca) in self.place.items():
            self.allren.setdefault(canon(o), {}).update(self.renames[n])
        self.bycanon = {canon(n): n for n in self.place}
        pbn = j.get("places_by_name") or []
        self.newplace = {}
        self.armmap = {}
        for i, (name, *_) in enumerate(j["places"]):
            if i < len(pbn): self.newplace[name] = pbn[i]
            a = None
        # arms: list parallel to needs? collect all
        for a in arms:
            if a:
                new, n, entries = a
                for field, oldstep, path in entries:
                    self.armmap.setdefault((canon(oldstep), tuple(path)), (new, field))
        self.needs = {}
        at = j.get("asked_at") or []
        for i, (o, n) in enumerate(j["needs"]):
            self.needs[canon(o)] = (n, at[i][0] if i < len(at) else None)
            self.needs.setdefault(canon(n), (n, at[i][0] if i < len(at) else None))
        self.step = {}
        for name, (parent, old, new, callee) in self.place.items():
            self.step.setdefault(canon(old), (new, callee, name))
        self.log = []

    def up(self, place, k):
        for _ in range(k):
            if place is None or place not in self.place: return None
            place = self.place[place][0]
        return place

    def path(self, place, parts, var="c"):
        """parts: fields after stripping of .before, at place. returns new text"""
        f = parts[0]
        rest = parts[1:]
        if f.endswith("_lem"): f = f[:-4]
        if f == "requires" and getattr(self, "cyc", False):
            if rest[:1] == ["1"]: return ".".join([var, "requires"] + rest[1:])
            if not rest: return var + ".requires"
        if f in ("args", "requires", "ranges", "well_formed", "well-formed", "fits", "auto", "type_inv"):
            t = "." + ".".join(parts)
            for o, n in self.j.get("args") or []:
                o2, n2 = o.replace(" ", ""), n.replace(" ", "")
                if t == o2 or t.startswith(o2 + "."):
                    t = n2 + t[len(o2):]
            return var + t
        cf = canon(f)
        # what a type says of a variable
        if rest[:1] == ["given"]:
            for vs in self.j.get("typed") or []:
                for v, st in vs:
                    if canon(st) == cf: return ".".join([var, "type_inv", v] + rest[1:])
        # arms by path
        for k in range(len(rest), -1, -1):
            key = (cf, tuple(rest[:k]))
            if key in self.armmap:
                new, field = self.armmap[key]
                if field.endswith("-own"): continue
                return ".".join([f"{var}.{new}.{field}"] + rest[k:])
        new = None; callee = None
        if place in self.place and canon(self.place[place][1]) == cf:
            new, callee = self.place[place][2], self.place[place][3]
        elif cf in self.step:
            new, callee, _ = self.step[cf]
        if new is None:
            self.log.append(f"unknown step {f} at {place}: {'.'.join(parts)}")
            return ".".join([var] + parts)
        pl = place if place in self.place and canon(self.place[place][1]) == cf else self.step[cf][2]
        if rest and rest[0] in self.allren.get(cf, {}):
            rest = [self.allren[cf][rest[0]]] + rest[1:]
        if rest and rest[0] == "ok" and callee: rest = ["type_inv"] + rest[1:]
        if rest and rest[0] in ("new", "auto") and callee and callee in self.j["params"]:
            ps = self.j["params"][callee]
            k = 0
            while 1 + k < len(rest) and rest[1 + k] == "1": k += 1
            if 1 + k < len(rest) and rest[1 + k] == "0" and k < len(ps):
                rest = [rest[0], ps[k]] + rest[2 + k:]
        return ".".join([f"{var}.{new}"] + rest)

    def virtual(self, fs):
        """whether a let of this path is only a beginning of a path"""
        return "given" in fs[1:] or (len(fs) > 1 and fs[1] in ("new", "auto"))

    def convert(self, body, place, helpers, goal):
        """body text with c at place"""
        alias = {"c": place}
        vals = {}
        pos = 0
        text = body
        res = []
        for m in TOK.finditer(text):
            res.append(text[pos:m.start()])
            pos = m.end()
            tok = m[0]
            parts = tok.split(".")
            before = "".join(res)[-200:]
            mm = re.search(r"\blet\s+([^\s:=]+)\s*=\s*$", before)
            after = text[pos:]
            if mm and not re.match(r"\s*in\b", after): mm = None
            if parts[0] in alias:
                pl = alias[parts[0]]
                k = 0
                fs = parts[1:]
                while fs and fs[0] == "before":
                    fs.pop(0); k += 1
                q = self.up(pl, k)
                if not fs:
                    if mm:
                        alias[mm[1]] = q
                        vals.pop(mm[1], None)
                        res.append("c")
                    else:
                        hm = re.search(r"([^\s(){};,]+)(?:\s+t)?\s*$", before)
                        h = hm and hm[1]
                        if h in helpers and goal:
                            res.append(f"(goal.at.{goal} c).{self.bare.get(helpers[h])}" if helpers[h] != place else "c")
                        else:
                            res.append("c")
                else:
                    if mm and mm[1] != "c":
                        alias.pop(mm[1], None)
                        vals[mm[1]] = (q, fs)
                    if mm and self.virtual(fs) and not any((canon(fs[0]), tuple(fs[1:n])) in self.armmap for n in range(2, len(fs) + 1)): res.append("c")
                    else: res.append(self.path(q, fs))
            elif parts[0] in vals and len(parts) > 1:
                q, fs = vals[parts[0]]
                full = fs + parts[1:]
                if mm and mm[1] != parts[0]: vals[mm[1]] = (q, full)
                new = self.path(q, full)
                base = self.path(q, fs)
                if not self.virtual(fs) and new.startswith(base + "."):
                    new = parts[0] + new[len(base):]
                res.append(new)
            else:
                if mm and parts[0] not in vals:
                    vals.pop(mm[1], None)
                    if mm[1] != "c": alias.pop(mm[1], None)
                res.append(tok)
        res.append(text[pos:])
        return "".join(res)

def loopvars(j, k):
    (old, new), vars_ = j["loops"][k]
    changed = j["changed"][k]
    exp = []
    for v, ch in zip(vars_, changed):
        exp.append(f"l.initial.{v}" if ch else f"l.{v}")
    for v, ch in zip(vars_, changed):
        if ch: exp.append(f"l.{v}")
    return exp

def substitute(body, mapping):
    def one(m):
        tok = m[0]
        parts = tok.split(".")
        if parts[0] in mapping:
            return ".".join([mapping[parts[0]]] + parts[1:])
        return tok
    return TOK.sub(one, body)

DEF = re.compile(r"^(?:abbrev pub |abbrev |pub |unfoldable pub )?([^\s:]+)\s*((?:\{[^{}]*\} ?)*):\s*(.*)$", re.S)

log = []

def positional(body, params):
    """a.1.1.0.now of a tuple of arguments -> l.NAME.now"""
    def one(m):
        parts = m[0].split(".")
        k = 0
        while 1 + k < len(parts) and parts[1 + k] == "1": k += 1
        if 1 + k < len(parts) and parts[1 + k] == "0" and k < len(params):
            return ".".join(["l", params[k]] + parts[2 + k:])
        return m[0]
    return re.sub(r"(?<![^\s(){};,])a(\.[^\s(){};,]+)+", one, body)

for d, ds, fs in os.walk(OLD):
    if "Proof.antt" not in fs: continue
    rel = os.path.relpath(d, OLD)
    text = open(os.path.join(d, "Proof.antt")).read()
    mod = rel.replace("/", ".")
    keys = [k for k in names if re.fullmatch(r"Rattle-%s-proofs\.%s\.Lts(-.*)?" % (crate, re.escape(mod)), k)]
    cyc = "+" in rel
    if not keys or not ("Tie as tie" in text or cyc):
        log.append(f"{rel}: by hand (keys {keys})"); continue
    fns = {}
    for k in keys:
        f = k.split(".Lts")[1].lstrip("-")
        fns[canon(f)] = Fn(names[k]); fns[canon(f)].name = f; fns[canon(f)].cyc = cyc
        fns[canon(f)].bare = dict(fns[canon(f)].newplace)
        st = names[k].get("stem")
        if st: fns[canon(f)].newplace = {a: st + b for a, b in fns[canon(f)].newplace.items()}
    only = list(fns.values())[0] if len(fns) == 1 else None
    uses, items = blocks(text)
    hcl = head_comment(text)
    if items and items[0][0][:len(hcl)] == hcl: items[0][0] = items[0][0][len(hcl):]
    uses = [u for u in uses if not re.search(r"\.(Statement|Tie|Reads|Kinds|Lts)\b|borrow\.Fn\.|Lts-|\{statement\}|Tie\.", u)]
    modpath = f"Rattle.{crate}.proofs.{mod}"
    inv, ans, helpers, types = [], [], {}, {}
    inside = None
    used_places = set()

    def fn_of(word):
        """the function of a word like tie.Need-x, lts.After-x, read-trees-lts.Need-x"""
        h = word.split(".")[0]
        if only: return only
        h = re.sub(r"-?(lts|tie)$", "", h)
        return fns.get(canon(h))

    def place_of(t):
        """(fn, old place) of a type word"""
        w = t.strip().split()[0]
        if w in types: return types[w]
        m = re.match(r"(\S*?(?:tie|lts|Lts))\.([^\s()]+)$", w)
        if not m: return None
        f = fn_of(w)
        if not f: return None
        pl = f.bycanon.get(canon(m[2]))
        return (f, pl) if pl else None

    for comment, lines in items:
        whole = "\n".join(lines)
        c = "\n".join(comment) + "\n" if comment else ""
        indented = lines[0].startswith(" ")
        if not indented: inside = None
        if re.search(r"\btie\.close\b|-spec : \{M|_spec : \{M", whole) or re.search(r":\s*\{M : Type 1\}", lines[0]): continue
        m = DEF.match(whole.lstrip())
        name = m[1] if m else None
        sig = lines[0]
        # type aliases
        ma = re.match(r"abbrev (\S+) : (?:ℕ → )?Type 0\n\1(?: t)? = ((?:\S*tie|\S*lts)\.\S+)", whole)
        if ma:
            pl = place_of(ma[2])
            if pl: types[ma[1]] = pl; continue
            log.append(f"{rel}: type {ma[1]}?")
        # cycle plumbing
        if cyc and re.match(r"abbrev \S+-(at|below|claims) : ", whole): continue
        mm = re.match(r"abbrev μ-(\S+) : Measures[^\n]*\n\S+ κs a = (.*)$", whole, re.S)
        if cyc and mm:
            f = only or fns.get(canon(mm[1]))
            ps = None
            for k2, v in f.j["params"].items():
                if canon(k2.split("::")[-1]) == canon(f.name): ps = v
            for ff in fns.values():
                for k2, v in ff.j["params"].items():
                    if ps is None and canon(k2.split("::")[-1]) == canon(f.name): ps = v
            inv.append(f"{c}abbrev pub decreases-{f.name} : goal.decreases-{f.name}\ndecreases-{f.name} l = {positional(mm[2], ps or [])}")
            if ps is None: log.append(f"{rel}: params of {f.name}?")
            continue
        # a module over a place
        def balanced(t, at):
            n = 0
            for i in range(at, len(t)):
                n += t[i] == "("; n -= t[i] == ")"
                if n == 0: return i + 1
            return len(t)
        if sig.startswith("module _") and "(c : " in whole:
            at = whole.index("(c : ")
            end = balanced(whole, at)
            pl = place_of(whole[at + 5 : end - 1])
            if pl:
                inside = pl
                np = pl[0].newplace[pl[1]]; used_places.add(np)
                w = whole[:at] + f"(c : {np}{' t' if cyc else ''})" + whole[end:]
                h = w.index(" where") + 6
                head, tail = w[:h], w[h:]
                for l in tail.split("\n"):
                    md = re.match(r"\s+(?:abbrev |pub )*([^\s:]+) :", l)
                    if md: helpers[md[1]] = pl[1]
                ans.append(c + head + pl[0].convert(tail, pl[1], helpers, np + (" t" if cyc else "")))
                continue
        if indented and inside:
            for l in lines:
                md = re.match(r"\s+(?:abbrev |pub )*([^\s:]+) :", l)
                if md: helpers[md[1]] = inside[1]
            ans.append(c + inside[0].convert(whole, inside[1], helpers, inside[0].newplace[inside[1]] + (" t" if cyc else "")))
            continue
        # invariants and measures
        mi = re.match(r"abbrev (\S+) : (\S*?)(?:tie|lts)\.(invariant|decreases)-(.*)$", sig)
        if mi:
            kind, lp = mi[3], mi[4].split()[0]
            f = only or fn_of(mi[2] + "lts.x")
            body = "\n".join(lines[1:])
            hd = re.match(r"(\S+)((?: +[^\s=]+)*) =(.*)$", body, re.S)
            loops = {canon(l[0][0]): (i, l[0][1]) for i, l in enumerate(f.j.get("loops") or [])} if f else {}
            if canon(lp) not in loops or not hd:
                log.append(f"{rel}: loop {lp}? {list(loops)}"); continue
            i, newloop = loops[canon(lp)]
            if f.j.get("stem"): newloop = f.j["stem"] + newloop
            exp = loopvars(f.j, i)
            args = hd[2].split()
            if len(args) != len(exp): log.append(f"{rel}: loop {lp} args {args} against {exp}")
            inv.append(f"{c}abbrev pub {kind}-{newloop} : goal.{kind}-{newloop}\n{kind}-{newloop} l ={substitute(hd[3], dict(zip(args, exp)))}")
            continue
        ms = re.match(r"(\S+) :[^=]*?(\S*(?:tie|lts))\.Need-(\S+)", whole)
        if ms and not re.match(r"\s*(?:module|abbrev)", whole):
            nm, need = ms[1], ms[3]
            f = fn_of(ms[2] + ".x")
            if f is None:
                log.append(f"{rel}: {nm}: whose?"); continue
            hd = None
            for mx in re.finditer(r"^" + re.escape(nm) + r"((?: +[^\s=]+)*) =", whole, re.M): hd = mx
            if not hd:
                log.append(f"{rel}: cannot read {nm}"); continue
            rhs = whole[hd.end():]
            pre = [l for l in whole[:hd.start()].split("\n") if l.startswith("unfolding ")]
            cn = canon(need)
            cands = [cn] + [canon(need[len(p):]) for p in PRE if need.startswith(p)]
            found = next((f.needs[x] for x in cands if x in f.needs), None)
            if re.fullmatch(r"\s*search rules\s*", rhs) and not pre: continue
            if not found:
                log.append(f"{rel}: {need} is no goal now: {rhs.strip()[:100]}"); continue
            new, place = found
            if f.j.get("stem"): new = f.j["stem"] + new
            args = hd[1].split()
            if cyc: tvar, args = args[0], args[1:]
            cvar = args[0] if args else "c"
            extra = [a for a in args[1:] if not a.startswith("κ")]
            if cvar != "c": log.append(f"{rel}: {nm} variable {cvar}")
            conv = f.convert(rhs, place, helpers, new + (" t" if cyc else ""))
            lead = "t c" if cyc else "c"
            ans.append(c + f"pub {new} : goal.{new}\n" + "".join(p2 + "\n" for p2 in pre) + f"{new} {lead}{''.join(' ' + e for e in extra)} ={conv}")
            continue
        if "(c : " in whole:
            at = whole.index("(c : ")
            end = balanced(whole, at)
            pl = place_of(whole[at + 5 : end - 1])
            if pl is None:
                log.append(f"{rel}: helper {name} at {whole[at:end]}?"); ans.append(c + whole); continue
            f, place = pl
            helpers[name] = place
            np = f.newplace.get(place, "?"); used_places.add(np)
            if cyc: np += " t"
            w = whole[:at] + f"(c : {np})" + whole[end:]
            ans.append(c + f.convert(w, place, helpers, np))
            continue
        if re.search(r"\b(tie|lts)\.", whole): log.append(f"{rel}: {name}: {whole.splitlines()[0][:120]}")
        ans.append(c + whole)
    fn = Fn.__new__(Fn); fn.used_places = used_places
    fn.log = [x for f in fns.values() for x in f.log]
    for l in fn.log: log.append(f"{rel}: {l}")
    od = os.path.join(OUT, rel)
    os.makedirs(od, exist_ok=True)
    hc = "\n".join(head_comment(text))
    def imports(body):
        out = []
        words = set(TOK.findall(body)) | {w.split(".")[0] for w in TOK.findall(body)}
        if "search" in words: pass
        ops = body
        for u in uses:
            mu = re.match(r"use (\S+)\.\{(.*)\}$", u)
            if not mu:
                al = re.search(r" as (\S+)$", u)
                if al and al[1] not in words: continue
                out.append(u); continue
            keep = []
            for it in [x.strip() for x in mu[2].split(",")]:
                nm = it.split(" as ")[-1]
                if "◌" in nm:
                    bits = [b for b in nm.split("◌") if b]
                    if all(b in body for b in bits): keep.append(it)
                elif re.search(r"(?<![^\s(){};,.\[\]])" + re.escape(nm) + r"(?![^\s(){};,.\[\]])", body): keep.append(it)
            if keep: out.append(f"use {mu[1]}.{{{', '.join(keep)}}}")
        return out
    moved = []
    if inv:
        again = True
        while again:
            again = False
            for a in list(ans):
                if "goal." in a or "(c :" in a or a.lstrip().startswith("module"): continue
                body = re.sub(r"(?m)^--[^\n]*\n", "", a)
                md = re.match(r"(?:abbrev |unfoldable |pub |data |record )*([^\s:]+)", body)
                if md and any(re.search(r"(?<![^\s(){};,.])" + re.escape(md[1]) + r"(?![^\s(){};,.])", re.sub(r"(?m)^--[^\n]*\n", "", x)) for x in inv):
                    ans.remove(a); moved.append(md[1]); again = True
                    if not re.match(r"(abbrev |unfoldable )*pub ", body):
                        body2 = re.sub(r"^(abbrev |unfoldable )?", lambda m: (m[1] or "") + "pub ", body, 1)
                        a = a.replace(body, body2)
                    inv.insert(0, a)
    if inv:
        b = "\n\n".join(inv)
        with open(os.path.join(od, "Invariants.antt"), "w") as f:
            f.write(f"-- What the loops of `{rel.split('/')[-1]}` keep.\n" + "\n".join(imports(b) + [f"use {modpath}.Given as goal"]) + "\n\n" + b + "\n")
    real = [a for a in ans]
    if any("goal." in a for a in ans):
        b = "\n\n".join(ans)
        extra = []
        if moved: extra = [f"use {modpath}.Invariants.{{{', '.join(moved)}}}"]
        if getattr(fn, "used_places", None):
            extra += [f"use {modpath}.Goals.{{{', '.join(sorted(fn.used_places))}}}"]
        with open(os.path.join(od, "Answers.antt"), "w") as f:
            f.write((hc + "\n" if hc else "") + "\n".join(imports(b) + [f"use {modpath}.Goals as goal"] + extra) + "\n\n" + b + "\n")
for l in log: print(l)
