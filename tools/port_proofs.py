#!/usr/bin/env python3
"""Turns proofs/F/Proof.antt that go through Tie and Need-.. into Answers.antt and Invariants.antt.

usage: convert.py CRATE NAMES.json [FUNCTION..]    at the top of the repository; NAMES.json is made by
       rattle check --generated DIR --old-names. Each Proof.antt turned is moved to /tmp/old/CRATE/.
"""
import json, os, re, sys, shutil

crate, names, only = sys.argv[1], json.load(open(sys.argv[2])), sys.argv[3:]
PATH = re.compile(r"(?<![\w.'\0-])([A-Za-z_][\w'₀-₉]*)((?:\.[^\s(){};,.\]\[]+)+)")

def norm(w):
    w = re.sub(r"_lem$", "", w)
    return w.replace("-", "_")

def chunks(text):
    out, cur, head = [], [], []
    for line in text.split("\n"):
        starts = line and not line[0].isspace()
        cont = starts and cur and not line.startswith("--") and (re.match(r"unfolding\b", line) or (m := re.match(r"([^\s:]+)", line)) and m[1] == cname and not re.match(r"[^\s]+ :", line))
        if starts and line.startswith("--"):
            if cur: out.append(cur); cur = []
            head.append(line)
        elif starts and not cont:
            if cur: out.append(cur)
            cur = head + [line]; head = []
            m = re.match(r"(?:(?:pub|abbrev|unfoldable) )*([^\s:]+)", line); cname = m[1]
        elif line.strip() == "" :
            if cur: cur.append(line)
            elif head: out.append(head); head = []
        else:
            cur.append(line)
    if cur: out.append(cur)
    if head: out.append(head)
    return ["\n".join(c).rstrip("\n") for c in out]

class Fn:
    def __init__(self, e):
        self.e = e
        self.needs = {norm(a): b for a, b in e["needs"]}
        self.parent = {p[0]: p[1] for p in e["places"]}
        self.at(None)
        self.places = {old: new for old, new in zip([p[0] for p in e["places"]], e["places_by_name"])}

    def at(self, need):
        """Takes the names as they are at a need's place."""
        e, above = self.e, None
        if need is not None:
            i = [norm(a) for a, _ in e["needs"]].index(need)
            above, p = set(), e["asked_at"][i][0]
            while p: above.add(p); p = self.parent.get(p)
        self.field, self.sub, self.clause, self.callee, self.arm = {}, {}, {}, {}, {}
        for i, (old, parent, (fo, fn), callee, subs) in enumerate(e["places"]):
            if above is not None and old not in above: continue
            if fo:
                self.field.setdefault(norm(fo), []).append((old, fn))
                for a, b in subs:
                    self.sub.setdefault(norm(fo), {})[a] = b
                if e["clauses"][i]: self.clause[norm(fo)] = e["clauses"][i]["fields"]
                if callee: self.callee[norm(fo)] = callee
            a = e["arms"][i]
            if a:
                for new, o, path in a[2]:
                    self.arm[(norm(o), tuple(path))] = (a[0], new)

    def path(self, aliases, head, comps):
        """(head, comps) behind an alias -> the new text, or None."""
        pre = aliases[head]
        comps = list(pre) + comps
        while comps and comps[0] == "before": comps.pop(0)
        if not comps: return "c", []
        f = comps[0]; rest = comps[1:]
        if f in ("args", "ranges", "requires", "lifetimes", "type_inv", "utf8", "well_formed", "fn"):
            if f == "requires" and rest and rest[0].isdigit() and self.e["pre"] and "fields" in self.e["pre"]:
                rest[0] = self.e["pre"]["fields"][int(rest[0])]
            if f == "args" and len(rest) > 1 and rest[1] == "now": pass
            return "c." + ".".join([f] + rest), None
        n = norm(f)
        for l in range(len(rest), 0, -1):
            if (n, tuple(rest[:l])) in self.arm:
                a, new = self.arm[(n, tuple(rest[:l]))]
                return "c." + ".".join([a, new] + rest[l:]), None
        if (n, ()) in self.arm and rest and rest[0].startswith("keys"):
            a, new = self.arm[(n, ())]
            return "c." + ".".join([a, new] + rest), None
        if rest == ["given"] and any(k[0] == n for k in self.arm):
            return "c", [f, "given"]
        opts = self.field.get(n)
        new = opts[0][1] if opts else "UNKNOWN-" + f
        if opts and len({o[1] for o in opts}) > 1: new = "AMBIGUOUS-" + "|".join(sorted({o[1] for o in opts}))
        if rest and rest[0] in self.sub.get(n, {}): rest[0] = self.sub[n][rest[0]]
        if rest and rest[0] in ("branch", "came") and new.startswith("then-"): rest[0] = "either"
        if rest and rest[0] == "inv": rest[0] = "invariant"
        if len(rest) > 1 and rest[0] == "ensures" and rest[1].isdigit() and n in self.clause:
            rest[1] = self.clause[n][int(rest[1])]
        if len(rest) > 1 and rest[0] == "new" and rest[1] in "01" and n in self.callee:
            i, k = 0, 1
            while k < len(rest) and rest[k] == "1": i += 1; k += 1
            if k < len(rest) and rest[k] == "0": k += 1
            ps = self.e["params"].get(self.callee[n], [])
            if i < len(ps): rest = ["new", ps[i]] + rest[k:]
        return "c." + ".".join([new] + rest), None

    def body(self, text, params):
        aliases = {p: [] for p in params}
        # lets that only name a place
        while True:
            done = True
            for m in re.finditer(r"let ([A-Za-z_][\w'₀-₉]*)(?: : [^=]*?)? = ([A-Za-z_][\w'₀-₉]*)((?:\.[^\s(){};,.\]\[]+)*) in\s*", text):
                if m[2] in aliases:
                    got = self.path(aliases, m[2], [x for x in m[3].split(".") if x])
                    if got[1] is not None:
                        aliases[m[1]] = got[1]
                        text = text[: m.start()] + text[m.end() :]
                        done = False
                        break
            if done: break
        # what a call ensures, by way of the arm: sym c.CALL.ensures ∙ W.1
        def arm(m):
            if m[3] in aliases:
                got = self.path(aliases, m[3], [x for x in m[4].split(".") if x])
                if got[1] is None and got[0].endswith(".is"):
                    return "sym \0" + got[0][:-3] + ".ensures"
            return m[0]
        text = re.sub(r"sym ([A-Za-z_][\w']*)((?:\.[^\s(){};,.\]\[]+)+)\s+∙ ([A-Za-z_][\w']*)((?:\.[^\s(){};,.\]\[]+)+)", arm, text)
        def one(m):
            if m[1] in aliases:
                got = self.path(aliases, m[1], [x for x in m[2].split(".") if x])
                if got[1] is None: return "\0" + got[0]
                if got[1] == []: return "c"
                return "c." + ".".join(got[1])
            return m[0]
        text = PATH.sub(one, text).replace("\0", "")
        for a in aliases:
            if a != "c" and not aliases[a]:
                text = re.sub(r"(?<![\w.'-])" + re.escape(a) + r"(?![\w.'₀-₉-])", "c", text)
        return text

def key_of(rel):
    parts = rel.split("/")
    base = f"Rattle-{crate}-proofs." + ".".join(parts)
    if parts[-1].startswith("+"):
        return [k for k in names if k.startswith(base + ".Lts-")]
    return [base + ".Lts"] if base + ".Lts" in names else []

def turn(rel, file):
    text = open(file, encoding="utf-8").read()
    keys = key_of(rel)
    if not keys or "Need-" not in text and "tie." not in text: return f"left: {rel}"
    fns = {k.rsplit(".Lts", 1)[1].lstrip("-"): Fn(names[k]) for k in keys}
    cycle = rel.split("/")[-1].startswith("+")
    uses, answers, inv, notes, heads = [], [], [], [], []
    for ch in chunks(text):
        lines = ch.split("\n")
        comment = [l for l in lines if l.startswith("--")]
        code = "\n".join(l for l in lines if not (l.startswith("--")))
        if not code.strip(): answers.append(ch) ; continue
        if code.startswith("use "):
            if not uses and comment: heads.extend(comment)
            for l in code.split("\n"):
                if not l.strip(): continue
                if re.search(r"\.(Tie|Statement|Reads|Kinds|Lts[\w-]*)( as \S+|\.\{.*\})?$", l) or re.search(r"\.\+\w+\.\{statement\}|borrow\.Fn\.(Kinds|PlainCycle)", l): continue
                uses.append(l)
            continue
        m = re.match(r"(?:pub |abbrev |unfoldable )*([^\s:]+) : (.*)", code)
        name, typ = (m[1], m[2]) if m else ("", "")
        if re.search(r"-spec$|_spec$", name) and "statement" in typ: continue
        if re.match(r"μ_", name) and cycle:
            f = name[2:]
            fn = fns.get(f) or list(fns.values())[0]
            got = re.search(r"= (.*)$", code, re.S)[1].strip()
            ps = None
            for k, v in fn.e["params"].items():
                if k.split("::")[-1] == f: ps = v
            p = re.fullmatch(r"a((?:\.1)*)(\.0)?", got)
            if p and ps:
                i = p[1].count("1")
                val = f"l.{ps[i]}"
            else:
                val = got; notes.append(f"measure of {f}: {got}")
                if ps:
                    def par(m):
                        i = m[1].count("1"); return f"l.{ps[i]}" if i < len(ps) else m[0]
                    val = re.sub(r"\ba((?:\.1)*)(?:\.0)?(?![\w.])", par, got)
            inv.append(f"abbrev pub decreases-{f} : goal.decreases-{f}\ndecreases-{f} l = {val}")
            continue
        if cycle and (name == "met" or re.match(r".*_(at|below)$", name) and "In " in typ): continue
        m = re.match(r"(?:tie|[\w-]+)\.(invariant|decreases)-loop(-\d+)?$", typ.strip())
        if m:
            fn = list(fns.values())[0]
            which = int((m[2] or "-1")[1:]) - 1
            lf, vs = fn.e["loops"][which] if isinstance(fn.e["loops"][which][0], list) else fn.e["loops"][which]
            changed = fn.e["changed"][which]
            new = lf[1]
            eq = re.search(r"(?m)^%s (?!:)([^=]*?)=\s*(.*)" % re.escape(name), code, re.S)
            args, bod = eq[1].split(), eq[2]
            vals = ["l.initial." + v if ch else "l." + v for v, ch in zip(vs, changed)] + ["l." + v for v, ch in zip(vs, changed) if ch]
            if len(args) != len(vals): notes.append(f"loop {new}: {args} against {vs} {changed}")
            for a, v in zip(args, vals):
                bod = re.sub(r"(?<![\w.'₀-₉-])" + re.escape(a) + r"(?![\w'₀-₉-])", "\0" + v, bod)
            bod = bod.replace("\0", "")
            kind = m[1]
            inv.append("\n".join(comment + [f"abbrev pub {kind}-{new} : goal.{kind}-{new}", f"{kind}-{new} l =\n    {bod}" if "\n" in bod else f"{kind}-{new} l = {bod}"]))
            continue
        m = re.match(r"(?:\(t : ℕ\) → )?(tie|[\w-]+)\.Need-(\S+)", typ)
        if m:
            fn = list(fns.values())[0]
            if cycle:
                f = norm(re.sub(r"-lts$", "", m[1]))
                for k in fns:
                    if norm(k) == f: fn = fns[k]
            old = norm(re.sub(r"^overflow-", "", m[2]))
            if old not in fn.needs:
                notes.append(f"no need {m[2]}"); goal = "UNKNOWN-" + m[2]
            else: goal = (fn.e["stem"] or "") + fn.needs[old]
            eq = re.search(r"(?m)^%s (?!:)([^=]*?)=[ ]?(.*)" % re.escape(name), code, re.S)
            if not eq: notes.append(f"no clause for {name}"); continue
            params = [p for p in eq[1].split() if p != "κs"]
            bod = eq[2]
            ctx = params[-1] if params else "c"
            if old in fn.needs: fn.at(old)
            new = fn.body(bod, [ctx])
            unf = re.search(r"(?m)^unfolding .*", code)
            trivial = re.fullmatch(r"\s*(search rules|tt|omega arith|record \{ fits = omega arith \}|\(omega arith, \(omega arith, omega arith\)\))\s*", new)
            if trivial: continue
            lead = " ".join(params[:-1] + ["c"])
            answers.append("\n".join(comment + [f"pub {goal} : goal.{goal}"] + ([unf[0]] if unf else []) + [f"{goal} {lead} ={new if new.startswith(chr(10)) else (chr(10) + '    ' + new.strip() if chr(10) in new.strip() else ' ' + new.strip())}"]))
            continue
        if "tie." in code or "-lts." in code:
            fn = list(fns.values())[0]
            code2 = re.sub(r"tie\.([\w-]+) invariant-loop\S* decreases-loop\S*", lambda m: "goal." + fn.places.get(m[1], m[1]), ch)
            notes.append(f"by hand: {name or code.split(chr(10))[0]}")
            answers.append("-- BY HAND\n" + code2)
            continue
        answers.append(ch)
    return uses, answers, inv, notes, heads

def write(path, head, uses, parts, goal_use):
    body = "\n\n".join(parts)
    words = set(re.findall(r"[^\s(){}.;,@\"«»]+", body))
    kept = []
    for u in uses:
        m = re.match(r"use (\S+)\.\{(.*)\}$", u)
        if m:
            items = [i.strip() for i in m[2].split(",")]
            def used(i):
                n = i.split(" as ")[-1].strip("«»")
                return any(p and p in words for p in [n]) if "◌" not in n else any(p in words or p in body for p in [x for x in n.split("◌") if x])
            items = [i for i in items if used(i)]
            if items: kept.append(f"use {m[1]}.{{{', '.join(items)}}}")
        else:
            n = u.split(" as ")[-1].split(".")[-1].strip()
            if re.search(r"(?<![\w.])" + re.escape(n) + r"\.", body): kept.append(u)
    with open(path, "w", encoding="utf-8") as f:
        f.write("\n".join(head + kept + [goal_use]) + "\n\n" + body + "\n")

for folder, dirs, files in os.walk(f"crates/{crate}/proofs"):
    if "Proof.antt" not in files: continue
    rel = os.path.relpath(folder, f"crates/{crate}/proofs")
    if only and rel not in only and rel.split("/")[-1] not in only: continue
    file = f"{folder}/Proof.antt"
    got = turn(rel, file)
    if isinstance(got, str): print(got); continue
    uses, answers, inv, notes, head = got
    mod = f"Rattle.{crate}.proofs.{rel.replace('/', '.')}"
    old = f"/tmp/old/{crate}/{rel}"; os.makedirs(old, exist_ok=True)
    shutil.copy(file, old); os.remove(file)
    real = [a for a in answers]
    if real: write(f"{folder}/Answers.antt", head, uses, real, f"use {mod}.Goals as goal")
    if inv: write(f"{folder}/Invariants.antt", head if not real else [], uses, inv, f"use {mod}.Given as goal")
    if not real and not inv: os.rmdir(folder)
    for n in notes: print(f"{rel}: {n}")
