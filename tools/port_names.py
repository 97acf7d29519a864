#!/usr/bin/env python3
"""Brings the repository's own definitions and lemmas to today's spelling: snake case for words, camel case for types. Run once, behind port.py.

usage: tools/port_names.py [--check]     at the top; --check writes nothing and says what would turn

The names are those that this repository's antt declares or binds and that the kit doesn't have: firstRow becomes first_row, hub-stays
hub_stays. A dash stays where it joins the names of two functions (length-put). Code of .rt files, strings and exported names stay.
"""
import collections
import os
import re
import sys

WORD = re.compile(r'[^\s(){}.;,@"«»]+')
SIGNATURE = re.compile(r'\s*(?:(?:pattern|unfoldable|abbrev|pub|axiom|record|data) +)*([^\s(){}.;,@"«»]+)(?: \{[^}]*\})?(?: [({].*[)}])? : (.*)')
QUIET = re.compile(r'"(?:[^"\\\n]|\\.)*"|(?<![^\s(){}.;,@"«»])--[^\n]*', re.S)
CLAUSE = re.compile(r"(?:requires|ensures)\s*\*?\s*(?:\w+\s*)?\{|ghost\s+use\b")
FUNCTION = ("Proof.antt", "Invariants.antt", "Answers.antt")
ODD = re.compile(r"[^\W\d]\w*'*-|^[a-z][^\W_]*[A-Z]")
# words of std and of arithmetic that stand for functions in the name of a lemma
STD = set("length append take drop map set and or not sum max min mod div mul add sub suc zero true false none nil cons le lt eq shr shl".split())
KIT = "/opt/rattle/rattle"
# lemmas that port.py gave the name which their function gets here; put_up only where it is a lemma and no field of `High`
LEMMAS = {n: n + "_lem" for n in "is_word left_by ran_to walk_looks root_line one_number".split()}
LEMMAS_IN = {"crates/rules/proofs/Waits/OneCall.antt": ["put_up"], "crates/rules/proofs/Strict/OneCall.antt": ["put_up"]}
# names that Rattle makes of the source: never the repository's own
MADE = re.compile(r"^(Need|Lts|After|Then|Else|At|In)-|-(requires|lts|kinds|reads|spec)(-\d+)?$|^(returns|loop|invariant|decreases|overflow|element|enum|slice|shared|cast)-")


def texts(kinds):
    for folder, dirs, files in os.walk("crates"):
        dirs[:] = sorted(d for d in dirs if d != "out")
        for f in sorted(files):
            if f.endswith(kinds):
                yield os.path.join(folder, f)


def read(p):
    with open(p, encoding="utf-8") as f:
        return f.read()


def kit_names():
    found = set()
    for folder, _, files in os.walk(KIT):
        for f in files:
            if f.endswith(".antt"):
                found.update(WORD.findall(QUIET.sub(" ", read(os.path.join(folder, f)))))
    return found


def snake(word):
    word = re.sub(r"([a-z0-9₀-₉])([A-Z])", r"\1_\2", word)
    return word if word[:1].isupper() else word.lower()


def spelled(name, functions):
    if name[:1].isupper():
        head, *rest = name.split("-")
        if rest == ["wf"]:
            return name
        return head + "".join(r[:1].upper() + r[1:] for r in rest)
    parts = [snake(p) for p in name.split("-")]
    # a primed part is the name without its prime
    bare = [p.rstrip("'") for p in parts]
    out = parts[0]
    whole = len(parts) > 1 and all(b in functions or b in STD for b in bare)
    for p in parts[1:]:
        out += ("-" if whole else "_") + p
    return out


def declared():
    """Each odd name that is declared or bound outside a function's own proof, or there at a type of its own; and the functions."""
    names, functions = collections.Counter(), set()
    for p in texts(".antt"):
        own = os.path.basename(p) not in FUNCTION
        t = QUIET.sub(" ", read(p))
        for line in t.split("\n"):
            m = SIGNATURE.match(line)
            if m and (own or not re.match(r"(\w+\.)?Need|tie\.|goal\.", m[2])):
                names[m[1]] += 1
                if "/specs/" in p and "-" not in m[1] and m[1][:1].islower() and not line.startswith(" "):
                    functions.add(snake(m[1]))
        if own:
            names.update(w for w in WORD.findall(t) if ODD.search(w))
    return names, functions


def table():
    kit = kit_names()
    names, functions = declared()
    rows = {}
    for n in names:
        if n in kit and not declared_here(n) or MADE.search(n) or not ODD.search(n):
            continue
        new = spelled(n, functions)
        if new != n:
            rows[n] = new
    # a lemma that would have its function's name ends in _lem
    taken = {new for n, new in rows.items() if "-" not in n} | {n for n in names if "-" not in n and n not in rows}
    for n, new in rows.items():
        if "-" in n and new in taken:
            rows[n] = new + "_lem"
    return rows, kit


HERE = None


def declared_here(n):
    global HERE
    if HERE is None:
        HERE = set()
        for p in texts(".antt"):
            if os.path.basename(p) not in FUNCTION:
                for line in QUIET.sub(" ", read(p)).split("\n"):
                    m = SIGNATURE.match(line)
                    if m:
                        HERE.add(m[1])
    return n in HERE


def kit_items(t):
    """The names that a file takes from the kit."""
    found = set()
    for m in re.finditer(r"^(?:ghost )?use ([^\s{;]+)\.\{([^}]*)\}", t, re.M):
        if not (m[1].startswith("Rattle.") and os.path.isdir(os.path.join("crates", m[1].split(".")[1]))):
            found.update(w.split(" as ")[0].strip() for w in m[2].split(","))
    return found


def turn(t, rows, stay):
    def one(m):
        w = m[0]
        # a part of a path is a module, and keeps its name
        if w in LEMMAS and not (m.string[m.start() - 1 : m.start()] == "." or m.string[m.end() : m.end() + 1] == "."):
            return LEMMAS[w]
        return w if w in stay else rows.get(w, w)

    out, at = [], 0
    for m in QUIET.finditer(t):
        out.append(WORD.sub(one, t[at : m.start()]))
        # in a comment, names that nothing but code has: with a dash they may be English, so only camel case turns
        out.append(m[0] if m[0][0] == '"' else re.sub(r"`([^`]+)`", lambda s: "`" + WORD.sub(one, s[1]) + "`", m[0]))
        at = m.end()
    out.append(WORD.sub(one, t[at:]))
    return "".join(out)


def clauses(t, rows, stay):
    """The clauses and ghost uses of a .rt file."""
    out, at = [], 0
    for m in CLAUSE.finditer(t):
        if m.start() < at:
            continue
        if t[m.end() - 1] != "{":
            end = t.index(";", m.end()) + 1
        else:
            depth, end = 1, m.end()
            while depth:
                depth += {"{": 1, "}": -1}.get(t[end], 0)
                end += 1
        out += [t[at : m.end()], turn(t[m.end() : end], rows, stay)]
        at = end
    out.append(t[at:])
    return "".join(out)


def main(argv):
    names, kit = table()
    falls = 0
    for p in texts((".antt", ".rt")):
        t = read(p)
        rows = names | {n: n + "_lem" for n in LEMMAS_IN.get(p, [])}
        stay = kit_items(t) if p.endswith(".antt") else set()
        if os.path.basename(p) in FUNCTION:
            stay |= {m[1] for m in (SIGNATURE.match(l) for l in t.split("\n")) if m and re.match(r"(\w+\.)?Need|tie\.|goal\.", m[2])}
        words = set(WORD.findall(QUIET.sub(" ", t)))
        if p.endswith(".rt"):
            words = set(WORD.findall("\n".join(t[m.start() : m.start() + 2000].split("\n", 1)[0] for m in CLAUSE.finditer(t))))
        came = collections.defaultdict(set)
        for w in words:
            came[w if w in stay else rows.get(w, w)].add(w)
        for new, olds in sorted(came.items()):
            if len(olds) > 1:
                falls += 1
                print(f"falls together: {p}: {', '.join(sorted(olds))} -> {new}")
        new = turn(t, rows, stay) if p.endswith(".antt") else clauses(t, rows, stay)
        if new != t and "--check" not in argv:
            with open(p, "w", encoding="utf-8") as f:
                f.write(new)
    inkit = sorted(n for n in names.values() if n in kit)
    print(f"{len(names)} names turn, {falls} fall together; new names that the kit has too: {len(inkit)}")
    if "--table" in argv:
        for a, b in sorted(names.items()):
            print(a, b)


if __name__ == "__main__":
    main(sys.argv[1:])
