#!/usr/bin/env python3
"""Brings the must-fail edits to the texts of today: each keeps its name, its comment, its place and its wrong meaning.

usage: tools/port_edits.py --check                at the top: says of each edit whether each `old` stands exactly once, after the pairs before it
       tools/port_edits.py OLD PORTED [FOLDER]    turns the edits of commit OLD, the last before the port (1a2df0d); PORTED is the commit in
                                                  which port.py and port_names.py ran over it (0af44d4); what an earlier run left in FOLDER stands

An edit's text is turned by the scripts that turned the files: in a clone of OLD the edit is made, port.py, port_names.py and port_fields.py
run over the clone, and what differs there from PORTED is the edit in today's spelling. Many edits are made in one run, those of one file at
lines far apart. What differs is then made in the file as it now stands, and the pairs are read off, a line each. It takes seven minutes a run.
"""
import difflib
import glob
import os
import re
import subprocess
import sys
import tempfile

FAR = 6
TURN = ("port_names", "port_fields")
# an edit's own names that the file had not in scope before the port either, so that it was refused for them: they are brought in
LACKED = {"crates/rules/must-fail/due_at_its_own_instant.edit": ("specs/Core.antt", "◌||◌, ltb", "◌||◌, leb, ltb")}
# Edits of a test. Today's Rattle names a branch's facts and goals by the test's words and numbers, so that such an edit, made as it was,
# is refused because an answer's name is gone, and would be where it changed nothing. These keep the words and make the same wrong test.
ANEW = {
    "admission/sixty_four_packets_refused": [("    if 64 < n {", "    if 64 < n / 64 + 64 {")],
    "control/always_resumed": [("    if before == marked {", "    let marked = before; if before == marked {")],
    "control/mark_not_looked_at": [("    if mark == 0 {", "    let mark: u32 = 1; if mark == 0 {")],
    "control/port_not_looked_at": [("    if port == q {", "    let q = port; if port == q {")],
    "log_lines/one_byte_too_many": [("    if text.len() <= 65536 {", "    if text.len() - text.len() / 65537 <= 65536 {")],
    "offers/sixty_four_offers_refused": [("    if 64 < offers.len() / 3 {", "    if 64 < offers.len() / 3 + 1 {")],
    "plan/framing_5_in_any_interrupt": [
        ("    if d < header::longest(framing as u32) + o {", "    let d: u64 = 4000000; if d < header::longest(framing as u32) + o {")
    ],
    "plan_tree/hub_32_refused": [("            if 32 <= hubs {", "            if 32 <= hubs / 31 + 31 {")],
    "ports/search_goes_round": [
        ("        if zeros <= 32 - pointer {", "        let own = pointer; let pointer: u32 = 1; if zeros <= 32 - pointer {"),
        ("            return Found::Port(zeros + pointer);", "            let pointer = own; return Found::Port(zeros + pointer);"),
    ],
    "rows/late_events_turned_down": [("    if 1000000000000000 < t {", "    if 1000000000000000 < t / 2 + t % 2 + 1000000000000000 {")],
    "text/last_bytes_lost": [
        ("    if at < i {", "    let (at, i) = (i, at); if at < i {"),
        ("        Next::Unended {", "        let (at, i) = (i, at); Next::Unended {"),
    ],
    "text/leading_zero_taken": [
        ("    if b == 48 {", "    let first = b; let b: u8 = 47; if b == 48 {"),
        ("    digits_from(text, at + 1, end, wide(b - 48), 15)", "    let b = first; digits_from(text, at + 1, end, wide(b - 48), 15)"),
    ],
}
TOKEN = re.compile(r'"(?:[^"\\]|\\.)*"|\w+(?:-\w+)*|◌[^\s(){}.;,]*|\[\]|&&|\|\||\+\+|[-<>=!]=|->|\S')


def git(*words, where="."):
    return subprocess.run(["git", *words], cwd=where, capture_output=True, text=True, check=True).stdout


def read(path):
    with open(path, encoding="utf-8") as f:
        return f.read()


def write(path, text):
    with open(path, "w", encoding="utf-8") as f:
        f.write(text)


def pairs_of(text):
    """The edit's comments, and its pairs as (file, old, new)."""
    notes, pairs, path, old = [], [], None, None
    for line in text.split("\n"):
        if line.startswith("file: "):
            path = line[6:].strip()
        elif line.startswith("old: "):
            old = line[5:]
        elif line.startswith("new:"):
            pairs.append((path, old, line[4:].removeprefix(" ")))
        elif line.strip():
            notes.append(line)
    return notes, pairs


def text_of(notes, pairs):
    out, path = list(notes), None
    for at, old, new in pairs:
        if at != path:
            out.append("file: " + at)
            path = at
        out += ["old: " + old, "new: " + new if new else "new:"]
    return "\n".join(out) + "\n"


def made(crate, pairs, read):
    """The texts of the files with the pairs made in them, by path; or which pair can't be made."""
    texts = {}
    for at, old, new in pairs:
        p = f"{crate}/{at}"
        t = texts[p] if p in texts else read(p)
        if t.count(old) != 1:
            return None, f"stands {t.count(old)} times in {at}: {old}"
        texts[p] = t.replace(old, new)
    return texts, None


def check():
    bad, n = 0, 0
    for e in sorted(glob.glob("crates/*/must-fail/*.edit")):
        n += 1
        notes, pairs = pairs_of(read(e))
        odd = [l for l in notes if not l.startswith("#")]
        texts, why = made(e.split("/must-fail/")[0], pairs, read)
        if why or odd or not pairs:
            bad += 1
            print(f"{e}: {why or odd or 'no pair'}")
        elif any(t == read(p) for p, t in texts.items()):
            bad += 1
            print(f"{e}: changes nothing")
    print(f"{n} edits, {bad} can't be made")
    return bad != 0


def rounds(edits, files):
    """Puts the edits into rounds, so that what two of them change in one file and round lies far apart: the edits and the texts of each."""
    out = []
    for e, (crate, pairs) in sorted(edits.items()):
        places = []
        for at, old, _ in pairs:
            p = f"{crate}/{at}"
            t = files[p]
            places.append((p, t.count("\n", 0, t.find(old))))
        for group, taken, texts in out:
            if all(p != q or abs(a - b) > FAR for p, a in places for q, b in taken):
                done, _ = made(crate, pairs, lambda p: texts.get(p, files[p]))
                if done:
                    group.append(e)
                    taken += places
                    texts.update(done)
                    break
        else:
            done, why = made(crate, pairs, files.get)
            if why:
                raise SystemExit(f"{e} {why}")
            out.append(([e], places, done))
    return [(group, texts) for group, _, texts in out]


def ported(old, folder, texts):
    """The files of crates/ in a clone of `old` with these texts, behind port.py and port_names.py."""
    here = os.getcwd()
    git("clone", "-q", here, folder, where="/")
    git("checkout", "-q", old, where=folder)
    for p, t in texts.items():
        write(f"{folder}/{p}", t)
    git("-c", "user.name=x", "-c", "user.email=x@x", "commit", "-qam", "edits", where=folder)
    for words in ([sys.executable, "-c", RUN, PORT, folder + "-said"], *([sys.executable, f"{here}/tools/{it}.py"] for it in TURN)):
        ran = subprocess.run(words, cwd=folder, capture_output=True, text=True)
        if ran.returncode:
            print(ran.stdout[-2000:], ran.stderr[-2000:])
            raise SystemExit("the port failed")


def line_map(a, b):
    """For each line of a (and its end) the line of b that stands for it."""
    norm = lambda ls: [re.sub(r"\W+", "", l).lower().replace("_", "") for l in ls]
    to, last = {}, 0
    for tag, i, j, k, l in difflib.SequenceMatcher(None, norm(a), norm(b), False).get_opcodes():
        for x in range(i, j):
            to[x] = min(k + (x - i), max(l - 1, k)) if tag != "delete" else k
    to[len(a)] = len(b)
    return to


def tokens(text):
    return [(m[0], m.start(), m.end()) for m in TOKEN.finditer(text)]


def lines(text):
    return text.split("\n")


def plain(token):
    return token.replace("_", "").replace("-", "").lower()


def joined(text):
    return re.sub(r"\s*\n\s*", " ", text)


def changes(had, want, have):
    """What makes `want` of `had`, but for the layout, as it stands in `have`: (start, end, text), each with the tokens beside it on its line."""
    x, y, z = tokens(had), tokens(want), tokens(have)
    words = lambda ts: [t[0] for t in ts]
    on = {}
    for block in difflib.SequenceMatcher(None, words(x), words(z), False).get_matching_blocks():
        on.update({block.a + m: block.b + m for m in range(block.size)})
    # whether the tokens m to n of `had` stand on one line of `have`, one behind the other
    near = lambda m, n: all(k in on for k in range(m, n + 1)) and on[n] - on[m] == n - m and "\n" not in have[z[on[m]][1] : z[on[n]][2]]
    parts = []
    for tag, c, d, f, g in difflib.SequenceMatcher(None, words(x), words(y), False).get_opcodes():
        if tag != "equal":
            lo = 1 if c and f and near(c - 1, max(c - 1, min(c, d - 1))) else 0
            hi = 1 if d < len(x) and g < len(y) and near(min(c - lo, d), d) else 0
            if parts and c - lo <= parts[-1][1] and near(parts[-1][0], min(d, len(x) - 1)):
                c0, _, f0, _ = parts.pop()
                parts.append((c0, d + hi, f0, g + hi))
            else:
                parts.append((c - lo, d + hi, f - lo, g + hi))
    out = []
    for c, d, f, g in parts:
        if d > c and not all(k in on for k in range(c, d)) or d == c and c and c - 1 not in on:
            return None
        s, r = (z[on[c]][1], z[on[d - 1]][2]) if d > c else (z[on[c - 1]][2] if c else 0,) * 2
        out.append((s, r, joined(want[y[f][1] : y[g - 1][2]]) if g > f else ""))
    return out


def pieces(whole, spans, first, last):
    """The pairs that make the changes `spans` in the text `whole`, a line each, as wide as from first to last and standing once."""
    lined, pairs = [], []
    for s, r, n in sorted(spans):
        if lined and "\n" not in whole[lined[-1][0] : r]:
            s0, r0, n0 = lined.pop()
            lined.append((s0, r, n0 + whole[r0:s] + n))
        else:
            lined.append((s, r, n))
    for s, r, n in lined:
        a, b = whole.rfind("\n", 0, s) + 1, whole.find("\n", r)
        line = [(a + x, a + y) for _, x, y in tokens(whole[a:b])]
        lo, hi = min(s, max(first, line[0][0])), max(r, min(last, line[-1][1]))
        if whole.startswith("use ", a):
            # little of an import, of which other names may go
            lo, hi = [x for x, _ in line if x <= s][-4:][0], r
        for x in [lo] + [x for x, _ in reversed(line) if x < lo]:
            if whole.count(whole[x:hi]) == 1:
                lo = x
                break
        else:
            lo = line[0][0]
        for y in [hi] + [y for _, y in line if y > hi]:
            if whole.count(whole[lo:y]) == 1:
                hi = y
                break
        else:
            lo, hi = a, b
        if "\n" in whole[lo:hi] or whole.count(whole[lo:hi]) != 1:
            return None
        pairs.append((whole[lo:hi], whole[lo:s] + n + whole[r:hi]))
    return pairs


def main(argv):
    if argv == ["--check"]:
        return check()
    old, new = argv[:2]
    show = lambda p, c=old: git("show", f"{c}:{p}")
    names = [p for p in git("ls-tree", "-r", "--name-only", old, "crates").split() if p.endswith(".edit")]
    edits = {e: (e.split("/must-fail/")[0], pairs_of(show(e))[1]) for e in names}
    notes = {e: pairs_of(show(e))[0] for e in names}
    files = {f"{c}/{at}": show(f"{c}/{at}") for c, ps in edits.values() for at, _, _ in ps}
    work = tempfile.mkdtemp(prefix="port-edits-") if len(argv) < 3 else argv[2]
    todo = rounds(edits, files)
    print(f"{len(edits)} edits in {len(todo)} rounds, in {work}", flush=True)
    base = f"{work}/ported"
    if not os.path.isdir(base):
        git("clone", "-q", os.getcwd(), base, where="/")
        git("checkout", "-q", new, where=base)
        subprocess.run([sys.executable, os.path.abspath("tools/port_fields.py")], cwd=base, check=True)
    for k, (group, texts) in enumerate(todo):
        folder = f"{work}/{k}"
        if all(at.startswith("src/") for e in group for at, _, _ in edits[e][1]) and not any(made(*edits[e], read)[1] for e in group):
            for e in group:
                write_edit(e, *edits[e], notes[e], {})
            print(f"round {k}: {len(group)} edits of src/ stand as they were", flush=True)
            continue
        if not os.path.isdir(folder):
            ported(old, folder, texts)
        print(f"round {k}: {len(group)} edits", flush=True)
        place(group, edits, notes, files, folder, base)
    return check()


def place(group, edits, notes, files, folder, base_folder):
    """Reads off the ported clone what each edit of the group came to, and writes it."""
    by_file = {}
    for e in group:
        for n, (at, old, _) in enumerate(edits[e][1]):
            p = f"{edits[e][0]}/{at}"
            by_file.setdefault(p, []).append((files[p].find(old), e, n))
    found = {e: [] for e in group}
    for p, places in by_file.items():
        was, base, it, now = lines(files[p]), lines(read(f"{base_folder}/{p}")), lines(read(f"{folder}/{p}")), lines(read(p))
        to = line_map(was, base)
        ops = [o for o in difflib.SequenceMatcher(None, base, it, False).get_opcodes() if o[0] != "equal"]
        ons = line_map(base, now)
        for o in ops:
            # the edit whose line is nearest to what differs
            near = min(places, key=lambda x: min(abs(to[files[p].count("\n", 0, x[0])] - y) for y in (o[1], max(o[1], o[2] - 1))))
            found[near[1]].append((p, o, base, it, now, ons, near[2]))
    for e in group:
        out = {}
        for p, (tag, i, j, k, l), base, it, now, ons, n in found[e]:
            a, b = ons[i], ons[j - 1] + 1 if j > i else ons[i]
            whole = "\n".join(now)
            at = sum(len(x) + 1 for x in now[:a])
            have, want, had = "\n".join(now[a:b]), "\n".join(it[k:l]), "\n".join(base[i:j])
            spans = changes(had, want, have)
            if [t[0] for t in tokens(had)] != [t[0] for t in tokens(have)]:
                lost = ", and the edit has no place there" * (spans is None)
                print(f"LOOK {e}: today's lines are not the ported ones{lost}\n  ported: {had}\n  today:  {have}")
            # where the old text stood: its first and last word that today's lines have
            text = edits[e][1][n][1]
            pos = files[p].find(text)
            s = files[p].rfind("\n", 0, pos) + 1
            r = files[p].find("\n", pos)
            x, z = tokens(files[p][s:r]), tokens(have)
            on = {}
            for block in difflib.SequenceMatcher(None, [plain(t[0]) for t in x], [plain(t[0]) for t in z], False).get_matching_blocks():
                on.update({block.a + m: block.b + m for m in range(block.size)})
            inside = [on[m] for m, (_, u, v) in enumerate(x) if pos - s <= u and v <= pos - s + len(text.rstrip()) and m in on]
            first, last = (at + z[inside[0]][1], at + z[inside[-1]][2]) if inside else (len(whole), 0)
            made_at = out.setdefault(p, [whole, [], first, last])
            made_at[1] += [(at + u, at + v, m) for u, v, m in spans or []]
            made_at[2], made_at[3] = min(made_at[2], first), max(made_at[3], last)
        write_edit(e, *edits[e], notes[e], out)


def write_edit(e, crate, pairs, notes, out):
    short = e.removeprefix("crates/").removesuffix(".edit").replace("/must-fail", "")
    if short in ANEW:
        return write(e, text_of(notes, [(pairs[0][0], *it) for it in ANEW[short]]))
    brought = [LACKED[e]] if e in LACKED else []
    want = {}
    for p, (t, spans, _, _) in out.items():
        for s, r, n in sorted(spans, reverse=True):
            t = t[:s] + n + t[r:]
        want[p] = t.split()
    # the old text where it still stands and comes to the same
    kept, why = made(crate, pairs, read)
    if not why and not out or not why and set(kept) == set(want) and all(kept[p].split() == want[p] for p in want):
        return write(e, text_of(notes, brought + pairs))
    fresh = list(brought)
    for at in dict.fromkeys(p for p, _, _ in pairs):
        if f"{crate}/{at}" not in out:
            return print(f"LOOK {e}: nothing differs in {at}")
        got = pieces(*out[f"{crate}/{at}"])
        if got is None:
            return print(f"LOOK {e}: no piece of one line that stands once: {out[f'{crate}/{at}'][1]}")
        fresh += [(at, o, n) for o, n in got]
    texts, why = made(crate, fresh[len(brought) :], read)
    if why or any(texts[p].split() != want[p] for p in want):
        print(f"LOOK {e}: the pairs don't make it: {why or fresh}")
    write(e, text_of(notes, fresh))


if __name__ == "__main__":
    sys.exit(main(sys.argv[1:]))
