#!/usr/bin/env python3
"""Takes the ending _lem from fields, from a constructor and from a worked case: tools/port_names.py gave it to all that shared a
function's name, and only lemmas want it. And takes the dash from definitions and fields of specs/, where only lemmas have one.
Run once, behind port_names.py.
"""
import os
import re

FIELDS = "first_row node_port in_time waits_told frame_low interrupt_low next_turns run_to".split()
# the field of proofs/Demand3/OneCall.antt that is built by these records went with them
# the constructor of InRange, and a worked case of trials
WHOLE = {"given_up_lem": "given_up", "made_normal_lem": "made_normal"}

DASHED = """down-and-up first-line found-turned handed-up long-answered m13-lines more-reserved not-due not-put-up three-levels
three-levels-by three-rounds times-behind turning-down turning-slips two-lines two-rounds worked-looks worked-runs""".split()


def turn(p, t):
    for n in DASHED:
        t = re.sub(rf"(?<![\w-]){n}(?![\w-])", n.replace("-", "_"), t) if not p.endswith(".rt") else t
    for f in FIELDS:
        t = re.sub(rf"(?<![A-Z]\w)\.{f}_lem\b", f".{f}", t)
        t = re.sub(rf"([{{;]\s*){f}_lem =", rf"\1{f} =", t)
        if "/specs/" in p:
            t = re.sub(rf"(?m)^(\s+pub ){f}_lem :", rf"\1{f} :", t)
    if "/fit_theory/" not in p:
        t = re.sub(r"\bgiven_up_lem\b", "given_up", t)
    if "/trials/" in p:
        t = re.sub(r"\bmade_normal_lem\b", "made_normal", t)
    return t


for folder, dirs, files in os.walk("crates"):
    dirs[:] = [d for d in dirs if d != "out"]
    for name in files:
        if name.endswith((".antt", ".rt")):
            path = os.path.join(folder, name)
            with open(path, encoding="utf-8") as f:
                old = f.read()
            new = turn(path, old)
            if new != old:
                with open(path, "w", encoding="utf-8") as f:
                    f.write(new)
