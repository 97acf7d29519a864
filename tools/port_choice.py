#!/usr/bin/env python3
"""Takes if_then_else from the library's Prelude in place of rules' own, which went: rt ci refuses another under its name. Run once."""
import os
import re

OWN = re.compile(r"(?m)^(ghost )?use Rattle\.rules\.specs\.Choice\.\{([^}]*)\}(;?)\n")
PRELUDE = re.compile(r"(?m)^(ghost )?use Rattle\.std\.specs\.Prelude\.\{([^}]*)\}")
WORD = "if◌then◌else◌"

for folder, dirs, files in os.walk("crates"):
    dirs[:] = [d for d in dirs if d != "out"]
    for name in files:
        path = os.path.join(folder, name)
        if not name.endswith((".antt", ".rt")):
            continue
        with open(path, encoding="utf-8") as f:
            t = old = f.read()
        m = OWN.search(t)
        words = [w.strip() for w in m[2].split(",")] if m else []
        if WORD not in words:
            continue
        words.remove(WORD)
        ghost, end = m[1] or "", m[3]
        rest = f"{ghost}use Rattle.rules.specs.Choice.{{{', '.join(words)}}}{end}\n" if words else ""
        t = t[: m.start()] + rest + t[m.end() :]
        p = PRELUDE.search(t)
        if p:
            t = t[: p.start()] + f"{p[1] or ''}use Rattle.std.specs.Prelude.{{{p[2]}, {WORD}}}" + t[p.end() :]
        else:
            at = m.start()
            t = t[:at] + f"{ghost}use Rattle.std.specs.Prelude.{{{WORD}}}{end}\n" + t[at:]
        with open(path, "w", encoding="utf-8") as f:
            f.write(t)
