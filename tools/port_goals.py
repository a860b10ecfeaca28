#!/usr/bin/env python3
"""Brings what proof files cite of a function's goals and steps to today's spelling: names of the source keep theirs.

usage: python3 tools/port_goals.py [TOP]      once, after port_names.py

An older Rattle wrote a source's `mark_region` as `mark-region` in the names of goals and steps. Here each identifier of
a crate's src/ is put back to its own spelling inside such names, in the proof files of that crate's functions.
"""

import os
import re
import sys

from port_names import read, walk

TOKEN = re.compile(r"(?<![\w'◌≡≤<])[A-Za-z_][A-Za-z0-9_']*(?:-[A-Za-z0-9_']+)+(?![\w'≡≤≢ℕ◌→-])")
MADE = [("in-default", "in_default"), ("in-ok", "in_ok"), ("in-err", "in_err"), ("invariant-of-", "invariant_of-"), ("offset-bounds-", "offset_bounds-")]
MADE += [(f"overflow-{w}-", f"overflow_{w}-") for w in ("add", "sub", "mul", "cast", "shl", "shr", "step", "neg")]
MADE += [("nonzero-div-", "nonzero_div-"), ("nonzero-rem-", "nonzero_rem-")]


def main():
    top = os.path.abspath(sys.argv[1] if len(sys.argv) > 1 else ".")
    changed = 0
    for crate in sorted(os.listdir(os.path.join(top, "crates"))):
        home = os.path.join(top, "crates", crate)
        words = set()
        for p in walk(os.path.join(home, "src"), ".rt"):
            words.update(w for w in re.findall(r"[A-Za-z_][A-Za-z0-9_]*", read(p)) if "_" in w.strip("_"))
        words = sorted(words, key=len, reverse=True)
        for p in walk(os.path.join(home, "proofs"), ".antt"):
            if os.path.dirname(p) == os.path.join(home, "proofs"):
                continue
            old = read(p)
            cited = {w.split(" as ")[0].strip() for m in re.finditer(r"\buse (?!.*\.Goals)(?!.*\.Given)[^{};\n]*\{([^}]*)\}", old) for w in m.group(1).split(",")}

            def one(m):
                n = m.group(0)
                if n in cited:
                    return n
                for a, b in MADE:
                    n = re.sub(r"(?<![A-Za-z0-9_'])" + a + (r"(?![A-Za-z0-9_'])" if not a.endswith("-") else ""), b, n)
                for w in words:
                    dashed = w.replace("_", "-")
                    if dashed in n:
                        n = re.sub(r"(?<![A-Za-z0-9_'])" + re.escape(dashed) + r"(?![A-Za-z0-9_'])", w, n)
                return n

            new = "\n".join(TOKEN.sub(one, l) if not l.strip().startswith("--") else l for l in old.split("\n"))
            if new != old:
                with open(p, "w", encoding="utf-8") as f:
                    f.write(new)
                changed += 1
    print(f"{changed} proof files changed")


if __name__ == "__main__":
    main()
