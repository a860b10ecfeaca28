#!/usr/bin/env python3
"""Spells this repository's own definitions and lemmas as today's Rattle does.

usage: python3 tools/port_names.py [TOP]      once, right after the kit's port.py, over the repository at TOP (here, by default)

A definition, lemma, field or constructor that stands in a specs/ folder or in a file of proofs/, and is written with
dashes, gets underscores, or, where it is a type (a capital first), upper camel case. Names of std that a file imports
stay. Words of a .rt file that need no guillemets lose them. Functions of src/, strings, inputs and outputs are not
touched, nor is prose: of comments and pages only what stands between backticks is turned.
It stops where two names would fall together.
"""

import os
import re
import sys

NAME = r"[A-Za-z_][A-Za-z0-9_']*(?:-[A-Za-z0-9_'≡≤≢ℕ]+)+"
BEFORE = r"(?<![\w'◌≡≤<-])"
AFTER = r"(?![\w'≡≤≢ℕ◌-])"
HEAD = re.compile(r"^\s*(?:pub |abbrev |unfoldable |record |data )*(" + NAME + r")\s*(?::|\(.*:|\{.*:)")
TYPE = re.compile(r"^\s*(?:pub )?(?:record|data) (" + NAME + r")")
IMPORT = re.compile(r"\buse (Rattle\.std|native|denote|specs|mathlib|lib)\b[^{};\n]*\{([^}]*)\}")
# goals and what Rattle names in a proof: they follow the code, and are not ours to spell
MADE = re.compile(r"^(returns|loop|invariant|decreases|overflow|bounds|offset|if|then|else|in)-")
# words that a .rt file writes in guillemets, since Rust or a clause reads them otherwise
KEPT = set("""as break const continue crate else enum extern false fn for if impl in let loop match mod move mut pub ref return
self Self static struct super trait true type unsafe use where while async await dyn abstract become box do final macro override
priv typeof unsized virtual yield try record ruleset data open module elim abbrev unfolding unfoldable ghost result""".split())


def walk(top, ends):
    for base, dirs, files in os.walk(top):
        dirs[:] = sorted(d for d in dirs if d not in (".git", "out", "target"))
        for f in sorted(files):
            if f.endswith(ends):
                yield os.path.join(base, f)


def read(p):
    with open(p, encoding="utf-8") as f:
        return f.read()


def own_names(top):
    found = set()
    for p in walk(os.path.join(top, "crates"), ".rt"):
        found.update(re.findall(r" as «(" + NAME + ")»", read(p)))
    for p in walk(os.path.join(top, "crates"), ".antt"):
        parts = os.path.relpath(p, top).split(os.sep)
        of_function = parts[2] == "proofs" and len(parts) > 4
        for line in read(p).split("\n"):
            text = line.split("--")[0]
            if text.strip().startswith("use "):
                found.update(re.findall(r" as (" + NAME + ")", text))
                continue
            for head in (HEAD, TYPE):
                m = head.match(text)
                if m and not (of_function and (MADE.match(m.group(1)) or " : goal." in text)):
                    found.add(m.group(1))
    return found


def spelled(name):
    if name.startswith("All-"):
        return name
    if name[0].isupper():
        return "".join(part[0].upper() + part[1:] for part in name.split("-"))
    return name.replace("-", "_")


def fall_together(top, names):
    """Names of ours that are written already as another is to be."""
    words = set()
    for p in walk(os.path.join(top, "crates"), ".antt"):
        for line in read(p).split("\n"):
            text = line.split("--")[0]
            m = re.match(r"^\s*(?:pub |abbrev |unfoldable |record |data )*([A-Za-z_][A-Za-z0-9_']*)\s*(?::|\(.*:|\{.*:)", text)
            if m and "goal." not in text:
                words.add(m.group(1))
    new = {}
    for n in sorted(names):
        to = spelled(n)
        if to != n and to in words:
            print(f"falls together with a name that stands: {n} -> {to}")
        if to in new:
            print(f"fall together: {n}, {new[to]} -> {to}")
        new[to] = n


def turn(text, names):
    def one(m):
        n = m.group(0)
        return spelled(n) if n in names else n

    return re.sub(BEFORE + NAME + AFTER, one, text)


def ticked(text, names):
    return re.sub(r"`[^`\n]*`", lambda m: turn(m.group(0), names), text)


def in_code(text, names, mark):
    """Turns code, line by line: after the mark of a comment only what stands between backticks, in a string nothing."""
    out = []
    for line in text.split("\n"):
        done, rest = "", line
        while rest:
            stop = re.search(re.escape(mark) + r"|\"(?:[^\"\\]|\\.)*\"", rest) if mark == "//" else re.search(r"--", rest)
            if not stop:
                done, rest = done + turn(rest, names), ""
            elif stop.group(0) == mark:
                done, rest = done + turn(rest[: stop.start()], names) + ticked(rest[stop.start() :], names), ""
            else:
                done, rest = done + turn(rest[: stop.start()], names) + stop.group(0), rest[stop.end() :]
        out.append(done)
    return "\n".join(out)


ALIAS = re.compile(r"\bAllByRecursion as All\b")


def own_word(text, mark):
    """The library's `All` goes by index now: where ours went by recursion it is cited by the name that this has."""
    if not ALIAS.search(text):
        return text
    out = []
    for line in ALIAS.sub("AllByRecursion", text).split("\n"):
        code, dash, note = line.partition(mark)
        out.append(re.sub(r"(?<![\w'-])All(?![\w'-])", "AllByRecursion", code) + dash + note)
    return "\n".join(out)


def bare(text):
    return re.sub(r"«([A-Za-z_][A-Za-z0-9_]*)»", lambda m: m.group(0) if m.group(1) in KEPT else m.group(1), text)


def main():
    top = os.path.abspath(sys.argv[1] if len(sys.argv) > 1 else ".")
    names = own_names(top)
    fall_together(top, names)
    changed = 0
    for p in walk(os.path.join(top, "crates"), (".antt", ".rt")):
        old = read(p)
        theirs = {w.split(" as ")[0].strip() for m in IMPORT.finditer(old) for w in m.group(2).split(",")}
        new = in_code(old, names - theirs, "//" if p.endswith(".rt") else "--")
        new = own_word(new, "//" if p.endswith(".rt") else "--")
        if p.endswith(".rt"):
            new = bare(new)
        if new != old:
            with open(p, "w", encoding="utf-8") as f:
                f.write(new)
            changed += 1
    for p in list(walk(os.path.join(top, "docs"), ".md")) + [os.path.join(top, "README.md")]:
        if os.path.basename(p).startswith("PORT"):
            continue
        old = read(p)
        new = ticked(old, names)
        if new != old:
            with open(p, "w", encoding="utf-8") as f:
                f.write(new)
            changed += 1
    print(f"{len(names)} names of ours, {changed} files changed")


if __name__ == "__main__":
    main()
