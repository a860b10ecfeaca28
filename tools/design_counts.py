#!/usr/bin/env python3
"""Counts the places of src/ that an older Rattle's design left, point by point.

usage: python3 tools/design_counts.py [COMMIT] [--list] [--only NAME]

Without COMMIT the working tree is read. --list prints each place, --only NAME the places of one name. Tests are left out.
"""

import collections
import re
import subprocess
import sys


def sources(commit, folder="/src/", end=".rt"):
    def git(*words):
        return subprocess.run(["git", *words], check=True, capture_output=True, text=True).stdout

    if commit:
        paths = git("ls-tree", "-r", "--name-only", commit, "crates").split("\n")
    else:
        paths = git("ls-files", "crates").split("\n")
    for path in sorted(paths):
        if path.endswith(end) and folder in path:
            yield path, git("show", f"{commit}:{path}") if commit else open(path, encoding="utf-8").read()


class Function:
    def __init__(self, path, line, name, params, result, clauses, body):
        self.path, self.line, self.name = path, line, name
        self.params, self.result, self.clauses, self.body = params, result, clauses, body

    def at(self):
        return f"{self.path}:{self.line}: {self.name}"


def closing(text, start, opens, closes):
    depth = 0
    for at in range(start, len(text)):
        if text[at] == opens:
            depth += 1
        elif text[at] == closes:
            depth -= 1
            if depth == 0:
                return at
    return len(text) - 1


def split_top(text):
    depth, part, parts = 0, "", []
    for letter in text:
        depth += letter in "([{<"
        depth -= letter in ")]}>"
        if letter == "," and depth == 0:
            parts.append(part)
            part = ""
        else:
            part += letter
    return [p.strip() for p in parts + [part] if p.strip()]


def functions(path, text):
    text = re.sub(r"//[^\n]*", lambda m: " " * len(m.group(0)), text)
    for m in re.finditer(r"\bfn (\w+)", text):
        head = text[max(0, m.start() - 60):m.start()]
        if re.search(r"#\[test\]\s*$", head):
            continue
        at = m.end()
        if text[at] == "<":
            depth = 0
            while True:
                if text[at] == "<":
                    depth += 1
                elif text[at] == ">" and text[at - 1] != "-":
                    depth -= 1
                at += 1
                if depth == 0:
                    break
        if at >= len(text) or text[at] != "(":
            continue
        end = closing(text, at, "(", ")")
        params = split_top(text[at + 1:end])
        rest = text[end + 1:]
        result = re.match(r"\s*->\s*([^{;]*?)(?=\s*(?:\{|;|\n\s*(?:requires|ensures|where)\b))", rest)
        where = end + 1 + (result.end() if result else 0)
        clauses = []
        while True:
            c = re.compile(r"\s*(requires|ensures\*?)(?:\s+(\w+))?\s*\{").match(text, where)
            if not c:
                break
            stop = closing(text, c.end() - 1, "{", "}")
            clauses.append((c.group(1), c.group(2) or "", " ".join(text[c.end():stop].split())))
            where = stop + 1
        b = re.compile(r"\s*\{").match(text, where)
        body = text[b.end():closing(text, b.end() - 1, "{", "}")] if b else ""
        yield Function(path, text.count("\n", 0, m.start()) + 1, m.group(1), params, (result.group(1) if result else "").strip(), clauses, body)


def shape(f):
    """The body with its names numbered in order and its numbers left out."""
    names = {}
    words = []
    for word in re.findall(r"\w+|[^\w\s]", f.body):
        if re.fullmatch(r"\d\w*", word):
            word = "0"
        elif re.match(r"[A-Za-z_]", word) and word not in KEPT:
            word = names.setdefault(word, f"#{len(names)}")
        words.append(word)
    return " ".join(words)


KEPT = set("let mut if else match for in while loop return fn self Self Some None Ok Err as true false break continue Result Option write f".split())


def lines(files, pattern):
    for path, text in files:
        for number, line in enumerate(text.split("\n"), 1):
            if not line.strip().startswith("//") and re.search(pattern, line):
                yield f"{path}:{number}: {line.strip()}"


def main():
    words = [w for w in sys.argv[1:] if not w.startswith("--")]
    only = None
    if "--only" in sys.argv:
        only = sys.argv[sys.argv.index("--only") + 1]
        words.remove(only)
    files = [(p, t) for p, t in sources(words[0] if words else None)]
    code = [f for p, t in files for f in functions(p, t)]

    def told(point, what, places):
        places = list(places)
        if only and not point.startswith(only):
            return
        print(f"{point:16} {len(places):4}  {what}")
        if "--list" in sys.argv:
            for place in places:
                print("            " + place)

    told("option-refusals", "functions that answer a refusal as an Option", (f.at() for f in code if re.search(r"Option<\w*Refusal>", f.result)))
    told("passed-on", "refusals passed on by hand: `if let Some(why) .. return`, a match that wraps Ok or Err again", [p for p in lines(files, r"if let (Some|Err)\((why|what|none)\)|Ok\((\w+)\) => Ok\(\3\)|Err\((why)\) => Err\(|Err\((_|\w+)\) => (return )?Err\(")])
    told("bools", "a bool that says whether a step was done", (f.at() for f in code if f.result == "bool" and ("&mut" in " ".join(f.params)) and re.search(r"return false;|=> false|\bfalse\n|match", f.body) and not re.search(r"grew", f.body)))
    told("zeros", "a number that stands for none", lines(files, r"None => 0,|!= 0\s*\{|\.len [!=]= 0|item: 0 \}|get_or\(.*, 0\)|latest\.push\(0\)|^    0$"))
    told("flags", "a flag with a value beside it", lines(files, r"^\s+(pub )?\w+: bool,$"))
    shapes = collections.defaultdict(list)
    for f in code:
        if len(re.findall(r"\w+", f.body)) >= 3 and not f.path.endswith("laws.rt") and "fmt::Formatter" not in " ".join(f.params):
            shapes[shape(f)].append(f)
    told("twins", "functions whose bodies differ only in names and numbers", (", ".join(g.at() for g in group) for group in shapes.values() if len(group) > 1))
    told("ranges", "loops over a counted range", lines(files, r"^\s*('\w+: )?for \w+ in .*\.\.(?!\.)"))
    told("stepped", "loops that count or step an index by hand", lines(files, r"^\s*while (?!let)"))
    told("looks", "loops that only look, count, sum or fill", (f.at() for f in code if re.search(r"\bfor\b[^{]*\{\s*(if [^{]*\{\s*(return (true|false|Some\(\w+\)|\w+);|\w+ \+= 1;)\s*\}|\w+\[\w+\] = 0;|total \+=[^;]*;|let Some[^;]*;[^;]*;[^;]*;\s*)\s*\}", f.body)))
    told("texts", "texts printed by hand", lines(files, r"impl fmt::Display for"))
    told("taken-apart", "an option or a result taken apart by hand to copy, default, map or compare what is in it", lines(files, r"Some\((\w+)\) => (\*|\w+ == |\1 \+)|None => (None|0|false),$|Ok\(\) => true|Ok\(_\) => true"))
    told("own-conversions", "conversions and comparisons by functions of our own", (f.at() for f in code if f.name in ("from_table", "number", "item_of", "entry", "put_number", "same", "is_item", "lies_at", "holds", "is_letter", "is_digit", "none", "zeros", "code_of", "item_at") and f.name + f.path not in ("holds" + f.path if "inventory" in f.path else "",)))
    clauses = collections.defaultdict(set)
    for f in code:
        for kind, name, text in f.clauses:
            clauses[text].add(f.at())
    told("clauses", "clauses that stand in three functions or more", (f"{len(fs)} times: {text}" for text, fs in sorted(clauses.items(), key=lambda x: -len(x[1])) if len(fs) > 2))
    pairs = collections.defaultdict(list)
    for f in code:
        named = sorted({re.sub(r"^mut ", "", p) for p in f.params if ":" in p and "&HostRuntime" not in p})
        for i, a in enumerate(named):
            for b in named[i + 1:]:
                plain = tuple(re.sub(r"&mut |&", "", x) for x in (a, b))
                pairs[plain].append(f.at())
    told("parameters", "pairs of parameters that stand in three functions or more", (f"{len(fs)} times: {a}, {b}" for (a, b), fs in sorted(pairs.items(), key=lambda x: -len(x[1])) if len(fs) > 2))
    told("lengths", "structs with a buffer and a length beside it", (f"{p}: {m.group(1)}" for p, t in files for m in re.finditer(r"struct (\w+)[^{;]*\{([^}]*)\}", t) if re.search(r":\s*(&'a mut )?\[", m.group(2)) and re.search(r"\b(len|count): usize", m.group(2))))
    told("indices", "rows that are known by an index or a range of numbers", (f"{p}: {m.group(1)}" for p, t in files for m in re.finditer(r"struct (\w+)[^{;]*\{([^}]*)\}", t) if re.search(r"start: u16|earlier:|latest:", m.group(2))))
    told("steps", "the same steps around one that differs: a guard made of lent bytes after the test of their number", lines(files, r"Marks \{ bytes: lent \}"))
    told("", "functions in all", (f.at() for f in code))
    proofs = [(p, t) for p, t in sources(words[0] if words else None, "/proofs/", ".antt")]
    told("answers", "goals answered by hand", (f"{p}: {n}" for p, t in proofs if p.endswith("/Answers.antt") for n in re.findall(r"^pub (\S+) :", t, re.M)))
    told("lines", "lines in proofs/", (f"{p}" for p, t in proofs for _ in t.rstrip().split("\n")))
    told("", "closures", lines(files, r"[(,=]\s*(move )?\|[\w&(), ]*\|"))


if __name__ == "__main__":
    try:
        main()
    except BrokenPipeError:
        pass
