#!/usr/bin/env python3
"""Brings the names of definitions and lemmas to one spelling: words in snake_case, types in CamelCase.

usage: python3 tools/respell.py [--dry]        at the top of the repository

A name is the repository's own where it is defined in specs/ or proofs/: at the top of a file or as a field or a
constructor, and then it is respelled in every file; or as a parameter or a local name, and then in its own file alone.
Names that the checker makes (goals, places and values of a walk) and names of the library keep their hyphens, and so
do file names, functions of src/, strings and comments; in comments, in docs/ and in the README a name is respelled where
it stands between back quotes, but in docs/PORT.md, which has old names beside new ones. What falls together with another
name of the same file is said, and nothing is written; a module of a path and a function of src/ are no such names.
"""

import os
import re
import sys

WORD = r"[^\W\d][\w']*(?:-[\w']+)*"
TOKEN = re.compile(rf"(?<![\w'-]){WORD}(?![\w'-])")


def spelled(name):
    """The new spelling of a name that has a hyphen, or of a type that has an underscore."""
    if name[0].isupper():
        return "".join(p[:1].upper() + p[1:] for p in re.split(r"[-_]", name))
    return name.replace("-", "_")


def wrong(name):
    return "-" in name or (name[0].isupper() and "_" in name)


def lines_of_code(text, mark):
    """Pairs of code and comment, line by line."""
    for line in text.split("\n"):
        if mark == "//" and '"' in line:
            cut = None
            inside = False
            for i, ch in enumerate(line):
                if ch == '"' and (i == 0 or line[i - 1] != "\\"):
                    inside = not inside
                if not inside and line.startswith("//", i):
                    cut = i
                    break
        else:
            m = re.search(r"(?:^|(?<=\s))--(?=\s|$)", line) if mark == "--" else re.search("//", line)
            cut = m.start() if m else None
        yield (line, "") if cut is None else (line[:cut], line[cut:])


def files():
    for folder, dirs, names in os.walk("crates"):
        dirs[:] = sorted(d for d in dirs if d != "out")
        for f in sorted(names):
            if f.endswith((".antt", ".rt")):
                yield os.path.join(folder, f)


def is_lemma_file(path):
    parts = path.split(os.sep)
    return parts[2] == "specs" or (parts[2] == "proofs" and len(parts) == 4)


def bound(path, text):
    """The names that a file of antt binds: those known everywhere, and those of this file alone."""
    everywhere, here = set(), set()
    code = "\n".join(c for c, _ in lines_of_code(text, "--"))
    for m in re.finditer(rf"(?m)^(?P<in>\s*)(?:abbrev |unfoldable )?(?:pub )?(?:abbrev |unfoldable )?(?:data |record )?(?P<n>{WORD})(?: [^:=\n]*)?(?<!:) :(?: (?P<t>.*))?$", code):
        if (m["t"] or "").startswith(("goal.", "given.")):
            continue
        if is_lemma_file(path) and (not m["in"] or re.match(r"\s*(pub |abbrev |unfoldable )", m.group()) or re.search(r"(?m)^(pub )?(data|record) .*\n(?:(?:  .*)?\n)*\Z", code[: m.start()])):
            everywhere.add(m["n"])
        else:
            here.add(m["n"])
    for m in re.finditer(rf"[({{]\s*((?:{WORD}\s+)+):", code):
        here.update(m[1].split())
    for m in re.finditer(rf"\blet ({WORD})", code):
        here.add(m[1])
    for m in re.finditer(rf"λ ((?:{WORD} )*{WORD})\.", code):
        here.update(m[1].split())
    return {n for n in everywhere if wrong(n)}, {n for n in here if wrong(n)}


def main(argv):
    texts = {p: open(p, encoding="utf-8").read() for p in files()}
    everywhere, here = set(), {}
    for p, t in texts.items():
        if p.endswith(".antt"):
            g, l = bound(p, t)
            everywhere |= g
            here[p] = l
    bad = 0
    out = {}
    for p, t in texts.items():
        mark = "--" if p.endswith(".antt") else "//"
        own = everywhere | here.get(p, set())
        made = {}
        for code, _ in lines_of_code(t, mark):
            if mark == "//" and not re.match(r"\s*(ghost|requires|ensures)\b", code):
                continue
            for m in TOKEN.finditer(code):
                n = m.group()
                if code[m.end() : m.end() + 1] == ".":
                    continue
                to = spelled(n) if n in own else n
                made.setdefault(to, set()).add(n)
        for to, ns in sorted(made.items()):
            if len(ns) > 1:
                print(f"{p}: {' and '.join(sorted(ns))} fall together")
                bad += 1
        turn = lambda s: TOKEN.sub(lambda m: spelled(m.group()) if m.group() in own else m.group(), s)
        quoted = lambda s: re.sub(r"`[^`\n]*`", lambda m: turn(m.group()), s)
        out[p] = "\n".join(turn(c) + quoted(k) for c, k in lines_of_code(t, mark))
    words = {m.group() for t in out.values() for m in TOKEN.finditer(t)}
    for p in ["README.md"] + [os.path.join("docs", f) for f in sorted(os.listdir("docs")) if f.endswith(".md") and f != "PORT.md"]:
        t = open(p, encoding="utf-8").read()
        turn = lambda m: TOKEN.sub(lambda k: spelled(k.group()) if k.group() in everywhere or (wrong(k.group()) and spelled(k.group()) in words) else k.group(), m.group())
        texts[p] = t
        out[p] = re.sub(r"`[^`\n]+`", turn, t)
    if "--names" in argv:
        for n in sorted(everywhere):
            print(n, "->", spelled(n))
    if bad or "--dry" in argv:
        print(f"{len(everywhere)} names known everywhere; {bad} fall together; nothing was written")
        return 1 if bad else 0
    n = 0
    for p, t in out.items():
        if t != texts[p]:
            open(p, "w", encoding="utf-8").write(t)
            n += 1
    print(f"{len(everywhere)} names known everywhere; {n} files respelled")
    return 0


if __name__ == "__main__":
    raise SystemExit(main(sys.argv[1:]))
