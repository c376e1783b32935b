#!/usr/bin/env python3
"""Spells the repository's own definitions and lemmas as today's Rattle does: words in snake case, types in camel case.

usage: tools/respell.py [--check]     at the top of the repository, once, after the upgrade's own script

A name is one that an .antt file of specs/ or proofs/ declares (a definition, a lemma, a field, a constructor) and that has a hyphen.
Names that Rattle makes (the goals of a function and the places of its code) and names of libraries stay as they are.
In .rt files only clauses, ghost items and imports of ghost names are read, never code, strings or comments.
It says which names would fall together with another, and leaves those.
"""
import os
import re
import sys

TOKEN = r"[^\s(){}.;,@\"«»:=\[\]|]+"
DECLARED = re.compile(r"(?m)^ *(?:(?:pub|abbrev|unfoldable|record|data|irreducible|where) )*([^\s(){}.;,:]+)(?: [({][^\n]*?[)}])* ?:(?=\s)")
RECORD = re.compile(r"(?m)^(?:pub )?(?:record|data) ([^\s(){}.;,:]+)")
USE = re.compile(r"\buse ([^\s;{]+)\{([^}]*)\}")
MADE = re.compile(r"(?m)^(?:pub )?(\S+) : goal\.\1\b(?![\w-])")
HAND = re.compile(r"/(Answers|Invariants|Proof)\.antt$")


def files():
    for top, dirs, names in os.walk("crates"):
        dirs[:] = sorted(d for d in dirs if d not in ("out", "must-fail", "data"))
        for it in sorted(names):
            if it.endswith((".antt", ".rt")):
                yield os.path.join(top, it)


def read(path):
    with open(path, encoding="utf-8") as f:
        return f.read()


def code_of(text):
    return "\n".join(l.split("-- ")[0] if not l.startswith("--") else "" for l in text.split("\n"))


def spelled(name):
    if name[0].isupper():
        return "".join(p[:1].upper() + p[1:] for p in name.split("-"))
    return name.replace("-", "_")


def theirs(code):
    """The names that a file imports from a library."""
    out = set()
    for path, names in USE.findall(code):
        steps = path.strip(".").split(".")
        own = steps[0] == "Rattle" and os.path.isdir(os.path.join("crates", steps[1]))
        if not own:
            for it in names.split(","):
                out.update(it.split(" as ")[0].split())
    return out


def made_in(path, code):
    """The names that a function's answers and invariants declare and that Rattle makes."""
    if not HAND.search(path):
        return set()
    return set(MADE.findall(code)) | set(re.findall(r"(?m)\b((?:invariant|decreases)-\S+) :", code))


def declared(all_files):
    names = set()
    for path in all_files:
        if not path.endswith(".antt"):
            continue
        code = code_of(read(path))
        made = made_in(path, code)
        here = set(DECLARED.findall(code)) | set(RECORD.findall(code))
        names |= {it for it in here - made if "-" in it and re.match(r"[A-Za-z][\w'-]*\w'?$", it)}
    return names


def ghost_spans(text):
    """The places of an .rt file that name definitions: clauses, ghost items, imports of ghost names."""
    for m in re.finditer(r"(?m)^\s*(?:pub )?ghost use [^;]*;", text):
        yield m.span()
    for m in re.finditer(r"\b(?:requires|ensures|ghost)\b\*?(?: \w+)?(?:: | = | )\{", text):
        depth, i = 1, m.end()
        while i < len(text) and depth:
            depth += (text[i] == "{") - (text[i] == "}")
            i += 1
        yield m.end(), i
    for m in re.finditer(r"#\[tactic\([^\]]*\)\]|#!\[tactic\([^\]]*\)\]", text):
        yield m.span()


def main():
    all_files = list(files())
    own = declared(all_files)
    table = {it: spelled(it) for it in own}
    back = {}
    for old, new in table.items():
        back.setdefault(new, set()).add(old)
    together = {new for new, olds in back.items() if len(olds) > 1}
    clashes = set()
    for path in all_files:
        if path.endswith(".antt"):
            code = code_of(read(path))
            tokens = set(re.findall(TOKEN, re.sub(r"\bRattle(?:\.[\w'-]+)+", " ", code)))
            for old in own & tokens:
                if table[old] in tokens or table[old] in together:
                    clashes.add((old, table[old], path))
    for it in sorted(clashes):
        print("clash:", *it)
    stay = {old for old, _, _ in clashes}
    for old in stay:
        table.pop(old, None)
    if "--check" in sys.argv:
        print(len(table), "names")
        return
    word = re.compile(r"(?<![^\s(){}.;,@\"«»:=\[\]|])(" + "|".join(sorted(map(re.escape, table), key=len, reverse=True)) + r")(?![^\s(){}.;,@\"«»:=\[\]|])")
    changed = 0
    for path in all_files:
        text = read(path)
        if path.endswith(".antt"):
            lent = theirs(code_of(text))
            made = made_in(path, text)

            def turn(m):
                it = m[1]
                before = text[: m.start()]
                if it in lent:
                    return it
                if it in made or before.endswith("goal."):
                    return it
                return table[it]

            new = word.sub(turn, text)
        else:
            spans = sorted(ghost_spans(text))
            new, at = "", 0
            for a, b in spans:
                if a < at:
                    continue
                new += text[at:a] + word.sub(lambda m: table[m[1]], text[a:b])
                at = b
            new += text[at:]
        if new != text:
            with open(path, "w", encoding="utf-8") as f:
                f.write(new)
            changed += 1
    print(f"{len(table)} names, {changed} files")


if __name__ == "__main__":
    main()
