#!/usr/bin/env python3
"""Spells the repository's own ghost names in snake case, where an older spelling had hyphens, and names the crate of bytes' bits `bits`,
since the kit has a library named `bytes`.

usage: python3 tools/respell.py        at the top of the repository

It was run once, after the kit's port.py. A name is the repository's own if a file of specs/ or proofs/ declares it: a definition, a lemma,
a field, a variant or a helper behind `where`. Names of the standard library, and those that Rattle generates for goals and facts, keep
their hyphens. Comments and strings stay. Names that would fall together with another of the same crate are printed, and stay.
"""

import os
import re
import sys

IDENT = r"[A-Za-z_][\w'→₀-₉]*(?:-[\w'→₀-₉]+)*"
DECLARED = re.compile(rf"^\s*(?:unfoldable\s+|abbrev\s+)?(?:pub\s+)?({IDENT})\s+:(?:\s|$)")
TOKEN = re.compile(rf"(?<![\w'-])({IDENT})(?![\w'-])")


def files():
    for folder, dirs, names in os.walk("crates"):
        dirs[:] = sorted(d for d in dirs if d != "out")
        for name in sorted(names):
            if name.endswith((".antt", ".rt")):
                yield os.path.join(folder, name)


def code_and_comment(line, antt):
    mark = "--" if antt else "//"
    if antt:
        found = re.search(r"(?<![^\s])--(?=\s|$)", line)
        at = found.start() if found else -1
    else:
        at = line.find(mark)
    return (line, "") if at < 0 else (line[:at], line[at:])


# Two lemmas that would fall together with words of std.
OTHERWISE = {"bit-and": "bit_of_and", "bit-or": "bit_of_or"}


def rename_crate(old, new):
    """Renames a crate: its folder, its line and the lines that stand on it, and the paths that begin with it."""
    if not os.path.isdir(f"crates/{old}"):
        return
    os.rename(f"crates/{old}", f"crates/{new}")
    rewrite("crates.txt", lambda t: re.sub(rf"(?m)(?<![\w']){old}(?![\w'])", new, t))
    for path in files():
        rewrite(path, lambda t: re.sub(rf"(Rattle\.){old}(?=\.)", rf"\g<1>{new}", re.sub(rf"(\buse ){old}(?=::)", rf"\g<1>{new}", t)))


def rewrite(path, turn):
    with open(path, encoding="utf-8") as f:
        old = f.read()
    new = turn(old)
    if new != old:
        with open(path, "w", encoding="utf-8") as f:
            f.write(new)


def main():
    own, everything, statements = set(), set(), set()
    for path in files():
        with open(path, encoding="utf-8") as f:
            for line in f:
                code, _ = code_and_comment(line, path.endswith(".antt"))
                everything.update(TOKEN.findall(code))
                if not path.endswith(".antt"):
                    continue
                own.update(n for n in re.findall(rf" as ({IDENT})", code) if "-" in n)
                own.update(n for n in re.findall(rf"[({{]({IDENT}(?: {IDENT})*) :", code) for n in n.split() if "-" in n)
                found = DECLARED.match(code)
                if not found or "-" not in found.group(1):
                    continue
                at_top = not code.startswith(" ")
                if at_top and os.path.basename(path) in ("Answers.antt", "Invariants.antt", "Proof.antt") and re.search(r":\s*(goal|Goals|Given)\.", code):
                    statements.add(found.group(1))
                    continue
                own.add(found.group(1))
    own -= statements
    # names of the standard library that are brought in by `use` are not the repository's
    for path in files():
        if not path.endswith(".antt"):
            continue
        with open(path, encoding="utf-8") as f:
            for line in f:
                found = re.match(r"\s*(?:ghost )?use (Rattle\.std|mathlib|native|lib|Prim)\S*\{([^}]*)\}", line)
                if found:
                    for name in re.split(r"[,\s]+", found.group(2)):
                        if name in own:
                            print(f"respell: {name} of {path} is also std's: stays", file=sys.stderr)
                            own.discard(name)
    turned = {}
    for name in sorted(own):
        new = OTHERWISE.get(name, name.replace("-", "_"))
        if new in everything:
            print(f"respell: {name} -> {new} is there already", file=sys.stderr)
        turned[name] = new
    for path in files():
        with open(path, encoding="utf-8") as f:
            old = f.read()
        out = []
        for line in old.split("\n"):
            code, comment = code_and_comment(line, path.endswith(".antt"))
            parts = re.split(r'("(?:[^"\\]|\\.)*")', code)
            for i in range(0, len(parts), 2):
                parts[i] = TOKEN.sub(lambda m: turned.get(m.group(1), m.group(1)), parts[i])
            out.append("".join(parts) + comment)
        new = "\n".join(out)
        if new != old:
            with open(path, "w", encoding="utf-8") as f:
                f.write(new)
    print(f"respell: {len(turned)} names")
    rename_crate("bytes", "bits")
    if "--list" in sys.argv:
        for name in turned:
            print(name, turned[name])


main()
