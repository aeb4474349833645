#!/usr/bin/env python3
"""Spells generated names in proof files as the source spells its part of them: `returns-then-was-asserted` is `returns-then-was_asserted`.

usage: python3 tools/keep_source_names.py CRATE..      at the top of the repository

A name of a goal, a step or a fact is made of the source's names and of Rattle's words, joined by dashes. It was run once, in the port.
"""

import glob
import re
import sys

WORDS = {"in_default", "in_ok", "in_err", "overflow_add", "overflow_sub", "overflow_mul", "overflow_cast", "overflow_shl", "overflow_shr",
         "nonzero_div", "nonzero_rem", "slice_bounds", "offset_bounds", "overflow_step", "from_residual", "as_slice", "count_ones",
         "leading_zeros", "as_bytes", "is_empty", "next_back"}


def turn(token, names):
    parts = token.split("-")
    out, i = [], 0
    while i < len(parts):
        for j in range(len(parts), i + 1, -1):
            joined = "_".join(parts[i:j])
            if joined in names and parts[i] not in ("if", "then", "else"):
                out.append(joined)
                i = j
                break
        else:
            out.append(parts[i])
            i += 1
    return "-".join(out)


def main():
    names = set(WORDS)
    for path in glob.glob("crates/*/src/**/*.rt", recursive=True):
        with open(path, encoding="utf-8") as f:
            code = "\n".join(l.split("//")[0] for l in f if not l.lstrip().startswith("ghost use"))
        names.update(n for n in re.findall(r"(?<![\w.])[a-z][a-z0-9]*(?:_[a-z0-9]+)+|(?<=\.)[a-z][a-z0-9]*(?:_[a-z0-9]+)+", code))
    for crate in sys.argv[1:]:
        for path in glob.glob(f"crates/{crate}/proofs/**/*.antt", recursive=True):
            if not path.endswith(("/Answers.antt", "/Invariants.antt", "/Proof.antt")):
                continue
            with open(path, encoding="utf-8") as f:
                old = f.read()
            new = re.sub(r"(?<![\w'-])[A-Za-z][\w']*(?:-[\w']+)+(?![\w'-])", lambda m: turn(m.group(0), names), old)
            if new != old:
                print(path)
                with open(path, "w", encoding="utf-8") as f:
                    f.write(new)


main()
