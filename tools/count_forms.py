#!/usr/bin/env python3
"""Counts, in the sources and proofs below crates/, the places that docs/DESIGN-PASS.md speaks of: one search for each kind of place.

usage: count_forms.py [-v] [FOLDER]     FOLDER is a checkout, here by default; -v lists each place
"""
import re
import sys
from pathlib import Path

# (point, what is looked for, expression over the text of a file). A match is a place.
SEARCHES = [
    (1, "enums of two variants that hold data", r"^(?:pub(?:\(crate\))? )?enum \w+(?:<[^>]*>)? \{\n(?=[^}]*[({])(?:(?:    //.*|    #.*)\n)*    \w+[^\n]*\n(?:(?:    //.*)\n)*    \w+[^\n]*\n\}"),
    (1, "fields that are a flag", r"^    (?:pub(?:\(crate\))? )?\w+: bool,$"),
    (1, "arms that only pass an Option or a Result on", r"(?:None => (?:Ok\(None\)|None|Err\(|return (?:Ok\(None\)|None|Err\())|Ok\((?P<v>\w+)\) => Ok\((?P=v)\)|Err\(\w+\) => (?:Err\(|None)|Some\(_?\w*\) => Some\()"),
    (1, "an if that makes an Option", r"\{\s*Some\([^{}]*\)\s*\} else \{\s*None\s*\}"),
    (1, "lets of an Err to hand it on", r"if let Err\("),
    (1, "numbers that stand for a refusal or for nothing", r"(?:// .*(?:or 0\b|; 0 if|or 0 where|or 65\b).*\n(?:    )?(?:    //.*\n)*\s*(?:pub(?:\(crate\))? )?fn \w+|fn (?:told|refused)\([^)]*\) -> u\d+)"),
    (2, "levels tested for 1 to 7", r"level (?:<|>=) 1 (?:\|\||&&) level (?:>|<=) 7"),
    (2, "tests for an oversize card that refuse", r"if (?:Self::is_oversize\(\)|is_oversize::<H>\(\) \|\| is_oversize::<C>\(\))"),
    (2, "counts that give the chip's constant", r"fn (?:source|register)_count\(\) -> usize \{\n\s*Self::(?:SOURCES|REGISTERS)"),
    (2, "Display of a fault by its refusal", r"fmt::Display::fmt\(&self\.refusal\(\), f\)|fmt::Display::fmt\(&Refusal::from\(\*self\), f\)"),
    (2, "makers of a refusal at a layer", r"fn by_\w+\("),
    (2, "tokens that only a spent one may drop", r"impl(?:<\w+(?:: \w+)?>)? Drop for \w*Token"),
    (2, "results taken apart with an arm that can't be", r"unreachable\(\)"),
    (2, "loops that set the bits of a byte one by one", r"(?P<b>\w+) = with\((?P=b), \w+(?:\.\w+\(\))?, [^;]*\);\n\s*\}"),
    (2, "front or rear, by number", r"if \((?:source|register) as usize\) < front"),
    (2, "a side's card, by hand", r"Side::Local => Ok\(self\.handler\."),
    (2, "a result printed a second time", r"fn show_\w+\("),
    (3, "loops over an index", r"for \w+ in \(?(?:0|1)\.\.|\.enumerate\(\)"),
    (3, "while and loop", r"^\s*(?:while .*|loop) \{$"),
    (3, "counters in a loop", r"^\s*(?:number|left|count|value) (?:\+= 1|-= 1|= value \* 10.*);"),
    (3, "for loops", r"^\s*for "),
    (4, "conversions by a method", r"pub fn (?:refusal|from_byte|first_word)\((?:self|sources: u8)\)"),
    (4, "words by a method", r"pub fn word\(self\)"),
    (4, "equality by a function", r"fn is_\w+\((?:\w+: &\[u8\], \w+: &\[u8\])\) -> bool"),
    (4, "texts compared one after another", r"if is_text\("),
    (4, "numbers and texts printed by hand", r"fn (?:push_number|push_text|push|field|number|byte|numbered)\((?:&mut self|n)"),
    (4, "types that derive no equality", r"#\[derive\(Clone, Copy\)\]"),
    (5, "clauses with the parts of a rack spelled out", r"parts H\.Card\.model H\.Handler\.noticed C\.Card\.model"),
    (5, "clauses with the view of a rack", r"\(view (?:self|rack)\.|\{ view (?:self|rack)\.|\(view v\.0\)|\{ view result"),
    (5, "clauses with the view of a processor", r"proc_of (?:self|result)"),
    (5, "preconditions that a processor is idle", r"requires \{ self\.old\.state ≡ Idle \}"),
    (5, "clauses on the size of a page", r"(?:requires|ensures)[^\n]*(?:size|array_string_len) (?:page|self|result)"),
    (5, "clauses that cut a line into its fields", r"(?:requires|ensures)[^\n]*fields text\.now"),
    (6, "arrays", r"\[(?:u8|bool|0|false|Input(?:::new\(\))?); ?\w+\]"),
    (6, "counts of what a buffer holds", r"^    (?:len|open): usize,$"),
    (7, "matches on a call or a word", r"match (?:call|\(self\.state, call\)|word) \{"),
    (7, "function pointers, dyn and closures' bounds", r"\bdyn \w|\bfn\(|: Fn(?:Mut|Once)?\("),
]


def files(top, kind):
    return sorted(f for f in (top / "crates").rglob("*") if f.is_file() and f.suffix == kind and "/out/" not in str(f))


def main():
    args = [a for a in sys.argv[1:] if a != "-v"]
    top = Path(args[0] if args else ".")
    texts = [(f.relative_to(top), f.read_text(encoding="utf-8")) for f in files(top, ".rt")]
    for point, what, expression in SEARCHES:
        found = []
        for name, text in texts:
            for m in re.finditer(expression, text, re.M):
                line = text.count("\n", 0, m.start()) + 1
                found.append(f"{name}:{line}: {m.group(0).strip().splitlines()[0]}")
        print(f"{point}  {len(found):3}  {what}")
        if "-v" in sys.argv:
            for f in found:
                print(f"          {f}")
    answers = lemmas = lines = 0
    for f in files(top, ".antt"):
        text = f.read_text(encoding="utf-8")
        if "proofs" not in f.parts:
            continue
        lines += text.count("\n")
        heads = len(re.findall(r"^(?:abbrev |unfoldable )?(?:pub )?[^\s:]+ :", text, re.M))
        if f.name in ("Answers.antt", "Invariants.antt", "Choices.antt"):
            answers += heads
        else:
            lemmas += heads
    print(f"8  {answers:3}  answers and invariants in proofs/")
    print(f"8  {lemmas:3}  lemmas in proofs/")
    print(f"8  {lines:3}  lines in proofs/")


main()
