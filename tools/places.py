#!/usr/bin/env python3
"""Counts the places in src/ where an older form of the language may stand.

usage: tools/places.py [-v] [COMMIT]

Reads the files below crates/*/src in the working tree, or as they are at COMMIT. One line for each kind of place: the
point of docs/DESIGN-PASS.md, how many places there are, and what was looked for; with -v each place below it. It looks at
text: a place is one to read, and not yet one to change. Twins it does not find. A cast is not looked for: it is the
language's own conversion, and proved to lose nothing.
"""
import collections
import glob
import re
import subprocess
import sys

# point, what is looked for, expression; a place is where a match begins
PATTERNS = [
    (1, "an error or a None handed on by hand", r"return Err\((?:e|refusal|fault)\);|Err\((?:e|refusal)\) => Err\((?:e|refusal)\)|else \{\s*return None;\s*\}"),
    (1, "a flag as the answer of a function that writes", r"fn \w+[^{;]*&mut (?!W\b|impl|f\b)[^{;]*-> (?:anyhow::Result<)?bool"),
    (1, "a flag that says which kind", r"\b\w+: bool\b|Result<bool, "),
    (1, "a number in place of a refusal or a cause", r"\bnumber: u8\b|-> u8\b|refusal\.number\(\)|cause\.number\(\)"),
    (1, "an index that says none by the length", r"if end == \w+(?:\.\w+)?\.len\(\)"),
    (3, "a loop that counts by hand", r"\+= [12];\n|\bwhile\b|\bloop \{"),
    (3, "a `for` over a range of numbers", r"for \w+ in [^.{]*\.\.[^{]*\{"),
    (3, "a recursion over an index", r"\b(\w+)\([^()]*\b[ki] [+-] 1[,)]"),
    (4, "bounds or a span copied field by field", r"least: \w+\.least"),
    (4, "a conversion or a printer as a function", r"fn (?:number|axis|extension|parity|number_of|write_spans|write_answer|accepted)\b"),
    (6, "a buffer with a length beside", r"\w+: \[[^\];]+; \d+\],"),
    (7, "a type that only carries what one function of a trait reads", r"impl Rule for \w+|trait Rule\b"),
    (7, "a switch on a stage's kind or on a number of taps", r"match \*self \{\s*Stage::|match (?:\*stage|stage|last|self) \{\s*Stage::|match \w+(?:\.\w+)*\.tap_count"),
    (7, "a switch on the word of a line", r'match word \{'),
]


def files(commit):
    if commit is None:
        for path in sorted(glob.glob("crates/*/src/*.rt")):
            yield path, open(path, encoding="utf-8").read()
        return
    names = subprocess.run(["git", "ls-tree", "-r", "--name-only", commit, "crates"], capture_output=True, text=True, check=True)
    for path in names.stdout.split("\n"):
        if re.fullmatch(r"crates/\w+/src/\w+\.rt", path):
            yield path, subprocess.run(["git", "show", f"{commit}:{path}"], capture_output=True, text=True, check=True).stdout


def code(text):
    """The text with its comments blanked, so that lines keep their numbers."""
    return re.sub(r"//[^\n]*", "", text)


def conjuncts(clause):
    """The facts that a clause joins by ×, without brackets round them."""
    flat = re.sub(r"[()]", " ", clause)
    return [" ".join(part.split()) for part in flat.split("×")]


def repeated_facts(texts):
    """Facts that stand in the `requires` of three or more functions of a crate."""
    found = collections.defaultdict(list)
    for path, text in texts:
        crate = path.split("/")[1]
        for m in re.finditer(r"requires (?:\w+ )?\{(.*)\}\n", text):
            for fact in conjuncts(m.group(1)):
                found[crate, fact].append((path, line_of(text, m.start())))
    return {k: v for k, v in found.items() if len(v) >= 3}


def repeated_parameters(texts):
    """Pairs of parameters, other than self, that stand together in three or more free functions of a crate."""
    found = collections.defaultdict(list)
    for path, text in texts:
        crate = path.split("/")[1]
        for m in re.finditer(r"fn (\w+)[^(]*\(([^)]*)\)", text):
            names = [p.split(":")[0].replace("mut ", "").strip() for p in re.split(r",(?![^<\[]*[>\]])", m.group(2)) if ":" in p]
            for i, a in enumerate(names):
                for b in names[i + 1:]:
                    found[crate, f"{a}, {b}"].append((path, line_of(text, m.start())))
    return {k: v for k, v in found.items() if len(v) >= 3}


def line_of(text, at):
    return text.count("\n", 0, at) + 1


def show(point, what, places, verbose):
    print(f"{point}  {len(places):4}  {what}")
    if verbose:
        for place in places:
            print(f"           {place}")


def main():
    args = [a for a in sys.argv[1:] if a != "-v"]
    verbose = "-v" in sys.argv[1:]
    texts = [(path, code(text)) for path, text in files(args[0] if args else None)]
    for point, what, expression in PATTERNS:
        places = []
        for path, text in texts:
            for m in re.finditer(expression, text):
                line = line_of(text, m.start())
                first = text.split("\n")[line - 1].strip()
                places.append(f"{path}:{line}: {first}")
        show(point, what, places, verbose)
    for what, found in [
        ("a fact in the requires of three or more functions of a crate", repeated_facts(texts)),
        ("two parameters together in three or more functions of a crate", repeated_parameters(texts)),
    ]:
        show(5, what, [f"{crate}: {fact} ({len(v)})" for (crate, fact), v in sorted(found.items())], verbose)


if __name__ == "__main__":
    main()
