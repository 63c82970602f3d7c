#!/usr/bin/env python3
"""Lists the places of src/ at which docs/DESIGN-PASS.md looks for older forms, and how many there are.

Usage: tools/places.py [--list] [COMMIT]

Without a commit it reads the working tree. A line that it lists is a place to look at, no verdict.
"""
import re
import subprocess
import sys
from collections import Counter, defaultdict

LINES = [
    ("1 enums", r"^\s*(pub |pub\(crate\) )?enum "),
    ("1 refusals written out", r"Err\((Stop::\w+\()?(Refusal \{|refuse\()"),
    (
        "1 numbers for kinds, rules and refusals",
        r"\b(kind|rule|duty): (u8|usize)\b|\b(number|layer): u8\b"
        r"|^const (GATE|FLOP|ENABLED_FLOP|MEMORY_BIT|ZERO): usize",
    ),
    ("1 a flag beside a value", r", bool\)"),
    ("3 loops", r"^\s*(for|while|loop)\b(?!<)"),
    ("3 of these by an index or a condition", r"^\s*(while\b|loop\b|for \w+ in [^{]*\.\.)"),
    (
        "4 conversions, comparisons, copies and printing by hand",
        r"^impl.*\b(From|TryFrom|Default|Display|PartialEq|Ord|Clone)\b.* for "
        r"|\bfn (\w+_of|of|known|copy|equals|same_\w+)\(",
    ),
    ("6 arrays and counts in structs", r"^\s*pub(\(crate\))? \w+(_count|_length): usize,|^\s*pub(\(crate\))? \w+: \[.*; \w+\],"),
    ("7 switches on a number, tables of functions", r"\bmatch (random\b|rule\b|number\b|more\b)|\bfn\(|\bdyn "),
    ("reasons beside kept places", r"// Why [A-Za-z ]{1,25}: "),
]


def sources(commit):
    """Each source file's path and text."""
    if commit:
        names = subprocess.check_output(["git", "ls-tree", "-r", "--name-only", commit], text=True).split("\n")
        read = lambda name: subprocess.check_output(["git", "show", f"{commit}:{name}"], text=True)
    else:
        names = subprocess.check_output(["git", "ls-files"], text=True).split("\n")
        read = lambda name: open(name, encoding="utf-8").read()
    return [(name, read(name)) for name in names if re.match(r"crates/\w+/src/.*\.rt$", name)]


def parameters(text):
    """The names of the parameters of each function, with the line it begins at."""
    for found in re.finditer(r"\bfn (\w+)(?:<[^({]*>)?\(", text):
        depth, end = 1, found.end()
        while depth and end < len(text):
            depth += {"(": 1, ")": -1}.get(text[end], 0)
            end += 1
        names = re.findall(r"(?:^|,)\s*(?:mut )?(\w+): ", text[found.end() : end - 1])
        yield text.count("\n", 0, found.start()) + 1, found.group(1), names


def main():
    arguments = [a for a in sys.argv[1:] if a != "--list"]
    listing = "--list" in sys.argv[1:]
    files = sources(arguments[0] if arguments else None)

    def show(title, rows):
        print(f"{title}: {len(rows)}")
        if listing:
            for row in rows:
                print(f"    {row}")

    for title, pattern in LINES:
        rows = []
        for name, text in files:
            for number, line in enumerate(text.split("\n"), 1):
                if re.search(pattern, line):
                    rows.append(f"{name}:{number}: {line.strip()}")
        show(title, rows)

    places = defaultdict(list)
    for name, text in files:
        for number, function, _ in parameters(text):
            places[function].append(f"{name}:{number}")
    show("2 function names that stand at two places or more", [f"{f}: {', '.join(p)}" for f, p in sorted(places.items()) if len(p) > 1])

    clauses = Counter()
    for name, text in files:
        for clause in re.findall(r"^\s*requires \w* ?\{ (.*) \}$", text, re.M):
            clauses[(name.split("/")[1], clause)] += 1
    show("5 facts that three functions of a crate or more require", [f"{c}: {n} times {f}" for (c, f), n in sorted(clauses.items()) if n > 2])

    together = Counter()
    for name, text in files:
        for _, _, names in parameters(text):
            names = [n for n in names if n not in ("rt", "heap")]
            for i, a in enumerate(names):
                for j in range(i + 1, len(names)):
                    together[(name.split("/")[1], a, names[j])] += 1
    show("5 pairs of parameters that five functions of a crate or more take", [f"{c}: {n} times {a}, {b}" for (c, a, b), n in sorted(together.items()) if n > 4])


main()
