#!/usr/bin/env python3
"""Gives this repository's own definitions and lemmas the spelling of today's Rattle: words in snake case, types and facts in camel case.

usage: python3 tools/snake_names.py [--dry]      at the top of the repository, once, after port.py

A name is the repository's own where a file of specs/ or proofs/ declares it: by a signature, as a record, a field or a case,
by a `let`, as another name at an import, or as a bound variable. Names that Rattle makes (goals, steps, labels) and names of the
libraries keep their dashes: they are declared in no file of specs/, and an answer (`NAME : goal.NAME`) declares none. Strings stay. It prints each own name
whose new spelling already stands in a file beside the old one, and each that falls together with a name of the code there.
"""

import os
import re
import sys

DELIMITERS = r"\s(){}\[\];,.\"`"
TOKEN = re.compile(r'"(?:[^"\\]|\\.)*"|[^' + DELIMITERS + r"]+")
SIGNATURE = re.compile(r"^\s*(?:where\s+)?(?:let\s+)?(?:\|\s*)?(?:(?:abbrev|pub|unfoldable|record|data)\s+)*([^" + DELIMITERS + r"]+)(?:\s+[({][^=]*)?\s+:\s+(\S.*)?$")
LET = re.compile(r"\blet\s+([^" + DELIMITERS + r"]+)\s+(?::|=)")
BOUND = re.compile(r"[({]((?:[^" + DELIMITERS + r"]+\s+)+):\s")
LAMBDA = re.compile(r"λ\s+((?:[^" + DELIMITERS + r"]+\s*)+)\.")
ALIAS = re.compile(r"\bas\s+([^" + DELIMITERS + r"]+)")
CLAUSE = re.compile(r"^\s*[^" + DELIMITERS + r"]+((?:\s+[^\s=]+)+)\s+=(?:\s|$)")
# names that Rattle makes in one file and a lemma binds in another
MADE = {"count-is"}
# a lemma on a word of the library, under the word's own name
LEMMAS = {"bit-and": "bit_and_lem"}


def files(root, ends):
    for top in ("crates",):
        for folder, dirs, names in os.walk(os.path.join(root, top)):
            dirs[:] = sorted(d for d in dirs if d not in ("out", "target"))
            for name in sorted(names):
                if name.endswith(ends):
                    yield os.path.join(folder, name)


def dashed(name):
    return re.fullmatch(r"[A-Za-z_][\w']*(?:-[\w']+)+", name) is not None


def respelled(name):
    if name in LEMMAS:
        return LEMMAS[name]
    if name[0].isupper():
        return "".join(part[0].upper() + part[1:] for part in name.split("-"))
    return name.replace("-", "_")


def answer_file(path):
    return os.path.basename(path) in ("Answers.antt", "Invariants.antt", "Choices.antt", "Proof.antt")


def declared(root):
    own = {}
    for path in files(root, (".antt", ".rt")):
        with open(path, encoding="utf-8") as f:
            for line in f:
                if line.lstrip().startswith(("-- ", "// ")):
                    continue
                found = ALIAS.findall(line) if re.match(r"\s*(?:ghost )?use ", line) else []
                if path.endswith(".rt"):
                    for name in found:
                        if dashed(name):
                            own.setdefault(name, path)
                    continue
                said = SIGNATURE.match(line)
                if said and not (said.group(2) or "").startswith("goal."):
                    found.append(said.group(1))
                for it in LET.finditer(line):
                    found.append(it.group(1))
                for it in BOUND.finditer(line):
                    found += it.group(1).split()
                for it in LAMBDA.finditer(line):
                    found += it.group(1).split()
                clause = CLAUSE.match(line)
                if clause and not answer_file(path):
                    found += re.split(r"[\s(){}]+", clause.group(1))
                for name in found:
                    if dashed(name) and name not in MADE:
                        own.setdefault(name, path)
    return own


def parts(token, own):
    """Renames an own name, also where a clause's braces or a prime stand round it."""
    return respelled(token) if token in own else token


def turned(text, own):
    return TOKEN.sub(lambda it: it.group(0) if it.group(0).startswith('"') else parts(it.group(0), own), text)


def in_backticks(text, own):
    return re.sub(r"`[^`\n]+`", lambda it: turned_page(it.group(0), own), text)


def turned_page(text, own):
    return re.sub(r"[A-Za-z_][\w']*(?:-[\w']+)+", lambda it: parts(it.group(0), own), text)


def main(argv):
    root = os.path.dirname(os.path.dirname(os.path.realpath(__file__)))
    if "--root" in argv:
        root = argv[argv.index("--root") + 1]
    dry = "--dry" in argv
    own = declared(root)
    spelled = {}
    for name in own:
        spelled.setdefault(respelled(name), []).append(name)
    for new, olds in sorted(spelled.items()):
        if len(olds) > 1:
            print(f"falls together: {' and '.join(olds)} are {new}")
    count = 0
    for path in files(root, (".antt", ".rt", ".edit")):
        with open(path, encoding="utf-8") as f:
            text = f.read()
        tokens = {t for t in TOKEN.findall(text)}
        words = set(re.findall(r"[\w']+", re.sub(r"(?m)//.*$|^-- .*$", "", text)))
        for name in sorted(own):
            if name in tokens and (respelled(name) in tokens or path.endswith(".rt") and respelled(name) in words):
                print(f"{os.path.relpath(path, root)}: {name}: {respelled(name)} stands there already")
        new = turned(text, own)
        if new != text:
            count += 1
            if not dry:
                with open(path, "w", encoding="utf-8") as f:
                    f.write(new)
    for folder in (root, os.path.join(root, "docs"), os.path.join(root, "wip")):
        for name in sorted(os.listdir(folder)) if os.path.isdir(folder) else []:
            path = os.path.join(folder, name)
            if name.endswith(".md"):
                with open(path, encoding="utf-8") as f:
                    text = f.read()
                new = in_backticks(text, own)
                if new != text:
                    count += 1
                    if not dry:
                        with open(path, "w", encoding="utf-8") as f:
                            f.write(new)
    print(f"{len(own)} names, {count} files{' would be' if dry else ''} changed")
    return 0


if __name__ == "__main__":
    raise SystemExit(main(sys.argv[1:]))
