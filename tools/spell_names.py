#!/usr/bin/env python3
"""Spells the names of this repository's definitions and lemmas as the library spells its own. Run once, at the top, after the kit's port.py.

usage: tools/spell_names.py [--say]      --say prints the names and changes nothing

A word is in snake case, a type in camel case, a constant in capitals. A dash stays only between two words, as in `elem-take`; what says which lemma of
that word it is, is added with an underscore, as in `elem_last`. A lemma that would have the name of its word gets `_lem`. Names of src/, exported C names, strings, and
names that the check makes stay as they are. Where two names would fall together the script stops and says which.
"""

import collections
import pathlib
import re
import sys

# Words of the library that lemmas are named after.
LIBRARY = set("length map take drop reverse replicate append cons nil min max cond eqb leb ltb set get_or flat_map mod div mul add sub pow ℕ ℤ ∪ ∖ ⊕".split())
# Types with a dash, and what the rule would spell badly.
BY_HAND = {
    "All-good": "AllGoodContents",
    "All-many": "AllMany",
    "End-to-end": "EndToEnd",
    "Layout-of": "LayoutOf",
    "isZeroℤ": "is_zero_ℤ",
    "in-table": "held_in_table",
    "hashes-of": "hashes_of_ours",
    "filter-short-columns": "filter_short_columns",
    "in-a": "in_a_lem",
    "ids-in": "ids_in_lem",
    "too_many": "too_many_lem",
}
SEPARATORS = "\\s(){}\\[\\].,;:→⌜⌝«»`\"|"
TOKEN = re.compile(f"[^{SEPARATORS}]+")
# What follows the name of a function's theorem, of an answer, an invariant or a measure: those names are the check's.
ANSWER = re.compile(r"(goal|tie)\.[a-z]|tie\.Need-|\{M : Type 1\} → ")
NAMES = re.compile(f"^(\\s*)((?:abbrev |unfoldable |pub )*)((?:[^{SEPARATORS}]+ )+): ")
BLOCK = re.compile(r"^(\s*)(?:abbrev |unfoldable |pub )*(record|data) (\S+)")
IN_MODULE = re.compile(f"[.{SEPARATORS}][A-Z][^{SEPARATORS}]*\\.$")
NOT_NAMES = ("let ", "use ", "module ", "in ", "λ", "|", "elim ", "--")


def antt_files(top):
    return sorted(p for p in top.glob("crates/*/specs/**/*.antt")) + sorted(top.glob("crates/*/proofs/*.antt"))


def declared(top):
    """Every name that a file of specs/ or a lemma file declares: name to 'type', 'word', 'lemma' or 'field'."""
    kinds = collections.defaultdict(set)
    for path in antt_files(top):
        inside, depth = None, 0
        for line in path.read_text(encoding="utf-8").split("\n"):
            text = line.strip()
            if not text or text.startswith("--"):
                continue
            indent = len(line) - len(line.lstrip())
            if inside and indent <= depth:
                inside = None
            if text.startswith(NOT_NAMES):
                continue
            block = BLOCK.match(line)
            if block:
                inside, depth = block.group(2), len(block.group(1))
                kinds[block.group(3)].add("type")
                continue
            match = NAMES.match(line)
            if not match or indent > 4:
                continue
            marks, names = match.group(2), match.group(3).split()
            for name in names:
                if inside == "record":
                    kinds[name].add("field")
                elif inside == "data":
                    kinds[name].add("word")
                else:
                    kinds[name].add("word" if "abbrev" in marks or "unfoldable" in marks else "lemma")
    return kinds


def inner(top, known):
    """The names that are declared further in, in a `module _` or a `where`, or in the proof of a function."""
    names = set()
    for path in sorted(top.glob("crates/*/specs/**/*.antt")) + sorted(top.glob("crates/*/proofs/**/*.antt")):
        for line in path.read_text(encoding="utf-8").split("\n"):
            match = None if line.strip().startswith(NOT_NAMES) else NAMES.match(line)
            if match and not ANSWER.match(line[match.end() :]):
                names.update(name for name in match.group(3).split() if re.match(r"[A-Za-z]", name) and name not in known)
    return names


def snake(word):
    if re.fullmatch(r"[A-Z0-9_]+", word):
        return word
    return re.sub(r"(?<=[a-z0-9])([A-Z])", lambda m: "_" + m.group(1).lower(), word)


def spelled(name, words):
    if name in BY_HAND:
        return BY_HAND[name]
    if re.fullmatch(r"[A-Z][A-Za-z0-9']*", name) and not re.fullmatch(r"[A-Z0-9]+", name):
        return name  # a type
    parts = [snake(part) for part in name.split("-")]
    if "" in parts:
        return name
    new = parts[0]
    for before, part in zip(parts, parts[1:]):
        new += ("-" if before in words and part in words else "_") + part
    return new


def main(argv):
    top = pathlib.Path.cwd()
    kinds = declared(top)
    words = LIBRARY | {snake(name) for name, kind in kinds.items() if kind & {"word", "field"} and "-" not in name}
    new_of = {}
    for name in kinds:
        if re.match(r"[A-Za-z]", name):
            new = spelled(name, words)
            if new != name:
                new_of[name] = new
    for name in inner(top, kinds):
        new = spelled(name, words)
        if new != name:
            kinds[name].add("lemma")
            new_of[name] = new
    came_from = collections.defaultdict(set)
    for name in kinds:
        came_from[new_of.get(name, name)].add(name)
    for new, olds in list(came_from.items()):
        lemmas = {old for old in olds if kinds[old] == {"lemma"}}
        if len(olds) == 2 and len(lemmas) == 1:
            (lemma,) = lemmas
            olds.remove(lemma)
            new_of[lemma] = new + "_lem"
            came_from[new + "_lem"].add(lemma)
    together = {new: olds for new, olds in came_from.items() if len(olds) > 1}
    for new, olds in sorted(together.items()):
        print(f"fall together: {', '.join(sorted(olds))}: {new}")
    files = sorted(top.glob("crates/*/src/**/*.rt")) + sorted(top.glob("crates/*/specs/**/*.antt")) + sorted(top.glob("crates/*/proofs/**/*.antt"))
    texts = {path: path.read_text(encoding="utf-8") for path in files}
    seen = collections.Counter()
    for text in texts.values():
        seen.update(TOKEN.findall(text))
    clashes = [(old, new) for old, new in new_of.items() if new in seen and new not in kinds]
    for old, new in sorted(clashes):
        print(f"already a name of something else: {old}: {new}")
    if "--say" in argv:
        for old, new in sorted(new_of.items()):
            print(f"{old}\t{new}")
        print(f"{len(new_of)} names")
        return 0
    if together:
        return 1
    fields = {name for name, kind in kinds.items() if "field" in kind}

    own = "|".join(sorted(path.parent.name for path in top.glob("crates/*/src")))

    def of_library(text):
        """The names that a file imports from the library."""
        found = set()
        for module, names in re.findall(r"^use ([^\s{]+)\.\{([^}]*)\}", text, re.M):
            if not re.match(rf"Rattle\.({own})\.", module):
                found |= {name.split(" as ")[-1].strip() for name in names.split(",")}
        return found

    def turn(text, source):
        kept = of_library(text)

        def one(match):
            token = match.group(0)
            if token not in new_of or token in kept:
                return token
            if source and re.fullmatch(r"[a-z0-9_]+", token):
                return token  # a function of src/ that has a lemma's name
            before = text[: match.start()]
            if before.endswith(".") and not before.endswith("..") and token not in fields and not IN_MODULE.search(before[-80:]):
                return token
            return new_of[token]

        return TOKEN.sub(one, text)

    changed = 0
    for path, text in texts.items():
        new = turn(text, path.suffix == ".rt")
        if new != text:
            path.write_text(new, encoding="utf-8")
            changed += 1
    print(f"{len(new_of)} names in {changed} files")
    return 0


if __name__ == "__main__":
    raise SystemExit(main(sys.argv[1:]))
