#!/usr/bin/env python3
"""Lists the places that docs/DESIGN-PASS.md counts, by what the text of src/ shows.

  python3 tools/design_places.py          counts of each point, and of each kind within it
  python3 tools/design_places.py --list   with every place: crate/file:line, name

Run at the top of the repository. Points 2 and 8 are not seen by text alone: twins are listed on the page by name.
"""
import collections
import glob
import re
import sys

LIST = "--list" in sys.argv
FUNCTION = re.compile(
    r'^\s*(?P<head>(?:pub(?:\(crate\))? )?(?:extern "C" )?fn) (?P<name>\w+)(?:<[^>]*>)?\((?P<params>[^)]*)\)', re.M
)


def sources():
    for path in sorted(glob.glob("crates/*/src/*.rt")):
        with open(path, encoding="utf-8") as f:
            yield path.replace("crates/", "").replace("/src/", "/"), f.read()


def line_of(text, at):
    return text.count("\n", 0, at) + 1


def by_regex(regex, name=0):
    found = []
    for path, text in sources():
        for m in re.finditer(regex, text, re.M):
            found.append(f"{path}:{line_of(text, m.start())} {m.group(name).strip()}")
    return found


def functions():
    for path, text in sources():
        for m in FUNCTION.finditer(text):
            params = [p.strip() for p in m.group("params").split(",") if p.strip()]
            yield path, line_of(text, m.start()), m.group("name"), params, "extern" in m.group("head"), text, m.end()


def contract(text, at):
    return re.split(r"\{$", text[at:], maxsplit=1, flags=re.M)[0]


def facts():
    """Facts that stand in the `requires` of three or more functions, by their text without the names of values."""
    seen = collections.defaultdict(list)
    for path, line, name, _, _, text, end in functions():
        for m in re.finditer(r"requires(?: \w+)? \{(.*?)\}\s*(?=$|requires|ensures)", contract(text, end), re.M | re.S):
            for part in re.split(r" × ", " ".join(m.group(1).split())):
                part = re.sub(r"^\(|\)$", "", part.strip())
                part = re.sub(r"\b(\w+)\.(old|now|new|entry)\b", "_", part)
                seen[part].append(f"{path}:{line} {name}")
    return {k: v for k, v in seen.items() if len(v) >= 3}


def show(title, places):
    print(f"  {len(places):4}  {title}")
    if LIST:
        for p in places:
            print(f"          {p}")


def main():
    print("point 1")
    show("own enums", by_regex(r"^(?:pub(?:\(crate\))? )?enum (\w+)", 1))
    show("flags with a value beside (a bool field of an answer)", by_regex(r"^\s+(?:pub(?:\(crate\))? )?(\w+): bool,$", 1))
    show("numbers by name for kinds, states, refusals and none", by_regex(r"^(?:pub(?:\(crate\))? )?const (\w+): (?:u32|usize) = \d+;", 1))
    print("point 3")
    show("loops that are no `for`", by_regex(r"^\s*(?:'\w+: )?(?:while\b.*|loop) \{"))
    show("loops by `for`", by_regex(r"^\s*for .* in .*\{"))
    show("slices by a library method or a chain", by_regex(r"\.(?:fill|copy_from_slice|copy_within|contains|iter|iter_mut|chunks_exact|chunks|as_chunks|zip)\(.*"))
    print("point 4")
    show("derives", by_regex(r"^#\[derive\(.*\)\]"))
    show("impls of From, TryFrom, Display and the like", by_regex(r"^impl.* for .*\{"))
    print("point 5")
    wide = [f"{p}:{l} {n} {len(ps)}" for p, l, n, ps, c, _, _ in functions() if len(ps) >= 7 and not c]
    show("functions of seven parameters or more, exports for C apart", wide)
    repeated = facts()
    show("facts in the requires of three functions or more", [f"{len(v)} × {k}" for k, v in sorted(repeated.items(), key=lambda e: -len(e[1]))])
    print("point 6")
    lengths = [
        f"{p}:{l} {n}"
        for p, l, n, ps, c, _, _ in functions()
        if not c and any("[" in q and ";" not in q for q in ps) and any(re.match(r"(n|m|k|a|b|len|count): usize", q) for q in ps)
    ]
    show("slices with a length beside", lengths)
    show("arrays of fixed length made in a function", by_regex(r"let mut \w+ = \[0u?\w*; \d+\]"))
    print("point 7")
    switches = [f"{p}:{l} {n}" for p, l, n, ps, c, _, _ in functions() if not c and any(re.search(r": bool$", q) for q in ps)]
    show("functions that a bool parameter switches", switches)
    print("functions:", sum(1 for _ in functions()))


main()
