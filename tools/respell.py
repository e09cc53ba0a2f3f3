#!/usr/bin/env python3
"""Brings the definitions and lemmas of specs/ and proofs/ to today's spelling: `camelCase` becomes `camel_case`, and a
dash stays in a name only where it joins two names (`tokens-render`), as before a word it becomes `_` (`all_at`).

usage: python3 tools/respell.py [--list]      at the top of the repository, once, after the kit's port.py

Names of src/, exported C names, strings, inputs and outputs keep their names. It stops where two names would fall
together, and names each place where a new name meets a variable of the same name.
"""
import collections
import os
import re
import sys

WORD = re.compile(r"[A-Za-z0-9_'\u2080-\u2089\u2115\-]+")
HEAD = re.compile(r"^\s*(?:(?:abbrev|unfoldable|pub|private) )*([^\s:(){}.,;\u03bb=|\[\]\"]+) +:(?: |$)")
TYPE = re.compile(r"^\s*(?:(?:abbrev|unfoldable|pub) )*(?:data|record) ([^\s:(){}]+)")
# A lemma in snake case whose name a definition takes: it gets `_lem`, here alone, as a function of src/ may have its name too.
LEMMAS = {
    "after_first": ["judge/proofs/ListLaws.antt", "judge/proofs/judging/+run/Proof.antt"],
    "all_held": ["intake/proofs/EventLaws.antt"],
    "ends_by": ["positions/proofs/Following.antt"],
    "made_by": ["chain/proofs/RespondLaws.antt"],
    "place_is": ["intake/proofs/Naming.antt", "intake/proofs/RoleLaws.antt"],
    "room_fits": ["book/proofs/RoundRows.antt", "book/proofs/RoundLaws.antt", "book/proofs/Rounds.antt"],
    "too_long": ["chain/proofs/StepLaws.antt", "chain/proofs/steps/step/Proof.antt"],
}
STD = {"length", "append", "take", "drop", "map", "cond", "not", "set", "replicate", "get_or", "sum"}


def files(*endings):
    for root, dirs, names in os.walk("crates"):
        dirs[:] = sorted(d for d in dirs if d != "out")
        for name in sorted(names):
            if name.endswith(endings):
                yield os.path.join(root, name)


def read(path):
    with open(path, encoding="utf-8") as f:
        return f.read()


def is_shared(path):
    """A file of specs/ or of proofs/ itself, not of one function's folder."""
    parts = path.split("/")
    return parts[2] in ("specs", "proofs") and len(parts) == 4


def declared():
    """Each name declared in a shared file, and whether it is a definition of specs/ or a constructor."""
    names, definitions = set(), set()
    for path in files(".antt"):
        if not is_shared(path):
            continue
        for line in read(path).split("\n"):
            m = HEAD.match(line) or TYPE.match(line)
            if m and not line.strip().startswith("--"):
                names.add(m.group(1))
                if "/specs/" in path:
                    definitions.add(m.group(1))
    return names, definitions


def imported():
    """Names that some file takes from the library."""
    own = set(os.listdir("crates"))
    found = set()
    for path in files(".antt", ".rt"):
        for m in re.finditer(r"^\s*(?:ghost )?use ([\w.+'\u00b7]+)\.\{([^}]*)\}", read(path), re.M):
            parts = m.group(1).split(".")
            if parts[0] == "Rattle" and parts[1] in own:
                continue
            found |= {w.strip().split(" as ")[0] for w in m.group(2).split(",")}
    return found


def snake(name):
    return re.sub(r"(?<=[a-z0-9])([A-Z])", lambda m: "_" + m.group(1).lower(), name)


def table():
    names, definitions = declared()
    library = imported()
    words = {snake(d) for d in definitions if d[0].islower() and "-" not in d} | STD
    new = {}
    for name in sorted(names - library):
        if not re.match(r"[a-z][A-Za-z0-9_'\-\u2080-\u2089]*$", name):
            continue
        parts = [p if p[:1].isupper() else snake(p) for p in name.split("-")]
        # a dash stays only where it joins two whole names
        if len(parts) == 2 and all(p in words for p in parts):
            to = "-".join(parts)
        else:
            to = "_".join(parts)
        if to != name:
            new[name] = to
    # a dashed lemma that would have a definition's name gets `_lem`
    taken = {new.get(n, n) for n in names if "-" not in n}
    for name, to in new.items():
        if "-" in name and to in taken:
            new[name] = to + "_lem"
    falls = collections.defaultdict(set)
    for name in (names - LEMMAS.keys()) | library:
        falls[new.get(name, name)].add(name)
    together = {k: v for k, v in falls.items() if len(v) > 1}
    return new, together


def turned(text, new):
    return WORD.sub(lambda m: new.get(m.group(0), m.group(0)), text)


def turned_code(text, new):
    """A file of code: all but what stands in quotes, and of comments what stands in backquotes."""
    parts = re.split(r'("(?:[^"\\\n]|\\.)*"|(?:^|(?<=[\s{}()]))(?:--|//)(?=\s)[^\n]*)', text)
    return "".join(
        turned(p, new) if i % 2 == 0 else p if p.startswith('"') else turned_page(p, new) for i, p in enumerate(parts)
    )


def turned_page(text, new):
    """A page: what stands in backquotes."""
    return re.sub(r"`[^`\n]*`", lambda m: turned(m.group(0), new), text)


def main():
    new, together = table()
    if "--list" in sys.argv:
        for name in sorted(new):
            print(name, new[name])
        for name in sorted(together):
            print("together:", name, sorted(together[name]), file=sys.stderr)
        return
    if together:
        for name in sorted(together):
            print("together:", name, sorted(together[name]))
        raise SystemExit(1)
    back = set(new.values())
    for path in files(".antt", ".rt", ".edit"):
        text = read(path)
        for name in LEMMAS:
            if path[len("crates/"):] in LEMMAS[name]:
                text = re.sub(rf"(?<![\w.-]){name}(?![\w-])", name + "_lem", text)
        met = sorted(set(WORD.findall(re.sub(r"\.\w+", "", text))) & back) if path.endswith(".antt") else []
        for name in met:
            print(f"look: {path}: {name} stood here before")
        to = turned_code(text, new)
        with open(path, "w", encoding="utf-8") as f:
            f.write(to)
    pages = ["README.md"] + [os.path.join(r, n) for r, _, ns in os.walk("docs") for n in ns if n.endswith(".md") and n != "PORT.md"]
    for path in pages:
        text = read(path)
        to = turned_page(text, new)
        if to != text:
            with open(path, "w", encoding="utf-8") as f:
                f.write(to)


main()
