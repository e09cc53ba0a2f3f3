#!/usr/bin/env python3
"""Counts the places that docs/DESIGN-PASS.md speaks of, item by item: a struct, an enum or a function with its body, in place of lines.
It reads crates/*/src/*.rt and prints, for points 1 to 7, how many items have the form and, with -l, which. It changes nothing.

usage: python3 tools/places_by_item.py [-l]      at the top of the repository
"""
import collections
import glob
import re
import sys

ITEM = re.compile(r"^( *)(?:pub )?(?:unsafe )?(?:extern \"s\" )?(fn|struct|enum) ([A-Za-z_0-9]+)", re.M)
found = collections.OrderedDict()


def note(point, what):
    found.setdefault(point, []).append(what)


def bare(text):
    """The text without comments, ghost lines, clauses and attributes; strings and bytes become one letter."""
    text = re.sub(r"//[^\n]*", "", text)
    text = re.sub(r"^\s*(ghost .*|#!?\[.*\])$", "", text, flags=re.M)
    out, clause = [], False
    for line in text.split("\n"):
        clause = (clause or re.match(r"\s*(ensures|requires)\b", line) is not None) and not re.match(r"\s*\{", line)
        out.append("" if clause else line)
    text = "\n".join(out)
    return re.sub(r'b?"(\\.|[^"\\])*"', '"s"', text)


def items(text):
    """Each struct, enum and function: its kind, its name, its text to the brace or semicolon that ends it."""
    for m in ITEM.finditer(text):
        depth, i = 0, m.end()
        while i < len(text):
            c = text[i]
            if c in "([{":
                depth += 1
            if c in ")]}":
                depth -= 1
                if depth == 0 and c == "}":
                    break
            if c == ";" and depth == 0:
                break
            i += 1
        yield m.group(2), m.group(3), text[m.start():i + 1]


def parameters(item):
    """The parameters of a function as (name, type)."""
    i = item.index("(", item.index("fn "))
    if "<" in item[item.index("fn "):i]:
        i = item.index("(", item.rindex(">", 0, item.index("(", i)) if ">" in item[:i] else i)
    depth, start, out = 0, i + 1, []
    for j in range(i, len(item)):
        c = item[j]
        if c in "([<{":
            depth += 1
        if c in ")]}" or (c == ">" and item[j - 1] != "-"):
            depth -= 1
        if (c == "," and depth == 1) or (depth == 0):
            part = item[start:j].strip()
            if part:
                out.append(tuple(p.strip() for p in part.split(":", 1)) if ":" in part else (part, ""))
            start = j + 1
        if depth == 0:
            break
    return out


shapes = collections.defaultdict(list)
together = collections.Counter()
users = collections.defaultdict(list)
for path in sorted(glob.glob("crates/*/src/*.rt")):
    text = bare(open(path, encoding="utf-8").read())
    for kind, name, item in items(text):
        place = path[7:] + " " + name
        body = item[item.index("{"):] if "{" in item else ""
        if kind == "enum":
            variants = [v for v in re.findall(r"^\s+([A-Z][A-Za-z]*)(\(|,|\{)", body, re.M)]
            if len(variants) == 2 and len({p for _, p in variants}) == 2:
                note("1 enums of the shape of Option or Result", place)
        if kind == "struct":
            if re.search(r": bool,", body):
                note("1 structs with a flag", place)
            if re.search(r": \[[^\]]*\],", body) and re.search(r"(len|count): usize,", body):
                note("6 structs with a buffer and a length", place)
            if len(re.findall(r": (?:&'a )?\[", body)) > 2:
                note("6 structs with arrays or slices side by side", place)
        if kind != "fn":
            continue
        if re.search(r"\bnumber\b *(==|!=) *[0-9]|=> *(1[0-3]|[2-9]),", body):
            note("1 functions with a refusal's or a kind's number", place)
        if re.search(r"\b(while|loop)\b", body):
            note("3 functions with while or loop", place)
        if re.search(r"\bfor \w+ in [^{]*\.\.", body) or re.search(r"\bfor \(\w+, \w+\) in ", body):
            note("3 functions with for over a range or with an index", place)
        if re.search(r"\b(\w+) \+= 1;", body):
            note("3 functions that count by += 1", place)
        if re.search(r"\bas (u8|u16|u32|u64|usize)\b", body):
            note("4 functions with a cast", place)
        p = parameters(item)
        if len(p) > 4:
            note("5 functions of more than four parameters", place)
        plain = sorted({q for q in p if "self" not in q[0] and q[0] != "rt"})
        for a in range(len(plain)):
            for b in range(a + 1, len(plain)):
                for c in range(b + 1, len(plain)):
                    users[(plain[a], plain[b], plain[c])].append(place)
        if any(q[1].endswith("[u8]") or q[1].endswith("[u64]") for q in p) and any(q[0] in ("at", "to", "from", "start") for q in p):
            note("6 functions with a buffer and a place in it", place)
        if len(re.findall(r"\bif \w+ == ", body)) > 2:
            note("7 functions with three comparisons one after another", place)
        lines = [l.strip() for l in body.split("\n") if l.strip() not in ("", "{", "}")]
        if len(lines) >= 4:
            shape = re.sub(r"\b[a-z_][a-z_0-9]*\b|\b[0-9]+\b", "x", " ".join(lines))
            shapes[shape].append(place)
for key, places in users.items():
    if len(set(places)) >= 3:
        note("5 three parameters that travel together through three functions", ", ".join(n for n, _ in key) + ": " + "; ".join(sorted(set(places))))
for places in shapes.values():
    if len(places) > 1:
        note("2 functions of one shape, four lines or more", "; ".join(places))
for point in sorted(found):
    print("%5d  %s" % (len(found[point]), point))
    if "-l" in sys.argv:
        for place in found[point]:
            print("         " + place)
