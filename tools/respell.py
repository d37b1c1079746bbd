#!/usr/bin/env python3
"""Respells this repository's own words for today's Rattle: facts and types in upper camel case, everything else in snake case.

usage: tools/respell.py          at the top of a checkout, once, after the kit's port.py

Only names that specs/ and proofs/ declare, or that a `use` gives with `as`, are respelled: names that Rattle or the library makes
keep their dashes. In source files ghost items alone are touched. It stops, and writes nothing, where two names would fall together.
"""
import glob
import re
import sys

NAME = r"[A-Za-z][A-Za-z0-9_'′ℕ]*(?:-[A-Za-z0-9_'′ℕ]+)*"
TOKEN = re.compile(NAME)
KEYWORDS = r"(?:(?:abbrev|unfoldable|pub|record|data)\s+)*"
DECLARED = re.compile(r"^\s*" + KEYWORDS + "(" + NAME + r")(?=[\s:])")
ALIAS = re.compile(r"\bas (" + NAME + ")")
# Of these the two that would fall together are never meant in one place: a function or variant of the sources and a word of specs/ or proofs/.
ALLOWED = {
    "Nothing-waits",
    "all-executed",
    "bad-field",
    "cost-left",
    "count-writes",
    "declares-any",
    "is-write",
    "lets-go-of",
    "may-abort",
    "may-execute",
    "may-release",
    "serial-order",
}
COMMENT = {"antt": re.compile(r"--(?:\s.*)?$"), "rt": re.compile(r"//.*$")}


def is_dashed(name):
    return "-" in name or "′" in name


def respelled(name):
    """`Fits-tape` is `FitsTape`, `place-reply` is `place_reply`."""
    name = name.replace("′", "'")
    if not name[0].isupper():
        return name.replace("getD", "get_or").replace("-", "_")
    return "".join(part[:1].upper() + part[1:] for part in name.split("-"))


def code(line, kind):
    """The line without its comment."""
    return COMMENT[kind].sub("", line)


def is_declared(rest):
    """Whether a type follows behind a name and its parameters."""
    rest = rest.lstrip()
    while rest[:1] in ("(", "{"):
        deep = 0
        for i, c in enumerate(rest):
            deep += (c in "({") - (c in ")}")
            if not deep:
                break
        rest = rest[i + 1 :].lstrip()
    return rest.startswith(": ") or rest == ":"


def declared_in(lines, kind):
    """The dashed names that a file declares, but for those of goals, which Rattle names."""
    names = set()
    for line in lines:
        line = code(line, kind).rstrip("\n")
        if "use " in line:
            names |= set(filter(is_dashed, ALIAS.findall(line)))
            continue
        at = DECLARED.match(line) if kind == "antt" else None
        if not at or not is_dashed(at[1]) or not is_declared(line[at.end(1) :]):
            continue
        if not re.search(r":\s*(goal|given)\.", line):
            names.add(at[1])
    return names


def ghost_lines(lines):
    """Which lines of a source file are ghost: imports, clauses, members, invariants, and what they go on with."""
    deep, ghost = 0, []
    for line in lines:
        starts = re.match(r"\s*(?:ghost|requires|ensures|decreases|#\[tactic)\b", line) is not None
        inside = deep > 0
        ghost.append(starts or inside)
        if starts or inside:
            deep = max(0, deep + line.count("{") + line.count("(") - line.count("}") - line.count(")"))
    return ghost


def turned(line, kind, names):
    text = code(line.rstrip("\n"), kind)
    end = line[len(text) :]
    return TOKEN.sub(lambda m: names.get(m[0], m[0]), text) + end


def main():
    files = sorted(p for p in glob.glob("crates/**/*", recursive=True) if re.search(r"\.(antt|rt)$", p) and "/out/" not in p)
    texts = {p: open(p, encoding="utf-8").read().splitlines(keepends=True) for p in files}
    kinds = {p: p.rsplit(".", 1)[1] for p in files}
    found = set().union(*(declared_in(texts[p], kinds[p]) for p in files))
    names = {name: respelled(name) for name in found}
    taken = {t for p in files for line in texts[p] for t in TOKEN.findall(code(line, kinds[p]))}
    together = [n for n in sorted(names) if names[n] in taken] + [n for n in sorted(names) if list(names.values()).count(names[n]) > 1]
    for n in together:
        print(f"falls together: {n} with {names[n]}" + (" (allowed)" if n in ALLOWED else ""))
    if set(together) - ALLOWED:
        return 1
    for p in files:
        ghost = ghost_lines(texts[p]) if kinds[p] == "rt" else [True] * len(texts[p])
        new = "".join(turned(line, kinds[p], names) if g else line for line, g in zip(texts[p], ghost))
        if new != "".join(texts[p]):
            with open(p, "w", encoding="utf-8") as f:
                f.write(new)
    print(f"{len(names)} names respelled")
    return 0


if __name__ == "__main__":
    sys.exit(main())
