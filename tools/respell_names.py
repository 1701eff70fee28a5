#!/usr/bin/env python3
"""Respells the repository's own definitions and lemmas in snake case, in specs/, proofs/ and the ghost text of src/.

usage: python3 tools/respell_names.py [--dry]      at the top of the repository

A name in camel case or with dashes becomes one in snake case, wherever it stands; types, modules, strings and functions of src/ keep theirs, and so does what a
file imports from a library. `getD` in a name is the library's `get_or`. --dry prints each name whose new spelling stands beside it already in some file.
"""
import collections
import glob
import os
import re
import sys

TOKEN = re.compile(r"[^\s(){}\[\];,.:@\"]+")
DECLARED = re.compile(r"^\s*(?:(?:pub|abbrev|unfoldable)\s+)*([^\s(){}:;,.=λ→⊢|]+)\s*:(?:\s|$)(.*)")
USE = re.compile(r"^\s*(?:pub\s+|ghost\s+)*use\s+([^\s{};]+?)\.\{([^}]*)\}", re.M)
USE_AS = re.compile(r"^\s*(?:pub\s+|ghost\s+)*use\s+([^\s{};]+?)\s+as\s+([^\s;]+)", re.M)
# Lemmas whose new spelling is a definition's that stands in their file: they end in `_lem`, as does each lemma with dashes that a definition's name meets.
GIVEN = {n: n.replace("-", "_") + "_lem" for n in ("in_field", "hand_on", "is-nan", "nan-bits")}


def snake(name):
    if name in GIVEN:
        return GIVEN[name]
    name = re.sub(r"getD(?![a-z])", "get_or", name)
    name = re.sub(r"(?<=[a-z0-9])([A-Z])", lambda m: "_" + m.group(1), name)
    return name.replace("-", "_").lower()


def files():
    for kind in ("specs", "proofs"):
        yield from sorted(glob.glob(f"crates/*/{kind}/**/*.antt", recursive=True))


def sources():
    yield from sorted(glob.glob("crates/*/src/**/*.rt", recursive=True))


def own_names(crates):
    names = set()
    for path in files():
        with open(path) as f:
            text = f.read()
        for line in text.split("\n"):
            m = DECLARED.match(line)
            if not m or m.group(1)[0].isupper():
                continue
            name, kind = m.group(1), m.group(2)
            if path.endswith("Proof.antt") and re.match(r"\s*tie\.(Need-|invariant-|decreases-)", kind):
                continue
            if snake(name) != name and re.fullmatch(r"[A-Za-z0-9_'\-]+", name):
                names.add(name)
    definitions = {snake(n) for n in names if "-" not in n}
    GIVEN.update({n: snake(n) + "_lem" for n in names if "-" in n and snake(n) in definitions})
    return names | set(GIVEN)


def kept(text, crates):
    """What a file imports from elsewhere than this repository, by the names that it has there and here."""
    out = set()
    for m in USE.finditer(text):
        parts = m.group(1).split(".")
        if parts[0] == "Rattle" and parts[1] in crates:
            # What Rattle makes of a source has the source's spelling.
            if parts[-1] not in ("Tie", "Statement", "Goals", "Given", "Lts"):
                continue
        for it in m.group(2).split(","):
            out |= set(it.split()) - {"as"}
    return out


def respell(text, names, skip):
    def one(m):
        t = m.group(0)
        return snake(t) if t in names and t not in skip else t

    return TOKEN.sub(one, text)


def ghost_parts(text):
    """The spans of a source's clauses, ghost items and comments."""
    spans = []
    for m in re.finditer(r"//[^\n]*", text):
        spans.append(m.span())
    for m in re.finditer(r"\bghost use[^;]*;", text):
        spans.append(m.span())
    for m in re.finditer(r"\b(?:requires|ensures)\*?(?:\s+\w+)?\s*\{", text):
        depth, i = 1, m.end()
        while depth:
            depth += {"{": 1, "}": -1}.get(text[i], 0)
            i += 1
        spans.append((m.start(), i))
    return sorted(spans)


def respell_source(text, names, skip):
    out, at = [], 0
    for a, b in ghost_parts(text):
        if a < at:
            continue
        out += [text[at:a], respell(text[a:b], names, skip)]
        at = b
    return "".join(out + [text[at:]])


def main():
    dry = "--dry" in sys.argv
    crates = {c for c in os.listdir("crates")}
    names = own_names(crates)
    together = collections.defaultdict(set)
    for n in names:
        together[snake(n)].add(n)
    for path in list(files()) + list(sources()):
        with open(path) as f:
            text = f.read()
        skip = kept(text, crates)
        tokens = set(TOKEN.findall(text))
        if dry:
            for n in sorted(tokens & names - skip):
                others = {t for t in tokens if t != n and (t == snake(n) or (t in names and snake(t) == snake(n) and t not in skip))}
                if others:
                    print(f"{path}: {n} beside {sorted(others)}")
            continue
        new = respell(text, names, skip) if path.endswith(".antt") else respell_source(text, names, skip)
        if new != text:
            with open(path, "w") as f:
                f.write(new)


main()
