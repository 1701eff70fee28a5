#!/usr/bin/env python3
"""Respells the names in camel case that respell_names.py left: constructors that share a line, parameters and local names, and what comments and must-fail edits cite.

usage: python3 tools/respell_rest.py      at the top of the repository, after respell_names.py
"""
import glob
import re

NAMES = """allZeros allOnes zeroFraction nonzeroFraction plainWork blockedWork heightOf finiteRows workOf targetLength sourceLength standsOver memoryOf blockedEnough
plainEnough rootBits columnRules readValues readSizes readMap hexDigit columnsFrom backwardRows""".split()
NEW = {n: re.sub(r"(?<=[a-z0-9])([A-Z])", r"_\1", n).lower() for n in NAMES} | {"libraryFinite": "library_is_finite"}

for kind in ("specs/**/*.antt", "proofs/**/*.antt", "src/**/*.rt", "must-fail/*.edit"):
    for path in sorted(glob.glob(f"crates/*/{kind}", recursive=True)):
        with open(path) as f:
            text = f.read()
        new = re.sub(r"\b(?:%s)\b" % "|".join(NEW), lambda m: NEW[m.group(0)], text)
        if new != text:
            with open(path, "w") as f:
                f.write(new)
