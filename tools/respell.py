#!/usr/bin/env python3
"""Respells the repository's own definitions and lemmas, once, after the toolchain's port script.

usage: python3 tools/respell.py [FOLDER]

A name with dashes that the repository defines in specs/ or proofs/ becomes snake case, or camel case where it begins with a
capital (a type or a fact). Names that the prover makes for a function's goals, names of the library, and names with an operator
in them stay. Two names that would fall together, or one that would meet a name that a file brings in, are printed and stay.
"""

import pathlib
import re
import sys
from collections import defaultdict

TOKEN = re.compile(r"[^\s(){}\[\],;.·\"`]+")
NAME = re.compile(r"[A-Za-z][A-Za-z0-9_'₀-₉]*(?:-[A-Za-z0-9_'₀-₉]+)+")
KEYWORDS = r"(?:(?:pub|abbrev|unfoldable|record|data|ruleset|private)\s+)*"
DEFINED = re.compile(r"^\s*" + KEYWORDS + r"([^\s(){}\[\],;.·\"`]+)\s*(?:[:({=]|$)", re.M)
BOUND = re.compile(r"\b(?:let|where)\s+([^\s(){}\[\],;.·\"`]+)\s*[:=]")
ANSWER = re.compile(r"^\s*" + KEYWORDS + r"([^\s:]+)\s*:\s*goal\.", re.M)
IMPORT = re.compile(r"\buse\s+(Rattle\.[\w.]+)\.\{([^}]*)\}")


def respelled(name):
    parts = name.split("-")
    if name[0].isupper() and len(parts[0]) > 1:
        return parts[0] + "".join(p[0].upper() + p[1:] for p in parts[1:])
    return "_".join(parts)


def antt_files(root):
    return sorted(p for p in (root / "crates").glob("*/*/**/*.antt") if "out" not in p.relative_to(root).parts)


def own_names(root, crates):
    """The names that the repository defines, and those that it may not touch: answers to goals, and imports from outside."""
    own, fixed, plain = set(), set(), defaultdict(set)
    for path in antt_files(root) + sorted((root / "crates").glob("*/src/**/*.rt")):
        text = path.read_text()
        if path.suffix == ".antt":
            own.update(n for n in DEFINED.findall(text) + BOUND.findall(text) if NAME.fullmatch(n))
            fixed.update(ANSWER.findall(text))
        for module, names in IMPORT.findall(text):
            if module.split(".")[1] not in crates:
                fixed.update(n.strip() for n in names.split(","))
        plain[path].update(TOKEN.findall(re.sub(r"\bRattle(?:\.\w+)+", "", text)))
    return own - fixed, plain


def main():
    root = pathlib.Path(sys.argv[1] if len(sys.argv) > 1 else ".").resolve()
    crates = {p.name for p in (root / "crates").iterdir()}
    own, plain = own_names(root, crates)
    turned = {n: respelled(n) for n in own}
    targets = defaultdict(list)
    for old, new in turned.items():
        targets[new].append(old)
    for new, olds in sorted(targets.items()):
        met = [p for p, words in plain.items() if new in words and any(o in words for o in olds)]
        if len(olds) > 1 or met:
            print("look:", new, sorted(olds), [str(p.relative_to(root)) for p in met][:4])
            if len(olds) > 1 or any(p.suffix == ".antt" for p in met):
                for old in olds:
                    turned.pop(old)
    for path in antt_files(root) + sorted((root / "crates").glob("*/src/**/*.rt")) + sorted((root / "crates").glob("*/must-fail/*.edit")):
        text = path.read_text()
        new = TOKEN.sub(lambda m: turned.get(m.group(0), m.group(0)), text)
        if new != text:
            path.write_text(new)
    words = sorted((root / "docs").glob("*.md")) + [root / "README.md"]
    for path in (p for p in words if p.exists()):
        text = path.read_text()
        new = re.sub(r"`[^`\n]*`", lambda m: TOKEN.sub(lambda t: turned.get(t.group(0), t.group(0)), m.group(0)), text)
        if new != text:
            path.write_text(new)
    print(len(turned), "names respelled")


if __name__ == "__main__":
    main()
