#!/usr/bin/env python3
"""Spells the repository's own definitions, lemmas and modules as today's Rattle does: run once, at the top, after port.py.

Words in snake case (`childCount` becomes `child_count`), modules in upper camel case (`specs/results` becomes
`specs/Results`), and no middle dot in a name. Functions of src/, exported C names, strings, inputs and outputs keep
their names: in .rt files only names of clauses are spelled in lower camel case. It turns crates/**/*.antt and *.rt.
Where a snake-case name would be that of another thing in the same file, SPECIAL gives the name in its place.
"""
import os
import re
import subprocess

SPECIAL = {
    "rootMove": "root_move_of",  # root_move is a field of what a search finds
    "chosenBy": "chosen_by_side",  # chosen_by is a lemma
    "bySide": "bounds_by_side",  # by_side is a lemma
    "foundBefore": "found_before_case",  # found_before is the lemma about it
    "getD": "get_or",  # the kit's name today, in names made of it
}
DOTTED = {
    "List·getD-append": "get_or-append",
    "List·getD-eq-default": "get_or-eq_default",
    "eqb·zero-suc": "eqb-zero-suc",
    "eqb·suc-zero": "eqb-suc-zero",
    "eqb·suc-suc": "eqb-suc-suc",
}
CAMEL = re.compile(r"(?<![A-Za-z0-9_])[a-z][a-z0-9]*(?:[A-Z][A-Za-z0-9]*)+")
# the names of generated proofs and of the kit's syntax keep their spelling
KEEP = {"eF", "vB", "vL", "vO", "vU"}


def snake(name):
    return SPECIAL.get(name) or re.sub(r"([a-z0-9])([A-Z])", r"\1_\2", name).lower()


def respell(text):
    for old, new in DOTTED.items():
        text = text.replace(old, new)
    text = CAMEL.sub(lambda m: m.group() if m.group() in KEEP else snake(m.group()), text)
    return re.sub(r"(?<![\w'-])([\w'-]+) as \1(?![\w'-])", r"\1", text)


def upper(name):
    return "".join(part.capitalize() for part in name.split("_"))


def modules():
    """(crate, specs or proofs, folder) of each module whose name begins with a small letter."""
    for crate in sorted(os.listdir("crates")):
        for kind in ("specs", "proofs"):
            at = os.path.join("crates", crate, kind)
            for name in sorted(os.listdir(at)) if os.path.isdir(at) else ():
                small = name[0].islower() and name.endswith(".antt")
                if small and os.path.isdir(os.path.join(at, name[:-5])):
                    yield crate, kind, name[:-5]


def main():
    moved = list(modules())
    for folder, _, files in os.walk("crates"):
        crate = folder.split(os.sep)[1] if os.sep in folder else ""
        if f"{os.sep}out" in folder:
            continue
        for name in files:
            if not name.endswith((".antt", ".rt")):
                continue
            path = os.path.join(folder, name)
            with open(path, encoding="utf-8") as f:
                text = old = f.read()
            for c, kind, module in moved:
                text = re.sub(rf"(Rattle\.{c}\.{kind}\.){module}\b", rf"\g<1>{upper(module)}", text)
                if c == crate and folder.startswith(os.path.join("crates", c, kind)):
                    text = re.sub(rf"^((?:pub )?mod ){module}$", rf"\g<1>{upper(module)}", text, flags=re.M)
                    text = re.sub(rf"^((?:unfoldable )?(?:pub )?use ){module}\.", rf"\g<1>{upper(module)}.", text, flags=re.M)
            text = respell(text)
            if text != old:
                with open(path, "w", encoding="utf-8") as f:
                    f.write(text)
    for crate, kind, module in moved:
        at = os.path.join("crates", crate, kind)
        for tail in (".antt", ""):
            subprocess.run(["mv", os.path.join(at, module + tail), os.path.join(at, upper(module) + tail)], check=True)


if __name__ == "__main__":
    main()
