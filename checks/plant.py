#!/usr/bin/env python3
"""Writes wrong programs into a copy of a crate's source, for checks/doors.

    plant.py bare FILE..                     takes the contracts out of the files: their MIR is the same without
    plant.py FILE FUNCTION NAME TEXT         puts a function NAME behind FUNCTION: the same, but that it begins with TEXT
    plant.py FILE FUNCTION NAME TEXT OLD     the same, but that TEXT stands in place of OLD, which FUNCTION has once
"""
import re
import sys


def read(path):
    with open(path, encoding="utf-8") as f:
        return f.read()


def write(path, text):
    with open(path, "w", encoding="utf-8") as f:
        f.write(text)


def closed(text, at):
    """Where the brace that opens at a place is closed, and past it."""
    level = 0
    for k in range(at, len(text)):
        level += {"{": 1, "}": -1}.get(text[k], 0)
        if level == 0:
            return k + 1
    sys.exit("plant.py: a brace is not closed")


def bare(text):
    text = re.sub(r"^ *(?:pub )?ghost use [^;]*;\n", "", text, flags=re.M)
    text = re.sub(r"^ *#\[tactic\([^\n]*\)\]\n", "", text, flags=re.M)
    text = text.replace("#![tactic(auto)]", "#![tactic(none)]")
    while True:
        clause = re.search(r"^ *(?:requires|ensures)\b[^{\n]*(?=\{)", text, re.M)
        if not clause:
            return text
        end = closed(text, clause.end())
        text = text[:clause.start()] + text[end:].lstrip("\n").removeprefix("\n")


def planted(text, function, name, words, old=None):
    found = re.search(r"^( *)(?:pub )?fn %s\b[^{;]*\{\n.*?^\1\}\n" % function, text, re.M | re.S)
    if not found:
        return None
    copy = re.sub(r"fn %s\b" % function, "fn " + name, found.group(), count=1)
    if old is None:
        at = copy.index("{\n") + 2
        copy = copy[:at] + found.group(1) + "    " + words + "\n" + copy[at:]
    elif copy.count(old) == 1:
        copy = copy.replace(old, words)
    else:
        return None
    return text[:found.end()] + "\n" + copy + text[found.end():]


def main():
    if sys.argv[1:2] == ["bare"]:
        for path in sys.argv[2:]:
            write(path, bare(read(path)))
    elif len(sys.argv) in (5, 6):
        text = planted(read(sys.argv[1]), *sys.argv[2:])
        if text is None:
            sys.exit("plant.py: %s has no function %s, or not this text once in it" % tuple(sys.argv[1:3]))
        write(sys.argv[1], text)
    else:
        sys.exit(__doc__.strip())


if __name__ == "__main__":
    main()
