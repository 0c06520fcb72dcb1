#!/usr/bin/env python3
"""Runs the compiled programs `analyse` and `capitals` on the files of crates/cases/stdin, on samples/ and on input that
cannot be read, and compares; then the root's scripts of these names: their exit status, and what they print where.

    check_cases.py DIRECTORY    where the programs are
"""
import os
import subprocess
import sys
import tempfile

import oracle as o

ROOT = os.path.dirname(os.path.dirname(os.path.abspath(__file__)))
CASES = os.path.join(ROOT, "crates", "cases")
SAMPLES = os.path.join(ROOT, "samples")


def read(*path):
    with open(os.path.join(*path), "rb") as f:
        return f.read()


def parts(data):
    """Title and text of each case."""
    return [case.split(b"\n", 1) for case in data.split(b"# ")[1:]]


def script(name, printed):
    """How many runs of a script end with another status than they should, or print something else; `printed` gives what
    its program prints."""
    seven, refused = (os.path.join(SAMPLES, part + ".tree") for part in ("seven", "refused-4"))
    path, bad = os.path.join(ROOT, name), 0
    for status, words, given in (
            (0, [seven], None), (0, [], seven), (1, [refused], None), (1, [], refused),
            (2, [seven + ".no"], None), (2, [SAMPLES], None), (2, ["one", "two"], None), (2, ["--what"], None)):
        file = read(given) if given else b""
        want = printed(read(given or words[0])) if status < 2 else b""
        got = subprocess.run([path] + words, input=file, capture_output=True, cwd="/", timeout=600)
        if (got.returncode, got.stdout, bool(got.stderr)) != (status, want, status == 2):
            bad += 1
            print("DIFFERS ./%s %s: got %r, want status %d and %r" % (name, " ".join(words), got, status, want))
    bad += elsewhere(path, seven, printed(read(seven)))
    with open("/dev/full", "wb") as disk:
        got = subprocess.run([path, seven], stdout=disk, stderr=subprocess.PIPE, timeout=600)
    if got.returncode != 3 or not got.stderr:
        bad += 1
        print("DIFFERS ./%s on a full disk: got %r, want status 3 and a line on standard error" % (name, got))
    return bad


def elsewhere(path, file, want):
    """How many runs of a script fail that is called through a link, without the kit on the path, or for its help."""
    bad = 0
    with tempfile.TemporaryDirectory() as folder:
        link = os.path.join(folder, "link")
        os.symlink(path, link)
        for what, words, environment in (
                ("through a link", [link, file], None), ("without the kit", [path, file], {"PATH": "/usr/bin:/bin"})):
            got = subprocess.run(words, capture_output=True, cwd=folder, env=environment, timeout=600)
            if (got.returncode, got.stdout, got.stderr) != (0, want, b""):
                bad += 1
                print("DIFFERS %s %s: got %r" % (path, what, got))
    got = subprocess.run([path, "--help"], capture_output=True, timeout=600)
    if got.returncode or got.stderr or b"Exit status" not in got.stdout:
        bad += 1
        print("DIFFERS %s --help: got %r" % (path, got))
    return bad


def differing(program, todo):
    """How many files a compiled program prints something else for than it should."""
    bad = 0
    for title, file, want in todo:
        got = subprocess.run([program], input=file, capture_output=True, timeout=60)
        if (got.stdout, got.stderr, got.returncode) != (want, b"", 0):
            bad += 1
            print("DIFFERS %s, %s: got %r, want %r" % (program, title.decode(), got, want))
    directory = os.open(ROOT, os.O_RDONLY)
    got = subprocess.run([program], stdin=directory, capture_output=True, timeout=60)
    if got.stdout or not got.stderr:
        bad += 1
        print("DIFFERS %s, a directory for input: got %r, want a line on standard error and nothing else" % (program,
                                                                                                             got))
    print("%s: %d files, %d differ" % (os.path.basename(program), len(todo) + 1, bad))
    return bad


def main():
    expected = dict(parts(read(CASES, "stdout")))
    todo = [(title, file, expected[title]) for title, file in parts(read(CASES, "stdin")) if b"@" not in file]
    for name in sorted(os.listdir(SAMPLES)):
        if name.endswith(".tree"):
            todo.append((name.encode(), read(SAMPLES, name), read(SAMPLES, name[:-5] + ".expected")))
    lifted = [(title, file, o.capitals(file)) for title, file, _ in todo]
    stored = dict((title, want) for title, _, want in lifted)[b"stored.tree"]
    bad = int(stored != read(SAMPLES, "stored.capitals") or stored != read(SAMPLES, "wins.tree"))
    for name, wanted, printed in (("analyse", todo, o.report), ("capitals", lifted, o.capitals)):
        bad += differing(os.path.abspath(os.path.join(sys.argv[1], name)), wanted) + script(name, printed)
    sys.exit(1 if bad else 0)


if __name__ == "__main__":
    main()
