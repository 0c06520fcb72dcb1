"""What bench.py, starts.py and fuzz_library.py share: the shipped archive, and marked places in a document."""
import os
import subprocess
import sys

CHECKS = os.path.dirname(os.path.abspath(__file__))
ROOT = os.path.dirname(CHECKS)
WORK = os.path.join(ROOT, "target", "bench")


def run(words, **more):
    got = subprocess.run(words, stdout=subprocess.PIPE, stderr=subprocess.STDOUT, text=True, **more)
    if got.returncode:
        sys.exit("%s failed\n%s" % (" ".join(words), got.stdout))
    return got.stdout


def read(path):
    with open(path) as f:
        return f.read()


def put(path, name, text):
    """Puts the text between the marks <!-- NAME --> and <!-- /NAME --> of a document."""
    begin, end = "<!-- %s -->\n" % name, "<!-- /%s -->\n" % name
    before, rest = read(path).split(begin)
    with open(path, "w") as f:
        f.write(before + begin + text + end + rest.split(end)[1])


def build():
    """The library for other languages as it is shipped: made by `tools/build buulset_c`, which proves only what has
    changed (with PROVED=--proved nothing, after rt ci), or the archive in the folder that BUULSET_LIB_DIR names."""
    os.makedirs(WORK, exist_ok=True)
    given = os.environ.get("BUULSET_LIB_DIR")
    if not given:
        run([os.path.join(ROOT, "tools", "build")] + os.environ.get("PROVED", "").split() + ["buulset_c"], cwd=ROOT)
    return os.path.join(given or os.path.join(ROOT, "target", "staticlib"), "libbuulset.a")
