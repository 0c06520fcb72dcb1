"""Makes the wheel that pip installs, with what stands in Python itself, so that pip needs no network.

    pip install ./bindings/python

Where the archive libbuulset.a and a C compiler are there, the wheel carries the shared library; otherwise it is
Python alone, and the module looks for an installed library. BUULSET_LIB_DIR names the archive's folder, otherwise it is
where `tools/build buulset_c` puts it. One source and one archive give one wheel, byte for byte."""
import base64
import hashlib
import os
import re
import shutil
import subprocess
import sys
import tempfile
import zipfile
from pathlib import Path

HERE = Path(__file__).resolve().parent
PACKAGE = HERE / "buulset"
VERSION = re.search(r'^__version__ = "(.*)"$', (PACKAGE / "library.py").read_text(encoding="utf-8"), re.M)[1]
INFORMATION = "buulset-%s.dist-info" % VERSION
SONAME = "libbuulset.so.%s" % VERSION.split(".")[0]


def metadata():
    return ("Metadata-Version: 2.1\nName: buulset\nVersion: %s\nSummary: Proved minimax searches of analysis trees\n"
            "Requires-Python: >=3.8\nDescription-Content-Type: text/markdown\n\n%s"
            % (VERSION, (HERE / "README.md").read_text(encoding="utf-8")))


def tag(carries_library):
    return "py3-none-linux_x86_64" if carries_library else "py3-none-any"


def shared_library():
    """The bytes of the shared library, or None where it cannot be built here."""
    folder = os.environ.get("BUULSET_LIB_DIR") or HERE / "../../target/staticlib"
    archive, compiler = Path(folder) / "libbuulset.a", shutil.which("gcc") or shutil.which("cc")
    if not archive.exists() or not compiler:
        missing = "no C compiler" if archive.exists() else "no %s" % archive.name
        print("buulset: %s, so the wheel carries no library" % missing, file=sys.stderr)
        return None
    with tempfile.TemporaryDirectory() as scratch:
        made = Path(scratch) / SONAME
        subprocess.run([compiler, "-shared", "-o", str(made), "-Wl,-soname," + SONAME, "-Wl,-z,text", "-Wl,-z,defs",
                        "-Wl,--build-id=none", "-s", "-Wl,--whole-archive", str(archive), "-Wl,--no-whole-archive"],
                       check=True)
        return made.read_bytes()


def record(files):
    """The list of the wheel's files with their hashes."""
    lines = []
    for name, content in files:
        digest = base64.urlsafe_b64encode(hashlib.sha256(content).digest()).rstrip(b"=").decode()
        lines.append("%s,sha256=%s,%d\n" % (name, digest, len(content)))
    return "".join(lines) + INFORMATION + "/RECORD,,\n"


def build_wheel(wheel_directory, config_settings=None, metadata_directory=None):
    files = [("buulset/" + path.name, path.read_bytes()) for path in sorted(PACKAGE.iterdir())
             if path.suffix == ".py" or path.name == "py.typed"]
    library = shared_library()
    if library:
        files.append(("buulset/" + SONAME, library))
    head = "Wheel-Version: 1.0\nGenerator: buulset\nRoot-Is-Purelib: %s\nTag: %s\n"
    files.append((INFORMATION + "/METADATA", metadata().encode()))
    files.append((INFORMATION + "/WHEEL", (head % ("false" if library else "true", tag(library))).encode()))
    files.append((INFORMATION + "/RECORD", record(files).encode()))
    name = "buulset-%s-%s.whl" % (VERSION, tag(library))
    with zipfile.ZipFile(os.path.join(wheel_directory, name), "w", zipfile.ZIP_DEFLATED) as wheel:
        for path, content in files:
            entry = zipfile.ZipInfo(path, (1980, 1, 1, 0, 0, 0))
            entry.external_attr, entry.compress_type = 0o644 << 16, zipfile.ZIP_DEFLATED
            wheel.writestr(entry, content)
    return name


def build_sdist(sdist_directory, config_settings=None):
    raise NotImplementedError("the repository is the source: pip install ./bindings/python")
