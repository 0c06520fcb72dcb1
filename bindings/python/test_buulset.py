"""Tests of the module: the samples, every call, refusals, how the library is found, and the documents' examples.

    test_buulset.py LIBRARY     LIBRARY is the shared library to load"""
import base64
import doctest
import hashlib
import inspect
import os
import pickle
import subprocess
import sys
import tempfile
import threading
import typing
import unittest
import unittest.mock
import zipfile
from pathlib import Path

HERE = Path(__file__).resolve().parent
ROOT = HERE.parent.parent
SAMPLES = sorted((ROOT / "samples").glob("*.tree"))
LIBRARY = os.path.abspath(sys.argv[1]) if len(sys.argv) > 1 else ""
if __name__ == "__main__":
    os.environ["BUULSET_LIBRARY"] = LIBRARY
    sys.path.insert(0, str(HERE))
    os.chdir(ROOT)

import buulset
import wheel_builder
from buulset import Line, Refused, Search, Stopped, Tree
from buulset.calls import CALLS


def sample(name):
    return Tree.from_file((ROOT / "samples" / (name + ".tree")).read_bytes())


def accepted():
    for path in SAMPLES:
        try:
            yield path, Tree.from_file(path.read_bytes())
        except Refused:
            pass


class Samples(unittest.TestCase):
    """Each sample against its stored report."""

    def test_reports(self):
        self.assertGreater(len(SAMPLES), 10)
        for path in SAMPLES:
            self.assertEqual(buulset.report(path.read_bytes()), path.with_suffix(".expected").read_text(), path)

    def test_refusals(self):
        for path in SAMPLES:
            want = path.with_suffix(".expected").read_text()
            try:
                tree = Tree.from_file(path.read_bytes())
                self.assertEqual(tree.to_file(), path.read_bytes().rstrip(b"\n") + b"\n")
            except Refused as refusal:
                self.assertEqual(buulset.refused(refusal.number, refusal.place), want, path)

    def test_searches(self):
        for path, tree in accepted():
            rows = path.with_suffix(".expected").read_text().splitlines()
            for name, found in (("ab", tree.alphabeta()), ("mtd", tree.mtd()), ("sss", tree.sss())):
                self.assertIn("%s %d %d %d" % (name, found.value, found.root_move or 0, found.leaves), rows, path)

    def test_capitals(self):
        for path in (ROOT / "samples").glob("*.capitals"):
            file = path.with_suffix(".tree").read_bytes()
            self.assertEqual(buulset.convert(file), path.read_bytes())
            self.assertEqual(buulset.capitals(file), path.read_bytes())
        self.assertEqual(buulset.capitals((ROOT / "samples/cut-off.tree").read_bytes()), b"refused 3 15\n")


class Searches(unittest.TestCase):
    def test_what_a_search_leaves(self):
        for _, tree in accepted():
            for found in (tree.alphabeta(), tree.mtd(), tree.mtdf(0), tree.sss()):
                self.assertEqual(sum(found.evaluated), found.leaves)
                self.assertEqual(len(set(found.order)), found.leaves)
                self.assertTrue(all(found.evaluated[node] for node in found.order))
                self.assertEqual(tree.verify(found.certificate), found.value)

    def test_the_best_line(self):
        for _, tree in accepted():
            line, found = tree.line(), tree.sss()
            self.assertEqual((line.value, (line.nodes + (None,))[1]), (found.value, found.root_move))
            self.assertTrue(all(below in tree.children(node) for node, below in zip(line.nodes, line.nodes[1:])))
            self.assertIsNotNone(tree.stored(line.nodes[-1]))

    def test_plain_marks_every_leaf(self):
        for _, tree in accepted():
            plain, leaves = tree.plain(), [tree.stored(k) is not None for k in range(tree.nodes)]
            self.assertEqual((list(plain.evaluated), plain.order), ([int(x) for x in leaves], ()))
            self.assertEqual(plain.value, tree.alphabeta().value)

    def test_mtdf_from_everywhere(self):
        for _, tree in accepted():
            most = tree.alphabeta()
            for start in (most.value, most.value - 5, most.value + 5, -1 << 31, (1 << 31) - 1):
                found = tree.mtdf(start)
                self.assertEqual((found.value, found.root_move), (most.value, most.root_move))
                self.assertLessEqual(found.leaves, most.leaves)

    def test_allowances(self):
        for _, tree in accepted():
            whole = tree.sss()
            for allowance in range(min(whole.leaves, 40) + 2):
                within = tree.sss_within(allowance)
                if allowance < whole.leaves:
                    self.assertIsInstance(within, Stopped)
                    self.assertEqual(within.order, whole.order[:allowance])
                    self.assertGreaterEqual(within.merit, whole.value)
                else:
                    self.assertEqual(within, whole)
            self.assertEqual(tree.sss_within(2 ** 64 - 1), whole)

    def test_the_best_line(self):
        self.assertEqual(sample("ending").line().nodes, (0, 2, 9))
        for _, tree in accepted():
            line, found = tree.line(), tree.sss()
            self.assertEqual((line.value, line.nodes[0]), (found.value, 0))
            self.assertEqual(line.nodes[1:2], () if found.root_move is None else (found.root_move,))
            for node, child in zip(line.nodes, line.nodes[1:]):
                self.assertIn(child, tree.children(node))
            self.assertEqual({found.certificate[node] for node in line.nodes}, {3})
            self.assertIsNotNone(tree.stored(line.nodes[-1]))

    def test_root_that_is_a_leaf(self):
        self.assertEqual(Tree.from_file(b"00000000FFFB").line(), Line(-5, (0,)))
        found = Tree.from_file(b"00000000FFFB").sss()
        self.assertEqual(found, Search(-5, None, 1, 1, b"\1", b"\3", (0,)))


class Trees(unittest.TestCase):
    def test_frames(self):
        tree = sample("captures")
        nodes = [k for k in range(tree.nodes) for k in tree.children(k)]
        self.assertEqual(nodes, list(range(1, len(tree))))
        self.assertTrue(any(tree.second_capture(k) for k in range(tree.nodes)))
        for past in (tree.nodes, 2 ** 64 - 1):
            self.assertEqual((tree.stored(past), tree.second_capture(past), len(tree.children(past))), (None, False, 0))
        self.assertEqual((tree.stored(-1), tree.second_capture(-1)), (None, False))

    def test_values_of_python(self):
        tree = sample("seven")
        self.assertEqual(pickle.loads(pickle.dumps(tree)), tree)
        self.assertEqual({tree: 1}[Tree.from_table(bytearray(tree.table))], 1)
        self.assertNotEqual(tree, tree.with_value(3, 9))
        self.assertNotEqual(tree, tree.table)
        self.assertEqual(Tree.from_file(memoryview(tree.to_file())), tree)

    def test_changes(self):
        tree = sample("seven")
        self.assertEqual(tree.with_value(6, -32000).stored(6), -32000)
        for node, value, want in ((0, 1, (19, 0)), (7, 1, (19, 7)), (6, 32001, (7, 6)), (6, 1 << 70, (7, 6))):
            with self.assertRaises(Refused) as caught:
                tree.with_value(node, value)
            self.assertEqual((caught.exception.number, caught.exception.place), want)
        hardest, leaves = sample("ending").filled()
        self.assertEqual(hardest.alphabeta().leaves, leaves)

    def test_grafts_and_needs(self):
        tree = sample("seven")
        self.assertEqual(tree.graft(3, tree).nodes, 13)
        self.assertRaisesRegex(Refused, "^refused 17 1: ", tree.graft, 1, tree)
        self.assertEqual(tree.with_value(5, tree.least_value(5, 4)).sss().value, 4)
        self.assertRaisesRegex(Refused, "^refused 21 3: ", tree.least_value, 3, 4)
        self.assertRaisesRegex(Refused, "^refused 20 0: ", tree.least_value, 3, 32001)

    def test_certificates(self):
        tree = sample("ending")
        long, short = (bytes(int(chr(b)) for b in (ROOT / "samples" / name).read_bytes().strip())
                       for name in ("ending-long.certificate", "ending.certificate"))
        self.assertEqual(tree.shorter(long, short + b"\7"), short)
        self.assertEqual(tree.shorter(short, bytearray(long)), short)
        self.assertRaisesRegex(Refused, "^refused 10 0: ", tree.verify, short[:-1])
        self.assertRaisesRegex(Refused, "^refused 10 0: ", tree.shorter, b"", b"")


class Calls(unittest.TestCase):
    def test_every_call_has_a_method_or_a_function(self):
        other = {"read": "from_file", "write": "to_file", "fill": "filled"}
        for name in CALLS:
            name = other.get(name, name)
            self.assertTrue(hasattr(Tree, name) or hasattr(buulset, name), name)

    def test_every_public_name_has_types(self):
        functions = [getattr(buulset, name) for name in buulset.__all__]
        functions += [f for name, f in vars(Tree).items() if not name.startswith("_")]
        for function in functions:
            function = getattr(function, "__func__", getattr(function, "fget", function))
            if inspect.isfunction(function):
                annotated = set(typing.get_type_hints(function)) | {"self", "cls"}
                self.assertLessEqual({"return", *inspect.signature(function).parameters}, annotated, function)

    def test_limits(self):
        self.assertEqual(buulset.report(b"0" * (buulset.MAX_FILE + 1)), "refused 2 0\n")
        self.assertEqual(buulset.capitals(b"0" * (buulset.MAX_FILE + 1)), b"refused 2 0\n")
        self.assertRaisesRegex(Refused, "^refused 2 0: ", buulset.check, bytes(buulset.MAX_TABLE + 6))
        self.assertEqual(buulset.least_leaves(buulset.MAX_CHILDREN, buulset.MAX_DEPTH), 65535)
        self.assertRaisesRegex(Refused, "^refused 22 0: ", buulset.least_leaves, buulset.MAX_CHILDREN + 1, 6)
        self.assertRaisesRegex(Refused, "^refused 23 0: ", buulset.least_leaves, 1, buulset.MAX_DEPTH + 1)

    def test_numbers_are_not_cut(self):
        tree = sample("seven")
        for wrong in (lambda: tree.least_value(3, 1 << 40), lambda: tree.mtdf(1 << 31), lambda: tree.children(-1),
                      lambda: tree.sss_within(-1), lambda: buulset.digit(256), lambda: buulset.refused(256, 0)):
            self.assertRaises(OverflowError, wrong)

    def test_only_bytes_are_bytes(self):
        for wrong in (5, "000000000007", None, [0]):
            self.assertRaises(TypeError, Tree.from_file, wrong)
            self.assertRaises(TypeError, Tree, wrong)
            self.assertRaises(TypeError, sample("seven").verify, wrong)

    def test_threads(self):
        tree, results = sample("ending"), []
        threads = [threading.Thread(target=lambda: results.append(tree.sss())) for _ in range(8)]
        for thread in threads:
            thread.start()
        for thread in threads:
            thread.join()
        self.assertEqual(results, [tree.sss()] * 8)


class Refusals(unittest.TestCase):
    def test_as_an_exception(self):
        refusal = Refused(3, 15)
        self.assertEqual((str(refusal), refusal.args), ("refused 3 15: not whole lines or frames", (3, 15)))
        self.assertEqual(pickle.loads(pickle.dumps(refusal)), refusal)
        self.assertEqual(len({Refused(3, 15), refusal, Refused(3, 16)}), 2)
        self.assertEqual(Refused(15, 0).meaning, "no question has this number")


class Library(unittest.TestCase):
    """How the library is found, each time in a new Python."""

    def said(self, program="import buulset; print(buulset.version())", **environment):
        kept = {k: v for k, v in os.environ.items() if k not in ("BUULSET_LIBRARY", "LD_LIBRARY_PATH")}
        run = subprocess.run([sys.executable, "-c", program], capture_output=True, text=True, cwd="/",
                             env={**kept, "PYTHONPATH": str(HERE), **environment})
        return (run.stdout or run.stderr).strip().splitlines()[-1]

    def test_by_its_variable(self):
        self.assertEqual(self.said(BUULSET_LIBRARY=LIBRARY), str(buulset.version()))

    def test_the_variable_is_final(self):
        said = self.said(BUULSET_LIBRARY="/nowhere/at/all.so")
        self.assertIn("ImportError: the shared library of Buulset is not found; looked for /nowhere/at/all.so", said)
        self.assertNotIn("libbuulset", said)

    def test_a_file_that_is_no_library(self):
        other = str(HERE / "pyproject.toml")
        self.assertIn("looked for %s (" % other, self.said(BUULSET_LIBRARY=other))

    def test_import_needs_no_library(self):
        self.assertEqual(self.said("import buulset; print(buulset.__version__)", BUULSET_LIBRARY="/nowhere"),
                         buulset.__version__)

    def test_another_major_version(self):
        program = "from buulset import library; library._MAJOR = 99; import buulset; buulset.version()"
        self.assertIn("and this module is of version", self.said(program, BUULSET_LIBRARY=LIBRARY))


class Wheel(unittest.TestCase):
    """What pip is given."""

    def built(self, folder, **environment):
        with unittest.mock.patch.dict(os.environ, environment):
            return Path(folder) / wheel_builder.build_wheel(folder)

    def test_one_source_gives_one_wheel(self):
        with tempfile.TemporaryDirectory() as one, tempfile.TemporaryDirectory() as other:
            first, second = self.built(one), self.built(other)
            self.assertEqual((first.name, first.read_bytes()), (second.name, second.read_bytes()))

    def test_its_record_is_right(self):
        with tempfile.TemporaryDirectory() as folder, zipfile.ZipFile(self.built(folder)) as wheel:
            record = wheel.read("buulset-%s.dist-info/RECORD" % buulset.__version__).decode().splitlines()
            self.assertEqual([line.split(",")[0] for line in record], wheel.namelist())
            self.assertIn("buulset/py.typed", wheel.namelist())
            for line in record[:-1]:
                name, digest, size = line.split(",")
                content = wheel.read(name)
                found = base64.urlsafe_b64encode(hashlib.sha256(content).digest()).rstrip(b"=").decode()
                self.assertEqual((digest, int(size)), ("sha256=" + found, len(content)), name)

    def test_without_the_archive_it_is_python_alone(self):
        with tempfile.TemporaryDirectory() as folder:
            wheel = self.built(folder, BUULSET_LIB_DIR=folder)
            self.assertTrue(wheel.name.endswith("-py3-none-any.whl"), wheel.name)
            with zipfile.ZipFile(wheel) as content:
                self.assertFalse([name for name in content.namelist() if ".so" in name])


def load_tests(loader, tests, pattern):
    """The examples of every docstring and of README.md are tests too."""
    from buulset import files, library, refusal, tree
    for module in (buulset, files, library, refusal, tree):
        tests.addTests(doctest.DocTestSuite(module, extraglobs={"seven": sample("seven")}))
    tests.addTests(doctest.DocFileSuite(str(HERE / "README.md"), module_relative=False, encoding="utf-8"))
    return tests


if __name__ == "__main__":
    if not os.path.exists(LIBRARY):
        sys.exit("usage: test_buulset.py LIBRARY")
    run = unittest.main(argv=[sys.argv[0], "-b"], exit=False).result
    print("%d tests" % run.testsRun)
    sys.exit(not run.wasSuccessful())
