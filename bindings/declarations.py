#!/usr/bin/env python3
"""Holds the declarations in C, Rust and Python to the exported functions of the Rattle source.

    declarations.py [ARCHIVE]       compares; the last line says how many declarations there are, and how many differ
    declarations.py --try           tries wrong declarations: each must be found
    declarations.py --set-version X.Y.Z   writes the version into every place that has it

It reads each `#[unsafe(no_mangle)] pub extern "C" fn` of crates/buulset_c and each `#[repr(C)]` struct of crates/buulset_answers,
and compares, in order, the kinds and names of the parameters, the result, and the members of the structs; the
constants that stand in both; the texts of the refusals, in C, Rust and Python; every list of the questions with the
table of docs/SPEC.md, 4.2; the version, in every place of VERSIONS; and, where an archive is given, its symbols."""
import ctypes
import importlib.util
import pathlib
import re
import subprocess
import sys

HERE = pathlib.Path(__file__).resolve().parent
SOURCES = [HERE / "../crates" / crate / "src/lib.rt" for crate in ("buulset_c", "buulset_answers")]
HEADER, FFI, LIB, MODULE = (HERE / path for path in (
    "c/buulset.h", "rust/src/ffi.rs", "rust/src/lib.rs", "python/buulset/calls.py"))
LIMITS, MEANINGS = HERE / "python/buulset/tree.py", HERE / "python/buulset/refusal.py"
EXPLAIN, SPEC = HERE / "command/src/explain.rs", HERE / "../docs/SPEC.md"
KINDS = {"size_t": "usize", "uint8_t": "u8", "uint16_t": "u16", "uint32_t": "u32", "int16_t": "i16", "int32_t": "i32",
         "children_of": "children", "file_line": "line"}
# where the version stands, and after what; the library's own is the first, and the others follow it
VERSIONS = (
    ("crates/buulset/src/lib.rt", r"const VERSION: u32 = (\d+);"),
    ("crates/buulset/specs/Version.antt", r"^version = (\d+)$"),
    ("crates/buulset/specs/Version.antt", r"^-- the version of the library: ([\d.]+)$"),
    ("bindings/c/buulset.h", r"^#define BUULSET_VERSION (\d+)$"),
    ("bindings/rust/src/lib.rs", r"^pub const VERSION: u32 = (\d+);$"),
    ("bindings/Cargo.toml", r'^version = "([\d.]+)"$'),
    ("bindings/python/buulset/library.py", r'^__version__ = "([\d.]+)"$'),
)
SIZES = {"FRAME_SIZE": "6", "TEXT_SIZE": "256", "BUULSET_FRAME_SIZE": "6", "BUULSET_TEXT_SIZE": "256"}


def kind(name):
    name = name.replace("buulset_", "").strip()
    return KINDS.get(name, name.lower())


def array(t):
    m = re.fullmatch(r"\[(\w+); (\w+)\]", t)
    return "%s[%s]" % (kind(m[1]), SIZES.get(m[2], m[2])) if m else kind(t)


def split(parameters):
    return [p.strip() for p in parameters.split(",") if p.strip() and p.strip() != "void"]


def members(body):
    return [(n, array(t)) for n, t in re.findall(r"pub (\w+): (\[\w+; \w+\]|\w+)", body)]


def declared(pattern, text):
    """Calls by their names, with the kinds and names of their parameters, a slice as pointer and length, and their
    result."""
    calls = {}
    for call, parameters, result in re.findall(pattern, text):
        kinds = []
        for p in split(parameters):
            name, t = (x.strip() for x in p.split(":"))
            m = re.fullmatch(r"&(?:'\w+ )?(mut )?\[(\w+)\]", t)
            if m:
                kinds += [("%s %s*" % ("mut" if m[1] else "const", kind(m[2])), name), ("usize", name + "_len")]
            else:
                kinds.append((kind(t), name))
        calls["buulset_" + call] = kinds, kind(result)
    return calls


def laid_out(text):
    """Structs with the layout of C, with their members."""
    structs = re.findall(r"#\[repr\(C\)\]\s*(?:#\[[^\]]*\]\s*)*pub struct (\w+) \{(.*?)\n\}", text, re.S)
    return {name.lower(): members(body) for name, body in structs}


def rattle(text):
    text = re.sub(r"//.*", "", text)
    head = r'#\[unsafe\(no_mangle\)\]\s*pub extern "C" fn buulset_(\w+)(?:<[^>]*>)?\(([^)]*)\)\s*->\s*(\w+)'
    calls, structs = declared(head, text), laid_out(text)
    # `result` is a word of Rattle's clauses, so a parameter of that name is `res` there
    plain = {name: ([(k, re.sub(r"^res(?=$|_len$)", "result", n)) for k, n in kinds], out)
             for name, (kinds, out) in calls.items()}
    return plain, structs


def c(text):
    text = re.sub(r"/\*.*?\*/", "", text, flags=re.S).replace("BUULSET_RESTRICT ", "").replace("BUULSET_RESTRICT", "")
    calls, structs = {}, {}
    for result, name, parameters in re.findall(r"^(\w+) (buulset_\w+)\(([^)]*)\);", text, re.M):
        kinds = []
        for p in split(parameters):
            m = re.fullmatch(r"(const )?(\w+) (\*?)(\w+)", p)
            kinds.append(("%s %s*" % ("const" if m[1] else "mut", kind(m[2])) if m[3] else kind(m[2]), m[4]))
        calls[name] = kinds, kind(result)
    for body, name in re.findall(r"typedef struct \w+ \{([^}]*)\} (\w+);", text):
        structs[kind(name)] = [(n, "%s[%s]" % (kind(t), SIZES.get(a, a)) if a else kind(t))
                               for t, n, a in re.findall(r"(\w+) (\w+)(?:\[(\w+)\])?;", body)]
    return calls, structs


def rust(text):
    text = re.sub(r"//.*", "", text)
    return declared(r"(?m)^    fn (\w+)\(([^)]*)\)\s*->\s*(\w+);", text), laid_out(text)


def python(text):
    module = importlib.util.module_from_spec(importlib.util.spec_from_loader("buulset", None))
    exec(compile(text, str(MODULE), "exec"), module.__dict__)
    structures = {s: n.lower() for n, s in vars(module).items()
                  if isinstance(s, type) and issubclass(s, ctypes.Structure) and s is not ctypes.Structure}
    names = {ctypes.c_size_t: "usize", ctypes.c_uint8: "u8", ctypes.c_uint32: "u32", ctypes.c_int16: "i16",
             ctypes.c_int32: "i32", module.READ: "const u8*", module.WRITE: "mut u8*", module.LIST: "mut u16*",
             **structures}

    def of(t):
        return names[t] if t in names else "%s[%d]" % (names[t._type_], t._length_)

    calls = {"buulset_" + n: ([names[p] for p in ps], names[r]) for n, (ps, r) in module.CALLS.items()}
    return calls, {name: [(n, of(t)) for n, t in s._fields_] for s, name in structures.items()}


def constants(pattern, text):
    return {n: int(v.replace("_", "")) for n, v in re.findall(pattern, text)}


def version_files():
    return {path: (HERE.parent / path).read_text() for path, _ in VERSIONS}


def numbered(version):
    """10203 for 1.2.3, and as it is for a number."""
    major, minor, patch = (int(part) for part in version.split(".")) if "." in version else (0, 0, int(version))
    return 10000 * major + 100 * minor + patch


def dotted(number):
    return "%d.%d.%d" % (number // 10000, number // 100 % 100, number % 100)


def with_version(text, pattern, number):
    """The text with another version in one place, as a number or with points, as it stands there."""
    at = re.search(pattern, text, re.M)
    return text[:at.start(1)] + (dotted(number) if "." in at[1] else str(number)) + text[at.end(1):]


def version_differences(files):
    """The number of comparisons, and a line for each place whose version is not the library's."""
    found = [re.search(pattern, files[path], re.M) for path, pattern in VERSIONS]
    wanted = numbered(found[0][1])
    lines = ["%s: its version is %s and should be %s" % (path, at and at[1], dotted(wanted))
             for (path, _), at in zip(VERSIONS, found) if at is None or numbered(at[1]) != wanted]
    changes = (HERE / "../CHANGELOG.md").read_text()
    if not re.search("^## %s$" % re.escape(dotted(wanted)), changes, re.M):
        lines.append("CHANGELOG.md: it has no section %s" % dotted(wanted))
    return len(VERSIONS) + 1, lines


def set_version(version):
    """Writes the version into every place."""
    for path, pattern in VERSIONS:
        file = HERE.parent / path
        file.write_text(with_version(file.read_text(), pattern, numbered(version)))
        print("%s: %s" % (path, version))


def meanings():
    """What a refusal means, in Rust and in Python."""
    rust_text = re.search(r"fn meaning.*?\n    }\n", LIB.read_text(), re.S)[0]
    return (re.findall(r'(\d+) => "(.*?)"', rust_text),
            re.findall(r'^    (\d+): "(.*?)",$', MEANINGS.read_text(), re.M))


def numerals(text):
    """The numbers of a text that are no small ones, as 40 and 53,248: limits."""
    return {n for n in (int(n.replace(",", "")) for n in re.findall(r"\d[\d,]*\b", text)) if n >= 18}


def spec_questions():
    """The questions of docs/SPEC.md, 4.2: for each number whether its place is always 0, and the limits it may name."""
    spec = SPEC.read_text()
    limits = numerals(re.search(r"^3\.2 .*?(?=^3\.3)", spec, re.M | re.S)[0])
    table = re.search(r"^4\.2 .*?(?=^4\.3)", spec, re.M | re.S)[0]
    rows = re.findall(r"^\| (\d+) \| (.*?) \| (.*?) \| .*\|$", table, re.M)
    numbers = sorted({int(number) for number, _, _ in rows})
    return {n: (all(place == "0" for number, _, place in rows if int(number) == n),
                limits.union(*(numerals(asks) for number, asks, _ in rows if int(number) == n))) for n in numbers}


def lists_of_questions(header, lib, explain):
    """Each list of the questions: where it stands, and for each number its text and, if it is told, its place."""
    enum = header[header.index("THE QUESTIONS"):header.index("Flags of a certificate")]
    yield "C", {int(n): (text, None) for n, text in re.findall(r"BUULSET_\w+ = (\d+),? +/\*(.*?)\*/", enum, re.S)}
    yield "C", {int(n): (text, None) for n, text in re.findall(r'case (\d+): return "([^"]*)";', header) if n != "0"}
    yield "Rust", {int(n): (text, None) for n, text in re.findall(r'^ +(\d+) => "([^"]*)",$', lib, re.M)}
    yield "Python", {int(n): (text, None) for n, text in meanings()[1]}
    told = {int(n): (asks, place) for n, asks, place in re.findall(
        r'ask\((\d+), (?:\w+|"[^"]*"),\s*("(?:[^"\\]|\\.|\\\n)*"),\s*"([^"]*)",', explain)}
    told |= {int(n): ("", "the first node whose rule breaks") for n in re.findall(r"solution_tree!\((\d+),", explain)}
    yield "explain", told


def differences(source, header, ffi, lib, module, explain, archive=None):
    """The number of comparisons, and a line for each that fails."""
    compared, lines = 0, []

    def compare(where, name, got, wanted):
        nonlocal compared
        compared += 1
        if got != wanted:
            lines.append("%s: %s is %s and should be %s" % (where, name, got, wanted))

    want = rattle(source)
    unnamed = {call: ([k for k, _ in kinds], result) for call, (kinds, result) in want[0].items()}, want[1]
    for where, got, wanted in (("C", c(header), want), ("Rust", rust(ffi), want), ("Python", python(module), unnamed)):
        for i in (0, 1):
            for name in sorted(set(wanted[i]) | set(got[i])):
                compare(where, name, got[i].get(name), wanted[i].get(name))
    # the limits and the version that the Rattle crates name
    sources = "".join(p.read_text() for p in sorted((HERE / "../crates").glob("*/src/*.rt")) if p not in SOURCES)
    named = constants(r"const (\w+): \w+ = ([\d_]+);", sources) | constants(r"const (\w+): \w+ = ([\d_]+);", source)
    for where, of in (("C", constants(r"#define BUULSET_(\w+) (\d+)\b", header)),
                      ("Rust", constants(r"pub const (\w+): \w+ = ([\d_]+);", lib)),
                      ("Python", constants(r"(?m)^([A-Z_]+) = (\d+)$", LIMITS.read_text()))):
        for name in sorted(set(of) & set(named)):
            compare(where, name, of[name], named[name])
    texts = dict(re.findall(r'case (\d+): return ("[^"]*");', header))
    in_rust = dict(re.findall(r'^ +(\d+) => ("[^"]*"),$', lib, re.M))
    questions = header[:header.index("Flags of a certificate")]
    for number in re.findall(r"BUULSET_\w+ = (\d+),? +/\*", questions):
        compare("C", "the text of refusal " + number, texts.get(number), in_rust.get(number, "there"))
    compare("C", "which refusals have a text", sorted(set(texts) - {"0"}), sorted(in_rust))
    compare("Python", "what refusals mean", *reversed(meanings()))
    spec = spec_questions()
    for where, known in lists_of_questions(header, lib, explain):
        compare(where, "which questions there are", sorted(known), sorted(spec))
        for number in sorted(set(known) & set(spec)):
            text, place = known[number]
            beyond = numerals(text) - spec[number][1]
            compare(where, "which limits question %d names beyond SPEC's" % number, beyond, set())
            if place is not None:
                compare(where, "is the place of question %d always 0" % number, place == "0", spec[number][0])
    if archive:
        symbols = subprocess.run(["nm", archive], capture_output=True, text=True, check=True).stdout
        compare(archive, "its functions", sorted(re.findall(r" T (\w+)", symbols)), sorted(want[0]))
        compare(archive, "what it needs", sorted(re.findall(r" U (\w+)", symbols)), ["memcpy", "memset"])
    return compared, lines, len(want[0]), len(want[1])


# (which text, what stands there, what is put instead): each is a wrong declaration
WRONG = (
    (1, "const uint8_t *first, size_t first_len, size_t node", "uint8_t *first, size_t first_len, size_t node"),
    (1, "size_t node, int32_t wanted", "size_t node, int16_t wanted"),
    (1, "uint8_t buulset_digit(uint8_t byte);", "uint16_t buulset_digit(uint8_t byte);"),
    (1, "    uint8_t spent; ", "    uint16_t spent; "),
    (1, "uint32_t buulset_version(void);", ""),
    (1, "uint16_t *BUULSET_RESTRICT order", "uint8_t *BUULSET_RESTRICT order"),
    (1, "uint16_t *BUULSET_RESTRICT line", "const uint16_t *line"),
    (1, "#define BUULSET_MAX_DEPTH 18", "#define BUULSET_MAX_DEPTH 24"),
    (1, 'case 11: return "a wrong flag";', 'case 11: return "a wrong value";'),
    (1, '    case 23: return "the depth is more than 18";\n', ""),
    (2, "fn fill(table: &mut [u8])", "fn fill(table: &[u8])"),
    (2, "node: usize, wanted: i32", "wanted: i32, node: usize"),
    (2, "    pub root_move: usize,\n    pub steps: usize,", "    pub steps: usize,\n    pub root_move: usize,"),
    (2, "fn refused(number: u8, place: usize) -> Text;", ""),
    (3, "pub const MAX_CHILDREN: usize = 40;", "pub const MAX_CHILDREN: usize = 41;"),
    (4, '("value", ctypes.c_int32)', '("value", ctypes.c_int16)'),
    (4, '"fill": (_LENT, Answer)', '"fill": (_BYTES, Answer)'),
    (1, "/* a node below depth 18 */", "/* a node below depth 24 */"),
    (5, "has the file at most 53,248 bytes?", "has the file at most 53,247 bytes?"),
    (5, 'does some value of the leaf give the root the wanted value?",\n        "the leaf"',
     'does some value of the leaf give the root the wanted value?",\n        "0"'),
    (5, 'ask(23, "of least"', 'ask(24, "of least"'),
    (0, "    pub value: i32,", "    pub value: i16,"),
    (0, "pub extern \"C\" fn buulset_digit(byte: u8) -> u8", "pub extern \"C\" fn buulset_digit(byte: u16) -> u8"),
)


def missed_versions():
    """How many places there are where another version is not found."""
    missed = 0
    for path, pattern in VERSIONS:
        files = version_files()
        files[path] = with_version(files[path], pattern, 99999)
        if not version_differences(files)[1]:
            missed += 1
            print("not found: another version in %s" % path)
    return missed


def main():
    texts = ["".join(p.read_text() for p in SOURCES)] + [p.read_text() for p in (HEADER, FFI, LIB, MODULE, EXPLAIN)]
    if sys.argv[1:] == ["--try"]:
        missed = 0
        for which, old, new in WRONG:
            assert old in texts[which], old
            wrong = [t.replace(old, new, 1) if i == which else t for i, t in enumerate(texts)]
            if not differences(*wrong)[1]:
                missed += 1
                print("not found: %s for %s" % (new, old))
        missed += missed_versions()
        print("%d wrong declarations, %d not found" % (len(WRONG) + len(VERSIONS), missed))
        sys.exit(missed != 0)
    if sys.argv[1:2] == ["--set-version"]:
        return set_version(sys.argv[2])
    compared, lines, calls, structs = differences(*texts, *sys.argv[1:])
    more, wrong_versions = version_differences(version_files())
    compared, lines = compared + more, lines + wrong_versions
    print(*lines, sep="\n", end="\n" if lines else "")
    print("%d functions, %d structs: %d declarations compared, %d differ" % (calls, structs, compared, len(lines)))
    sys.exit(bool(lines))


main()
