#!/usr/bin/env python3
"""Holds what the documents cite to the tree: each file, folder, edit, function and theorem that they name is there, and
where a name is cited with its file, as `name` in `file` or `file` (`name`), it stands in that file; each link leads to
a file and a heading of the tree; each decision that is cited by its name is one of docs/DECISIONS.md, and has it alone.

    cited.py            compares
    cited.py --link     makes the links of docs/THEOREMS.md anew: of each file, and of each statement of crates/demands
"""
import os
import re
import sys

ROOT = os.path.dirname(os.path.dirname(os.path.abspath(__file__)))
DOCUMENTS = ("README.md", "CONTRIBUTING.md", "docs/SPEC.md", "docs/THEOREMS.md", "docs/DECISIONS.md",
             "docs/RELEASE_NOTE.md", "docs/COSTS.md", "docs/COMMAND.md", "docs/TOUR.md", "checks/README.md",
             "bindings/README.md")
# where a path in a document may begin
ROOTS = ("", "crates", "checks", "docs", "samples", "docs/changes")
PATH = re.compile(r"[\w.+-]+(?:/[\w.+*-]+)+/?|[\w-]+\.(?:antt|rt|py|sh|md|c|h|tree)")
# what stands for any name, and what is no file of the tree
ANY = re.compile(r".*NAME.*|target.*|rattle-kit.*|x86_64-.*|.*\*.*")
EDIT = re.compile(r"([a-z_0-9]+)/([a-z_0-9]+)")
CALL = re.compile(r"([a-z_0-9]+)::(?:([\w]+)::)*(?:([\w]+)|\{([^}]*)\})(?:\(.*\))?")
THEOREM = re.compile(r"[a-z0-9][\w'-]*-[\w'-]+")
# definitions, types and functions, but no constant
NAME = re.compile(r"[a-z]\w*[A-Z_]\w*|[A-Z][a-z]\w*")
# names that are cited with their file
NAMES = r"(?:`[^`\n]+`(?:, | and )?)+"
IN_FILE = re.compile(r"(%s) in `([^`\n]+\.(?:antt|rt))`" % NAMES)
OF_FILE = re.compile(r"`([^`\n]+\.(?:antt|rt))` \((%s)\)" % NAMES)
LINK = re.compile(r"\]\(([^)\s]+)\)|^\[[^\]\n]+\]: (\S+)$", re.M)
DECISION = re.compile(r"^- \*\*(.+?)(?:\.|,|:)?\*\*", re.M)
CITED_DECISION = re.compile(r"[Dd]ecision \"([^\"\n]+)\"")


def read(*path):
    with open(os.path.join(ROOT, *path), encoding="utf-8") as f:
        return f.read()


def files(folder, *ends):
    for base, below, names in os.walk(os.path.join(ROOT, folder)):
        below[:] = [name for name in below if name != "out"]
        for name in names:
            if name.endswith(ends):
                yield os.path.relpath(os.path.join(base, name), ROOT)


def without_links(text):
    """A text with the words of its links alone: those in brackets, `[words](target)` or `[words]`, in code type."""
    text = re.sub(r"^\[[^\]\n]+\]: \S+$", "", text, flags=re.M)
    return re.sub(r"\[(`[^`\n]+`)\](?:\([^)\s]+\))?", r"\1", text)


def declared():
    """Every name that a file of the crates or the header for C declares, and every word that one uses."""
    names = set()
    for path in [*files("crates", ".antt", ".rt"), *files("bindings/c", ".h")]:
        for word in re.findall(r"[^\s(){}\[\],;.:`«»]+", read(path)):
            names.add(word)
    return names


def there(path):
    """Is there such a file, folder, edit or ending of a path?"""
    path = path.rstrip("/")
    if any(os.path.exists(os.path.join(ROOT, root, path)) for root in ROOTS):
        return True
    edit = EDIT.fullmatch(path)
    if edit and os.path.exists(os.path.join(ROOT, "crates", edit[1], "must-fail", edit[2] + ".edit")):
        return True
    return any(("/" + known).endswith("/" + path) or "/%s/" % path in known for known in PATHS)


def prose(document):
    """A document's text, each paragraph on one line, without code: fenced, or a paragraph indented by four spaces."""
    text = re.sub(r"^```[\s\S]*?^```$", "", without_links(read(document)), flags=re.M)
    paragraphs = (p.split("\n") for p in re.split(r"\n\s*\n", text))
    return "\n".join(" ".join(map(str.strip, p)) for p in paragraphs if not all(l.startswith("    ") for l in p))


def misplaced(document):
    """The names of a document that do not stand in the file that they are cited with."""
    text = prose(document)
    cited = [(m[2], m[1]) for m in IN_FILE.finditer(text)] + [(m[1], m[2]) for m in OF_FILE.finditer(text)]
    for path, words in cited:
        held = [p for p in PATHS if ("/" + p).endswith("/" + path)]
        for word in re.findall(r"`([^`]+)`", words):
            if not PATH.fullmatch(word) and not any(word in re.split(r"[\s(){}\[\],;.:«»]+", read(p)) for p in held):
                yield "%s` with `%s" % (word, path)


def misses(document, names):
    """The words in code type of a document that name nothing."""
    for word in re.findall(r"`([^`\n]+)`", prose(document)):
        if ANY.fullmatch(word):
            continue
        if PATH.fullmatch(word):
            if not there(word):
                yield word
        elif (THEOREM.fullmatch(word) or NAME.fullmatch(word)) and word not in names:
            yield word
        else:
            call = CALL.fullmatch(word)
            if call and os.path.isdir(os.path.join(ROOT, "crates", call[1])):
                for name in re.split(r",\s*", call[4] or call[3]):
                    if name.split("::")[-1] not in names:
                        yield word


def anchors(document):
    """The anchors of a document's headings."""
    titles = re.findall(r"^#+ (.*)$", read(document), re.M)
    return {re.sub(r"[^\w -]", "", title.lower()).replace(" ", "-") for title in titles}


def dead_links(document):
    """The links of a document that lead nowhere."""
    for target in (a or b for a, b in LINK.findall(read(document))):
        path, _, anchor = target.partition("#")
        if re.match(r"\w+:", target) or ANY.fullmatch(target):
            continue
        file = os.path.normpath(os.path.join(os.path.dirname(document), path)) if path else document
        if not os.path.exists(os.path.join(ROOT, file)):
            yield "](%s)" % target
        elif anchor and anchor not in anchors(file):
            yield "](%s)" % target


def unknown_decisions():
    """Where a decision is cited that docs/DECISIONS.md has not; and names that it has twice."""
    names = DECISION.findall(read("docs/DECISIONS.md"))
    for name in sorted({name for name in names if names.count(name) > 1}):
        yield "docs/DECISIONS.md has two decisions \"%s\"" % name
    ends = (".md", ".rt", ".antt", ".py", ".rs", ".h", ".txt", "checks/doors")
    for path in sorted({*DOCUMENTS, *(p for p in PATHS if p.endswith(ends))} - {"checks/cited.py"}):
        for name in CITED_DECISION.findall(read(path)):
            if name not in names:
                yield "%s cites the decision \"%s\", which is not there" % (path, name)


def home(name, section):
    """The file of a statement of crates/demands, or None."""
    held = [p for p in files("crates/demands/proofs", ".antt")
            if re.search(r"^ *pub %s :" % re.escape(name), read(p), re.M)]
    first = ["crates/demands/proofs/TheSentence.antt", "crates/demands/proofs/Sentences.antt", section]
    return next((p for p in first if p in held), held[0] if len(held) == 1 else None)


def linked(text):
    """docs/THEOREMS.md with its links made anew: in the tables each file, and each statement that has none with it."""
    targets, lines, section = {}, [], None
    for line in without_links(text).rstrip().split("\n"):
        heading = re.match(r"## .*\(`(?:crates/)?(demands/proofs/\w+\.antt)`\)", line)
        if line.startswith("## "):
            section = heading and "crates/" + heading[1]
        if line.startswith(("|", "## ")) and not line.startswith("|---"):
            at_file = {name for names, _ in IN_FILE.findall(line) for name in re.findall(r"`([^`]+)`", names)}

            def link(word):
                path = next((p for p in ("crates/" + word[1], word[1]) if os.path.isfile(os.path.join(ROOT, p))), None)
                edit = EDIT.fullmatch(word[1])
                if edit:
                    path = "crates/%s/must-fail/%s.edit" % edit.groups()
                elif not path and word[1] not in at_file and re.fullmatch(r"[a-z][\w'-]*", word[1]):
                    path = home(word[1], section)
                if not path or not os.path.isfile(os.path.join(ROOT, path)):
                    return word[0]
                if targets.setdefault(word[1], path) != path:
                    return word[0]
                return "[%s]" % word[0]

            line = re.sub(r"`([^`\n]+)`", link, line)
        lines.append(line)
    ends = ["[`%s`]: ../%s" % (name, path) for name, path in sorted(targets.items())]
    return "\n".join(lines + ["", *ends, ""])


PATHS = [p for folder in ("crates", "checks", "docs", "samples", "bindings", "tools")
         for p in files(folder, "")]


def main():
    if sys.argv[1:] == ["--link"]:
        text = linked(read("docs/THEOREMS.md"))
        with open(os.path.join(ROOT, "docs/THEOREMS.md"), "w", encoding="utf-8") as f:
            f.write(text)
    names, bad = declared(), 0
    for document in DOCUMENTS:
        for word in sorted(set(misses(document, names)) | set(misplaced(document)) | set(dead_links(document))):
            print("%s cites `%s`, which is not there" % (document, word))
            bad += 1
    for words in unknown_decisions():
        print(words)
        bad += 1
    if bad:
        sys.exit(1)
    print("every file and name that the documents cite is there")


if __name__ == "__main__":
    main()
