#!/usr/bin/env python3
"""Prints MIR as terms for doors.awk, a word a line: of built libraries, or of functions whose proof need not stand.

    mir.py built CRATES CRATE..      of crates/NAME/out/rlib, which `rt lib` and `rt ci` leave there: what was proved
    mir.py text CRATES FOLDER NAME=FUNCTION..    of what `rattle check --generated FOLDER --start NAME` has written, under
                                     the name FUNCTION; the declared types are those of the built libraries in CRATES
"""
import glob
import json
import os
import re
import sys

BODIES = {"Seq": 2, "Block": 1, "Loop": 1, "Return": 0, "Skip": 0, "Unreachable": 0}


def small(word):
    """AddrOf and addr_of as addrOf."""
    word = "".join(part[0].upper() + part[1:] for part in word.split("_") if part)
    return word[0].lower() + word[1:]


def listed(terms):
    out = ["lnil"]
    for term in reversed(terms):
        out = ["lcons", term, out]
    return out


def named(symbol):
    """A function's name; of a method of the kit the type and the method."""
    symbol = re.sub(r"[\s()]", "_", symbol)
    return '"%s"' % re.sub(r"^(?:core|std\w*)::.*?(\w+)(?:\+\w+)?::(\w+)$", r"\1::\2", symbol)


# ---------------------------------------------------------------- built libraries

def type_of(ty):
    if isinstance(ty, str):
        return ["ty" + ty]
    (kind, parts), = ty.items()
    if kind == "Int":
        return ["tyInt", [str(parts)]]
    if kind == "Ref":
        return ["tyMut" if parts[1] == "Mut" else "tyRef", type_of(parts[2])]
    if kind == "Array":
        return ["tyArray", type_of(parts[0]), ["length", [str(next(iter(parts[1].values())))]]]
    if kind == "Named":
        return ["tyNamed", ["name", ['"%s"' % parts[0]["name"]]]] + [type_of(part) for part in parts[1]]
    if kind == "Param":
        return ["tyParam", ["index", [str(parts)]]]
    if kind in ("Struct", "Tuple"):
        return ["ty" + kind] + [type_of(part) for part in parts[-1]]
    if kind == "Enum":
        return ["tyEnum"] + [type_of(part) for variant in parts[-1] for part in variant]
    return ["ty" + kind]


def place_of(place):
    return ["place", [str(place["local"])], listed(list(map(step_of, place["steps"])))]


def step_of(step):
    """A step of a place; that to a field has its number."""
    kind, parts = (step, None) if isinstance(step, str) else next(iter(step.items()))
    return ["field", [str(parts)]] if kind == "Field" else [small(kind)]


def value_of(value):
    """An operand or a right-hand side."""
    if isinstance(value, str):
        return [small(value)]
    (kind, parts), = value.items()
    if kind == "Copy":
        return ["copy", place_of(parts)]
    if kind.startswith("Int") and "value" in parts:
        return ["int", [str(parts["width"])], [str(parts["value"])]]
    if kind == "Opd":
        return ["rvOpd", value_of(parts)]
    if kind == "AddrOf":
        return ["addrOf", place_of(parts)]
    if kind == "Op2":
        return ["op2", [small(parts[0] if isinstance(parts[0], str) else next(iter(parts[0])))]] + list(
            map(value_of, parts[1:]))
    if kind == "Op1":
        return ["op1", ["operation"], value_of(parts[1])]
    if kind == "Aggregate":
        return ["aggregate", listed(list(map(value_of, parts)))]
    if kind == "Repeat":
        return ["repeat", value_of(parts[0])]
    if kind in ("FnAddr", "SizeOf", "AlignOf", "Float", "NumOf", "Vtable"):
        return [small(kind), ["of"]]
    sys.exit("mir.py: the MIR has a value %s" % kind)


def callee_of(callee):
    """A function by its name; any other callee by its kind."""
    (kind, parts), = callee.items()
    symbol = parts[0] if kind == "Fn" else "%s::%s" % (kind, json.dumps(parts)[:60])
    return ["fn", ["name", [named(symbol)]]]


def body_of(words):
    """The next body of a list in which each stands before its parts."""
    word = next(words)
    if isinstance(word, str):
        return [small(word)] + [body_of(words) for _ in range(BODIES[word])]
    (kind, parts), = word.items()
    if kind == "Assign":
        return ["assign", place_of(parts[0]), value_of(parts[1])]
    if kind == "Call":
        return ["call", callee_of(parts[0]), listed(list(map(value_of, parts[1]))), place_of(parts[2])]
    if kind == "If":
        return ["if", value_of(parts), body_of(words), body_of(words)]
    if kind == "Switch":
        return ["switch", value_of(parts[0])] + [body_of(words) for _ in range(len(parts[1]) + bool(parts[2]))]
    if kind == "Exit":
        return ["exit"]
    if kind == "LendStatic":
        return ["lendStatic", place_of(parts[0]), type_of(parts[1])]
    sys.exit("mir.py: the MIR has a statement %s" % kind)


def built(crates, names):
    for name in names:
        path = os.path.join(crates, name, "out", "rlib", name + ".rlib", "toolchain", "mir.json")
        if not os.path.exists(path):
            sys.exit("mir.py: %s is not built" % name)
        with open(path, encoding="utf-8") as f:
            yield from json.load(f)


def declared(functions):
    """The declared types, each once, with the types of its fields."""
    known = {}
    for _, function in functions:
        for ty in function["types"]:
            (kind, parts), = ty["shape"].items()
            fields = parts if kind == "Fields" else [part for variant in parts for part in variant]
            known[ty["name"]] = ["pair", ['"%s"' % ty["name"]], [small(kind)] + [type_of(field) for field in fields]]
    return list(known.values())


def of_built(functions):
    for name, function in functions:
        places = [["local", type_of(local["ty"]), [small(local["home"])]] for local in function["locals"]]
        yield ["fn-def", [named(name)], ["fn", ["lifetimes"], ["outlives"], [str(function["params"])], listed(places),
                                         body_of(iter(function["body"]))]]


# ---------------------------------------------------------------- written text

class Text:
    """The module Code/Mir.antt of a function."""

    def __init__(self, path):
        with open(path, encoding="utf-8") as f:
            text = f.read()
        self.symbols = {}
        use = r"^use Rattle\.(?:\w+\.below\.)?(\w+)\.(?:proofs|specs\.contracts)\.(\S+)\.(Symbol|Key)(?: as (\S+))?$"
        for crate, function, module, alias in re.findall(use, text, re.M):
            self.symbols[(alias or module) + ".name"] = "::".join([crate, *function.split(".")])
        self.terms = {}
        for name, _, term in re.findall(r"^abbrev pub (\S+) : (.*)\n\1 =((?:.*\n)(?:[ })].*\n|\n)*)", text, re.M):
            self.terms[name] = term.replace("locals = ", "places = ")

    def parsed(self, name):
        words = iter(re.findall(r"[(){};,]|=(?=\s)|[^\s(){};,]+", self.terms[name]))
        return self.group(words, "")

    def group(self, words, end):
        """What stands up to a closing word: a term with its arguments, or a list of such where commas are."""
        parts, out = [], []
        for word in words:
            if word == end:
                break
            if word == "(":
                out.append(self.group(words, ")"))
            elif word == "{":
                out.append(self.group(words, "}"))
            elif word in (",", ";"):
                parts.append(out)
                out = []
            elif word in self.terms:
                out.append(self.parsed(word))
            else:
                out.append(word)
        parts = parts + [out] if out else parts
        return parts[0] if len(parts) == 1 else ["many", *parts]


def flat(term):
    """A term without the brackets around a single one."""
    while isinstance(term, list) and len(term) == 1:
        term = term[0]
    return term


def head(term):
    term = flat(term)
    return re.sub(r"^(Syntax|List)\.", "", term if isinstance(term, str) else flat(term[0]))


def rest(term):
    term = flat(term)
    return [] if isinstance(term, str) else term[1:]


def items(term):
    while head(term) == "◌∷◌":
        first, term = rest(term)
        yield first


def number(term):
    return int(flat(term))


def text_type(term):
    kind, parts = head(term), rest(term)
    if kind == "ty_int":
        return ["tyInt", [head(parts[0])[1:]]]
    if kind == "ty_ref":
        return ["tyMut" if head(parts[1]) == "mut" else "tyRef", text_type(parts[2])]
    if kind == "ty_array":
        return ["tyArray", text_type(parts[0]), ["length", [str(number(parts[1]))]]]
    if kind == "ty_struct":
        return ["tyStruct"] + list(text_types(parts[1]))
    if kind == "ty_named":
        return ["tyNamed", ["name", ['"%s"' % symbol(parts[0])]]] + list(text_types(parts[1]))
    if kind == "ty_param":
        return ["tyParam", ["index", [str(number(parts[0]))]]]
    if kind == "ty_enum":
        return ["tyEnum"] + [t for variant in text_lists(parts[1]) for t in text_types(variant)]
    return [small(kind)]


def text_types(term):
    while head(term) == "tcons":
        first, term = rest(term)
        yield text_type(first)


def text_lists(term):
    while head(term) == "ttcons":
        first, term = rest(term)
        yield first


def symbol(term):
    """The name at the front of a type's head, which is written as its letters' numbers."""
    while head(term) in ("many", "head"):
        term = rest(term)[0]
    return "".join(chr(number(letter)) for letter in items(term))


def text_place(term):
    local, steps = rest(term)
    return ["place", [str(number(local))], listed(list(map(text_step, items(steps))))]


def text_step(step):
    return ["field", [str(number(rest(step)[0]))]] if head(step) == "field" else [small(head(step))]


def text_value(term):
    kind, parts = head(term), rest(term)
    if kind == "copy":
        return ["copy", text_place(parts[0])]
    if kind.startswith("int"):
        return ["int", [head(parts[0])[1:]], [str(number(parts[1]))]]
    if kind == "rv_opd":
        return ["rvOpd", text_value(parts[0])]
    if kind == "addr_of":
        return ["addrOf", text_place(parts[0])]
    if kind == "op2":
        return ["op2", [small(head(parts[0]))]] + list(map(text_value, parts[1:]))
    if kind == "op1":
        return ["op1", ["operation"], text_value(parts[1])]
    if kind == "aggregate":
        return ["aggregate", listed(list(map(text_value, items(parts[0]))))]
    if kind == "repeat":
        return ["repeat", text_value(parts[0])]
    if parts:
        return [small(kind), ["of"]]
    return [small(kind.removeprefix("opd_"))]


def text_body(text, term):
    kind, parts = head(term), rest(term)
    if kind in ("seq", "block", "loop"):
        return [kind] + [text_body(text, part) for part in parts]
    if kind == "assign":
        return ["assign", text_place(parts[0]), text_value(parts[1])]
    if kind == "call":
        words = re.findall(r"[^\s\[\]',]+'*\.name", str(parts[0]).replace("\\'", "'"))
        found = [text.symbols[word] for word in text.symbols if word == head(parts[0]) or word in str(parts[0])]
        name = text.symbols.get(head(parts[0])) or (found and max(found, key=len)) or str(words or parts[0])
        return ["call", ["fn", ["name", [named(name)]]], listed(list(map(text_value, items(parts[1])))),
                text_place(parts[2])]
    if kind == "cond":
        return ["if", text_value(parts[0])] + [text_body(text, part) for part in parts[1:]]
    if kind == "switch":
        return ["switch", text_value(parts[0])] + list(text_arms(text, parts[1]))
    if kind == "lend_static":
        return ["lendStatic", text_place(parts[0]), text_type(parts[1])]
    return [small(kind)]


def text_arms(text, term):
    while head(term) == "arm":
        _, body, term = rest(term)
        yield text_body(text, body)
    if head(term) == "default":
        yield text_body(text, rest(term)[0])


def of_text(folder, name, function):
    crate, *path = name.split("::")
    above = os.path.join(folder, "Rattle-%s-proofs" % crate, *path[:-1])
    # functions that call one another stand in one folder
    in_cycle = glob.glob(os.path.join(above, "+*", "Code", "+%s.antt" % path[-1]))
    text = Text(in_cycle[0] if in_cycle else os.path.join(above, path[-1], "Code", "Mir.antt"))
    # with declared types by their names, where it has such
    function_term = text.parsed("by_name" if "by_name" in text.terms else "function")
    fields = {flat(part)[0]: flat(part)[2:] for part in rest(rest(function_term)[0])}
    places = [["local", text_type(rest(local)[0]), [small(head(rest(local)[1]))]] for local in items(fields["places"])]
    return ["fn-def", [named(function)], ["fn", ["lifetimes"], ["outlives"], [str(number(fields["params"]))],
                                          listed(places), text_body(text, fields["body"])]]


# ---------------------------------------------------------------- terms

def words_of(term):
    """A term in brackets, a word a line."""
    todo, out = [term], []
    while todo:
        term = todo.pop()
        if isinstance(term, str):
            out.append(term)
        elif len(term) == 1:
            out.append(term[0])
        else:
            todo.append(")")
            todo.extend(reversed(term[1:]))
            out.append("(" + term[0])
    lines = []
    for word in out:
        if word == ")":
            lines[-1] += ")"
        else:
            lines.append(word)
    return lines


def main():
    sys.setrecursionlimit(100000)
    if sys.argv[1:2] == ["built"]:
        functions = list(built(sys.argv[2], sys.argv[3:]))
        terms = [*declared(functions), *of_built(functions)]
    elif sys.argv[1:2] == ["text"]:
        names = [os.path.basename(os.path.dirname(os.path.dirname(os.path.dirname(path)))) for path in
                 glob.glob(os.path.join(sys.argv[2], "*", "out", "rlib", "*.rlib"))]
        functions = list(built(sys.argv[2], sorted(set(names))))
        terms = declared(functions) + [of_text(sys.argv[3], *pair.split("=")) for pair in sys.argv[4:]]
    else:
        sys.exit(__doc__.strip())
    for term in terms:
        print("\n".join(words_of(term)))


if __name__ == "__main__":
    main()
