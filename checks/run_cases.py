#!/usr/bin/env python3
"""Runs the stored cases of checks/cases through the library for other languages (library.py), and those of the program
`cases` too where a caller in C reaches the call, over lent memory with guards around it, and compares what they give
with what is stored. README.md has the form of both.

    run_cases.py
"""
import os
import sys
from array import array

import fuzz_library
import oracle as o
from make_cases import FILLED, LINE_ENTRIES, ROOT, TABLE_SIZE, UNLISTED, numbers

FOLDERS = ("checks/cases", "crates/cases")
# what the program makes itself, and the call that no caller in C reaches: the list of states is lent as structs
MADE, UNREACHED = 2, "states"


def ask(name, *buffers):
    """The answer by its fields, and what the buffers hold then."""
    got = fuzz_library.call(LIBRARY, name, *buffers)
    assert not isinstance(got, str), got
    return dict(zip((field for field, _ in fuzz_library.result(name)._fields_), got[0])), got[1]


def given(answer, *fields):
    """A refusal, or these fields of an answer."""
    if answer["refused"]:
        return " refused %d %d" % (answer["refused"], answer["place"])
    return numbers(answer[field] for field in fields)


def line(word, name, *buffers, field="count"):
    return "%s%s\n" % (word, given(ask(name, *buffers)[0], field))


def row(word, data):
    return "%s%s\n" % (word, numbers(data))


def filled(size):
    return bytearray((FILLED,) * size)


def unlisted(entries):
    return array("H", (UNLISTED,) * entries)


def table_of(file):
    """The table of a file; empty where the file is refused."""
    answer, left = ask("read", file, bytes(TABLE_SIZE))
    return left[1][:6 * answer["count"]]


def longer(file, size):
    """So many bytes of a file's table; zeros follow its frames."""
    return (table_of(file) + bytes(TABLE_SIZE))[:size]


def report(file):
    answer, _ = ask("report", file)
    return bytes(answer["bytes"])[:answer["length"]].decode()


def verdict(table, flags):
    return line("verify", "verify", table, flags, field="value")


def choice(table, first, second):
    answer, left = ask("shorter", table, first, second)
    if answer["refused"]:
        return "shorter%s\nflags\n" % given(answer)
    chosen = answer["chosen"] - 1
    return "shorter %s\n" % ("first", "second")[chosen] + row("flags", left[1 + chosen][:answer["count"]])


def search(word, table, marks, flags, entries, before=(), after=()):
    """A search with filled buffers and a filled list of these lengths, and the verdict on its certificate."""
    name = {"ab": "alphabeta"}.get(word, word)
    lists = () if word == "plain" else (unlisted(entries),)
    answer, left = ask(name, table, *before, filled(marks), filled(flags), *lists, *after)
    fields = ("value", "root_move", "count", "steps")[:2 if word == "plain" else 4]
    if answer["spent"]:
        word, fields = word + " spent", ("value", "count", "steps")
    order = array("H", left[3] if lists else b"")
    lent = row("evaluated", left[1]) + row("certificate", left[2]) + row("order", order)
    return "%s%s\n" % (word, given(answer, *fields)) + lent + verdict(table, left[2])


def allowed(table, allowance, *sizes):
    return search("sss", table, *sizes, after=(allowance,))


def searches(table, *sizes):
    return (search("ab", table, *sizes) + search("mtd", table, *sizes) + allowed(table, o.MAX_NODES, *sizes)
            + search("plain", table, *sizes))


def reading(file, size):
    answer, left = ask("read", file, filled(size))
    return "read%s\n" % given(answer, "count") + row("table", left[1])


def writing(table, room):
    """The writer; what was written is read back."""
    answer, left = ask("write", table, filled(room))
    text = "write%s\n" % given(answer, "count") + row("file", left[1])
    return text if answer["refused"] else text + reading(left[1][:answer["count"]], len(table))


def output(file, room):
    answer, left = ask("capitals", file, filled(room))
    refused = given(answer) if answer["refused"] else ""
    length = " %d%s" % (answer["count"], refused) if answer["count"] else " no room"
    return "output%s\n" % length + row("text", left[1])


def graft(first, node, second, room):
    """A graft, and the report of the result's file."""
    answer, left = ask("graft", first, node, second, filled(room))
    text = "graft%s\n" % given(answer, "count") + row("result", left[2])
    if answer["refused"]:
        return text
    size = answer["count"]
    return text + report(ask("write", left[2][:6 * size], filled(13 * size))[1][1])


def best_line(table):
    answer, left = ask("line", table, unlisted(LINE_ENTRIES))
    return "best%s\n" % given(answer, "value", "root_move", "count") + row("line", array("H", left[1]))


def filling(table):
    answer, left = ask("fill", table)
    cost, _ = ask("alphabeta", left[0], bytes(o.MAX_NODES), bytes(o.MAX_NODES), array("H", bytes(2 * o.MAX_NODES)))
    ab = "ab%s\n" % given(cost, "value", "root_move", "count", "steps")
    return "fill%s\n" % given(answer, "count") + row("table", left[0]) + ab


def one_line(file, at):
    answer, _ = ask("read_line", file, at)
    return (row("line", (*answer["bytes"], answer["at"])) if answer["read"] else row("no line", (answer["at"],)))


def kids(table, node):
    answer, _ = ask("children", table, node)
    return row("children", table[6 * answer["first"]:6 * (answer["first"] + answer["count"])])


def regular_file(width, inner):
    return o.file_of(o.regular(width, inner, lambda k: k))


CALLS = {
    "report": lambda file: report(file),
    "flags": lambda file, *flags: verdict(table_of(file), bytes(flags)),
    "pair": lambda file, n, *flags: choice(table_of(file), bytes(flags[:n]), bytes(flags[n:])),
    "buffers": lambda file, *sizes: searches(table_of(file), *sizes),
    "allowance": lambda file, *numbers: allowed(table_of(file), *numbers),
    "start": lambda file, p, m, *sizes: search("mtdf", table_of(file), *sizes, before=(p - m,)),
    "table": reading,
    "write": lambda file, room, size: writing(longer(file, size), room),
    "output": output,
    "least_value": lambda file, size, node, p, m: line("least_value", "least_value", longer(file, size), node, p - m,
                                                       field="value"),
    "best": lambda file: best_line(table_of(file)),
    "fill": lambda file, size: filling(longer(file, size)),
    "regular": lambda file, width, depth: line("least", "least_leaves", width, depth),
    "check": lambda file, size: (line("check", "check", longer(file, size)) + verdict(longer(file, size), b"")
                                 + searches(longer(file, size), 0, 0, 0)),
    "line": one_line,
    "kids": lambda file, node: kids(table_of(file), node),
    "made": lambda file, width, inner: report(regular_file(width, inner)),
    "made_graft": lambda file, width, inner: line("graft", "graft", table_of(regular_file(16, 128)), 128,
                                                  table_of(regular_file(width, inner)), bytes(o.MAX_TABLE)),
    "least_counts": lambda file: "".join(
        row("least", (ask("least_leaves", width, depth)[0]["count"] for depth in range(o.MAX_DEPTH + 1)))
        for width in range(1, o.MAX_CHILDREN + 1)),
    "long_output": lambda file, room: output(b"0" * (o.MAX_FILE + 1), room),
}


def grafted(file, *numbers):
    """With two numbers, the bytes of the first file and the node, there is room for any result, and the answer is all;
    with five, the lines of the first file, the node, the room, and so many bytes of each table."""
    if len(numbers) == 2:
        end, node = numbers
        return line("graft", "graft", table_of(file[:end]), node, table_of(file[end:]), bytes(o.MAX_TABLE))
    lines, node, room, first, second = numbers
    return graft(longer(file[:13 * lines], first), node, longer(file[13 * lines:], second), room)


def cases(data):
    """Title, file, name of the call and its numbers, of each case of an input."""
    for case in data.split(b"# ")[1:]:
        title, rest = case.split(b"\n", 1)
        file, _, call = rest.partition(b"@")
        name, *words = call.decode().split() or ["report"]
        yield title, file, name, [int(word) for word in words]


def main():
    run, bad = 0, 0
    for folder in FOLDERS:
        with open(os.path.join(ROOT, folder, "stdin"), "rb") as f:
            todo = list(cases(f.read()))
        with open(os.path.join(ROOT, folder, "stdout"), "rb") as f:
            expected = dict(case.split(b"\n", 1) for case in f.read().split(b"# ")[1:])
        assert len(todo) + MADE * (folder == "crates/cases") == len(expected), folder
        for title, file, name, words in todo:
            if name == UNREACHED:
                continue
            got = CALLS[name](file, *words)
            run += 1
            if got.encode() != expected[title]:
                bad += 1
                print("DIFFERS %s, %s\ngot  %r\nwant %r" % (folder, title.decode(), got, expected[title].decode()))
    print("%d stored cases through the library, %d differ" % (run, bad))
    sys.exit(1 if bad else 0)


if __name__ == "__main__":
    CALLS["graft"] = grafted
    LIBRARY = fuzz_library.ours()
    main()
