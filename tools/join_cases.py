#!/usr/bin/env python3
"""Puts the lists of cases together for the program `cases`: crates/cases/stdin and crates/cases/stdout.

    tools/join_cases.py            # joins: each list from target/lists/NAME, or else as it is stored
    tools/join_cases.py --split    # writes each stored list to target/lists/NAME
    tools/join_cases.py --check    # says whether joining would change what is stored

A list is a folder target/lists/NAME with `stdin`, blocks as `in_blocks` of evf.py makes them, and `stdout`,
the lines that its cases must print, of which the last is `cases N`. The tools that make lists write such
folders (make_cases.py, make_vectors.py, make_writes.py, make_upgrades.py, make_recounts.py, make_resaves.py,
make_utf8.py, make_rules.py, make_plays.py, make_badges.py; `oracle freeze` for `frozen`). Joined, each list
but the last ends with the tag LIST_END and is filled with 00 up to a whole block; what the program prints is
the lists' lines one behind the other, so that a list comes back from the stored files as it was written."""
import os
import struct
import sys

import evf

LISTS = ("cases", "vectors", "writes", "upgrades", "frozen", "recounts", "resaves", "utf8", "rules", "plays",
         "badges")
ROOT = os.path.join(os.path.dirname(os.path.abspath(__file__)), "..")
STORED = os.path.join(ROOT, "crates", "cases")


def load(folder, name):
    with open(os.path.join(folder, name), "rb") as f:
        return f.read()


def save(folder, name, data):
    os.makedirs(folder, exist_ok=True)
    with open(os.path.join(folder, name), "wb") as f:
        f.write(data)


def behind_parts(data, at):
    """The place behind a run of bytes that is framed at a place, as `parts` of evf.py says."""
    first, unit, _, last = struct.unpack_from(">IBII", data, at)
    return at + 13 + first + unit + last


def behind_row(data, at):
    """The place behind a row of events that is framed at a place."""
    return at + 12 + evf.ENTRY_BYTES * struct.unpack_from(">QI", data, at)[1]


def behind_case(data, at):
    """The place behind the case whose tag stands at a place."""
    tag, at = data[at], at + 1
    if tag == evf.RULED:
        return behind_case(data, at + 1)
    if tag in (evf.READING, evf.UPGRADING, evf.RESAVE):
        return behind_parts(data, at + 4)
    if tag == evf.WRITING:
        return behind_row(data, behind_parts(data, behind_parts(data, at + 8 + evf.HEADER_BYTES)))
    if tag == evf.MILLISECONDS:
        return at + 8
    if tag == evf.STRINGS:
        return at + 1
    if tag == evf.RECOUNT:
        return behind_parts(data, at + 20)
    if tag in (evf.PLAY, evf.BADGE):
        return behind_row(data, behind_parts(data, at + 23))
    if tag == evf.SMALL:
        return at + 4
    return at + 3 + struct.unpack_from(">BH", data, at)[1]


def list_end(block):
    """The place of LIST_END in a block, or None where the block's cases end without it."""
    at = 0
    while at < len(block) and block[at] in evf.CASES:
        at = behind_case(block, at)
    return at if at < len(block) and block[at] == evf.LIST_END else None


def split_input(data):
    """The input of each list."""
    lists, at, start = [], 0, 0
    while at < len(data):
        end = list_end(data[at:at + evf.MOST])
        if end is not None:
            lists.append(data[start:at + end])
            start = at + evf.MOST
        at += evf.MOST
    return lists + [data[start:]]


def split_output(data):
    """The lines of each list."""
    lists, own = [], []
    for line in data.splitlines(True):
        own.append(line)
        if line.startswith(b"cases "):
            lists.append(b"".join(own))
            own = []
    evf.expect(own, [])
    return lists


def ended(data):
    """A list's input with its end, filled up to a whole block."""
    data += bytes([evf.LIST_END])
    return data + bytes(-len(data) % evf.MOST)


def stored_lists():
    """Each stored list by its name: input and output."""
    inputs, outputs = split_input(load(STORED, "stdin")), split_output(load(STORED, "stdout"))
    evf.expect((len(inputs), len(outputs)), (len(LISTS), len(LISTS)))
    return dict(zip(LISTS, zip(inputs, outputs)))


def made_lists():
    """Each list that lies in target/lists by its name: input and output."""
    made = {}
    for name in LISTS:
        folder = evf.list_folder(name)
        if os.path.isdir(folder):
            made[name] = (load(folder, "stdin"), load(folder, "stdout"))
    return made


def join(made):
    """The joined input and output; a list that was not made is taken as it is stored."""
    lists = dict(made) if len(made) == len(LISTS) else dict(stored_lists(), **made)
    inputs = [lists[name][0] for name in LISTS]
    return b"".join(map(ended, inputs[:-1])) + inputs[-1], b"".join(lists[name][1] for name in LISTS)


if __name__ == "__main__":
    if sys.argv[1:] == ["--split"]:
        for name, (stdin, stdout) in stored_lists().items():
            save(evf.list_folder(name), "stdin", stdin)
            save(evf.list_folder(name), "stdout", stdout)
            print(name, len(stdin), "bytes in,", len(stdout), "bytes out")
        sys.exit()
    made = made_lists()
    stdin, stdout = join(made)
    if sys.argv[1:] == ["--check"]:
        same = (stdin, stdout) == (load(STORED, "stdin"), load(STORED, "stdout"))
        sys.exit(print("as stored" if same else "not as stored") or not same)
    save(STORED, "stdin", stdin)
    save(STORED, "stdout", stdout)
    print("joined", ", ".join(LISTS), "of which made anew:", ", ".join(made) or "none")
