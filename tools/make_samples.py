#!/usr/bin/env python3
"""Writes samples/: four small replays of games that a simple player won, lost and tampered with. Boards come from a fixed seed, so the files come out the same
each time. What upgrading the first three and re-saving all of them must give by evf.py is printed, and written to examples/expected and
examples/expected-resave as the examples in C and Rust print it.

  beginner-v3.evf       version 3, 8 x 8, 10 mines, won
  intermediate-v2.evf   version 2 by Viennasweeper, 16 x 16, 40 mines, lost at a mine
  backwards-v3.evf      the first one with an event whose time lies before the one before it: no version 4 file can say that, so it is refused with 22
  metrics-v4.evf        version 4, 8 x 8, 10 mines, won, with three custom metrics, of which one is empty, and two game states"""
import hashlib
import os
import random

import evf
from evf import KINDS, Value, YUAN

PIXELS = 20


def near(cell, height, width):
    row, column = divmod(cell, width)
    return [i * width + j for i in range(max(0, row - 1), min(height, row + 2)) for j in range(max(0, column - 1), min(width, column + 2)) if (i, j) != (row, column)]


def opened_by(cell, cells, height, width):
    """The cells that a click opens: a 0 opens its neighbours too."""
    opened, waiting = set(), [cell]
    while waiting:
        cell = waiting.pop()
        if cell not in opened:
            opened.add(cell)
            if cells[cell] == 0:
                waiting.extend(near(cell, height, width))
    return opened


def clicks_for(cells, height, width):
    """The fewest clicks that open every cell without a mine; their number is the 3BV."""
    clicks, opened = [], set()
    for wanted in (lambda n: n == 0, lambda n: n > 0):
        for cell, n in enumerate(cells):
            if wanted(n) and cell not in opened:
                clicks.append(cell)
                opened |= opened_by(cell, cells, height, width)
    return clicks


def path(clicks, width, chance):
    """The way of the mouse over the board with a press and a release at each click: rows of code, ms, x, y, as a hand makes them, thinking now and then."""
    rows, ms, x, y = [], 0, 5, 5
    for count, cell in enumerate(clicks):
        to_x, to_y = (n * PIXELS + chance.randrange(5, 15) for n in (cell % width, cell // width))
        for step in range(1, 4):
            rows.append(("mv", ms, x + (to_x - x) * step // 3, y + (to_y - y) * step // 3))
            ms += chance.randrange(8, 40) if count else 0
        x, y = to_x, to_y
        rows.append(("lc", ms, x, y))
        ms += chance.randrange(50, 110)
        rows.append(("lr", ms, x, y))
        ms += chance.choice([60, 90, 140, 255, 256, 700, 1900])
    return rows


def replay(version, seed, height, width, mines, won, software, player, start, country, device):
    """The bytes of a game: its board, clicks and events by chance from a seed, and 32 bytes made of the rest as its checksum."""
    chance = random.Random(seed)
    mined = set(chance.sample(range(height * width), mines))
    cells = evf.cells_of([int(k in mined) for k in range(height * width)], height, width)
    clicks = clicks_for(cells, height, width)
    bbbv = len(clicks)
    if not won:
        clicks = clicks[:12] + [min(mined)]
    rows = path(clicks, width, chance)
    ms = rows[-1][1]
    texts = [software, b"", b"", player, b"", b"", country, device, b""]
    flags = [won, False, True, True, False, False, True, False]
    game = Value(flags=flags, height=height, width=width, mines=mines, pixels=PIXELS, mode=0, bbbv=bbbv, time=ms, start=start, end=start + 1000 * ms,
                 board=cells, row=[(KINDS.index(kind), evf.seconds_of(at), x, y) for kind, at, x, y in rows])
    game.lent, game.places = b"".join(texts), [(sum(map(len, texts[:slot])), len(text)) for slot, text in enumerate(texts)]
    file = evf.write(game, 3)[:-1]  # without the mark that there is no checksum
    if version < 3:
        file = bytes([version]) + file[1:2] + file[3:]  # no second flags
    return file + b"\0" + hashlib.sha256(file).digest()


def with_time_back(file):
    """The same with the last event's time 1 ms before that of the event before it."""
    last = len(file) - 33 - 8
    before = int.from_bytes(file[last - 7:last - 4], "big")
    return file[:last + 1] + (before - 1).to_bytes(3, "big") + file[last + 4:]


def events_of_version_4(rows):
    """The records of mouse events and game states, each behind the pauses that its wait needs."""
    codes = {name: code for code, name in evf.STATES.items()}
    out, last, x, y = [], None, 0, 0
    for name, ms, *place in rows:
        before, wait = evf.pauses(ms - (last or 0))
        if not place:
            out.append(before + bytes([codes[name], wait]))
        else:
            apart = [place[0] - x, place[1] - y] if out else place
            out.append(before + bytes([KINDS.index(name), wait]) + b"".join(evf.number(n % 65536, 2) for n in apart))
            x, y = place
        last = ms
    return b"".join(out)


def with_metrics(file, *metrics):
    """A version 4 file with custom metrics, a game state in the middle of its longest wait and one behind its last event; 32 bytes made of the rest are its
    checksum then."""
    game = evf.read(file)
    rows, start = list(game.events), game.metrics[0]
    waits = [later[1] - earlier[1] for earlier, later in zip(rows, rows[1:])]
    longest = waits.index(max(waits))
    rows.insert(longest + 1, ("replay", rows[longest][1] + waits[longest] // 2))
    rows.append(("win", rows[-1][1] + 3))
    block = b"".join(text.encode() + b"\0" for text in metrics)
    file = file[:start - 2] + evf.number(len(metrics), 2) + block + events_of_version_4(rows) + b"\0"
    digest = hashlib.sha256(file).digest()
    return file + evf.number(len(digest), 2) + digest


def samples():
    won = replay(3, 11, 8, 8, 10, True, YUAN + "扫雷 3.2".encode(), "Ада".encode(), 1700000000000000, b"cn", b"sample-device")
    lost = replay(2, 5, 16, 16, 40, False, b"Viennasweeper 3.1", b"Franz", 1600000000, b"at", b"")
    plain = evf.upgrade(replay(3, 23, 8, 8, 10, True, YUAN + "扫雷 3.3".encode(), b"Linn", 1750000000000000, b"se", b"sample-device"))
    return {"beginner-v3.evf": won, "intermediate-v2.evf": lost, "backwards-v3.evf": with_time_back(won),
            "metrics-v4.evf": with_metrics(plain, "RQP 1.42", "效率 0.93", "")}


def fnv(data):
    """The 32-bit FNV-1a hash of some bytes."""
    hashed = 2166136261
    for byte in data:
        hashed = (hashed ^ byte) * 16777619 % 2 ** 32
    return hashed


def checked(file):
    """The number that says whether a file can be read."""
    try:
        evf.read(file, entries=len(file))
    except evf.Refused as why:
        return why.args[0]
    return 0


def by_rules(call, file, copy):
    """What the examples print of an upgrade or a re-save by rule 2 and by 3, which is no rule."""
    try:
        none = call(file, 3)
    except evf.Refused as why:
        none = why.args[0]
    return ", by rule 2 %s, by rule 3 refused %d" % ("the same" if call(file, 2) == copy else "other bytes", none)


def line(name, file):
    """What the examples print of a file."""
    try:
        copy = evf.upgrade(file)
        told = "upgraded %d bytes, hash %08x, check %d, a second upgrade 13" % (len(copy), fnv(copy), checked(copy))
        told += by_rules(evf.upgrade, file, copy)
    except evf.Refused as why:
        told = "refused %d" % why.args[0]
    return "samples/%s: %d bytes, check %d, %s\n" % (name, len(file), checked(file), told)


def line_of_resave(name, file):
    """The same of a re-save."""
    try:
        copy = evf.resave(file)
        told = "resaved %d bytes, hash %08x, a second time %s" % (len(copy), fnv(copy), "the same" if evf.resave(copy) == copy else "other bytes")
        told += by_rules(evf.resave, file, copy)
    except evf.Refused as why:
        told = "refused %d" % why.args[0]
    return "samples/%s: %d bytes, %s\n" % (name, len(file), told)


def put(name, data):
    with open(os.path.join(os.path.dirname(os.path.abspath(__file__)), "..", *name.split("/")), "wb") as f:
        f.write(data)


def main():
    for name, file in samples().items():
        put("samples/" + name, file)
        game = evf.read(file)
        print("%s: %d events, 3BV %d, %d mines found, %d ms" % (name, len(game.events), game.bbbv, game.found, game.time))
    upgraded = [line(name, file) for name, file in samples().items() if name != "metrics-v4.evf"]
    resaved = [line_of_resave(name, file) for name, file in samples().items()]
    put("examples/expected", "".join(upgraded).encode())
    put("examples/expected-resave", "".join(resaved).encode())
    print("".join(upgraded + resaved), end="")


if __name__ == "__main__":
    main()
