#!/usr/bin/env python3
"""Writes the list target/lists/resaves, which join_cases.py puts into the program `cases`: replay files of
all versions, with custom metrics and without, with what re-saving each as version 4 must give by the reader
and the writer of evf.py, and what the copy reads as. Every copy is held to the file's game: its values, its
board, its texts, its custom metrics by count and bytes, its mouse events; re-saved, it comes out as it is.

Input: blocks as `in_blocks` of evf.py makes them. For each case, big-endian: u8 8; u32 length of the copy;
the file, framed as `parts` of evf.py says.
Output: for each case, counted from 0:
  case NUMBER resaved LENGTH | case NUMBER short LENGTH | case NUMBER refused N
  copy BYTES (all that was lent, which held aa everywhere before; xx*N stands for N times xx)
  and where it was written, the lines of make_cases.py for the game that the copy reads as.
With numbers of cases as arguments it writes nothing, and shows these cases.

11 to 15, 17, 18, 24 and 25 no file gives: the call has room for every board and takes the events one by one,
texts and metrics lie in the file and were judged as it was read, and counts have the file's widths."""
import collections
import random
import struct
import sys

import evf
from evf import COUNTRY, MOST, U16, U32, YUAN, expect
from make_cases import FIRST, METRICS_SAMPLE, NO_TEXTS, WIDE
from make_cases import counted, lines_of, m3, move, new, old, pause, rec, whole4

OLD = range(4)
SHORT = 23
HERE = b"<here>"  # where a long run goes in
VALUES = ("height", "width", "mines", "pixels", "mode", "bbbv", "time", "start", "end", "level", "found",
          "flags", "cells", "metrics_count", "block")
# three texts, one empty, one that is not ASCII; a pause, a skipped code and game states between the events
METRICS = counted(3, [b"3BV/s 2.51", b"", WIDE])
EVENTS = FIRST + move(3, 40, 1, -1) + b"\x51\x05" + pause(300) + move(1, 7, -9, 0) + b"\xc8" + b"\x52\x00"
SAMPLE = new(first=0xF8, second=0xE0, height=3, width=5, mines=4, bits=b"\x92\x34", software=b"S 1.0",
             extra=b"T\0GB\0", player="Zoé".encode(), race=b"club", uid=b"id", device=b"\0\1\2",
             metrics=METRICS, events=EVENTS, stop=b"\0\0\4\0\1\2\3")

inputs, lines, counts = [], [], collections.Counter()


def saved(game):
    """All that 01's comparison looks at, version 4's custom metrics too; the game states are left out."""
    events = [(event[0], evf.bits_of(evf.seconds_of(event[1])), *event[2:]) for event in game.events
              if event[0] not in evf.STATES.values()]
    texts = [evf.two_letters(text) if slot == COUNTRY else text for slot, text in enumerate(game.texts)]
    return [getattr(game, name) for name in VALUES] + [events, texts]


def reads_back(file, copy):
    """The copy reads as the file's game, and settles."""
    game, back = evf.read(file, entries=len(file)), evf.read(copy, entries=len(copy))
    expect((back.version, back.used), (4, len(copy)))
    expect(saved(back), saved(game))
    expect(evf.resave(copy), copy)
    if game.version < 4:
        expect((evf.upgrade(file), back.metrics_count), (copy, 0))
    return lines_of(back)


def add(file, frame, more, room):
    """A case: the copy has so many bytes more than it takes, 64 where the file is refused, or just `room`.
    Answers the copy, or the refusal's number."""
    try:
        copy, refused = evf.resave(file), 0
    except evf.Refused as why:
        copy, refused = b"", why.args[0]
    if room is None:
        room = 64 if refused else len(copy) + more
    expect(len(file) <= MOST and 0 <= room <= MOST, True)
    back = [] if refused else reads_back(file, copy)
    if refused:
        told, after = "refused %d" % refused, b"\xaa" * room
    elif room < len(copy):
        told, after, back, refused = "short %d" % len(copy), b"\xaa" * room, [], SHORT
    else:
        told, after = "resaved %d" % len(copy), copy + b"\xaa" * (room - len(copy))
    told = ["case %d %s" % (len(inputs), told), "copy" + evf.runs(after)] + back
    if str(len(inputs)) in sys.argv[1:]:
        print("file" + evf.runs(file), *told, sep="\n")
    lines.extend(told)
    inputs.append(struct.pack(">I", room) + frame)
    counts["%d" % file[0] if file and file[0] <= 4 else "above 4" if file else "none", refused] += 1
    return refused or copy


def case(data, unit=b"", times=0, more=3, room=None):
    """A case; the unit, so often, takes the place of HERE."""
    first, here, last = data.partition(HERE)
    expect(len(here) > 0, times > 0)
    return add(*evf.parts(first, unit, times, last), more, room)


def good(data, *unit, **room):
    """A case that must be accepted."""
    copy = case(data, *unit, **room)
    expect(type(copy), bytes)
    return copy


def bad(number, data, *unit, **room):
    expect(case(data, *unit, **room), number)


def same(data, *unit, **room):
    """A file that comes out as it is."""
    expect(good(data, *unit, **room), data.replace(HERE, unit[0] * unit[1]) if unit else data)


def rooms():
    """The sample, and what it re-saves to: just enough bytes, one less, fewer, more; bytes behind its end."""
    for file in (SAMPLE, good(SAMPLE)):
        n = len(good(file, more=0))
        for more in (1, 40):
            good(file, more=more)
        for room in (n - 1, n - 2, 51, 50, 25, 1, 0):
            bad(SHORT, file, room=room)
        for behind in (b"left over", b"\0", file):
            good(file + behind)
    for cut in list(range(0, len(SAMPLE), 9)) + [len(SAMPLE) - 1]:
        bad(1, SAMPLE[:cut], room=cut)


def shortest():
    """The shortest file, 51 bytes: its length is the least that is no refusal."""
    file = new(first=0, software=b"", player=b"", width=0, bits=b"")
    expect(len(file), 51)
    for room in (51, 52, 64):
        same(file, room=room)
    for room in (50, 49, 0):
        bad(SHORT, file, room=room)


def marked():
    """M3 gives M4, as the upgrade does, and M4 itself; the games of versions 0 to 3 likewise."""
    copy = good(m3)
    for room in (65, 66, 4096):
        same(copy, room=room)
    bad(SHORT, copy, room=64)
    for version in OLD:
        file = old(version, events=rec(2, 5, 8, 8) + rec(3, 300, 7, 8))
        expect(good(file), copy)
        bad(SHORT, file, room=64)
    good(whole4)
    for version in OLD:
        events = b"".join(rec(k, 70000 * k - 69800, 65536 - k, k) for k in range(1, 10))
        good(old(version, first=0xF0, second=0xE0, height=3, width=5, software=b"Viennasweeper", start=b"17",
                 player="Zoé".encode(), device=b"\xff\xfe", bits=b"\x92\x35", events=events,
                 stop=b"\0" + bytes(range(1, 33)) + b"left over"))


def refusals_of_reading():
    for number, file in ((1, b""), (2, b"\x05" + SAMPLE[1:]), (2, b"\xff"), (3, new(player=b"\xff")),
                         (3, new(country=b"\xff\xff")), (7, new(height=0, bits=b"")), (8, new(events=b"")),
                         (8, new(events=b"\x03" + FIRST[1:])), (8, new(events=b"\x51\x01")),
                         (9, new(events=FIRST + b"\x0d")), (9, new(events=FIRST + b"\x54"))):
        for room in (None, 0):
            bad(number, file, room=room)
    for number, changes in ((1, dict(stop=b"")), (3, dict(software=b"\xff")), (4, dict(software=b"Arbiter")),
                            (5, dict(start=b"")), (7, dict(height=0)),
                            (6, dict(software=b"Viennasweeper", start=b"18446744073710"))):
        for version in OLD:
            bad(number, old(version, **dict(dict(events=rec(2, 5, 8, 8)), **changes)))


def refusals_of_writing():
    """16 in every version; 19 to 22 in versions 0 to 3 alone, and their order; 23 last."""
    for height, width, pixels in ((151, 1, 217), (1, 151, 217), (255, 0, 128), (128, 1, 255), (1, 129, 255)):
        bits = b"\xff" * ((height * width + 7) // 8)
        fits = max(height, width) * pixels <= 32767
        for file in (new(height=height, width=width, pixels=pixels, bits=bits, metrics=METRICS),
                     old(3, height=height, width=width, pixels=pixels, bits=bits, events=rec(1, 0, 1, 1))):
            good(file) if fits else bad(16, file)
    bad(16, new(height=129, width=0, pixels=255, bits=b"", metrics=METRICS), room=0)
    for version in OLD:
        breaks = {16: dict(height=129, width=0, pixels=255, bits=b""), 19: dict(uid=b"\xff"),
                  20: dict(device=HERE), 21: dict(events=rec(3, 5, 5, 5)),
                  22: dict(events=rec(1, 5, 5, 5) + rec(0xFE, 6, 6, 6))}
        for number in (16, 19, 20, 21, 22):
            unit = (b"x", U16 + 1) if number == 20 and version >= 2 else ()
            if number != 20 or unit:
                file = old(version, **dict(dict(events=rec(1, 5, 5, 5)), **breaks[number]))
                bad(number, file, *unit)
                bad(number, file, *unit, room=0)
        for first, then in ((16, 19), (16, 21), (19, 21), (19, 22)):
            bad(first, old(version, **dict(breaks[then], **breaks[first])))
    bad(SHORT, old(2, device=HERE, events=rec(1, 5, 5, 5)), b"x", U16, more=-1)


def metrics():
    """Counts and texts, as they stand; those that are no texts are not read."""
    for texts in ([], [b"a"], [b""], [WIDE], [b"a", b""], [b"", b"a"], [b"", b""], [WIDE, b"", b"3BV/s 2.5"],
                  [b"x" * 300] * 2, [bytes(range(1, 128))], [b"m"] * 40):
        same(new(metrics=counted(len(texts), texts)))
        same(new(first=8, software=b"S", extra=b"T\0GB\0", metrics=counted(len(texts), texts)), more=0)
        good(new(metrics=counted(len(texts), texts), events=EVENTS), more=0)
        bad(SHORT, new(metrics=counted(len(texts), texts)), more=-1)
    for count in (255, 256, U16):
        file = new(metrics=struct.pack(">H", count) + HERE)
        same(file, b"\0", count)
        bad(SHORT, file, b"\0", count, more=-1)
        bad(8, file, b"\0", count + 1)
        bad(1, new(metrics=struct.pack(">H", count) + HERE, events=b"", stop=b""), b"\0", count - 1)
    same(new(metrics=b"\0\1" + HERE + b"\0"), b"x", 70000)
    for text in NO_TEXTS:
        bad(3, new(metrics=counted(2, [b"a", text])))
    for cut in range(SAMPLE.index(METRICS), SAMPLE.index(METRICS) + len(METRICS), 3):
        bad(1, SAMPLE[:cut])


def events():
    """Game states are left out and their waits kept; pauses are joined, skipped codes dropped."""
    for code in (81, 82, 83, 99):
        state = bytes([code, 7])
        for more in (b"", move(3, 9), state + move(3, 9), pause(300) + state + pause(1) + move(3, 9)):
            copy = good(new(metrics=METRICS, events=FIRST + state + more))
            expect(len(evf.read(copy).events), 2 if move(3, 9) in more else 1)
    for before in (pause(0), pause(255), pause(256), pause(10) + pause(20), pause(65535),
                   pause(65535) * 2 + pause(1), pause(10) + b"\x64" + pause(20), b"\xfe\x64\xc7\xc8",
                   pause(65535) + b"\x53\xff" + pause(255)):
        for wait in (0, 1, 255):
            good(new(events=FIRST + before + move(1, wait, 1, 1)))
    good(new(events=FIRST + pause(10)))  # a pause before the end is lost
    same(new(events=FIRST + b"".join(move(code, code, 1000 * code, -code) for code in range(1, 13))))
    for code in (1, 2, 4, 8):
        same(new(events=bytes([code, 255]) + FIRST[2:]))
    for dx, dy in ((65535, 1), (1, 65535), (32768, 32768), (32767, 0)):
        same(new(events=FIRST + move(1, 0, dx, dy) + move(1, 0, dx, dy)))
    far = b"\x01\x00\x00\x00\x00\x00"
    same(new(events=far + HERE + move(1, 0)), pause(U16), 65537)  # 4294967295 ms
    bad(10, new(events=far + HERE + move(1, 1)), pause(U16), 65537)
    good(new(events=FIRST + HERE + b"\x52\x01", metrics=METRICS), move(1, 200), 300)


def fields():
    """Flags that have a meaning, countries, pad bits, lengths."""
    for bit in range(8):
        for first in (1 << bit, 255 - (1 << bit)):
            good(new(first=first, second=255 - first, extra=b"T\0\0" * bool(first & 8)))
    for country, wanted in ((b"cn", b"CN"), (b"CN", b"CN"), (b"zA", b"ZA"), ("é".encode(), b"XX"),
                            (b"\0\0", b"XX"), (b"c1", b"XX"), (b"@A", b"XX"), (b"XX", b"XX")):
        expect(good(new(country=country, metrics=METRICS))[16:18], wanted)
    for bits in (b"\xbf", b"\x7f", b"\x3f"):
        good(new(bits=bits))
    same(new(start=evf.U64, end=evf.U64, ms=U32, mines=U16, mode=U16, bbbv=U16))
    for n in (1, 255, 256):
        same(new(stop=b"\0" + struct.pack(">H", n) + HERE), b"\0", n)
    bad(SHORT, new(stop=b"\0\xff\xff" + HERE), b"\0", U16, more=-1)
    same(new(device=bytes(range(256)) * 2))


def at_random():
    """Files of version 4 with any metrics and records, and a few that are damaged."""
    rng = random.Random(20261118)
    words = [b"", b"a", b"3BV", WIDE, "é".encode(), b"0123456789" * 3]
    records = (lambda: move(rng.randrange(1, 13), *(rng.randrange(n) for n in (256, 65536, 65536))),
               lambda: bytes([rng.choice((81, 82, 83, 99)), rng.randrange(256)]),
               lambda: pause(rng.randrange(65536)), lambda: bytes([rng.randrange(100, 255)]))
    for k in range(90):
        texts = [rng.choice(words) for _ in range(rng.randrange(6))]
        body = FIRST + b"".join(rng.choice(records)() for _ in range(rng.randrange(12)))
        height = rng.randrange(1, 9)
        data = bytearray(new(height=height, width=8, pixels=rng.randrange(256), bits=rng.randbytes(height),
                             metrics=counted(len(texts), texts), events=body))
        if k % 3 == 0:
            data[rng.randrange(len(data))] = rng.choice((0, 1, 2, 4, 255, rng.randrange(256)))
        room = rng.choice((dict(more=0), dict(more=3), dict(more=-1), dict(room=rng.randrange(60))))
        case(bytes(data), **room)


def shipped():
    """The sample with custom metrics, which make_cases.py reads too, and what it re-saves to."""
    copy = good(METRICS_SAMPLE)
    bad(SHORT, METRICS_SAMPLE, more=-1)
    same(copy, more=0)


for make in (rooms, shortest, marked, refusals_of_reading, refusals_of_writing, metrics, events, fields,
             at_random, shipped):
    make()

if __name__ == "__main__" and not sys.argv[1:]:
    stdin = evf.in_blocks(evf.RESAVE, inputs)
    evf.store("resaves", stdin, lines + ["cases %d" % len(inputs)])
    print(len(inputs), "cases,", len(stdin), "bytes in,", sum(len(line) + 1 for line in lines), "bytes out")
    for version in sorted({version for version, number in counts}):
        tally = {number: counts[version, number] for number in range(1, 26) if counts[version, number]}
        print("version", version, "re-saved", counts[version, 0], "refused", tally)
