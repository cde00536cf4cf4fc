#!/usr/bin/env python3
"""Writes the list target/lists/upgrades, which join_cases.py puts into the program `cases`: replay files of all versions, both sides of every boundary of the refusals that an upgrade can give, with
what upgrading each must give by the reader and the writer of evf.py. Every copy is read back and held to the file's game by document 01's comparison.

Input: blocks as `in_blocks` of evf.py makes them. For each case, big-endian: u8 3; u32 length of the copy; the file, framed as `parts` of evf.py says.
Output: for each case, counted from 0:
  case NUMBER upgraded LENGTH | case NUMBER short LENGTH | case NUMBER refused N
  copy BYTES (all that was lent, which held aa everywhere before; xx*N stands for N times xx)
With numbers of cases as arguments it writes nothing, and shows these cases.

11, 12, 14, 15, 17 and 18 no file gives: the upgrade has room for every board and takes the events one by one, texts lie in the file, and sizes and counts have the file's widths."""
import collections
import itertools
import random
import struct
import sys

import evf
import make_cases
from evf import COUNTRY, MOST, U16, U24, U64, YUAN, expect
from make_cases import FIRST, new, old, rec

OLD = range(4)
SHORT = 23
HERE = b"<here>"  # where a long run goes in
TWO = rec(2, 5, 8, 8) + rec(3, 300, 7, 8)
VALUES = ("height", "width", "mines", "pixels", "mode", "bbbv", "time", "start", "end", "level", "found", "flags", "cells")

inputs, lines, counts, answers, seen = [], [], collections.Counter(), {}, set()


def saved(game):
    """All that 01's comparison looks at."""
    events = [(name, evf.bits_of(evf.seconds_of(ms)), x, y) for name, ms, x, y in game.events]
    texts = [evf.two_letters(text) if slot == COUNTRY else text for slot, text in enumerate(game.texts)]
    return [getattr(game, name) for name in VALUES] + [events, texts]


def reads_back(file, copy):
    game, back = evf.read(file), evf.read(copy)
    expect(back.version, 4)
    expect(saved(back), saved(game))
    expect(back.texts[COUNTRY], evf.two_letters(game.texts[COUNTRY]))
    for data, wanted in ((copy[:-1], 1), (copy, 13)):
        try:
            expect(evf.upgrade(data), wanted)
        except evf.Refused as why:
            expect(why.args[0], wanted)


def answer(file):
    """The upgraded file and 0, or nothing and the refusal's number."""
    try:
        copy = evf.upgrade(file)
    except evf.Refused as why:
        return b"", why.args[0]
    reads_back(file, copy)
    return copy, 0


def add(file, frame, more=3, room=None):
    """A case, unless there is the same already: the copy has so many bytes more than it takes, 64 where the file is refused, or just `room`. Answers the upgraded file, or
    the refusal's number."""
    if frame not in answers:
        answers[frame] = answer(file)
    copy, refused = answers[frame]
    if room is None:
        room = 64 if refused else len(copy) + more
    expect(len(file) <= MOST and 0 <= room <= MOST, True)
    if refused:
        told, after = "refused %d" % refused, b"\xaa" * room
    elif room < len(copy):
        told, after, refused = "short %d" % len(copy), b"\xaa" * room, SHORT
    else:
        told, after = "upgraded %d" % len(copy), copy + b"\xaa" * (room - len(copy))
    if (room, frame) not in seen:
        seen.add((room, frame))
        if str(len(inputs)) in sys.argv[1:]:
            print(len(inputs), told, "file" + evf.runs(file), "copy" + evf.runs(after), sep="\n")
        lines.extend(["case %d %s" % (len(inputs), told), "copy" + evf.runs(after)])
        inputs.append(struct.pack(">I", room) + frame)
        counts["%d" % file[0] if file and file[0] <= 4 else "above 4" if file else "none", refused] += 1
    return refused or copy


def case(data, unit=b"", times=0, **room):
    """The same; the unit, so often, takes the place of HERE."""
    first, here, last = data.partition(HERE)
    expect(len(here) > 0, times > 0 or unit != b"")
    return add(*evf.parts(first, unit, times, last), **room)


def good(data, *unit, **room):
    """A case that must be accepted."""
    copy = case(data, *unit, **room)
    expect(type(copy), bytes)
    return copy


def bad(number, data, *unit, **room):
    expect(case(data, *unit, **room), number)


def one(version, **changes):
    """M3's game with its first event only."""
    return old(version, **dict(dict(events=rec(2, 5, 8, 8)), **changes))


# M3 gives M4; room for it, just, one byte short and none; in each version
M3 = bytes.fromhex("03 90 00 01 02 00 01 10 00 00 00 01 00 03 E8 E5 85 83 00 50 00 00 00 31 00 32 00 63 6E 00 00 80 02 00 00 05 00 08 00 08 03 00 01 2C 00 07 00 08 FF")
M4 = bytes.fromhex("04 90 00 01 02 00 01 10 00 00 00 01 00 00 03 E8 43 4E 00 00 00 00 00 00 00 01 00 00 00 00 00 00 00 02 E5 85 83 00 50 00 00 00 00 00 80 00 00"
                   "02 05 00 08 00 08 FF 01 27 03 00 FF FF 00 00 00 00 00")
expect(len(M4), 65)
for more in (0, 1, 3, 1000):
    expect(good(M3, more=more), M4)
for version in OLD:
    data = old(version, events=TWO)
    for room in (65, 66, 4096):
        expect(good(data, room=room), M4)
    for room in (64, 63, 23, 22, 21, 13, 1, 0):
        bad(SHORT, data, room=room)
bad(13, M4)
bad(13, M4, room=0)
bad(2, b"\x05" + M4[1:])
bad(2, b"\xff" + M4[1:])

# the games that started the project, and all else about the first event
for version in OLD:
    expect(evf.read(good(old(version, events=rec(2, 255, 8, 8)))).events, [("lc", 255, 8, 8)])
    for ms in (256, 259):
        bad(21, old(version, events=rec(2, ms, 8, 8)))
    bad(22, old(version, events=rec(2, 5, 8, 8) + rec(13, 6, 8, 8)))
    for ms in (0, 1, 128, 254):
        good(old(version, events=rec(2, ms, 8, 8)))
    for ms in (257, 511, 512, 65535, 65536, 65791, 2 ** 23, U24):
        bad(21, old(version, events=rec(2, ms, 8, 8)))
    bad(21, old(version))
    bad(21, old(version, stop=b"\0" + bytes(32)))
    good(one(version))
    for code in list(range(1, 17)) + [80, 81, 82, 83, 84, 98, 99, 100, 127, 128, 129, 254]:
        data = old(version, events=rec(code, 5, 8, 9))
        more = old(version, events=rec(code, 5, 8, 9) + rec(1, 6, 8, 9))
        later = old(version, events=rec(1, 5, 8, 9) + rec(code, 6, 10, 7) + rec(3, 7, 1, 1))
        if code in (1, 2, 4, 8):
            good(data)
            good(more)
            bad(21, old(version, events=rec(code, 256, 8, 9)))
            good(old(version, events=rec(code, 255, 8, 9)))
        else:
            bad(21, data)
            bad(21, more)
        if code <= 9 or (code <= 12 and version == 3):
            good(later)
        else:
            bad(22, later)
for code in (10, 11, 12):
    bad(22, old(2, events=rec(1, 5, 8, 9) + rec(code, 6, 8, 9)))
    good(old(3, events=rec(1, 5, 8, 9) + rec(code, 6, 8, 9)))

# 22 and waits: falling and equal milliseconds; pauses
for version in OLD:
    for ms in ((5, 5), (5, 6), (255, 255), (0, 0), (5, 5, 5), (5, 300, 300), (5, 70000, 70000, 70000), (0, U24, U24)):
        good(old(version, events=b"".join(rec(1, n, 3, 4) for n in ms)))
    for ms in ((5, 4), (255, 254), (1, 0), (5, 6, 5), (5, 6, 7, 6), (5, 300, 299), (5, 70000, 69999, 70000), (5, 70000, 70000, 69999), (5, 4, 6), (0, U24, U24 - 1), (0, 65536, 65535)):
        bad(22, old(version, events=b"".join(rec(1, n, 3, 4) for n in ms)))
for version, before in itertools.product(OLD, (0, 7, 255)):
    for wait in (1, 254, 255, 256, 257, 511, 512, 65534, 65535, 65536, 65789, 65790, 65791, 65792, 131069, 131070, 131071, 131325, 131326, 131327, 196605, 196860, 196861, 1000000,
                 U24 - 1 - before, U24 - before):
        copy = good(old(version, events=rec(1, before, 3, 4) + rec(2, before + wait, 4, 3) + rec(3, before + wait, 4, 3)))
        if (before, wait) in ((0, 255), (0, 256), (0, 65791)):
            expect(copy[47:-9], bytes.fromhex({255: "01 00 00 03 00 04 02 FF 00 01 FF FF", 256: "01 00 00 03 00 04 FF 01 00 02 00 00 01 FF FF",
                                               65791: "01 00 00 03 00 04 FF FF FF FF 01 00 02 00 00 01 FF FF"}[wait]))
good(old(3, events=b"".join(rec(1, k * 65536, k, 239 - k) for k in range(239))))
good(old(0, events=b"".join(rec(1, k * 511, 1, 1) for k in range(300))))
for version in OLD:
    many = old(version, events=HERE)
    good(many, rec(1, 200, 1, 2), 2500)
    good(old(version, events=rec(2, 0, 1, 2) + HERE + rec(3, U24, 1, 2)), rec(9, 70000, 1, 2), 100)
    for room in (0, 180000):
        bad(SHORT, many, rec(1, 200, 1, 2), 30000, room=room)
    bad(21, many, rec(1, 256, 1, 2), 30000)
    bad(22, old(version, events=HERE + rec(1, 199, 1, 2)), rec(1, 200, 1, 2), 30000)
    bad(22, old(version, events=HERE + rec(13, 200, 1, 2)), rec(1, 200, 1, 2), 30000)
    bad(1, old(version, events=HERE, stop=b""), rec(1, 200, 1, 2), 30000)
    for a, b in ((65535, 0), (0, 65535), (0, 32767), (0, 32768), (32768, 0), (1, 0), (0, 1), (40000, 20000), (255, 256), (256, 255)):
        good(old(version, events=rec(1, 0, a, 77) + rec(1, 1, b, 77) + rec(1, 2, a, 77)))
        good(old(version, events=rec(1, 0, 77, a) + rec(1, 1, 77, b) + rec(1, 2, 77, a)))

# 19: a text that is not UTF-8 and one that is, a byte apart; what goes out otherwise may hold any bytes, what must be UTF-8 to be read is 3
NEIGHBOURS = [(b"\x80", b"\x7f"), (b"\xff", b"P"), (b"\xc1\x80", b"\xc2\x80"), (b"\xc3\x28", b"\xc3\xa9"), (b"\xc3\xc0", b"\xc3\xbf"), (b"\xc3", b"\xc3\x80"), (b"\xe5\x85", YUAN),
              (b"\xe0\x9f\xbf", b"\xe0\xa0\xbf"), (b"\xed\xa0\x80", b"\xed\x9f\x80"), (b"\xf0\x8f\x80\x80", b"\xf0\x90\x80\x80"), (b"\xf4\x90\x80\x80", b"\xf4\x8f\x80\x80"),
              (b"\xf5\x80\x80\x80", b"\xf4\x80\x80\x80"), (b"a\x80", b"a"), (b"\xc2\x80\x80", b"\xc2\x80")]
for version in OLD:
    for field in ("player", "race", "uid"):
        for broken, whole in NEIGHBOURS:
            bad(19, one(version, **{field: broken}))
            good(one(version, **{field: whole}))
        good(one(version, **{field: b""}))
        good(one(version, **{field: bytes(range(1, 128))}))
        bad(19, one(version, **{field: b"\xff"}), room=0)
        for n in (U16, U16 + 1):
            good(one(version, **{field: HERE}), b"x", n)
        bad(19, one(version, **{field: HERE + b"\xff"}), b"x", U16 + 1)
    for broken, whole in NEIGHBOURS:
        for field in ("country", "device"):
            good(one(version, **{field: broken}))
        for field in ("software", "start", "end"):
            bad(3, one(version, **dict(dict(software=b"S"), **{field: broken})))
            good(one(version, **dict(dict(software=b"S"), **{field: whole})))

# 20: the device id, which versions 0 and 1 do not have
for version in (2, 3):
    for byte in (b"x", b"\xff"):
        for n in (1, 255, 256, U16 - 1, U16):
            good(one(version, device=HERE), byte, n)
        for n in (U16 + 1, U16 + 2, 2 * U16 + 2, 150000):
            bad(20, one(version, device=HERE), byte, n)
    good(one(version, device=HERE, country=b"", player=b"", software=b""), b"ab\xff", U16 // 3, room=MOST)
    good(one(version, device=b"a" + HERE), b"x", U16 - 1, more=0)
    bad(20, one(version, device=b"a" + HERE), b"x", U16)
    bad(SHORT, one(version, device=HERE), b"x", U16, more=-1)
    bad(SHORT, one(version, device=HERE), b"x", U16, room=0)
for version in OLD:
    good(one(version, country=HERE), b"x", U16 + 1)
    good(one(version, software=HERE), b"x", U16 + 1)

# 16: the products nearest to 32767 on either side, by height and by width
products = sorted({(a * b, a, b) for a in range(1, 256) for b in range(256)})
last = max(p for p, a, b in products if p <= 32767)
first = min(p for p, a, b in products if p > 32767)
expect(last, 32767)
for version in OLD:
    for n, pixels in [(a, b) for p, a, b in products if p in (last, first)] + [(255, 128), (255, 129), (128, 255), (129, 255), (255, 255), (255, 0), (1, 255), (255, 1)]:
        for height, width in ((n, 1), (1, n)):
            data = one(version, height=height, width=width, pixels=pixels, bits=b"\xff" * ((n + 7) // 8))
            good(data) if n * pixels <= 32767 else bad(16, data)
    bad(16, one(version, height=200, width=200, pixels=200, bits=HERE), b"\0", 5000)
    bad(16, one(version, height=129, width=0, pixels=255, bits=b""))
    good(one(version, height=128, width=0, pixels=255, bits=b""))

# boards: pad bits go out as 0
for version in OLD:
    for height, width, mines in ((1, 1, 1), (1, 2, 2), (1, 7, 0), (1, 8, 8), (1, 9, 9), (3, 3, 9), (2, 4, 1), (7, 5, 12), (8, 8, 10), (16, 16, 40), (16, 30, 99), (30, 16, 99), (255, 1, 0), (1, 255, 0)):
        for byte in (b"\xff", b"\xaa", b"\0"):
            good(one(version, height=height, width=width, mines=mines, bits=HERE), byte, (height * width + 7) // 8)
        good(one(version, height=height, width=width, mines=mines, bits=bytes(37 * k % 256 for k in range((height * width + 7) // 8))))
    expect(good(one(version, bits=b"\xbf")), good(one(version)))
    good(one(version, height=255, width=255, mines=65025, bits=HERE), b"\xff", 8129)
    bad(1, one(version, height=255, width=255, mines=65025, bits=HERE, events=b""), b"\xff", 8127)
    bad(7, one(version, height=0, bits=b""))
    bad(7, one(version, height=0, width=0, bits=b""))
    good(one(version, width=0, bits=b""))
    good(one(version, height=255, width=0, bits=b""))
    good(one(version, height=100, width=120, bits=HERE), b"\x12\x48\x80", 500, more=0)

# countries, times, checksums, flags, numbers
for version in OLD:
    for country in (b"", b"c", b"cn", b"CN", b"cN", b"Cn", b"az", b"AZ", b"zA", b"cnx", "é".encode(), b"c1", b"1c", b"@A", b"A[", b"`a", b"z{", b"c ", b"XX", b"xx", YUAN, b"\xc1a", b"a\xe1",
                    b"\xff\xff", b"China"):
        copy = good(one(version, country=country))
        expect(copy[16:18], {b"cn": b"CN", b"CN": b"CN", b"cN": b"CN", b"Cn": b"CN", b"az": b"AZ", b"AZ": b"AZ", b"zA": b"ZA"}.get(country, b"XX"))
    for software, start, end, ms, wanted in (
            (b"Viennasweeper", b"12", b"", 5, (12000000, 12005000)), (b"Viennasweeper 3", b"+7", b"x", U24, (7000000, 7000000 + 1000 * U24)),
            (b"Viennasweeper", b"18446744073709", b"", 551, (18446744073709000000, U64 - 615)), (b"Viennasweeper", b"18446744073709", b"", 552, 6),
            (b"Viennasweeper", b"18446744073710", b"", 0, 6), (b"Viennasweeper", b"18446744073709551615", b"", 0, 6), (b"Viennasweeper", b"18446744073709551616", b"", 0, 5),
            (b"Viennasweeper", b"", b"", 1, 5), (b"Viennasweeper", b"+", b"", 1, 5), (b"Viennasweeper", b"-1", b"", 1, 5), (b"Viennasweepe", b"x", b"", 1, (0, 0)),
            (b"viennasweeper", b"12", b"", 1, (0, 0)), (YUAN, b"18446744073709551615", b"0", 1, (U64, 0)), (YUAN, b"0", b"18446744073709551615", 1, (0, U64)),
            (YUAN + b"3.1", b"1", b"", 1, 5), (YUAN, b"", b"1", 1, 5), (YUAN, b"+", b"1", 1, 5), (YUAN, b"1", b"18446744073709551616", 1, 5), (YUAN, b"18446744073709551616", b"1", 1, 5),
            (YUAN, b"+0007", b"+7", 1, (7, 7)), (YUAN, b"1700000000000000", b"1700000001000000", U24, (1700000000000000, 1700000001000000)), (b"\xe5\x85\x84", b"x", b"y", 1, (0, 0)),
            (b"\xe5\x85", b"1", b"2", 1, 3), (b"", b"", b"", 0, (0, 0)), (b"Arbiter", b"x", b"x", 1, 4), (b"Arbiter 0.1", b"1", b"2", 1, 4), (b"Arbite", b"1", b"2", 1, (0, 0)),
            (b"arbiter", b"1", b"2", 1, (0, 0)), (b"metasweeper", b"1", b"2", 1000, (0, 0))):
        data = one(version, software=software, start=start, end=end, ms=ms)
        if isinstance(wanted, int):
            bad(wanted, data)
        else:
            copy = good(data)
            expect((struct.unpack(">QQ", copy[18:34]), copy[1] & 8), (wanted, 0 if software.startswith(YUAN) else 8))
    for sum32 in (bytes(32), bytes(range(1, 33)), b"\xff" * 32, b"\0" * 31 + b"x"):
        expect(good(one(version, stop=b"\0" + sum32))[-35:], b"\0\0\x20" + sum32)
        expect(good(one(version, stop=b"\0" + sum32 + b"left over"))[-35:], b"\0\0\x20" + sum32)
        bad(1, one(version, stop=b"\0" + sum32[:31]))
        bad(SHORT, one(version, stop=b"\0" + sum32), more=-1)
    expect(good(one(version, stop=b"\xff"))[-3:], b"\0\0\0")
    expect(good(one(version, stop=b"\xff" + bytes(range(32))))[-3:], b"\0\0\0")
    bad(1, one(version, stop=b""))
    for bit in range(8):
        for mask in (1 << bit, 255 - (1 << bit)):
            good(one(version, first=mask, second=255 - mask))
            good(one(version, first=mask, second=mask, software=b"S"))
    for n in (0, 1, 255, 256, U16):
        for field in ("mines", "mode", "bbbv"):
            good(one(version, **{field: n}))
    for n in (0, 255, 256, U16, U16 + 1, U24 - 1, U24):
        good(one(version, ms=n))

# a whole file of each version, and cut off everywhere
for version in OLD:
    whole = old(version, first=0xF0, second=0xE0, height=3, width=5, mines=4, mode=258, bbbv=772, ms=66051, software=b"Viennasweeper 3", player="Zoé".encode(), race=b"race", uid=b"id",
                start=b"1700000000", end=b"x", country=b"fr", device=b"\xff\xfe", bits=b"\x92\x35", events=TWO + rec(1, 70000, 65535, 0) + rec(8, 70001, 0, 65535), stop=b"\0" + bytes(range(1, 33)))
    for more in (0, 1, 40):
        copy = good(whole, more=more)
    for room in (len(copy) - 1, len(copy) - 2, 47, 1, 0):
        bad(SHORT, whole, room=room)
    for cut in range(len(whole)):
        bad(1, whole[:cut], room=cut % 70)
    for data in (copy, copy[:-32] + b"left over" * 4, b"\x04" + copy[1:]):
        bad(13, data)
        bad(13, data, room=0)
        bad(13, data, room=len(copy))
    bad(1, copy[:-1])
bad(1, b"", room=0)
bad(1, b"")

# 13: whatever would be wrong with a game of version 4, if it reads
for data in (new(), new(pixels=255, height=255, width=1, bits=bytes(32)), new(events=FIRST + b"\x52\x01"), new(country=b"\xc3\xa9"), new(first=0xF8, extra=b"T\0GB\0"), new(metrics=b"\0\1a\0")):
    bad(13, data)
    bad(13, data, room=0)
    bad(13, data, room=4096)
    bad(1, data[:-1], room=4096)
for number, data in ((3, new(player=b"\xff")), (3, new(country=b"\xff\xff")), (7, new(height=0, bits=b"")), (8, new(events=b"\x03" + FIRST[1:])), (8, new(events=b"")), (9, new(events=FIRST + b"\x0d"))):
    bad(number, data)
    bad(number, data, room=0)


# the first number in checking order: every set of 16, 19, 20, 21, 22; and reading comes first
def holding(version, numbers, **changes):
    """A file of which just these conditions hold; its device id, if it has one, is HERE."""
    fields = dict(device=HERE, events=(rec(3 if 21 in numbers else 1, 5, 5, 5) + rec(0xFE if 22 in numbers else 9, 6, 6, 6)))
    if 16 in numbers:
        fields.update(width=0, height=129, pixels=255, bits=b"")
    if 19 in numbers:
        fields["uid"] = b"\xff"
    return old(version, **dict(fields, **changes))


for version in OLD:
    able = [16, 19, 20, 21, 22] if version >= 2 else [16, 19, 21, 22]
    for n in range(len(able) + 1):
        for chosen in itertools.combinations(able, n):
            device = (b"x", U16 + (20 in chosen)) if version >= 2 else ()
            for room in (61, 0):
                bad(chosen[0] if chosen else SHORT, holding(version, chosen), *device, room=room)
            bad(1, holding(version, chosen)[:-1], *device)
            if n == len(able):
                for number, changes in ((3, dict(software=b"\xff")), (3, dict(end=b"\xff")), (4, dict(software=b"Arbiter")), (5, dict(start=b"")), (5, dict(end=b"x")),
                                        (6, dict(software=b"Viennasweeper", start=b"18446744073710")), (7, dict(height=0))):
                    bad(number, holding(version, chosen, **changes), *device)

# files at random
rng = random.Random(20261117)
PIECES = [b"a", b"Zz", b"cn", b"Viennasweeper", "é".encode(), YUAN, "\U0001f4a3".encode(), b"0123456789" * 3, b" "]


def some(usual, *rare):
    return rng.choice(rare) if rng.random() < 0.02 else usual


def random_text():
    return b"".join(some(rng.choice(PIECES), b"\xff", b"\xc3") for _ in range(rng.randrange(4)))


def random_file():
    version = rng.randrange(4)
    height, width = some(rng.randrange(1, 17), 0, 255), some(rng.randrange(31), 0, 255)
    ms, records = some(rng.randrange(256), 256, 300), b""
    for k in range(some(rng.randrange(1, 20), 0)):
        records += rec(some(rng.choice((1, 2, 4, 8)) if k == 0 else rng.randrange(1, 10 if version < 3 else 13), rng.randrange(1, 255)), ms, rng.randrange(65536), rng.randrange(65536))
        ms = some(ms + rng.choice((0, 1, 3, rng.randrange(300), rng.randrange(300), rng.randrange(140000))), max(ms - 1, 0))
    software, start, end = rng.choice(((YUAN, b"%d" % rng.randrange(2 ** 64), b"%d" % rng.randrange(2 ** 64)), (b"Viennasweeper", b"%d" % rng.randrange(2 * 10 ** 9), random_text()),
                                       (rng.choice((b"S", b"", YUAN[:2] + b"\x84")), b"", b"z")))
    return old(version, first=rng.randrange(256), second=rng.randrange(256), height=height, width=width, mines=rng.randrange(65536), pixels=some(rng.randrange(60), 255), mode=rng.randrange(65536),
               bbbv=rng.randrange(65536), ms=rng.randrange(2 ** 24), software=software, player=random_text(), race=random_text(), uid=random_text(), start=start, end=end,
               country=some(rng.choice((b"cn", b"DE", b"", b"x1")), random_text()), device=rng.randbytes(rng.randrange(9)).replace(b"\0", b""), bits=rng.randbytes((height * width + 7) // 8),
               events=records, stop=rng.choice((b"\xff", b"\0" + rng.randbytes(32))))


for _ in range(400):
    data = bytearray(random_file())
    if rng.random() < 0.1:
        data[rng.randrange(len(data))] = rng.choice((0, 1, 2, 4, 255, rng.randrange(256)))
    case(bytes(data).replace(HERE, b""), **rng.choice((dict(more=0), dict(more=3), dict(more=3), dict(more=40), dict(more=-1), dict(room=rng.randrange(60)))))

# every file of make_cases.py
own = len(inputs)
for frame, file in make_cases.files.items():
    add(file, frame, room=4096)

if sys.argv[1:]:
    sys.exit()
stdin = evf.in_blocks(evf.UPGRADING, inputs)
evf.store("upgrades", stdin, lines + ["cases %d" % len(inputs)])
print(len(inputs), "cases,", own, "of them made here,", len(stdin), "bytes in,", sum(len(line.encode()) + 1 for line in lines), "bytes out")
for version in sorted({version for version, number in counts}):
    tally = {number: counts[version, number] for number in range(1, 24) if counts[version, number]}
    print("version", version, "upgraded", counts[version, 0], "refused", tally)
