#!/usr/bin/env python3
"""Writes the list target/lists/writes, which join_cases.py puts into the program `cases`: games to be written as versions 3 and 4, both sides of every boundary of the refusals 14 to 23 and 25, with what
writing each must give by the writer of evf.py. Every file that is written is read back by the reader there.

Input: blocks as `in_blocks` of evf.py makes them: u8 2 and a case as games.py says, which says what it prints too; games are counted from 0.
With numbers of games as arguments it writes nothing, and shows these games.

No game has a length above 18446744073709551615: a file holds at most eight of the texts, each no longer than the lent bytes, and a row's records take at most 8 bytes an entry besides the
pauses, of which 4294967295 ms have room for 16777215, so a machine's memory ends long before. Long places over the same bytes stand in; and the steps of writing, which take what was counted so far from their caller,
are given a count that brings the length to the largest usize and past it."""
import collections
import itertools
import random
import struct
import sys

import evf
from evf import AWAY, COUNTRY, CHECKSUM, DEVICE_ID, KINDS, MOST, ORIGINAL_ENCODING, SOFTWARE, STATES, TRANSLATED_SOFTWARE, U16, U24, U32, U64, YUAN, expect, float_of
from games import ROW, TEXTS, game, holding, laid, unframed, writing

NAN, INF = float("nan"), float("inf")


def put(slot, text, **changes):
    """M3's game with another text in a slot."""
    return game(TEXTS[:slot] + [text] + TEXTS[slot + 1:], **changes)


games, lines, counts, backs = [], [], collections.Counter(), collections.Counter()


def write(g, versions, **room):
    """A game, written in some versions, with room as `writing` of games.py takes it. Answers each file or refusal."""
    case, told, answers = writing(len(games), g, versions, **room)
    for version, answer in answers.items():
        counts[version, answer.refused] += 1
        if answer.back is not None:
            backs[version, answer.back] += 1
    if str(len(games)) in sys.argv[1:]:
        print(len(games), vars(unframed(g)))
    games.append(case)
    lines.extend(told)
    return tuple(answers[version].refused or answers[version].file for version in versions)


def both(g, **room):
    return write(g, (3, 4), **room)


def near(x, ulps):
    """The floats around a positive one."""
    return [float_of(evf.bits_of(x) + k) for k in range(-ulps, ulps + 1)]


# M3 and its upgrade M4, M5, M6, M7, M9: the document's own bytes
expect(both(game()), (
    bytes.fromhex("03 90 00 01 02 00 01 10 00 00 00 01 00 03 E8 E5 85 83 00 50 00 00 00 31 00 32 00 63 6E 00 00 80 02 00 00 05 00 08 00 08 03 00 01 2C 00 07 00 08 FF"),
    bytes.fromhex("04 90 00 01 02 00 01 10 00 00 00 01 00 00 03 E8 43 4E 00 00 00 00 00 00 00 01 00 00 00 00 00 00 00 02 E5 85 83 00 50 00 00 00 00 00 80 00 00"
                  "02 05 00 08 00 08 FF 01 27 03 00 FF FF 00 00 00 00 00")))
before = both(game(row=[(1, 0.0, 5, 5)]))[1][:-3]
for row, records in (([(2, 0.255, 8, 8)], "02 FF 00 08 00 08"), ([(1, 0.0, 5, 5), (1, 0.255, 5, 5)], "01 00 00 05 00 05 01 FF 00 00 00 00"),
                     ([(1, 0.0, 5, 5), (1, 0.256, 5, 5)], "01 00 00 05 00 05 FF 01 00 01 00 00 00 00 00"),
                     ([(1, 0.0, 5, 5), (1, 65.791, 5, 5)], "01 00 00 05 00 05 FF FF FF FF 01 00 01 00 00 00 00 00"),
                     ([(1, 0.0, 65535, 5), (1, 0.0, 0, 5)], "01 00 FF FF 00 05 01 00 00 01 00 00"), ([(1, 0.0625, 1, 2)], "01 3F 00 01 00 02")):
    expect(both(game(row=row))[1], before[:-6] + bytes.fromhex(records) + b"\0\0\0")
expect(both(game(row=[(2, 0.256, 8, 8)]))[1], 21)

# 14: each place at the end of the lent bytes and past it, also where start + length passes 2^64
lent = b"0123456789abcdefghijklmnopqrstuvwxyz"
end = len(lent)
for slot in range(9):
    for place in ((end, 0), (end + 1, 0), (end - 2, 2), (end - 1, 2), (end - 32, 32), (end - 31, 32), (0, end), (0, end + 1), (1, end), (U64, 0), (U64, 1), (U64, 3), (U64 - 1, end),
                  (0, U64), (1, U64), (2, U64), (end, U64), (U64, U64), (2 ** 63, 2 ** 63), (2 ** 63 + 1, 2 ** 63 + 1)):
        places = [(0, 3)] * 8 + [(0, 0)]
        places[slot] = place
        for translated in (0, 1):
            if translated == 0 or slot in (TRANSLATED_SOFTWARE, ORIGINAL_ENCODING):
                both(game(lent=lent, places=places, flags=[1, 0, 0, 1, translated, 0, 0, 0]))
for place in ((0, 0), (1, 0), (0, 1), (U64, 1)):
    both(game(lent=b"", places=[place] * 9))
    both(game(lent=b"", places=[(0, 0)] * 8 + [place]))

# 15, 17: sizes, and boards one short, exact and longer; the cells past the board are mines
SIZES = (0, 1, 2, 254, 255, 256, 257, 512, 2 ** 16 + 1, 2 ** 32 + 1, 2 ** 63, 2 ** 63 + 1, U64)
for n in SIZES:
    both(game(height=n, width=2, pixels=1, board=(b"", b"\0", 1024)))
    both(game(height=2, width=n, pixels=1, board=(b"", b"\0", 1024)))
    both(game(height=n, width=n, pixels=1, board=(b"", b"\0", 65536)))
    both(game(height=n, width=0, pixels=1, board=b""))
    both(game(height=0, width=n, pixels=1, board=b""))
for height, width in ((1, 1), (1, 2), (1, 7), (1, 8), (1, 9), (3, 3), (2, 4), (16, 30), (255, 1), (1, 255), (255, 2), (128, 255), (255, 255)):
    for cell in (b"\xff", b"\0"):
        for n in (height * width - 1, height * width, height * width + 1, 0, 1):
            both(game(height=height, width=width, board=(b"", cell, n, b"\xff" * 9 if n == height * width + 1 else b"")))
both(game(height=1, width=0, board=b""))
both(game(height=255, width=0, board=b"\xff"))
both(game(height=16, width=16, board=bytes(range(256))))
both(game(height=15, width=17, board=bytes(range(256))))
both(game(height=4, width=4, board=bytes(b % 256 for b in (-1, -2, 127, -128, 0, 1, 2, 3, 4, 5, 6, 7, 8, 9, -1, -1))))

# 16: the products nearest to 32767 on either side, by height and by width
products = sorted({(a * b, a, b) for a in range(1, 256) for b in range(256)})
last = max(p for p, a, b in products if p <= 32767)
first = min(p for p, a, b in products if p > 32767)
for n, pixels in [(a, b) for p, a, b in products if p in (last, first)] + [(255, 128), (255, 129), (128, 255), (129, 255), (255, 255), (255, 0), (1, 255), (255, 1)]:
    both(game(height=n, width=1, pixels=pixels, board=(b"", b"\xff", 255)))
    both(game(height=1, width=n, pixels=pixels, board=(b"", b"\xff", 255)))
both(game(height=200, width=200, pixels=200, board=(b"", b"\0", 40000)))

# 18 and the other numbers
for n in (0, 1, 255, 256, U16, U16 + 1, U16 + 2, 2 ** 32, 2 ** 32 + 5, 2 ** 63, U64):
    both(game(mines=n))
    both(game(bbbv=n))
both(game(mines=U16, bbbv=U16))
both(game(mines=U16 + 1, bbbv=U16 + 1))
for n in (0, 255, 256, 65535, 65536, U24 - 1, U24, U24 + 1, 2 ** 24 + 5, 2 ** 31, U32):
    both(game(time=n))
for n in (0, 1, 255, 256, U16):
    both(game(mode=n))
for n in range(8):
    both(game(flags=[k == n for k in range(8)]))
    both(game(flags=[k != n for k in range(8)]))
both(game(flags=[0] * 8))
both(game(flags=[1] * 8))
for n in [0, 2 ** 32, 2 ** 63, U64 - 1, U64] + [10 ** k - d for k in range(20) for d in (0, 1)]:
    both(game(start=n))
    both(game(end=n, start=U64))
for origin in (0, 1, 2, 4, 5, 255):
    both(game(origin=origin, level=origin, found=U64 - origin))

# 19: each text broken, translated or not; a checksum is filled up to the 32 bytes that version 3 wants
for slot in range(9):
    for bad in (b"\xff", b"a\x80", b"\xc3", b"\xe5\x85", b"\xed\xa0\x80", b"\xc0\x80", b"\xf4\x90\x80\x80", b"\0", b"\0a", b"a\0", b"a\0b", b"\0\xff", b"\xff\0", b"\xc3\0\xa9"):
        for translated in (0, 1):
            text = bad + b"z" * (32 - len(bad)) if slot == CHECKSUM else bad
            both(put(slot, text, flags=[1, 0, 0, 1, translated, 0, 0, 0]))
    for good in (b"", b"a", "é".encode(), "元".encode(), "\U00010000\U0010ffff".encode(), b"\x01\x7f", bytes(range(1, 128))):
        both(put(slot, good, flags=[1, 0, 0, 1, 1, 0, 0, 0]))
    # a place that cuts 元 on its right, on its left, on both sides, not at all
    for start, length in ((1, 4), (2, 4), (2, 2), (1, 3), (0, 5), (1, 5), (3, 1)):
        places = [(0, 0)] * 9
        places[slot] = (start, length)
        both(game(lent=b"." + YUAN + b"a", places=places, flags=[1, 0, 0, 1, 1, 0, 0, 0]))
for software in (b"Arbiter", b"Viennasweeper", b"", b"Metasweeper"):
    both(put(SOFTWARE, software))

# 20: lengths of device id and checksum
for n in (0, 1, 30, 31, 32, 33, 64, 255, 256, 257, U16 - 1, U16, U16 + 1, U16 + 33):
    for byte in (b"x", b"\0", b"\xff"):
        lent = (b"<", byte, n, b">")
        for slot in (DEVICE_ID, CHECKSUM):
            places = [(0, 0)] * 9
            places[slot] = (1, n)
            both(game(lent=lent, places=places))
        if byte == b"x":
            both(game(lent=lent, places=[(1, n)] * 9), more=0)
            both(game(lent=lent, places=[(0, 1)] * 7 + [(0, n), (2, n)]))
            both(game(lent=lent, places=[(1, n)] * 8 + [(0, 0)], flags=[1] * 8))

# country
for country in (b"", b"c", b"cn", b"CN", b"cN", b"Cn", b"az", b"AZ", b"zA", b"cnx", "é".encode(), b"c1", b"1c", b"@A", b"A[", b"`a", b"z{", b"c ", b"X", b"XX", b"xx", YUAN, b"\xc1a", b"a\xe1",
                b"\xff\xff", b"c\0", b"\0\0", b"China"):
    both(put(COUNTRY, country))
    both(put(COUNTRY, country, flags=[0, 1, 1, 0, 1, 1, 1, 1]))

# 21 and the first entry: nothing, a state, each kind; milliseconds about 255, and seconds that are no usual ones
both(game(row=[]))
for code in list(range(14)) + [80, 100, 255] + sorted(STATES):
    both(game(row=[(code, 0.005, 8, 9)]))
    both(game(row=[(code, 0.256, 8, 9)]))
    both(game(row=[(code, 0.005, 8, 9), (1, 0.006, 8, 9)]))
    both(game(row=[(1, 0.005, 8, 9), (code, 0.006, 10, 7)]))
    both(game(row=[(1, 0.005, 8, 9), (code, 0.004, 10, 7), (1, 0.005, 9, 9)]))
    both(game(row=[(1, 0.005, 8, 9), (2, 0.006, 10, 7), (code, 1.0, 0, 0), (3, 1.0, 65535, 0)]))
SECONDS = [0.0, -0.0, 5e-324, -5e-324, 2.2250738585072014e-308, NAN, INF, -INF, -1.0, -0.0005, -0.0004, -1e300, 0.0004999999999999999, 0.0005, 0.0015, 0.0025, 0.0625, 0.1875, 0.2544, 0.255,
           0.2554, 0.256, 0.5, 1.0, 1e300, 1.7976931348623157e308, 16777.215, 16777.2154, 16777.216, 65.535, 65.791, 4294967.2944, 4294967.295, 4294967.2955, 4294967.296]
SECONDS += near(0.2545, 2) + near(0.2555, 3) + near(16777.2155, 3)
for seconds in SECONDS:
    both(game(row=[(1, seconds, 1, 2)]))
    both(game(row=[(8, 0.0, 1, 2), (9, seconds, 1, 2)]), room=64)
    both(game(row=[(4, 0.001, 1, 2), (5, seconds, 1, 2)]), room=64)
    both(game(row=[(1, 0.0, 1, 2), (81, seconds, 0, 0), (2, 0.1, 1, 2)]))

# 22: waits, falling and equal milliseconds, states between
for before in (0, 7, 255):
    for wait in (0, 1, 254, 255, 256, 257, 511, 512, 65534, 65535, 65536, 65789, 65790, 65791, 65792, 131069, 131070, 131071, 131325, 131326, 131327, 196605, 196860, 196861, 1000000, 16777215,
                 U32 - 1 - before, U32 - before):
        row = [(1, before / 1000.0, 3, 4), (2, (before + wait) / 1000.0, 4, 3)]
        both(game(row=row))
        both(game(row=row + [(81, 0.0, 0, 0), (3, (before + wait) / 1000.0, 3, 3)]), more=0)
both(game(row=[(1, 0.0, 0, 0), (1, 4294967.295, 0, 0), (1, INF, 0, 0), (1, 1e300, 1, 1)]))
both(game(row=[(1, 0.0, 0, 0)] + [(1, k * 1000000.0, k, k) for k in range(1, 5)]))
for ms in ((5, 5), (5, 4), (5, 6), (255, 255), (255, 254), (0, 0), (5, 6, 5), (5, 5, 5), (5, 6, 7, 6), (5, 300, 299), (5, 300, 300), (5, 70000, 69999), (5, 70000, 70000, 70000), (5, 4, 6)):
    row = [(1, n / 1000.0, 3, 4) for n in ms]
    both(game(row=row))
    both(game(row=[e for mouse in row for e in (mouse, (82, 0.0, 0, 0))]))
    both(game(row=[e for mouse in row for e in (mouse, (83, 1000.0, 0, 0), (99, NAN, 0, 0))]))
both(game(row=[(1, 0.0054, 1, 1), (1, 0.0046, 1, 1)]))
both(game(row=[(1, 0.0055, 1, 1), (1, 0.0054, 1, 1)]))
both(game(row=[(81, 0.0, 0, 0), (1, 0.0, 1, 1)]))
both(game(row=[(82, 0.0, 0, 0), (83, 1.0, 0, 0)]))
for a, b in ((65535, 0), (0, 65535), (0, 32767), (0, 32768), (32768, 0), (1, 0), (0, 1), (65535, 65535), (40000, 20000), (255, 256), (256, 255)):
    both(game(row=[(1, 0.0, a, 77), (1, 0.001, b, 77), (1, 0.002, a, 77)]))
    both(game(row=[(1, 0.0, 77, a), (1, 0.001, 77, b), (82, 0.001, 0, 0), (1, 0.002, 77, a)]))
both(game(row=[(1, k / 1000.0, k, 2 * k) for k in range(1000)]))
both(game(row=[(1, k / 1000.0, k, 2 * k) for k in range(1000)] + [(1, 0.998, 1, 2)]))
for n in (16777214, 16777215, 16777216, 16777217, 33554431):
    both(game(row=[(1, 0.0, 1, 1), (1, n / 1000.0, 1, 1)]))
    write(game(row=[(10, n / 1000.0, 1, 1), (0, 0.0, 1, 1)]), (3,))

# 23: no room, one byte short, just enough, more
wide = game([YUAN, b"Sweeper", b"GB18030", "Zoé".encode(), b"race", b"id", b"fr", b"\1\2\3", bytes(range(32))], flags=[1] * 8, height=3, width=5, board=b"\xff\0\1\xfe" * 4,
            start=U64, end=10 ** 19, row=ROW + [(82, 0.4, 0, 0), (1, 70.0, 65535, 0), (12, 70.1, 0, 65535)])
for g in (game(), wide, game(row=ROW[:1], height=1, width=0)):
    for more in (-20, -2, -1, 0, 1, 50):
        both(g, more=more)
    for room in (0, 1):
        both(g, room=room)
both(game(row=[]), room=0)
both(game(height=0), room=0)
both(game(row=[(1, 0.0, 1, 1), (1, INF, 1, 1)]), more=-1)

# lengths at the largest usize and past it
for g in (game(), wide, game(row=[]), game(height=0)):
    for version in (3, 4):
        try:
            n = len(evf.write(unframed(g), version))
        except evf.Refused:
            n = 0
        for counted in (2 ** 63, U64 - n - 1, U64 - n, U64 - n + 1, U64 - 1, U64):
            for room in (0, 64, MOST):
                write(g, (version,), room=room, counted=min(counted, U64))

# long places over the same bytes: more than the buffer can be, and less
for n in (60000, 30000):
    lent = (b"ab", b"x", n - 4, b"yz")
    for checksum in ((0, n), (n - 32, 32), (0, 0)):
        for flags in ([0] * 8, [1] * 8):
            g = game(lent=lent, places=[(0, n)] * 8 + [checksum], flags=flags)
            both(g, room=MOST)
            both(g, room=100)
            if n == 30000:
                both(g, more=0)
                both(g, more=-1)
    both(game(lent=lent, places=[(k, n - 2 * k) for k in range(8)] + [(n - 32, 32)], flags=[1] * 8), room=MOST)
    both(game(lent=lent, places=[(n - 2 * k, k) for k in range(8)] + [(n - 32, 32)], flags=[1] * 8))
both(game(lent=b"cncncncncncn", places=[(k, 2) for k in range(8)] + [(0, 0)], flags=[1] * 8))


# the first number in checking order: each pair and each tail of the conditions that a version has, and 23
# with each
def sets_of(numbers):
    """Refusals that hold together: none, each, each pair, and each tail in checking order."""
    tails = [tuple(numbers[k:]) for k in range(len(numbers) - 2)]
    return [()] + list(itertools.combinations(numbers, 1)) + list(itertools.combinations(numbers, 2)) + tails


def first_wins(version, chosen):
    """A game that is refused for all of these is refused with the first, whether there is room or not; 23
    comes last."""
    g = holding(version, chosen)
    whole = unframed(g)
    expect({n for n, holds in evf.CONDITIONS if holds(whole, version, AWAY)}, set(chosen))
    for room in (None, 0):
        got, = write(g, (version,), room=room)
        if chosen or room == 0:
            expect(got, chosen[0] if chosen else 23)


IN_ORDER = [n for n, holds in evf.CONDITIONS if n != 26]  # which make_rules.py has
for version in (3, 4):
    for chosen in sets_of([n for n in IN_ORDER if n != 25 and (version == 4 or n not in (16, 21))]):
        first_wins(version, chosen)

# games at random
rng = random.Random(20261116)
PIECES = [b"a", b"Zz", b"cn", b"Viennasweeper", "é".encode(), YUAN, "\U0001f4a3".encode(), b"0123456789" * 3, b" "]


def some(usual, *rare):
    return rng.choice(rare) if rng.random() < 0.03 else usual


def some_seconds(ms):
    return rng.choice((ms / 1000.0, ms / 1000.0, (ms + rng.uniform(-0.49, 0.49)) / 1000.0, (ms + 0.5) / 1000.0, some(ms / 1000.0, NAN, INF, -1.0, -0.0)))


def random_text():
    return b"".join(some(rng.choice(PIECES), b"\xff", b"\xc3") for _ in range(rng.randrange(4)))


def random_game():
    lent, ends = b"", [0]
    for _ in range(rng.randrange(1, 25)):
        lent += some(rng.choice(PIECES), b"\0", b"\xff", b"\xc3")
        ends.append(len(lent))
    places = []
    for slot in range(9):
        a, b = sorted((rng.choice(ends), rng.choice(ends)))
        if slot == CHECKSUM:
            a, b = rng.choice(((0, 0), (0, 32), (len(lent) - 32, len(lent)), (a, b))) if len(lent) >= 32 else (0, 0)
        places.append(some((a, b - a), (a, b - a + 1), (a + 1, b - a), (len(lent), 1)))
    height, width = some(rng.randrange(1, 13), 0, 255, 256), some(rng.randrange(13), 255, 256)
    cells = [rng.choice((-1, 0, 1, 2, 3, rng.randrange(-128, 128))) % 256 for _ in range(min(height * width, 400) + rng.choice((0, 0, 0, 1, 9)))]
    ms, row = rng.randrange(256), []
    for k in range(rng.randrange(1, 25)):
        if k > 0 and rng.random() < 0.15:
            row.append((rng.choice(sorted(STATES)), some_seconds(rng.randrange(100000)), 0, 0))
        else:
            row.append((rng.choice((1, 2, 4, 8)) if k == 0 else some(rng.randrange(1, 13), 0), some_seconds(ms), rng.randrange(65536), rng.randrange(65536)))
            ms += rng.choice((0, 1, 3, rng.randrange(300), rng.randrange(300), rng.randrange(140000)))
    return game(lent=lent, places=places, flags=[rng.randrange(2) for _ in range(8)], height=height, width=width, mines=some(rng.randrange(65536), 65536), pixels=rng.randrange(256),
                mode=rng.randrange(65536), bbbv=some(rng.randrange(65536), 65536), time=some(rng.randrange(2 ** 24), U24 + 1, U32), start=rng.randrange(10 ** rng.randrange(1, 20)),
                end=rng.randrange(2 ** 64), origin=rng.randrange(256), level=rng.randrange(256), found=rng.randrange(2 ** 64), board=bytes(cells), row=some(row, []))


for _ in range(400):
    both(random_game(), more=rng.choice((0, 0, 1, 5, 40, -1, -30)) if rng.random() < 0.6 else 3)

# document 02, note 1: version 3 writes each kind by its code, ub as 99; alone, behind an mv, and all in one row
NAMES = ["mv", "lc", "lr", "rc", "rr", "mc", "mr", "pf", "cc", "l", "r", "m", "ub"]
CODES = [1, 2, 3, 4, 5, 6, 7, 8, 9, 10, 11, 12, 99]
MV, MV_3 = (1, 0.005, 8, 9), bytes.fromhex("01 00 00 05 00 08 00 09")
EVENTS_3, EVENTS_4 = 32, 47  # where the events begin in these files


def of_kind(name, ms):
    return KINDS.index(name), ms / 1000.0, 10, 7


def behind(answer, at):
    """What lies behind a place of a file, or the refusal's number."""
    return answer if isinstance(answer, int) else answer[at:]


for name, code in zip(NAMES, CODES):
    record = bytes([code]) + bytes.fromhex("00 00 06 00 0A 00 07")
    three, four = both(game(row=[of_kind(name, 6)]))
    expect(three[EVENTS_3:], record + b"\xff")
    expect(behind(four, EVENTS_4), bytes([code]) + bytes.fromhex("06 00 0A 00 07 00 00 00") if name in ("mv", "lc", "rc", "pf") else 21)
    three, four = both(game(row=[MV, of_kind(name, 6)]))
    expect(three[EVENTS_3:], MV_3 + record + b"\xff")
    expect(behind(four, EVENTS_4 + 6), bytes([code]) + bytes.fromhex("01 00 02 FF FE 00 00 00") if name != "ub" else 22)
row = [of_kind(name, 6 + k) for k, name in enumerate(NAMES)]
three, four = both(game(row=row))
expect((list(three[EVENTS_3:-1:8]), four), (CODES, 22))
three, four = both(game(row=row[:12]))  # without ub, for version 4
expect((list(three[EVENTS_3:-1:8]), list(four[EVENTS_4:-3:6])), (CODES[:12], CODES[:12]))

# software whose files are read otherwise, and what only begins like it; the last start that is read and the next
for software, start, time in ((b"Arbiter 0.52", 1, 1), (b"Arbite", 1, 1), (b"Viennasweeper 3", 12, 5), (b"Vienna", 12, 5), (b"Viennasweepe", 12, 5), (b"Viennasweeper", 18446744073709, 551),
                              (b"Viennasweeper", 18446744073709, 552), (b"Viennasweeper", 18446744073710, 0), (b"Viennasweeper", U64, U24)):
    both(put(SOFTWARE, software, start=start, time=time, row=row[:12]))


# document 02, note 3: custom metrics. Version 4 writes count and block; version 3 writes neither and judges
# nothing but the place
def metered(count, block, unit=b"", times=0, last=b"", **changes):
    """M3's game with a block behind its texts, FF around it; as in `evf.parts`, a unit so often between two
    parts."""
    lent, places = laid(TEXTS)
    place = len(lent), len(block + unit * times + last)
    return game(**dict(dict(lent=(lent + block, unit, times, last + b"\xff"), places=places, metrics=place,
                            metrics_count=count), **changes))


def saved(count, *block, **room):
    """A block that is written as it is."""
    whole = evf.parts(*block)[0]
    file = PLAIN_4[:EVENTS_4 - 2] + struct.pack(">H", count) + whole + PLAIN_4[EVENTS_4:]
    expect(both(metered(count, *block), **room), (PLAIN_3, file))


def unsaved(count, *block, **room):
    """A block that is no texts, or not so many: 25 in version 4; version 3 takes the game all the same."""
    three, four = both(metered(count, *block), **room)
    expect((three, four), (23 if room else PLAIN_3, 25))


def ended(texts):
    return b"".join(text + b"\0" for text in texts)


PLAIN_3, PLAIN_4 = both(game())
saved(0, b"")
WIDE = "元é\U0001f4a3".encode()
for texts in ([b"a"], [b""], [WIDE], [b"a", b""], [b"", b"a"], [b"", b""], [WIDE, b"", b"3BV/s 2.5"],
              [b"x" * 300] * 3,
              [bytes(range(1, 128)), b"\x7f", "\u07ff\u0800\uffff\U00010000\U0010ffff".encode()]):
    n, block = len(texts), ended(texts)
    saved(n, block)
    for count in (n - 1, n + 1, 256 + n, U16):
        unsaved(count, block)
    for cut in range(1, min(len(block), 4)):  # the last text is not ended, or not there
        unsaved(n, block[:-cut])
    for surplus in (b"\0", b"x", b"x\0", b"\xff"):
        unsaved(n, block + surplus)
for count in (255, 256, 257, U16 - 1, U16):
    saved(count, b"", b"\0", count, more=0)
    write(metered(count, b"", b"\0", count), (4,), more=-1)
    unsaved(count, b"", b"\0", count - 1)
    unsaved(count, b"", b"\0", count + 1)
saved(1, b"", b"x", 100000, b"\0", more=0)
unsaved(1, b"", b"x", 100000)
unsaved(0, b"", b"x", 100000, b"\0")
for bad in (b"\xff", b"a\x80", b"\xc3", b"\xe5\x85", b"\xed\xa0\x80", b"\xc0\x80", b"\xf4\x90\x80\x80"):
    for texts in ([bad], [b"a", bad], [bad, b"a"]):
        unsaved(len(texts), ended(texts))
unsaved(2, b"\xc3\0\xa9\0")
for count, block in ((0, b"\0"), (0, b"a"), (0, b"a\0"), (0, b"\xff"), (1, b""), (1, b"a"), (1, b"\xff"),
                     (2, b"a\0b"), (2, b"ab\0"), (U16, b"")):
    unsaved(count, block)
    unsaved(count, block, room=0)

# a block that shares its bytes with texts, or stands in front of them
for place, count in (((0, 0), 0), ((1, 0), 0), ((0, 4), 1), ((0, 5), 2), ((4, 1), 1), ((4, 3), 2), ((5, 2), 1),
                     ((0, 7), 3)):
    both(game(lent=YUAN + b"\0\0P\0\xff", places=[(0, 3)] + [(5, 1)] * 7 + [(0, 0)], metrics=place,
              metrics_count=count))

# 14 covers the block's place in both versions, also that of an empty one
lent = b"0123456789\0"
end = len(lent)
for place in ((end, 0), (end + 1, 0), (end - 1, 1), (end, 1), (0, end), (0, end + 1), (U64, 0), (U64, 1),
              (1, U64), (U64, U64), (2 ** 63, 2 ** 63)):
    for count in (0, 1):
        told = both(game(lent=lent, places=[(0, 3)] * 8 + [(0, 0)], metrics=place, metrics_count=count))
        expect([answer == 14 for answer in told], [sum(place) > end] * 2)
for place in ((0, 0), (1, 0), (0, 1)):
    both(game(lent=b"", places=[(0, 0)] * 9, metrics=place))

# 23, and lengths at the largest usize
g = metered(2, WIDE + b"\0\0")
for more in (-20, -1, 0, 1, 50):
    write(g, (4,), more=more)
n = len(PLAIN_4) + len(WIDE) + 2
for counted in (U64 - n - 1, U64 - n, U64 - n + 1):
    write(g, (4,), room=64, counted=counted)

# the first in checking order: 25 stands behind 20 and ahead of 21
expect(IN_ORDER, [14, 15, 16, 17, 18, 19, 20, 25, 21, 22])
for chosen in sets_of(IN_ORDER):
    if 25 in chosen:
        first_wins(4, chosen)

for _ in range(40):
    texts = [random_text() for _ in range(rng.randrange(5))]
    block = some(ended(texts), ended(texts) + b"\0", ended(texts)[:-1])
    both(metered(some(len(texts), 7), block, row=random_game().row), more=rng.choice((0, 3, -1)))

if sys.argv[1:]:
    sys.exit()
stdin = evf.in_blocks(evf.WRITING, games)
evf.store("writes", stdin, lines + ["cases %d" % len(games)])
print(len(games), "games,", sum(counts.values()), "cases,", len(stdin), "bytes in,", sum(len(line) + 1 for line in lines), "bytes out")
for version in (3, 4):
    refused = {n: counts[version, n] for n in IN_ORDER + [23] if counts[version, n]}
    print("version", version, "accepted", counts[version, 0], "refused", refused)
    print("version", version, "files read back", backs[version, 0], "refused", {n: backs[version, n] for n in (4, 6) if backs[version, n]})
