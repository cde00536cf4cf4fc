#!/usr/bin/env python3
"""Writes the list target/lists/recounts, which join_cases.py puts into the program `cases`: boards of all sorts and sizes, with the openings and the 3BV of each, worked
out by the flood of evf.py, or the number of its refusal.

Input: blocks as `in_blocks` of evf.py makes them. For each case, big-endian: u8 7; u64 height, u64 width and u32 entries of the working buffer, then the cells, signed bytes
that are framed as `parts` of evf.py says. Every entry of the buffer is AAAA before the call.
Output: for each case, counted from 0, `case NUMBER recount openings N 3bv N` or `case NUMBER recount refused N`; then `rest` and the entries that the call leaves as they
were, n equal ones in a row as xxxx*n: those behind height x width of an accepted call, all of a refused one."""
import itertools
import random
import struct

import evf

MINE = 255
NO_MINES = [byte for byte in range(256) if byte != MINE]  # as signed bytes 0 to 127, then -128 to -2
BEFORE = 0xAAAA  # in every entry before the call

cases = []
rng = random.Random(20261116)


# answers

def judge(height, width, cells, entries):
    """Refuses a call with so many cells and entries: 15, 17 and 24 in this order."""
    if height == 0 or height > 255 or width > 255:
        raise evf.Refused(15)
    if cells < height * width:
        raise evf.Refused(17)
    if entries < height * width:
        raise evf.Refused(24)


def rest(n):
    """So many entries that are as they were before, as the program prints them."""
    return " rest" + (" %04x" % BEFORE) * (n > 0) + "*%d" % n * (n > 1)


def answer(height, width, cells, entries):
    try:
        judge(height, width, len(cells), entries)
    except evf.Refused as why:
        return "refused %d" % why.args[0] + rest(entries)
    counts = evf.recount([cell == MINE for cell in cells[:height * width]], height, width)
    return "openings %d 3bv %d" % counts + rest(entries - height * width)


def case(height, width, entries, first, unit=b"", times=0, last=b""):
    cells, frame = evf.parts(bytes(first), bytes(unit), times, bytes(last))
    cases.append((struct.pack(">QQI", height, width, entries) + frame, answer(height, width, cells, entries)))


# boards

def shapes(most):
    """Every height and width with 1 to so many cells."""
    return [(height, n // height) for n in range(1, most + 1) for height in range(1, n + 1) if n % height == 0]


def numbered(mines, height, width):
    """The cells that reading a file gives: a mine, or the number of mines around."""
    return [cell % 256 for cell in evf.cells_of(mines, height, width)]


def by_chance(n, percent):
    return [rng.randrange(100) < percent for _ in range(n)]


def any_numbers(mines):
    """Mines, and any number at all in every other cell."""
    return [MINE if mine else rng.choice(NO_MINES) for mine in mines]


def across(height, width):
    """Walls of mines four rows apart with a gap at one end in turn: one long zigzag between them."""
    return [MINE * (r % 4 == 3 and (c > 2 if r % 8 == 3 else c < width - 3)) for r in range(height) for c in range(width)]


def walls(width, gaps):
    """A row through walls that run down, every fourth column; those whose number modulo 2 is `gaps` have a gap here."""
    return [MINE * (c % 4 == 3 and c // 4 % 2 != gaps) for c in range(width)]


# the cases

def layouts():
    """Every layout of up to 9 cells in every shape, the cells that are no mines going through all numbers; buffers that are just long enough, and longer."""
    numbers = itertools.cycle(NO_MINES)
    for height, width in shapes(9):
        n = height * width
        for bits in range(2 ** n):
            case(height, width, n + bits % 4, [MINE if bits >> k & 1 else next(numbers) for k in range(n)])


def short_buffers():
    """Board and buffer that are short by one, just long enough or longer, of every shape up to 9 cells: 17 before 24."""
    for height, width in shapes(9):
        n = height * width
        for cells, entries in ((n - 1, n), (n - 1, n - 1), (n, n - 1), (n + 1, n - 1), (n + 1, n + 1), (0, 0), (n, 0), (0, n)):
            case(height, width, entries, any_numbers(by_chance(cells, 20)))


def sizes_refused():
    """Sizes that are no board's, some of which are a small number modulo 2^8, 2^16 or 2^32: 15 before 17 and 24."""
    large = (256, 257, 65536, 65537, 2 ** 32, 2 ** 32 + 1, 2 ** 63, 2 ** 64 - 1)
    sizes = [(0, 0), (0, 1), (0, 3), (0, 255)] + [(0, size) for size in large]
    sizes += [(size, width) for size in large for width in (0, 1, 3, size)] + [(height, size) for size in large for height in (1, 3, 255)]
    for height, width in sizes:
        for cells, entries in ((9, 9), (9, 0), (0, 9), (0, 0)):
            case(height, width, entries, [0] * cells)
    for height, width in ((256, 1), (1, 256), (256, 256)):
        case(height, width, 65536, [], b"\0", 65536)


def no_columns():
    """Width 0, which has no cells and needs no entries."""
    for height in (1, 2, 255):
        for cells, entries in ((0, 0), (3, 0), (0, 3), (3, 3)):
            case(height, 0, entries, [MINE] * cells)


def mines_behind():
    """Cells past height x width do not count, whether mines or not."""
    for height, width in shapes(6):
        n = height * width
        for behind in ([MINE], [MINE] * 9, [0] * 9):
            case(height, width, n + len(behind), [0] * n + behind)
            case(height, width, n, [MINE] * n + behind)


def every_number():
    """Every number that is no mine, in a row and in a column, and with a mine in the middle."""
    for cells in (NO_MINES, NO_MINES[:127] + [MINE] + NO_MINES[128:]):
        case(1, 255, 256, cells)
        case(255, 1, 255, cells)


def boards_by_chance():
    """Larger boards of several densities: as a file is read, and with any numbers."""
    for height, width in ((8, 8), (16, 16), (16, 30), (30, 16), (7, 11), (1, 255), (255, 1), (2, 97), (97, 2)):
        for percent in (1, 3, 10, 20, 40):
            mines, n = by_chance(height * width, percent), height * width
            case(height, width, n, numbered(mines, height, width))
            case(height, width, n + percent, any_numbers(mines))


def zigzags():
    case(31, 20, 620, across(31, 20))
    case(31, 20, 619, across(31, 20))
    case(255, 31, 255 * 31 + 7, [], across(8, 31), 31, across(7, 31))
    case(255, 255, 65025, walls(255, 0) * 3, walls(255, 2), 249, walls(255, 1) * 3)
    case(255, 255, 65536, walls(255, 0) * 3, walls(255, 2), 249, walls(255, 1) * 3)


def largest():
    """255 x 255: empty, full, with one mine, and by chance, 251 cells again and again so that each row differs from the one above it."""
    for entries in (65024, 65025, 65026, 65536):
        case(255, 255, entries, [], b"\0", 65025)
        case(255, 255, entries, [], bytes([MINE]), 65025)
    case(255, 255, 65025, [], b"\0", 65024)
    case(255, 255, 65025, [MINE], b"\0", 65024)
    case(255, 255, 65025, [], b"\0", 65024, [MINE])
    for percent in (2, 5, 10, 20, 40):
        case(255, 255, 65025 + percent, [], any_numbers(by_chance(251, percent)), 260)


def marked():
    """The document's board, a row of five with its mine in the middle, and neighbours of -1."""
    case(1, 2, 2, [MINE, 1])
    evf.expect(cases[-1][1], "openings 0 3bv 1 rest")
    case(1, 5, 5, [0, 1, MINE, 1, 0])
    evf.expect(cases[-1][1], "openings 2 3bv 2 rest")
    case(1, 3, 3, [254, 128, 129])
    evf.expect(cases[-1][1], "openings 1 3bv 1 rest")


def corners():
    """Zeros that touch by a corner alone are one opening."""
    for mines in ((0, 15), (3, 12)):
        case(4, 4, 16, [MINE * (k in mines) for k in range(16)])
        evf.expect(cases[-1][1], "openings 1 3bv 1 rest")


for make in (marked, corners, layouts, short_buffers, sizes_refused, no_columns, mines_behind, every_number, boards_by_chance, zigzags, largest):
    make()

if __name__ == "__main__":
    stdin = evf.in_blocks(evf.RECOUNT, [frame for frame, line in cases])
    evf.store("recounts", stdin, ["case %d recount %s" % (k, line) for k, (frame, line) in enumerate(cases)] + ["cases %d" % len(cases)])
    seen = sorted({int(line.split()[1]) for frame, line in cases if line.startswith("refused")})
    print(len(cases), "cases,", len(stdin), "bytes, refusals", seen)
