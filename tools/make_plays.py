#!/usr/bin/env python3
"""Writes the list target/lists/plays, which join_cases.py puts into the program `cases`: games that are
played through, and every row of three clicks on every small board, with what each must come to by the machine
of plays.py.

Input: blocks as `blocks_of` of evf.py makes them. For each case, big-endian, one of
  u8 11; u64 height, u64 width, u8 pixels of a cell, u32 entries lent for the cells, u16 what stands in each
  of them before; the board, signed bytes that are framed as `parts` of evf.py says; u64 0, u32 number of
  events, and each of them as an entry of a row of games.py: u8 code, u64 bits of its seconds, u16 x, u16 y;
  u8 12; u8 height, u8 width, u16 layout, the lowest bit for the last cell: a board of up to six cells.
Output: for each case, counted from 0, one of
  case NUMBER play undecided|won|lost|refused N cells ENTRIES
  case NUMBER small undecided N won N lost N digest D
Entries are all that were lent, 0 covered, 1 flagged, 2 uncovered, n equal ones in a row as xxxx*n. A small
board is lent with cells behind it that are mines, 8 in all, and with 8 entries of 9. Its rows are all rows of
three clicks, of which there are three times as many as cells: lr on each cell, then rc, then pf. D is a
digest, 16 hexadecimal digits: for row after row 0, 1 or 2 as it is undecided, won or lost, then its 8
entries."""
import collections
import itertools
import random
import struct

import evf
from evf import KINDS, STATES
from games import ROW
from plays import MINE, Game, are_together

NO_MINES = [byte for byte in range(256) if byte != MINE]  # as signed bytes 0 to 127, then -128 to -2
LC, LR, RC, RR, PF, CC = (KINDS.index(name) for name in ("lc", "lr", "rc", "rr", "pf", "cc"))
NOT_CLICKED = [code for code in (0, 1, 6, 7, 10, 11, 12, 13, 80, 255, *STATES)]  # they do nothing anywhere
LENT, BEFORE, PIXELS = 8, 9, 16  # of a small board
NOTHING, BITS = 0x9E3779B97F4A7C15, 2 ** 64 - 1  # the digest of nothing, and as many bits as it has


# the refusals, each from its sentence, in checking order: of the sizes, the pixels, how many cells and
# entries are lent, and the kinds of the row
CONDITIONS = [
    (15, lambda height, width, pixels, cells, entries, kinds: height == 0 or height > 255 or width > 255),
    (17, lambda height, width, pixels, cells, entries, kinds: cells < height * width),
    (24, lambda height, width, pixels, cells, entries, kinds: entries < height * width),
    (27, lambda height, width, pixels, cells, entries, kinds: pixels == 0),
    (28, lambda height, width, pixels, cells, entries, kinds: are_together(kinds)),
]


def kinds_of(row):
    return [evf.kind(entry) if evf.is_mouse(entry) else STATES[entry[0]] for entry in row]


def played(height, width, pixels, board, row, entries, before, game=Game, conditions=CONDITIONS):
    """How a game stands, and every entry after it."""
    kinds = kinds_of(row)
    for why, holds in conditions:
        if holds(height, width, pixels, len(board), entries, kinds):
            return "refused %d" % why, [before] * entries
    g = game(height, width, pixels, board)
    for kind, (code, seconds, x, y) in zip(kinds, row):
        if code not in STATES:
            g.play(kind, x, y)
    return g.stands, g.entries() + [before] * (entries - height * width)


def clicks_of(height, width):
    """Every click of a small board: kind, x, y."""
    places = list(itertools.product(("lr", "rc", "pf"), range(height), range(width)))
    return [(kind, column * PIXELS + i % 16, row * PIXELS + 15 - i % 16)
            for i, (kind, row, column) in enumerate(places)]


def after(height, width, board, clicks, game):
    g = game(height, width, PIXELS, board)
    for click in clicks:
        g.play(*click)
    return g


def digest(so_far, n):
    x = so_far ^ n
    x ^= x << 13 & BITS
    x ^= x >> 7
    return x ^ (x << 17 & BITS)


def of_all_rows(height, width, layout, game=Game):
    """How many rows of three clicks end how, and the digest. What a click does depends on the cells and how
    the game stands alone, so that it is worked out once for each of those."""
    n = height * width
    board = [MINE * (layout >> (n - 1 - k) & 1) for k in range(n)]
    counts, d, seen = dict.fromkeys(("undecided", "won", "lost"), 0), NOTHING, {}
    clicks = clicks_of(height, width)
    for first, second in itertools.product(clicks, repeat=2):
        g = after(height, width, board, (first, second), game)
        state = g.stands, tuple(g.entries())
        if state not in seen:
            thirds = [after(height, width, board, (first, second, third), game) for third in clicks]
            seen[state] = [(g.stands, g.entries() + [BEFORE] * (LENT - n)) for g in thirds]
        for stands, entries in seen[state]:
            counts[stands] += 1
            d = digest(d, list(counts).index(stands))
            for entry in entries:
                d = digest(d, entry)
    return "undecided %d won %d lost %d digest %016x" % (*counts.values(), d)


# the cases: what each is made of, the bytes behind its tag, what it must print

games, small = [], []
rng = random.Random(20261117)


def runs(entries):
    """Entries as the program prints them."""
    grouped = [(entry, len(list(run))) for entry, run in itertools.groupby(entries)]
    return "".join(" %04x" % entry + ("*%d" % n if n > 1 else "") for entry, n in grouped)


def line_of(answer):
    return "%s cells%s" % (answer[0], runs(answer[1]))


def play(height, width, pixels, board, row, entries=None, before=BEFORE):
    """A game; the board is bytes, or a tuple of four for `evf.parts`. Without a number of entries there are
    two more than cells."""
    first, unit, times, last = board if isinstance(board, tuple) else (board, b"", 0, b"")
    cells, frame = evf.parts(bytes(first), bytes(unit), times, bytes(last))
    entries = height * width + 2 if entries is None else entries
    asked = height, width, pixels, cells, row, entries, before
    framed = struct.pack(">QQBIH", height, width, pixels, entries, before) + frame
    framed += struct.pack(">QI", 0, len(row)) + b"".join(struct.pack(">BdHH", *entry) for entry in row)
    answer = played(*asked)
    games.append((asked, framed, line_of(answer)))
    return answer


# boards and events

def shapes(most):
    """Every height and width with 1 to so many cells."""
    sizes = itertools.product(range(1, most + 1), repeat=2)
    return [(height, width) for height, width in sizes if height * width <= most]


def mines_by_chance(n, percent):
    return [MINE * (rng.randrange(100) < percent) for _ in range(n)]


def any_numbers(board):
    """The same mines, and any number at all in every other cell."""
    return [cell if cell == MINE else rng.choice(NO_MINES) for cell in board]


def at(code, row, column, pixels=PIXELS):
    """An event on a cell, somewhere in it."""
    x, y = column * pixels + rng.randrange(pixels), row * pixels + rng.randrange(pixels)
    return code, rng.choice((0.0, 0.5, 1.25, -1.0, float("inf"))), x, y


def on(code, k, width, pixels=PIXELS):
    """An event on cell k."""
    return at(code, k // width, k % width, pixels)


def clear_of(row):
    """The row without those presses that are a chord."""
    out = []
    for entry in row:
        if not are_together(kinds_of(out + [entry])):
            out.append(entry)
    return out


def off_board(code, height, width, pixels):
    """An event just past an edge of the board, far off it, or at the edge's last pixel."""
    right, below = width * pixels, height * pixels
    last, lowest = max(right - 1, 0), below - 1
    x, y = rng.randrange(last + 1), rng.randrange(below)
    places = ((right, y), (x, below), (right, below), (65535, y), (x, 65535), (65535, 65535), (last, lowest),
              (x, lowest), (last, y))
    return code, 0.5, *rng.choice(places)


def event_by_chance(height, width, pixels, board):
    """Mostly an lr, rc or pf on a cell, of the lrs more on cells that are no mines; the others less often."""
    code = rng.choice([LR] * 10 + [RC] * 3 + [PF] * 3 + [LC, LC, RR, RR] + [rng.choice(NOT_CLICKED)] * 2)
    if width == 0 or rng.randrange(12) == 0:
        return off_board(code, height, width, pixels)
    k = rng.randrange(height * width)
    if code == LR and board[k] == MINE and rng.randrange(5):
        k = rng.randrange(height * width)
    return on(code, k, width, pixels)


def sizes_by_chance():
    n = rng.randrange(1, 40)
    few, more = ((rng.randrange(low, high), rng.randrange(low, high)) for low, high in ((1, 6), (5, 16)))
    return rng.choice([few] * 8 + [(1, n), (n, 1), (8, 8), (9, 9), (7, 12), more])


# the lists of games

def m3():
    """M3's game of document 01."""
    evf.expect(play(1, 2, 16, [MINE, 1], ROW, 2), ("lost", [2, 0]))
    evf.expect(play(1, 2, 16, [MINE, 1], ROW[:1], 2), ("undecided", [0, 0]))
    evf.expect(play(1, 2, 16, [MINE, 1], [], 2), ("undecided", [0, 0]))
    evf.expect(play(1, 2, 16, [MINE, 1], [at(LR, 0, 1)], 2), ("won", [0, 2]))


def rows_by_chance():
    """Rows of events on boards of many sizes, as a file is read and with any numbers in the cells; most rows
    without chords."""
    for number in range(2000):
        height, width = sizes_by_chance()
        pixels = rng.choice((1, 2, 7, 16, 16, 20, 24, 32, 255))
        behind, percent = rng.choice((0, 0, 0, 3)), rng.choice((0, 3, 6, 10, 15, 20, 35))
        board = mines_by_chance(height * width + behind, percent)
        row = [event_by_chance(height, width, pixels, board) for _ in range(rng.randrange(36))]
        if number % 10:
            row = clear_of(row)
        play(height, width, pixels, any_numbers(board) if number % 2 else board, row,
             height * width + rng.choice((0, 1, 2, 5)), rng.choice((9, 9, 0, 1, 2, 3, 65535)))


def standard_boards():
    """The three standard boards."""
    for height, width, mines in [(8, 8, 10), (16, 16, 40), (16, 30, 99)] * 12:
        n = height * width
        chosen = set(rng.sample(range(n), mines))
        board = [cell % 256 for cell in evf.cells_of([k in chosen for k in range(n)], height, width)]
        row = [event_by_chance(height, width, PIXELS, board) for _ in range(60)]
        play(height, width, PIXELS, board, clear_of(row))
        others = [on(LR, k, width) for k in range(n) if k not in chosen]
        flags = [on(rng.choice((RC, PF)), k, width) for k in rng.sample(range(n), 12)]
        play(height, width, PIXELS, board, rng.sample(flags + rng.sample(others, 20), 32))


def flags_and_openings():
    """Flags, an opening around them, flags lifted, then clicks where flags were: zeros uncovered before hand
    nothing on."""
    for height, width in [(1, 7), (7, 1), (3, 3), (2, 5), (4, 6), (6, 6), (5, 9)] * 20:
        n = height * width
        board = mines_by_chance(n, rng.choice((0, 0, 0, 4, 8)))
        flags = rng.sample(range(n), rng.randrange(1, min(n, 6)))
        row = [on(rng.choice((RC, PF)), k, width) for k in flags] + [on(LR, rng.choice(flags), width)]
        row += [on(LR, k, width) for k in rng.sample(range(n), 2)]
        lifted = rng.sample(flags, rng.randrange(len(flags) // 2, len(flags) + 1))
        row += [on(rng.choice((RC, PF)), k, width) for k in lifted]
        row += [on(LR, k, width) for k in rng.sample(flags, len(flags) // 2)]
        play(height, width, PIXELS, board, row)


def after_the_end():
    """Clicks and flags after a game was won or lost, and on cells uncovered before."""
    for height, width in [(1, 2), (1, 4), (2, 2), (3, 4), (5, 5)] * 6:
        n = height * width
        board = mines_by_chance(n, 25)
        row = [on(LR, k, width) for k in rng.sample(range(n), n) if board[k] != MINE]
        mine = [on(LR, k, width) for k in range(n) if board[k] == MINE]
        flags = [on(rng.choice((RC, PF)), rng.randrange(n), width) for _ in range(3)]
        again = [on(LR, rng.randrange(n), width) for _ in range(3)]
        play(height, width, PIXELS, board, row + flags + mine + again)
        play(height, width, PIXELS, board, row[:1] + mine + flags + again + row)
        play(height, width, PIXELS, board, row[1:] + flags + row[:1] + mine)


def edges():
    """Clicks at the first and last pixels of cells, on the edges of the board and past each of them."""
    for pixels in (1, 2, 16, 255):
        for height, width in ((1, 1), (2, 3), (3, 2), (1, 5), (5, 1)):
            board = [MINE * (k % 4 == 3) for k in range(height * width)]
            ends = width * pixels, height * pixels
            xs, ys = ({0, pixels - 1, pixels, end - 1, end, end + 1, 65535} for end in ends)
            for x, y in sorted(itertools.product(xs, ys))[::2 if pixels > 2 else 3]:
                play(height, width, pixels, board, [(LR, 0.1, x, y)])


def largest_places():
    """The last cell of 255 x 255 with the largest pixels, and x and y behind it."""
    for x, y in ((65024, 65024), (65025, 65024), (65024, 65025), (65535, 65535)):
        play(255, 255, 255, ([], [0, MINE], 32512, [0]), [(RC, 0.1, x, y), (LR, 0.2, 0, 0)])


def every_kind():
    """Every code on every cell of a small board, before and after an lr elsewhere."""
    for code in [*range(14), *STATES, 80, 84, 98, 100, 255]:
        for row in ([at(code, 0, 0)], [at(code, 0, 0), at(code, 0, 0)], [at(code, 0, 0), at(LR, 0, 0)],
                    [at(LR, 1, 1), at(code, 0, 0)], [at(RC, 0, 0), at(code, 0, 0)]):
            play(2, 2, PIXELS, [0, 0, 0, MINE], row)


def chords():
    """Every row of three of the kinds that press or let go, and some that do not, on a cell and off the
    board; every row of four of those that do; presses far apart, and after the end of the game."""
    for number, codes in enumerate(itertools.product((LC, LR, RC, RR, CC, PF, 1), repeat=3)):
        play(1, 2, PIXELS, [0, MINE], [on(code, (number + 1) % 3, 2) for code in codes], 2)
    for codes in itertools.product((LC, LR, RC, RR), repeat=4):
        play(1, 2, PIXELS, [0, MINE], [on(code, 0, 2) for code in codes], 2)
    between = [at(1, 0, 0), (82, 0.0, 0, 0), (99, 0.0, 0, 0), at(PF, 0, 1), at(6, 0, 0), at(0, 0, 0)]
    for code, until, other in itertools.product((LC, RC), (LR, RR), (LC, RC)):
        for _ in range(8):
            press, release, last = at(code, 0, 0), at(until, 0, rng.randrange(4)), at(other, 0, 0)
            far = [rng.choice(between) for _ in range(rng.randrange(12))]
            play(1, 2, PIXELS, [0, MINE], [press, *far, last])
            play(1, 2, PIXELS, [0, MINE], [press, *far, release, *far, last])
            play(1, 2, PIXELS, [0, MINE], [press, press, release, *far, last])
    for end in ([], [at(CC, 0, 0)], [at(LC, 0, 0), at(RC, 0, 0)], [at(RC, 0, 0), at(LC, 9, 9)]):
        for k in (0, 1):  # a chord after the game was won or lost
            play(1, 2, PIXELS, [0, MINE], [at(LR, 0, k)] + end)


def refusals():
    """Every choice of the five conditions, 15 by each of its sizes: the first of them in checking order."""
    rows = [at(LC, 0, 0), at(RC, 0, 0)], [at(LC, 0, 0), at(LR, 0, 0)], [at(CC, 9, 9)], []
    far, most = 2 ** 32 + 3, 2 ** 64 - 1
    sizes = [(0, 0), (0, 3), (0, 256), (256, 1), (256, 0), (3, 256), (257, 3), (far, 3), (3, far)]
    sizes.append((most, most))
    for (height, width), cells, entries in itertools.product(sizes, (9, 0), (9, 0)):
        for pixels, row in itertools.product((16, 0), rows[:2]):
            play(height, width, pixels, [0] * cells, row, entries)
    for cells, entries, pixels, row in itertools.product((9, 8, 0), (9, 8, 0), (16, 0), rows):
        play(3, 3, pixels, [0] * cells, row, entries)
    for height, width in ((1, 0), (1, 1), (2, 5), (5, 2)):
        for pixels, row in itertools.product((1, 0), rows):
            play(height, width, pixels, [0] * height * width, row, before=1)
    for n in (255, 256):
        for height, width in ((n, 1), (1, n)):
            play(height, width, 16, ([], b"\0", n, []), [at(LR, 0, 0)], n)
    for height, width in shapes(6):
        n = height * width
        for cells, entries in ((n - 1, n), (n, n - 1), (n, n), (n + 1, n + 1), (n - 1, n - 1)):
            play(height, width, 1, [0] * cells, [at(LR, 0, 0, 1)], entries, 65535)


def no_columns():
    """Width 0: nothing to click, and undecided for ever."""
    for height in (1, 2, 255):
        for row in ([], [at(LR, 0, 0)], [at(RC, 0, 0)], [at(LR, 0, 0), at(PF, 0, 0), (82, 0.0, 0, 0)]):
            for cells, entries in ((0, 0), (3, 0), (0, 3)):
                play(height, 0, PIXELS, [MINE] * cells, row, entries)


def all_alike():
    """Boards that are all mines, or have none, or have one cell without: flags alone decide nothing."""
    for height, width in [*shapes(4), (3, 3), (1, 9)]:
        n = height * width
        for board in ([MINE] * n, [0] * n, [MINE] * (n - 1) + [0], [0] * (n - 1) + [MINE]):
            for row in ([], [on(RC, 0, width)], [on(PF, k, width) for k in range(n)], [on(LR, 0, width)],
                        [on(LR, n - 1, width)], [on(RC, 0, width), on(LR, 0, width), on(LR, n - 1, width)]):
                play(height, width, PIXELS, board, row)


def zigzag(height, width):
    """Walls of mines four rows apart with a gap at one end in turn: one long way between them."""
    wall, gaps = range(width), (range(3), range(width - 3, width))
    return [MINE * (r % 4 == 3 and c not in gaps[r // 4 % 2]) for r in range(height) for c in wall]


def largest():
    """255 x 255 and other large boards: one opening of all, of all but a few flags, of a long way."""
    empty, full, one = ([], [0], 65025, []), ([], [MINE], 65025, []), ([MINE], [0], 65024, [])
    for first in (0, 127 * 255 + 127, 65024):
        play(255, 255, PIXELS, empty, [on(LR, first, 255)], 65025)
    flags = [on(RC, k, 255) for k in rng.sample(range(65025), 60)]
    play(255, 255, PIXELS, empty, flags + [on(LR, 300, 255)], 65030, 2)
    play(255, 255, 7, one, [on(LR, 65024, 255, 7), on(LR, 0, 255, 7)], 65536, 65535)
    play(255, 255, 7, one, [on(PF, 500, 255, 7), on(LR, 1, 255, 7), on(LR, 65024, 255, 7)], 65536, 1)
    play(255, 255, PIXELS, full, [on(PF, 5, 255), on(LR, 65024, 255)], 65025, 1)
    play(255, 255, PIXELS, empty, [on(LR, 0, 255)], 65024)
    play(255, 255, PIXELS, ([], [0], 65024, []), [on(LR, 0, 255)], 65025)
    scattered = ([], mines_by_chance(251, 2), 260, [])
    play(255, 255, PIXELS, scattered, [on(LR, k, 255) for k in range(0, 65025, 7001)])
    way, lifted = zigzag(31, 20), [on(RC, 40, 20), on(LR, 40, 20)]
    play(31, 20, PIXELS, way, [on(LR, 0, 20)], 620)
    play(31, 20, PIXELS, way, [on(RC, 12 * 20 + 19, 20), on(PF, 40, 20), on(LR, 0, 20)] + lifted, 700)
    play(255, 20, PIXELS, zigzag(255, 20), [on(LR, 0, 20)])


def prefixes():
    """Every prefix of three games on a board of 9 x 9: one that is won, one that is lost, one that is
    neither, each with flags and openings on the way."""
    height = width = 9
    for wanted in ("won", "lost", "undecided"):
        mines = set(rng.sample(range(81), 10))
        board = [cell % 256 for cell in evf.cells_of([k in mines for k in range(81)], height, width)]
        steps = []
        for k in rng.sample(range(81), 81):
            if k in mines:
                steps.append([on(PF, k, width)] if k % 2 else [on(RC, k, width), on(RR, k, width)])
            elif wanted == "won" or k % 9:
                steps.append([on(code, k, width) for code in (1, LC, LR)[k % 3:]])
        if wanted == "lost":
            hit = [on(code, min(mines), width) for code in (RC, RR, LR, LR, PF, LR)]
            steps = steps[:40] + [hit, hit]
        row = sum(steps, [])
        for n in range(len(row) + 1):
            answer = play(height, width, PIXELS, board, row[:n], 81 + n % 3)
        evf.expect(answer[0], wanted)


def small_boards():
    """Every layout of up to six cells in every shape."""
    for height, width in shapes(6):
        for layout in range(2 ** (height * width)):
            small.append(((height, width, layout), struct.pack(">BBH", height, width, layout),
                          of_all_rows(height, width, layout)))


for make in (m3, rows_by_chance, standard_boards, flags_and_openings, after_the_end, edges, largest_places,
             every_kind, chords, refusals, no_columns, all_alike, largest, prefixes):
    make()

if __name__ == "__main__":
    small_boards()
    tagged = [bytes([evf.PLAY]) + framed for asked, framed, line in games]
    tagged += [bytes([evf.SMALL]) + framed for asked, framed, line in small]
    lines = ["play " + line for asked, framed, line in games]
    lines += ["small " + line for asked, framed, line in small]
    stdin = evf.blocks_of(tagged)
    evf.store("plays", stdin, ["case %d %s" % case for case in enumerate(lines)] + ["cases %d" % len(lines)])
    ends = collections.Counter(line.split(" cells")[0] for asked, framed, line in games)
    print(len(games), "games,", len(small), "small boards,", len(stdin), "bytes;", dict(sorted(ends.items())))
