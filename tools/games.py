"""Games to be written, for the tools that make cases of writing (make_writes.py, make_rules.py): M3's game
and what is changed of it, games of which chosen refusals hold, and a case of writing as the program `cases`
takes it, with what it must print by the writer of evf.py. Every file that is written is read back by the
reader there.

A case is, big-endian: u32 length of the file buffer lent to version 3, u32 of that lent to version 4,
4294967295 where the game is not written in that version; u8 flags (high bit first: completed, official,
fair, nf, translated, question marks, cursor limit, auto replay); u64 height, width, mines, 3BV; u8 pixels;
u16 mode; u32 time; u64 start, end; u8 version that the game had, u8 level, u64 mines found, which no writer
looks at; nine places, u64 start and u64 length each; the place of the custom metrics in the same way, and u16
their count; the lent bytes and the lent board, framed as `parts` of evf.py says; u64 bytes that are taken to
be counted before the row; u32 number of entries, and each entry: u8 code (81, 82, 83, 99: a state; any other:
a mouse kind), u64 bits of its seconds, u16 x, u16 y (0 for a state).
It prints, for each version written:
  game NUMBER version VERSION
  size LENGTH | size refused N
  wrote LENGTH | short LENGTH | refused N
  file BYTES (the whole buffer, which held aa everywhere before; xx*N stands for N times xx)"""
import struct

import evf
from evf import AWAY, CHECKSUM, COUNTRY, KINDS, MOST, ORIGINAL_ENCODING, SOFTWARE, STATES, TRANSLATED_SOFTWARE
from evf import U32, U64, YUAN, Value, expect

ROW = [(2, 0.005, 8, 8), (3, 0.3, 7, 8)]
TEXTS = [YUAN, b"", b"", b"P", b"", b"", b"cn", b"", b""]
SHORT = 23


def laid(texts):
    """Texts one behind the other, with FF around each that is no part of any: lent bytes, places."""
    lent, places = b"\xff", []
    for text in texts:
        places.append((len(lent), len(text)))
        lent += text + b"\xff"
    return lent, places


def game(texts=TEXTS, **changes):
    """M3's game, and what is changed of it. `lent` and `board` may be tuples for `evf.parts`."""
    lent, places = laid(texts)
    g = dict(flags=[1, 0, 0, 1, 0, 0, 0, 0], height=1, width=2, mines=1, pixels=16, mode=0, bbbv=1, time=1000,
             start=1, end=2, origin=3, level=6, found=1, lent=lent, places=places, metrics=(0, 0),
             metrics_count=0, board=b"\xff\x01", row=ROW)
    expect([name for name in changes if name not in g], [])
    g.update(changes)
    return Value(**g)


def holding(version, numbers):
    """A game of which just these conditions hold; its custom metrics, if any, are one empty text."""
    lent = (b"\xff" + YUAN + b"cn" + b"k" * 32, b"\0", 65536)
    length = 38 + 65536
    places = [(1, 3), (0, 0), (0, 0), (4, 2), (4, 2), (4, 2), (4, 2), (4, 2), (6, 32)]
    g = dict(lent=lent, places=places, height=3, width=5, row=[(1, 0.0, 5, 5), (2, 0.1, 6, 6)])
    if 14 in numbers:
        places[ORIGINAL_ENCODING] = (length + 1, 0)
    if 15 in numbers:
        g["width"] = 256
    if 16 in numbers:
        g["height"], g["pixels"] = 200, 200
    if 18 in numbers:
        g["mines"] = 65536
    if 19 in numbers:
        places[SOFTWARE] = (0, 4)
    if 20 in numbers:
        places[CHECKSUM] = (38, 65536) if version == 4 else (6, 31)
    if 25 in numbers:
        g["metrics"], g["metrics_count"] = (38, 1), 2
    if 21 in numbers:
        g["row"] = [(82, 0.0, 0, 0)] + g["row"]
    if 22 in numbers:
        g["row"] = g["row"] + ([(0, 0.2, 7, 7)] if version == 4 else [(1, 16777.216, 7, 7)])
    g["board"] = (b"", b"\xff", g["height"] * g["width"] - (17 in numbers))
    return game(**g)


def framed(what):
    return evf.parts(*what) if isinstance(what, tuple) else evf.parts(what)


def unframed(g):
    """A game whose bytes and board are lent as they are, its cells signed."""
    board = [b - 256 if b > 127 else b for b in framed(g.board)[0]]
    return Value(**dict(vars(g), lent=framed(g.lent)[0], board=board))


def times_back(g, version):
    """Start and end as they must be read from what was written, or the number that reading refuses."""
    software = evf.text_of(g, SOFTWARE)
    if version == 4 or software.startswith(YUAN):
        return g.start, g.end
    if software.startswith(b"Arbiter"):
        return 4
    if software.startswith(b"Viennasweeper"):
        start, end = g.start * 1000000, g.start * 1000000 + g.time * 1000
        return (start, end) if end <= U64 else 6
    return 0, 0


def texts_back(g, version):
    """The nine texts as they must be read from what was written."""
    texts = [evf.text_of(g, slot) for slot in range(9)]
    if version == 3 or not g.flags[4]:
        texts[TRANSLATED_SOFTWARE] = texts[ORIGINAL_ENCODING] = b""
    if version == 4:
        texts[COUNTRY] = evf.two_letters(texts[COUNTRY])
    return texts


def events_back(g, rule):
    """The events as they must be read from what was written by a rule."""
    return [(KINDS[code] if 1 <= code <= 12 else "ub", evf.s_to_ms(seconds, rule), x, y)
            for code, seconds, x, y in g.row if code not in STATES]


def must_refuse(file, number):
    """Reading refuses a file with a number."""
    try:
        evf.read(file)
    except evf.Refused as why:
        return expect(why.args[0], number)
    expect("read", number)


def reads_back(g, version, rule, file):
    """What was written is read as the game, by evf.py's other half. Answers 0, or the number that reading it
    is refused with."""
    times = times_back(g, version)
    if isinstance(times, int):
        must_refuse(file, times)
        return times
    back = evf.read(file)
    for name in ("height", "width", "mines", "pixels", "mode", "bbbv", "time"):
        expect(getattr(back, name), getattr(g, name))
    expect(back.version, version)
    translated = g.flags[4] if version == 4 else not evf.text_of(g, SOFTWARE).startswith(YUAN)
    expect(back.flags, [bool(b) for b in g.flags[:4] + [translated] + g.flags[5:]])
    expect((back.start, back.end), times)
    expect(back.texts, texts_back(g, version))
    expect((back.metrics_count, back.block), (g.metrics_count, evf.block_of(g)) if version == 4 else (0, b""))
    expect(back.cells, evf.cells_of([cell == -1 for cell in g.board[:g.height * g.width]], g.height, g.width))
    expect(back.events, events_back(g, rule))
    must_refuse(file[:-1], 1)  # no longer than it need be
    return 0


def answer(g, version, rule, more, room, counted):
    """What writing a game in a version must give: `lines` behind the first, the `room` lent, the `file` or
    nothing, the refusal's number or 0, 23 too, and what reading the file `back` is refused with, None where
    there is none."""
    try:
        file, refused = evf.write(g, version, rule), 0
        size = "size %d" % min(counted + len(file), U64)
    except evf.Refused as why:
        file, refused, back = b"", why.args[0], None
        size = "size refused %d" % refused
    else:
        back = reads_back(g, version, rule, file)
    if room is None:
        room = 64 if refused else min(len(file) + more, MOST)
    if refused:
        wrote, after = "refused %d" % refused, b"\xaa" * room
    elif room < counted + len(file):
        wrote, after, refused = "short %d" % min(counted + len(file), U64), b"\xaa" * room, SHORT
    else:
        wrote, after = "wrote %d" % len(file), file + b"\xaa" * (room - len(file))
    lines = [size, wrote, "file" + evf.runs(after)]
    return Value(lines=lines, room=room, file=file, refused=refused, back=back)


def header_bytes(g):
    out = bytes([sum(bool(b) << (7 - k) for k, b in enumerate(g.flags))])
    out += struct.pack(">QQQQBHIQQBBQ", g.height, g.width, g.mines, g.bbbv, g.pixels, g.mode, g.time, g.start,
                       g.end, g.origin, g.level, g.found)
    out += b"".join(struct.pack(">QQ", *place) for place in g.places)
    return out + struct.pack(">QQH", *g.metrics, g.metrics_count)


def writing(number, g, versions, rule=AWAY, more=3, room=None, counted=0):
    """A case of writing a game in some versions, with its number in its list; the file buffer has so many
    bytes more than the file, but at most MOST, 64 where there is no file, or just `room`. Answers the bytes
    behind the tag, the lines that it must print, and the answer for each version."""
    whole = unframed(g)
    expect(len(whole.lent) <= 131072 and len(whole.board) <= 65536, True)
    answers = {version: answer(whole, version, rule, more, room, counted) for version in versions}
    lines = [line for version in versions
             for line in ["game %d version %d" % (number, version)] + answers[version].lines]
    case = struct.pack(">II", *(answers[version].room if version in answers else U32 for version in (3, 4)))
    case += header_bytes(g) + framed(g.lent)[1] + framed(g.board)[1]
    expect(len(header_bytes(g)), evf.HEADER_BYTES)
    case += struct.pack(">QI", counted, len(g.row))
    return case + b"".join(struct.pack(">BdHH", *entry) for entry in g.row), lines, answers
