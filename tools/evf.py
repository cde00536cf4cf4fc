"""The EVF format in Python, for the tools that make cases: the reader of versions 0 to 4, written from
docs/FORMAT.md, the writer of versions 3 and 4, the upgrade and the re-save, written from document 01 and
notes 1, 3 and 5 of document 02, and what both need of numbers, texts and boards. It shares nothing with the
proved code; the standard library is all it stands on."""
import itertools
import math
import os
import struct
import sys
from fractions import Fraction

KINDS = ["ub", "mv", "lc", "lr", "rc", "rr", "mc", "mr", "pf", "cc", "l", "r", "m"]
STATES = {81: "replay", 82: "win", 83: "fail", 99: "error"}
UB_CODE = 99  # what version 3 writes for ub; every other kind goes out as its place in KINDS
U16, U24, U32, U64 = (2 ** k - 1 for k in (16, 24, 32, 64))
YUAN = "元".encode()
AWAY, TO_EVEN = 1, 2  # the rules: where a half goes as seconds become milliseconds
# the nine texts by their slot
SOFTWARE, TRANSLATED_SOFTWARE, ORIGINAL_ENCODING, PLAYER, RACE, UNIQUE_ID, COUNTRY, DEVICE_ID, CHECKSUM = range(9)


class Refused(Exception):
    pass


class Value:
    """A bag of fields; a game that is not given custom metrics has none."""
    metrics, metrics_count = (0, 0), 0

    def __init__(self, **fields):
        self.__dict__.update(fields)


# numbers, texts, boards

def is_utf8(text):
    try:
        bytes(text).decode("utf-8", "strict")
    except UnicodeDecodeError:
        return False
    return True


def decimal(text):
    """The number in a text, or None."""
    digits = text[1:] if text[:1] == b"+" else text
    if not digits or any(not 48 <= b <= 57 for b in digits) or int(digits) > U64:
        return None
    return int(digits)


def two_letters(country):
    if len(country) == 2 and all(chr(b).isascii() and chr(b).isalpha() for b in country):
        return country.upper()
    return b"XX"


def s_to_ms(seconds, rule=AWAY):
    """Times 1000.0 by the machine's own multiplication, then exactly: nearest, halves by the rule, within
    u32; or Refused. A fraction is rounded by Python to the nearest whole number, halves to even."""
    if rule not in (AWAY, TO_EVEN):
        raise Refused(26)
    product = seconds * 1000.0
    if product != product or product < 0:
        return 0
    if product == float("inf"):
        return U32
    exact = Fraction(product)
    return min(round(exact) if rule == TO_EVEN else math.floor(exact + Fraction(1, 2)), U32)


def seconds_of(ms):
    return ms / 1000.0


def bits_of(seconds):
    return struct.unpack(">Q", struct.pack(">d", seconds))[0]


def float_of(bits):
    return struct.unpack(">d", struct.pack(">Q", bits))[0]


def mines_of(bits, n):
    """The first n bits, high bit first."""
    return [(bits[k // 8] >> (7 - k % 8)) & 1 for k in range(n)]


def packed(mines):
    """The same back, pad bits 0."""
    out = bytearray((len(mines) + 7) // 8)
    for k, mine in enumerate(mines):
        out[k // 8] |= bool(mine) << (7 - k % 8)
    return bytes(out)


def cells_of(mines, height, width):
    """-1 for a mine, else the number of mines among the eight neighbours."""
    return [-1 if mines[k] else sum(mines[i * width + j] for i in range(max(0, k // width - 1), min(height, k // width + 2))
                                    for j in range(max(0, k % width - 1), min(width, k % width + 2)))
            for k in range(height * width)]


def around(k, height, width):
    """The cells beside cell k, eight at most."""
    return [i * width + j for i in range(max(0, k // width - 1), min(height, k // width + 2))
            for j in range(max(0, k % width - 1), min(width, k % width + 2)) if i * width + j != k]


def recount(mines, height, width):
    """Openings and 3BV, by a flood of its own: each opening is numbered by its first zero, in a queue."""
    near = [around(k, height, width) for k in range(height * width)]
    zero = [not mines[k] and not any(mines[j] for j in near[k]) for k in range(height * width)]
    leader, openings = {}, 0
    for first in range(height * width):
        if not zero[first] or first in leader:
            continue
        openings += 1
        leader[first], queue = first, [first]
        for i in queue:
            for j in near[i]:
                if zero[j] and j not in leader:
                    leader[j] = first
                    queue.append(j)
    lone = sum(not mines[k] and not zero[k] and not any(zero[j] for j in near[k]) for k in range(height * width))
    return openings, openings + lone


def show_cells(cells):
    return "".join("*" if cell == -1 else str(cell) for cell in cells)


# reading

class File:
    def __init__(self, data):
        self.data, self.at = data, 0

    def take(self, n):
        if self.at + n > len(self.data):
            raise Refused(1)
        self.at += n
        return self.data[self.at - n:self.at]

    def number(self, n):
        return int.from_bytes(self.take(n), "big")

    def text(self, utf8=False):
        end = self.data.find(b"\0", self.at)
        if end < 0:
            raise Refused(1)
        text, self.at = self.data[self.at:end], end + 1
        return must_be_utf8(text) if utf8 else text


def must_be_utf8(text):
    if not is_utf8(text):
        raise Refused(3)
    return text


def must_be_decimal(text):
    number = decimal(text)
    if number is None:
        raise Refused(5)
    return number


def custom_metrics(f):
    """A count and that many texts: the place behind the count, start and length, and the count."""
    count, start = f.number(2), f.at
    for _ in range(count):
        f.text(True)
    return (start, f.at - start), count


def times(software, start, end, ms):
    if software.startswith(b"Arbiter"):
        raise Refused(4)
    if software.startswith(b"Viennasweeper"):
        first = must_be_decimal(start) * 1000000
        if first > U64 or first + ms * 1000 > U64:
            raise Refused(6)
        return first, first + ms * 1000
    if software.startswith(YUAN):
        return must_be_decimal(start), must_be_decimal(end)
    return 0, 0


def old_events(f, version):
    events = []
    while True:
        code = f.number(1)
        if code in (0, 255):
            return events, f.take(32) if code == 0 else b""
        ms, x, y = f.number(3), f.number(2), f.number(2)
        named = code <= 9 or (version == 3 and code <= 12)
        events.append((KINDS[code] if named else "ub", ms, x, y))


def new_events(f):
    code = f.number(1)
    if code not in (1, 2, 4, 8):
        raise Refused(8)
    ms, x, y = f.number(1), f.number(2), f.number(2)
    events, pending = [(KINDS[code], ms, x, y)], 0
    while True:
        code = f.number(1)
        if code == 0:
            return events, f.take(f.number(2))
        if code == 255:
            pending += f.number(2)
            if pending > U32:
                raise Refused(10)
        elif 100 <= code:
            pass
        elif code <= 12 or code in STATES:
            wait = f.number(1)
            if code <= 12:
                dx, dy = f.number(2), f.number(2)
            ms += pending + wait
            pending = 0
            if ms > U32:
                raise Refused(10)
            if code <= 12:
                x, y = (x + dx) % 65536, (y + dy) % 65536
                events.append((KINDS[code], ms, x, y))
            else:
                events.append((STATES[code], ms))
        else:
            raise Refused(9)


def read(data, room=65025, entries=65536):
    """A file into a board and a row of so many cells and entries: the game, its events with milliseconds, or Refused."""
    f = File(data)
    version = f.number(1)
    if version > 4:
        raise Refused(2)
    first = f.number(1)
    second = f.number(1) if version >= 3 else 0
    height, width, mines, pixels, mode, bbbv = (f.number(n) for n in (1, 1, 2, 1, 2, 2))
    ms = f.number(4 if version == 4 else 3)
    texts = [b""] * 9
    begun = ended = b""
    if version == 4:
        texts[COUNTRY] = must_be_utf8(f.take(2))
        start, end = f.number(8), f.number(8)
        translated = bool(first & 8)
        for slot in [SOFTWARE] + [TRANSLATED_SOFTWARE, ORIGINAL_ENCODING] * translated + [PLAYER, RACE, UNIQUE_ID]:
            texts[slot] = f.text(True)
        texts[DEVICE_ID] = f.take(f.number(2))
    else:
        texts[SOFTWARE] = f.text(True)
        for slot in (PLAYER, RACE, UNIQUE_ID):
            texts[slot] = f.text()
        begun, ended = f.text(True), f.text(True)
        start, end = times(texts[SOFTWARE], begun, ended, ms)
        translated = not texts[SOFTWARE].startswith(YUAN)
        texts[COUNTRY] = f.text()
        if version >= 2:
            texts[DEVICE_ID] = f.text()
    if height == 0:
        raise Refused(7)
    bits = f.take((height * width + 7) // 8)
    metrics, metrics_count = (0, 0), 0
    if version == 4:
        metrics, metrics_count = custom_metrics(f)
        events, texts[CHECKSUM] = new_events(f)
    else:
        events, texts[CHECKSUM] = old_events(f, version)
    if room < height * width:
        raise Refused(11)
    if entries < len(events):
        raise Refused(12)
    mine = mines_of(bits, height * width)
    flags = [bool(b) for b in (first & 128, first & 64, first & 32, first & 16, translated, second & 128, second & 64, second & 32)]
    return Value(version=version, flags=flags, height=height, width=width, mines=mines, pixels=pixels, mode=mode, bbbv=bbbv, time=ms, start=start, end=end,
                 level={(8, 8, 10): 3, (16, 16, 40): 4, (16, 30, 99): 5}.get((height, width, mines), 6), found=sum(mine), texts=texts,
                 metrics=metrics, metrics_count=metrics_count, block=data[metrics[0]:sum(metrics)],
                 cells=cells_of(mine, height, width), events=events, moments=(begun, ended), used=f.at)


def recounted(data):
    """The 3BV that a file's header claims, the 3BV and the openings of its board."""
    game = read(data, entries=len(data))
    openings, bbbv = recount([cell == -1 for cell in game.cells], game.height, game.width)
    return game.bbbv, bbbv, openings


# writing: a game has the fields of one that was read, but `lent` bytes in which its nine `places` (start,
# length) and that of its `metrics` lie, a `board` of any length for its cells, and a `row` of entries (code,
# seconds, x, y), where a code of STATES is a state and any other a mouse kind, ub for those without a name

def is_mouse(entry):
    return entry[0] not in STATES


def kind(entry):
    return KINDS[entry[0]] if 1 <= entry[0] <= 12 else "ub"


def text_of(game, slot):
    start, length = game.places[slot]
    return game.lent[start:start + length]


def block_of(game):
    """The bytes of the custom metrics, each text with the 00 that ends it."""
    start, length = game.metrics
    return game.lent[start:start + length]


def are_texts(count, block):
    """Whether a block is so many texts of UTF-8, each ended by 00, and nothing more."""
    *texts, behind = block.split(b"\0")
    return behind == b"" and len(texts) == count and all(map(is_utf8, texts))


def ended_texts(game, version):
    """The slots of the texts that go out with a 00 behind them and must be UTF-8."""
    if version == 3:
        return [SOFTWARE, PLAYER, RACE, UNIQUE_ID, COUNTRY]
    return [SOFTWARE] + [TRANSLATED_SOFTWARE, ORIGINAL_ENCODING] * game.flags[4] + [PLAYER, RACE, UNIQUE_ID]


def cannot_begin(game, rule):
    if not game.row:
        return True
    first = game.row[0]
    return not (is_mouse(first) and kind(first) in ("mv", "lc", "rc", "pf") and s_to_ms(first[1], rule) < 256)


def event_unwritable(game, version, rule):
    mouse = [entry for entry in game.row if is_mouse(entry)]
    ms = [s_to_ms(entry[1], rule) for entry in mouse]
    if version == 3:
        return any(n > U24 for n in ms)
    return any(kind(entry) == "ub" for entry in mouse) or any(later < earlier for earlier, later in zip(ms, ms[1:]))


# 14 to 22 of document 01, 25 of note 3 and 26 of note 5 of document 02, each from its sentence, in checking
# order: of a game, a version and a rule
CONDITIONS = [
    (26, lambda g, v, rule: rule not in (AWAY, TO_EVEN)),
    (14, lambda g, v, rule: any(start + length > len(g.lent) for start, length in [*g.places, g.metrics])),
    (15, lambda g, v, rule: g.height == 0 or g.height > 255 or g.width > 255),
    (16, lambda g, v, rule: v == 4 and (g.height * g.pixels > 32767 or g.width * g.pixels > 32767)),
    (17, lambda g, v, rule: len(g.board) < g.height * g.width),
    (18, lambda g, v, rule: g.mines > U16 or g.bbbv > U16 or (v == 3 and g.time > U24)),
    (19, lambda g, v, rule: any(not is_utf8(text_of(g, slot)) or 0 in text_of(g, slot) for slot in ended_texts(g, v)) or (v == 3 and 0 in text_of(g, DEVICE_ID))),
    (20, lambda g, v, rule: (v == 4 and (g.places[DEVICE_ID][1] > U16 or g.places[CHECKSUM][1] > U16)) or (v == 3 and g.places[CHECKSUM][1] not in (0, 32))),
    (25, lambda g, v, rule: v == 4 and not are_texts(g.metrics_count, block_of(g))),
    (21, lambda g, v, rule: v == 4 and cannot_begin(g, rule)),
    (22, lambda g, v, rule: event_unwritable(g, v, rule)),
]


def number(n, size):
    return n.to_bytes(size, "big")


def pauses(wait):
    """The pauses before a wait that fits a byte, and that wait."""
    out = []
    while wait > 255:
        pause = min(65535, wait)
        out.append(b"\xff" + number(pause, 2))
        wait -= pause
    return b"".join(out), wait


def events_written(game, version, rule):
    out, last = [], None
    for entry in filter(is_mouse, game.row):
        code, ms, x, y = KINDS.index(kind(entry)), s_to_ms(entry[1], rule), entry[2], entry[3]
        if version == 3:
            out.append(number(code or UB_CODE, 1) + number(ms, 3) + number(x, 2) + number(y, 2))
        elif last is None:
            out.append(number(code, 1) + number(ms, 1) + number(x, 2) + number(y, 2))
        else:
            before, wait = pauses(ms - last[0])
            out.append(before + number(code, 1) + number(wait, 1) + number((x - last[1]) % 65536, 2) + number((y - last[2]) % 65536, 2))
        last = ms, x, y
    return b"".join(out)


def written(game, version, rule):
    """The file of a game that none of the conditions refuses."""
    completed, official, fair, nf, translated, question, cursor, replay = game.flags
    out = number(version, 1) + number(128 * completed + 64 * official + 32 * fair + 16 * nf + (8 * translated if version == 4 else 0), 1)
    out += number(128 * question + 64 * cursor + 32 * replay, 1) + number(game.height, 1) + number(game.width, 1) + number(game.mines, 2)
    out += number(game.pixels, 1) + number(game.mode, 2) + number(game.bbbv, 2) + number(game.time, 4 if version == 4 else 3)
    text = lambda slot: text_of(game, slot)
    bits = packed([cell == -1 for cell in game.board[:game.height * game.width]])
    if version == 4:
        out += two_letters(text(COUNTRY)) + number(game.start, 8) + number(game.end, 8)
        out += b"".join(text(slot) + b"\0" for slot in ended_texts(game, 4)) + number(len(text(DEVICE_ID)), 2) + text(DEVICE_ID)
        out += bits + number(game.metrics_count, 2) + block_of(game) + events_written(game, 4, rule)
        return out + b"\0" + number(len(text(CHECKSUM)), 2) + text(CHECKSUM)
    fields = [text(slot) for slot in (SOFTWARE, PLAYER, RACE, UNIQUE_ID)] + [b"%d" % game.start, b"%d" % game.end, text(COUNTRY), text(DEVICE_ID)]
    out += b"".join(field + b"\0" for field in fields) + bits + events_written(game, 3, rule)
    return out + (b"\0" + text(CHECKSUM) if text(CHECKSUM) else b"\xff")


def write(game, version, rule=AWAY):
    """The file's bytes, or Refused with the first number that holds, in checking order."""
    for why, holds in CONDITIONS:
        if holds(game, version, rule):
            raise Refused(why)
    return written(game, version, rule)


def entry_of(event):
    """An event that was read as an entry of a row."""
    name, ms, *at = event
    if not at:
        return next(code for code in STATES if STATES[code] == name), seconds_of(ms), 0, 0
    return KINDS.index(name), seconds_of(ms), *at


def lendable(game):
    """A game that was read, for the writers: its texts and its custom metrics one behind the other."""
    lent, places = b"", []
    for text in game.texts + [game.block]:
        places.append((len(lent), len(text)))
        lent += text
    *places, metrics = places
    row = [entry_of(event) for event in game.events]
    return Value(**dict(vars(game), lent=lent, places=places, metrics=metrics, board=game.cells, row=row))


def resave(data, rule=AWAY):
    """A file of any version written again as version 4: its bytes, or Refused. The game is read into a board
    and a row that are long enough."""
    return write(lendable(read(data, entries=len(data))), 4, rule)


def upgrade(data, rule=AWAY):
    """The same of a file that is not of version 4 yet."""
    if read(data, entries=len(data)).version == 4:
        raise Refused(13)
    return resave(data, rule)


# cases

def parts(first, unit=b"", times=0, last=b""):
    """Bytes for a program's input, and the frame that gives them: big-endian u32 length of a first part, u8 length of a unit, u32 how often it stands, u32 length of a
    last part; then the three."""
    return first + unit * times + last, struct.pack(">IBII", len(first), len(unit), times, len(last)) + first + unit + last


# the tags of the program `cases`: what it does with a case, and the end of a list of cases; behind RULED a
# rule and another case stand
READING, WRITING, UPGRADING, MILLISECONDS, LEAF, LIST_END, RECOUNT, RESAVE, STRINGS, RULED = range(1, 11)
PLAY, SMALL, BADGE = range(11, 14)
CASES = (READING, WRITING, UPGRADING, MILLISECONDS, LEAF, RECOUNT, RESAVE, STRINGS, RULED, PLAY, SMALL, BADGE)
MOST = 262144  # the bytes of a block of the program's input, and of the longest file and file buffer that it makes
HEADER_BYTES = 228  # of a framed game, up to its lent bytes
ENTRY_BYTES = 13  # of an entry of a framed row


def blocks_of(cases):
    """Cases one behind the other, each with its tag, in blocks of MOST bytes, 00 behind the last case of each but the last block."""
    blocks = [b""]
    for case in cases:
        if len(blocks[-1]) + len(case) > MOST:
            blocks[-1] += bytes(MOST - len(blocks[-1]))
            blocks.append(b"")
        blocks[-1] += case
        expect(len(blocks[-1]) <= MOST, True)
    return b"".join(blocks)


def in_blocks(tag, frames):
    """Frames, each behind the tag, in blocks."""
    return blocks_of([bytes([tag]) + frame for frame in frames])


def expect(got, wanted):
    if got != wanted:
        sys.exit("not as expected: %r for %r" % (got, wanted))


def runs(data):
    """Bytes as the programs print them: each behind a space, n equal ones in a row as xx*n."""
    out = ""
    for byte, run in itertools.groupby(data):
        n = len(list(run))
        out += " %02x" % byte + ("*%d" % n if n > 1 else "")
    return out


def sample(name):
    """The bytes of a replay of samples/."""
    with open(os.path.join(os.path.dirname(os.path.abspath(__file__)), "..", "samples", name), "rb") as f:
        return f.read()


def list_folder(name):
    """Where a list of cases lies before join_cases.py puts it together with the others."""
    return os.path.join(os.path.dirname(os.path.abspath(__file__)), "..", "target", "lists", name)


def store(name, stdin, lines):
    """Writes a list of cases: what the program reads, and the lines that it must print."""
    folder = list_folder(name)
    os.makedirs(folder, exist_ok=True)
    with open(os.path.join(folder, "stdin"), "wb") as f:
        f.write(stdin)
    with open(os.path.join(folder, "stdout"), "w") as f:
        f.write("".join(line + "\n" for line in lines))
