#!/usr/bin/env python3
"""Writes the list target/lists/cases, which join_cases.py puts into the program `cases`: replay files of all versions, whole, damaged and cut off, with what reading each
must give by the reader of evf.py.

Input: blocks as `in_blocks` of evf.py makes them. For each case, big-endian: u8 1; u16 cells and u16 entries to lend, then the file, framed as `parts` of evf.py says.
Output: for each case `case NUMBER`, counted from 0; then `refused N`, or
  game VERSION FLAGS HEIGHT WIDTH MINES PIXELS MODE BBBV TIME START END LEVEL FOUND EVENTS
  texts HEX.. (nine, `-` for an empty one)
  metrics START LENGTH COUNT BYTES (place, count and block of the custom metrics; xx*N stands for N times xx)
  cells * or digit for each
  a line for each event: kind, the 16 hexadecimal digits of its seconds, x, y; or state and seconds.
make_upgrades.py takes the files over."""
import random
import struct

import evf
from evf import U32, U64, YUAN


def lines_of(game):
    lines = ["game %d %s %s" % (game.version, "".join("01"[b] for b in game.flags), " ".join(map(str, (
        game.height, game.width, game.mines, game.pixels, game.mode, game.bbbv, game.time, game.start, game.end, game.level, game.found, len(game.events)))))]
    lines.append("texts " + " ".join(t.hex() or "-" for t in game.texts))
    lines.append("metrics %d %d %d" % (*game.metrics, game.metrics_count) + evf.runs(game.block))
    lines.append("cells " + evf.show_cells(game.cells))
    for event in game.events:
        lines.append(" ".join([event[0], "%016x" % evf.bits_of(evf.seconds_of(event[1]))] + [str(n) for n in event[2:]]))
    return lines


def old(version, first=0x90, second=0, height=1, width=2, mines=1, pixels=16, mode=0, bbbv=1, ms=1000, software=YUAN, player=b"P", race=b"", uid=b"",
        start=b"1", end=b"2", country=b"cn", device=b"", bits=b"\x80", events=b"", stop=b"\xff"):
    out = bytes([version, first]) + (bytes([second]) if version == 3 else b"") + bytes([height, width]) + struct.pack(">HBHH", mines, pixels, mode, bbbv) + ms.to_bytes(3, "big")
    for text in (software, player, race, uid, start, end, country):
        out += text + b"\0"
    return out + (device + b"\0" if version >= 2 else b"") + bits + events + stop


def rec(code, ms, x, y):
    return bytes([code]) + ms.to_bytes(3, "big") + struct.pack(">HH", x, y)


def new(first=0x90, second=0, height=1, width=2, mines=1, pixels=16, mode=0, bbbv=1, ms=1000, country=b"CN", start=1, end=2, software=YUAN, extra=b"", player=b"P",
        race=b"", uid=b"", device=b"", bits=b"\x80", metrics=b"\0\0", events=b"\x02\x05\x00\x08\x00\x08", stop=b"\0\0\0"):
    out = bytes([4, first, second, height, width]) + struct.pack(">HBHHI", mines, pixels, mode, bbbv, ms) + country + struct.pack(">QQ", start, end)
    out += software + b"\0" + extra + player + b"\0" + race + b"\0" + uid + b"\0" + struct.pack(">H", len(device)) + device
    return out + bits + metrics + events + stop


def move(code, wait, dx=0, dy=0):
    return bytes([code, wait]) + struct.pack(">HH", dx % 65536, dy % 65536)


def pause(ms):
    return b"\xff" + struct.pack(">H", ms)


cases, files = [], {}


def case(data, room=65025, entries=2000, unit=b"", times=0, rest=b""):
    file, frame = evf.parts(data, unit, times, rest)
    try:
        lines = lines_of(evf.read(file, room, entries))
    except evf.Refused as why:
        lines = ["refused %d" % why.args[0]]
    cases.append((struct.pack(">HH", room, entries) + frame, lines))
    files[frame] = file


FIRST = b"\x02\x05\x00\x08\x00\x08"
m3 = old(3, events=rec(2, 5, 8, 8) + rec(3, 300, 7, 8))
whole4 = new(first=0xF8, second=0xE0, extra=b"T\0GB\0", device=b"\0\1\2", metrics=b"\0\2a\0\xe5\x85\x83\0",
             events=FIRST + pause(256) + b"\x64\xfe" + pause(65535) + move(3, 0, -1, 0) + b"\x52\x07" + move(12, 255, 1, 65535) + b"\x63\x00" + move(1, 1), stop=b"\0\0\3abc")
for data in (m3, whole4):
    case(data)
    for cut in range(len(data)):
        case(data[:cut])
    case(data + b"left over")
case(b"")
case(b"\x05")
case(b"\xff" + m3[1:])
for version in range(4):
    # every code; 10 to 12 are l, r and m in version 3 alone
    case(old(version, events=b"".join(rec(code, 1000 * code, code, 65535 - code) for code in range(1, 255))))
    kinds = [line.split()[0] for line in cases[-1][1][4:]]
    evf.expect(kinds[9:12], ["l", "r", "m"] if version == 3 else ["ub"] * 3)
    case(old(version, stop=b"\0" + bytes(range(32))))
    case(old(version, stop=b"\0" + bytes(31)))
    case(old(version, first=0xFF, second=0xFF, device=b"\xff\xfe", player=b"\xff", race=b"\xc3", uid=b"\x80", country=b"\xe9"))
    case(old(version, first=0x0F, second=0x1F))
    case(old(version, height=0, bits=b""))
    case(old(version, height=0, bits=b"", device=b"", stop=b""))
    case(old(version, width=0, bits=b""))
    for software, start, end, ms in (
            (b"Arbiter", b"x", b"x", 1), (b"Arbiter 0.1", b"1", b"2", 1), (b"Arbite", b"x", b"y", 1), (b"arbiter", b"x", b"y", 1), (b"Viennasweeper", b"12", b"", 5),
            (b"Viennasweeper 3", b"+7", b"x", 16777215), (b"Viennasweeper", b"", b"", 1), (b"Viennasweeper", b"-1", b"", 1), (b"Viennasweeper", b"18446744073709", b"", 551),
            (b"Viennasweeper", b"18446744073709", b"", 552), (b"Viennasweeper", b"18446744073710", b"", 0), (b"Viennasweeper", b"18446744073709551616", b"", 0),
            (b"Viennasweepe", b"x", b"", 1), (YUAN, b"18446744073709551615", b"0", 1), (YUAN + b"3.1", b"1", b"", 1), (YUAN, b"+", b"1", 1),
            (YUAN, b"1", b"18446744073709551616", 1), (YUAN, b"+0007", b"+7", 1), (b"\xe5\x85", b"1", b"2", 1), (b"\xe5\x85\x84", b"x", b"y", 1), (b"", b"", b"", 0),
            (b"\xff", b"1", b"2", 1), (b"ok", b"\xff", b"2", 1), (b"ok", b"1", b"\xff", 1)):
        case(old(version, software=software, start=start, end=end, ms=ms))
    arbiter = old(version, software=b"Arbiter", country=b"")
    case(arbiter[:arbiter.index(b"Arbiter") + 8 + 5 + 1 + 2])
case(old(3, height=8, width=8, mines=10, bits=bytes(8)))
case(old(3, height=16, width=16, mines=40, bits=bytes(range(32))))
case(old(3, height=16, width=30, mines=99, bits=bytes(60)))
case(old(3, height=30, width=16, mines=99, bits=bytes(60)))
case(old(3, height=3, width=3, mines=65535, pixels=255, mode=65535, bbbv=65535, ms=16777215, bits=b"\xaa\xff"))
case(old(2, height=7, width=5, bits=b"\x12\x48\x00\x99\xff"))
for room, entries in ((1, 2), (2, 1), (0, 0), (1, 0), (2, 2), (3, 3)):
    case(m3, room, entries)
    case(m3[:-1], room, entries)
case(whole4, 1, 0)
case(new(first=8, extra=b"a\0b\0"))
case(new(first=8, extra=b"\xff\0b\0"))
case(new(first=8, extra=b"a\0\xff\0"))
for bad in (b"\xff", b"\xc3", b"\xed\xa0\x80", b"\xe5\x85"):
    case(new(software=bad))
    case(new(player=bad))
    case(new(race=bad))
    case(new(uid=bad))
    case(new(metrics=b"\0\1" + bad + b"\0"))
    case(new(device=bad))
for country in (b"\xff\xff", b"\xc3\xa9", b"c\xc3", b"\0\0", b"cn"):
    case(new(country=country))
case(new(height=0, bits=b""))
case(new(width=0, bits=b""))
case(new(start=U64, end=U64, ms=U32))
case(new(metrics=b"\0\3a\0b\0"))
case(new(device=bytes(300), stop=b"\0\1\2" + bytes(258)))
case(new(device=bytes(300), stop=b"\0\1\2" + bytes(257)))
for code in range(256):
    case(new(events=bytes([code]) + FIRST[1:]))
    case(new(events=bytes([code])))
    case(new(events=FIRST + bytes([code]) + b"\1\2\3\4\5"))
    case(new(events=FIRST + bytes([code]), stop=b""))
    case(new(events=FIRST + bytes([code, 7]), stop=b""))
case(new(events=b"\x01\xff\xff\xff\xff\xff" + move(1, 255, 1, 1) + move(1, 0, 65535, 65535) + move(1, 0, 32768, 32768)))
case(new(events=FIRST + pause(10) + b"\x64" + pause(20) + b"\xc8\xfe" + b"\x51\x03" + pause(1) + move(2, 4)))
case(new(events=FIRST + pause(10)))
case(new(events=FIRST + b"\x52\x01" + move(2, 1, 5, 5) + b"\x53\x01" + move(2, 1, 5, 5)))
# 65537 pauses of 65535 are the largest u32
head, first0 = new(events=b"", stop=b""), b"\x01\x00\x00\x00\x00\x00"
case(head + first0, unit=pause(65535), times=65537, rest=move(1, 0) + b"\0\0\0")
case(head + first0, unit=pause(65535), times=65537, rest=b"\0\0\0")
case(head + first0, unit=pause(65535), times=65537, rest=move(1, 1) + b"\0\0\0")
case(head + first0, unit=pause(65535), times=65537, rest=move(1, 1)[:5])
case(head + first0, unit=pause(65535), times=65537, rest=b"\x52\x01\0\0\0")
case(head + first0, unit=pause(65535), times=65537, rest=pause(1) + b"\0\0\0")
case(head + first0, unit=pause(65535), times=65537, rest=pause(1)[:2])
case(head + first0, unit=pause(65535), times=65537, rest=pause(0) + b"\0\0\0")
case(head + FIRST, unit=pause(65535), times=65537, rest=b"\0\0\0")
case(head + FIRST, unit=pause(65535), times=65537, rest=move(1, 0) + b"\0\0\0")
case(head + FIRST, unit=move(1, 255), times=1999, rest=b"\0\0\0")
case(head + FIRST, unit=move(1, 255), times=2000, rest=b"\0\0\0")
case(head + FIRST, unit=move(1, 255), times=2000, rest=b"\x54")
case(head + FIRST, unit=b"\x64", times=60000, rest=move(1, 1) + b"\0\0\0")

# the smallest files of docs/DIFFERENCES.md
S = bytes.fromhex("0000010000000000000000000000")
N = bytes.fromhex("040000010000000000000000000000004141") + bytes(24)
for data in (S + b"Arbiter\0" + bytes(5), S + b"Viennasweeper\0" + bytes(3) + b"18446744073710\0\0", S[:2] + b"\0" + S[3:] + bytes(7), N + b"\x03", N + first0 + b"\x0d", N + first0 + b"\0\0\0"):
    case(data)
case(N + first0, unit=pause(65535), times=65537, rest=pause(1))
case(N + b"\1\1\0\0\0\0", unit=pause(65535), times=65537, rest=move(1, 0))

rng = random.Random(20261115)
for _ in range(250):
    base = bytearray(rng.choice((m3, whole4, old(rng.randrange(4), events=rec(rng.randrange(256), rng.randrange(2 ** 24), 1, 2)))))
    for _ in range(rng.randrange(1, 4)):
        base[rng.randrange(len(base))] = rng.choice((0, 1, 2, 4, 8, 9, 12, 13, 80, 81, 84, 98, 99, 100, 127, 128, 254, 255, rng.randrange(256)))
    case(bytes(base))
for _ in range(120):
    body = FIRST
    for _ in range(rng.randrange(1, 30)):
        body += rng.choice((lambda: move(rng.randrange(1, 13), rng.randrange(256), rng.randrange(65536), rng.randrange(65536)), lambda: pause(rng.randrange(65536)),
                            lambda: bytes([rng.choice((81, 82, 83, 99)), rng.randrange(256)]), lambda: bytes([rng.randrange(100, 255)])))()
    case(new(height=rng.randrange(1, 12), width=12, bits=rng.randbytes(18), events=body))

# document 02, note 3: custom metrics, with the count right, too low, too high; texts that are empty, that are
# not ended, that are not UTF-8
WIDE = "元é\U0001f4a3".encode()
NO_TEXTS = (b"\xff", b"a\x80", b"\xc3", b"\xe5\x85", b"\xed\xa0\x80", b"\xc0\x80", b"\xf4\x90\x80\x80",
            b"\xc3\0\xa9")


def counted(count, texts):
    """Texts behind a count, as they stand in a file."""
    return struct.pack(">H", count) + b"".join(text + b"\0" for text in texts)


for texts in ([], [b"a"], [b""], [WIDE], [b"a", b""], [b"", b"a"], [b"", b""], [WIDE, b"", b"3BV/s 2.5"],
              [b"x" * 300] * 2):
    n = len(texts)
    for count in (n, n + 1, max(n - 1, 0), 256 + n):
        case(new(metrics=counted(count, texts)))
    for behind in (b"left over", b"\0"):
        case(new(first=0xF8, extra=b"T\0GB\0", metrics=counted(n, texts), stop=b"\0\0\0" + behind))
metered = new(metrics=counted(3, [WIDE, b"", b"b"]))
for cut in range(metered.index(WIDE) - 2, metered.index(FIRST)):
    case(metered[:cut])
for text in NO_TEXTS:
    case(new(metrics=b"\0\2a\0" + text + b"\0"))
    case(new(metrics=b"\0\1" + text, events=b"", stop=b""))  # no 00 behind it: 1 before 3
many = new(metrics=b"", events=b"", stop=b"")
for count in (255, 256, 65535):
    for times in (count, count - 1, count + 1):
        case(many + struct.pack(">H", count), unit=b"\0", times=times, rest=FIRST + b"\0\0\0")
case(many + b"\0\1", unit=b"x", times=70000, rest=b"\0" + FIRST + b"\0\0\0")
case(many + b"\xff\xff", unit=b"\0", times=65535)
METRICS_SAMPLE = evf.sample("metrics-v4.evf")
case(METRICS_SAMPLE)

if __name__ == "__main__":
    stdin = evf.in_blocks(evf.READING, [frame for frame, lines in cases])
    evf.store("cases", stdin, [line for k, (frame, lines) in enumerate(cases) for line in ["case %d" % k] + lines] + ["cases %d" % len(cases)])
    seen = sorted({int(lines[0].split()[1]) for frame, lines in cases if lines[0].startswith("refused")})
    print(len(cases), "cases,", len(stdin), "bytes, refusals", seen)
