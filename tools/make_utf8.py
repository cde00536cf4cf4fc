#!/usr/bin/env python3
"""Writes the list target/lists/utf8, which join_cases.py puts into the program `cases`: the bounds of each
line of the grammar of RFC 3629, section 4, and how many strings of one, two and three bytes are UTF-8. The
answers are those of Python's own codec; the counts also come from counting code points, and both must agree.

Input: one block. A text is a case of sort 1 of make_vectors.py. A count is u8 9 and one byte for the length:
  length             -> strings LENGTH COUNT
"""
import itertools
import struct

import evf

TAIL = (0x80, 0xBF)
# the lines of UTF8-1 to UTF8-4, in the RFC's order
LINES = [
    [(0x00, 0x7F)],
    [(0xC2, 0xDF), TAIL],
    [(0xE0, 0xE0), (0xA0, 0xBF), TAIL],
    [(0xE1, 0xEC), TAIL, TAIL],
    [(0xED, 0xED), (0x80, 0x9F), TAIL],
    [(0xEE, 0xEF), TAIL, TAIL],
    [(0xF0, 0xF0), (0x90, 0xBF), TAIL, TAIL],
    [(0xF1, 0xF3), TAIL, TAIL, TAIL],
    [(0xF4, 0xF4), (0x80, 0x8F), TAIL, TAIL],
]


def at_bounds(line):
    """A line's characters with one byte at a bound of its range or next to it, the others all at their lowest
    or all at their highest."""
    for side, place in itertools.product((0, 1), range(len(line))):
        for bound, step in itertools.product(line[place], (-1, 0, 1)):
            text = [r[side] for r in line]
            text[place] = bound + step
            if 0 <= text[place] <= 0xFF:
                yield bytes(text)


def by_codec(length):
    """How many strings of a length Python decodes."""
    return sum(evf.is_utf8(bytes(text)) for text in itertools.product(range(256), repeat=length))


def by_code_points(length):
    """The same, from how many code points take one, two, three and four bytes, surrogates left out."""
    points = [0x80, 0x800 - 0x80, 0x10000 - 0x800 - 0x800, 0x110000 - 0x10000]
    ways = [1]
    for n in range(1, length + 1):
        ways.append(sum(points[k] * ways[n - 1 - k] for k in range(min(n, 4))))
    return ways[length]


texts = list(dict.fromkeys(text for line in LINES for text in at_bounds(line)))
lines = ["utf8 " + ("yes" if evf.is_utf8(text) else "no") for text in texts]
frames = [bytes([evf.LEAF, 1]) + struct.pack(">H", len(text)) + text for text in texts]
for length in (1, 2, 3):
    evf.expect(by_codec(length), by_code_points(length))
    frames.append(bytes([evf.STRINGS, length]))
    lines.append("strings %d %d" % (length, by_code_points(length)))
stdin = b"".join(frames)
evf.store("utf8", stdin, lines + ["cases %d" % len(frames)])
print(len(frames), "cases,", len(texts), "texts,", lines.count("utf8 yes"), "of them UTF-8")
