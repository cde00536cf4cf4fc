#!/usr/bin/env python3
"""Writes the list target/lists/vectors, which join_cases.py puts into the program `cases`: cases for the leaf crates, with the answers that Python's own
codecs, integers and fractions give. Nothing here knows how the proved code works.

Input: blocks as `in_blocks` of evf.py makes them. For each case u8 5, one byte for its sort, a big-endian u16 for its length, and that many bytes:
  1 bytes            -> utf8 yes | utf8 no
  2 bytes            -> decimal NUMBER | decimal none
  3 u64              -> written DIGITS LENGTH
  4 binary64 bits    -> ms NUMBER
  5 u32              -> seconds BITS, in 16 hexadecimal digits
  6 height width bits.. -> board MINES CELLS BYTES (a mine is *; the bytes that the board packs to, in hexadecimal)
  7 bytes            -> country XX
"""
import struct

import evf

cases = []


def case(sort, payload, line):
    cases.append((sort, bytes(payload), line))


def utf8(payload):
    case(1, payload, "utf8 " + ("yes" if evf.is_utf8(payload) else "no"))


def decimal(payload):
    number = evf.decimal(payload)
    case(2, payload, "decimal " + ("none" if number is None else str(number)))


def written(n):
    case(3, struct.pack(">Q", n), "written %d %d" % (n, len(str(n))))


def ms(x):
    case(4, struct.pack(">d", x), "ms %d" % evf.s_to_ms(x))


def seconds(n):
    case(5, struct.pack(">I", n), "seconds %016x" % evf.bits_of(evf.seconds_of(n)))


def board(height, width, bits):
    mines = evf.mines_of(bits, height * width)
    case(6, bytes([height, width]) + bytes(bits),
         "board %d %s %s" % (sum(mines), evf.show_cells(evf.cells_of(mines, height, width)), evf.packed(mines).hex()))


def country(payload):
    case(7, payload, "country " + evf.two_letters(payload).decode())


# RFC 3629: section 7's examples, the first and last character of each length, and what section 3 and 10 forbid
for text in [b"", b"A\xe2\x89\xa2\xce\x91.", b"\xed\x95\x9c\xea\xb5\xad\xec\x96\xb4", b"\xe6\x97\xa5\xe6\x9c\xac\xe8\xaa\x9e",
             b"\xef\xbb\xbf\xf0\xa3\x8e\xb4", b"\xe5\x85\x83", b"\xc3\xa9"]:
    utf8(text)
for point in [0x00, 0x7F, 0x80, 0x7FF, 0x800, 0xFFF, 0x1000, 0xCFFF, 0xD000, 0xD7FF, 0xE000, 0xFFFD, 0xFFFF, 0x10000, 0x3FFFF, 0x40000,
              0xFFFFF, 0x100000, 0x10FFFF]:
    whole = chr(point).encode("utf-8")
    utf8(whole)
    utf8(b"a" + whole + b"z")
    for cut in range(1, len(whole)):
        utf8(whole[:cut])
        utf8(whole[:cut] + b"a")
for bad in [b"\xc0\x80", b"\xc1\xbf", b"\xe0\x80\x80", b"\xe0\x9f\xbf", b"\xf0\x80\x80\x80", b"\xf0\x8f\xbf\xbf", b"\xed\xa0\x80", b"\xed\xaf\xbf",
            b"\xed\xb0\x80", b"\xed\xbf\xbf", b"\xed\xa1\x8c\xed\xbe\xb4", b"\xf4\x90\x80\x80", b"\xf5\x80\x80\x80", b"\xf7\xbf\xbf\xbf",
            b"\xf8\x88\x80\x80\x80", b"\xfc\x84\x80\x80\x80\x80", b"\xfe", b"\xff", b"\x80", b"\xbf", b"\xc2\xc2", b"\xe1\x80\xc0", b"\xf1\x80\x80\x7f",
            b"\xf1\x80\x7f\x80", b"\xf1\x7f\x80\x80"]:
    utf8(bad)
    utf8(b"ok" + bad)
for first in range(256):
    utf8([first])
    utf8([first, 0x80])
    utf8([first, 0xA0, 0xBF])
    utf8([first, 0x90, 0x80, 0xBF])

for text in [b"", b"+", b"-", b"0", b"+0", b"+7", b"7", b"007", b"++7", b"7+", b" 7", b"7 ", b"1a", b"/", b":", b"1/", b"1:", b"\xd9\xa1",
             b"18446744073709551615", b"+18446744073709551615", b"0000018446744073709551615", b"18446744073709551616", b"18446744073709551620",
             b"99999999999999999999", b"100000000000000000000", b"18446744073709551615x", b"0" * 40, b"0" * 40 + b"9", b"1844674407370955161",
             b"1\x00", b"\x001"]:
    decimal(text)
for power in range(20):
    for n in (10 ** power - 1, 10 ** power, 10 ** power + 1):
        if n < 2 ** 64:
            written(n)
            decimal(str(n).encode())
for n in (2 ** 32 - 1, 2 ** 32, 2 ** 63, 2 ** 64 - 2, 2 ** 64 - 1):
    written(n)

top = float(2 ** 32 - 1)
for x in [0.0, -0.0, 0.0625, 0.1875, 0.0005, 0.00049999999999999990, 0.0015, 0.0025, 1.0005, 0.255, 0.2555, 0.256, -1.5, -0.0001, -0.0004, 1e300, -1e300, 5e-324,
          2.2250738585072014e-308, float("nan"), float("inf"), float("-inf"), top / 1000, 4294967.2944, 4294967.2945, 4294967.2949, 4294967.2955,
          4294967.296, 4294967.3, 1.7976931348623157e308, 16777.215, 16777.2154, 16777.2155, 65.535, 65.791]:
    ms(x)
for half in (0.5, 1.5, 2.5, 62.5, 187.5, 4294967294.5, 4294967295.5):
    near = half / 1000
    for bits in range(-3, 4):
        ms(evf.float_of(evf.bits_of(near) + bits))
for n in (0, 1, 2, 3, 62, 63, 255, 256, 259, 999, 1000, 1001, 65535, 65536, 16777215, 16777216, 2 ** 31, 2 ** 32 - 2, 2 ** 32 - 1):
    seconds(n)
    ms(n / 1000.0)

board(1, 2, [0x80])
board(1, 2, [0xBF])
board(1, 1, [0x80])
board(1, 1, [0x7F])
board(1, 0, [])
board(255, 0, [])
board(3, 3, [0xAA, 0xFF])
board(3, 3, [0x55, 0x00])
board(3, 3, [0x08, 0x7F])
board(2, 9, [0xFF, 0xFF, 0xFF])
board(9, 2, [0x81, 0x42, 0x40])
board(5, 7, [0x12, 0x48, 0x00, 0x99, 0xE0])
board(8, 8, [0, 0x18, 0x24, 0x42, 0x42, 0x24, 0x18, 0])
board(1, 255, [0xA5] * 32)
board(255, 1, [0x5A] * 32)
board(16, 30, [(7 * k * k + 3 * k) % 256 for k in range(60)])
board(17, 13, [(11 * k * k + 5 * k + 1) % 256 for k in range(28)])

for text in [b"", b"c", b"cn", b"CN", b"cN", b"Cn", b"az", b"AZ", b"zA", b"usa", b"\xc3\xa9", b"c1", b"1c", b"@A", b"A@", b"[a", b"a[", b"`a", b"a`", b"{a", b"a{",
             b"c ", b" c", b"\x00\x00", b"c\x00", b"\xe5\x85\x83", b"\xff\xff", b"\xc1a", b"a\xc1", b"\xe1\xe1"]:
    country(text)

stdin = evf.in_blocks(evf.LEAF, [bytes([sort]) + struct.pack(">H", len(payload)) + payload for sort, payload, line in cases])
evf.store("vectors", stdin, [line for sort, payload, line in cases] + ["cases %d" % len(cases)])
print(len(cases), "cases,", len(stdin), "bytes")
