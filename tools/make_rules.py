#!/usr/bin/env python3
"""Writes the list target/lists/rules, which join_cases.py puts into the program `cases`: seconds turned into
milliseconds, games written, files upgraded and re-saved, by each of the two rules and by numbers that are no
rule (document 02, note 5). The answers are those of evf.py, where a half is told from exact fractions.

Input: blocks as `in_blocks` of evf.py makes them. For each case u8 10, u8 rule, and a case of another sort:
  u8 5, u8 4, u16 8, the bits of a binary64   -> ms NUMBER | ms refused 26
  u8 2 and a game                             what it is and what it prints: games.py
  u8 3 or u8 8, and a file                    the same: make_upgrades.py, make_resaves.py
Cases are counted from 0. With numbers of cases as arguments it writes nothing, and shows these cases."""
import collections
import itertools
import random
import struct
import sys

import evf
from evf import AWAY, LEAF, MOST, RESAVE, TO_EVEN, U16, U24, U32, U64, UPGRADING, WRITING, YUAN, expect
from games import game, holding, unframed, writing
from make_cases import FIRST, METRICS_SAMPLE, counted, lines_of, move, new, old, pause, rec

RULES = (AWAY, TO_EVEN)
NO_RULES = (0, 3, 255)
NAN, INF = float("nan"), float("inf")
NO_SUCH_RULE, SHORT = 26, 23

inputs, lines, counts = [], [], collections.Counter()
rng = random.Random(20261119)


def add(sort, rule, tag, case, told, *numbers):
    """A case by a rule, with the lines that it must print and the numbers that it comes to."""
    if str(len(inputs)) in sys.argv[1:]:
        print("%s by rule %d" % (sort, rule), *told, sep="\n")
    inputs.append(bytes([rule, tag]) + case)
    lines.extend(told)
    counts.update((sort, number) for number in numbers)


def ms(rule, seconds):
    """Seconds turned into milliseconds: these, or the refusal."""
    try:
        told, refused = "%d" % evf.s_to_ms(seconds, rule), 0
    except evf.Refused as why:
        told, refused = "refused %d" % why.args[0], why.args[0]
    add("turned", rule, LEAF, struct.pack(">BHd", 4, 8, seconds), ["ms " + told], refused)
    return told


def write(rule, g, versions=(3, 4), **room):
    """A game written in some versions: each file, or the number of its refusal."""
    case, told, answers = writing(len(inputs), g, versions, rule, **room)
    add("written", rule, WRITING, case, told, *(answers[version].refused for version in versions))
    return tuple(answers[version].refused or answers[version].file for version in versions)


def copied(rule, tag, file, frame, more=3, room=None):
    """A file upgraded or re-saved: the copy, or the number of its refusal."""
    word, call = {UPGRADING: ("upgraded", evf.upgrade), RESAVE: ("resaved", evf.resave)}[tag]
    try:
        copy, refused = call(file, rule), 0
    except evf.Refused as why:
        copy, refused = b"", why.args[0]
    if room is None:
        room = 64 if refused else len(copy) + more
    expect(len(file) <= MOST and 0 <= room <= MOST, True)
    back = []
    if refused:
        told, after = "refused %d" % refused, b"\xaa" * room
    elif room < len(copy):
        told, after, refused = "short %d" % len(copy), b"\xaa" * room, SHORT
    else:
        told, after = "%s %d" % (word, len(copy)), copy + b"\xaa" * (room - len(copy))
        back = lines_of(evf.read(copy, entries=len(copy))) if tag == RESAVE else []
    told = ["case %d %s" % (len(inputs), told), "copy" + evf.runs(after)] + back
    add(word, rule, tag, struct.pack(">I", room) + frame, told, refused)
    return refused or copy


# halves

def steps(ms, most=3):
    """The floats nearest to so many milliseconds in seconds: up to so many steps of the last bit away."""
    bits = evf.bits_of(ms / 1000.0)
    return [evf.float_of(bits + k) for k in range(-most, most + 1)]


def at_half(whole):
    """Seconds whose product with 1000.0 is a half behind a whole number, or None: not every half is one."""
    return next((seconds for seconds in steps(whole + 0.5) if seconds * 1000.0 == whole + 0.5), None)


def halves_from(whole, n):
    """The first n whole numbers from one on, odd and even ones in turn, behind which a half is a product."""
    found = []
    while len(found) < n:
        if at_half(whole) is not None and whole % 2 == len(found) % 2:
            found.append(whole)
        whole += 1
    return found


def marked():
    """The examples of the note and of the issue, each answer written out."""
    for seconds, away, even in (
            (0.0625, 63, 62), (0.1875, 188, 188), (0.0005, 1, 0), (0.0015, 2, 2), (0.0025, 3, 2), (0.0, 0, 0),
            (-0.0, 0, 0), (0.062, 62, 62), (0.063, 63, 63), (NAN, 0, 0), (INF, U32, U32), (-INF, 0, 0),
            (-0.0005, 0, 0), (-0.0015, 0, 0), (-1e300, 0, 0), (5e-324, 0, 0), (1e300, U32, U32),
            (4294967.295, U32, U32), (4294967.296, U32, U32)):
        expect((ms(AWAY, seconds), ms(TO_EVEN, seconds)), (str(away), str(even)))
        for rule in NO_RULES:
            expect(ms(rule, seconds), "refused 26")
    for rule in range(256):
        told = ms(rule, 0.0625)
        expect(told, {AWAY: "63", TO_EVEN: "62"}.get(rule, "refused 26"))


def halves():
    """Halves and their neighbours: the smallest, around the bounds of 21, of version 3 and of u32."""
    wholes = [0, 1, 2, 3, 4, 5, 61, 62, 63, 186, 187, 188, 253, 254, 255, 256, 999, 1000, 65534, 65535, 65536,
              U24 - 1, U24, U24 + 1, 2 ** 31 - 1, 2 ** 31, U32 - 3, U32 - 2, U32 - 1, U32, U32 + 1]
    for bits in range(3, 32, 2):
        wholes += halves_from(2 ** bits + rng.randrange(2 ** bits), 2)
    reached = collections.Counter()
    for whole in wholes:
        for seconds in steps(whole + 0.5):
            away, even = int(ms(AWAY, seconds)), int(ms(TO_EVEN, seconds))
            at = seconds * 1000.0 == whole + 0.5
            expect(away - even, int(at and whole % 2 == 0 and whole < U32))
            reached[at, whole % 2] += 1
    expect(reached[True, 0] >= 15 and reached[True, 1] >= 15, True)
    for whole in (0, 1, 2, 62, 63, 187, 255, 256, U24, U32 - 1, U32):
        for seconds in steps(whole, 1) if whole else [0.0]:
            expect(ms(AWAY, seconds), ms(TO_EVEN, seconds))
    for rule in NO_RULES:
        for whole in (0, 62, U32 - 1):
            ms(rule, (whole + 0.5) / 1000.0)


# writing

def entries(*seconds):
    """A row of moves, each a pixel on from the one before it."""
    return [(1, s, k, 2 * k) for k, s in enumerate(seconds)]


def rows():
    """21 and 22 by the rule, where a half decides, and rows of halves that are written by both."""
    odd = game(row=entries(0.0625, 0.062))
    answers = [answer for rule in RULES for answer in write(rule, odd)]
    expect([answer if isinstance(answer, int) else 0 for answer in answers], [0, 22, 0, 0])
    for first, away, even in ((255.5, 21, 21), (254.5, 0, 0), (253.5, 0, 0), (256.5, 21, 21)):
        for seconds in steps(first):
            for rule, wanted in zip(RULES, (away, even)):
                four = write(rule, game(row=entries(seconds)))[1]
                if seconds * 1000.0 == first:
                    expect(four if wanted else type(four), wanted or bytes)
    expect([write(rule, game(row=entries(0.2545)))[1][48] for rule in RULES], [255, 254])
    for last in (U24 - 0.5, U24 + 0.5):
        for seconds in steps(last):
            for rule in RULES:
                write(rule, game(row=entries(0.0, seconds)))
    for before, behind in ((0.0625, 0.063), (0.0625, 0.0625), (0.0635, 0.063), (0.1875, 0.187),
                           (0.1875, 0.188), (0.0005, 0.0), (0.0015, 0.001), (0.0025, 0.002),
                           (0.255, 0.2545), (0.2545, 0.254)):
        for rule in RULES:
            write(rule, game(row=entries(before, behind)))
            write(rule, game(row=entries(0.0, before, behind)), more=0)
            write(rule, game(row=[(1, before, 1, 2), (82, behind, 0, 0), (2, 1.0, 1, 2)]))
    all_halves = [at_half(whole) for whole in halves_from(0, 40)]
    for rule in RULES:
        for more in (-1, 0, 3):
            write(rule, game(row=entries(*all_halves)), more=more)
    for start in (250, 65000, 131000):  # waits about a byte and about a pause of two
        wide = [0.0] + [at_half(whole) for whole in halves_from(start, 12)]
        for rule in RULES:
            write(rule, game(row=entries(*wide)), more=0)


def sets_of(numbers):
    """Refusals that hold together: none, each, each tail in checking order, the first and the last."""
    tails = [tuple(numbers[k:]) for k in range(len(numbers) - 1)]
    return [()] + [(n,) for n in numbers] + tails + [(numbers[0], numbers[-1])]


def first_of_all():
    """26 comes before every other number, in both versions, with room and without."""
    order = [n for n, holds in evf.CONDITIONS]
    expect(order, [26, 14, 15, 16, 17, 18, 19, 20, 25, 21, 22])
    for version in (3, 4):
        for chosen in sets_of([n for n in order[1:] if version == 4 or n not in (16, 21, 25)]):
            g = holding(version, chosen)
            for rule in RULES:
                expect([n for n, holds in evf.CONDITIONS if holds(unframed(g), version, rule)], list(chosen))
            for rule in (*RULES, *NO_RULES):
                for room in (None, 0):
                    got, = write(rule, g, (version,), room=room)
                    wanted = chosen[0] if chosen else SHORT if room == 0 else 0
                    wanted = wanted if rule in RULES else NO_SUCH_RULE
                    expect(got if wanted else type(got), wanted or bytes)
    for rule in (*RULES, *NO_RULES):
        for n in (U64, U64 - 100):
            write(rule, game(), room=64, counted=n)


def at_random():
    """Rows whose seconds are halves, next to them or others, by both rules."""
    differ = 0
    for _ in range(60):
        at, seconds = rng.randrange(250), []
        for _ in range(rng.randrange(1, 12)):
            seconds.append(rng.choice(steps(at + 0.5, 1) + [at_half(at) or at / 1000.0] * 3 + [at / 1000.0]))
            at += rng.choice((0, 0, 1, 2, rng.randrange(300), rng.randrange(70000)))
        answers = [write(rule, game(row=entries(*seconds)), more=rng.choice((0, 3, -1))) for rule in RULES]
        differ += answers[0] != answers[1]
    expect(differ > 20, True)


# upgrading and re-saving

def refused_files():
    """Files with the number that reading or writing them is refused with, as parts."""
    pauses = pause(U16)
    broken = [
        (1, (old(3, events=rec(1, 5, 5, 5))[:-1],)), (1, (new()[:-1],)), (1, (b"",)),
        (2, (b"\x05" + new()[1:],)),
        (3, (old(2, software=b"\xff"),)), (3, (new(player=b"\xff"),)), (4, (old(0, software=b"Arbiter"),)),
        (5, (old(1, start=b""),)), (6, (old(3, software=b"Viennasweeper", start=b"18446744073710"),)),
        (7, (new(height=0, bits=b""),)), (7, (old(0, height=0, bits=b""),)),
        (8, (new(events=b"\x03" + FIRST[1:]),)), (9, (new(events=FIRST + b"\x0d"),)),
        (10, (new(events=FIRST, stop=b""), pauses, 65537, move(1, 0) + b"\0\0\0")),
    ]
    pixels = dict(height=129, width=0, pixels=255, bits=b"")
    device = old(3, device=b"<here>", events=rec(1, 5, 5, 5)).split(b"<here>")
    unwritten = [
        (16, (old(0, events=rec(1, 5, 5, 5), **pixels),)), (16, (new(**pixels),)),
        (19, (old(1, uid=b"\xff", events=rec(1, 5, 5, 5)),)), (20, (device[0], b"x", U16 + 1, device[1])),
        (21, (old(2, events=rec(1, 256, 5, 5)),)), (21, (old(3),)),
        (22, (old(3, events=rec(1, 5, 5, 5) + rec(1, 4, 5, 5)),)),
    ]
    return broken, unwritten


def refused_copies():
    """Reading's numbers and 13 come before 26, and 26 before those of writing."""
    broken, unwritten = refused_files()
    for number, what in broken + unwritten:
        file, frame = evf.parts(*what)
        is_new = number >= 13 and file[0] == 4
        for rule, room in itertools.product((*RULES, *NO_RULES), (None, 0)):
            later = number if number <= 10 or rule in RULES else NO_SUCH_RULE
            expect(copied(rule, UPGRADING, file, frame, room=room), 13 if is_new else later)
            expect(copied(rule, RESAVE, file, frame, room=room), later)
    for rule in (9, *NO_RULES):
        for file in (new(), METRICS_SAMPLE):
            for data, upgraded, resaved in ((file, 13, NO_SUCH_RULE), (file[:-1], 1, 1)):
                expect(copied(rule, UPGRADING, *evf.parts(data)), upgraded)
                expect(copied(rule, RESAVE, *evf.parts(data)), resaved)


def both_copies(file, *unit, **room):
    """A file of whole milliseconds comes to the same bytes by both rules, and to 26 by no rule."""
    whole, frame = evf.parts(file, *unit)
    for tag in (UPGRADING, RESAVE):
        away, even = (copied(rule, tag, whole, frame, **room) for rule in RULES)
        expect(away, even)
        told = copied(rng.choice(NO_RULES), tag, whole, frame, **room)
        expect(told, 13 if tag == UPGRADING and file[0] == 4 else NO_SUCH_RULE)


def same_copies():
    """Files of all versions, with every sort of time that they can hold."""
    times = (0, 1, 2, 3, 61, 62, 63, 186, 187, 188, 254, 255, 256, 511, 999, 1000, 65535, 65536, 65791,
             131070, U24 - 1, U24)
    for version in range(4):
        both_copies(old(version, events=b"".join(rec(1, n, n % 7, n % 5) for n in times)))
        for n in (0, 62, 63, 187, 255):
            both_copies(old(version, events=rec(2, n, 8, 8)), more=0)
        both_copies(old(version, events=rec(2, 5, 8, 8)), more=-1)
    later = b"".join(pause(n) + move(3, k) for k, n in enumerate((0, 1, 255, 256, 300, 65535)))
    both_copies(new(events=FIRST + later + b"\x52\x05" + move(1, 62), metrics=counted(2, [b"a", YUAN])))
    both_copies(new(events=b"\x01" + bytes(5), stop=b""), pause(U16), 65537, move(1, 0) + b"\0\0\0")
    for name in ("beginner-v3.evf", "intermediate-v2.evf", "metrics-v4.evf"):
        both_copies(evf.sample(name))


for make in (marked, halves, rows, first_of_all, at_random, refused_copies, same_copies):
    make()

if __name__ == "__main__" and not sys.argv[1:]:
    stdin = evf.in_blocks(evf.RULED, inputs)
    evf.store("rules", stdin, lines + ["cases %d" % len(inputs)])
    print(len(inputs), "cases,", len(stdin), "bytes in,", sum(len(line) + 1 for line in lines), "bytes out")
    for sort in ("turned", "written", "upgraded", "resaved"):
        tally = {number: counts[sort, number] for number in range(1, 27) if counts[sort, number]}
        print(sort, counts[sort, 0], "refused", tally)
