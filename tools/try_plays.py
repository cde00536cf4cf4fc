"""Cases of evf over games that are played through: the lines of `evf play` and the boards of `evf play --after
N`, held to plays.py; what is wrong use; games of many events and the largest board."""
import os
import random

import evf
from evf import KINDS
from make_cases import move, new, old, rec
from evf_runs import SAMPLES, TWO, USE, Job, case, expect, failed, names, play_of, put, run

NEEDED = " --after: a number of events is needed"
PLACED = " --after: write --after N once, before FILE; for a file of that name write ./ before it"
ONE = ": one FILE is needed"
OTHER = ": no such option; for a file of that name write ./ before it"
PIXELS = 16
MOST = 2 ** 64 - 1


def misused(words, told):
    """Wrong use is told, and nothing is read or made."""
    put("in.evf", SAMPLES["beginner-v3.evf"])
    expect(run("play", *words), (2, b"", b"evf play" + told.encode() + b"\n" + USE))
    expect(names(), ["in.evf"])


def wrong_uses():
    """The words behind `evf play`, and what is told."""
    for number in ("-1", "1.0", "0x1", "1 ", " 1", "1\n", "one", "", "+", "++1", str(MOST + 1), "9" * 5000, "in.evf", "--after"):
        yield ["--after", number, "in.evf"], NEEDED
    yield ["--after"], NEEDED
    yield ["--after", "in.evf"], NEEDED
    for words in ("in.evf --after 1", "in.evf --after", "--after 1 --after 2 in.evf", "--after=1 in.evf",
                  "--after 1 in.evf --after 2", "--afterwards in.evf"):
        yield words.split(), PLACED
    for words in ("", "--after 1", "in.evf in.evf", "--after 1 in.evf in.evf"):
        yield words.split(), ONE
    for words in ("--frob in.evf", "--after 1 --frob in.evf", "--to in.evf", "--"):
        yield words.split(), OTHER


def whole(data):
    put("in.evf", data)
    status, text = play_of(data)
    expect(run("play", "in.evf"), (status, text, b""))


def game(data, *numbers):
    """A file played whole, and its boards after none, all, more than all and some numbers of events."""
    whole(data)
    try:
        count = len(evf.read(data, entries=len(data)).events)
    except evf.Refused:
        count = 0
    for n in sorted({0, 1, count, count + 1, MOST, *(n for n in numbers if n <= count)}):
        expect(run("play", "--after", str(n), "in.evf"), (*play_of(data, n), b""), "after %d" % n)
    expect(names(), ["in.evf"])
    return "%d events" % count


def ways_to_write_numbers():
    data = SAMPLES["beginner-v3.evf"]
    put("in.evf", data)
    for n, words in ((7, ("7", "+7", "007", "+0007")), (0, ("0", "00", "+0"))):
        for word in words:
            expect(run("play", "--after", word, "in.evf"), (*play_of(data, n), b""), word)


def on(kind, row, column, ms=0, pixels=PIXELS):
    return rec(KINDS.index(kind), ms, column * pixels + pixels // 2, row * pixels + pixels - 1)


def board(height, width, mines, events, **more):
    bits = evf.packed([k in mines for k in range(height * width)])
    return old(3, height=height, width=width, mines=len(mines), bits=bits, events=events, **more)


def by_chance(chance):
    """A game of clicks by chance, some of them off the board; no button is pressed while the other is down."""
    height, width = chance.choice([(1, 9), (9, 1), (4, 5), (8, 8), (16, 30)])
    n = height * width
    mines = chance.sample(range(n), n * chance.choice((0, 5, 12, 20)) // 100)
    events, ms = [], 0
    for _ in range(chance.randrange(80)):
        ms += chance.choice((0, 1, 17, 255, 256, 9999))
        row, column = chance.randrange(height + 1), chance.randrange(width + 1)
        if row * width + column in mines and chance.randrange(4):
            row, column = height - 1, chance.randrange(width)
        for kind in chance.choice((["lc", "lr"], ["lr"], ["rc", "rr"], ["pf"], ["mv"])):
            events.append(on(kind, row, column, ms))
    return board(height, width, mines, b"".join(events))


def chords(first):
    """Two buttons at once: refused, but for the events before."""
    for second in (b"", on("lr", 0, 0)):
        data = board(1, 3, [2], on("pf", 0, 2) + first + second)
        put("in.evf", data)
        expect(play_of(data)[0], 1, "plays.py")
        expect(run("play", "in.evf"), (*play_of(data), b""))
        expect(run("play", "--after", "1", "in.evf"), (0, b"##F\nplayed\tundecided\t1 events\n", b""))


def named_so():
    """A file called --after, behind ./."""
    data = SAMPLES["beginner-v3.evf"]
    put("--after", data)
    expect(run("play", "./--after"), (*play_of(data), b""))
    expect(run("play", "--after", "3", "./--after"), (*play_of(data, 3), b""))


def not_there():
    answer = failed(b"no.evf", b"no such file or folder")
    expect(run("play", "no.evf"), answer)
    expect(run("play", "--after", "1", "no.evf"), answer)
    os.mkdir("folder")
    expect(run("play", "folder"), failed(b"folder", b"a folder, not a file"))
    expect(run("play", ""), failed(b"", b"no such file or folder"))


def many(count):
    """A line for each of many events, more than a buffer holds; and the same to a device that is full."""
    clicks = b"".join(on("pf", k % 255, k % 254, 60 * k % 16777216, 255) for k in range(count))
    data = board(255, 255, [], clicks, pixels=255)
    whole(data)
    expect(play_of(data)[1].count(b"\n"), count + 1)
    full = os.open("/dev/full", os.O_WRONLY)
    told = b"evf: standard output: no room left on the device\n"
    expect(Job("play", "in.evf", out=full).end(), (2, b"", told))
    os.close(full)


def plays():
    for words, told in wrong_uses():
        shown = " ".join(word if word.strip() == word[:20] > "" else repr(word[:20]) for word in words)
        case("wrong use: play %s" % shown, misused, words, told)
    for name, data in SAMPLES.items():
        case("played: samples/" + name, game, data, 2, 3, 5, 8, 13, 21, 34, 55, 89)
    case("numbers written in other ways", ways_to_write_numbers)
    states = new(events=move(8, 5, 8, 8) + b"\x51\x01" + move(8, 255) + b"\x52\x02" + move(3, 3, 16))
    for told, data in (("M3", old(3, events=TWO)), ("game states", states), ("no events", old(3)),
                       ("no columns", old(3, width=0, bits=b"", events=TWO)), ("27", old(3, pixels=0, events=TWO)),
                       ("27 before 28", old(3, pixels=0, events=on("cc", 0, 0))), ("no file", b""),
                       ("pixels of 255", board(255, 255, [65024], on("lr", 254, 254, 5, 255), pixels=255)),
                       ("one opening of 65025", board(255, 255, [], on("pf", 0, 0) + on("lr", 9, 9) + on("pf", 0, 0)))):
        case("played: " + told, game, data, 2)
    chance = random.Random(20261117)
    for number in range(60):
        case("played: by chance %d" % number, game, by_chance(chance), 2, 9, 30)
    for kinds in ("cc", "lc rc", "rc lc", "lc rr rc", "rc lr lc", "lc lc lr rc rc lc"):
        case("a chord: " + kinds, chords, b"".join(on(kind, 0, 9) for kind in kinds.split()))
    case("a file called --after", named_so)
    case("not there", not_there)
    case("200,000 events that change the board", many, 200000)
