"""Cases of evf over badges: the lines of `evf badge` under each wish, held to badges.py; what is wrong use;
several files, by words and by standard input; games by chance of both versions, claimed and not."""
import os
import random

import make_run
from badges import WISHES
from make_cases import move, new, old
from evf_runs import (SAMPLE, SAMPLES, TWO, USE, badge_of, case, counts, expect, failed, lines_of, names, put,
                      run, upgrade_of)
from try_plays import board, by_chance, on

PLACED = (b"evf badge: write --older or --newer, one of them and once, before the names; "
          b"for a file of that name write ./ before it\n")
OTHER = b"evf badge: no such option; for a file of that name write ./ before it\n"
OPTIONS = {"version": [], "older": ["--older"], "newer": ["--newer"]}
NF_BIT = 0x10  # in the first byte of the flags, which every version has at place 1


def misused(words, told):
    """Wrong use is told, and nothing is read or made."""
    put("in.evf", SAMPLE)
    expect(run("badge", *words), (2, b"", told + USE))
    expect(names(), ["in.evf"])


def wrong_uses():
    """The words behind `evf badge`, and what is told."""
    for words in ("--older --newer in.evf", "--newer --older in.evf", "--older --older in.evf",
                  "--newer --newer", "in.evf --older", "in.evf --newer", "--older in.evf --newer",
                  "--newer in.evf in.evf --newer", "--olderly in.evf", "--older=1 in.evf",
                  "--newer --newest --newer", "--older --olderly"):
        yield words.split(), PLACED
    for words in ("--frob in.evf", "--older --frob in.evf", "--newer --", "--", "--to in.evf", "--old in.evf",
                  "--new"):
        yield words.split(), OTHER


def unclaimed(data):
    """A file with its claim turned round."""
    return data[:1] + bytes([data[1] ^ NF_BIT]) + data[2:]


def judged(data):
    """A file under each wish; it stays, and nothing is made."""
    put("in.evf", data)
    for wish, options in OPTIONS.items():
        expect(run("badge", *options, "in.evf"), (*badge_of(data, wish), b""), wish)
    expect(names(), ["in.evf"])


def both_claims(data):
    """A file that can be read, and the same with its claim turned round: they agree and differ in turn."""
    judged(data)
    judged(unclaimed(data))
    lines = {badge_of(some)[1].rsplit(b"\t", 1)[1] for some in (data, unclaimed(data))}
    expect(lines, {b"agrees\n", b"differs\n"}, "badges.py")


def chance_game(chance):
    """A game by chance, as version 3 and as version 4 where that can be."""
    data = by_chance(chance)
    copy = upgrade_of(data)[2]
    for some in [data] + [copy] * (copy is not None):
        judged(some)
        judged(unclaimed(some))
    return "and as version 4" if copy is not None else ""


def several():
    """Files by words and by standard input: 0 where all agree, 1 where one differs or is refused, 2 where one
    failed; those that differ are counted apart."""
    chord = board(1, 3, [2], on("rc", 0, 0) + on("lc", 0, 0))
    files = {b"agrees.evf": SAMPLE, b"v4.evf": upgrade_of(SAMPLE)[2], b"differs.evf": unclaimed(SAMPLE),
             b"chord.evf": chord, b"bad.evf": b""}
    for name, data in files.items():
        put(name, data)
    for wish, options in OPTIONS.items():
        for some in range(2, 6):
            first = dict(list(files.items())[:some])
            answers = [badge_of(data, wish) for data in first.values()]
            done = sum(status == 0 for status, _ in answers)
            refused = sum(b"refused" in line for _, line in answers)
            wanted = (int(done < some), lines_of(first, lambda data: badge_of(data, wish)),
                      counts(done, refused, 0, some - done - refused))
            expect(run("badge", *options, *first), wanted, "words, " + wish)
            expect(run("badge", *options, given=b"\n".join(first)), wanted, "input, " + wish)
    lines = lines_of(files, lambda data: badge_of(data, "newer"))
    lines += b"no.evf\tfailed\tno such file or folder\n"
    told = b"evf: no.evf: no such file or folder\n" + counts(2, 2, 1, 1)
    expect(run("badge", "--newer", *files, "no.evf"), (2, lines, told), "2 wins over 1")


def named_so():
    """Files called --older and --newer, behind ./."""
    for name in ("--older", "--newer"):
        put(name, SAMPLE)
        expect(run("badge", "./" + name), (*badge_of(SAMPLE), b""))
        expect(run("badge", "--older", "./" + name), (*badge_of(SAMPLE, "older"), b""))
    wanted = (0, b"--older\t" + badge_of(SAMPLE)[1], counts(1, 0, 0))
    expect(run("badge", given=b"--older\n"), wanted, "by input")


def not_there():
    for options in OPTIONS.values():
        expect(run("badge", *options, "no.evf"), failed(b"no.evf", b"no such file or folder"))
    os.mkdir("folder")
    expect(run("badge", "folder"), failed(b"folder", b"a folder, not a file"))
    expect(run("badge", given=b""), (0, b"", counts(0, 0, 0)), "no names")


def many(count):
    """So many right presses behind the end of a game on the largest board; then one before it."""
    def press(k):
        row, column = k // 255 % 255, k % 255
        return on("rc", row, column, 9, 255) + on("rr", row, column, 9, 255)
    opened, presses = on("lr", 9, 9, 5, 255), b"".join(map(press, range(count)))
    earned, spoiled = b"badge\tnewer rule\tearned\tclaimed\tagrees\n", b"\tnot earned\tclaimed\tdiffers\n"
    put("in.evf", board(255, 255, [], opened + presses, pixels=255))
    expect(run("badge", "--newer", "in.evf"), (0, earned, b""), "behind")
    expect(run("badge", "in.evf"), (1, b"badge\tolder rule" + spoiled, b""), "by the older rule")
    put("in.evf", board(255, 255, [], press(7) + opened + presses, pixels=255))
    expect(run("badge", "--newer", "in.evf"), (1, b"badge\tnewer rule" + spoiled, b""), "before")


def badges_of_files():
    for words, told in wrong_uses():
        case("wrong use: badge " + " ".join(words), misused, words, told)
    expect(set(OPTIONS), set(WISHES))
    for name, data in SAMPLES.items():
        case("badge: samples/" + name, both_claims, data)
    for name, data in make_run.badge_files().items():
        case("badge: " + name, judged, data)
    states = new(events=move(8, 5, 8, 8) + b"\x51\x01" + move(4, 255) + b"\x52\x02" + move(5, 3, 16))
    for told, data in (("M3", old(3, events=TWO)), ("game states", states), ("no events", old(3)),
                       ("no columns", old(3, width=0, bits=b"", events=on("rc", 0, 0))),
                       ("one cell", board(1, 1, [], on("rc", 0, 0))),
                       ("off the board", board(1, 3, [2], on("rc", 1, 0) + on("rr", 1, 0) + on("rc", 0, 3)))):
        case("badge: " + told, both_claims, data)
    for told, data in (("27", old(3, pixels=0, events=TWO)), ("no file", b""), ("a cut file", SAMPLE[:-1]),
                       ("27 before 28", old(3, pixels=0, events=on("cc", 0, 0))), ("version 5", b"\x05"),
                       ("28", board(1, 3, [2], on("rc", 0, 0) + on("lc", 0, 0))),
                       ("28 behind the end", board(1, 2, [1], on("lr", 0, 0) + on("cc", 0, 0)))):
        case("badge: " + told, judged, data)
    chance = random.Random(20261118)
    for number in range(60):
        case("badge: by chance %d" % number, chance_game, chance)
    case("badges of several files", several)
    case("files called --older and --newer", named_so)
    case("badges of files that are not there", not_there)
    case("100,000 right presses behind the end", many, 100000)
