#!/usr/bin/env python3
"""Writes the stored runs of the tool in the gate, each as the args, stdin, stdout and data/ of its crate. Names from standard input end without a newline.

  evf            `evf upgrade --to out`, over names from standard input: each refusal that an upgrade answers, each trouble of the system that an ordinary user
                 can have there, names that clash, what a copy does not carry
  run_commands   `evf recount`, over names from standard input: each refusal that reading answers, each version, headers that claim the right 3BV and wrong
                 ones, boards of any size. Then `evf resave --to out --rule 2`, over words: the sample with metrics, once anew and once where its copy is there
                 already as evf.py writes it; each refusal that reading version 4 answers, and 16; replays of version 0 to 3; game states, what a copy does
                 not carry. Then `evf play`, over words of those: games won, lost and undecided, flags, clicks off the board, 27, 28, a file that is not
                 read and one that is not there; and `evf play --after N`. Then `evf badge` over all words of
                 the re-save, by the file's version, --older and --newer, and over the last of them alone:
                 verdicts and claims of each sort, 27, 28, files that are not read

What must be printed is worked out by evf.py, plays.py and badges.py; the words of the refusals are those of
README.md. The files are written anew each time and come out the same."""
import os
import random
import shutil

import badges
import evf
import make_samples
import plays
from make_cases import move, new, old, rec
from refusals import refused

ROOT = os.path.join(os.path.dirname(os.path.abspath(__file__)), "..")
TWO = rec(2, 5, 8, 8) + rec(3, 300, 7, 8)
VIENNA = dict(software=b"Viennasweeper")
OTHER = dict(software=b"Other")

REFUSED = {
    1: b"", 2: b"\x05", 3: old(3, software=b"\xff"), 4: old(3, software=b"Arbiter"), 5: old(3, start=b"x"),
    6: old(3, start=b"18446744073710", **VIENNA), 7: old(3, height=0), 8: new(events=b"\x03\x05\0\x08\0\x08"),
    9: new(events=b"\x02\x05\0\x08\0\x08\x0d"), 10: new(events=b"\x02\x05\0\x08\0\x08" + b"\xff\xff\xff" * 65538), 13: new(),
    16: old(3, height=200, pixels=200, bits=bytes(50), events=TWO), 19: old(3, player=b"\xff", events=TWO),
    20: old(3, device=b"d" * 65536, events=TWO), 21: old(3), 22: old(3, events=TWO + rec(1, 299, 0, 0)),
}


def upgraded(data, *left):
    copy = evf.upgrade(data)
    events = len(evf.read(data, entries=len(data)).events)
    return "\t".join(["upgraded", "%d bytes" % len(copy), "%d events" % events, *("not carried: " + what for what in left)])


def failed(why):
    return "failed\t" + why


def upgrade_steps():
    """Files of data/ by name, names in their order, and the line that each gives, behind its name."""
    sample = make_samples.samples()["beginner-v3.evf"]
    end = b"\0" + bytes(range(32))
    files, lines = {}, []

    def put(name, data, line):
        files[name] = data
        lines.append((name, line))

    for number, data in REFUSED.items():
        try:
            evf.upgrade(data)
        except evf.Refused as why:
            assert why.args[0] == number
        else:
            raise AssertionError(number)
        put("in/refused-%d.evf" % number, data, refused(number))
    for version in range(4):
        data = old(version, events=TWO, stop=end)
        put("in/version %d.evf" % version, data, upgraded(data))
    put("in/beginner-v3.evf", sample, upgraded(sample))
    data = old(3, country=b"Austria", events=TWO)
    put("in/country.evf", data, upgraded(data, "the country, now XX"))
    data = old(3, country=b"XX", events=TWO)
    put("in/country-XX.evf", data, upgraded(data))
    data = old(3, start=b"12", end=b"", events=TWO, **OTHER)
    put("in/moments.evf", data, upgraded(data, "start and end, now 0"))
    data = old(3, start=b"12", end=b"unread", events=TWO, **VIENNA)
    put("in/vienna.evf", data, upgraded(data))
    data = old(3, events=TWO, stop=end) + b"behind"
    put("in/behind.evf", data, upgraded(data, "6 bytes behind the end"))
    data = old(2, country=b"\xc3\xa9", start=b"1", events=TWO, **OTHER) + b"b"
    put("in/three.evf", data, upgraded(data, "the country, now XX", "start and end, now 0", "1 bytes behind the end"))
    lines.append(("", None))  # no name
    same = "taken\tthis copy is there already"
    other = "taken\tanother file has this name and stays as it is: name another or move it away"
    lines.append(("in/beginner-v3.evf", same))
    put("in/again/beginner-v3.evf", sample, same)
    put("in/again/country.evf", old(3, country=b"cn", events=TWO), other)
    put("in/there.evf", sample, other)
    files["out/there.evf"] = b"mine\n"
    put("in/empty.evf", sample, other)
    files["out/empty.evf"] = b""
    put("in/folder.evf", sample, other)
    files["out/folder.evf/file"] = b"mine\n"
    put("in/made.evf", sample, same)
    files["out/made.evf"] = evf.upgrade(sample)
    lines += [
        ("in/missing.evf", failed("no such file or folder")), ("none/missing.evf", failed("no such file or folder")),
        ("in", failed("a folder, not a file")), ("in/", failed("a folder, not a file")),
        ("in/there.evf/file", failed("a part of the name is no folder")), ("/etc/shadow", failed("permission denied")),
        ("/dev/zero", failed("longer than 2097152 bytes")), ("/dev/null", refused(1)),
        ("in/" + "n" * 256, failed("the name is too long")), ("m" * 5000, None), ("in/tab\there.evf", failed("no such file or folder")),
        ("in/beginner-v3.evf", same),
    ]
    return files, lines


def recounted(data):
    """The line of a recount."""
    try:
        claimed, counted, openings = evf.recounted(data)
    except evf.Refused as why:
        return refused(why.args[0])
    word = "same" if claimed == counted else "differs"
    return "recounted\t3BV %d in the header\t3BV %d recounted\t%d openings\t%s" % (claimed, counted, openings, word)


def board(height, width, bbbv, *mines, **more):
    """A file whose board has these mines, by cell."""
    bits = evf.packed([k in mines for k in range(height * width)])
    return old(3, height=height, width=width, mines=len(mines), bbbv=bbbv, bits=bits, events=TWO, **more)


def recount_files():
    """Files by name: refused by reading, or by an upgrade alone; each version; boards of one opening, several and none, the largest; wrong claims."""
    chance = random.Random(20261116)
    samples = make_samples.samples()
    files = {"refused-%d" % number: data for number, data in REFUSED.items() if number < 20}
    files.update(("version %d" % version, old(version, events=TWO)) for version in range(4))
    files.update({"backwards": samples["backwards-v3.evf"], "beginner": samples["beginner-v3.evf"], "beginner-v4": evf.upgrade(samples["beginner-v3.evf"]),
                  "intermediate": samples["intermediate-v2.evf"], "no-columns": old(3, width=0, bits=b"", bbbv=0, events=TWO)})
    for claim in (0, 2, 65535):
        files["claims-%d" % claim] = old(3, bbbv=claim, events=TWO)
    files.update({"mines-for-3BV": board(3, 3, 1, 4), "openings-for-3BV": board(5, 5, 1, 0, 1, 2, 3), "two-openings": board(5, 5, 2, 10, 11, 12, 13, 14),
                  "corner-joins": board(4, 4, 1, 3, 12), "mines-65535": board(1, 2, 1, 0)[:5] + b"\xff\xff" + board(1, 2, 1, 0)[7:],
                  "pad-of-ones": old(3, height=3, width=3, bits=b"\0\x7f", bbbv=1, events=TWO), "one-cell": board(1, 1, 1), "one-mine": board(1, 1, 0, 0)})
    size = 255 * 255
    files.update({"largest-empty": board(255, 255, 1), "largest-full": board(255, 255, 0, *range(size)),
                  "largest": board(255, 255, 12996, *chance.sample(range(size), 9000)), "row": board(1, 255, 37, *range(3, 255, 7)),
                  "column": board(255, 1, 0, *range(3, 255, 7))})
    return {"in/%s.evf" % name: data for name, data in files.items()}


def recount_steps():
    files = recount_files()
    lines = [(name, recounted(data)) for name, data in files.items()]
    missing = failed("no such file or folder")
    lines += [("", None), ("in/missing.evf", missing), ("in", failed("a folder, not a file")), ("/etc/shadow", failed("permission denied")),
              ("/dev/zero", failed("longer than 2097152 bytes")), ("/dev/null", refused(1)), ("m" * 5000, None), ("in/tab\there.evf", missing),
              ("in/beginner.evf", recounted(files["in/beginner.evf"]))]
    return files, lines


def resaved(data, *left):
    """The line of a re-save."""
    copy, game = evf.resave(data), evf.read(data, entries=len(data))
    states = sum(event[0] in evf.STATES.values() for event in game.events)
    told = ["%d bytes" % len(copy), "%d events" % (len(game.events) - states), "%d metrics" % game.metrics_count, "%d game states left out" % states]
    return "\t".join(["resaved", *told, *("not carried: " + what for what in left)])


def older(version):
    return "older\tversion %d: evf upgrade writes it as version 4" % version


# events of version 3 on cells of 16 pixels: kind, milliseconds, row and column
FLAGS = [("mv", 0, 0, 0), ("rc", 10, 0, 4), ("rr", 20, 0, 4), ("pf", 30, 1, 1), ("lr", 40, 1, 1), ("lr", 50, 2, 0), ("lr", 60, 2, 0), ("pf", 70, 1, 1),
         ("rc", 80, 0, 4), ("rr", 90, 0, 4), ("lr", 100, 3, 0), ("lr", 110, 0, 5), ("pf", 120, 2, 0), ("lc", 130, 1, 1), ("lr", 140, 1, 1), ("lr", 16777215, 0, 3)]
CHORD = [("lr", 5, 1, 3), ("rc", 10, 0, 4), ("lc", 20, 0, 4), ("lr", 30, 0, 4), ("rr", 40, 0, 4)]


def clicks(events):
    return b"".join(rec(evf.KINDS.index(kind), ms, 16 * column + 3, 16 * row + 15) for kind, ms, row, column in events)


def play_files():
    """Files by name, small boards of version 3 but for one of version 4, which has game states."""
    mine = dict(height=3, width=5, mines=1, bbbv=1, bits=evf.packed([k == 4 for k in range(15)]))
    events = move(8, 5, 8, 8) + b"\x51\x01" + move(8, 255) + b"\x52\x02" + move(3, 3, 16)
    return {"play/flags.evf": old(3, events=clicks(FLAGS), **mine), "play/undecided.evf": old(3, events=clicks(FLAGS[:8]), **mine),
            "play/chord.evf": old(3, events=clicks(CHORD), **mine), "play/cc.evf": old(3, events=clicks([("cc", 1, 9, 9)]), **mine),
            "play/no-pixels.evf": old(3, pixels=0, events=clicks(CHORD), **mine), "play/states.evf": new(events=events)}


# the words of the stored run that are played: the files by their place among them, each with a number of events where the board is wanted
PLAYED = ["in/beginner.evf", "in/version 3.evf", "in/intermediate.evf", "play/flags.evf", "play/undecided.evf", "play/states.evf", "play/chord.evf",
          "play/cc.evf", "play/no-pixels.evf", "in/refused-9.evf", "in/no-columns.evf", "play/missing.evf"]
PLAYS = [(k, None) for k in range(len(PLAYED))]
PLAYS += [(0, 0), (0, 5), (0, 100), (0, 105), (0, 106), (0, 2 ** 64 - 1), (1, 1), (1, 2), (2, 300), (3, 5), (3, 9), (3, 16), (6, 2), (6, 3), (8, 0), (9, 0),
          (10, 1), (11, 1)]


def play_lines(files):
    """What `evf play` prints of each."""
    def told(name, after):
        if name not in files:
            return [failed("no such file or folder")]
        try:
            return plays.played(files[name], after)
        except evf.Refused as why:
            return [refused(why.args[0])]
    return [line for k, after in PLAYS for line in told(PLAYED[k], after)]


def played_first(files):
    """The lines of a re-save over the files that are played."""
    for name in PLAYED:
        if name not in files:
            yield name, failed("no such file or folder")
        elif files[name][0] == 4:
            yield name, refused(9) if name == "in/refused-9.evf" else resaved(files[name])
        else:
            yield name, older(files[name][0])


def resave_steps():
    """Files by name, and lines, as of an upgrade."""
    files, lines = {}, []

    def put(name, data, line):
        files["new/%s.evf" % name] = data
        lines.append(("new/%s.evf" % name, line))

    sample = make_samples.samples()["metrics-v4.evf"]
    put("metrics-v4", sample, resaved(sample))
    put("made", sample, "taken\tthis copy is there already")
    files["out/made.evf"] = evf.resave(sample)
    put("there", sample, "taken\tanother file has this name and stays as it is: name another or move it away")
    files["out/there.evf"] = sample
    again = evf.resave(sample)
    put("again", again, resaved(again))
    # files of the recount
    lines += [("in/version %d.evf" % version, older(version)) for version in range(3)]
    lines += [("in/refused-%d.evf" % number, refused(number)) for number in (1, 2, 8, 10)]
    put("refused-3", new(metrics=b"\0\1\xff\0"), refused(3))
    put("refused-7", new(height=0), refused(7))
    put("refused-16", new(height=200, pixels=200, bits=bytes(50)), refused(16))
    data = new()
    put("plain", data, resaved(data))
    data = new(country=b"\xc3\xa9", metrics=b"\0\2\0\0", events=b"\x02\x05\0\x08\0\x08" + b"\x51\xff" * 3 + b"\x03\xff\0\0\0\0") + b"b"
    put("three", data, resaved(data, "the country, now XX", "1 bytes behind the end"))
    lines += [("new/missing.evf", failed("no such file or folder")), ("new/metrics-v4.evf", "taken\tthis copy is there already")]
    return files, lines


# events whose right presses spoil a badge, or do not under the newer rule: on an uncovered cell, off the
# board, behind the game's end
PRESSED = [("lc", 0, 0, 3), ("lr", 9, 0, 3), ("rc", 20, 0, 4), ("rr", 30, 0, 4)]
LIFTED = [("pf", 0, 0, 4), ("rc", 20, 0, 4), ("rr", 30, 0, 4)]
HARMLESS = [("pf", 0, 0, 4), ("lc", 5, 0, 3), ("lr", 9, 0, 3), ("rc", 20, 0, 3), ("rr", 30, 0, 3),
            ("rc", 40, 3, 0), ("rr", 50, 3, 0), ("rc", 60, 0, 5)]
LOST = [("lc", 0, 0, 4), ("lr", 9, 0, 4), ("rc", 20, 1, 1), ("rr", 30, 1, 1)]
WON = [("lc", 0, 2, 0), ("lr", 9, 2, 0), ("rc", 20, 0, 4), ("rr", 30, 0, 4)]
NOT_CLAIMED = dict(first=0x80)


def later(events):
    """Such events as version 4 has them: the first whole, the others by their waits and steps."""
    out, was, x, y = b"", 0, 0, 0
    for kind, ms, row, column in events:
        to_x, to_y = 16 * column + 3, 16 * row + 15
        out += move(evf.KINDS.index(kind), ms - was, to_x - x, to_y - y)
        was, x, y = ms, to_x, to_y
    return out


def badge_files():
    """Files by name, boards of one mine as those that are played: each verdict beside each claim, in versions
    3 and 4."""
    mine = dict(height=3, width=5, mines=1, bbbv=1, bits=evf.packed([k == 4 for k in range(15)]))
    files = {}
    rows = {"none": PRESSED[:2], "pressed": PRESSED, "lifted": LIFTED, "harmless": HARMLESS, "won": WON,
            "lost": LOST}
    for name, events in rows.items():
        for claim, more in (("", {}), ("-unclaimed", NOT_CLAIMED)):
            files["%s%s-v3" % (name, claim)] = old(3, events=clicks(events), **mine, **more)
            files["%s%s-v4" % (name, claim)] = new(events=later(events), **mine, **more)
    files.update({"chord-v4": new(events=later([("lc", 0, 1, 1), *CHORD[1:]]), **mine),
                  "cc-v4": new(events=later([*PRESSED[:2], ("cc", 10, 9, 9)]), **mine),
                  "no-pixels-v4": new(pixels=0, events=later(PRESSED), **mine),
                  "no-pixels-none-v3": old(3, pixels=0, events=clicks(PRESSED[:2]), **mine),
                  "last": new(events=later(HARMLESS), **mine)})
    return {"badge/%s.evf" % name: data for name, data in files.items()}


def badge_copies(files):
    """The lines of a re-save over them."""
    return [(name, resaved(data) if data[0] == 4 else older(data[0])) for name, data in files.items()]


def badge_lines(names, files):
    """What `evf badge` prints of all names under each wish, and of the last alone."""
    def told(name, wish):
        return badges.badge_line(files[name], wish) if name in files else failed("no such file or folder")
    lines = ["%s\t%s" % (name, told(name, wish)) for wish in badges.WISHES for name in names]
    return [*lines, told(names[-1], "version")]


def store(crate, args, files, lines, worded=(), more=()):
    """A run over the names of some lines from standard input, and then over those of others as words; and lines more."""
    folder = os.path.join(ROOT, "crates", crate)
    shutil.rmtree(os.path.join(folder, "data"), ignore_errors=True)
    for name, data in files.items():
        path = os.path.join(folder, "data", name)
        os.makedirs(os.path.dirname(path), exist_ok=True)
        with open(path, "wb") as f:
            f.write(data)
    with open(os.path.join(folder, "args"), "w") as f:
        f.writelines(arg + "\n" for arg in args + [name for name, _ in worded])
    with open(os.path.join(folder, "stdin"), "w", encoding="utf-8") as f:
        f.write("\n".join(name for name, _ in lines))
    with open(os.path.join(folder, "stdout"), "w", encoding="utf-8") as f:
        for name, line in [*lines, *worded]:
            if len(name) > 4095:
                f.write(name[:64] + "...\t" + failed("the name is too long") + "\n")
            elif line is not None:
                f.write(name.replace("\t", "?") + "\t" + line + "\n")
        f.writelines(line + "\n" for line in more)


def main():
    store("evf", ["upgrade", "--to", "out"], *upgrade_steps())
    files, lines = recount_steps()
    new_files, worded = resave_steps()
    files.update(play_files())
    judged = badge_files()
    worded = [*played_first(files), *worded, *badge_copies(judged)]
    files.update({**new_files, **judged})
    more = [*play_lines(files), *badge_lines([name for name, _ in worded], files)]
    store("run_commands", ["resave", "--to", "out", "--rule", "2"], files, lines, worded, more)


if __name__ == "__main__":
    main()
