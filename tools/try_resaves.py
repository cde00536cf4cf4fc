"""Cases of evf over re-saves: custom metrics, game states, what a copy does not carry, replays that are sent
to the upgrade, names that are taken, and runs over many files."""
import itertools
import os

import evf
from make_cases import move, new, old, pause
from evf_runs import (MEASURED, SAMPLE, THIS_COPY, TWO, case, counts, expect, expect_other_file, get,
                      lines_of, names, put, resave_of, run, tally, upgrade_of)
from try_files import one_file

FIRST = move(2, 5, 8, 8)


def block(*texts):
    return evf.number(len(texts), 2) + b"".join(text + b"\0" for text in texts)


def metrics_kept():
    """The copy has the very bytes of the custom metrics, by looking for them, and reads as the same game but
    for its states."""
    texts = ("RQP 1.42".encode(), "效率 0.93".encode(), b"")
    put("in.evf", MEASURED)
    line = b"resaved\t743 bytes\t100 events\t3 metrics\t2 game states left out\n"
    expect(run("resave", "in.evf", "out.evf"), (0, line, b""))
    copy = get("out.evf")
    expect((MEASURED.count(block(*texts)), copy.count(block(*texts))), (1, 1), "the block")
    before, after = evf.read(MEASURED), evf.read(copy)
    states = list(evf.STATES.values())
    expect(after.events, [event for event in before.events if event[0] not in states], "the events")
    for name in ("flags", "height", "width", "mines", "pixels", "mode", "bbbv", "time", "start", "end",
                 "texts", "metrics_count", "block", "cells"):
        expect(getattr(after, name), getattr(before, name), name)
    expect(run("resave", "out.evf", "again.evf")[0], 0, "a second time")
    expect(get("again.evf") == copy, True, "a second time gives the same bytes")


def sent_on(version):
    """A replay of version 0 to 3 is told and counted as refused, and nothing is made; one that is not read is
    refused as ever."""
    data = old(version, events=TWO)
    put("in.evf", data)
    line = b"older\tversion %d: evf upgrade writes it as version 4\n" % version
    expect(run("resave", "in.evf", "out.evf"), (1, line, b""))
    os.mkdir("to")
    expect(run("resave", "--to", "to", "in.evf"), (1, b"in.evf\t" + line, counts(0, 1, 0)), "--to")
    expect((names(), names("to")), (["in.evf", "to"], []))
    put("cut.evf", data[:-1])
    expect(run("resave", "cut.evf", "out.evf"), (1, b"refused\t1\tthe file breaks off\n", b""))


def taken():
    """OUT is never overwritten; one that holds this very copy counts as done."""
    put("in.evf", MEASURED)
    put("out.evf", b"mine\n")
    expect_other_file(run("resave", "in.evf", "out.evf"))
    expect(get("out.evf"), b"mine\n")
    expect_other_file(run("resave", "in.evf", "in.evf"), what="IN is OUT")
    put("same.evf", resave_of(MEASURED)[2])
    expect(run("resave", "in.evf", "same.evf"), (0, THIS_COPY, b""))
    expect(run("resave", "same.evf", "same.evf"), (0, THIS_COPY, b""), "a copy as itself")
    expect((names(), get("in.evf") == MEASURED), (["in.evf", "out.evf", "same.evf"], True))


def mixed():
    """Files of all sorts by either way: those of version 4 are written, and the others told."""
    files = {b"a/new.evf": new(), b"a/metrics.evf": MEASURED, b"a/old.evf": SAMPLE, b"a/bad.evf": b"",
             b"a/large.evf": new(height=200, pixels=200, bits=bytes(50)),
             b"a/copy.evf": upgrade_of(SAMPLE)[2]}
    os.mkdir("a")
    for name, data in files.items():
        put(name, data)
    status, last = tally(files, resave_of)
    wanted = (status, lines_of(files, resave_of), last)
    made = sorted(name[2:].decode() for name, data in files.items() if resave_of(data)[2])
    for folder, words, given in (("one", list(files), b""), ("two", [], b"\n".join(files))):
        os.mkdir(folder)
        expect(run("resave", "--to", folder, *words, given=given), wanted, folder)
        expect(names(folder), made, folder)
    expect(all(get("one/" + name) == resave_of(files[b"a/" + name.encode()])[2] for name in made), True)
    new_ones = [name for name, data in files.items() if resave_of(data)[2]]
    answer = run("resave", "--to", "one", *new_ones)
    wanted = b"".join(name + b"\t" + THIS_COPY for name in new_ones)
    expect(answer, (0, wanted, counts(len(new_ones), 0, 0)), "a second time")


def resaves():
    case("the sample's metrics are kept", metrics_kept)
    for version in range(4):
        case("version %d is sent to the upgrade" % version, sent_on, version)
    case("OUT is there already", taken)
    case("files of all sorts", mixed)
    for texts in ([], [b""], [b"", b""], ["é".encode()] * 3, [b"m"] * 65535):
        case("%d metrics" % len(texts), one_file, new(metrics=block(*texts)))
    case("a metric of 100000 bytes", one_file, new(metrics=block(b"m" * 100000)))
    for bad in (b"\0\1", b"\0\1m", b"\0\1\xff\0", b"\0\2m\0"):
        case("metrics %r" % bad, one_file, new(metrics=bad, events=b"", stop=b""))
    for wait, state in itertools.product((0, 1, 255), (81, 82, 83, 99)):
        events = FIRST + bytes([state, 255]) + move(3, wait) + bytes([state, wait])
        case("a state %d, then %d ms" % (state, wait), one_file, new(events=events))
    case("257 states, then an event", one_file, new(events=FIRST + b"\x52\xff" * 257 + move(3, 255)))
    between = b"\x64\xfe" + pause(0) + pause(700)
    case("skipped codes and pauses", one_file, new(events=FIRST + between + move(3, 9)))
    for country in (b"cn", b"XX", b"x1", b"\xc3\xa9", b"  "):
        case("country %r" % country, one_file, new(country=country))
    for behind in (1, 70000):
        case("%d bytes behind the end" % behind, one_file, new(stop=b"\0\0\2ab") + bytes(behind))
    case("refused with 16", one_file, new(height=200, pixels=200, bits=bytes(50)))
    case("the most device bytes and checksum", one_file,
         new(device=b"d" * 65535, stop=b"\0\xff\xff" + bytes(65535)))
