"""Cases of evf over files that are as they should be, or not: use and help, each refusal, what a copy
carries, lengths, and runs over many files."""
import itertools
import os
import random
import re

import evf
from evf import YUAN
from make_cases import new, old, rec
from evf_runs import (BACKWARDS, LIMIT, OTHER_FILE, ROOT, SAMPLE, SAMPLES, THIS_COPY, TWO, REFUSALS, archive,
                      badge_of, case, check_of, checked, counts, expect, failed, get, lines_of, longest,
                      longest_resaved, many_events, names, piped, play_of, put, recount_of, resave_of, run, short,
                      tally, upgrade_of)


LONGEST_NAME = 4095
BLOCK = 65536  # the bytes of a block of names


# use and help

def is_told(err):
    expect(err.endswith(b"\n") and len(err) > 10, True, "told on standard error")


def wrong_use(words):
    put("in.evf", SAMPLE)
    status, out, err = run(*words)
    expect((status, out), (2, b""))
    is_told(err)
    expect(names(), ["in.evf"])


def helps(words):
    status, out, err = run(*words)
    expect((status, err), (0, b""))
    expect(out.endswith(b"\n") and len(out) > 40, True, "a text")
    for word in [words[1]] if words[0] == "help" and words[1:] and words[1] != "refusals" else []:
        expect(word.encode() in out, True, word)


def help_has_refusals(words):
    """Each refusal that a command answers, in the words of its line, and what can be done."""
    out = run(*words)[1]
    for number in [*REFUSED, 27, 28]:
        for text in REFUSALS[number]:
            expect(text in out, True, "of %d: %s" % (number, text.decode()))


def without_status():
    """Nothing goes to descriptor 3 unless it is asked for."""
    put("in.evf", SAMPLE)
    expect(run("check", "in.evf", told=False), (None, check_of(SAMPLE)[1], b""))
    expect(run("check", told=False, given=b"in.evf\n")[0], None)
    expect(run("check", "no.evf", told=False)[0], None)


def to_elsewhere():
    """--to behind other words is the name of a file."""
    put("in.evf", SAMPLE)
    expect(run("upgrade", "in.evf", "--to"), (0, upgrade_of(SAMPLE)[1], b""))
    expect((names(), get("--to")), (["--to", "in.evf"], upgrade_of(SAMPLE)[2]))
    line = check_of(upgrade_of(SAMPLE)[2])[1]
    lines = b"in.evf\t" + check_of(SAMPLE)[1] + b"--to\t" + line
    expect(run("check", "in.evf", "--to"), (0, lines, counts(2, 0, 0)))


def use_and_help():
    for words in ("", "frob", "--frob", "check --frob", "check --", "check --to in.evf", "recount --frob",
                  "recount --", "badge --frob", "badge --",
                  "upgrade", "upgrade in.evf", "upgrade in.evf b c", "upgrade --to",
                  "upgrade --frob in.evf", "resave", "resave in.evf", "resave in.evf b c", "resave --to",
                  "resave --frob in.evf", "show", "show in.evf b", "show --frob", "play", "play in.evf b", "play --frob", "help frob",
                  "Check in.evf"):
        case("wrong use: " + words, wrong_use, words.split())
    case("wrong use: an empty word", wrong_use, [""])
    for words in ("help", "--help", "-h", "check --help", "check -h", "upgrade --help", "upgrade -h",
                  "resave --help", "resave -h", "show --help", "show -h", "play --help", "play -h", "recount --help", "recount -h",
                  "badge --help", "badge -h", "help check", "help recount", "help badge",
                  "help upgrade", "help resave", "help show", "help play", "help refusals"):
        case("help: " + words, helps, words.split())
    for words in (["help"], ["help", "refusals"]):
        case("each refusal in %s" % " ".join(words), help_has_refusals, words)
    case("without --status", without_status)
    case("--to elsewhere", to_elsewhere)


# one file

def copied(command, wanted, out, folder):
    """in.evf copied in both forms; nothing else is made."""
    status, line, copy = wanted
    before, refused = names(), copy is None
    expect(run(command, "in.evf", out), (status, line, b""), command)
    expect(names(), sorted(before + [out] * (not refused)), command)
    os.mkdir(folder)
    last = counts(not refused, refused, 0)
    expect(run(command, "--to", folder, "in.evf"), (status, b"in.evf\t" + line, last), command + " --to")
    expect(names(folder), ["in.evf"] * (not refused), command + " --to")
    if copy is not None:
        expect((get(out) == copy, get(folder + "/in.evf") == copy), (True, True), "the copies of " + command)


def one_file(data):
    """A file upgraded and re-saved in both forms, checked, recounted, judged, played and shown; IN stays."""
    put("in.evf", data)
    os.chmod("in.evf", 0o444)
    stamp = os.stat("in.evf").st_mtime_ns
    copied("upgrade", upgrade_of(data), "out.evf", "to")
    copied("resave", resave_of(data), "again.evf", "anew")
    check = (*check_of(data), b"")
    expect(run("check", "in.evf"), check, "check")
    expect(run("recount", "in.evf"), (*recount_of(data), b""), "recount")
    expect(run("badge", "in.evf"), (*badge_of(data), b""), "badge")
    expect(run("play", "in.evf"), (*play_of(data), b""), "play")
    answer = run("show", "in.evf")
    if check[0]:
        expect(answer, check, "show")
    else:
        expect((answer[0], answer[2], answer[1][-1:], len(answer[1]) > 40), (0, b"", b"\n", True), "show")
    expect((get("in.evf") == data, os.stat("in.evf").st_mtime_ns), (True, stamp), "IN stays")


def refusal(number, data):
    try:
        expect(len(evf.upgrade(data)), "a refusal")
    except evf.Refused as why:
        expect(why.args[0], number, "evf.py")
    one_file(data)


VIENNA = dict(software=b"Viennasweeper")
REFUSED = {  # a file for each number that an upgrade answers
    1: b"", 2: b"\x05", 3: old(3, software=b"\xff"), 4: old(3, software=b"Arbiter"), 5: old(3, start=b"x"),
    6: old(3, start=b"18446744073710", **VIENNA), 7: old(3, height=0), 8: new(events=b"\x03\x05\0\x08\0\x08"),
    9: new(events=b"\x02\x05\0\x08\0\x08\x0d"),
    10: new(events=b"\x02\x05\0\x08\0\x08" + b"\xff\xff\xff" * 65538), 13: new(),
    16: old(3, height=200, pixels=200, bits=bytes(50), events=TWO), 19: old(3, player=b"\xff", events=TWO),
    20: old(3, device=b"d" * 65536, events=TWO), 21: old(3), 22: old(3, events=TWO + rec(1, 299, 0, 0))}


def too_long(length):
    put("in.evf", b"\x03" * length)
    words = b"longer than 2097152 bytes"
    for command in (["check", "in.evf"], ["recount", "in.evf"], ["badge", "in.evf"], ["show", "in.evf"],
                    ["play", "in.evf"], ["upgrade", "in.evf", "out.evf"], ["resave", "in.evf", "out.evf"]):
        expect(run(*command), failed(b"in.evf", words), command[0])
    expect(names(), ["in.evf"])


def single_files():
    for name, data in SAMPLES.items():
        expect(get(os.path.join(ROOT, "samples", name)), data)
        case("samples/" + name, one_file, data)
    for number, data in REFUSED.items():
        case("refusal %d" % number, refusal, number, data)
    for version in range(4):
        case("version %d" % version, one_file, old(version, events=TWO, stop=b"\0" + bytes(range(32))))
    case("version 4", one_file, new())
    case("no columns", one_file, old(3, width=0, bits=b"", events=TWO))
    case("a version 4 copy", one_file, upgrade_of(SAMPLE)[2])
    case("255 rows and columns", one_file, old(3, height=255, width=255, bits=bytes(8129), events=TWO))
    case("more mines told than found", one_file, old(3, mines=999, events=TWO))


def texts_carried():
    for country in (b"cn", b"XX", b"xX", b"", b"chn", b"c", b"\xc3\xa9", b"\xff\xfe", b"c1", b"Austria"):
        case("country %r" % country, one_file, old(3, country=country, events=TWO))
    for software in (b"", b"Minesweeper Clone 0.97", b"Viennasweeper 3", YUAN + b"3.2"):
        for start, end in ((b"", b""), (b"1", b""), (b"", b"2"), (b"5", b"7")):
            case("software %r, start %r, end %r" % (software, start, end), one_file,
                 old(3, software=software, start=start, end=end, events=TWO))
    for behind in (1, 12, 70000):
        case("%d bytes behind the end" % behind, one_file, old(3, events=TWO) + b"x" * behind)
        summed = old(3, events=TWO, stop=b"\0" + bytes(32))
        case("%d bytes behind a checksum" % behind, one_file, summed + bytes(behind))
    everything = old(3, software=b"Other", country=b"none", events=TWO) + b"xx"
    case("nothing of all three", one_file, everything)
    case("texts of control bytes", one_file, old(3, player=b"a\tb\nc\x1b[31m\x7f", race=b"\r", events=TWO))


def lengths():
    full, grown = many_events(LIMIT), longest(LIMIT)
    expect((len(full), len(grown), len(evf.upgrade(grown))), (LIMIT, LIMIT, LIMIT + 65558))
    case("2097152 bytes", one_file, full)
    case("2097152 bytes, the longest copy", one_file, grown)
    grown, more = longest_resaved(LIMIT)
    expect((len(grown), len(evf.resave(grown)), more > LIMIT // 8 - 20), (LIMIT, LIMIT + more, True))
    case("2097152 bytes, the longest copy of a re-save", one_file, grown)
    for length in (LIMIT + 1, 3 * LIMIT):
        case("%d bytes" % length, too_long, length)


# many files

def whole_archive(way):
    """3,000 files, named by standard input or as arguments, checked and upgraded, and upgraded again."""
    files = archive()
    os.mkdir("to")
    more, given = ([], b"".join(name + b"\n" for name in files)) if way == "input" else (list(files), b"")
    expect(run("check", *more, given=given), checked(files), "check")
    status, last = tally(files, upgrade_of)
    upgraded = run("upgrade", "--to", "to", *more, given=given)
    expect(upgraded, (status, lines_of(files, upgrade_of), last), "upgrade")
    copies = {os.path.basename(name): upgrade_of(data)[2] for name, data in files.items()}
    made = {name: copy for name, copy in copies.items() if copy is not None}
    expect(sorted(os.listdir(b"to")), sorted(made))
    stamps = {name: os.stat(b"to/" + name).st_mtime_ns for name in made}
    again = lambda data: (status, THIS_COPY if upgrade_of(data)[2] else upgrade_of(data)[1])
    upgraded = run("upgrade", "--to", "to", *more, given=given)
    expect(upgraded, (status, lines_of(files, again), last), "a second time")
    expect(all(get(b"to/" + name) == copy for name, copy in made.items()), True, "the copies")
    expect({name: os.stat(b"to/" + name).st_mtime_ns for name in made}, stamps, "untouched the second time")
    expect(sorted(os.listdir(b"to")), sorted(made))
    return "%d files" % len(files)


def goes_on_where_it_was():
    """A run over an archive whose first half is done already; nothing refused, so status 0."""
    files = {name: data for name, data in archive(300).items() if data != BACKWARDS}
    os.mkdir("to")
    half = dict(itertools.islice(files.items(), 150))
    expect(run("upgrade", "--to", "to", given=b"\n".join(half))[0], 0)
    lines = [THIS_COPY if name in half else upgrade_of(data)[1] for name, data in files.items()]
    wanted = b"".join(name + b"\t" + line for name, line in zip(files, lines))
    expect(run("upgrade", "--to", "to/", given=b"\n".join(files)), (0, wanted, counts(len(files), 0, 0)))


def at_edge(files, offset):
    """Names of files, longer by slashes, so that byte BLOCK * k + offset is a newline for k from 1 on."""
    out, at, edge = [], 0, BLOCK + offset
    for k, name in enumerate(itertools.cycle(files)):
        if at > 3 * BLOCK + 5000:
            return out
        slashes = 20 + 37 * k % 61
        if edge - 400 < at + len(name) + 1 <= edge:
            slashes = edge - at - len(name) + 1
            edge += BLOCK
        out.append(name.replace(b"/", b"/" * slashes))
        at += len(out[-1]) + 1


def edges(chunk=None, reach=5):
    """A newline on each place around the edges of blocks; the names come from a file, or by a pipe."""
    files = archive(50)
    for offset in range(-reach, reach + 1):
        long_names = at_edge(files, offset)
        given = b"".join(name + b"\n" for name in long_names)
        expect([given[BLOCK * k + offset:BLOCK * k + offset + 1] for k in (1, 2, 3)], [b"\n"] * 3)
        by_name = [(name, files[re.sub(b"/+", b"/", name)]) for name in long_names]
        lines = b"".join(name + b"\t" + check_of(data)[1] for name, data in by_name)
        refused = sum(check_of(data)[0] for _, data in by_name)
        answer = run("check", given=piped(given, chunk) if chunk else given)
        last = counts(len(by_name) - refused, refused, 0)
        expect(answer, (int(refused > 0), lines, last), "offset %d" % offset)
    return "%d names each" % len(long_names)


ODD = [b"a b", b"a\tb", b" lead", b"trail ", b"\x01\x1f\x7f", b"\xff\xfe", "Ада".encode(), b"\"'`$;\\", b"-x",
       b"*", b"\r", b"a\rb", b"\xc2\x85", "扫雷".encode(), b"%s%n", b".hidden", b"x" * 255]


def odd_names():
    """Names with spaces, tabs and odd bytes, by either way; control bytes are shown as ?."""
    for name in ODD:
        put(name, SAMPLE)
    files = dict.fromkeys([b"./" + name for name in ODD], SAMPLE)
    expect(run("check", *files), checked(files), "arguments")
    expect(run("check", given=b"\n".join(files)), checked(files), "input")
    os.mkdir("to")
    expect(run("upgrade", "--to", "to", *files)[:2], (0, lines_of(files, upgrade_of)))
    expect(sorted(os.listdir(b"to")), sorted(ODD))
    put(b"new\nline", SAMPLE)
    both = {b"new\nline": SAMPLE, b"./a b": SAMPLE}
    expect(run("check", *both)[1], lines_of(both, check_of), "a newline in a name")
    expect(run("check", b"no\x1bsuch"), failed(b"no?such", b"no such file or folder"))


def empty_lines():
    put("a.evf", SAMPLE)
    line = b"a.evf\t" + check_of(SAMPLE)[1]
    for given in (b"", b"\n", b"\n\n\n", b"a.evf", b"a.evf\n", b"\n\na.evf\n\n", b"a.evf\n\na.evf",
                  b"\n" * 70000 + b"a.evf", b"a.evf\n" + b"\n" * 140000):
        count = given.count(b"a.evf")
        expect(run("check", given=given), (0, line * count, counts(count, 0, 0)), short(given))


def long_names():
    """Names of up to 4095 bytes are taken; a longer one is told once, passed over, and counts as failed."""
    os.mkdir("a")
    put("a/x.evf", SAMPLE)
    name = lambda length: b"a" + b"/" * (length - 6) + b"x.evf"
    line = check_of(SAMPLE)[1]
    for length in (4094, LONGEST_NAME):
        wanted = (0, name(length) + b"\t" + line, counts(1, 0, 0))
        expect(run("check", given=name(length)), wanted, "%d bytes" % length)
    for length in (LONGEST_NAME + 1, 5000, BLOCK - 1, BLOCK, BLOCK + 1, 3 * BLOCK + 7):
        for before, behind in itertools.product((0, 1, 7), (b"", b"\n", b"\na/x.evf\n", b"\na/x.evf")):
            given = b"a/x.evf\n" * before + b"\n" * 60000 + name(length) + behind
            status, out, err = run("check", given=given)
            told, good = name(length)[:64] + b"...", before + behind.count(b"x.evf")
            rest = b"".join(one for one in out.splitlines(True) if not one.startswith(told))
            expect((status, max(out.count(told), err.count(told))), (2, 1), "%d bytes" % length)
            expect(err.endswith(counts(good, 0, 1)), True, "the counts: %r" % err[-80:])
            expect(rest, (b"a/x.evf\t" + line) * good)


def not_names():
    """Lines that no file can have for a name, among others."""
    put("a.evf", SAMPLE)
    line = b"a.evf\t" + check_of(SAMPLE)[1]
    status, out, err = run("check", given=b"a.evf\na\0b\nno.evf\na.evf\n")
    expect((status, out.count(line), out.count(b"failed\t")), (2, 2, 2))
    expect(b"no.evf\tfailed\tno such file or folder\n" in out, True)
    expect((b"evf: no.evf: no such file or folder\n" in err, err.endswith(counts(2, 0, 2))), (True, True))
    expect(run("check", ""), failed(b"", b"no such file or folder"), "an empty argument")
    status, out, err = run("check", given=os.open(".", os.O_RDONLY))
    expect((status, out), (2, b""), "standard input is a folder")
    expect(b"standard input" in err and b"a folder, not a file" in err, True, short(err))


def clashes():
    """Files whose last parts are the same: the second stays out, unless its copy is the same."""
    other = old(3, player=b"Other", events=TWO)
    for folder, data in (("a", SAMPLE), ("b", other), ("c", SAMPLE), ("to", None)):
        os.mkdir(folder)
        if data:
            put(folder + "/x.evf", data)
    line = upgrade_of(SAMPLE)[1]
    answer = run("upgrade", "--to", "to", "a/x.evf", "b/x.evf", "c/x.evf")
    expect(answer[:2], (2, b"a/x.evf\t" + line + b"b/x.evf\t" + OTHER_FILE + b"c/x.evf\t" + THIS_COPY))
    expect(answer[2].endswith(counts(2, 0, 1)), True, short(answer[2]))
    expect((names("to"), get("to/x.evf")), (["x.evf"], upgrade_of(SAMPLE)[2]))
    answer = run("upgrade", "--to", "a", "a/x.evf")
    expect(answer[:2], (2, b"a/x.evf\t" + OTHER_FILE), "--to the folder of the file itself")
    expect((names("a"), get("a/x.evf")), (["x.evf"], SAMPLE))


def wrong_folders():
    """A DIR that is none is told, and nothing is made; so are files that are none."""
    put("in.evf", SAMPLE)
    put("file", b"mine")
    for folder in ("no", "file", "", "file/x"):
        status, out, err = run("upgrade", "--to", folder, "in.evf")
        expect((status, b"upgraded" in out, names()), (2, False, ["file", "in.evf"]), folder)
        is_told(err)
    os.mkdir("to")
    answer = run("upgrade", "--to", "to", "in.evf", "to", "to/", ".", "no/in.evf", "")
    found = [answer[1].count(word) for word in (b"failed\t", b"upgraded\t")]
    expect((answer[0], found), (2, [5, 1]), short(answer))
    expect((names(), names("to"), get("file")), (["file", "in.evf", "to"], ["in.evf"], b"mine"))


def one_name_by_input():
    """One name from standard input, or --to with one, is a run over many files."""
    put("in.evf", SAMPLE)
    os.mkdir("to")
    expect(run("check", given=b"in.evf"), (0, b"in.evf\t" + check_of(SAMPLE)[1], counts(1, 0, 0)))
    line = b"in.evf\t" + upgrade_of(SAMPLE)[1]
    expect(run("upgrade", "--to", "to", given=b"in.evf"), (0, line, counts(1, 0, 0)))
    lines = b"in.evf\t" + check_of(SAMPLE)[1] + b"no.evf\tfailed\tno such file or folder\n"
    told = b"evf: no.evf: no such file or folder\n" + counts(1, 0, 1)
    expect(run("check", "in.evf", "no.evf"), (2, lines, told))
    put("bad.evf", BACKWARDS)
    answer = run("upgrade", "--to", "to", "bad.evf", "no.evf")
    expect((answer[0], answer[2].endswith(counts(0, 1, 1))), (2, True), "2 wins over 1")


def recounts():
    """Files recounted by either way: 0 where all are the same, 1 where one differs or is refused, 2 where one
    failed; those that differ are counted apart."""
    mines = random.Random(1).randbytes(8129)
    files = {b"same.evf": SAMPLE, b"v4.evf": upgrade_of(SAMPLE)[2],
             b"no-columns.evf": old(3, width=0, bits=b"", bbbv=0), b"other.evf": old(3, bbbv=2),
             b"large.evf": old(3, height=255, width=255, bits=mines), b"bad.evf": b""}
    for name, data in files.items():
        put(name, data)
    for some, status, last in ((3, 0, counts(3, 0, 0)), (4, 1, counts(3, 0, 0, 1)),
                               (5, 1, counts(3, 0, 0, 2)), (6, 1, counts(3, 1, 0, 2))):
        first = dict(itertools.islice(files.items(), some))
        wanted = (status, lines_of(first, recount_of), last)
        expect(run("recount", *first), wanted, "arguments")
        expect(run("recount", given=b"\n".join(first)), wanted, "input")
    expect(run("recount", "bad.evf", "same.evf")[0::2], (1, counts(1, 1, 0)), "refused alone")
    answer = run("recount", *files, "no.evf")
    lines = lines_of(files, recount_of) + b"no.evf\tfailed\tno such file or folder\n"
    told = b"evf: no.evf: no such file or folder\n" + counts(3, 1, 1, 2)
    expect(answer, (2, lines, told), "2 wins over 1")


def many_files():
    for way in ("input", "arguments"):
        case("an archive by " + way, whole_archive, way)
    case("an archive that is half done", goes_on_where_it_was)
    case("newlines at the edges of blocks", edges)
    for chunk in (1, 4095, BLOCK):
        case("the same by a pipe, %d bytes at a time" % chunk, edges, chunk, 1)
    case("odd names", odd_names)
    case("empty lines", empty_lines)
    case("long names", long_names)
    case("no names", not_names)
    case("names that clash", clashes)
    case("wrong folders", wrong_folders)
    case("one name by input", one_name_by_input)
    case("files recounted", recounts)
