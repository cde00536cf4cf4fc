"""Cases of evf over the rule of rounding: `--rule N` before or behind `--to DIR`, the same lines and copies
under both rules, and what is wrong use, which touches no file."""
import itertools
import os

from make_cases import new, old
from evf_runs import (BACKWARDS, MEASURED, SAMPLE, SAMPLES, THIS_COPY, TWO, USE, case, counts, expect, get,
                      lines_of, names, put, resave_of, run, tally, upgrade_of)

COPIES = {"upgrade": upgrade_of, "resave": resave_of}
NEEDED = " --rule: 1 or 2 is needed"
PLACED = " --rule: write --rule N once, before the names; for a file of that name write ./ before it"
RULE = b"\n26  the rule of rounding is neither 1 nor 2\n      ask for rule 1 or 2\n"


def misused(command, words, told):
    """Wrong use is told, and nothing is read or made: not with names from standard input either."""
    put("in.evf", SAMPLE)
    os.mkdir("to")
    wanted = (2, b"", b"evf " + (command + told).encode() + b"\n" + USE)
    expect(run(command, *words, given=b"in.evf\n"), wanted)
    expect((names(), names("to"), get("in.evf") == SAMPLE), (["in.evf", "to"], [], True))


def wrong_uses():
    """The words behind a command, and what is told."""
    for number in ("0", "3", "9", "26", "255", "256", "257", "258", "-1", "+1", "01", "1.0", "12", "1 ", " 2",
                   "2\n", "one", "", "1" * 5000, "--to", "in.evf"):
        yield ["--rule", number, "in.evf", "out.evf"], NEEDED
        yield ["--rule", number, "--to", "to", "in.evf"], NEEDED
        yield ["--to", "to", "--rule", number, "in.evf"], NEEDED
    for words in ("--rule", "--to to --rule", "--rule --to to in.evf", "--rule in.evf out.evf",
                  "--rule --rule 2 in.evf out.evf"):
        yield words.split(), NEEDED
    for words in ("--rule 1 --rule 2 in.evf out.evf", "--rule 2 --to to --rule 2 in.evf",
                  "--to to --rule 1 --rule 2 in.evf", "in.evf out.evf --rule 2", "in.evf --rule 2 out.evf",
                  "in.evf --rule", "--to to in.evf --rule 2", "--to to in.evf in.evf --rule",
                  "--rule=2 in.evf out.evf", "--to to --rule=2 in.evf", "in.evf out.evf --rule=2"):
        yield words.split(), PLACED
    for words in ("--rule 2 --to", "--to --rule 2 in.evf", "--to --rule"):
        yield words.split(), " --to: no DIR"
    for words in ("--rule 2", "--rule 2 in.evf", "--rule 1 in.evf out.evf more"):
        yield words.split(), ": IN and OUT are needed, two names"
    yield "--rule 2 --frob in.evf".split(), ": no such option; for a file of that name write ./ before it"
    yield "--rule 2 --to in.evf in.evf".split(), " --to: DIR is not a folder"


def both_ways(data):
    """A file copied under either rule, as OUT and into a folder, is copied as without a rule; under the other
    rule its copy is there already."""
    put("in.evf", data)
    for command, copy_of in COPIES.items():
        status, line, copy = copy_of(data)
        last = counts(copy is not None, copy is None, 0)
        for rule, other in (("1", "2"), ("2", "1")):
            out, before, behind = (command + kind + rule for kind in ("-out", "-before", "-behind"))
            os.mkdir(before)
            os.mkdir(behind)
            expect(run(command, "--rule", rule, "in.evf", out), (status, line, b""), out)
            answer = (status, b"in.evf\t" + line, last)
            expect(run(command, "--rule", rule, "--to", before, "in.evf"), answer, before)
            expect(run(command, "--to", behind, "--rule", rule, given=b"in.evf"), answer, behind)
            if copy is None:
                expect((os.path.exists(out), names(before), names(behind)), (False, [], []), out)
                continue
            copies = [get(name) for name in (out, before + "/in.evf", behind + "/in.evf")]
            expect([one == copy for one in copies], [True] * 3, "the copies of " + out)
            expect(run(command, "--rule", other, "in.evf", out), (0, THIS_COPY, b""), "the other rule")
            expect(run(command, "in.evf", out), (0, THIS_COPY, b""), "no rule")


def many(command):
    """Files of all sorts under either rule, by words and by standard input."""
    copy_of = COPIES[command]
    files = {b"a/old.evf": SAMPLE, b"a/back.evf": BACKWARDS, b"a/new.evf": new(), b"a/metrics.evf": MEASURED,
             b"a/bad.evf": b"", b"a/country.evf": old(3, country=b"none", events=TWO)}
    os.mkdir("a")
    for name, data in files.items():
        put(name, data)
    status, last = tally(files, copy_of)
    wanted = (status, lines_of(files, copy_of), last)
    made = sorted(name[2:].decode() for name, data in files.items() if copy_of(data)[2])
    for rule, is_first, by_words in itertools.product("12", (True, False), (True, False)):
        folder = "to-%s-%d-%d" % (rule, is_first, by_words)
        os.mkdir(folder)
        options = (["--rule", rule, "--to", folder] if is_first else ["--to", folder, "--rule", rule])
        words, given = (list(files), b"") if by_words else ([], b"\n".join(files))
        expect(run(command, *options, *words, given=given), wanted, folder)
        expect(names(folder), made, folder)
        for name in made:
            expect(get(folder + "/" + name) == copy_of(files[b"a/" + name.encode()])[2], True, folder)


def named_so():
    """Files may be called --rule: behind ./ among the words, and as they are by standard input."""
    put("--rule", SAMPLE)
    put("2", SAMPLE)
    line = upgrade_of(SAMPLE)[1]
    expect(run("upgrade", "--rule", "2", "./--rule", "./--rule=2"), (0, line, b""))
    expect(get("--rule=2") == upgrade_of(SAMPLE)[2], True)
    for folder in ("one", "two", "--rules"):
        os.mkdir(folder)
    lines = [name + b"\t" + line for name in (b"./--rule", b"2", b"--rule")]
    expect(run("upgrade", "--to", "one", "./--rule", "2"), (0, b"".join(lines[:2]), counts(2, 0, 0)))
    expect(run("upgrade", "--to", "two", given=b"2\n--rule"), (0, b"".join(lines[1:]), counts(2, 0, 0)))
    expect(run("upgrade", "--to", "--rules", "2"), (0, lines[1], counts(1, 0, 0)), "DIR")
    expect((names("one"), names("two"), names("--rules")), (["--rule", "2"], ["--rule", "2"], ["2"]))


def others_take_none(command):
    """The commands that write nothing take no rule."""
    put("in.evf", SAMPLE)
    told = b"evf %s: no such option; for a file of that name write ./ before it\n" % command.encode()
    expect(run(command, "--rule", "2", "in.evf"), (2, b"", told + USE))


def helps():
    """The help has the option, and 26 among its refusals."""
    for command in COPIES:
        out = run("help", command)[1].decode()
        use = "evf %s [--rule N] IN OUT\nevf %s [--rule N] --to DIR FILE...\n\n" % (command, command)
        expect((out.startswith(use), out.count("\n\nN is the rule ")), (True, 1), command)
    for words in (["help"], ["help", "refusals"]):
        expect(RULE in run(*words)[1], True, " ".join(words))
    expect(b"--rule N" in run("help")[1], True)


def rules():
    for command in COPIES:
        for words, told in wrong_uses():
            shown = " ".join(word if word.strip() == word[:20] > "" else repr(word[:20]) for word in words)
            case("wrong use: %s %s" % (command, shown), misused, command, words, told)
    for name, data in SAMPLES.items():
        case("both rules: samples/" + name, both_ways, data)
    for told, data in (("version 4", new()), ("version 0", old(0, events=TWO)), ("no file", b""),
                       ("refused with 16", old(3, height=200, pixels=200, bits=bytes(50), events=TWO))):
        case("both rules: " + told, both_ways, data)
    for command in COPIES:
        case("both rules over many files: " + command, many, command)
    case("files called --rule", named_so)
    for command in ("check", "recount", "badge", "show", "play"):
        case("no rule: " + command, others_take_none, command)
    case("the help has the rule", helps)
