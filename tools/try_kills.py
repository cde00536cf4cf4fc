"""Cases of evf that is killed: at any moment, at each system call, and beside other runs; and what its system
calls are."""
import fcntl
import os
import random
import re
import shutil
import signal
import tempfile
import time

from make_cases import old, rec
from evf_runs import (BACKWARDS, BIG, LIMIT, SAMPLE, THIS_COPY, TWO, Job, archive, case, checked, chosen,
                      counts, expect, expect_in, expect_match, expect_other_file, failed, finished, get,
                      left_out, many_events, names, parts, put, run, state_of, told_states, upgrade_of)


# kills

def moments(start, seed):
    """Moments by chance over the time that a run takes from its start on, by the median of some."""
    spent, chance = [], random.Random(seed)
    for k in range(9):
        job = start(k)
        began = job.begun()
        job.end()
        spent.append(time.perf_counter() - began)
    return lambda: chance.uniform(0, 1.1 * sorted(spent)[4])


def kill_at(job, moment):
    """Kills a run that moment after its start."""
    began = job.begun()
    time.sleep(max(0, moment - (time.perf_counter() - began)))
    os.kill(job.pid, signal.SIGKILL)
    return job.end()


def kills_of_one(data, count, seed):
    """Kills at moments spread over the time of a run, each followed by a run again."""
    put("in.evf", data)
    copy, left = upgrade_of(data)[2], {}
    moment = moments(lambda k: Job("upgrade", "in.evf", "time%d.evf" % k, gated=True), seed)
    for name in set(names()) - {"in.evf"}:
        os.unlink(name)
    for k in range(count):
        out = "out%d.evf" % k
        kill_at(Job("upgrade", "in.evf", out, gated=True), moment())
        state = state_of(out, copy)
        left[state] = left.get(state, 0) + 1
        finished(out, data)
        os.unlink(out)
    return "%d kills: %s" % (count, told_states(left))


def kills_of_many(count, seed):
    """The same of a run over twelve files."""
    files = {b"f%d.evf" % k: old(3, player=b"%d" % k * 500 * (k % 3 + 1), events=TWO) for k in range(12)}
    copies = {name: upgrade_of(data)[2] for name, data in files.items()}
    for name, data in files.items():
        put(name, data)
    given, before = b"\n".join(files), 0

    def start(k):
        os.mkdir("time%d" % k)
        return Job("upgrade", "--to", "time%d" % k, given=given, gated=True)
    moment = moments(start, seed)
    for k in range(count):
        os.mkdir("to")
        kill_at(Job("upgrade", "--to", "to", given=given, gated=True), moment())
        there = [name for name in os.listdir(b"to") if not name.endswith(b".part")]
        before += len(there)
        expect(len(parts("to")) < 2, True, "parts: %r" % parts("to"))
        for name in there:
            expect_in(get(b"to/" + name), (b"", copies[name]), "whole")
        answer = run("upgrade", "--to", "to", given=given)
        expect((answer[0], answer[2]), (0, counts(12, 0, 0)), "a run again")
        expect({name: get(b"to/" + name) for name in os.listdir(b"to")} == copies, True, "after a run again")
        shutil.rmtree("to")
    return "%d kills, %.1f of 12 names there" % (count, before / max(count, 1))


def kills_of_two(count, seed):
    """Two runs at one OUT, one of which is killed: the other makes it, or a run again."""
    put("in.evf", SAMPLE)
    copy = upgrade_of(SAMPLE)[2]
    moment = moments(lambda k: Job("upgrade", "in.evf", "time%d.evf" % k, gated=True), seed)
    for name in set(names()) - {"in.evf"}:
        os.unlink(name)
    for k in range(count):
        other = Job("upgrade", "in.evf", "out.evf")
        kill_at(Job("upgrade", "in.evf", "out.evf", gated=True), moment())
        expect(other.end()[0], 0, "the run that was left alone")
        expect(get("out.evf") == copy, True, "OUT is whole")
        finished("out.evf", SAMPLE)
        os.unlink("out.evf")
    return "%d kills" % count


def kills():
    third = chosen.kills // 3
    patience = 60 + chosen.kills
    case("kills, a small file", kills_of_one, SAMPLE, chosen.kills - 2 * third, 1, patience=patience)
    case("kills, a file of 400000 bytes", kills_of_one, BIG, third, 2, patience=patience)
    case("kills, twelve files", kills_of_many, third, 3, patience=patience)
    case("kills, one of two runs", kills_of_two, third, 4, patience=patience)


# strace

STRACE = shutil.which("strace")


def traced(words, *options, given=b"", told=True, **more):
    """A run under strace."""
    line = [STRACE, "-f", "-qq", *options, chosen.program] + (["--status"] if told else [])
    return Job(*words, runs=line, told=False, given=given, **more).end()


def can_trace():
    if not STRACE:
        return False
    with tempfile.TemporaryDirectory() as folder:
        trace = os.path.join(folder, "trace")
        return traced(["help"], "-o", trace, "-e", "inject=write:signal=KILL:when=1")[0] == -9


def calls_of(words, first, given=b""):
    """The system calls of a run, from the first on that names a file: the name of each, which of that name it
    is, as strace counts, and its text."""
    traced(words, "-o", "trace", "-s", "200", given=given)
    lines = get("trace").decode(errors="replace").splitlines()
    os.unlink("trace")
    calls, seen = [], {}
    for line in lines:
        call = re.match(r"\d+\s+([a-z0-9_]+)\((.*)", line)
        if call and call[1] not in ("execve", "exit_group", "brk", "mmap", "munmap", "mprotect"):
            seen[call[1]] = seen.get(call[1], 0) + 1
            if calls or '"%s"' % first in line:
                calls.append((call[1], seen[call[1]], call[2]))
    expect(len(calls) > 2, True, "calls from %s on" % first)
    return calls


def struck(words, name, number, how, **more):
    """A run to which a system call does something: the call of that name and number."""
    return traced(words, "-o", "/dev/null", "-e", "inject=%s:%s:when=%d" % (name, how, number), **more)


def killed_at_calls(data):
    """A kill at the entry of each system call of an upgrade, and a run again."""
    put("in.evf", data)
    copy, left = upgrade_of(data)[2], {}
    calls = calls_of(["upgrade", "in.evf", "out.evf"], "in.evf")
    os.unlink("out.evf")
    for name, k, _ in calls:
        answer = struck(["upgrade", "in.evf", "out.evf"], name, k, "signal=KILL")
        expect(answer[0], -9, "killed at %s %d" % (name, k))
        state = state_of("out.evf", copy)
        left[state] = left.get(state, 0) + 1
        finished("out.evf", data)
        os.unlink("out.evf")
    for state in ("no part", "a part", "a whole part", "an empty OUT", "OUT"):
        expect(state in left, True, "a kill leaves " + state)
    return "%d calls: %s" % (len(calls), told_states(left))


def killed_at_calls_of_many():
    """The same of --to with three names from standard input, one of them refused."""
    files = {b"a.evf": SAMPLE, b"b.evf": BACKWARDS, b"c.evf": old(3, player=b"C", events=TWO)}
    for name, data in files.items():
        put(name, data)
    words, given = ["upgrade", "--to", "to"], b"\n".join(files)
    os.mkdir("to")
    calls = calls_of(words, "a.evf", given)
    for name, k, _ in calls:
        shutil.rmtree("to")
        os.mkdir("to")
        answer = struck(words, name, k, "signal=KILL", given=given)
        expect(answer[0], -9, "killed at %s %d" % (name, k))
        answer = run(*words, given=given)
        expect((answer[0], answer[2]), (1, counts(2, 1, 0)), "a run again")
        copies = {name: upgrade_of(files[name])[2] for name in (b"a.evf", b"c.evf")}
        expect({name: get(b"to/" + name) for name in os.listdir(b"to")}, copies)
    return "%d calls" % len(calls)


def overtaken():
    """Two runs with other files at one OUT: the one makes its name, and the other, which had found it free,
    comes to it before the first has renamed its part. Neither writes over what the other was told to have."""
    files = {"a.evf": old(3, player=b"A", events=TWO), "b.evf": old(3, player=b"Bee", events=TWO)}
    for name, data in files.items():
        put(name, data)
    line = [STRACE, "-f", "-qq", "-o", "/dev/null", "-e"]
    waits = ["inject=rename:delay_enter=250000:when=1", "inject=fsync:delay_enter=150000:when=1"]
    words = ["--status", "upgrade"]
    second = Job(*words, "b.evf", "out.evf", told=False, runs=line + [waits[1], chosen.program])
    time.sleep(0.07)
    first = Job(*words, "a.evf", "out.evf", told=False, runs=line + [waits[0], chosen.program])
    jobs = [first, second]
    answers = [job.end() for job in jobs]
    won = [name for name, answer in zip(files, answers) if answer[0] == 0]
    expect(len(won), 1, "who made OUT: %r" % answers)
    expect((get("out.evf") == upgrade_of(files[won[0]])[2], parts()), (True, []))


def errors_at_calls(error):
    """An error from each system call of an upgrade: the program says so or goes on; OUT is never a part of a
    copy, and a run again makes it whole with nothing left over."""
    put("in.evf", SAMPLE)
    copy, told = upgrade_of(SAMPLE)[2], {}
    calls = calls_of(["upgrade", "in.evf", "out.evf"], "in.evf")
    os.unlink("out.evf")
    for name, number, _ in calls:
        answer = struck(["upgrade", "in.evf", "out.evf"], name, number, "error=" + error)
        what = "%s from %s %d" % (error, name, number)
        expect_in(answer[0], (None, 0, 2), what)
        if answer[1].startswith(b"upgraded"):
            expect((os.path.exists("out.evf") and get("out.evf") == copy, parts()), (True, []), what)
        if answer[0] == 2:
            expect_match(rb"(evf: [^\n]+\n)+", answer[2], what)
        state_of("out.evf", copy)
        told[answer[0]] = told.get(answer[0], 0) + 1
        finished("out.evf", SAMPLE)
        os.unlink("out.evf")
    return "%d calls, %d told" % (sum(told.values()), told.get(2, 0))


ERRORS = {
    "ENOENT": b"no such file or folder", "EPERM": b"permission denied", "EACCES": b"permission denied",
    "ENOTDIR": b"a part of the name is no folder", "EISDIR": b"a folder, not a file",
    "EEXIST": b"the name is taken", "ENOSPC": b"no room left on the device",
    "EDQUOT": b"the disk quota is used up", "EROFS": b"the file system is read-only",
    "ENAMETOOLONG": b"the name is too long", "ELOOP": b"too many links", "EIO": b"the device failed",
    "EFBIG": b"the file would be too large", "ENFILE": b"too many open files",
    "EMFILE": b"too many open files", "ENOMEM": b"no memory left", "EINVAL": b"a name that no file can have",
    "ENXIO": b"no such device", "EXDEV": b"the system's error 18", "ESTALE": b"the system's error 116"}


def words_of_errors():
    """Each error of the system in words, told where IN is opened."""
    put("in.evf", SAMPLE)
    calls = calls_of(["check", "in.evf"], "in.evf")
    opening = [k for name, k, text in calls if name == "openat" and '"in.evf"' in text]
    expect(len(opening), 1, "calls that open in.evf")
    for error, words in ERRORS.items():
        answer = struck(["check", "in.evf"], "openat", opening[0], "error=" + error)
        expect(answer, failed(b"in.evf", words), error)
    return "%d errors" % len(ERRORS)


def writes_of(words, given=b"", runs=None, **more):
    """The bytes of each write to standard output and standard error."""
    line = [STRACE, "-f", "-qq", "-o", "trace", "-e", "trace=write,writev", "-xx", "-s", "3000000"]
    line += runs or [chosen.program, "--status"]
    answer = Job(*words, runs=line, told=False, given=given, **more).end()
    text = get("trace").decode()
    os.unlink("trace")
    writes = {1: [], 2: []}
    for fd, quoted in re.findall(r'write\((\d+), "([^"]*)"', text):
        if int(fd) in writes:
            writes[int(fd)].append(bytes.fromhex(quoted.replace("\\x", "")))
    expect("writev" in text, False, "writev is not looked into")
    return answer, writes


def lines_in_one_write(words, given=b""):
    """No write ends inside a line; a line of one file goes out in one write."""
    put("a.evf", SAMPLE)
    put("b.evf", BACKWARDS)
    os.mkdir("to")
    answer, writes = writes_of(words, given)
    for fd in (1, 2):
        expect(b"".join(writes[fd]), answer[fd])
        for one in writes[fd]:
            expect(one[-1:], b"\n", "the end of a write: %r" % one[-60:])
    return "%d and %d writes" % (len(writes[1]), len(writes[2]))


def show_in_one_write():
    for name, data in (("small", SAMPLE), ("large", many_events(60000)), ("huge", many_events(LIMIT)),
                       ("board", old(3, height=255, width=255, bits=b"\xa5" * 8129, events=TWO))):
        put(name, data)
        answer, writes = writes_of(["show", name])
        expect((answer[0], len(writes[1])), (0, 1), "show " + name)
    return "the last of %d bytes" % len(answer[1])


def evflist_in_large_writes():
    evflist = os.path.join(os.path.dirname(chosen.program), "evflist")
    if not os.access(evflist, os.X_OK):
        return "left out: no evflist beside the program"
    data = old(3, events=rec(2, 0, 8, 8) + b"".join(rec(1, 60 * k, k % 600, k % 500) for k in range(1, 2000)))
    answer, writes = writes_of([], given=data, runs=[evflist])
    size = sum(map(len, writes[1]))
    told = "%d writes of %d bytes" % (len(writes[1]), size)
    expect((answer[1].count(b"\n") >= 2000, len(writes[1]) <= 1 + size // 60000), (True, True), told)
    expect([one[-1:] for one in writes[1]], [b"\n"] * len(writes[1]), "the ends of the writes")
    return told


def system_calls():
    if not can_trace():
        left_out("kills and errors at each system call, the sizes of writes", "no strace that may trace")
        return
    case("killed at each call", killed_at_calls, SAMPLE)
    case("killed at each call, 400000 bytes", killed_at_calls, BIG)
    case("killed at each call, --to", killed_at_calls_of_many)
    case("overtaken by another run", overtaken)
    for error in ("EIO", "ENOSPC", "EACCES"):
        case("%s from each call" % error, errors_at_calls, error)
    case("errors in words", words_of_errors)
    for words, given in (("check a.evf", b""), ("check a.evf b.evf no", b""), ("check", b"a.evf\n" * 300),
                         ("upgrade a.evf o.evf", b""), ("upgrade --to to", b"a.evf\nb.evf\nno\na.evf"),
                         ("show a.evf", b""), ("show b.evf", b""), ("help", b""), ("help refusals", b""),
                         ("", b""), ("check --x", b""), ("show no", b""), ("check /dev/null", b""),
                         ("check", b"x" * 5000)):
        case("whole lines: " + words, lines_in_one_write, words.split(), given)
    case("show in one write", show_in_one_write)
    case("evflist in large writes", evflist_in_large_writes)


# many runs at once

def at_once(lines, **more):
    """Runs that start at the same moment, each with its words; their answers."""
    ends = os.pipe()
    gate = [fcntl.fcntl(fd, fcntl.F_DUPFD_CLOEXEC, 100) for fd in ends]  # out of the way of the program's own
    for fd in ends:
        os.close(fd)

    def wait():
        os.close(gate[1])
        os.read(gate[0], 1)
    jobs = [Job(*words, before=wait, **more) for words in lines]
    time.sleep(0.02)
    for fd in gate:
        os.close(fd)
    return [job.end() for job in jobs]


def same_out(count, rounds, data):
    """Runs with the same IN and OUT: one says upgraded, the others that this copy is there."""
    put("in.evf", data)
    _, line, copy = upgrade_of(data)
    for k in range(rounds):
        answers = at_once([["upgrade", "in.evf", "out.evf"]] * count)
        wanted = [(0, line, b"")] + [(0, THIS_COPY, b"")] * (count - 1)
        expect(sorted(answers), sorted(wanted), "round %d" % k)
        expect((names(), get("out.evf") == copy), (["in.evf", "out.evf"], True), "round %d" % k)
        os.unlink("out.evf")
    return "%d rounds" % rounds


def other_in(count, rounds):
    """Runs with different INs and the same OUT: one makes it, the others leave it alone."""
    files = {"in%d.evf" % k: old(3, player=b"P%d" % k * 300, events=TWO) for k in range(count)}
    for name, data in files.items():
        put(name, data)
    for k in range(rounds):
        answers = at_once([["upgrade", name, "out.evf"] for name in files])
        won = [name for name, answer in zip(files, answers) if answer[0] == 0]
        expect(len(won), 1, "who made OUT: %r" % answers)
        for name, answer in zip(files, answers):
            if name != won[0]:
                expect_other_file(answer)
        whole = get("out.evf") == upgrade_of(files[won[0]])[2]
        expect((names(), whole), (sorted(files) + ["out.evf"], True), "round %d" % k)
        os.unlink("out.evf")
    return "%d rounds" % rounds


def same_folder(count):
    """Runs over the same archive at once: each copy is made once."""
    files = {name: data for name, data in archive(200).items() if data != BACKWARDS}
    os.mkdir("to")
    given = b"\n".join(files)
    put("names", given)
    jobs = [Job("upgrade", "--to", "to", given=given) for _ in range(count)]
    answers = [job.end() for job in jobs]
    expect([(status, err) for status, _, err in answers], [(0, counts(len(files), 0, 0))] * count)
    for name, data in files.items():
        every = b"".join(out for _, out, _ in answers).splitlines(True)
        lines = [line for line in every if line.startswith(name + b"\t")]
        wanted = [upgrade_of(data)[1]] + [THIS_COPY] * (count - 1)
        expect(sorted(lines), sorted(name + b"\t" + line for line in wanted))
        expect(get(b"to/" + os.path.basename(name)) == upgrade_of(data)[2], True, "the copy")
    expect(len(names("to")), len(files))


def one_log(count):
    """Runs that append to one log, standard output and standard error: each line is whole."""
    files = archive(400)
    given = b"\n".join(list(files) + [b"no%d.evf" % k for k in range(50)])
    with open("log", "ab") as log:
        jobs = [Job("check", given=given, out=log.fileno(), err=log.fileno()) for _ in range(count)]
        expect([job.end()[0] for job in jobs], [2] * count)
    _, lines, _ = checked(files)
    wanted = lines.splitlines(True) + [counts(400, 0, 50)]
    for k in range(50):
        wanted.append(b"no%d.evf\tfailed\tno such file or folder\n" % k)
        wanted.append(b"evf: no%d.evf: no such file or folder\n" % k)
    expect(sorted(get("log").splitlines(True)), sorted(wanted * count))


def many_runs():
    for count in (2, 8):
        case("%d runs at one OUT" % count, same_out, count, 60, SAMPLE)
        case("%d runs at one OUT, 400000 bytes" % count, same_out, count, 15, BIG)
        case("%d runs with other files at one OUT" % count, other_in, count, 40)
    case("eight runs over one archive", same_folder, 8)
    case("eight runs into one log", one_log, 8)
