"""Runs evf for the modules try_*.py: cases in folders of their own, the program with its four descriptors,
what it must print by evf.py, and what a run may leave behind."""
import functools
import os
import re
import resource
import signal
import sys
import tempfile
import threading
import time

import badges
import evf
import make_samples
import plays
from evf import Value, YUAN
from make_cases import move, new, old, rec


ROOT = os.path.join(os.path.dirname(os.path.abspath(__file__)), "..")
SCRIPT = os.path.join(ROOT, "evf")
LIMIT = 2097152
STACK = 8 << 20  # what a process has where nobody chose another
PATIENCE = 120  # seconds that a case may take
TWO = rec(2, 5, 8, 8) + rec(3, 300, 7, 8)
SAMPLES = make_samples.samples()
SAMPLE = SAMPLES["beginner-v3.evf"]
BACKWARDS = SAMPLES["backwards-v3.evf"]
MEASURED = SAMPLES["metrics-v4.evf"]
THIS_COPY = b"taken\tthis copy is there already\n"
USE = b"""use: evf check FILE...
     evf recount FILE...
     evf badge [--older | --newer] FILE...
     evf upgrade [--rule N] IN OUT
     evf upgrade [--rule N] --to DIR FILE...
     evf resave [--rule N] IN OUT
     evf resave [--rule N] --to DIR FILE...
     evf show FILE
     evf play [--after N] FILE
     evf help [COMMAND]
"""
OTHER_FILE = b"taken\tanother file has this name and stays as it is: name another or move it away\n"

chosen = Value(program=os.path.join(ROOT, "target", "bin", "evf"), kills=1500, goes_on=False)
cases = 0
differences = []


class Unexpected(Exception):
    pass


def short(value):
    text = repr(value)
    return text if len(text) < 1500 else "%s .. %s (%d characters)" % (text[:1100], text[-300:], len(text))


def differs(got, how, wanted, what):
    return "%s%s\n      %s %s" % (what and what + ": ", short(got), how, short(wanted))


def expect(got, wanted, what=""):
    if got != wanted:
        raise Unexpected(differs(got, "instead of", wanted, what))


def expect_in(got, wanted, what=""):
    if got not in wanted:
        raise Unexpected(differs(got, "instead of one of", wanted, what))


def expect_match(pattern, got, what=""):
    if not re.fullmatch(pattern, got, re.S):
        raise Unexpected(differs(got, "does not match", pattern, what))


def case(told, act, *words, patience=PATIENCE):
    """A case in a folder of its own."""
    global cases
    with tempfile.TemporaryDirectory() as folder:
        os.chmod(folder, 0o755)
        os.chdir(folder)
        signal.alarm(patience)
        try:
            more = act(*words)
        except Unexpected as why:
            differences.append("%s: %s" % (told, why))
            print("NOT AS EXPECTED", differences[-1], flush=True)
            if not chosen.goes_on:
                sys.exit(1)
            return
        finally:
            signal.alarm(0)
            os.chdir(ROOT)
            while Job.running:
                os.kill(Job.running.pop().pid, signal.SIGKILL)
    cases += 1
    print("ok", told + (" (%s)" % more if more else ""), flush=True)


def left_out(what, why):
    print("left out: %s: %s" % (what, why), flush=True)


def hangs(*_):
    raise Unexpected("it does not end")


# running

class Job:
    """The program, started with words: `given` is its standard input (bytes, or a descriptor), `out` and
    `err` are descriptors, temporary files unless they are named; `before` is done just before it starts; the
    caller of one that is `gated` calls `begun`."""
    running = set()

    def __init__(self, *words, given=b"", out=None, err=None, before=None, user=None, stack=STACK, told=True,
                 runs=None, gated=False):
        self.files = [self.file(b"" if fd is None else fd) for fd in (given, out, err)]
        self.own = [out is None, err is None]
        self.digit, digit_end = os.pipe()
        self.gate = os.pipe() if gated else None
        line = (runs or [chosen.program]) + (["--status"] if told else []) + list(words)
        self.pid = os.fork()
        if self.pid == 0:
            try:
                become(line, self.files + [digit_end], before, user, stack)
            finally:
                os._exit(125)
        os.close(digit_end)
        Job.running.add(self)

    def begun(self):
        """Waits until the program starts, and answers the moment."""
        os.close(self.gate[1])
        os.read(self.gate[0], 1)
        os.close(self.gate[0])
        return time.perf_counter()

    @staticmethod
    def file(data):
        if isinstance(data, int):
            return data
        with tempfile.TemporaryFile() as f:
            f.write(data)
            f.seek(0)
            return os.dup(f.fileno())

    def end(self):
        """Status, standard output and standard error. The status is the digit; below 0 the signal that ended
        the program; None without a digit."""
        code = os.waitstatus_to_exitcode(os.waitpid(self.pid, 0)[1])
        Job.running.discard(self)
        digit = os.read(self.digit, 100)
        os.close(self.digit)
        os.close(self.files[0])
        texts = [self.text(fd) if own else b"" for fd, own in zip(self.files[1:], self.own)]
        if code:
            return code, *texts
        if digit not in (b"", b"0", b"1", b"2"):
            raise Unexpected("descriptor 3 got %r" % digit)
        return int(digit) if digit else None, *texts

    @staticmethod
    def text(fd):
        with open(fd, "rb") as f:
            f.seek(0)
            return f.read()


def become(line, files, before, user, stack):
    """Turns this process into the program, with its four descriptors and no other."""
    for place, fd in enumerate(files):
        os.dup2(fd, place)
        os.set_inheritable(place, True)
    signal.signal(signal.SIGPIPE, signal.SIG_DFL)
    signal.signal(signal.SIGXFSZ, signal.SIG_DFL)
    if stack:
        resource.setrlimit(resource.RLIMIT_STACK, (stack, resource.getrlimit(resource.RLIMIT_STACK)[1]))
    if user is not None and os.getuid() == 0:
        os.setgroups([])
        os.setgid(user)
        os.setuid(user)
    if before:
        before()
    os.closerange(4, 1024)
    os.execv(line[0], line)


def run(*words, **more):
    return Job(*words, **more).end()


def by_script(*words, shell=None, **more):
    """The same by ./evf; its exit status stands in place of the digit."""
    status, out, err = Job(*words, told=False, runs=[shell, SCRIPT] if shell else [SCRIPT], **more).end()
    return 0 if status is None else status, out, err


def put(name, data):
    with open(name, "wb") as f:
        f.write(data)


def get(name):
    with open(name, "rb") as f:
        return f.read()


def names(folder="."):
    return sorted(os.listdir(folder))


def parts(folder="."):
    return [name for name in names(folder) if name.endswith(".part")]


def piped(data, chunk, pause=0):
    """A descriptor to read from, into which a thread writes the bytes in chunks."""
    to_read, to_write = os.pipe()

    def feed():
        try:
            for at in range(0, len(data), chunk):
                os.write(to_write, data[at:at + chunk])
                time.sleep(pause)
        except OSError:
            pass
        os.close(to_write)
    threading.Thread(target=feed, daemon=True).start()
    return to_read


# what is expected

def refusals_of_readme():
    """The words of each refusal and what can be done, by its number, from the table of README.md, which has
    the program's own."""
    text = get(os.path.join(ROOT, "README.md")).decode()
    rows = re.findall(r"^\| (\d+) \| ([^|]+) \| ([^|]+) \|$", text, re.M)
    return {int(number): (words.encode(), advice.encode()) for number, words, advice in rows}


REFUSALS = refusals_of_readme()


def refused_line(number):
    return b"refused\t%d\t%s\n" % (number, REFUSALS[number][0])


def not_carried(data, game):
    """What the copy does not carry, as the fields of a line: a country that is there and has no two letters,
    start and end that are there and not understood, and bytes behind the end."""
    fields, country, software = [], game.texts[evf.COUNTRY], game.texts[evf.SOFTWARE]
    if country and country.upper() != b"XX" and evf.two_letters(country) == b"XX":
        fields.append(b"\tnot carried: the country, now XX")
    if any(game.moments) and not software.startswith((YUAN, b"Viennasweeper")):
        fields.append(b"\tnot carried: start and end, now 0")
    if game.used < len(data):
        fields.append(b"\tnot carried: %d bytes behind the end" % (len(data) - game.used))
    return b"".join(fields)


@functools.lru_cache(maxsize=None)
def upgrade_of(data):
    """Status, line and copy of an upgrade; no copy where it is refused."""
    try:
        copy = evf.upgrade(data)
    except evf.Refused as why:
        return 1, refused_line(why.args[0]), None
    game = evf.read(data, entries=len(data))
    line = b"upgraded\t%d bytes\t%d events%s\n" % (len(copy), len(game.events), not_carried(data, game))
    return 0, line, copy


@functools.lru_cache(maxsize=None)
def resave_of(data):
    """The same of a re-save, which sends a replay of version 0 to 3 to the upgrade."""
    try:
        game = evf.read(data, entries=len(data))
        if game.version < 4:
            return 1, b"older\tversion %d: evf upgrade writes it as version 4\n" % game.version, None
        copy = evf.resave(data)
    except evf.Refused as why:
        return 1, refused_line(why.args[0]), None
    states = sum(event[0] in evf.STATES.values() for event in game.events)
    told = (len(copy), len(game.events) - states, game.metrics_count, states, not_carried(data, game))
    return 0, b"resaved\t%d bytes\t%d events\t%d metrics\t%d game states left out%s\n" % told, copy


@functools.lru_cache(maxsize=None)
def check_of(data):
    """Status and line of a check."""
    try:
        game = evf.read(data, entries=len(data))
    except evf.Refused as why:
        return 1, refused_line(why.args[0])
    sizes = (game.version, game.height, game.width, game.mines, len(game.events))
    return 0, b"read\tversion %d\t%d rows, %d columns, %d mines\t%d events\n" % sizes


@functools.lru_cache(maxsize=None)
def recount_of(data):
    """Status and line of a recount."""
    try:
        claimed, counted, openings = evf.recounted(data)
    except evf.Refused as why:
        return 1, refused_line(why.args[0])
    line = b"recounted\t3BV %d in the header\t3BV %d recounted\t%d openings\t" % (claimed, counted, openings)
    return (0, line + b"same\n") if claimed == counted else (1, line + b"differs\n")


@functools.lru_cache(maxsize=None)
def play_of(data, after=None):
    """Status and text of a play, whole or shown after so many events."""
    try:
        return 0, "".join(line + "\n" for line in plays.played(data, after)).encode()
    except evf.Refused as why:
        return 1, refused_line(why.args[0])


@functools.lru_cache(maxsize=None)
def badge_of(data, wish="version"):
    """Status and line of a badge under a wish of badges.py."""
    line = badges.badge_line(data, wish)
    return 0 if line.endswith("\tagrees") else 1, line.encode() + b"\n"


def shown(name):
    return bytes(63 if b < 32 or b == 127 else b for b in name)


def counts(done, refused, failed, differ=0):
    """The last line of a run over many files; those that differ are told where there is one."""
    files = done + differ + refused + failed
    word = b"file" if files == 1 else b"files"
    apart = b"%d differ%s, " % (differ, b"s" * (differ == 1)) if differ else b""
    return b"%d %s: %d done, %s%d refused, %d failed\n" % (files, word, done, apart, refused, failed)


def part_name(last, copy):
    """The name under which a copy is written until it is whole: the first 100 bytes of OUT's last part, or a
    few less so that no character is torn, and a digest of all of it and of the copy."""
    digest, cut = 0, 100
    for byte in last + copy:
        digest = digest % 2 ** 56 * 251 + byte
    while len(last) > cut > 0 and 0x80 <= last[cut] < 0xC0:
        cut -= 1
    return os.fsdecode(last[:cut] + b".%d.part" % digest)


def failed(name, words, err_name=None):
    """The answer of a run over one file that the system refuses."""
    return 2, b"failed\t%s\n" % words, b"evf: %s: %s\n" % (err_name or name, words)


def expect_failed(answer, words, what=""):
    """The same where the name on standard error may be that of IN, OUT, its folder or its part."""
    expect(answer[:2], (2, b"failed\t%s\n" % words), what)
    expect_match(rb"evf: [^\n]+: %s\n" % re.escape(words), answer[2], what)


def expect_other_file(answer, many=b"", what=""):
    """A name that is taken by another file; standard error may tell it or not."""
    expect(answer[:2], (2, many + OTHER_FILE), what)
    expect_match(rb"(evf: [^\n]+: [^\n]+\n)?(\d+ files?: [^\n]+\n)?", answer[2], what)


# files

def longest(length):
    """A file of so many bytes whose copy is longer by as much as can be: no texts but the player's, 65535
    pauses of 256 ms."""
    events = b"".join(rec(1, 256 * k, k, k) for k in range(65536))
    build = lambda player: old(0, software=b"", player=player, start=b"", end=b"", country=b"", events=events)
    return build(b"p" * (length - len(build(b""))))


def longest_resaved(length):
    """A file of version 4 and so many bytes whose copy is longer by as much as can be: a game state of 255 ms
    before each mouse event but the first, which needs a pause where the state is left out."""
    build = lambda player, count: new(player=player, events=move(1, 0) + (b"\x52\xff" + move(1, 1)) * count)
    count = (length - len(build(b"", 0))) // 8
    return build(b"p" * (length - len(build(b"", count))), count), count


def many_events(length):
    """A file of so many bytes, events as far as they go."""
    head = old(3, player=b"")
    count = (length - len(head)) // 8
    events = rec(2, 0, 8, 8) + b"".join(rec(1, 60 * k, k % 600, k % 500) for k in range(1, count))
    return old(3, player=b"p" * (length - len(head) - len(events)), events=events)


def archive(count=3000):
    """A folder `a` of files n0000.evf .., one in a hundred refused by an upgrade. Their bytes by name."""
    files = {}
    os.mkdir("a")
    for k in range(count):
        data = BACKWARDS if k % 100 == 98 else old(3, player=b"P%d" % k, events=TWO)
        files[b"a/n%04d.evf" % k] = data
        put("a/n%04d.evf" % k, data)
    return files


def lines_of(files, line_of):
    return b"".join(shown(name) + b"\t" + line_of(data)[1] for name, data in files.items())


def tally(files, line_of):
    refused = sum(line_of(data)[0] for data in files.values())
    return int(refused > 0), counts(len(files) - refused, refused, 0)


def checked(files):
    """The answer of a check of files by name."""
    status, last = tally(files, check_of)
    return status, lines_of(files, check_of), last


# what a run left

BIG = many_events(400000)


def state_of(out, copy, folder="."):
    """What a kill left of OUT and of its part. OUT is not there, empty beside its whole part, or whole."""
    left, has = parts(folder), os.path.exists(os.path.join(folder, out))
    expect(len(left) < 2, True, "parts: %r" % left)
    part = get(os.path.join(folder, left[0])) if left else None
    if left:
        expect(left[0], part_name(os.fsencode(out), copy), "the part's name")
        expect(copy.startswith(part), True, "the part has the copy's first bytes")
    if not has:
        return "no part" if part is None else "a part" if len(part) < len(copy) else "a whole part"
    data = get(os.path.join(folder, out))
    if data == b"" != copy:
        expect(part, copy, "the part beside an empty OUT")
        return "an empty OUT"
    expect(data == copy, True, "OUT is whole")
    return "OUT"


def told_states(left):
    return ", ".join("%d left %s" % (count, state) for state, count in sorted(left.items()))


def finished(out, data):
    """A run again: OUT is whole and nothing is left over."""
    status, line, copy = upgrade_of(data)
    answer = run("upgrade", "in.evf", out)
    expect_in(answer, [(status, line, b""), (status, THIS_COPY, b"")], "a run again")
    expect((get(out) == copy, names()), (True, sorted(["in.evf", out])), "after a run again")
