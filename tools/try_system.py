"""Cases of evf against the system: full disks and outputs, closed descriptors, permissions, small stacks,
links, pipes and sockets, parts of copies, terminals."""
import os
import pty
import re
import resource
import shutil
import signal
import socket
import subprocess
import time

from evf_runs import (BACKWARDS, BIG, LIMIT, SAMPLE, STACK, THIS_COPY, Job, archive, case, check_of, chosen,
                      counts, expect, expect_failed, expect_in, expect_match, expect_other_file, failed,
                      finished, get, left_out, lines_of, longest, longest_resaved, names, parts, part_name,
                      piped, put, refused_line, run, short, state_of, upgrade_of)


NOBODY = 65534
ENOUGH = 7 << 20  # the smallest stack that the program takes


# what the system refuses

def mounted(size):
    """A small file system under `disk`, or None."""
    os.mkdir("disk")
    line = ["mount", "-t", "tmpfs", "-o", "size=%s,mode=777" % size, "tmpfs", "disk"]
    return subprocess.run(line, capture_output=True).returncode == 0


def full_disk():
    """No room for the copy: it is told and nothing is left over; with room, a run again makes it."""
    put("in.evf", BIG)
    _, line, copy = upgrade_of(BIG)
    if not mounted("64k"):
        return "left out: no file system may be mounted"
    try:
        expect_failed(run("upgrade", "in.evf", "disk/out.evf"), b"no room left on the device")
        expect(names("disk"), [])
        put("a.evf", SAMPLE)
        answer = run("upgrade", "--to", "disk", "a.evf", "in.evf")
        lines = b"a.evf\t" + upgrade_of(SAMPLE)[1] + b"in.evf\tfailed\tno room left on the device\n"
        expect(answer[:2], (2, lines))
        expect(names("disk"), ["a.evf"])
        subprocess.run(["mount", "-o", "remount,size=4m", "disk"], check=True)
        expect(run("upgrade", "in.evf", "disk/out.evf"), (0, line, b""))
        expect((names("disk"), get("disk/out.evf") == copy), (["a.evf", "out.evf"], True))
        subprocess.run(["mount", "-o", "remount,ro", "disk"], check=True)
        expect_failed(run("upgrade", "in.evf", "disk/other.evf"), b"the file system is read-only")
        expect(run("upgrade", "in.evf", "disk/out.evf"), (0, THIS_COPY, b""), "read-only, and there")
    finally:
        subprocess.run(["umount", "disk"], check=True)


def ended_while_writing(out, length):
    """The status of an upgrade that the system ends where a file passes a length."""
    with open("/dev/null", "r+b") as null:
        limit = lambda: resource.setrlimit(resource.RLIMIT_FSIZE, (length, length))
        return Job("upgrade", "in.evf", out, before=limit, out=null.fileno(), err=null.fileno()).end()[0]


def file_limit():
    """The system takes a part of the bytes and no more."""
    put("in.evf", SAMPLE)

    def limit():
        resource.setrlimit(resource.RLIMIT_FSIZE, (100, 100))
        signal.signal(signal.SIGXFSZ, signal.SIG_IGN)
    pipe, end = os.pipe()
    err, err_end = os.pipe()
    expect(Job("upgrade", "in.evf", "out.evf", before=limit, out=end, err=err_end).end()[0], 2)
    expect(os.read(pipe, 4096), b"failed\tthe file would be too large\n")
    expect_match(rb"evf: [^\n]+: the file would be too large\n", os.read(err, 4096))
    for fd in (pipe, end, err, err_end):
        os.close(fd)
    expect(names(), ["in.evf"])
    expect(ended_while_writing("out.evf", 100), -signal.SIGXFSZ, "ended by the system")
    expect(state_of("out.evf", upgrade_of(SAMPLE)[2]), "a part")
    finished("out.evf", SAMPLE)


def full_output():
    """Standard output is full: told, the run stops, status 2."""
    files = archive(200)
    full = os.open("/dev/full", os.O_WRONLY)
    told = b"evf: standard output: no room left on the device\n"
    for words in (["check", *files], ["check", "a/n0000.evf"], ["show", "a/n0000.evf"],
                  ["play", "a/n0000.evf"], ["play", "--after", "1", "a/n0000.evf"], ["help"]):
        expect(Job(*words, out=full).end(), (2, b"", told), words[0])
    expect(Job("upgrade", "a/n0000.evf", "out.evf", out=full).end(), (2, b"", told), "upgrade")
    expect(get("out.evf"), upgrade_of(files[b"a/n0000.evf"])[2])
    os.mkdir("to")
    expect(Job("upgrade", "--to", "to", *files, out=full).end()[::2], (2, told), "--to")
    expect(len(names("to")) < 2, True, "the run stops")
    os.close(full)


def full_error():
    """Standard error is full: the lines of standard output are all there."""
    files = archive(20)
    full = os.open("/dev/full", os.O_WRONLY)
    status, out, _ = Job("check", *files, err=full).end()
    expect(out, lines_of(files, check_of))
    expect_in(status, (0, 2))
    told = status
    expect(Job("check", "no.evf", err=full).end()[:2], (2, b"failed\tno such file or folder\n"))
    os.close(full)
    return "status %d" % told


def closed_pipe():
    """Nobody reads the output: ended by the signal, or told where that is ignored."""
    files = archive(300)
    for ignored, wanted in ((False, -signal.SIGPIPE), (True, 2)):
        to_read, to_write = os.pipe()
        os.close(to_read)
        before = (lambda: signal.signal(signal.SIGPIPE, signal.SIG_IGN)) if ignored else None
        status, _, err = Job("check", *files, out=to_write, before=before).end()
        os.close(to_write)
        told = b"evf: standard output: the system's error 32\n" if ignored else b""
        expect((status, err), (wanted, told), "ignored: %r" % ignored)


def closed_descriptors(which, command):
    """Descriptors closed at the start: no file of ours comes to lie there, and the copies are whole."""
    put("in.evf", SAMPLE)
    os.mkdir("to")
    words = {"check": "check in.evf", "check by input": "check", "upgrade": "upgrade in.evf out.evf",
             "--to": "upgrade --to to in.evf in.evf", "show": "show in.evf"}[command].split()
    status, out, err = Job(*words, given=b"in.evf", before=lambda: [os.close(fd) for fd in which]).end()
    expect_in(status, (0, 2), command)
    if 1 not in which and command in ("check", "upgrade", "show"):
        expect(status, 0, "standard output is open, and standard error is not needed")
    if command == "check" and 1 not in which:
        expect(out, check_of(SAMPLE)[1])
    expect(get("in.evf"), SAMPLE)
    if command == "upgrade":
        expect(get("out.evf"), upgrade_of(SAMPLE)[2])
    if command == "--to":
        expect((names("to"), get("to/in.evf")), (["in.evf"], upgrade_of(SAMPLE)[2]))
    expect((out == b"" or 1 not in which, err == b"" or 2 not in which), (True, True), "what is closed")
    return "status %d%s" % (status, ", told" if err and words != ["check"] else "")


def no_permission():
    """A folder that may not be written and a file that may not be read."""
    put("in.evf", SAMPLE)
    put("secret.evf", SAMPLE)
    os.chmod("secret.evf", 0)
    os.mkdir("closed", 0o555)
    os.mkdir("shut", 0o000)
    expect_failed(run("upgrade", "in.evf", "closed/out.evf", user=NOBODY), b"permission denied", "closed")
    expect(names("closed"), [])
    for name in (b"secret.evf", b"shut/x.evf"):
        expect(run("check", name, user=NOBODY), failed(name, b"permission denied"))
    answer = run("upgrade", "--to", "closed", "in.evf", "secret.evf", user=NOBODY)
    expect(answer[:2], (2, b"in.evf\tfailed\tpermission denied\nsecret.evf\tfailed\tpermission denied\n"))
    os.chmod("shut", 0o755)


def failing_names():
    put("in.evf", SAMPLE)
    in_words = ((b"no.evf", b"no such file or folder"), (b".", b"a folder, not a file"),
                (b"in.evf/x", b"a part of the name is no folder"), (b"x" * 256, b"the name is too long"))
    for command in ("check", "show"):
        for name, words in in_words:
            answer = run(command, name)
            expect(answer[:2], (2, b"failed\t" + words + b"\n"), "%s %s" % (command, short(name)))
            expect_match(rb"evf: [^\n]+: %s\n" % re.escape(words), answer[2], command)
        status, out, err = run(command, b"a/" * 2500)
        expect((status, b"too long" in out + err), (2, True), "a name of 5000 bytes")
    expect(run("upgrade", "no.evf", "out.evf"), failed(b"no.evf", b"no such file or folder"))
    expect(run("upgrade", ".", "out.evf"), failed(b".", b"a folder, not a file"))
    answer = run("upgrade", "/proc/self/mem", "out.evf")
    expect(answer[:2], (2, b"failed\tthe device failed\n"))
    for out, words in (("no/out.evf", b"no such file or folder"), ("o" * 256, b"the name is too long"),
                       ("in.evf/out.evf", b"a part of the name is no folder")):
        expect_failed(run("upgrade", "in.evf", out), words, out[:20])
        expect(names(), ["in.evf"])
    for out in ("", "new/", "./", "..", "/", "o/" * 2100 + "x"):
        answer = run("upgrade", "in.evf", out)
        expect((answer[0], names()), (2, ["in.evf"]), "OUT is %r: %r" % (out, answer))


def small_stack():
    """A stack of less than 7 MiB is told; one of 7 MiB and more does."""
    put("in.evf", SAMPLE)
    for stack in (1 << 20, 2 << 20, 4 << 20, ENOUGH - 4096):
        for words in (["check", "in.evf"], ["upgrade", "in.evf", "out.evf"], ["resave", "in.evf", "out.evf"],
                      ["help"]):
            status, out, err = run(*words, stack=stack)
            if words != ["help"]:
                expect((status, out), (2, b""), "%d bytes of stack" % stack)
                expect(b"stack" in err, True, short(err))
        expect(names(), ["in.evf"])
    wide = lambda: resource.setrlimit(resource.RLIMIT_STACK, (resource.RLIM_INFINITY,) * 2)
    for stack, before in ((ENOUGH, None), (STACK, None), (64 << 20, None), (None, wide)):
        answer = run("check", "in.evf", stack=stack, before=before)
        expect(answer, (*check_of(SAMPLE), b""), "%r bytes of stack" % stack)
    put("long.evf", longest(LIMIT))
    expect(run("upgrade", "long.evf", "out.evf", stack=ENOUGH)[0], 0, "the longest copy")
    expect(run("resave", "out.evf", "again.evf", stack=ENOUGH)[:2],
           (2, b"failed\tlonger than 2097152 bytes\n"), "the longest copy is too long for IN")
    put("new.evf", longest_resaved(LIMIT)[0])
    expect(run("resave", "new.evf", "again.evf", stack=ENOUGH)[0], 0, "the longest copy of a re-save")
    expect(run("show", "long.evf", stack=ENOUGH)[0], 0, "the longest show")


def refusing_system():
    case("a full disk", full_disk)
    case("a limit on a file's length", file_limit)
    case("standard output is full", full_output)
    case("standard error is full", full_error)
    case("nobody reads standard output", closed_pipe)
    for which in ((0,), (1,), (2,), (0, 1), (0, 2), (1, 2), (0, 1, 2)):
        for command in ("check", "check by input", "upgrade", "--to", "show"):
            told = "%s with %s closed" % (command, ", ".join(map(str, which)))
            case(told, closed_descriptors, which, command)
    case("no permission", no_permission)
    case("names that fail", failing_names)
    case("small stacks", small_stack)


# links, pipes, devices

def links():
    """IN through links; OUT that is a link stays."""
    put("in.evf", SAMPLE)
    os.symlink("in.evf", "link.evf")
    os.symlink("link.evf", "second.evf")
    os.symlink("nowhere", "dangling.evf")
    os.symlink("loop.evf", "loop.evf")
    expect(run("check", "second.evf"), (*check_of(SAMPLE), b""))
    expect(run("check", "dangling.evf"), failed(b"dangling.evf", b"no such file or folder"))
    expect(run("check", "loop.evf"), failed(b"loop.evf", b"too many links"))
    before = names()
    for out in ("link.evf", "dangling.evf", "loop.evf"):
        expect_other_file(run("upgrade", "in.evf", out), what=out)
        expect((names(), os.path.islink(out), get("in.evf")), (before, True, SAMPLE), out)
    os.mkdir("real")
    os.symlink("real", "folder")
    expect(run("upgrade", "second.evf", "folder/out.evf"), (0, upgrade_of(SAMPLE)[1], b""))
    expect(names("real"), ["out.evf"])


def taken_out():
    """OUT is there: nothing is ever overwritten."""
    put("in.evf", SAMPLE)
    copy = upgrade_of(SAMPLE)[2]
    for data in (b"mine", b"", copy[:-1], copy + b"x", copy[:-1] + b"x", SAMPLE):
        put("out.evf", data)
        expect_other_file(run("upgrade", "in.evf", "out.evf"), what=short(data[:9]))
        expect((names(), get("out.evf")), (["in.evf", "out.evf"], data))
    put("out.evf", copy)
    expect(run("upgrade", "in.evf", "out.evf"), (0, THIS_COPY, b""))
    os.unlink("out.evf")
    expect_other_file(run("upgrade", "in.evf", "in.evf"), what="IN is OUT")
    expect((names(), get("in.evf")), (["in.evf"], SAMPLE))
    for make in (os.mkdir, os.mkfifo):
        make("out.evf")
        expect_other_file(run("upgrade", "in.evf", "out.evf"), what=make.__name__)
        expect(names(), ["in.evf", "out.evf"])
        shutil.rmtree("out.evf") if make is os.mkdir else os.unlink("out.evf")


def waits_for_pipe(words, lines):
    """A pipe among the names: told before it is opened, then read to its end."""
    put("in.evf", SAMPLE)
    os.mkfifo("pipe")
    to_read, to_write = os.pipe()
    job = Job(*words, err=to_write)
    os.close(to_write)
    told = os.read(to_read, 4096)
    expect(told, b"evf: pipe: not a file: waiting for its end\n")
    time.sleep(0.1)
    with open("pipe", "wb") as pipe:
        for at in range(0, len(SAMPLE), 100):
            pipe.write(SAMPLE[at:at + 100])
            pipe.flush()
    expect(job.end()[:2], (0, lines))
    os.close(to_read)


def from_input():
    """/dev/stdin by a file and by a pipe, and what bash puts in place of <(command)."""
    put("in.evf", SAMPLE)
    check, line = check_of(SAMPLE), upgrade_of(SAMPLE)[1]
    waiting = b"evf: %s: not a file: waiting for its end\n"
    expect(run("check", "/dev/stdin", given=SAMPLE), (*check, b""), "a file as /dev/stdin")
    expect(run("check", "/dev/stdin", given=piped(SAMPLE, 77)), (*check, waiting % b"/dev/stdin"), "a pipe")
    answer = run("upgrade", "/dev/stdin", "out.evf", given=piped(SAMPLE, 500))
    expect(answer, (0, line, waiting % b"/dev/stdin"))
    expect(get("out.evf"), upgrade_of(SAMPLE)[2])
    answer = run("check", "/dev/stdin", given=piped(b"\x03" * (LIMIT + 1), 60000))
    expect(answer[:2], (2, b"failed\tlonger than 2097152 bytes\n"))
    expect(run("check", "/dev/null"), (1, refused_line(1), waiting % b"/dev/null"))
    if shutil.which("bash"):
        done = subprocess.run(["bash", "-c", '"$0" check <(cat in.evf)', chosen.program], capture_output=True)
        expect(done.stdout, check[1])
        expect_match(waiting % rb"/dev/fd/\d+", done.stderr)
    else:
        left_out("<(command)", "no bash")


def sockets():
    """A socket cannot be opened as a file."""
    with socket.socket(socket.AF_UNIX) as one:
        one.bind("socket")
        status, out, err = run("check", "socket")
        expect((status, out), (2, b"failed\tno such device\n"))
        expect_match(rb"(evf: socket: not a file: waiting for its end\n)?evf: socket: no such device\n", err)
    a, b = socket.socketpair()
    put("in.evf", SAMPLE)
    b.sendall(b"in.evf\n")
    b.close()
    line = b"in.evf\t" + check_of(SAMPLE)[1]
    expect(run("check", given=os.dup(a.fileno())), (0, line, counts(1, 0, 0)), "names from a socket")
    a.close()


def links_and_pipes():
    case("links", links)
    case("OUT is taken", taken_out)
    case("a pipe", waits_for_pipe, ["check", "pipe"], check_of(SAMPLE)[1])
    case("a pipe among names", waits_for_pipe, ["check", "in.evf", "pipe", "in.evf"],
         b"".join(name + b"\t" + check_of(SAMPLE)[1] for name in (b"in.evf", b"pipe", b"in.evf")))
    case("a pipe upgraded", waits_for_pipe, ["upgrade", "pipe", "out.evf"], upgrade_of(SAMPLE)[1])
    case("/dev/stdin and the like", from_input)
    case("sockets", sockets)


# parts

def part_of(data, out="out.evf", folder="."):
    """The name of the part, from a run that the system ended while it wrote; nothing is left of it."""
    put("in.evf", data)
    ended_while_writing(out, 40)
    part = part_name(os.fsencode(os.path.basename(out)), upgrade_of(data)[2])
    expect(parts(folder), [part], "parts after a run that was ended")
    os.unlink(os.path.join(folder, part))
    return part


def own_part(empty_out):
    """The first bytes of the copy as the part, and an empty OUT beside it or none: finished."""
    part, (_, line, copy) = part_of(SAMPLE), upgrade_of(SAMPLE)
    for length in (0, 1, 40, len(copy) - 1, len(copy)):
        put(part, copy[:length])
        if empty_out:
            put("out.evf", b"")
        expect(run("upgrade", "in.evf", "out.evf"), (0, line, b""), "a part of %d bytes" % length)
        expect((names(), get("out.evf")), (["in.evf", "out.evf"], copy), "a part of %d bytes" % length)
        os.unlink("out.evf")


def foreign_part():
    """Other bytes under the part's name: told, and left alone."""
    part, copy = part_of(SAMPLE), upgrade_of(SAMPLE)[2]
    for data in (b"mine", copy[:40] + b"x", copy + b"x", copy[:-1] + b"x"):
        put(part, data)
        status, out, err = run("upgrade", "in.evf", "out.evf")
        words = rb"[^\n]+ is in the way: remove [^\n]+"
        expect(status, 2, short(data[:9]))
        expect_match(rb"failed\t" + words + rb"\n", out)
        expect_match(rb"evf: [^\n]+: " + words + rb"\n", err)
        expect((get(part), names()), (data, sorted(["in.evf", part])))
    os.unlink(part)
    finished("out.evf", SAMPLE)


def odd_part(make):
    """Something else than a file under the part's name: nothing of it is changed, and nothing waits."""
    part = part_of(SAMPLE)
    put("victim", b"")
    make(part)
    before = names()
    status, out, err = run("upgrade", "in.evf", "out.evf")
    expect((status, get("victim")), (2, b""), "%r %r" % (out, err))
    expect(os.path.lexists(part), True)
    expect(names(), before)
    return err.decode(errors="replace").strip()[:110]


def names_of_out():
    """OUT of 251 to 255 bytes, of characters that 100 bytes cut, in another folder."""
    put("in.evf", SAMPLE)
    _, line, copy = upgrade_of(SAMPLE)
    os.mkdir("deep")
    plain = ["o" * n for n in (1, 99, 100, 101, 251, 252, 253, 254, 255)]
    cut = [("x" * k + "扫" * 60)[:70] for k in range(4)]
    for out in plain + cut + ["deep/" + "d" * 255, "./.x", "a b\tc", "Ад\x01а.evf"]:
        expect(run("upgrade", "in.evf", out), (0, line, b""), out)
        expect((get(out), parts(), parts("deep")), (copy, [], []), out)
        os.unlink(out)
        expect(names(), ["deep", "in.evf"], out)
        part_of(SAMPLE, out, os.path.dirname(out) or ".")


def parts_of_copies():
    case("the part's name, and names of OUT", names_of_out)
    case("a part of the copy", own_part, False)
    case("a part of the copy and an empty OUT", own_part, True)
    case("a foreign part", foreign_part)
    for told, make in (("a folder", os.mkdir), ("a pipe", os.mkfifo),
                       ("a link to a file", lambda part: os.symlink("victim", part)),
                       ("a link to nothing", lambda part: os.symlink("nowhere", part))):
        case("the part is " + told, odd_part, make)


# terminals

def typed(words, keys, which):
    """What a terminal shows of a run: it is standard input, or standard error; keys are typed one by one."""
    ours, theirs = pty.openpty()
    if which == "input":
        job = Job(*words, given=os.dup(theirs))
        time.sleep(0.3)
        for key in keys:
            os.write(ours, key)
            time.sleep(0.2)
        answer = job.end()
        os.close(theirs)
    else:
        job = Job(*words, err=theirs, given=piped(b"".join(keys), len(keys[0]), 0.05))
        answer = job.end()
        os.close(theirs)
    shown_there = b""
    while True:
        try:
            more = os.read(ours, 65536)
        except OSError:
            break
        if not more:
            break
        shown_there += more
    os.close(ours)
    return answer, shown_there


def awaited():
    """Names from a terminal: a line says that they are awaited."""
    put("in.evf", SAMPLE)
    (status, out, err), _ = typed(["check"], [b"in.evf\n", b"\x04"], "input")
    expect((status, out), (0, b"in.evf\t" + check_of(SAMPLE)[1]))
    expect_match(rb"evf: [^\n]*name[^\n]*\n1 file: 1 done, 0 refused, 0 failed\n", err)


def progress():
    """Standard error is a terminal: the counts are rewritten as it goes on, and the last line stands."""
    put("in.evf", SAMPLE)
    put("bad.evf", BACKWARDS)
    (status, out, _), seen = typed(["check"], [b"in.evf\n"] * 30 + [b"bad.evf\nin.evf\n"], "error")
    expect((status, out.count(b"\n")), (0, 32))
    rewritten = re.findall(rb"\r(?:\x1b\[K)?(\d+) files?: (\d+) done, (\d+) refused, (\d+) failed", seen)
    expect(len(rewritten) > 5, True, "rewritten lines: %s" % short(seen))
    expect(all(sum(map(int, one[1:])) == int(one[0]) for one in rewritten), True, "the counts")
    expect(seen.endswith(b"32 files: 32 done, 0 refused, 0 failed\r\n"), True, short(seen[-200:]))
    return "%d times" % len(rewritten)


def terminals():
    case("names from a terminal", awaited)
    case("standard error is a terminal", progress)
