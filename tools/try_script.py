"""Cases of ./evf, the script: with the program, and with a stand-in in a repository of its own."""
import os
import shutil
import signal
import subprocess
import time

from evf_runs import (BACKWARDS, ROOT, SAMPLE, SCRIPT, Job, Unexpected, by_script, case, check_of, chosen, counts,
                      expect, expect_match, get, left_out, put, run, upgrade_of)


# the script

def statuses_by(shell):
    """./evf gives the status, and all else as the program."""
    put("in.evf", SAMPLE)
    put("bad.evf", BACKWARDS)
    os.mkdir("to")
    for words, given in (("check in.evf", b""), ("check bad.evf in.evf", b""), ("check no.evf", b""),
                         ("", b""), ("help", b""), ("upgrade bad.evf o", b""), ("check", b"in.evf\nbad.evf"),
                         ("frob", b""), ("upgrade in.evf in.evf", b""), ("check /dev/stdin", SAMPLE),
                         ("check * in.evf", b"")):
        expect(by_script(*words.split(), shell=shell, given=given), run(*words.split(), given=given), words)
    expect(by_script("check", "a b", "", shell=shell), run("check", "a b", ""), "odd words")
    expect(by_script("upgrade", "in.evf", "out.evf", shell=shell), (0, upgrade_of(SAMPLE)[1], b""))
    answer = by_script("upgrade", "--to", "to", shell=shell, given=b"in.evf")
    expect(answer, (0, b"in.evf\t" + upgrade_of(SAMPLE)[1], counts(1, 0, 0)))
    expect((get("out.evf"), get("to/in.evf")), (upgrade_of(SAMPLE)[2],) * 2)
    status, out, err = by_script("check", "in.evf", shell=shell, stack=1 << 20)
    expect((status, out, b"stack" in err), (2, b"", True), "a small stack")


def closed_by(shell):
    """Descriptors closed for the script are closed for the program, and the status comes through."""
    put("in.evf", SAMPLE)
    for which in ((0,), (1,), (2,), (0, 1), (0, 2), (1, 2), (0, 1, 2)):
        shut = lambda: [os.close(fd) for fd in which]
        for words in (["check", "in.evf"], ["upgrade", "in.evf", "out.evf"], ["check"]):
            by = by_script(*words, shell=shell, before=shut)
            if words[0] == "upgrade":
                expect(get("out.evf"), upgrade_of(SAMPLE)[2])
                os.unlink("out.evf")
            expect(by[:2], run(*words, before=shut)[:2], "%s with %r closed" % (words[0], which))
            if words[0] == "upgrade":
                os.unlink("out.evf")


def program_below(pid):
    """The process of the program that a script started, once it is there."""
    for _ in range(500):
        time.sleep(0.01)
        for one in children_of(pid) + sum(map(children_of, children_of(pid)), []):
            try:
                if os.path.samefile("/proc/%d/exe" % one, chosen.program):
                    return one
            except OSError:  # it has ended meanwhile
                pass
    raise Unexpected("no program below the script")


def children_of(pid):
    """The processes whose parent is that one."""
    found = []
    for one in filter(str.isdigit, os.listdir("/proc")):
        try:
            parent = get("/proc/%s/stat" % one).rsplit(b")", 1)[1].split()[1]
        except OSError:
            continue
        if int(parent) == pid:
            found.append(int(one))
    return found


def killed_by(shell):
    """A signal that ends the program gives 128 and its number."""
    os.mkfifo("pipe")
    for number in (signal.SIGKILL, signal.SIGTERM, signal.SIGINT):
        job = Job("check", "pipe", told=False, runs=[shell, SCRIPT])
        found = program_below(job.pid)
        time.sleep(0.05)
        os.kill(found, number)
        expect(job.end()[0], 128 + number, "signal %d" % number)


def linked_script():
    put("in.evf", SAMPLE)
    os.symlink(os.path.realpath(SCRIPT), "by-link")
    done = subprocess.run(["./by-link", "check", "in.evf"], capture_output=True)
    expect((done.returncode, done.stdout, done.stderr), (0, check_of(SAMPLE)[1], b""))


def repository(stand_in):
    """A repository with a program that is only a script, and an `rt` that makes it."""
    for folder in ("crates/a", "crates/evf", "tools"):
        os.makedirs("repository/" + folder)
    put("repository/crates.txt", b"# NAME: needs\na:\nb: a\nevf: b io\nother: a\n")
    put("repository/crates/a/x", b"")
    shutil.copy(SCRIPT, "repository/evf")
    shutil.copy(os.path.join(ROOT, "tools", "program"), "repository/tools/program")
    put("program", b"#!/bin/sh\n" + stand_in)
    os.mkdir("bin")
    put("bin/rt", b"#!/bin/sh\n[ \"$1 ${PWD##*/}\" = 'run evf' ] || exit 9\necho 'logic=proved functions=1'\n"
        b"[ -e ../../../broken ] && { echo 'rt: b NOT PROVED'; exit 1; }\nmkdir -p out\n"
        b"cp ../../../program out/evf\nchmod +x out/evf\necho x >>../../../built\n")
    os.chmod("bin/rt", 0o755)


def by_stand_in(shell, *words, path=True):
    env = dict(os.environ, PATH=(os.path.abspath("bin") + ":" if path else "") + "/usr/bin:/bin")
    done = subprocess.run([shell, "repository/evf", *words], capture_output=True, env=env)
    return done.returncode, done.stdout, done.stderr


def builds(shell):
    """The script builds what is missing or old, once, says so, and tells a build that fails."""
    repository(b"shift\nprintf '%s.' \"$@\"\npwd\nprintf 1 >&3\n")
    status, out, err = by_stand_in(shell, "a b", "", path=False)
    if not shutil.which("rt", path="/usr/bin:/bin"):
        expect((status, out), (2, b""))
        expect(b"rt" in err, True, "the kit is missing")
    answer = (1, b"a b..%s\n" % os.getcwd().encode())
    status, out, err = by_stand_in(shell, "a b", "")
    expect((status, out), answer)
    expect_match(rb"evf: [^\n]*first time takes minutes[^\n]*\nevf: built: [^\n]* proved\n", err)
    expect(by_stand_in(shell, "a b", ""), (*answer, b""), "a second time")
    expect(by_stand_in(shell, "a b", "", path=False), (*answer, b""), "without the kit")
    later = time.time() + 5
    os.utime("repository/crates/a/x", (later, later))
    put("broken", b"")
    status, out, err = by_stand_in(shell, "a")
    expect((status, out, b"rt: b NOT PROVED\n" in err), (2, b"", True), "a build that fails")
    expect(by_stand_in(shell, "a b", "", path=False), (*answer, b""), "an old program without the kit")
    expect(get("built"), b"x\n")


def stand_in_statuses(shell):
    """Whatever a program does, the script ends with a status that says so."""
    for told, body, wanted in (("0", b"printf 0 >&3", 0), ("2", b"printf 2 >&3", 2), ("no digit", b":", 2),
                               ("status 3", b"exit 3", 2), ("killed", b"kill -9 $$", 137),
                               ("a digit, killed", b"printf 0 >&3; kill -15 $$", 143),
                               ("two digits", b"printf 00 >&3", 2), ("another digit", b"printf 7 >&3", 2)):
        for folder in ("repository", "bin"):
            shutil.rmtree(folder, ignore_errors=True)
        repository(body + b"\n")
        by_stand_in(shell)
        expect(by_stand_in(shell)[:2], (wanted, b""), told)


def the_script():
    for shell in ("/bin/sh", "/bin/dash", "/bin/bash"):
        if not os.path.exists(shell):
            left_out("./evf by " + shell, "it is not there")
            continue
        case("statuses by " + shell, statuses_by, shell)
        case("closed descriptors by " + shell, closed_by, shell)
        case("killed by " + shell, killed_by, shell)
        case("builds by " + shell, builds, shell)
        case("a stand-in by " + shell, stand_in_statuses, shell)
    case("./evf by a link", linked_script)
