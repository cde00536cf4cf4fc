#!/usr/bin/env python3
"""Runs evf, built by `tools/program evf`, through its cases, and holds what it prints, its status and what it
leaves behind to what evf.py says. Needs Linux and Python 3.9. What needs root, strace or bash besides is left
out where that is missing, which a line says.

  try_evf.py [--go-on] [--kills N] [PROGRAM [GROUP...]]

PROGRAM is target/bin/evf unless another is named; GROUP is a function of the list GROUPS, all unless some are
named. Prints a line for each case and the number of cases; stops with status 1 at the first that is not as
expected, or with --go-on behind the last. There are 1500 kills unless N says otherwise."""
import argparse
import os
import signal
import sys

import evf_runs
import try_badges
import try_files
import try_kills
import try_plays
import try_resaves
import try_rules
import try_script
import try_system
from evf_runs import chosen


GROUPS = [try_files.use_and_help, try_files.single_files, try_files.texts_carried, try_files.lengths,
          try_files.many_files, try_resaves.resaves, try_rules.rules, try_plays.plays,
          try_badges.badges_of_files,
          try_system.refusing_system, try_system.links_and_pipes, try_system.parts_of_copies, try_system.terminals, try_kills.many_runs,
          try_kills.system_calls, try_script.the_script, try_kills.kills]


def main():
    words = argparse.ArgumentParser(usage="try_evf.py [--go-on] [--kills N] [PROGRAM [GROUP...]]")
    words.add_argument("--go-on", action="store_true")
    words.add_argument("--kills", type=int, default=chosen.kills)
    words.add_argument("program", nargs="?", default=chosen.program)
    words.add_argument("groups", nargs="*")
    given = words.parse_args()
    chosen.program, chosen.kills, chosen.goes_on = os.path.abspath(given.program), given.kills, given.go_on
    if not os.access(chosen.program, os.X_OK):
        sys.exit("try_evf: %s is not there; `tools/program evf` builds it" % os.path.relpath(chosen.program))
    signal.signal(signal.SIGALRM, evf_runs.hangs)
    for group in GROUPS:
        if not given.groups or group.__name__ in given.groups:
            group()
    wrong = len(evf_runs.differences)
    print("%d cases of evf%s" % (evf_runs.cases, ", %d not as expected" % wrong if wrong else ""))
    sys.exit(1 if wrong else 0)


if __name__ == "__main__":
    main()
