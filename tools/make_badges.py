#!/usr/bin/env python3
"""Writes the list target/lists/badges, which join_cases.py puts into the program `cases`: games whose no-flag
badge is judged, with what each must come to by badges.py, which plays the events before each rc anew.

The games are those of make_plays.py that are no small boards, and more that are made to tell wrong programs
apart (WRONG): a wrong program that no game tells apart stops this tool, which prints how many do.

Input: blocks as `blocks_of` of evf.py makes them. For each case, big-endian: u8 13, then a game as
make_plays.py has it behind its tag.
Output: for each case, counted from 0,
  case NUMBER badge VERSION OLDER cells ENTRIES NEWER cells ENTRIES digest D
where each wish, the rule of the version, the older and the newer, has ten answers: those of versions 0, 3, 4,
5 and 255, each with the header's bit 0 and 1. An answer is e for earned or n for not, with the bit, or the
number of the refusal. Entries are all that were lent, after the last run under that rule, n equal ones in a
row as xxxx*n. D is the digest of make_plays.py, 16 hexadecimal digits, of all entries after each of the 30
runs, in their order; each run begins with all entries as they were asked for."""
import itertools

import badges
import evf
import make_plays
from make_plays import CC, CONDITIONS, LC, LR, MINE, NOTHING, PF, PIXELS, RC, RR, games, off_board, on, play

VERSIONS = 0, 3, 4, 5, 255
RUNS = list(itertools.product(badges.WISHES, VERSIONS, (False, True)))
FEW = 1000  # cells: the wrong programs are not run on larger boards, which are slow to play anew


class Case:
    """A game that is asked about, and the games after its first events, each played anew."""

    def __init__(self, height, width, pixels, board, row, entries, before):
        self.sizes = height, width, pixels, board
        self.lent = [before] * entries
        self.kinds = make_plays.kinds_of(row)
        self.row = [(kind, x, y) if code not in evf.STATES else (kind,)
                    for kind, (code, _, x, y) in zip(self.kinds, row)]
        self.played = make_plays.played(height, width, pixels, board, row, entries, before)[1]
        self.games = {}

    def after(self, n):
        """The game after the first n events, or as many as there are."""
        n = max(0, min(n, len(self.row)))
        if n not in self.games:
            self.games[n] = badges.game_after(*self.sizes, self.row[:n])
        return self.games[n]

    def refusal(self, conditions):
        """The number of the first condition that holds, or None."""
        asked = *self.sizes[:3], len(self.sizes[3]), len(self.lent), self.kinds
        return next((why for why, holds in conditions if holds(*asked)), None)


class Judge:
    """A program that judges badges, the right one but for what is changed in it."""

    def __init__(self, **changed):
        self.rule_of = badges.rule_of
        self.refusing = {"older": [], "newer": CONDITIONS}
        self.earned = {"older": lambda case: badges.older_earned(case.kinds),
                       "newer": lambda case: badges.newer_earned(*case.sizes, case.row)}
        self.left = {"older": lambda case: case.lent, "newer": lambda case: case.played}
        self.told = lambda earned, bit: (earned, bit)
        for name, change in changed.items():
            was = getattr(self, name)
            setattr(self, name, {**was, **change} if isinstance(change, dict) else change)

    def under(self, rule, case):
        """Whether the badge is earned under a rule, or the number of a refusal; and the entries left."""
        why = case.refusal(self.refusing[rule])
        if why is not None:
            return why, case.lent
        return self.earned[rule](case), self.left[rule](case)

    def answers(self, case):
        """The answer of each run, and the entries left by it."""
        under = {rule: self.under(rule, case) for rule in ("older", "newer")}
        for wish, version, bit in RUNS:
            award, entries = under[self.rule_of(wish, version)]
            if isinstance(award, bool):
                earned, claimed = self.told(award, bit)
                award = "%s%d" % ("e" if earned else "n", claimed)
            yield str(award), entries


def digest_of(runs):
    """The digest of make_plays.py of all entries of all runs, which are millions: its steps written out."""
    x, bits = NOTHING, make_plays.BITS
    for entry in itertools.chain.from_iterable(runs):
        x ^= entry
        x ^= x << 13 & bits
        x ^= x >> 7
        x ^= x << 17 & bits
    return x


def line_of(case):
    """The line of a case; where both rules give a verdict, a badge under the older implies one under the
    newer."""
    right = Judge()
    older, newer = (right.under(rule, case)[0] for rule in ("older", "newer"))
    evf.expect(older is True and newer is False, False)
    answers, left = zip(*right.answers(case))
    by_version, older, newer = (" ".join(answers[i:i + 10]) for i in (0, 10, 20))
    cells = [make_plays.runs(left[i]) for i in (19, 29)]
    told = by_version, older, cells[0], newer, cells[1], digest_of(left)
    return "badge %s %s cells%s %s cells%s digest %016x" % told


# wrong programs, each the right one with something changed

def newer(kinds=("rc",), cells=("covered", "flagged"), off=False, over=False, more=0, mines=(True, False)):
    """The newer rule with one thing changed: which kinds count, on which cells, whether off the board,
    whether after the end, how many events more are played before an event is judged, whether on mines and
    others."""
    def spoils(game, kind, x=0, y=0):
        if kind not in kinds or (game.stands != "undecided" and not over):
            return False
        row, column = place = game.place_of(x, y)
        if row >= game.height or column >= game.width:
            return off
        return (place in game.mines) in mines and any(place in getattr(game, name) for name in cells)
    return {"earned": {"newer": lambda case: not any(spoils(case.after(i + more), *entry)
                                                     for i, entry in enumerate(case.row))}}


def older(is_counted):
    """The older rule by which an rc counts only so: of the game before it and its pixel. A game that cannot
    be played is judged as it has to be."""
    def earned(case):
        if case.refusal(CONDITIONS) is not None:
            return badges.older_earned(case.kinds)
        return not any(entry[0] == "rc" and is_counted(case.after(i), *entry[1:])
                       for i, entry in enumerate(case.row))
    return {"earned": {"older": earned}}


def is_on(game, x, y):
    row, column = game.place_of(x, y)
    return row < game.height and column < game.width


def by_version(is_older):
    """Another border between the rules."""
    return {"rule_of": lambda wish, version: wish if wish != "version" else
            "older" if is_older(version) else "newer"}


def up_to_state(case):
    """The newer rule, of the events before the first game state."""
    states = [i for i, entry in enumerate(case.row) if len(entry) == 1]
    return badges.newer_earned(*case.sizes, case.row[:min(states, default=None)])


def refusing(rule, *numbers):
    """A rule that refuses with these numbers, in this order."""
    known = dict(CONDITIONS)
    return {"refusing": {rule: [(number, known[number]) for number in numbers]}}


ALL, LAST = ("covered", "flagged", "uncovered"), 10 ** 6
WRONG = {
    "a pf counts": newer(kinds=("rc", "pf")),
    "a pf counts, and no rc": newer(kinds=("pf",)),
    "a pf counts under the older rule": {
        "earned": {"older": lambda case: {"rc", "pf"}.isdisjoint(case.kinds)}},
    "an rr counts": newer(kinds=("rc", "rr")),
    "an rc on an uncovered cell counts": newer(cells=ALL),
    "an rc after the end counts": newer(over=True),
    "an rc off the board counts": newer(off=True),
    "lifting a flag does not count": newer(cells=("covered",)),
    "setting a flag does not count": newer(cells=("flagged",)),
    "judged behind the rc, where it left a flag": newer(cells=("flagged",), more=1),
    "judged behind the rc, where it left none": newer(cells=("covered",), more=1),
    "judged before the event that stands before the rc": newer(more=-1),
    "judged behind the event that stands behind the rc": newer(more=2),
    "judged on the last board": newer(more=LAST),
    "judged on the first board": newer(more=-LAST),
    "judged by the flags of the last board": {"earned": {"newer": lambda case: not case.after(LAST).flagged}},
    "only flags on mines count": newer(mines=(True,)),
    "only flags on other cells count": newer(mines=(False,)),
    "a game state ends the game": {"earned": {"newer": up_to_state}},
    "the older rule for both": {"earned": {"newer": lambda case: badges.older_earned(case.kinds)}},
    "the older rule on the board alone": older(is_on),
    "the older rule up to the end": older(lambda game, x, y: game.stands == "undecided"),
    "the older refused with 15": refusing("older", 15),
    "the older refused with 17": refusing("older", 17),
    "the older refused with 24": refusing("older", 24),
    "the older refused with 27": refusing("older", 27),
    "the older refused with 28": refusing("older", 28),
    "the newer not refused with 28": refusing("newer", 15, 17, 24, 27),
    "the newer looking for 28 first": refusing("newer", 28, 15, 17, 24, 27),
    "the newer looking for 27 before 24": refusing("newer", 15, 17, 27, 24, 28),
    "version 0 under the newer": by_version(lambda version: 1 <= version <= 3),
    "version 3 under the newer": by_version(lambda version: version < 3),
    "version 4 under the older": by_version(lambda version: version <= 4),
    "versions above 4 under the older": by_version(lambda version: version != 4),
    "version 255 under the older": by_version(lambda version: version <= 3 or version == 255),
    "no wish heard": {"rule_of": lambda wish, version: badges.rule_of("version", version)},
    "wishes changed about": {"rule_of": lambda wish, version: badges.rule_of(
        {"older": "newer", "newer": "older"}.get(wish, wish), version)},
    "the bit told as the verdict": {"told": lambda earned, bit: (bit, bit)},
    "the verdict told as the bit": {"told": lambda earned, bit: (earned, earned)},
    "the verdict only where the bit agrees": {"told": lambda earned, bit: (earned and bit, bit)},
    "the bit turned": {"told": lambda earned, bit: (earned, not bit)},
    "the older leaving the played cells": {"left": {"older": lambda case: case.played}},
    "the newer leaving the cells as they were": {"left": {"newer": lambda case: case.lent}},
}


# games made for them

THREE = [0, MINE, 0]  # a board of a row of three cells, its middle one a mine


def beyond(code):
    """An event just behind the last of three cells."""
    return code, 0.5, 3 * PIXELS, 0


def every_row():
    """Every row of up to three clicks, lr, rc or pf, on an other cell, on a mine, just behind the board; the
    last cell is never clicked, so that an lr on the first goes on."""
    clicks = [click for code in (LR, RC, PF) for click in (on(code, 0, 3), on(code, 1, 3), beyond(code))]
    for n in range(4):
        for row in itertools.product(clicks, repeat=n):
            play(1, 3, PIXELS, THREE, list(row), 3)


def ends():
    """An rc on every cell and off the board, just before a game is won or lost and just after it; on flags of
    before the end too."""
    board = [0, MINE, 0, 0, MINE]
    for last in ([on(LR, 0, 5), on(LR, 2, 5), on(LR, 3, 5)], [on(LR, 3, 5), on(LR, 4, 5)]):
        for k, n in itertools.product(range(6), range(len(last) + 1)):
            click = on(RC, k, 5) if k < 5 else off_board(RC, 1, 5, PIXELS)
            play(1, 5, PIXELS, board, last[:n] + [click] + last[n:])
            play(1, 5, PIXELS, board, [on(PF, 1, 5)] + last[:n] + [click] + last[n:])
            play(1, 5, PIXELS, board, last[:n] + [click, on(RR, k, 5)] + last[n:] + [click])


def openings():
    """A flag by pf that an opening leaves, and an rc on each cell before the opening and behind it."""
    board = [0] * 11 + [MINE]
    for k in range(12):
        for flag in (0, 1, 6, 11):
            play(3, 4, PIXELS, board, [on(PF, flag, 4), on(LR, 8, 4), on(RC, k, 4)])
            play(3, 4, PIXELS, board, [on(PF, flag, 4), on(RC, k, 4), on(LR, 8, 4)])
            play(3, 4, PIXELS, board, [on(PF, flag, 4), on(LR, 8, 4), on(PF, flag, 4), on(RC, k, 4)])


def states():
    """A game state before and behind an rc: it ends no game."""
    for state, k in itertools.product(evf.STATES, (0, 1)):
        play(1, 3, PIXELS, THREE, [(state, 0.5, 0, 0), on(RC, k, 3)])
        play(1, 3, PIXELS, THREE, [on(LR, 0, 3), (state, 0.5, 0, 0), on(RC, k, 3)])
        play(1, 3, PIXELS, THREE, [on(RC, k, 3), (state, 0.5, 0, 0)])
        play(1, 3, PIXELS, THREE, [(state, 0.5, 0, 0), on(PF, k, 3)])


def far_apart():
    """One rc that counts, or one that does not, at each place of a long row of presses, moves and openings;
    and many of both."""
    events = (1, 0), (LC, 0), (LR, 0), (1, 2), (RR, 2), (PF, 1), (PF, 1), (7, 1)
    quiet = [on(code, k, 3) for code, k in events] * 3
    for i, k in itertools.product(range(len(quiet) + 1), (0, 1)):
        play(1, 3, PIXELS, THREE, quiet[:i] + [on(RC, k, 3), on(RR, k, 3)] + quiet[i:])
    for n in (2, 3, 255, 256, 257):
        play(1, 3, PIXELS, THREE, [on(RC, 1, 3)] * n)
        play(1, 3, PIXELS, THREE, [on(LR, 0, 3)] + [on(RC, 0, 3)] * n)
        play(1, 3, PIXELS, THREE, [on(LR, 0, 3)] + [on(RC, 0, 3)] * n + [on(RC, 1, 3)])


def edges():
    """An rc at the first and last pixels of a board and just behind them."""
    for pixels, (height, width) in itertools.product((1, 16, 255), ((1, 1), (2, 3), (255, 1), (1, 255))):
        xs, ys = ((0, end - 1, end, 65535) for end in (width * pixels, height * pixels))
        for x, y in itertools.product(xs, ys):
            play(height, width, pixels, [MINE] * height * width, [(RC, 0.5, x, y)])


def refused():
    """Every choice of the five conditions with rows that hold an rc, on the board or off it, and rows that
    do not."""
    rows = [], [on(PF, 0, 3)], [on(RC, 0, 3)], [beyond(RC)], [on(LC, 0, 3), on(RC, 0, 3)], [on(CC, 0, 3)]
    for (height, width), cells, entries in itertools.product(((3, 3), (0, 3), (3, 256)), (9, 8), (9, 8)):
        for size, row in itertools.product((PIXELS, 0), rows):
            play(height, width, size, [0] * cells, row, entries)


def tell_apart(case, counts):
    """Counts the case with each wrong program that answers it otherwise than the right one."""
    right = list(Judge().answers(case))
    for name, changed in WRONG.items():
        counts[name] += list(Judge(**changed).answers(case)) != right


if __name__ == "__main__":
    taken = len(games)
    for make in (every_row, ends, openings, states, far_apart, edges, refused):
        make()
    lines, counts = [], dict.fromkeys(WRONG, 0)
    for asked, framed, line in games:
        case = Case(*asked)
        lines.append(line_of(case))
        if len(case.sizes[3]) < FEW:
            tell_apart(case, counts)
    for name, count in counts.items():
        print("%5d games tell apart: %s" % (count, name))
    evf.expect([name for name, count in counts.items() if count == 0], [])
    stdin = evf.blocks_of([bytes([evf.BADGE]) + framed for asked, framed, line in games])
    evf.store("badges", stdin, ["case %d %s" % case for case in enumerate(lines)] + ["cases %d" % len(lines)])
    print("%d games of make_plays.py and %d more" % (taken, len(games) - taken))
