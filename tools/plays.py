"""A game played through, in Python, for the tools that make cases: a machine written from note 6 of document
02, three sets of cells and a fixpoint for what an lr uncovers, and what `evf play` must print of a file. It
shares nothing with the proved code."""
import itertools

import evf

MINE = 255  # -1 in a signed byte


class Game:
    """A game in play: its cells as pairs of row and column, each in one of three sets."""

    def __init__(self, height, width, pixels, board):
        self.height, self.width, self.pixels = height, width, pixels
        self.places = list(itertools.product(range(height), range(width)))
        self.mines = {place for place, cell in zip(self.places, board) if cell == MINE}
        self.others = set(self.places) - self.mines
        self.covered, self.flagged, self.uncovered = set(self.places), set(), set()
        self.stands = "undecided"

    def around(self, cell):
        """The cells beside a cell, eight at most."""
        row, column = cell
        rows = range(max(row - 1, 0), min(row + 2, self.height))
        columns = range(max(column - 1, 0), min(column + 2, self.width))
        return [near for near in itertools.product(rows, columns) if near != cell]

    def is_zero(self, cell):
        return cell not in self.mines and self.mines.isdisjoint(self.around(cell))

    def opened(self, cell):
        """The least set that holds a cell, and with each zero in it the covered cells around that zero."""
        found = newest = {cell}
        while newest:
            brought = {near for zero in newest if self.is_zero(zero) for near in self.around(zero)}
            newest = (brought & self.covered) - found
            found = found | newest
        return found

    def place_of(self, x, y):
        return y // self.pixels, x // self.pixels

    def judge(self):
        if not self.mines.isdisjoint(self.uncovered):
            self.stands = "lost"
        elif self.others <= self.uncovered:
            self.stands = "won"

    def uncover(self, cell):
        if cell in self.covered:
            found = self.opened(cell)
            self.covered -= found
            self.uncovered |= found
            self.judge()

    def flag(self, cell):
        if cell in self.covered:
            self.covered.remove(cell)
            self.flagged.add(cell)
        elif cell in self.flagged:
            self.flagged.remove(cell)
            self.covered.add(cell)

    def act(self, kind, cell):
        if kind == "lr":
            self.uncover(cell)
        elif kind in ("rc", "pf"):
            self.flag(cell)

    def play(self, kind, x, y):
        """One mouse event more."""
        row, column = self.place_of(x, y)
        if self.stands == "undecided" and row < self.height and column < self.width:
            self.act(kind, (row, column))

    def entries(self):
        """The cells as they stand in the lent buffer, row by row."""
        return [1 if place in self.flagged else 2 if place in self.uncovered else 0 for place in self.places]


def are_together(kinds):
    """Whether there is a cc; or an lc, an rc before it and no rr between them; or an rc, an lc before it and
    no lr between them."""
    held = (("rc", "rr", "lc"), ("lc", "lr", "rc"))
    places = {name: [k for k, kind in enumerate(kinds) if kind == name] for name in ("lc", "rc")}
    return "cc" in kinds or any(i < j and until not in kinds[i + 1:j]
                                for first, until, second in held for j in places[second] for i in places[first])


# what `evf play` prints

def seen(game, cells):
    """The board as the player sees it, a line a row."""
    def letter(place, cell):
        if place in game.uncovered:
            return "*" if cell == -1 else str(cell or ".")
        return "F" if place in game.flagged else "#"
    letters = [letter(place, cell) for place, cell in zip(game.places, cells)]
    return ["".join(letters[row * game.width:(row + 1) * game.width]) for row in range(game.height)]


def played(data, after=None):
    """The lines for a file's bytes, played whole or shown after so many events; or Refused."""
    read = evf.read(data, entries=len(data))
    events = read.events[:after]
    if read.pixels == 0:
        raise evf.Refused(27)
    if are_together([event[0] for event in events]):
        raise evf.Refused(28)
    game, lines = Game(read.height, read.width, read.pixels, [cell % 256 for cell in read.cells]), []
    for number, event in enumerate(events):
        kind, ms, *pixel = event
        were = len(game.uncovered), len(game.flagged)
        if pixel:
            game.play(kind, *pixel)
        if (len(game.uncovered), len(game.flagged)) != were:
            told = (number, kind, ms, *game.place_of(*pixel), len(game.uncovered) - were[0])
            lines.append("event %d\t%s\t%d ms\trow %d\tcolumn %d\t%d uncovered" % told)
    if after is not None:
        lines = seen(game, read.cells)
    return lines + ["played\t%s\t%d events" % (game.stands, len(events))]
