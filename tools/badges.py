"""The no-flag badge in Python, for the tools that make cases: both rules from note 7 of document 02, by
prefixes, and what `evf badge` must print of a file. The game is that of plays.py; nothing is shared with the
proved code.

A row is a list of entries: a mouse event is (kind, x, y), a game state (state,). A board is a list of bytes
with 255 for a mine."""
import evf
import plays
from refusals import refused

NF = 3  # the no-flag bit among the flags of a header
LAST_OLDER = 3  # the last version that has the older rule
WISHES = ("version", "older", "newer")


def older_earned(kinds):
    """The older rule, of the kinds of a row: no rc at all."""
    return "rc" not in kinds


def spoils(game, entry):
    """Whether an event that is to come sets or lifts a flag by rc: it falls on a cell of the board that is
    covered or flagged, the game being undecided."""
    if entry[0] != "rc" or game.stands != "undecided":
        return False
    _, x, y = entry
    return game.place_of(x, y) in game.covered | game.flagged


def game_after(height, width, pixels, board, row):
    """The game after a row, played anew from its beginning."""
    game = plays.Game(height, width, pixels, board)
    for entry in row:
        if len(entry) == 3:
            game.play(*entry)
    return game


def newer_earned(height, width, pixels, board, row):
    """The newer rule, of a row that can be played: at no place i the event spoils the badge in the game after
    the i events before it. Only an rc can, so that the games before the others are left out."""
    return not any(spoils(game_after(height, width, pixels, board, row[:i]), entry)
                   for i, entry in enumerate(row) if entry[0] == "rc")


def refusal(pixels, kinds):
    """What the newer rule refuses of a file that is read: 27, else 28, else nothing."""
    if pixels == 0:
        return 27
    return 28 if plays.are_together(kinds) else None


# what `evf badge` prints

def rule_of(wish, version):
    """The rule that a wish means for a file of a version."""
    if wish == "version":
        return "older" if version <= LAST_OLDER else "newer"
    return wish


def earned(rule, game):
    """The verdict on a game that was read."""
    row = [(kind, *pixel) for kind, _, *pixel in game.events]
    if rule == "older":
        return older_earned([entry[0] for entry in row])
    return newer_earned(game.height, game.width, game.pixels, [cell % 256 for cell in game.cells], row)


def badge_line(data, wish):
    """The line of a file's bytes under a wish, one of WISHES."""
    try:
        game = evf.read(data, entries=len(data))
    except evf.Refused as why:
        return refused(why.args[0])
    rule, claims = rule_of(wish, game.version), game.flags[NF]
    line = "badge\t%s rule\t" % rule
    number = refusal(game.pixels, [event[0] for event in game.events]) if rule == "newer" else None
    if number:
        return line + refused(number)
    has = earned(rule, game)
    return line + "%s\t%s\t%s" % ("earned" if has else "not earned", "claimed" if claims else "not claimed",
                                  "agrees" if has == claims else "differs")
