"""A game by docs/RULES.md, over the Rust's positions and lists of any length. Shared by scripts/rule.py and games.

It answers what the Rust cannot: move records, which its protocol does not have, and games on boards where it panics at
a 257th entry. Positions are compared by their FEN, over the whole game.
"""
import collections
import re

import rule
from rule import bit


def kings(fen):
    return set(re.findall(rb"K(\d+)", fen))


def ends(fen, times, quiet, still):
    """The outcome of a position that has moves, by how often it has been reached and the two counts."""
    if times >= 3:
        return b"draw3"
    if quiet >= 50:
        return b"draw50"
    _, white, black = fen.split(b":")
    for one, other in ((white, black), (black, white)):
        if re.fullmatch(rb"[WB]K\d+", one) and b"K" in other:
            count = other.count(b",") + 1
            if count == 3 and still >= 32:
                return b"draw32"
            if count <= 2 and still >= 10:
                return b"draw10"
    return b"none"


class Game:
    def __init__(self, oracle, fen):
        self.oracle, self.now = oracle, fen
        self.seen, self.quiet, self.still = collections.Counter([fen]), 0, 0
        self.look()

    def look(self):
        self.moves = self.oracle.listed(self.now)[1]
        self.outcome = ends(self.now, self.seen[self.now], self.quiet, self.still) if self.moves else b"black" if self.now[:1] == b"W" else b"white"

    def refusal(self, fits):
        """14, 17, 15 or 16 for moves that fit, else 0."""
        if self.outcome != b"none":
            return 14
        if len(self.moves) > 256:
            return 17
        return 0 if len(fits) == 1 else 15 if not fits else 16

    def accept(self, move):
        before, man = self.now, b"%d" % move[0] not in kings(self.now)
        self.now = after(self.oracle, before, move)
        promoted = man and b"%d" % move[1] in kings(self.now)
        self.quiet = 0 if man or move[2] else self.quiet + 1
        self.still = 0 if promoted or move[2] else min(self.still + 1, 32)
        self.seen[self.now] += 1
        self.look()

    def state(self, mark):
        return mark + mark.join([self.outcome, b"%d" % self.quiet, b"%d" % self.still, b"%d" % self.seen[self.now]])

    def end(self):
        count = 0 if self.outcome != b"none" else len(self.moves)
        return b" | " + self.now + self.state(b" ") + (b" %d" % count if count <= 256 else b" !17")


def after(oracle, fen, move):
    white, black, crowned, side = oracle.one(b"bits " + fen).split()[1:5]
    sets = [int(s, 16) for s in (white, black, crowned)]
    king = sets[2] & bit(move[0]) or (side == b"W" and move[1] <= 5) or (side == b"B" and move[1] >= 46)
    sets = [s & ~move[2] & ~bit(move[0]) for s in sets]
    sets[b"WB".index(side)] |= bit(move[1])
    if king:
        sets[2] |= bit(move[1])
    return oracle.one(b"parts %x %x %x " % tuple(sets) + (b"B" if side == b"W" else b"W"))[3:]


def begun(oracle, line):
    """The game of a line whose position is accepted, and the line's other words."""
    fen, words = rule.played_words(line)
    white, black, crowned, side = oracle.one(b"bits " + fen).split()[1:5]
    return Game(oracle, oracle.one(b"parts %s %s %s %s" % (white, black, crowned, side))[3:]), words


def played(oracle, line):
    """The answer to a `play` whose position is accepted."""
    game, words = begun(oracle, line)
    out = b"ok"
    for word in words:
        said = oracle.one(b"parse W:W32 " + word)
        if said in (b"err 9 0", b"err 1 0"):
            out += b" !" + said.split()[1]
            continue
        fits = rule.fitting(game.moves, word)
        number = game.refusal(fits)
        if number:
            out += b" !%d" % number
        else:
            game.accept(fits[0])
            out += b" " + fits[0][3] + game.state(b"/")
    return out + game.end()


def recorded(oracle, line):
    """The answer to a `record` whose position is accepted and whose records can be read."""
    game, words = begun(oracle, line)
    squares = sum(bit(n) for n in range(1, 51))
    out = b"ok"
    for first, last, taken in map(rule.move_record, words):
        if not (1 <= first <= 50 and 1 <= last <= 50) or taken & ~squares:
            out += b" 11"
            continue
        fits = [m for m in game.moves if m[:3] == (first, last, taken)]
        number = game.refusal(fits)
        if not number:
            game.accept(fits[0])
        out += b" %d" % number
    return out + game.end()
