"""What `dame` answers to a line, from what the oracle answers. Shared by scripts/dame, compare and games.

The oracle is dame-rs, the Rust, with nearly the same line protocol (oracle/README.md). A line that cannot be read is
answered `bad request: WORD`. The word is found here, from the line and not from the oracle: the first of these that
fits.
  length     the line has more than 65,536 bytes
  escape     a backslash in the line begins no escape
  name       the first word is no request
  words      `parts` has not four words after its name, or `evalw` not six
  number     a limit, depth, weight, set or record cannot be read
  side       the side of `parts` is not W or B
A depth and records are read after the FEN, so a refusal of the FEN comes before their `number`; all else comes before
any refusal. To other lines the two answer the same, byte for byte, except by these rules:
  printed    a FEN, square or move text contains a number from 1 to 50 with a sign or more than two digits, `+8` or
             `008`, which the Rust reads as a square: the answer is the Rust's to the text with `0` in its place
  limits     a depth above 7 and a weight outside -10,000 to 10,000 are refused with 10, after the FEN's refusals
  atmost     the Rust has no such request: its list of any length, then 10 above 256 and 17 above the limit
  record     the Rust has no such request: the FEN's refusals, else the game by scripts/gamerule.py
  panics     where the Rust panics at a 257th entry, its list of any length decides: 17, or what it says; a game goes on
  hashes     the Rust counts repetitions by hash; a game that meets two positions with one hash is by gamerule.py
"""
import re
import subprocess

MASK = 2 ** 64 - 1
LONGEST = 65536
NAMES = (b"fen hub fen2hub hub2fen square parts bits moves atmost parse after perft divide eval evalw hash flip caps quiet "
         b"play outcome record").split()
FLAWS = ["length", "escape", "name", "words", "number", "side"]


# From this board on a game can come within 16 plies to another position with the same hash (docs/DIFFERENCES.md).
ONE_HASH = b"W:WK12,K16,K19,K24,K45,K47:BK9,K39,K44,K49"


class Draw:
    """SplitMix64."""

    def __init__(self, state):
        self.state = state

    def word(self):
        self.state = (self.state + 0x9E3779B97F4A7C15) & MASK
        z = self.state
        z = ((z ^ (z >> 30)) * 0xBF58476D1CE4E5B9) & MASK
        z = ((z ^ (z >> 27)) * 0x94D049BB133111EB) & MASK
        return z ^ (z >> 31)

    def below(self, n):
        return self.word() % n

    def one(self, things):
        return things[self.below(len(things))]


def bit(n):
    return 1 << ((n - 1) + (n - 1) // 10)


class Board:
    """A board as lists of squares."""

    def __init__(self, side, white, black, kings):
        self.side, self.white, self.black, self.kings = side, white, black, kings

    def fen(self):
        def field(letter, squares):
            return letter + ",".join(("K" if n in self.kings else "") + str(n) for n in sorted(squares))
        return f"{self.side}:{field('W', self.white)}:{field('B', self.black)}"

    def hub(self):
        def char(n):
            c = "w" if n in self.white else "b" if n in self.black else "e"
            return c.upper() if n in self.kings and c != "e" else c
        return self.side + "".join(char(n) for n in range(1, 51))

    def sets(self):
        return tuple(sum(bit(n) for n in s) for s in (self.white, self.black, self.kings))


def drawn(draw, count):
    """An accepted board of that many pieces; men on their promotion row are kings."""
    squares = list(range(1, 51))
    for i in range(50):
        j = i + draw.below(50 - i)
        squares[i], squares[j] = squares[j], squares[i]
    white, black, kings = set(), set(), set()
    rare = 1 + draw.below(9)
    for n in squares[:count]:
        ours = draw.below(2) == 0
        king = draw.below(rare) == 0 or (ours and n <= 5) or (not ours and n >= 46)
        (white if ours else black).add(n)
        if king:
            kings.add(n)
    return Board("WB"[draw.below(2)], white, black, kings)


def respelt(draw, text):
    """The text with a 0 before every number of one digit, or with a sign or zeros before one of its numbers."""
    numbers = list(re.finditer(rb"[0-9]+", text))
    if not numbers or draw.below(2):
        return re.sub(rb"(?<![0-9])[0-9](?![0-9])", rb"0\g<0>", text)
    at = draw.one(numbers).start()
    return text[:at] + draw.one([b"0", b"0", b"00", b"+", b"+0"]) + text[at:]


def digits(word, base, limit):
    """The number that the word is, or None: digits of this base, leading zeros allowed, at most the limit."""
    if not re.fullmatch(rb"[0-9]+" if base == 10 else rb"[0-9A-Fa-f]+", word):
        return None
    word = word.lstrip(b"0") or b"0"
    return int(word, base) if len(word) <= 20 and int(word, base) <= limit else None


def unsigned(word):
    """A number of 32 bits as Rust reads it, or None."""
    return digits(word.removeprefix(b"+"), 10, 2 ** 32 - 1)


def signed(word):
    if word[:1] == b"-":
        number = digits(word[1:], 10, 2 ** 31)
        return None if number is None else -number
    return digits(word.removeprefix(b"+"), 10, 2 ** 31 - 1)


def number_set(word):
    """A set of 64 bits in hexadecimal, after any number of 0x, or None."""
    while word.startswith(b"0x"):
        word = word[2:]
    return digits(word.removeprefix(b"+"), 16, 2 ** 64 - 1)


def move_record(word):
    """First square, last square and set, or None."""
    parts = word.split(b",")
    if len(parts) != 3:
        return None
    record = unsigned(parts[0]), unsigned(parts[1]), number_set(parts[2])
    return None if None in record else record


ESCAPE = rb"\\(?:([\\strn])|x([+0-9A-Fa-f][0-9A-Fa-f]))"


def undone(word):
    """The word with its escapes undone, or None where a backslash begins none. Rust takes a sign as the first digit."""
    if b"\\" in re.sub(ESCAPE, b"", word):
        return None
    plain = {b"\\": b"\\", b"s": b" ", b"t": b"\t", b"r": b"\r", b"n": b"\n"}
    return re.sub(ESCAPE, lambda m: plain[m[1]] if m[1] else bytes([int(m[2], 16)]), word)


def bad(word):
    return b"bad request: " + word.encode()


def escaped(text):
    """The text as a word: no space, no line feed."""
    for byte, letter in ((b"\\", b"\\"), (b" ", b"s"), (b"\t", b"t"), (b"\r", b"r"), (b"\n", b"n")):
        text = text.replace(byte, b"\\" + letter)
    return text


def unprinted(digits):
    """Whether this is a square to the Rust, which reads a u8, and is not one or two digits."""
    return re.fullmatch(rb"\+?[0-9]+", digits) and 1 <= int(digits) <= 50 and not re.fullmatch(rb"[0-9]{1,2}", digits)


def printed_text(word):
    """The word of a square or move text with `0` for every such square."""
    text = undone(word)
    if len(text) > 4096 or not text.isascii():
        return word
    plain = re.sub(rb"[+0-9]+", lambda m: b"0" if unprinted(m[0]) else m[0], text)
    return word if plain == text else escaped(plain)


def printed_fen(word):
    """The same of a FEN. A text without a colon names no square, and may be Hub."""
    return printed_text(word) if b":" in undone(word) else word


def printed(line):
    """The line with `0` for every such square. Its other numbers stay: they are no square texts."""
    name, space, arg = line.partition(b" ")
    if name in (b"hub", b"hub2fen", b"parts"):
        return line
    if name == b"square":
        return name + space + printed_text(arg)
    if name in b"fen fen2hub bits moves eval hash flip caps quiet outcome".split():
        return name + space + printed_fen(arg)
    first, gap, rest = arg.partition(b" ")
    if name == b"atmost":
        return name + space + first + gap + printed_fen(rest)
    if name in (b"parse", b"after"):
        rest = printed_text(rest)
    if name == b"play":
        rest = b" ".join(map(printed_text, rest.split(b" ")))
    return name + space + printed_fen(first) + gap + rest


def played_words(line):
    """The FEN of a `play` or `record`, and the words to play. A space at the end of the line begins no word."""
    fen, *words = line.split(b" ")[1:] or [b""]
    if words and words[-1] == b"":
        words.pop()
    return fen, words


def flaw(line):
    """The word for what is wrong with a line before its FEN is read, or None."""
    if len(line) > LONGEST:
        return "length"
    if undone(line) is None:
        return "escape"
    name, _, arg = line.partition(b" ")
    if name not in NAMES:
        return "name"
    words = arg.split(b" ")
    if name == b"atmost" and unsigned(words[0]) is None:
        return "number"
    if name == b"evalw":
        return "words" if len(words) != 6 else "number" if None in map(signed, words[1:]) else None
    if name == b"parts":
        if len(words) != 4:
            return "words"
        return "number" if None in map(number_set, words[:3]) else "side" if words[3] not in (b"W", b"B") else None
    return None


def late_flaw(line):
    """The same for what is read after an accepted FEN."""
    name, _, arg = line.partition(b" ")
    if name in (b"perft", b"divide") and unsigned(arg.partition(b" ")[2]) is None:
        return "number"
    if name == b"record" and None in map(move_record, played_words(line)[1]):
        return "number"
    return None


class Oracle:
    """The program of oracle/, asked many lines at a time."""

    def __init__(self, program):
        self.program = program

    def ask(self, lines):
        run = subprocess.run([self.program], input=b"".join(line + b"\n" for line in lines), capture_output=True, check=True)
        out = run.stdout.split(b"\n")
        assert len(out) == len(lines) + 1 and out[-1] == b"", (len(out), len(lines))
        return out[:-1]

    def one(self, line):
        return self.ask([line])[0]

    def listed(self, fen):
        """The answer of `list`, and the moves as (first, last, set, text)."""
        answer = self.one(b"list " + fen)
        moves = []
        if answer.startswith(b"ok"):
            for text in answer.split()[2:]:
                numbers = [int(n) for n in re.split(rb"[-x]", text)]
                moves.append((numbers[0], numbers[1], sum(bit(n) for n in numbers[2:]), text))
        return answer, moves


def asked(line):
    """What the oracle is asked for a line of `printed`, and the rule that makes its answer `dame`'s."""
    name, _, arg = line.partition(b" ")
    fen, _, rest = arg.partition(b" ")
    word = late_flaw(line)
    if word is not None:
        return b"bits " + fen, word, bad(word)
    if name == b"atmost":
        return b"list " + rest, "atmost", unsigned(fen)
    if name == b"record":
        return b"bits " + fen, "record", None
    if name in (b"perft", b"divide") and unsigned(rest) > 7:
        return b"bits " + fen, "limits", b"err 10 0"
    if name == b"evalw" and any(abs(signed(w)) > 10000 for w in rest.split(b" ")):
        return b"bits " + fen, "limits", b"err 10 0"
    return line, "same", None


def answer(oracle, line, rule, extra, told):
    """`dame`'s answer and the rule that made it."""
    assert not told.startswith(b"bad "), (line[:300], told)
    if told.startswith(b"err "):
        return told, "same"
    if rule in FLAWS or rule == "limits":
        return extra, rule
    if rule == "record":
        return gamerule.recorded(oracle, line), rule
    if rule == "atmost":
        if extra > 256:
            return b"err 10 0", rule
        return (b"err 17 0" if int(told.split()[1]) > extra else told), rule
    if told == b"panic":
        return panicked(oracle, line), "panics"
    if line.startswith(b"play " + ONE_HASH + b" "):
        return gamerule.played(oracle, line), "hashes"
    return told, rule


def answers(oracle, lines):
    """`dame`'s answer to each line and the rule that made it."""
    flaws = [flaw(line) for line in lines]
    plain = [printed(line) if word is None else line for line, word in zip(lines, flaws)]
    plans = [asked(line) if word is None else None for line, word in zip(plain, flaws)]
    told = iter(oracle.ask([plan[0] for plan in plans if plan is not None]))
    made = []
    for line, word, read, plan in zip(lines, flaws, plain, plans):
        if plan is None:
            made.append((bad(word), word))
            continue
        said, why = answer(oracle, read, plan[1], plan[2], next(told))
        made.append((said, why if read == line else "printed"))
    return made


def panicked(oracle, line):
    name, _, arg = line.partition(b" ")
    fen, _, rest = arg.partition(b" ")
    if name == b"play":
        return gamerule.played(oracle, line)
    if name == b"outcome":
        return b"ok " + gamerule.begun(oracle, line)[0].outcome
    if name == b"moves":
        told, moves = oracle.listed(arg)
        return told if len(moves) <= 256 else b"err 17 0"
    if name == b"perft":
        n = counted(oracle, fen, unsigned(rest))
        return b"err 17 0" if n is None else b"ok %d" % n
    told, moves = oracle.listed(fen)
    if len(moves) > 256:
        return b"err 17 0"
    if name == b"divide":
        counts = [counted(oracle, after(oracle, fen, m).split()[1], max(unsigned(rest), 1) - 1) for m in moves]
        if None in counts:
            return b"err 17 0"
        return b"ok %d" % len(moves) + b"".join(b" %s=%d" % (m[3], n) for m, n in zip(moves, counts))
    fits = fitting(moves, rest)
    if len(fits) != 1:
        return b"err 15 0" if not fits else b"err 16 0"
    move = fits[0]
    if name == b"parse":
        return b"ok %s %d,%d,%x" % (move[3], move[0], move[1], move[2])
    return after(oracle, fen, move)


def counted(oracle, fen, depth):
    """The depth count, or None where a list that it needs is too long."""
    told = oracle.one(b"perft " + fen + b" %d" % depth)
    if told != b"panic":
        return int(told.split()[1])
    _, moves = oracle.listed(fen)
    if len(moves) > 256:
        return None
    sums = [counted(oracle, after(oracle, fen, m).split()[1], depth - 1) for m in moves] if depth > 1 else [1] * len(moves)
    return None if None in sums else sum(sums)


def after(oracle, fen, move):
    """The position after a move of a king, by docs/RULES.md, with the Rust's hash."""
    white, black, kings, side = oracle.one(b"bits " + fen).split()[1:5]
    sets = [int(s, 16) for s in (white, black, kings)]
    assert sets[2] & bit(move[0])
    sets = [s & ~move[2] & ~bit(move[0]) for s in sets]
    sets[b"WB".index(side)] |= bit(move[1])
    sets[2] |= bit(move[1])
    told = oracle.one(b"parts %x %x %x " % tuple(sets) + (b"B" if side == b"W" else b"W"))
    return told + b" " + oracle.one(b"hash " + told[3:])[3:]


def fitting(moves, word):
    """The listed moves that a well-formed text means (docs/RULES.md, "Move texts")."""
    text = undone(word).strip(b"\t\n\x0b\x0c\r ")
    capture = b"x" in text
    squares = [int(n) for n in re.split(rb"[-x]", text)]
    moves = [m for m in moves if m[0] == squares[0] and (m[2] != 0) == capture]
    if len(squares) > 2:
        taken = 0
        for n in squares[2:]:
            taken |= bit(n)
        hub = [m for m in moves if m[1] == squares[1] and m[2] == taken]
        if hub:
            return hub
    return [m for m in moves if m[1] == squares[-1]]


import gamerule  # noqa: E402  (it uses the definitions above)
