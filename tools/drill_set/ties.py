"""Ties of two frames that both pass header CRC, PSI and payload CRC: at many lengths and places, heard in many ways, decided both ways round."""
from . import hearing, uplink
from .case import Unfit, fitting, heard
from .dice import Dice
from .frames import RUN, Frame, apart, drawn, frame, laid, multiple, tied

# Multiples of the CRC's polynomial that change few coded bits: 22 to 28.
PATTERNS = (
    uplink.UNSEEN,
    "10100001111101",
    "10011000001",
    "1000110101001",
    "11111000100011",
    "100000101010011",
    "101010000111011",
    "11101100101100101",
    "10010001100010001101",
    "1010101101",
)
WAYS = (hearing.halves, hearing.weights, hearing.faint, hearing.zeros, hearing.disturbed)


def pair(length, pattern, first, last_bit, way, attempt):
    """Two frames that differ by a pattern from bit `first` on, equally near; the winner has `last_bit` at the last bit where they differ."""
    name = f"length_{length:03}_bit_{first:04}_{way.__name__}_last_{last_bit}"
    dice = Dice(name, attempt)
    winner, loser = tied(dice, length, pattern, first, last_bit)
    reception = way(winner, [apart(winner, loser)], dice)
    return heard(name, reception, [winner, loser], f"Two good frames of {length} bytes: {hearing.said(way, reception)}.")


def from_bit(start, white_bit):
    """The first position from `start` on whose whitening bit is this."""
    return uplink.whitening(2100).index(white_bit, start)


def at_the_end(length, white_bit, beyond):
    """A pattern and its first bit, so that it ends in the last bit of the mode (beyond 0) or the one before (beyond 1)."""
    white = uplink.whitening(2100)
    for pattern in PATTERNS:
        first = 26 + 8 * length - beyond - len(pattern)
        if white[first] == white_bit:
            return pattern, first
    raise ValueError("no pattern begins there")


def shortest_frames():
    """At length 20: early, in the middle, late and in the mode bits, for both whitening bits and both last bits."""
    for k in range(16):
        white_bit, last_bit, region = k % 2, k // 2 % 2, k // 4
        pattern, first = PATTERNS[k % len(PATTERNS)], from_bit((24, 90, 145)[region % 3] + k, white_bit)
        if region == 3:
            pattern, first = at_the_end(20, white_bit, last_bit)
        yield fitting(pair, 20, pattern, first, last_bit, WAYS[(k + region) % len(WAYS)])


def other_lengths():
    """A tie at each of many lengths, beyond the whitening's period of 511 bits too."""
    for k, length in enumerate((21, 22, 23, 24, 27, 30, 40, 60, 61, 99, 124, 128, 200, 251, 252, 254, 255)):
        first = from_bit(24 + k * 397 % (8 * length - 30), k // 2 % 2)
        yield fitting(pair, length, PATTERNS[k % len(PATTERNS)], first, k % 2, WAYS[k % len(WAYS)])


def by_lost_bursts():
    """Nothing is heard wrong: only bursts are lost, and the two messages are equally near."""
    for k, (length, first) in enumerate(((20, 71), (20, 167), (21, 176), (30, 64), (40, 65), (60, 64), (99, 65), (255, 64))):
        yield fitting(pair, length, uplink.UNSEEN, first, k // 2 % 2, hearing.bursts_lost)


def whole_message(length, attempt):
    """Two frames that differ from the first bit of the message to the last of the mode, and a zero wherever their coded bits do."""
    name = f"length_{length:03}_whole_message_zeros"
    dice = Dice(name, attempt)
    factor = "1" + "".join(map(str, dice.bits(8 * length - 8))) + "1"
    winner, loser = tied(dice, length, multiple(factor), 24, 1)
    places = apart(winner, loser)
    share = f"{len(places)} of {len(winner.coded)}"
    what = f"Two good frames of {length} bytes that differ all along the message: where their coded bits differ ({share}) every value is 0."
    return heard(name, hearing.zeros(winner, [places], dice), [winner, loser], what)


def long_run(length, runs, early_for, attempt):
    """Two frames that differ in every bit of a long run; the first coded bits there speak for one, the last for the other."""
    name = f"length_{length:03}_run_of_{RUN * runs:04}_bits_{'early' if early_for else 'late'}_wins"
    dice = Dice(name, attempt)
    winner, loser = tied(dice, length, "1" * (RUN * runs), 24 + dice.below(4), dice.below(2))
    reception = hearing.early_and_late(winner, apart(winner, loser), dice, early_for)
    sides = "first ones speak for the winner, the last" if early_for else "last ones speak for the winner, the first"
    what = f"Two good frames of {length} bytes that differ in {RUN * runs} bits in a row: of the coded bits there the {sides} as much against it."
    return heard(name, reception, [winner, loser], what)


def header_too(length, way, attempt):
    """Two frames whose CRCs differ too. Header and message can each be exchanged alone: two strings that are no frames are as near."""
    name = f"length_{length:03}_header_and_message_{way.__name__}"
    dice = Dice(name, attempt)
    winner = drawn(dice, length, [(100, 0)])
    bits = winner.flipped([100]).bits
    loser = frame(Frame(bits).message, winner.mode)
    header, message = [[k for k in part if winner.bits[k] != loser.bits[k]] for part in (range(16), range(24, len(bits)))]
    if winner.string[header[0]]:
        raise Unfit(name)
    mixed = [winner.flipped(message), winner.flipped(header)]
    reception = way(winner, [apart(winner, other) for other in mixed], dice)
    what = f"Two good frames of {length} bytes that differ in both CRCs and in one bit of the message: {hearing.said(way, reception)}."
    what += " The two with the header of one and the message of the other are as near, and no frames."
    return heard(name, reception, [winner, *mixed, loser], what)


def loser_fails(length, positions, way, attempt):
    """A good frame and a string that fails a check are equally near, and the frame wins."""
    name = f"length_{length:03}_good_wins_bit_{positions[0]:04}_{way.__name__}"
    dice = Dice(name, attempt)
    winner = drawn(dice, length)
    loser = winner.flipped(positions)
    if winner.string[positions[0]]:
        raise Unfit(name)
    reception = way(winner, [apart(winner, loser)], dice)
    return heard(name, reception, [winner, loser], f"A good frame of {length} bytes and a string that is none: {hearing.said(way, reception)}.")


def by_many_lost_bursts(length, first, period, count, attempt):
    """Bursts are lost, and nothing else is wrong: the same difference fits at `count` places, `period` bits apart; the first of all has 0 at each."""
    name = f"length_{length:03}_bursts_lost_2_to_{count}_equals"
    dice = Dice(name, attempt)
    sent = drawn(dice, length)
    starts = [first + period * k for k in range(count)]
    winner = sent.flipped([k for start in starts if sent.string[start] for k in laid(uplink.UNSEEN, start)])
    reception = hearing.bursts_lost(sent, [apart(sent, sent.flipped(laid(uplink.UNSEEN, first)))], dice)
    last = winner.flipped([k for start in starts for k in laid(uplink.UNSEEN, start)])
    what = f"{2 ** count:,} good frames of {length} bytes, of which the first and the last are named below: {hearing.said(hearing.bursts_lost, reception)}."
    return heard(name, reception, [winner, last], what, 2**count)


def cases():
    yield from shortest_frames()
    yield from other_lengths()
    yield from by_lost_bursts()
    for length in (20, 24):
        yield fitting(whole_message, length)
    for given in ((33, 1, True), (64, 2, False), (255, 8, True)):
        yield fitting(long_run, *given)
    for length, way in ((20, hearing.halves), (25, hearing.zeros)):
        yield fitting(header_too, length, way)
    for length, positions, way in ((20, [0], hearing.halves), (20, [12], hearing.weights), (31, [77], hearing.zeros)):
        yield fitting(loser_fails, length, positions, way)
    for given in ((24, 86, 32, 4), (60, 92, 104, 4), (254, 136, 82, 24), (255, 300, 247, 8)):
        yield fitting(by_many_lost_bursts, *given)
