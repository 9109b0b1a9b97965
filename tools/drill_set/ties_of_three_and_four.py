"""Ties of three and of four frames, all of which pass header CRC, PSI and payload CRC."""
from . import hearing, uplink
from .case import fitting, heard
from .dice import Dice
from .frames import apart, drawn, laid
from .reception import Reception

# Two patterns and how many bits the second begins after the first, so that they, and what both together make, change few coded bits.
OVERLAPPING = (
    ("10011000001", "10100001111101", -3),
    ("101100101111", "101100101111", 1),
    ("10100001111101", "101100101111", 1),
    ("11111110111", "1000110101001", -2),
    ("101100101111", "10011000001", 2),
    ("1010101101", "10011000001", -2),
)


def four(length, firsts, way, attempt):
    """Two differences that lie apart, each heard half and half: four frames are equally near."""
    name = f"four_length_{length:03}_bits_{firsts[0]:04}_{firsts[1]:04}_{way.__name__}"
    dice = Dice(name, attempt)
    patterns = [laid(uplink.UNSEEN, first) for first in firsts]
    winner = drawn(dice, length, [(first, 0) for first in firsts])
    equals = [winner, winner.flipped(patterns[1]), winner.flipped(patterns[0]), winner.flipped(patterns[0] + patterns[1])]
    groups = [apart(winner, winner.flipped(pattern)) for pattern in patterns]
    reception = way(winner, groups, dice)
    what = f"Four good frames of {length} bytes; they differ in two places, each of which may be one way or the other: {hearing.said(way, reception)}."
    return heard(name, reception, equals, what)


def odd_ones(frames):
    """For each of three frames the coded places where it stands alone against the other two."""
    codes = [frame.coded for frame in frames]
    return [[j for j in range(len(codes[0])) if codes[k][j] != codes[k - 1][j] == codes[k - 2][j]] for k in range(3)]


def three(length, overlapping, first, heavy, attempt):
    """Every value speaks for two of the three frames at least, and each has as much against it as the others; the fourth combination is far worse."""
    one, two, later = OVERLAPPING[overlapping]
    name = f"three_length_{length:03}_bit_{first:04}_{'weights' if heavy else 'ones'}"
    dice = Dice(name, attempt)
    start = drawn(dice, length)
    frames = sorted((start, start.flipped(laid(one, first)), start.flipped(laid(two, first + later))), key=lambda frame: frame.string)
    if any(frame.fault() for frame in frames):
        raise ValueError("a CRC sees the difference")
    alone = odd_ones(frames)
    reception = Reception(frames[0], (lambda: dice.between(100, 127)) if heavy else 1)
    least = min(map(len, alone))
    for frame, places in zip(frames, alone):
        speaks = dice.chosen(least, places)
        reception.silence(places)
        for place, weight in zip(speaks, weights(dice, least, heavy)):
            reception.put(place, frame, weight)
        reception.turn(speaks)
    what = f"Three good frames of {length} bytes: each value speaks for two of them at least, and each has {reception.cost(frames[0])} against it."
    return heard(name, reception, frames, what)


def weights(dice, count, heavy):
    """So many weights of 1; or so many up to 127 that add up to 64 for each."""
    if not heavy:
        return [1] * count
    found = [dice.between(10, 118) for _ in range(count)]
    while sum(found) != 64 * count:
        k = dice.below(count)
        found[k] = max(1, min(127, found[k] + (1 if sum(found) < 64 * count else -1)))
    return found


def cases():
    for length, firsts, way in (
        (20, (24, 120), hearing.halves),
        (20, (60, 174), hearing.weights),
        (21, (31, 100), hearing.zeros),
        (24, (64, 150), hearing.faint),
        (40, (48, 333), hearing.disturbed),
        (255, (64, 2000), hearing.halves),
    ):
        yield fitting(four, length, firsts, way)
    for length, overlapping, first, heavy in (
        (20, 0, 40, False),
        (20, 1, 100, False),
        (22, 2, 90, True),
        (30, 3, 200, True),
        (61, 5, 300, True),
        (200, 1, 1300, False),
    ):
        yield fitting(three, length, overlapping, first, heavy)
