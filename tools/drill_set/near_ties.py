"""Near ties: two frames that both pass their checks, and one is nearer by exactly one. Here the cost decides, and not the tie's rule."""
from . import hearing
from .case import fitting, heard, with_rivals
from .dice import Dice
from .frames import RUN, apart, tied
from .reception import Reception
from .ties import PATTERNS

SAID = {
    "ones": "every value is 1, 0 or -1",
    "weights": "weights go up to 127",
    "heavy": "where they differ every weight is 100 or more",
}


def by_ones(winner, places, dice):
    """Values of 1, 0 and -1: one more of the places where the frames differ speaks for the winner than against it."""
    reception = Reception(winner)
    places = list(places)
    if len(places) % 2 == 0:
        reception.silence([places.pop(dice.below(len(places)))])
    reception.turn(places[1::2])
    return reception


def by_weights(winner, places, dice, least=1):
    """Weights up to 127, that add up to one more for the winner than against it."""
    reception = Reception(winner, lambda: dice.between(60, 127))
    hearing.balance(reception, winner, places, lambda: dice.between(least, 120), ahead=1)
    return reception


WAYS = {"ones": by_ones, "weights": by_weights, "heavy": lambda *given: by_weights(*given, least=100)}


def near(length, pattern, first, winner_bit, way, attempt):
    """The winner has `winner_bit` at the first bit where the two frames differ."""
    name = f"length_{length:03}_bit_{first:04}_winner_has_{winner_bit}_{way}"
    dice = Dice(name, attempt)
    frames = tied(dice, length, pattern, first, dice.below(2))
    winner, loser = frames[winner_bit], frames[1 - winner_bit]
    reception = WAYS[way](winner, apart(winner, loser), dice)
    assert reception.cost(loser) - reception.cost(winner) == 1, "the margin is not one"
    what = f"Two good frames of {length} bytes; {SAID[way]}, and one frame is nearer by exactly one."
    return with_rivals(heard(name, reception, [winner], what), reception, winner, loser)


def late(length, runs, winner_bit, attempt):
    """Two frames that differ in every bit of a long run: the last coded bits there outweigh the first by one."""
    name = f"length_{length:03}_run_of_{RUN * runs:04}_bits_winner_has_{winner_bit}"
    dice = Dice(name, attempt)
    frames = tied(dice, length, "1" * (RUN * runs), 24 + dice.below(4), dice.below(2))
    winner, loser = frames[winner_bit], frames[1 - winner_bit]
    reception = hearing.early_and_late(winner, apart(winner, loser), dice, False, 1)
    what = f"Two good frames of {length} bytes that differ in {RUN * runs} bits in a row: the last coded bits there outweigh the first, by exactly one."
    return with_rivals(heard(name, reception, [winner], what), reception, winner, loser)


def cases():
    lengths = (20, 20, 20, 20, 20, 20, 21, 22, 30, 40, 61, 99, 128, 255)
    for k, length in enumerate(lengths):
        pattern = PATTERNS[k % len(PATTERNS)]
        first = 24 + (k * 53) % (8 * length - 20)
        yield fitting(near, length, pattern, first, k % 2, ("ones", "weights", "heavy")[k // 2 % 3])
    for given in ((32, 1, 1), (33, 1, 0), (128, 4, 1), (255, 8, 0)):
        yield fitting(late, *given)
