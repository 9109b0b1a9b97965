"""Values on the wrong side: the message comes back at the cost that they make, small and very large."""
from .case import fitting, heard, searched
from .dice import Dice
from .frames import drawn
from .reception import Reception


def exact(length, cost, strength, attempt):
    """Wrong values whose weights add up to exactly this cost: all of the strength, and one for what is left."""
    name = f"length_{length:03}_cost_{cost:06}"
    dice = Dice(name, attempt)
    sent = drawn(dice, length)
    reception = Reception(sent, strength)
    full, left = divmod(cost, strength)
    wrong = dice.chosen(full + (left > 0), range(len(sent.coded)))
    if left:
        reception.put(wrong[-1], sent, left)
    reception.turn(wrong)
    assert reception.cost(sent) == cost
    return heard(name, reception, [sent], f"A frame of {length} bytes heard with {strength}; wrong values: {len(wrong)}; cost {cost:,}.")


def part_wrong(name, length, percent, attempt):
    """A frame of which so many in a hundred values are wrong, each with a weight of its own: the frame, its reception, and what the page says."""
    dice = Dice(name, attempt)
    sent = drawn(dice, length)
    reception = Reception(sent, lambda: dice.between(1, 127))
    wrong = dice.chosen(len(sent.coded) * percent // 100, range(len(sent.coded)))
    reception.turn(wrong)
    return sent, reception, f"A frame of {length} bytes; {len(wrong)} of {len(sent.coded)} values are wrong"


def flips(length, percent, attempt):
    """Wrong values, and the message comes back."""
    name = f"length_{length:03}_wrong_{percent:02}_percent"
    sent, reception, what = part_wrong(name, length, percent, attempt)
    return heard(name, reception, [sent], f"{what}, with weights from 1 to 127.")


def spread(length, apart, word, attempt):
    """Values of 127, and one in five or six of them wrong, evenly spread over the coded bits."""
    name = f"length_{length:03}_every_{word}_value_wrong"
    sent = drawn(Dice(name, attempt), length)
    reception = Reception(sent, 127)
    reception.turn(range(0, len(sent.coded), apart))
    what = f"A frame of {length} bytes heard with 127; every {word} value in the coder's order is wrong: cost {reception.cost(sent):,}."
    return heard(name, reception, [sent], what)


def soft(length, centre, attempt):
    """Values as a noisy radio gives them: the sum of twelve draws about a centre, held within -128 and 127."""
    name = f"length_{length:03}_noisy_radio_{centre}"
    dice = Dice(name, attempt)
    sent = drawn(dice, length)
    reception = Reception(sent, lambda: centre)
    reception.values = [max(-128, min(127, value + sum(dice.between(-16, 16) for _ in range(12)))) for value in reception.values]
    return heard(name, reception, [sent], f"A frame of {length} bytes; values lie about {centre} and -{centre}, spread by noise to both sides of 0.")


def too_much(length, percent, number, attempt):
    """So much is wrong that another string is nearer than the one sent, and it is no frame."""
    name = f"length_{length:03}_too_much_{percent:02}_percent"
    _, reception, what = part_wrong(name, length, percent, attempt)
    return searched(name, reception, f"REFUSED {number}", f"{what}, and the nearest string is another.")


def cases():
    for given in ((20, 1, 1), (20, 255, 17), (20, 256, 17), (99, 4096, 50)):
        yield fitting(exact, *given)
    for cost in (32768, 65535, 65536, 65537):
        yield fitting(exact, 255, cost, 127)
    for given in ((20, 3), (20, 8), (22, 10), (40, 8), (128, 7), (255, 5)):
        yield fitting(flips, *given)
    for given in ((255, 5, "fifth"), (255, 6, "sixth"), (20, 5, "fifth")):
        yield fitting(spread, *given)
    for given in ((20, 30), (61, 36), (200, 40)):
        yield fitting(soft, *given)
    for given in ((20, 25, 7), (20, 22, 9), (60, 20, 9)):
        yield fitting(too_much, *given)
