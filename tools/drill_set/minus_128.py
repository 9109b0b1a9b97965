"""-128 weighs 128 and says 0: captures whose message or cost is another where it is taken for -127, for 0 or for +128."""
from . import hearing, uplink
from .case import Unfit, fitting, heard, searched, unsearched, with_rivals
from .dice import Dice
from .frames import Frame, apart, drawn, tied
from .reception import Reception
from .ties import PATTERNS


def decided(name, length, pattern, first, count, winner_bit, ahead, for_winner, attempt):
    """Two good frames; so many places where they differ hold -128, all for the winner or all against it; it is nearer by `ahead`."""
    dice = Dice(name, attempt)
    frames = tied(dice, length, pattern, first, dice.below(2))
    winner, loser = frames[winner_bit], frames[1 - winner_bit]
    places = apart(winner, loser)
    fit = [place for place in places if winner.coded[place] == (0 if for_winner else 1)]
    if len(fit) < count:
        raise Unfit(name)
    reception = Reception(winner, lambda: dice.between(60, 127))
    hearing.balance(reception, winner, places, lambda: dice.between(30, 90), dice.chosen(count, fit), ahead)
    side = "for the winner" if for_winner else "against the winner"
    margin = "equally near" if ahead == 0 else f"apart by {ahead}"
    what = f"Two good frames of {length} bytes, {margin}; -128 stands at {count} of the places where they differ, {side}."
    assert reception.cost(loser) - reception.cost(winner) == ahead, "the margin is another"
    return with_rivals(heard(name, reception, [winner, loser] if ahead == 0 else [winner], what), reception, winner, loser)


def as_many_each(length, first, winner_bit, attempt):
    """As many places hold -128 for the winner as hold -127 for the other."""
    name = f"length_{length:03}_as_many_minus_128_as_minus_127_winner_has_{winner_bit}"
    dice = Dice(name, attempt)
    frames = tied(dice, length, uplink.UNSEEN, first, dice.below(2))
    winner, loser = frames[winner_bit], frames[1 - winner_bit]
    places = apart(winner, loser)
    ours = [place for place in places if winner.coded[place] == 0]
    theirs = [place for place in places if winner.coded[place] == 1]
    count = min(len(ours), len(theirs))
    reception = Reception(winner, lambda: dice.between(100, 127))
    reception.silence(places)
    for side, value in ((dice.chosen(count, ours), -128), (dice.chosen(count, theirs), -127)):
        for place in side:
            reception.values[place] = value
    what = f"Two good frames of {length} bytes; where they differ {count} values are -128 and speak for one, {count} are -127 and speak for the other."
    return with_rivals(heard(name, reception, [winner], what), reception, winner, loser)


def only_one_speaks(length, first, attempt):
    """Where two frames differ all is zero but one -128, which speaks for the one with 1 at the first bit where they differ."""
    name = f"length_{length:03}_only_one_minus_128_speaks"
    dice = Dice(name, attempt)
    loser, winner = tied(dice, length, uplink.UNSEEN, first, dice.below(2))
    places = apart(winner, loser)
    reception = Reception(winner, lambda: dice.between(1, 127))
    reception.silence(places)
    reception.values[next(place for place in places if winner.coded[place] == 0)] = -128
    what = f"Two good frames of {length} bytes; where they differ one value is -128 and the others are 0."
    return with_rivals(heard(name, reception, [winner], what), reception, winner, loser)


def wrong_ones(length, count, attempt):
    """A frame heard clean but for so many coded ones that stand as -128."""
    name = f"length_{length:03}_cost_{count}_times_128"
    dice = Dice(name, attempt)
    frame = drawn(dice, length)
    reception = Reception(frame, lambda: dice.between(100, 127))
    for place in dice.chosen(count, [j for j, bit in enumerate(frame.coded) if bit]):
        reception.values[place] = -128
    return heard(name, reception, [frame], f"A frame of {length} bytes; -128 stands at {count} of its coded ones: cost {128 * count:,}.")


def full_scale(length, flips, attempt):
    """-128 for every coded 0 and 127 for every 1, but for some values that stand on the wrong side."""
    name = f"length_{length:03}_minus_128_for_every_0_{flips}_wrong"
    dice = Dice(name, attempt)
    frame = drawn(dice, length)
    reception = Reception(frame)
    wrong = set(dice.chosen(flips, range(len(frame.coded))))
    reception.values = [127 if bit != (place in wrong) else -128 for place, bit in enumerate(frame.coded)]
    what = f"A frame of {length} bytes, -128 for every 0 and 127 for every 1, and {flips or 'none'} of the {len(frame.coded)} on the wrong side."
    return heard(name, reception, [frame], what)


def nothing_else(name, keep, what):
    """No value is above 0, so that the string of zeros costs nothing and is the first of all: behind whitening its header CRC is wrong."""
    frame = drawn(Dice(name), 20)
    reception = Reception(frame)
    reception.values = [-128 if keep(place, bit) else 0 for place, bit in enumerate(frame.coded)]
    zeros = Frame(uplink.whitening(186))
    assert zeros.fault() == 7 and reception.cost(zeros) == 0
    return searched(name, reception, "REFUSED 7", what)


def only_lost_ones():
    """-128 stands in lost sub-packets alone: nothing was heard."""
    reception = Reception(drawn(Dice("only_lost_ones"), 20))
    reception.values = [-128 if s in (3, 17) else 0 for s, _ in uplink.places(20)]
    reception.lose({3, 17})
    return unsearched("in_lost_sub_packets_only", reception.capture(), "-128 stands in two lost sub-packets, and every other value is 0.", 6)


def cases():
    for length, k, first, count, winner_bit, ahead, for_winner in (
        (20, 0, 40, 1, 0, 0, True),
        (40, 2, 222, 5, 0, 0, True),
        (255, 3, 1500, 2, 0, 0, True),
        (20, 4, 130, 1, 0, 0, False),
        (61, 5, 400, 4, 0, 0, False),
        (20, 0, 55, 1, 1, 1, True),
        (21, 1, 80, 2, 1, 1, True),
        (99, 2, 600, 3, 1, 2, True),
        (22, 3, 66, 2, 1, 1, False),
    ):
        kind = "tie" if ahead == 0 else f"ahead_by_{ahead}"
        side = "for" if for_winner else "against"
        name = f"length_{length:03}_bit_{first:04}_{kind}_with_{count}_{side}"
        yield fitting(decided, name, length, PATTERNS[k], first, count, winner_bit, ahead, for_winner)
    yield fitting(as_many_each, 20, 77, 1)
    yield fitting(as_many_each, 33, 140, 0)
    yield fitting(only_one_speaks, 20, 101)
    yield fitting(only_one_speaks, 128, 64)
    for given in ((20, 1), (255, 300)):
        yield fitting(wrong_ones, *given)
    for given in ((20, 0), (24, 30), (255, 560)):
        yield fitting(full_scale, *given)
    what = "The coded zeros of a frame are heard as -128, and its ones as 0: the string of zeros costs nothing."
    yield nothing_else("nothing_but_minus_128", lambda place, bit: not bit, what)
    what = "One value is -128, and all others are 0: the string of zeros costs nothing."
    yield nothing_else("one_minus_128_alone", lambda place, bit: place == 200, what)
    yield only_lost_ones()
