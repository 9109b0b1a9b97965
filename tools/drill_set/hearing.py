"""Ways to hear a frame so that others are exactly as near.

Each takes the frame, groups of coded places, and the dice, and gives a reception. A group holds the places where one other frame differs: heard as
much in all for the frame as against it, so that the other costs the same. Every place outside the groups is heard on the frame's side.
"""
from .case import Unfit
from .reception import Reception, places


def halves(frame, groups, dice):
    """Values of 1 and -1; in each group every second place speaks against the frame (and one is zero where their number is odd)."""
    reception = Reception(frame)
    for group in groups:
        group = list(group)
        if len(group) % 2:
            reception.silence([group.pop(dice.below(len(group)))])
        reception.turn(group[dice.below(2) :: 2])
    return reception


def zeros(frame, groups, dice):
    """Values of 1 and -1, and zeros in the groups."""
    reception = Reception(frame)
    for group in groups:
        reception.silence(group)
    return reception


def faint(frame, groups, dice):
    """Values of 1, 0 and -1: zeros at some places of a group, and at one in ten outside."""
    reception = Reception(frame)
    elsewhere = outside(frame, groups, 0)
    reception.silence(dice.chosen(len(elsewhere) // 10, elsewhere))
    for group in groups:
        zeroed = dice.chosen(4 + len(group) % 2, group)
        reception.silence(zeroed)
        reception.turn([place for place in group if place not in zeroed][dice.below(2) :: 2])
    return reception


def weights(frame, groups, dice):
    """Weights up to 127; those of a group are, added up, the same for the frame as against it."""
    reception = Reception(frame, lambda: dice.between(60, 127))
    for group in groups:
        balance(reception, frame, group, lambda: dice.between(1, 127))
    return reception


def balance(reception, frame, group, draw, full=(), ahead=0):
    """Gives the places of a group weights that add up to `ahead` more for the frame than against it.

    The places of `full` hold -128, which speaks for the frame where its coded bit is 0. The others get the weights that `draw` gives, the heaviest
    first and each on the side that lacks more; what one side lacks at the end is added to its weights.
    """
    sums = [-ahead, 0]
    for place in full:
        reception.values[place] = -128
        sums[frame.coded[place]] += 128
    sides = ([], [])
    for weight, place in sorted(((draw(), place) for place in group if place not in full), reverse=True):
        lacking = int(sums[1] < sums[0])
        sides[lacking].append((place, weight))
        sums[lacking] += weight
    raised = int(sums[1] < sums[0])
    missing = abs(sums[0] - sums[1])
    for side, pairs in enumerate(sides):
        for place, weight in pairs:
            added = min(missing, 127 - weight) if side == raised else 0
            missing -= added
            reception.put(place, frame, (weight + added) * (-1 if side else 1))
    if missing:
        raise Unfit("one side has no room for what it lacks")


def early_and_late(frame, group, dice, early_for, ahead=0):
    """Where a rival differs all is 0, but for a few places at the start and at the end of the group.

    The early ones speak for the frame, if `early_for`, and the late ones against it; else the other way round. In all they speak for the frame by
    `ahead`. So the last coded bits decide about bits that entered the coder long before.
    """
    reception = Reception(frame, lambda: dice.between(100, 127))
    reception.silence(group)
    weight = [dice.between(5, 15) for _ in range(12)]
    for chosen, speaks_for in ((group[:12], early_for), (group[-12:], not early_for)):
        for k, place in enumerate(chosen):
            more = ahead if speaks_for and k == 0 else 0
            reception.put(place, frame, (weight[k] + more) * (1 if speaks_for else -1))
    return reception


def disturbed(frame, groups, dice):
    """As `weights`, and one place in twenty-five outside the groups stands against the frame."""
    reception, elsewhere = weights(frame, groups, dice), outside(frame, groups, 30)
    reception.turn(dice.chosen(len(elsewhere) // 25, elsewhere))
    return reception


def bursts_lost(frame, groups, dice):
    """Weights up to 127; the sub-packets that carry the groups are lost, with noise in them, and the others are heard clean."""
    reception, at = Reception(frame, lambda: dice.between(1, 127)), places(frame.length)
    reception.lose({at[place][0] for group in groups for place in group}, lambda: dice.between(-128, 127))
    return reception


def outside(frame, groups, distance):
    """The coded places that lie further than this from every place of the groups."""
    near = {place + d for group in groups for place in group for d in range(-distance, distance + 1)}
    return [place for place in range(len(frame.coded)) if place not in near]


# What the pages say of each way.
TEXTS = {
    halves: "every value is 1 or -1; of the places where they differ every second speaks for one, the others for the other",
    zeros: "every value is 1 or -1, and where they differ all are 0: nothing speaks against either",
    faint: "every value is 1, 0 or -1; where they differ some are 0, and the others speak half for one and half for the other",
    weights: "weights go up to 127, and where they differ those for one add up to the same as those for the other",
    disturbed: "weights go up to 127, and where they differ those for one add up to the same as those for the other; elsewhere one in twenty-five is wrong",
    bursts_lost: "{lost} of {all} sub-packets are lost, with noise in them; what is heard is heard without one wrong value",
}


def said(way, reception):
    """What the pages say of a reception that was made in this way."""
    return TEXTS[way].format(lost=reception.marks.count(0), all=len(reception.marks))
