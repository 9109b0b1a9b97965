"""Ties that are refused: the string that wins fails a check, and one that is as near is a good frame. Nothing but the winner is looked at."""
from . import hearing, uplink
from .case import Unfit, fitting, heard
from .dice import Dice
from .frames import CHECKS, apart, at, drawn, from_end, laid, with_new_header

def segments(positions):
    """The positions cut where six bits or more lie unchanged between two: there the coder forgets, and each part can be exchanged alone."""
    parts = []
    for position in positions:
        if parts and position - parts[-1][-1] <= 6:
            parts[-1].append(position)
        else:
            parts.append([position])
    return parts


def combinations(frame, parts):
    """The frame with any of the parts flipped, none of them and all of them too."""
    found = [frame]
    for part in parts:
        found += [other.flipped(part) for other in found]
    return found


def refused(name, length, number, positions, way, attempt):
    """A good frame has 1 at the first bit of each part that differs, so that the string with all of them flipped wins; and it fails a check."""
    dice = Dice(name, attempt)
    good = drawn(dice, length)
    parts = segments(positions(good))
    if any(good.string[part[0]] == 0 for part in parts):
        raise Unfit(name)
    equals = sorted(combinations(good, parts), key=lambda frame: frame.string)
    assert equals[0].fault() == number and equals[-1] is good, "the winner fails another check"
    groups = [apart(good, good.flipped(part)) for part in parts]
    count = {2: "Two", 4: "Four", 8: "Eight"}[len(equals)]
    reception = way(good, groups, dice)
    what = f"{count} strings of {length} bytes: {hearing.said(way, reception)}. The winner fails its {CHECKS[number]}; the last is a good frame."
    return heard(name, reception, equals, what)


CASES = (
    ("header_crc_bit_0_halves", 20, 7, at(0), hearing.halves),
    ("header_crc_bit_5_weights", 20, 7, at(5), hearing.weights),
    ("header_crc_long_message", 255, 7, at(2), hearing.halves),
    ("payload_crc_alone_faint", 26, 7, at(8, 11), hearing.faint),
    ("psi_alone_disturbed", 40, 7, at(20), hearing.disturbed),
    ("header_crc_bits_apart", 20, 7, at(1, 14), hearing.halves),
    ("psi_21_for_20", 20, 8, with_new_header(23), hearing.halves),
    ("psi_65_for_64", 64, 8, with_new_header(23), hearing.zeros),
    ("psi_191_for_255", 255, 8, with_new_header(17), hearing.zeros),
    ("psi_and_payload_crc_halves", 30, 8, at(*laid(uplink.UNSEEN, 11)), hearing.halves),
    ("psi_and_payload_crc_weights", 20, 8, at(*laid(uplink.UNSEEN, 12)), hearing.weights),
    ("first_bit_of_message_halves", 20, 9, at(24), hearing.halves),
    ("middle_of_message_weights", 20, 9, at(100), hearing.weights),
    ("last_bit_of_message", 20, 9, from_end(3), hearing.faint),
    ("first_bit_of_mode", 20, 9, from_end(2), hearing.halves),
    ("last_bit_of_mode", 22, 9, from_end(1), hearing.halves),
    ("both_bits_of_mode", 128, 9, from_end(2, 1), hearing.disturbed),
    ("payload_crc_and_header_crc", 20, 9, with_new_header(9), hearing.zeros),
    ("three_bits_of_message", 45, 9, at(40, 130, 220), hearing.weights),
)


def cases():
    for name, length, number, positions, way in CASES:
        yield fitting(refused, f"refused_{number}_{name}", length, number, positions, way)
