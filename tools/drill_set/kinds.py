"""The kinds of the set, in the order of its first page: the folder's name, its captures, and what it shows."""
from . import clean, losses, malformed, minus_128, near_ties, noise, refused, ties, ties_of_three_and_four, ties_refused

KINDS = {
    "clean": (
        clean,
        "Frames heard on the right side everywhere, at the shortest and the longest lengths and between. A build that differs here differs in the "
        "frame itself: fields, CRCs, whitening, code, places.",
    ),
    "losses": (
        losses,
        "Lost bursts: runs, every second, only the core heard, only the extension heard, and so many that the nearest string is no frame. What stands "
        "in a lost burst does not count.",
    ),
    "noise": (noise, "Values on the wrong side. The cost is the sum of their weights: below and above 255, 65,535 and 131,071."),
    "ties": (
        ties,
        "Two frames, or many, are equally near, and both pass header CRC, PSI and payload CRC. The one with 0 at the first differing bit wins, as the "
        "bits entered the coder: before whitening is removed. In some a string that is no frame is as near. Most names say the length, the first "
        "differing bit, how it was heard, and the winner's bit at the last place where they differ.",
    ),
    "ties_of_three_and_four": (ties_of_three_and_four, "Three or four frames are equally near, and all of them pass their checks."),
    "ties_refused": (
        ties_refused,
        "The string that wins a tie fails a check, while one that is as near is a good frame. It is refused: the winner alone is looked at. A build "
        "that breaks the tie otherwise, or tries the next string, prints OK.",
    ),
    "near_ties": (
        near_ties,
        "Two frames that pass their checks, and one is nearer by exactly one. A build that rounds weights, or takes the two for equals, chooses the "
        "other where the nearer one has 1 at the first differing bit. In some what decides lies up to 2,032 bits behind the first differing bit.",
    ),
    "minus_128": (
        minus_128,
        "-128 weighs 128 and says 0. A build that takes it for -127, for 0 or for +128 prints another message, another cost or another refusal.",
    ),
    "refused": (refused, "Each refusal that a capture can show, and which comes first where several would hold."),
    "malformed": (malformed, "Captures whose form is wrong: tags, lengths, order, end."),
}


def made(kind):
    """The captures of a kind, whose names all differ."""
    cases = list(KINDS[kind][0].cases())
    names = [case.name for case in cases]
    assert len(set(names)) == len(names), f"two captures of {kind} have one name"
    return cases
