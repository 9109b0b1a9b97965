"""Frames heard on the right side everywhere: the message comes back at cost 0."""
from . import uplink
from .case import heard
from .dice import Dice
from .frames import Frame, drawn, frame
from .reception import Reception

LENGTHS = (20, 21, 22, 40, 61, 99, 128, 251, 252, 254, 255)


def random_frame(length, mode, strength):
    """A random message of this length and mode; every value has this strength, or one of its own from 1 to 127."""
    name = f"length_{length:03}_mode_{mode}_strength_{strength or 'mixed'}"
    dice = Dice(name)
    sent = frame(drawn(dice, length).message, mode)
    said = f"every value is {strength} or -{strength}" if strength else "weights go from 1 to 127"
    reception = Reception(sent, strength or (lambda: dice.between(1, 127)))
    return heard(name, reception, [sent], f"A random message of {length} bytes, mode {mode}; {said}.")


def plain_messages():
    """Messages of one value, and the one whose every bit enters the coder as 0."""
    for name, message, mode, what in (
        ("all_bytes_00", bytes(20), 0, "20 bytes of 00, mode 0"),
        ("all_bytes_ff", b"\xff" * 20, 3, "20 bytes of ff, mode 3"),
    ):
        sent = frame(message, mode)
        yield heard(name, Reception(sent), [sent], f"{what}; every value is 1 or -1.")
    white = Frame(uplink.whitening(26 + 8 * 64))
    sent = frame(white.message, white.mode)
    what = "64 bytes that are the whitening bits themselves: behind the header only zeros enter the coder; every value is 1 or -1."
    yield heard("message_of_whitening_bits", Reception(sent), [sent], what)


def cases():
    for k, length in enumerate(LENGTHS):
        yield random_frame(length, k % 4, 1)
        if length in (20, 22, 61, 128, 255):
            yield random_frame(length, 3 - k % 4, 0)
    for length, mode in ((20, 2), (21, 3), (255, 0)):
        yield random_frame(length, mode, 127)
    yield from plain_messages()
