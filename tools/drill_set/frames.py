"""Frames, good and bad, and the ways in which two of them differ without a CRC seeing it."""
from functools import cached_property

from . import uplink

# The CRC's polynomial, highest power first. A run of message bits that is a multiple of it changes neither CRC.
POLYNOMIAL = "110011011"
# So many ones in a row are a multiple of it too, and so is every multiple of that number. The coder then changes little but its first word's bits, all
# along the run: two frames that differ so stay apart from the first bit of the run to its end.
RUN = 254
# What each refusal of a string says.
CHECKS = {7: "header CRC", 8: "PSI", 9: "payload CRC"}


class Frame:
    """One string of payload bits, its checks good or bad."""

    def __init__(self, bits):
        self.bits = list(bits)

    @cached_property
    def string(self):
        """The bits as they enter the coder: whitened."""
        return uplink.whitened(self.bits)

    @cached_property
    def coded(self):
        return uplink.coded(self.string)

    @property
    def length(self):
        return (len(self.bits) - 26) // 8

    @property
    def message(self):
        body = self.bits[24:-2]
        return bytes(int("".join(map(str, body[k : k + 8])), 2) for k in range(0, len(body), 8))

    @property
    def mode(self):
        return 2 * self.bits[-2] + self.bits[-1]

    def fault(self):
        """The number that its checks give: 7, 8 or 9, or 0 for a frame that passes them all."""
        if self.bits[:8] != uplink.bits_of(8, uplink.crc8(self.bits[8:24])):
            return 7
        if self.bits[16:24] != uplink.bits_of(8, self.length):
            return 8
        return 0 if self.bits[8:16] == uplink.bits_of(8, uplink.crc8(self.bits[24:])) else 9

    def line(self, cost):
        """The report's line where this is the nearest string, at this cost."""
        fault = self.fault()
        return uplink.refused(fault) if fault else uplink.ok(self.message, self.mode, cost)

    def flipped(self, positions):
        """The same with the payload bits at these positions the other way round."""
        bits = list(self.bits)
        for position in positions:
            bits[position] ^= 1
        return Frame(bits)


def frame(message, mode):
    return Frame(uplink.payload(message, mode))


def multiple(factor):
    """The polynomial times a factor, both as strings of bits."""
    product = 0
    for k, bit in enumerate(reversed(factor)):
        if bit == "1":
            product ^= int(POLYNOMIAL, 2) << k
    return f"{product:b}"


def laid(pattern, first):
    """The positions that a pattern of bits covers with its ones from payload bit `first` on."""
    return [first + k for k, bit in enumerate(pattern) if bit == "1"]


def apart(one, two):
    """The coded places where two frames differ, in the coder's order."""
    return [j for j, (a, b) in enumerate(zip(one.coded, two.coded)) if a != b]


def first_difference(one, two):
    """The first bit entering the coder where two frames differ."""
    return next(k for k, (a, b) in enumerate(zip(one.string, two.string)) if a != b)


def drawn(dice, length, wanted=()):
    """A good frame of random message and mode, whose bits as they enter the coder are as wanted: pairs of a position behind the PSI and a bit."""
    white, body = uplink.whitening(26 + 8 * length), dice.bits(8 * length + 2)
    for position, bit in wanted:
        body[position - 24] = bit ^ white[position]
    return frame(Frame([0] * 24 + body).message, 2 * body[-2] + body[-1])


def tied(dice, length, pattern, first, last_bit):
    """Two good frames that differ by a pattern from bit `first` on; the winner of a tie first. Its last bit where they differ is `last_bit`."""
    winner = drawn(dice, length, [(first, 0), (first + len(pattern) - 1, last_bit)])
    loser = winner.flipped(laid(pattern, first))
    assert winner.fault() == loser.fault() == 0, "a CRC sees the difference"
    return winner, loser


def at(*positions):
    """Bits to flip, as a function of the frame: these."""
    return lambda frame: list(positions)


def from_end(*back):
    """Bits to flip: the last ones, counted back from the end, where 1 is the last bit of the mode."""
    return lambda frame: [len(frame.bits) - k for k in back]


def with_new_header(*positions):
    """Bits to flip: these behind the header CRC, and those of the header CRC that make it right again."""

    def found(frame):
        changed = frame.flipped(positions)
        right = Frame(uplink.bits_of(8, uplink.crc8(changed.bits[8:24])) + changed.bits[8:])
        return [k for k, (a, b) in enumerate(zip(frame.bits, right.bits)) if a != b]

    return found
