"""What a receiver heard of one frame."""
from functools import lru_cache

from . import uplink

places = lru_cache(maxsize=None)(uplink.places)


class Reception:
    """A mark for each sub-packet, and a value for each coded bit in the coder's order."""

    def __init__(self, frame, strength=1):
        """A frame heard on the right side everywhere; the strength is a number, or a function that is asked once for each coded bit."""
        self.length = frame.length
        self.marks = [1] * (self.length + 4)
        ask = strength if callable(strength) else lambda: strength
        self.values = [ask() * (1 if bit else -1) for bit in frame.coded]

    def put(self, place, frame, weight):
        """This weight at a coded place, on the frame's side."""
        self.values[place] = weight if frame.coded[place] else -weight

    def turn(self, chosen):
        """The values at these coded places stand on the other side."""
        for place in chosen:
            self.values[place] = -self.values[place]

    def silence(self, chosen):
        for place in chosen:
            self.values[place] = 0

    def lose(self, sub_packets, noise=None):
        """These sub-packets are lost; what stands in them is as it was, or what the function `noise` gives at each place."""
        for s in sub_packets:
            self.marks[s] = 0
        if noise:
            for place, (s, _) in enumerate(places(self.length)):
                if s in sub_packets:
                    self.values[place] = noise()

    def within(self, sub_packets):
        """The coded places that these sub-packets carry."""
        return [place for place, (s, _) in enumerate(places(self.length)) if s in sub_packets]

    def heard(self):
        """The values that count, in the coder's order: those of lost sub-packets are zeros."""
        return [value if self.marks[s] else 0 for value, (s, _) in zip(self.values, places(self.length))]

    def cost(self, frame):
        """The sum of the weights heard against a frame."""
        return sum(abs(value) for value, bit in zip(self.heard(), frame.coded) if value and (value > 0) != bit)

    def capture(self):
        """The stored capture's bytes."""
        rows = [[0] * 24 for _ in self.marks]
        for value, (s, p) in zip(self.values, places(self.length)):
            assert -128 <= value <= 127, "no byte holds this value"
            rows[s][p] = value
        return uplink.capture(self.length, self.marks, rows)
