"""Random numbers from a name: the same ones with every Python, on every machine."""
import hashlib


class Dice:
    """Draws that depend on the seed alone (SplitMix64, started from the seed's SHA-256)."""

    def __init__(self, *seed):
        self.state = int.from_bytes(hashlib.sha256(repr(seed).encode()).digest()[:8], "big")

    def number(self):
        self.state = self.state + 0x9E3779B97F4A7C15 & 0xFFFFFFFFFFFFFFFF
        z = self.state
        z = (z ^ z >> 30) * 0xBF58476D1CE4E5B9 & 0xFFFFFFFFFFFFFFFF
        z = (z ^ z >> 27) * 0x94D049BB133111EB & 0xFFFFFFFFFFFFFFFF
        return z ^ z >> 31

    def below(self, bound):
        return self.number() % bound

    def between(self, least, most):
        return least + self.below(most - least + 1)

    def bits(self, count):
        return [self.below(2) for _ in range(count)]

    def chosen(self, count, things):
        """So many of the things, each at most once, in the order they had."""
        left = list(enumerate(things))
        taken = [left.pop(self.below(len(left))) for _ in range(count)]
        return [thing for _, thing in sorted(taken, key=lambda pair: pair[0])]
