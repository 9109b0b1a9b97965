"""The checking model: the nearest string to what was heard, and how many are as near, found by keeping whole strings.

It goes forward in time over the 64 states of the coder. A state keeps the nearest string that leads to it, whole, as a number whose highest bit is
the first that entered the coder. Where two paths meet the nearer one is kept, and among equals the smaller number: the one with 0 at the first bit
where they differ. So the paper's rule stands here word for word. It is slow, and shares nothing with the crates.
"""
from . import uplink
from .dice import Dice

# What the coder puts out, three bits as a number, for each register: the newest bit highest, the one six steps older lowest.
OUTPUT = [sum((bin(register & word).count("1") & 1) << k for k, word in enumerate(uplink.WORDS)) for register in range(128)]
# A state that no string has led to yet: (cost, string, how many strings cost the same).
NOWHERE = (1 << 40, 0, 0)


def prices(three):
    """What each of the eight outputs costs against three received values."""
    against = [(max(value, 0), max(-value, 0)) for value in three]
    return [sum(against[k][output >> k & 1] for k in range(3)) for output in range(8)]


def step(row, price, bit):
    """What is kept for the 32 states whose newest bit is `bit`: two paths meet in each, which differ in the bit that leaves."""
    after = []
    for state in range(0, 64, 2):
        cost, string, count = row[state]
        other_cost, other_string, other_count = row[state + 1]
        cost += price[OUTPUT[64 * bit + state]]
        other_cost += price[OUTPUT[64 * bit + state + 1]]
        if cost < other_cost:
            after.append((cost, 2 * string + bit, count))
        elif other_cost < cost:
            after.append((other_cost, 2 * other_string + bit, other_count))
        else:
            after.append((cost, 2 * min(string, other_string) + bit, count + other_count))
    return after


def nearest(values):
    """The nearest string to values in the coder's order: its cost, its bits, and how many strings have that cost, itself included."""
    row, steps = [(0, 0, 1)] + [NOWHERE] * 63, len(values) // 3
    for t in range(steps):
        price = prices(values[3 * t : 3 * t + 3])
        row = step(row, price, 0) + (step(row, price, 1) if t < steps - 6 else [NOWHERE] * 32)
    cost, string, count = row[0]
    return cost, uplink.bits_of(steps - 6, string >> 6), count


def listed(values):
    """The same by listing every string, for short ones."""
    n = len(values) // 3 - 6
    strings = [uplink.bits_of(n, number) for number in range(2**n)]
    costs = [sum(abs(value) for value, bit in zip(values, uplink.coded(bits)) if value and (value > 0) != bit) for bits in strings]
    return min(costs), strings[costs.index(min(costs))], costs.count(min(costs))


def check_by_listing():
    """Holds the search to the list of all strings, for some short receptions, most of them with ties."""
    for k in range(120):
        dice = Dice("listing", k)
        values = [dice.between(-1, 1) if k % 3 else dice.between(-128, 127) for _ in range(3 * (7 + k % 6))]
        assert nearest(values) == listed(values), "the checking model does not find the nearest string"
