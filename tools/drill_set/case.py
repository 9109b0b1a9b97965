"""One capture of the set: its bytes, the line that must come out, and what the page says of it."""
from dataclasses import dataclass, field

from . import uplink
from .frames import Frame
from .nearest import nearest


class Unfit(Exception):
    """The checking model finds another answer than the making meant: another seed is tried."""


@dataclass
class Case:
    name: str
    data: bytes
    line: str
    what: str
    near: list = field(default_factory=list)  # pairs of a frame and its cost that the page names, the winner first


def unsearched(name, data, what, number=10):
    """A capture that is refused before any search: for its form, its length, its marks or its silence."""
    return Case(name, bytes(data), uplink.refused(number), what)


def heard(name, reception, equals, what, count=None):
    """A capture of which the making tells the nearest frames: one, or those of a tie, the first of which wins.

    There are as many equals as frames are given, or `count`. Raises Unfit where the checking model finds another string, cost or count.
    """
    cost, bits, found = nearest(reception.heard())
    if bits != equals[0].string or found != (count or len(equals)) or any(reception.cost(frame) != cost for frame in equals):
        raise Unfit(name)
    near = [(frame, cost) for frame in equals] if len(equals) > 1 else []
    return Case(name, reception.capture(), equals[0].line(cost), what, near)


def with_rivals(case, reception, *frames):
    """The same capture, whose page names these frames and what each of them costs, the winner first."""
    case.near = [(frame, reception.cost(frame)) for frame in frames]
    return case


def searched(name, reception, line, what):
    """A capture whose nearest string only a search tells: the checking model's, where its line begins with `line`."""
    cost, bits, _ = nearest(reception.heard())
    case = Case(name, reception.capture(), Frame(uplink.whitened(bits)).line(cost), what)
    if not case.line.startswith(line):
        raise Unfit(f"{name}: {case.line}")
    return case


def fitting(make, *given):
    """What `make` gives for the first attempt, counted from 0, that the checking model agrees with."""
    for attempt in range(40):
        try:
            return make(*given, attempt)
        except Unfit as unfit:
            last = unfit
    raise last
