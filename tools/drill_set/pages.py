"""The pages of the set: what each capture is, and its line; of each tie all that is needed to see who wins, and why."""
from . import uplink
from .frames import CHECKS, first_difference
from .kinds import KINDS

START = """# The drill set

Captures that tell builds apart. Each is a file NAME.capture, and NAME.line beside it has the line that a report program must print for it. `make drill`
runs our own report over them; `make drill A=one B=other` two programs, against each other and against these lines.

No line was taken from a program under test. Each follows from how its capture was made and from document 01, but for a few in `losses` and `noise` of
which only a search tells the nearest string; for every line that a search decides, a decoder of its own that keeps whole strings
(`tools/drill_set/nearest.py`) gives the same. `tools/drill-set drill` makes the set again, byte for byte, and
`tools/drill-set --check` compares. `rust/tests/drill_rules.rs` shows which wrong rules the set catches, and with how many captures.

| Kind | Captures | What it shows |
|---|---|---|
"""


def first_page(made):
    """The page of the whole set, from the captures of each kind."""
    rows = [f"| [{kind}]({kind}/README.md) | {len(cases)} | {KINDS[kind][1]} |\n" for kind, cases in made.items()]
    total = sum(map(len, made.values()))
    return START + "".join(rows) + f"\n{total} captures in all.\n"


def page(kind, cases):
    """The page of one kind: a table of all its captures, and below it each tie and near tie at length."""
    text = f"# {kind}\n\n{KINDS[kind][1]}\n\nThe file NAME.line beside each capture has its line whole.\n\n"
    text += "| Capture | What it is | Its line |\n|---|---|---|\n"
    for case in cases:
        text += f"| `{case.name}` | {case.what} | `{short(case.line)}` |\n"
    return text + "".join(rivals(case) for case in cases if case.near)


def short(line):
    """A line with its message cut after eight digits."""
    head, _, digits = line.rpartition(" ")
    return f"{head} {digits[:8]}.." if line.startswith("OK") else line


def rivals(case):
    """The strings that are near, whole, and why the first of them wins."""
    (winner, cost), *others = case.near
    text = f"\n## {case.name}\n\n{case.what}\n\n"
    for place, (frame, its_cost) in enumerate(case.near):
        fault = frame.fault()
        fails = f", fails its {CHECKS[fault]}" if fault else ""
        text += f"    {'loses' if place else 'wins '}  cost {its_cost}  mode {frame.mode}  {frame.message.hex()}{fails}\n"
    return text + "\n" + "".join(f"- {why(winner, cost, frame, its_cost, place)}\n" for place, (frame, its_cost) in enumerate(others, 2))


def why(winner, cost, other, its_cost, place):
    """Why the winner wins against one other string."""
    first, last = first_difference(winner, other), last_difference(winner, other)
    bit = winner.string[first]
    against = f"Against string {place}: the first differing bit is {where(first, winner.length)}; the winner has {bit} there, the other {1 - bit}"
    if its_cost != cost:
        less = f"{against}. The winner is nearer by {its_cost - cost}, so that this does not count"
        return less + (": taken for a tie, the other would win." if bit else ".")
    white = uplink.whitening(first + 1)[first]
    after = "With whitening removed it is the other way round." if white else "With whitening removed it is the same."
    last_bit = f"At the last differing bit, {last}, the winner has {winner.string[last]}."
    return f"{against}, and 0 wins. {after} {last_bit}"


def last_difference(one, two):
    """The last bit entering the coder where two frames differ."""
    return max(k for k, (a, b) in enumerate(zip(one.string, two.string)) if a != b)


def where(position, length):
    """A bit's position as it entered the coder, counted from 0, and the field it is in."""
    fields = ((8, "header CRC"), (16, "payload CRC"), (24, "PSI"))
    for end, field in fields:
        if position < end:
            return f"{position} ({field})"
    byte, bit = divmod(position - 24, 8)
    return f"{position} (mode)" if byte >= length else f"{position} (message byte {byte}, bit {7 - bit})"
