"""Lost bursts: runs of them, every second, the whole extension, the whole core, and so many that the nearest string is no frame."""
from . import uplink
from .case import fitting, heard, searched
from .dice import Dice
from .frames import Frame, drawn, frame
from .nearest import nearest
from .reception import Reception

STANDS = {
    "noise": "noise stands in them",
    "zeros": "zeros stand in them",
    "loud": "-128 stands in them",
    "against": "what stands in them speaks against the frame",
}


def reception_of(sent, lost, stands, dice):
    """A frame heard clean but for lost sub-packets, in which something stands that does not count."""
    reception = Reception(sent, lambda: dice.between(1, 127))
    if stands == "against":
        reception.turn(reception.within(lost))
    noise = {"noise": lambda: dice.between(-128, 127), "zeros": lambda: 0, "loud": lambda: -128, "against": None}[stands]
    reception.lose(lost, noise)
    return reception


def said(length, what, lost, stands):
    return f"A frame of {length} bytes: {what} ({len(lost)} of {length + 4} sub-packets lost; {STANDS[stands]})"


def comes_back(name, length, lost, what, stands="noise"):
    """What is heard leaves the sent string as the only one at cost 0."""
    dice = Dice(name)
    sent = drawn(dice, length)
    return heard(name, reception_of(sent, lost, stands, dice), [sent], said(length, what, lost, stands) + ".")


def first_of_many(name, length, lost, what):
    """Many strings are at cost 0, and the sent one is the first of them: its message was chosen so. The header is heard whole."""
    dice = Dice(name)
    reception = reception_of(drawn(dice, length), lost, "noise", dice)
    _, bits, count = nearest(reception.heard())
    first = Frame(uplink.whitened(bits))
    sent = frame(first.message, first.mode)
    power = count.bit_length() - 1
    what = f"{said(length, what, lost, 'noise')}. 2 to the {power} strings are equally near; the one that was sent is the first of them."
    return heard(name, reception_of(sent, lost, "noise", dice), [sent], what, 2**power)


def no_frame(name, length, lost, what, number):
    """So much is lost that the first of the strings at cost 0 fails a check."""
    dice = Dice(name)
    reception = reception_of(drawn(dice, length), lost, "noise", dice)
    return searched(name, reception, f"REFUSED {number}", said(length, what, lost, "noise") + ". The nearest string is no frame.")


def wrong_too(name, length, count, wrong, attempt):
    """Lost bursts, and values on the wrong side in those that are heard."""
    dice = Dice(name, attempt)
    sent = drawn(dice, length)
    lost = set(dice.chosen(count, range(length + 4)))
    reception = reception_of(sent, lost, "noise", dice)
    places = reception.within(set(range(length + 4)) - lost)
    reception.turn(dice.chosen(wrong, places))
    return heard(name, reception, [sent], said(length, f"{wrong} of the values that are heard are wrong", lost, "noise") + ".")


def any_of(name, length, count):
    """So many of a frame's sub-packets, in no order."""
    return set(Dice(name, "lost").chosen(count, range(length + 4)))


def runs():
    yield comes_back("one_of_24", 20, {11}, "one is lost", "against")
    yield comes_back("first_8_of_24", 20, set(range(8)), "the first 8 are lost")
    yield comes_back("middle_8_of_24", 20, set(range(8, 16)), "the middle 8 are lost", "against")
    yield comes_back("last_8_of_24", 20, set(range(16, 24)), "the last 8 are lost", "loud")
    yield comes_back("every_second_of_24", 20, set(range(1, 24, 2)), "every second is lost")
    yield comes_back("every_second_of_44", 40, set(range(0, 44, 2)), "every second is lost", "against")
    yield comes_back("every_second_of_259", 255, set(range(0, 259, 2)), "every second is lost")
    yield comes_back("run_of_20_of_64", 60, set(range(10, 30)), "one run is lost, over the end of the core", "against")


def parts():
    for length in (21, 40):
        yield comes_back(f"only_the_core_{length}", length, set(range(24, length + 4)), "only the core is heard", "noise" if length % 2 else "zeros")
    yield comes_back("extension_and_half_the_core_60", 60, set(range(1, 24, 2)), "all of the extension and every second of the core are heard")
    two_thirds = {s for s in range(24) if s % 3}
    yield comes_back("extension_and_a_third_of_the_core_99", 99, two_thirds, "all of the extension and every third of the core are heard", "loud")
    for length, count in ((20, 13), (255, 140)):
        name = f"any_{count}_of_{length + 4}"
        yield comes_back(name, length, any_of(name, length, count), "no order is in what is lost")
    yield fitting(wrong_too, "any_6_of_24_and_10_wrong", 20, 6, 10)
    yield fitting(wrong_too, "any_50_of_132_and_30_wrong", 128, 50, 30)


def ties():
    for length in (60, 255):
        yield first_of_many(f"first_of_many_only_the_core_{length}", length, set(range(24, length + 4)), "only the core is heard")
    yield first_of_many("first_of_many_run_of_40_of_132", 128, set(range(70, 110)), "one run of the extension is lost")


def refusals():
    for length in (21, 255):
        what = "only the extension is heard, so that nothing tells the first 74 bits"
        yield no_frame(f"only_the_extension_{length}", length, set(range(24)), what, 7)
    for length, heard_one in ((20, 5), (99, 50)):
        yield no_frame(f"only_one_of_{length + 4}", length, set(range(length + 4)) - {heard_one}, "one alone is heard", 7)
    for length in (60, 255):
        yield no_frame(f"only_the_core_{length}", length, set(range(24, length + 4)), "only the core is heard", 9)
    yield no_frame("run_of_40_of_132", 128, set(range(70, 110)), "one run of the extension is lost", 9)
    yield no_frame("any_19_of_24", 20, any_of("any_19_of_24", 20, 19), "no order is in what is lost", 7)


def cases():
    yield from runs()
    yield from parts()
    yield from ties()
    yield from refusals()
