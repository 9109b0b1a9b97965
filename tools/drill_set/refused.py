"""Each refusal that a capture can show, and which comes first where several would hold."""
from . import hearing, uplink
from .case import fitting, heard, unsearched, with_rivals
from .dice import Dice
from .frames import CHECKS, Frame, apart, at, drawn, laid, with_new_header
from .reception import Reception


def good(name, length=20):
    """A good frame heard clean, to be spoilt."""
    return Reception(drawn(Dice(name), length), lambda: 1)


def told(name, length, rest, what):
    """A first field that tells a length that no frame has, and something behind it: refused 1, whatever that is."""
    return unsearched(name, uplink.field(1, [length]) + rest, f"Length {length}, {what}.", 1)


def lengths():
    rest = good("lengths").capture()[4:]
    yield told("1_length_19_alone", 19, b"", "and nothing behind the first field")
    yield told("1_length_19_rest_of_20", 19, rest, "and the rest is that of a good capture of 20 bytes")
    whole = uplink.field(2, [1] * 23) + b"".join(uplink.field(3, [1] * 24) for _ in range(23))
    yield told("1_length_19_rest_fits", 19, whole, "and the rest is just what 19 bytes would have")
    yield told("1_length_0_and_noise", 0, bytes(range(200)), "and noise behind it")
    yield told("1_length_19_and_8000_bytes", 19, bytes(7996), "and more bytes behind it than any capture has")


def spoilt(name, number, what, length=20, marks=None, values=None):
    """A good capture with other marks, or with values changed; its form is whole."""
    reception = good(name, length)
    for s, mark in (marks or {}).items():
        reception.marks[s] = mark
    if values is not None:
        reception.values = [values(value) for value in reception.values]
    return unsearched(name, reception.capture(), what, number)


def bad_marks():
    yield spoilt("5_first_mark_2", 5, "The first mark is 2.", marks={0: 2})
    yield spoilt("5_last_mark_255", 5, "The last mark is 255.", marks={23: 255})
    yield spoilt("5_mark_128_in_259", 5, "A frame of 255 bytes; mark 257 is 128.", 255, {257: 128})
    marks = {s: 3 if s == 9 else 0 for s in range(24)}
    yield spoilt("5_and_all_others_lost", 5, "One mark is 3, all others are 0: the mark is judged before silence.", marks=marks)
    yield spoilt("5_and_all_zero", 5, "One mark is 2, all values are 0: the mark is judged before silence.", marks={4: 2}, values=lambda value: 0)
    yield spoilt("5_marks_are_characters", 5, "Every mark is the character 1 (49).", marks={s: 49 for s in range(24)})


def silence():
    for length in (20, 255):
        what = f"A frame of {length} bytes: every sub-packet is lost; the whole frame stands in the values."
        yield spoilt(f"6_all_{length + 4}_lost", 6, what, length, {s: 0 for s in range(length + 4)})
    yield spoilt("6_all_zero", 6, "Every sub-packet is heard, and every value is 0.", values=lambda value: 0)
    loud = good("6_heard_ones_zero")
    loud.silence(loud.within({3, 4, 5}))
    loud.lose(set(range(24)) - {3, 4, 5})
    what = "Three sub-packets are heard, with zeros; the values of the others stand there, but they are lost."
    yield unsearched("6_heard_ones_zero", loud.capture(), what, 6)


def clean(name, number, length, positions, what):
    """A frame with wrong bits before coding, heard clean: the string that was sent is the nearest, and fails a check."""
    dice = Dice(name)
    sent = drawn(dice, length)
    bad = sent.flipped(positions(sent))
    assert bad.fault() == number, "another check fails first"
    return heard(name, Reception(bad, lambda: dice.between(1, 127)), [bad], f"A string of {length} bytes heard clean: {what}.")


CLEAN = (
    ("7_header_crc", 7, 20, at(3), "one bit of the header CRC is wrong"),
    ("7_payload_crc_alone", 7, 21, at(13), "one bit of the payload CRC is wrong, which the header CRC covers"),
    ("7_header_crc_and_message", 7, 22, at(6, 90), "header CRC and payload CRC are wrong: the header CRC is judged first"),
    ("8_psi_21", 8, 20, with_new_header(23), "the PSI says 21, and both CRCs are right"),
    ("8_psi_0", 8, 20, with_new_header(19, 21), "the PSI says 0, and both CRCs are right"),
    ("8_psi_127", 8, 255, with_new_header(16), "the PSI says 127, and both CRCs are right"),
    ("8_psi_and_message", 8, 30, with_new_header(22, 100), "PSI and payload CRC are wrong: the PSI is judged first"),
    ("9_message", 9, 20, at(100), "one bit of the message is wrong"),
    ("9_payload_crc", 9, 20, with_new_header(10), "one bit of the payload CRC is wrong, and the header CRC fits it"),
    ("9_message_255", 9, 255, at(2000), "one bit of the message is wrong"),
)


def padded():
    """The published vector of OMS Annex Q, Q.Z.5: 16 bytes filled to 20, so that the PSI says 16."""
    message = bytes.fromhex("02422202A73D7856341215039F07FC0F")
    bits = uplink.payload(message, 1)
    sent = Frame(bits[:-2] + [0] * 32 + bits[-2:])
    assert sent.bits[:24] == uplink.bits_of(24, 0xC1A010), "not as printed"
    what = "The published vector Q.Z.5 heard clean: a message of 16 bytes filled to 20; its PSI says 16."
    return heard("8_annex_q_vector", Reception(sent), [sent], what)


def by_one(number, length, positions, attempt):
    """The nearest string fails a check, and a good frame costs only one more."""
    name = f"{number}_good_frame_one_further_{length}"
    dice = Dice(name, attempt)
    sent = drawn(dice, length)
    bad = sent.flipped(positions(sent))
    assert bad.fault() == number, "another check fails first"
    reception = Reception(bad, lambda: dice.between(60, 127))
    hearing.balance(reception, bad, apart(bad, sent), lambda: dice.between(1, 120), ahead=1)
    what = f"The nearest string of {length} bytes fails its {CHECKS[number]}; a good frame is further away by exactly one."
    return with_rivals(heard(name, reception, [bad], what), reception, bad, sent)


def orders_of_ten():
    """The form is judged before marks and silence, and the first field's before the length."""
    marked = good("10_orders")
    marked.marks[5] = 2
    data = marked.capture()
    yield unsearched("10_bad_mark_and_one_byte_short", data[:-1], "A mark is 2, and the last byte is missing: form is judged first.")
    yield unsearched("10_bad_mark_and_one_byte_more", data + b"\x00", "A mark is 2, and one byte follows the end: form is judged first.")
    what = "The first tag is 02, and the length 19: the first field's form is judged before the length."
    yield unsearched("10_length_19_and_first_tag", bytes([2, 0, 1, 19]) + data[4:], what)
    yield unsearched("10_length_19_in_two_bytes", bytes([1, 0, 2, 0, 19]) + data[4:], "The first field has two bytes, and the length is 19.")


def cases():
    yield from lengths()
    yield from bad_marks()
    yield from silence()
    for given in CLEAN:
        yield clean(*given)
    yield padded()
    for number, length, positions in ((7, 20, at(4)), (8, 24, at(*laid(uplink.UNSEEN, 12))), (9, 99, at(500))):
        yield fitting(by_one, number, length, positions)
    yield from orders_of_ten()
